// Reads the scripts of docs/formats.md, for a pool that plays them. A line of other words or numbers is refused, by a BadScript that
// says why. That a task is posted once, that a scope is closed, and the like, is trusted: `taskenv lint` looks at that too.
#pragma once
#include <charconv>
#include <cstdint>
#include <istream>
#include <map>
#include <sstream>
#include <stdexcept>
#include <string>
#include <vector>

using Value = std::uint64_t;
enum Priority { best_effort, user_visible, user_blocking };
enum Behaviour { continues, skips, blocks };  // at shutdown

// A step of a task or an item, or an action of the driver, as it stands in the script: a word, its numbers, and a word among them.
struct Step {
    std::string word;
    Value first = 0, second = 0, third = 0;
    std::string mode = {};
};
using Body = std::vector<Step>;

// What a computing step makes of a value.
inline Value after(const Step& step, Value value) {
    return step.word == "add" ? value + step.first : step.word == "mul" ? value * step.first : step.first;
}

struct Runner {
    bool is_parallel;
    unsigned only_seat;  // of a single-thread runner, else 0
    Priority priority;
    Behaviour behaviour;
};
struct QueueTraits { unsigned rank, voters; };
struct JobTraits {
    Priority priority;
    Behaviour behaviour;
    unsigned items, cap;
    Body body;
};

struct Script {
    unsigned workers = 2, foreground_limit = 4, best_effort_limit = 2, background_limit = 0;
    Value threshold = 1000000;
    std::vector<Runner> runners;
    std::vector<QueueTraits> queues;
    std::vector<Body> tasks;
    std::vector<JobTraits> jobs;
    std::vector<Step> actions;
};

struct BadScript : std::runtime_error { using std::runtime_error::runtime_error; };

inline const std::map<std::string, Priority> priorities{
    {"best_effort", best_effort}, {"user_visible", user_visible}, {"user_blocking", user_blocking}};
inline const std::map<std::string, Behaviour> behaviours{{"continue", continues}, {"skip", skips}, {"block", blocks}};

// The words of a line, one after the other.
class Words {
    std::istringstream text;

public:
    explicit Words(const std::string& line) : text(line) {}

    bool are_over() { return (text >> std::ws).eof(); }
    std::string next() {
        std::string word;
        if (!(text >> word)) throw BadScript("a word is missing");
        return word;
    }
    // A number from one bound to another.
    static Value number_of(const std::string& word, Value least, Value most) {
        Value number = 0;
        const auto [end, error] = std::from_chars(word.data(), word.data() + word.size(), number);
        if (error != std::errc() || end != word.data() + word.size()) throw BadScript("\"" + word + "\" is no number");
        if (number < least || number > most) throw BadScript(word + " is out of range");
        return number;
    }
    Value number(Value least, Value most) { return number_of(next(), least, most); }
    Value number(Value most = UINT64_MAX) { return number(0, most); }
    // The number of a declaration, of so many.
    Value id(std::size_t count) {
        const Value id = number();
        if (id >= count) throw BadScript(std::to_string(id) + " was not declared");
        return id;
    }
    // The number that a declaration has to have, where there are so many before it.
    void new_id(std::size_t count) {
        if (number() != count) throw BadScript("the number should be " + std::to_string(count));
    }
    // One of some words, and what it stands for.
    template <class Meaning> Meaning meaning(const std::map<std::string, Meaning>& known) { return known.at(one_of(known)); }
    template <class Meaning> std::string one_of(const std::map<std::string, Meaning>& known) {
        const std::string word = next();
        if (known.count(word) == 0) throw BadScript("\"" + word + "\" is not known here");
        return word;
    }
};

// Reads a script line by line.
class ScriptReader {
    Script script;
    static constexpr Value most_microseconds = 1000000000000;

    // `post T R D` or `main T Q D`, as a step or an action.
    Step read_post(const std::string& word, Words& words) {
        Step step{word, words.id(script.tasks.size()), 0, 0};
        step.second = words.id(word == "post" ? script.runners.size() : script.queues.size());
        step.third = words.number(most_microseconds);
        return step;
    }
    Step read_step(Words& words) {
        const std::string word = words.next();
        if (word == "add" || word == "mul" || word == "set") return {word, words.number()};
        if (word == "post" || word == "main") return read_post(word, words);
        if (word == "block") return {word, 0, 0, 0, words.one_of<bool>({{"may", false}, {"will", true}})};
        if (word == "unblock") return {word};
        throw BadScript("\"" + word + "\" is no step");
    }
    Body read_body(Words& words) {
        Body body;
        while (!words.are_over()) {
            if (!body.empty() && words.next() != ";") throw BadScript("\";\" is missing between two steps");
            body.push_back(read_step(words));
        }
        return body;
    }
    Runner read_runner(Words& words) {
        Runner runner{};
        const std::string kind = words.next();
        if (kind.rfind("single:", 0) == 0) runner.only_seat = Words::number_of(kind.substr(7), 1, script.workers);
        else if (kind == "parallel") runner.is_parallel = true;
        else if (kind != "sequenced") throw BadScript("\"" + kind + "\" is no kind of runner");
        runner.priority = words.meaning(priorities);
        runner.behaviour = words.meaning(behaviours);
        if (!words.are_over()) words.one_of<bool>({{"mayblock", true}});
        return runner;
    }
    JobTraits read_job(Words& words) {
        JobTraits job{words.meaning(priorities), words.meaning(behaviours), 0, 0, {}};
        job.items = words.number(65536);
        job.cap = words.number(1, 64);
        job.body = read_body(words);
        return job;
    }
    void read_groups(Words& words) {
        script.foreground_limit = words.number(1, 64);
        script.best_effort_limit = words.number(1, script.foreground_limit);
        script.background_limit = words.number(64);
    }
    // Whether the line declares something, which it then does.
    bool declares(const std::string& word, Words& words) {
        if (word == "workers") script.workers = words.number(1, 64);
        else if (word == "groups") read_groups(words);
        else if (word == "threshold") script.threshold = words.number(most_microseconds);
        else if (word == "runner") words.new_id(script.runners.size()), script.runners.push_back(read_runner(words));
        else if (word == "queue") {
            words.new_id(script.queues.size());
            script.queues.push_back({0, 0});
            script.queues.back().rank = words.number(7);
            script.queues.back().voters = words.number(16);
        } else if (word == "task") words.new_id(script.tasks.size()), script.tasks.push_back(read_body(words));
        else if (word == "job") words.new_id(script.jobs.size()), script.jobs.push_back(read_job(words));
        else return false;
        return true;
    }
    Step read_vote(Words& words) {
        Step step{"vote", words.id(script.queues.size())};
        step.second = words.id(script.queues[step.first].voters);
        step.mode = words.one_of<bool>({{"on", true}, {"off", false}});
        return step;
    }
    Step read_action(const std::string& word, Words& words) {
        if (word == "post" || word == "main") return read_post(word, words);
        if (word == "tick") return {word, words.number(1, 65536)};
        if (word == "policy") return {word, 0, 0, 0, words.one_of<int>({{"all", 0}, {"foreground", 0}, {"none", 0}})};
        if (word == "vote") return read_vote(words);
        if (word == "pump") return {word, words.number(1, 16384)};
        if (word == "flush" || word == "shutdown") return {word};
        if (word == "startjob" || word == "join" || word == "cancel") return {word, words.id(script.jobs.size())};
        Step step{word};
        if (word == "reprio") {
            step.first = words.id(script.runners.size());
            step.mode = words.one_of(priorities);
        } else if (word == "fence" || word == "unfence" || word == "rank" || word == "close") {
            step.first = words.id(script.queues.size());
            if (word == "fence") step.mode = words.one_of<bool>({{"now", true}, {"start", false}});
            if (word == "rank") step.second = words.number(7);
        } else throw BadScript("\"" + word + "\" is no command");
        return step;
    }

public:
    void read_line(const std::string& line) {
        Words words(line);
        if (words.are_over()) return;
        const std::string word = words.next();
        if (word[0] == '#') return;
        if (!declares(word, words)) script.actions.push_back(read_action(word, words));
        if (!words.are_over()) throw BadScript("too many words");
    }
    static Script read(std::istream& input) {
        ScriptReader reader;
        std::size_t number = 0;
        for (std::string line; std::getline(input, line);) {
            number++;
            try {
                reader.read_line(line);
            } catch (const BadScript& bad) {
                throw BadScript("line " + std::to_string(number) + ": " + bad.what());
            }
        }
        return reader.script;
    }
};
