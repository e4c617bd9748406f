// A pool with several locks, for `taskenv arrange` to judge: no lock guards all, and each thread has a list of its own of what it saw.
// docs/judging.md tells how to do the same with another pool.
//
//   g++ -std=c++17 -pthread split_pool.cpp -o split_pool
//   ./split_pool [BUG] < SCRIPT > EVENTS
//
// BUG is a word of `split_bugs` in bug.h. Status 2: bad words. Status 3: the script is none. Status 5: the events could not be written.
//
// This file has the threads, and what they do outside of the locks. split_pool.h has what happens under them, split_parts.h the parts of
// that, and seen.h what is written of it. script.h reads the script. groups.h, jobs.h, delays.h and main_queues.h are those of
// own_pool.cpp, each under locks of its own.
#include "split_pool.h"

#include <iostream>

class Play {
    const Script script;
    SplitPool pool;
    std::vector<Seat> seats;

    // Runs the steps of a task, with no lock, for they are the user's code. What acts on the pool locks what it needs.
    Value run(Seat& seat, const Body& body, Value value, const Taken* taken) {
        SplitPool::take_time();
        for (const Step& step : body) {
            if (step.word == "add" || step.word == "mul" || step.word == "set") {
                value = after(step, value);
                continue;
            }
            if (step.word == "post") pool.post(seat, step.first, step.second, step.third);
            if (step.word == "main") pool.post_main(seat, step.first, step.second, step.third);
            if (step.word == "block") pool.open_scope(seat, *taken, step.mode);
            if (step.word == "unblock") pool.close_scope(seat, *taken);
            SplitPool::take_time();
        }
        return value;
    }
    // Ends item after item, until it has to leave the job.
    void run_items(Seat& seat, Held held) {
        while (pool.end_item(seat, held, run(seat, script.jobs[held.job].body, held.claim.item, nullptr))) continue;
    }
    void work(Seat& seat) {
        for (;;) {
            const unsigned long heard = pool.bell.heard();
            auto work = pool.take(seat);
            if (const auto* taken = std::get_if<Taken>(&work))
                pool.end(seat, *taken, run(seat, script.tasks[taken->task], taken->found, taken));
            else if (auto* held = std::get_if<Held>(&work)) run_items(seat, *held);
            else if (pool.is_finished()) return;
            else pool.bell.wait(heard);
        }
    }

    // The actions of the driver, which is seat 0.
    void pump(Seat& seat, Value count) {
        for (; count > 0; count--) {
            const std::optional<TakenMain> taken = pool.take_main(seat);
            if (!taken) return;
            // What the task does is not the last entry, also where the pump is the last action.
            const bool is_at_last_entry = std::exchange(seat.is_at_last_entry, false);
            const Value left = run(seat, script.tasks[taken->task], taken->found, nullptr);
            seat.is_at_last_entry = is_at_last_entry;
            pool.end_main(seat, *taken, left, count == 1);
        }
    }
    template <class Test> void wait_until(const Test& test) {
        for (;;) {
            const unsigned long heard = pool.bell.heard();
            if (test()) return;
            pool.bell.wait(heard);
        }
    }
    void join(Seat& seat, unsigned job) {
        wait_until([&] {
            while (!pool.joined(seat, job)) {
                const std::optional<Held> held = pool.help(seat, job);
                if (!held) return false;
                run_items(seat, *held);
            }
            return true;
        });
    }
    void perform(Seat& seat, const Step& action) {
        const auto& [word, first, second, third, mode] = action;
        if (word == "post") pool.post(seat, first, second, third);
        else if (word == "main") pool.post_main(seat, first, second, third);
        else if (word == "pump") pump(seat, first);
        else if (word == "startjob") pool.start_job(seat, first);
        else if (word == "join") join(seat, first);
        else if (word == "cancel") pool.cancel(seat, first), wait_until([&, job = first] { return pool.cancelled(seat, job); });
        else if (word == "flush") wait_until([&] { return pool.idle(seat); });
        else if (word == "policy") pool.set_policy(seat, mode);
        else if (word == "reprio") pool.set_priority(seat, first, mode);
        else if (word == "tick") for (Value left = first; left > 0; left--) pool.tick(seat, left == 1);
        else if (word == "shutdown") pool.start_shutdown(seat), wait_until([&] { return pool.end_shutdown(seat); });
        else pool.set_queue(seat, action);
    }

public:
    Play(const Script& script, Bug bug) : script(script), pool(this->script, bug) {
        for (unsigned seat = 0; seat <= script.workers; seat++) seats.push_back({seat});
    }

    // Runs the script, and writes what was seen, thread by thread.
    void play() {
        std::vector<std::thread> threads;
        for (unsigned seat = 1; seat <= script.workers; seat++) threads.emplace_back(&Play::work, this, std::ref(seats[seat]));
        for (std::size_t next = 0; next < script.actions.size(); next++) {
            seats[0].is_at_last_entry = next + 1 == script.actions.size();
            perform(seats[0], script.actions[next]);
            SplitPool::take_time();
        }
        for (std::thread& thread : threads) thread.join();
        for (const Seat& seat : seats) seat.seen.write(std::cout);
    }
};

int main(int count, char** words) {
    const std::string word = count > 1 ? words[1] : "";
    if (count > 2 || (!word.empty() && split_bugs.count(word) == 0)) {
        std::cerr << "split_pool: bad words: one at most is wanted, and one of these:";
        for (const auto& [known, bug] : split_bugs) std::cerr << ' ' << known;
        return std::cerr << '\n', 2;
    }
    try {
        Play(ScriptReader::read(std::cin), word.empty() ? Bug::none : split_bugs.at(word)).play();
    } catch (const BadScript& bad) {
        return std::cerr << "split_pool: bad script: " << bad.what() << '\n', 3;
    }
    return std::cout.flush() ? 0 : 5;
}
