// A pool of another library, for `taskenv arrange` to judge: Asio's thread_pool, with a strand for each sequenced runner. Nothing of
// Asio is changed: what its threads see is noted around each post, and at the first and the last line of each task. docs/judging.md
// tells what came of it.
//
//   g++ -std=c++20 -pthread asio_pool.cpp -o asio_pool
//   ./asio_pool < SCRIPT > EVENTS
//
// It needs the headers of Asio, or of Boost.Asio: on Debian those of libasio-dev or libboost-dev. Status 2: there are words. Status 3:
// the script is none, or asks for what Asio doesn't have. Status 5: the events could not be written.
//
// `Seat` has what is noted, `need_what_asio_has` what is refused, and `Play` what is run. script.h reads the script, and seen.h writes
// the events.
#include "script.h"
#include "seen.h"

#if __has_include(<asio/thread_pool.hpp>)
#include <asio/post.hpp>
#include <asio/strand.hpp>
#include <asio/thread_pool.hpp>
#elif __has_include(<boost/asio/thread_pool.hpp>)
#include <boost/asio/post.hpp>
#include <boost/asio/strand.hpp>
#include <boost/asio/thread_pool.hpp>
namespace asio = boost::asio;
#else
#error "Asio is missing: its headers are in libasio-dev or libboost-dev"
#endif

#include <algorithm>
#include <atomic>
#include <iostream>
#include <latch>
#include <memory>
#include <thread>
#include <utility>

// A thread of the pool, or the driver, which is seat 0, with what it saw. Between two tasks of a thread Asio's own code runs, which
// lets go of the strand of the first one, and takes the second one: so both the end and the take lie between the last line of the one
// and the first line of the other.
class Seat {
    const unsigned number;
    Seen seen;
    Nanoseconds since = 0;  // when its last task was at its last line
    std::string ended;      // the end of that task, until it is known to be over

public:
    explicit Seat(unsigned number) : number(number) {}

    template <class... Parts> void note(Nanoseconds from, const Parts&... parts) {
        const Nanoseconds to = time_now();
        seen.add(from, to, event_line(number, parts...));
    }
    void take(unsigned task, unsigned runner, Value found) {
        const Nanoseconds from = since;
        is_out();
        note(from, "take", task, runner, found);
    }
    void end(unsigned task, Value left) {
        since = time_now();
        ended = event_line(number, "end", task, left);
    }
    // The thread is out of its last task, and of that task's strand.
    void is_out() {
        const Nanoseconds to = time_now();
        if (!ended.empty()) seen.add(since, to, std::exchange(ended, {}));
        since = to;
    }
    void write(std::ostream& output) const { seen.write(output); }
};

// What Asio doesn't have, or can't be told to do, is refused.
void need(bool holds, const std::string& why) {
    if (!holds) throw BadScript(why);
}
void need_traits(const Script& script) {
    need(script.queues.empty() && script.jobs.empty(), "Asio's pool has no main queues and no jobs");
    unsigned limit = script.foreground_limit;
    for (const Runner& runner : script.runners) {
        need(runner.only_seat == 0, "no thread of Asio's pool has a runner of its own");
        need(runner.priority == script.runners[0].priority, "Asio's pool has one priority");
        if (runner.priority == best_effort) limit = script.background_limit > 0 ? script.background_limit : script.best_effort_limit;
    }
    need(script.workers <= limit, "Asio's pool has no limit but the number of its threads: more workers than the group's limit");
}
void need_step(const Step& step) {
    need(step.word != "main" && step.word != "block" && step.word != "unblock", "Asio's pool has no " + step.word);
    need(step.word != "post" || step.third == 0, "Asio's timers wait for no tick: a delay");
}
void need_action(const Step& action, bool is_last) {
    need_step(action);
    need(action.word == "post" || action.word == "flush" || action.word == "shutdown", "Asio's pool has no " + action.word);
    need(!is_last || action.word != "post", "Asio's pool goes on where a script is over: no flush or shutdown at the end");
    need(is_last || action.word != "shutdown", "Asio's pool is over once it was joined: an action after shutdown");
}
// Asio has two ways to shut down: stop, where nothing starts any more, and join alone, where all is done. It refuses no post.
void need_shutdown(const Script& script) {
    for (const Runner& runner : script.runners) {
        need(runner.behaviour != continues, "Asio's pool waits for each task that runs: a runner of continue");
        need(runner.behaviour == script.runners[0].behaviour, "Asio's pool stops for all or for none: runners of skip and of block");
    }
    for (const Body& body : script.tasks)
        for (const Step& step : body)
            need(step.word != "post" || script.runners[0].behaviour == blocks, "Asio's pool refuses no post: a task that posts, and skip");
}
void need_what_asio_has(const Script& script) {
    need_traits(script);
    for (const Body& body : script.tasks) std::for_each(body.begin(), body.end(), need_step);
    for (const Step& action : script.actions) {
        need_action(action, &action == &script.actions.back());
        if (action.word == "shutdown") need_shutdown(script);
    }
}

class Play {
    const Script script;
    std::vector<Value> cells;  // of the runners: each strand guards its own
    std::vector<Seat> seats;
    std::atomic<unsigned> next_seat{1}, open_tasks{0};
    asio::thread_pool pool;
    std::vector<asio::strand<asio::thread_pool::executor_type>> strands;  // of the runners, though a parallel one needs none

    // The seat of the thread of the pool that calls.
    Seat& own_seat() {
        thread_local Seat* const seat = &seats[next_seat++];
        return *seat;
    }
    // Makes each step last a while. Else a script is posted before a thread is awake, and all runs are alike.
    static void take_time() { std::this_thread::sleep_for(std::chrono::microseconds(50)); }

    void post(Seat& seat, unsigned task, unsigned runner) {
        open_tasks++;
        const auto run_it = [this, task, runner] { run(task, runner); };
        const Nanoseconds from = time_now();
        script.runners[runner].is_parallel ? asio::post(pool, run_it) : asio::post(strands[runner], run_it);
        seat.note(from, "post", task, runner, 0, "ok");
    }
    void run(unsigned task, unsigned runner) {
        Seat& seat = own_seat();
        Value fresh = 0;
        Value& cell = script.runners[runner].is_parallel ? fresh : cells[runner];
        seat.take(task, runner, cell);
        for (const Step& step : script.tasks[task]) {
            if (step.word == "post") post(seat, step.first, step.second);
            else cell = after(step, cell);
            take_time();
        }
        seat.end(task, cell);
        if (--open_tasks == 0) open_tasks.notify_all();
    }
    // Waits until nothing of the pool runs. After its last line a task is in its strand for a while still: so each thread has one more
    // task, which goes on once all threads are in theirs, and out of the others.
    void flush() {
        while (const unsigned left = open_tasks) open_tasks.wait(left);
        const auto all = std::make_shared<std::latch>(script.workers + 1);
        const auto meet = [this, all] { own_seat().is_out(), all->arrive_and_wait(); };
        for (unsigned worker = 0; worker < script.workers; worker++) asio::post(pool, meet);
        all->arrive_and_wait();
        seats[0].note(time_now(), "idle");
    }
    // All that was posted runs, or else nothing more starts, and what runs is waited for.
    void shutdown() {
        const Nanoseconds from = time_now();
        if (!script.runners.empty() && script.runners[0].behaviour == skips) pool.stop();
        seats[0].note(from, "shutdown");
        pool.join();
        seats[0].note(time_now(), "done");
    }

public:
    explicit Play(const Script& script) : script(script), cells(script.runners.size()), pool(script.workers) {
        for (unsigned seat = 0; seat <= script.workers; seat++) seats.emplace_back(seat);
        while (strands.size() < script.runners.size()) strands.push_back(asio::make_strand(pool));
    }
    // Runs the script, and writes what was seen, thread by thread.
    void play() {
        for (const Step& action : script.actions) {
            if (action.word == "post") post(seats[0], action.first, action.second), take_time();
            else action.word == "flush" ? flush() : shutdown();
        }
        pool.join();
        for (Seat& seat : seats) seat.is_out(), seat.write(std::cout);
    }
};

int main(int count, char**) {
    if (count > 1) return std::cerr << "asio_pool: bad words: none is wanted\n", 2;
    try {
        const Script script = ScriptReader::read(std::cin);
        need_what_asio_has(script);
        Play(script).play();
    } catch (const BadScript& bad) {
        return std::cerr << "asio_pool: " << bad.what() << '\n', 3;
    }
    return std::cout.flush() ? 0 : 5;
}
