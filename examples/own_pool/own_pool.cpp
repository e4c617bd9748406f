// A pool that is none of taskenv's, for `taskenv check` to judge: it runs a script on threads under one mutex, and writes its log.
// docs/judging.md tells how to do the same with another pool.
//
//   g++ -std=c++17 -pthread own_pool.cpp -o own_pool
//   ./own_pool [BUG] < SCRIPT > LOG
//
// BUG is a word of bug.h. Status 2: bad words. Status 3: the script is none. Status 5: the log could not be written.
//
// This file has the threads, and what they do outside of the lock. pool.h has what happens under it; sources.h, groups.h, delays.h,
// jobs.h and main_queues.h are its parts. log.h writes the lines, script.h reads the script, and scripts/ has some to try.
#include "pool.h"

#include <iterator>
#include <thread>

using Lock = std::unique_lock<std::mutex>;

// Makes what is done outside of the lock last a while. Else a script is posted before a worker is awake, and all runs are alike.
void take_time() { std::this_thread::sleep_for(std::chrono::microseconds(50)); }

class Play {
    const Script script;
    const Bug bug;
    Pool pool;
    bool is_finished = false;  // by the pool's mutex, too

    void let_others_in(Lock& lock) {
        lock.unlock();
        take_time();
        lock.lock();
    }

    // Runs the steps of a task or an item outside of the lock, for they are the user's code. What acts on the pool takes it.
    Value run(unsigned seat, unsigned task, const Body& body, Value value, Lock& lock) {
        let_others_in(lock);
        for (const Step& step : body) {
            if (step.word == "add" || step.word == "mul" || step.word == "set") {
                value = after(step, value);
            } else {
                pool.act(seat, task, step);
                let_others_in(lock);
            }
        }
        return value;
    }

    // Takes the first task of a sequence, on the value that the one before it left, and hands on what it leaves.
    void run_task(unsigned seat, Sequence& sequence, Lock& lock) {
        const Taken taken = pool.take(seat, sequence);
        const Value left = run(seat, taken.task, script.tasks[taken.task], taken.found, lock);
        pool.release(sequence, left);
        if (bug == Bug::ends_late) let_others_in(lock);
        pool.end(seat, taken, left);
    }
    // Goes into the job, and ends item after item until it has to leave.
    void run_items(unsigned seat, unsigned job, Lock& lock) {
        Claim claim = pool.enter_job(seat, job);
        while (pool.end_item(seat, job, claim, run(seat, 0, script.jobs[job].body, claim.item, lock))) continue;
    }
    void work(unsigned seat) {
        Lock lock(pool.mutex);
        while (!is_finished) {
            const std::optional<Source> source = pool.best(seat);
            if (!source) pool.changed.wait(lock);
            else if (source->sequence) run_task(seat, *source->sequence, lock);
            else run_items(seat, source->job, lock);
        }
    }

    // The actions of the driver, which is seat 0.
    void pump(unsigned count, Lock& lock) {
        for (; count > 0; count--) {
            const std::optional<TakenMain> taken = pool.take_main();
            if (!taken) return;
            pool.end_main(*taken, run(0, taken->task, script.tasks[taken->task], taken->found, lock));
        }
    }
    void join(unsigned job, Lock& lock) {
        while (!pool.reply(job)) {
            if (pool.may_enter(job)) run_items(0, job, lock);
            else pool.changed.wait(lock);
        }
        pool.joined(job);
    }
    void cancel(unsigned job, Lock& lock) {
        pool.cancel(job);
        pool.changed.wait(lock, [&] { return pool.is_empty(job); });
        pool.cancelled(job);
    }
    void flush(Lock& lock) {
        pool.changed.wait(lock, [&] { return pool.is_idle(); });
        pool.idle();
    }
    void shut_down(Lock& lock) {
        pool.start_shutdown();
        pool.changed.wait(lock, [&] { return pool.blockers() == 0; });
        pool.end_shutdown();
    }
    void tick(Value count, Lock& lock) {
        for (; count > 0; count--) {
            pool.tick();
            if (count > 1) lock.unlock(), lock.lock();
        }
    }
    void perform(const Step& action, Lock& lock) {
        const std::string& word = action.word;
        if (word == "post" || word == "main") pool.act(0, 0, action);
        else if (word == "startjob") pool.start_job(action.first);
        else if (word == "pump") pump(action.first, lock);
        else if (word == "join") join(action.first, lock);
        else if (word == "cancel") cancel(action.first, lock);
        else if (word == "flush") flush(lock);
        else if (word == "shutdown") shut_down(lock);
        else if (word == "tick") tick(action.first, lock);
        else pool.set(action);
    }

public:
    Play(const Script& script, Bug bug) : script(script), bug(bug), pool(this->script, bug) {}

    // Runs the script. Once its last action is done nothing may be taken: both are said under one lock.
    void play() {
        std::vector<std::thread> threads;
        for (unsigned seat = 1; seat <= script.workers; seat++) threads.emplace_back(&Play::work, this, seat);
        for (std::size_t next = 0; !is_finished; next++) {
            Lock lock(pool.mutex);
            if (next < script.actions.size()) perform(script.actions[next], lock);
            is_finished = next + 1 >= script.actions.size();
            pool.changed.notify_all();
            lock.unlock();
            take_time();
        }
        for (std::thread& thread : threads) thread.join();
        pool.total();
    }
};

int main(int count, char** words) {
    const std::string word = count > 1 ? words[1] : "";
    if (count > 2 || (!word.empty() && bugs.count(word) == 0)) {
        std::cerr << "own_pool: bad words: one at most is wanted, and one of these:";
        for (const auto& [known, bug] : bugs) std::cerr << ' ' << known;
        return std::cerr << '\n', 2;
    }
    try {
        Play(ScriptReader::read(std::cin), word.empty() ? Bug::none : bugs.at(word)).play();
    } catch (const BadScript& bad) {
        return std::cerr << "own_pool: bad script: " << bad.what() << '\n', 3;
    }
    return std::cout ? 0 : 5;
}
