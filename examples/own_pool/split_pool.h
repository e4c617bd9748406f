// A pool with several locks, and no moment at which one of them guards all. Each call here is one event, and takes the locks that it
// needs, in this order:
//
//   settings      everybody reads them; the driver alone changes them: the policy, priorities, the moment, the phase of shutdown
//   a sequence's  its tasks, and the value that they hand on
//   a group's     which sequences wait for the group, its jobs, and who is at work in it; the foreground group's lock before the other's
//   the delayed tasks', and that of the main queues, each alone
#pragma once
#include "delays.h"
#include "main_queues.h"
#include "split_parts.h"

#include <atomic>
#include <shared_mutex>
#include <thread>

enum Phase { running, started, over };  // of shutdown

class SplitPool {
    const Script& script;
    const Bug bug;
    std::shared_mutex settings;
    Value now = 0;  // the moment of the last tick, in microseconds
    Phase phase = running;
    std::string policy = "all";
    std::vector<Priority> priorities_of_runners;
    bool is_over = false;
    std::deque<Sequence> sequences;  // of the runners, and then of the tasks
    std::deque<Group> groups;        // the foreground group, and the background group
    std::vector<Job> jobs;           // each under the lock of its group
    std::mutex delays_mutex, queues_mutex;
    Delays delays{Bug::none};
    MainQueues queues;
    std::atomic<Ticket> next_ticket{0};
    std::atomic<unsigned> open_block_tasks{0}, running_skip_tasks{0};

    // One event of a seat. It is made before any lock is taken, and gone after all were let go, so the event lies between its times.
    // It holds the settings: alone where all others have to stand still, as for the last entry, after which nothing may be taken.
    class Event {
        SplitPool& pool;
        Seat& seat;
        const bool is_alone;
        const Nanoseconds from = time_now();
        std::string line;
        bool is_last = false;

    public:
        Event(SplitPool& pool, Seat& seat, bool is_alone = false)
            : pool(pool), seat(seat), is_alone(is_alone || seat.is_at_last_entry) {
            this->is_alone ? pool.settings.lock() : pool.settings.lock_shared();
        }
        ~Event() {
            if (is_last) pool.is_over = true;
            is_alone ? pool.settings.unlock() : pool.settings.unlock_shared();
            if (line.empty()) return;
            seat.seen.add(from, time_now(), line);
            pool.bell.ring();
        }
        // It happened. After an action's last entry, where that is the script's last one, all is over.
        template <class... Parts> void is(const Parts&... parts) {
            line = event_line(seat.number, parts...);
            is_last = seat.is_at_last_entry;
        }
        // It happened, and the action goes on.
        template <class... Parts> void is_part(const Parts&... parts) { line = event_line(seat.number, parts...); }
    };
    using Locks = std::vector<std::unique_lock<std::mutex>>;

    // What the settings say. Whoever asks holds them.
    bool forbids(Behaviour behaviour) const { return phase == over || (phase == started && behaviour != blocks); }
    // Shutdown does not wait for time to pass: a block task with a delay is a skip task.
    Behaviour behaviour_of(unsigned runner, Value delay) const {
        const Behaviour behaviour = script.runners[runner].behaviour;
        return behaviour == blocks && delay > 0 ? skips : behaviour;
    }
    // From the start of shutdown on no policy has an effect.
    bool is_held(Priority priority) const {
        return phase == running && (policy == "none" || (policy == "foreground" && priority == best_effort));
    }
    Group& group_of(Priority priority) { return groups[priority == best_effort && script.background_limit > 0]; }

    // The groups of two priorities, in the order of all who lock them.
    Locks lock_groups(Priority one, Priority other) {
        Locks locks;
        for (Group& group : groups)
            if (&group == &group_of(one) || &group == &group_of(other)) locks.emplace_back(group.mutex);
        return locks;
    }
    // Puts a sequence that has tasks, and of which none runs, among those that wait. Its lock and its group's are held.
    void wait(Sequence& sequence) {
        const Priority priority = priorities_of_runners[sequence.runner];
        group_of(priority).waiting.insert({&sequence, priority, script.runners[sequence.runner].only_seat, sequence.tasks.front()});
    }
    // A task is ready. Where others of its sequence come first, nobody but those who lock the sequence sees it for now.
    void make_ready(unsigned task, unsigned runner, Behaviour behaviour) {
        const bool is_parallel = script.runners[runner].is_parallel;
        Sequence& sequence = sequences[is_parallel ? script.runners.size() + task : runner];
        const std::lock_guard own(sequence.mutex);
        if (is_parallel) sequence.runner = runner;
        if (!sequence.tasks.empty()) return sequence.tasks.push_back({next_ticket++, task, behaviour});
        const Priority priority = priorities_of_runners[runner];
        const Locks locks = lock_groups(priority, priority);
        sequence.tasks.push_back({next_ticket++, task, behaviour});
        wait(sequence);
    }
    void make_wait(const Delayed& delayed) {
        const std::lock_guard lock(delays_mutex);
        delays.add(delayed);
    }
    // The first task of the sequence is over, and what it left is handed on. Its lock and its group's are held.
    void hand_on(Sequence& sequence, Value left) {
        auto& tasks = sequence.tasks;
        tasks.pop_front();
        if (bug == Bug::last_in_first_out && !tasks.empty()) std::rotate(tasks.begin(), std::prev(tasks.end()), tasks.end());
        if (bug != Bug::loses_state) sequence.cell = left;
        sequence.runs = false;
        if (!tasks.empty()) wait(sequence);
    }
    // The bug ends-late: the sequence is free, and the end is not there yet.
    void hand_on_early(const Taken& taken, Value left) {
        {
            const std::shared_lock all(settings);
            const std::lock_guard own(taken.sequence->mutex);
            const Priority priority = priorities_of_runners[taken.runner];
            const Locks locks = lock_groups(priority, priority);
            hand_on(*taken.sequence, left);
        }
        bell.ring();
        take_time();
    }
    Locks lock_job(unsigned job) { return lock_groups(jobs[job].traits.priority, jobs[job].traits.priority); }
    bool may_enter(const Job& job) const { return job.has_space() && !forbids(job.traits.behaviour); }

    // Of what waits for a group and passes a test, by its priority and the only seat that may take it, what goes first.
    template <class Test> std::optional<Best> first(Group& group, const Test& passes) {
        std::optional<Best> best;
        Rank least;
        const auto at = std::find_if(group.waiting.begin(), group.waiting.end(), [&](const Waiting& it) {
            return !is_held(it.priority) && passes(it.priority, it.only_seat);
        });
        if (at != group.waiting.end()) best = Best{&*at, 0}, least = at->rank();
        for (unsigned number = 0; number < jobs.size(); number++) {
            const Job& job = jobs[number];
            const Priority priority = job.traits.priority;
            if (&group != &group_of(priority) || is_held(priority) || !may_enter(job) || !passes(priority, 0)) continue;
            const Rank rank{-priority, job.inside.size(), *job.place};
            if (!best || rank < least) best = Best{nullptr, number}, least = rank;
        }
        return best;
    }
    // What a seat may take of a group now.
    std::optional<Best> best(Group& group, unsigned seat) {
        return first(group, [&](Priority priority, unsigned only_seat) {
            return (only_seat == 0 || only_seat == seat) && group.at_work.has_room(priority, now);
        });
    }
    // Whether a worker leaves a job of this priority: its group is full, and work of the group waits that matters more.
    bool makes_way(Priority mine) {
        Group& group = group_of(mine);
        const auto matters_more = [&](Priority priority, unsigned only_seat) { return priority > mine && only_seat == 0; };
        return group.at_work.is_group_full(mine, now) && first(group, matters_more);
    }
    Taken take_task(Group& group, const Waiting& waiting, unsigned seat) {
        const Waiting it = waiting;
        group.waiting.erase(waiting);
        group.at_work.begin(seat, it.priority);
        it.sequence->runs = true;
        if (it.first.behaviour == skips) running_skip_tasks++;
        return {it.sequence, it.first.task, it.sequence->runner, it.sequence->cell, it.first.behaviour, it.priority};
    }
    // Goes into a job, whose group is locked.
    Held enter(Event& event, const Seat& seat, unsigned job) {
        const Claim claim = jobs[job].enter();
        const Priority priority = jobs[job].traits.priority;
        if (seat.number > 0) group_of(priority).at_work.begin(seat.number, priority);
        event.is_part("jobtake", job, claim.id, claim.item);
        return {job, claim};
    }

    // What is looked at or changed while all others stand still.
    bool is_idle() {
        for (Group& group : groups) {
            if (!group.at_work.is_quiet()) return false;
            for (unsigned seat = 1; seat <= script.workers; seat++)
                if (best(group, seat)) return false;
        }
        return true;
    }
    static bool blocks_shutdown(const Job& job) {
        const Behaviour behaviour = job.traits.behaviour;
        return (behaviour == blocks && job.place && !job.is_over()) || (behaviour == skips && !job.inside.empty());
    }
    void sort_anew() {
        for (Group& group : groups) group.waiting.clear();
        for (Sequence& sequence : sequences)
            if (!sequence.runs && !sequence.tasks.empty()) wait(sequence);
    }
    // Drops what shutdown forbids, though not the task that runs.
    void drop_forbidden(Sequence& sequence) {
        const auto is_dropped = [&](const Posted& posted) { return forbids(posted.behaviour); };
        auto& tasks = sequence.tasks;
        tasks.erase(std::remove_if(tasks.begin() + sequence.runs, tasks.end(), is_dropped), tasks.end());
    }

public:
    Bell bell;

    SplitPool(const Script& script, Bug bug) : script(script), bug(bug), is_over(script.actions.empty()), queues(script, Bug::none) {
        for (const Runner& runner : script.runners) priorities_of_runners.push_back(runner.priority);
        for (std::size_t it = 0; it < script.runners.size() + script.tasks.size(); it++) sequences.emplace_back().runner = it;
        for (int it = 0; it < 2; it++) groups.emplace_back(script);
        for (const JobTraits& traits : script.jobs) jobs.push_back({traits});
    }

    // Makes what is done outside of the locks last a while. Else a script is posted before a worker is awake, and all runs are alike.
    static void take_time(int times = 1) { std::this_thread::sleep_for(std::chrono::microseconds(50 * times)); }

    bool is_finished() {
        const std::shared_lock all(settings);
        return is_over;
    }

    // Tasks of the pool.
    void post(Seat& seat, unsigned task, unsigned runner, Value delay) {
        Event event(*this, seat);
        const Behaviour behaviour = behaviour_of(runner, delay);
        const bool is_accepted = !forbids(behaviour);
        if (is_accepted && behaviour == blocks) open_block_tasks++;
        if (is_accepted && delay > 0) make_wait({now + delay, task, runner});
        if (is_accepted && delay == 0) make_ready(task, runner, behaviour);
        event.is("post", task, runner, delay, is_accepted ? "ok" : "no");
    }
    // Takes the best of what the seat may take, if there is something. All work of the foreground group goes before that of the other
    // group. So who takes of the other one has to hold both locks: nothing may come to the first one meanwhile.
    std::variant<std::monostate, Taken, Held> take(Seat& seat) {
        Event event(*this, seat);
        if (is_over) return {};
        Locks locks;
        for (Group& group : groups) {
            locks.emplace_back(group.mutex);
            const std::optional<Best> found = best(group, seat.number);
            if (!found) {
                if (bug == Bug::looks_in_turn) locks.clear(), take_time(8);
                continue;
            }
            if (!found->sequence) return enter(event, seat, found->job);
            const Taken taken = take_task(group, *found->sequence, seat.number);
            event.is("take", taken.task, taken.runner, taken.found);
            return taken;
        }
        return {};
    }
    // The end is entered while the sequence is not free yet, and nobody sees the seat free without it.
    void end(Seat& seat, const Taken& taken, Value left) {
        if (bug == Bug::ends_late) hand_on_early(taken, left);
        Event event(*this, seat);
        const std::lock_guard own(taken.sequence->mutex);
        const Locks locks = lock_groups(taken.priority, priorities_of_runners[taken.runner]);
        if (bug != Bug::ends_late) hand_on(*taken.sequence, left);
        group_of(taken.priority).at_work.finish(seat.number);
        if (taken.behaviour == skips) running_skip_tasks--;
        if (taken.behaviour == blocks) open_block_tasks--;
        event.is("end", taken.task, left);
    }
    void open_scope(Seat& seat, const Taken& taken, const std::string& mode) {
        Event event(*this, seat);
        const Locks locks = lock_groups(taken.priority, taken.priority);
        group_of(taken.priority).at_work.open_scope(seat.number, mode == "will", now);
        event.is("block", taken.task, mode);
    }
    void close_scope(Seat& seat, const Taken& taken) {
        Event event(*this, seat);
        const Locks locks = lock_groups(taken.priority, taken.priority);
        group_of(taken.priority).at_work.close_scope(seat.number);
        event.is("unblock", taken.task);
    }

    // Jobs.
    void start_job(Seat& seat, unsigned number) {
        Event event(*this, seat);
        Job& job = jobs[number];
        const Locks locks = lock_job(number);
        job.is_refused = forbids(job.traits.behaviour);
        if (!job.is_refused) job.place = next_ticket++;
        event.is("startjob", number, job.is_refused ? "no" : "ok");
    }
    // The driver goes into a job that it joins, where it may.
    std::optional<Held> help(Seat& seat, unsigned job) {
        Event event(*this, seat);
        const Locks locks = lock_job(job);
        return may_enter(jobs[job]) ? std::optional(enter(event, seat, job)) : std::nullopt;
    }
    // Ends an item, and says whether the seat goes on: with the next item, which it then has.
    bool end_item(Seat& seat, Held& held, Value value) {
        Event event(*this, seat);
        Job& job = jobs[held.job];
        const Locks locks = lock_job(held.job);
        const bool leaves = !job.has_unclaimed() || job.is_cancelled || forbids(job.traits.behaviour) ||
                            (seat.number > 0 && makes_way(job.traits.priority));
        const std::string next = leaves ? "-" : std::to_string(job.claimed);
        event.is_part("jobstep", held.job, held.claim.id, held.claim.item, value, next);
        job.finish(held.claim, value, Bug::none);
        if (!leaves) return job.go_on(held.claim), true;
        job.leave(held.claim);
        if (seat.number > 0) group_of(job.traits.priority).at_work.finish(seat.number);
        return false;
    }
    // Says how the job ended, where it has and nobody is inside.
    bool joined(Seat& seat, unsigned number) {
        Event event(*this, seat);
        const Locks locks = lock_job(number);
        const Job& job = jobs[number];
        if (!job.inside.empty()) return false;
        if (job.is_refused) event.is("joined", number, "refused");
        else if (job.is_done()) event.is("joined", number, "done", job.sum);
        else if (job.is_cancelled) event.is("joined", number, "cancelled");
        else if (forbids(job.traits.behaviour)) event.is("joined", number, "stopped");
        else return false;
        return true;
    }
    void cancel(Seat& seat, unsigned job) {
        Event event(*this, seat);
        const Locks locks = lock_job(job);
        jobs[job].is_cancelled = true;
        event.is_part("cancel", job);
    }
    bool cancelled(Seat& seat, unsigned job) {
        Event event(*this, seat);
        const Locks locks = lock_job(job);
        if (!jobs[job].inside.empty()) return false;
        event.is("cancelled", job);
        return true;
    }

    // Tasks of the main queues, and what changes these.
    void post_main(Seat& seat, unsigned task, unsigned queue, Value delay) {
        Event event(*this, seat);
        const std::lock_guard lock(queues_mutex);
        event.is("main", task, queue, delay, queues.post(task, queue, delay, now) ? "ok" : "no");
    }
    std::optional<TakenMain> take_main(Seat& seat) {
        Event event(*this, seat);
        const std::lock_guard lock(queues_mutex);
        const auto next = queues.take();
        if (!next) return event.is("mainnone"), std::nullopt;
        const auto [task, queue] = *next;
        event.is_part("maintake", task, queue, queues.cell(queue));
        return TakenMain{task, queue, queues.cell(queue)};
    }
    // Ends a main task. It may be the last one of its pump.
    void end_main(Seat& seat, const TakenMain& taken, Value left, bool is_last) {
        Event event(*this, seat);
        const std::lock_guard lock(queues_mutex);
        queues.cell(taken.queue) = left;
        is_last ? event.is("mainend", taken.task, left) : event.is_part("mainend", taken.task, left);
    }
    void set_queue(Seat& seat, const Step& action) {
        const auto& [word, queue, second, third, mode] = action;
        Event event(*this, seat);
        const std::lock_guard lock(queues_mutex);
        if (word == "fence") mode == "now" ? queues.fence_now(queue) : queues.fence_start(queue), event.is(word, queue, mode);
        if (word == "unfence") queues.unfence(queue), event.is(word, queue);
        if (word == "vote") queues.vote(queue, second, mode == "on"), event.is(word, queue, second, mode);
        if (word == "rank") queues.rank(queue, second), event.is(word, queue, second);
        if (word == "close") queues.close(queue), event.is(word, queue);
    }

    // What the driver does while all others stand still.
    void tick(Seat& seat, bool is_last) {
        Event event(*this, seat, true);
        now = time_now() / 1000;
        for (const Delayed& ripe : delays.ripened(now)) make_ready(ripe.task, ripe.home, behaviour_of(ripe.home, 1));
        queues.ripen(now);
        is_last ? event.is("tick", now) : event.is_part("tick", now);
    }
    void set_policy(Seat& seat, const std::string& mode) {
        Event event(*this, seat, true);
        policy = mode;
        event.is("policy", mode);
    }
    void set_priority(Seat& seat, unsigned runner, const std::string& mode) {
        Event event(*this, seat, true);
        priorities_of_runners[runner] = priorities.at(mode);
        sort_anew();
        event.is("reprio", runner, mode);
    }
    bool idle(Seat& seat) {
        Event event(*this, seat, true);
        if (!is_idle()) return false;
        event.is("idle");
        return true;
    }
    // From here on nothing starts but block work: what else waits never runs.
    void start_shutdown(Seat& seat) {
        Event event(*this, seat, true);
        phase = started;
        delays.drop_all();
        for (Sequence& sequence : sequences) drop_forbidden(sequence);
        sort_anew();
        event.is_part("shutdown");
    }
    bool end_shutdown(Seat& seat) {
        Event event(*this, seat, true);
        if (open_block_tasks + running_skip_tasks > 0 || std::any_of(jobs.begin(), jobs.end(), blocks_shutdown)) return false;
        phase = over;
        event.is("done");
        return true;
    }
};
