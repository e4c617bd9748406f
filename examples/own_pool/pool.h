// All that the pool knows. One mutex guards it, with the log and the main queues. Each function here is called under that mutex,
// and does one thing that happens, with its line, or says what may happen.
#pragma once
#include "groups.h"
#include "jobs.h"
#include "log.h"
#include "main_queues.h"
#include "sources.h"

#include <chrono>
#include <condition_variable>
#include <mutex>

enum Phase { running, started, over };  // of shutdown

// What a seat found as it took a task.
struct Taken { unsigned task; Value found; Behaviour behaviour; };
struct TakenMain { unsigned task, queue; Value found; };

class Pool {
    const Script& script;
    const Bug bug;
    Log log{std::cout};
    const std::chrono::steady_clock::time_point opening = std::chrono::steady_clock::now();
    Value now = 0;  // the moment of the last tick, in microseconds
    Phase phase = running;
    std::string policy = "all";
    std::vector<Priority> runner_priorities;
    std::map<std::size_t, Sequence> sequences;
    Delays delays;
    Groups groups;
    std::vector<Job> jobs;
    MainQueues queues;
    unsigned open_block_tasks = 0, running_skip_tasks = 0;

    template <class... Parts> void enter(unsigned seat, const Parts&... parts) {
        log.enter(seat, parts...);
        changed.notify_all();
    }
    bool forbids(Behaviour behaviour) const { return phase == over || (phase == started && behaviour != blocks); }
    // Shutdown does not wait for time to pass: a block task with a delay is a skip task.
    Behaviour behaviour_of(unsigned runner, Value delay) const {
        const Behaviour behaviour = script.runners[runner].behaviour;
        return behaviour == blocks && delay > 0 ? skips : behaviour;
    }
    std::size_t sequence_number(unsigned runner, unsigned task) const {
        return script.runners[runner].is_parallel ? script.runners.size() + task : runner;
    }
    void make_ready(const Posted& posted, unsigned runner) {
        sequences.try_emplace(sequence_number(runner, posted.task), Sequence{runner}).first->second.waiting.push_back(posted);
    }
    // Whether the policy holds back work of this priority. From the start of shutdown on none has an effect.
    bool is_held(Priority priority) const {
        return phase == running && (policy == "none" || (policy == "foreground" && priority == best_effort));
    }

    // Of the sources that wait and pass a test, the one that goes first.
    template <class Test> std::optional<Source> first_waiting(const Test& passes) {
        std::optional<Source> first;
        const auto offer = [&](const Source& source) {
            if (!is_held(source.priority) && passes(source) && (!first || source.rank() < first->rank())) first = source;
        };
        for (auto& [number, sequence] : sequences)
            if (!sequence.runs && !sequence.waiting.empty())
                offer({&sequence, 0, runner_priorities[sequence.runner], 0, sequence.waiting.front().key,
                       script.runners[sequence.runner].only_seat});
        for (unsigned job = 0; job < jobs.size(); job++)
            if (may_enter(job)) offer({nullptr, job, jobs[job].traits.priority, jobs[job].inside.size(), {*jobs[job].place, 0}, 0});
        return first;
    }
    // Whether a worker leaves a job of this priority: its group is full, and work of the group waits that matters more.
    bool makes_way(Priority priority) {
        if (bug == Bug::never_makes_way || !groups.is_group_full(priority, now)) return false;
        return first_waiting([&](const Source& source) {
            return source.priority > priority && groups.are_in_one(source.priority, priority) && source.only_seat == 0;
        }).has_value();
    }

public:
    std::mutex mutex;
    std::condition_variable changed;  // with each entry

    Pool(const Script& script, Bug bug) : script(script), bug(bug), delays(bug), groups(script, bug), queues(script, bug) {
        for (const Runner& runner : script.runners) runner_priorities.push_back(runner.priority);
        for (const JobTraits& traits : script.jobs) jobs.push_back({traits});
    }

    // What a free worker has to take: one choice for all groups.
    std::optional<Source> best(unsigned seat) {
        return first_waiting([&](const Source& source) {
            return groups.has_room(source.priority, now) && (source.only_seat == 0 || source.only_seat == seat);
        });
    }
    bool is_idle() {
        if (!groups.is_quiet()) return false;
        for (unsigned seat = 1; seat <= script.workers; seat++)
            if (best(seat)) return false;
        return true;
    }

    // Tasks of the pool.
    void post(unsigned seat, unsigned task, unsigned runner, Value delay) {
        const Behaviour behaviour = behaviour_of(runner, delay);
        const bool is_accepted = !forbids(behaviour);
        if (is_accepted && behaviour == blocks) open_block_tasks++;
        if (is_accepted && delay > 0) delays.add({now + delay, task, runner});
        if (is_accepted && delay == 0) make_ready({{log.place(), 0}, task, behaviour}, runner);
        enter(seat, "post", task, runner, delay, is_accepted ? "ok" : "no");
    }
    Taken take(unsigned seat, Sequence& sequence) {
        const auto first = bug == Bug::last_in_first_out ? std::prev(sequence.waiting.end()) : sequence.waiting.begin();
        const Taken taken{first->task, sequence.cell, first->behaviour};
        sequence.waiting.erase(first);
        sequence.runs = true;
        groups.begin(seat, runner_priorities[sequence.runner]);
        if (taken.behaviour == skips) running_skip_tasks++;
        enter(seat, "take", taken.task, sequence.runner, taken.found);
        return taken;
    }
    // Lets go of the sequence, with what its task left. The end has to be entered under the same lock.
    void release(Sequence& sequence, Value left) {
        if (bug != Bug::loses_state) sequence.cell = left;
        sequence.runs = false;
        changed.notify_all();
    }
    void end(unsigned seat, const Taken& taken, Value left) {
        groups.finish(seat);
        if (taken.behaviour == skips) running_skip_tasks--;
        if (taken.behaviour == blocks) open_block_tasks--;
        sequences.erase(script.runners.size() + taken.task);  // where it was one of its own
        enter(seat, "end", taken.task, left);
    }
    // A step of a task that does more than to compute.
    void act(unsigned seat, unsigned task, const Step& step) {
        if (step.word == "post") post(seat, step.first, step.second, step.third);
        if (step.word == "main") post_main(seat, step.first, step.second, step.third);
        if (step.word == "block") groups.open_scope(seat, step.mode == "will", now), enter(seat, "block", task, step.mode);
        if (step.word == "unblock") groups.close_scope(seat), enter(seat, "unblock", task);
    }

    // Tasks of the main queues.
    void post_main(unsigned seat, unsigned task, unsigned queue, Value delay) {
        enter(seat, "main", task, queue, delay, queues.post(task, queue, delay, now) ? "ok" : "no");
    }
    std::optional<TakenMain> take_main() {
        const auto next = queues.take();
        if (!next) return enter(0, "mainnone"), std::nullopt;
        const auto [task, queue] = *next;
        enter(0, "maintake", task, queue, queues.cell(queue));
        return TakenMain{task, queue, queues.cell(queue)};
    }
    void end_main(const TakenMain& taken, Value left) {
        queues.cell(taken.queue) = left;
        enter(0, "mainend", taken.task, left);
    }

    // Jobs.
    bool may_enter(unsigned job) const { return jobs[job].has_space() && !forbids(jobs[job].traits.behaviour); }
    bool is_empty(unsigned job) const { return jobs[job].inside.empty(); }
    void start_job(unsigned job) {
        jobs[job].is_refused = forbids(jobs[job].traits.behaviour);
        if (!jobs[job].is_refused) jobs[job].place = log.place();
        enter(0, "startjob", job, jobs[job].is_refused ? "no" : "ok");
    }
    Claim enter_job(unsigned seat, unsigned job) {
        const Claim claim = jobs[job].enter();
        if (seat > 0) groups.begin(seat, jobs[job].traits.priority);
        enter(seat, "jobtake", job, claim.id, claim.item);
        return claim;
    }
    // Ends an item, and says whether the seat goes on: with the next item, which it then has.
    bool end_item(unsigned seat, unsigned number, Claim& claim, Value value) {
        Job& job = jobs[number];
        const bool leaves = !job.has_unclaimed() || job.is_cancelled || forbids(job.traits.behaviour) ||
                            (seat > 0 && makes_way(job.traits.priority));
        enter(seat, "jobstep", number, claim.id, claim.item, value, leaves ? "-" : std::to_string(job.claimed));
        job.finish(claim, value, bug);
        if (!leaves) return job.go_on(claim), true;
        job.leave(claim);
        if (seat > 0) groups.finish(seat);
        return false;
    }
    void cancel(unsigned job) { jobs[job].is_cancelled = true, enter(0, "cancel", job); }
    void cancelled(unsigned job) { enter(0, "cancelled", job); }
    // What a join says, where it is over.
    std::optional<std::string> reply(unsigned number) const {
        const Job& job = jobs[number];
        if (!job.inside.empty()) return {};
        if (job.is_refused) return "refused";
        if (job.is_done()) return "done " + std::to_string(job.sum);
        if (job.is_cancelled) return "cancelled";
        if (forbids(job.traits.behaviour)) return "stopped";
        return {};
    }
    void joined(unsigned job) { enter(0, "joined", job, *reply(job)); }

    // What else the driver does.
    void tick() {
        const auto passed = std::chrono::steady_clock::now() - opening;
        now = std::chrono::duration_cast<std::chrono::microseconds>(passed).count();
        std::size_t number = 0;
        for (const Delayed& ripe : delays.ripened(now))
            make_ready({{log.place(), number++}, ripe.task, behaviour_of(ripe.home, 1)}, ripe.home);
        queues.ripen(now);
        enter(0, "tick", now);
    }
    // An action that changes how the work goes on.
    void set(const Step& action) {
        const auto& [word, first, second, third, mode] = action;
        if (word == "policy") policy = mode, enter(0, word, mode);
        if (word == "reprio") runner_priorities[first] = priorities.at(mode), enter(0, word, first, mode);
        if (word == "fence") mode == "now" ? queues.fence_now(first) : queues.fence_start(first), enter(0, word, first, mode);
        if (word == "unfence") queues.unfence(first), enter(0, word, first);
        if (word == "vote") queues.vote(first, second, mode == "on"), enter(0, word, first, second, mode);
        if (word == "rank") queues.rank(first, second), enter(0, word, first, second);
        if (word == "close") queues.close(first), enter(0, word, first);
    }
    void idle() { enter(0, "idle"); }
    // How much shutdown waits for: block work that is not over, and skip work that runs.
    std::size_t blockers() const {
        std::size_t count = open_block_tasks + (bug == Bug::forgets_skip_tasks ? 0 : running_skip_tasks);
        for (const Job& job : jobs) {
            if (job.traits.behaviour == blocks && job.place && !job.is_over()) count++;
            if (job.traits.behaviour == skips) count += job.inside.size();
        }
        return count;
    }
    // From here on nothing starts but block work: what else waits never runs.
    void start_shutdown() {
        phase = started;
        delays.drop_all();
        for (auto& [number, sequence] : sequences) {
            auto& waiting = sequence.waiting;
            const auto is_dropped = [](const Posted& posted) { return posted.behaviour != blocks; };
            waiting.erase(std::remove_if(waiting.begin(), waiting.end(), is_dropped), waiting.end());
        }
        enter(0, "shutdown");
    }
    void end_shutdown() { phase = over, enter(0, "done"); }
    void total() { log.total(); }
};
