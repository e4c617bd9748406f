// The host of the core: what the client in C++ does with threads, its lock, sleep and closures. Programs include taskenv.hpp, which
// has what users hold; who wants to check the client reads this file, for all that could go wrong is here.
//
// First come small tools; then `Plan` (which runners and jobs there are), and `Host`, which has the core. Each call of the core is made by
// `Host::Held::call`, which exists only while the lock is held. At its end, once the lock is free, those are woken whom the answers named.
//
// What always holds. While the lock is held no closure runs, and none is destroyed; and nothing is thrown but std::bad_alloc, so who
// hears of a misuse, as a handler of std::terminate, may ask for the recording. A closure's task has its number from the core; it
// is run by the thread whose seat took that number, and is destroyed before that seat says that the task has ended. A thread sleeps
// only where the core answered that its seat rests; the main thread also where it found no main task, and the service thread where no
// moment has come.
#pragma once
#include "taskenv_recorder.hpp"

#include <array>
#include <bitset>
#include <condition_variable>
#include <cstdio>
#include <cstdlib>
#include <initializer_list>
#include <mutex>
#include <optional>
#include <queue>

namespace taskenv {

namespace detail {

inline void require(bool holds, const char* what) {
    if (!holds) throw std::logic_error(std::string("taskenv: ") + what);
}

// Where a seat's thread sleeps. A wake that comes before the sleep is kept.
class Parker {
public:
    void park() {
        std::unique_lock<std::mutex> lock(mutex);
        changed.wait(lock, [this] { return woken; });
        woken = false;
    }
    void unpark() {
        {
            std::lock_guard<std::mutex> lock(mutex);
            woken = true;
        }
        changed.notify_one();
    }

private:
    std::mutex mutex;
    std::condition_variable changed;
    bool woken = false;
};

class Host;

// A slot of the plan: a runner that can be handed out, and the priority that it has.
struct Slot {
    std::uint32_t runner;
    Priority priority;
};

// The slots of one sort that are free. There is room for all of them from the beginning, so giving one back can't fail.
class Slots {
public:
    void declare(Slot slot) { free.push_back(slot); }
    void give_back(Slot slot) noexcept { free.push_back(slot); }
    // A free slot, one of this priority where there is one.
    std::optional<Slot> take(Priority wanted) {
        if (free.empty()) return std::nullopt;
        const auto found = std::find_if(free.begin(), free.end(), [&](const Slot& slot) { return slot.priority == wanted; });
        std::swap(found == free.end() ? free.front() : *found, free.back());
        const Slot slot = free.back();
        free.pop_back();
        return slot;
    }

private:
    std::vector<Slot> free;
};

// A job of the plan: its number, how many items it has, and on how many of them the pool works at once.
struct JobSlot {
    std::uint32_t job, items, most_at_once;
};

// The jobs of one priority and behaviour that were not posted. Each is handed out once.
class JobsLeft {
public:
    void declare(JobSlot slot) {
        const auto before = [](const JobSlot& one, const JobSlot& other) {
            return one.most_at_once != other.most_at_once ? one.most_at_once > other.most_at_once : one.items < other.items;
        };
        left.insert(std::upper_bound(left.begin(), left.end(), slot, before), slot);
    }
    // Of those with room for so many items, and on which no more than so many work at once: one on which the most do, and of these
    // the smallest one.
    std::optional<JobSlot> take(std::uint32_t items, std::uint32_t most_at_once) {
        const auto fits = [&](const JobSlot& slot) { return slot.items >= items && slot.most_at_once <= most_at_once; };
        const auto found = std::find_if(left.begin(), left.end(), fits);
        if (found == left.end()) return std::nullopt;
        const JobSlot slot = *found;
        left.erase(found);
        return slot;
    }

private:
    std::vector<JobSlot> left;
};

// Where tasks are posted: a runner, or a main queue. Each task that waits or runs holds its home, so a runner's slot comes free when
// nobody holds the runner and all its tasks have ended, or are gone.
struct Home {
    enum Sort { parallel, sequence, main_queue };
    Home(std::shared_ptr<Host> of, Sort sort_of, std::uint32_t its_number) : host(std::move(of)), sort(sort_of), number(its_number) {}
    Home(const Home&) = delete;
    ~Home();
    const std::shared_ptr<Host> host;
    const Sort sort;
    std::uint32_t number;    // of the runner or main queue
    Slots* slots = nullptr;  // where its slot goes back to
    Slot slot{};
};
using HomeRef = std::shared_ptr<Home>;

// What is kept beside a task's number, from its post to its end.
struct Task {
    OnceClosure closure;
    HomeRef home;
    std::unique_ptr<Task> next;  // in a `Trash`
};

// Tasks that never run. They are destroyed with it, so it is made before the lock is taken.
class Trash {
public:
    Trash() = default;
    Trash(const Trash&) = delete;
    ~Trash() {
        while (first) first = std::move(first->next);
    }
    void add(std::unique_ptr<Task> task) noexcept {
        task->next = std::move(first);
        first = std::move(task);
    }

private:
    std::unique_ptr<Task> first;
};

// What this thread does for an environment: whose seat it has, and the home of the task that it runs, if it runs one.
struct Current {
    Host* host = nullptr;
    std::uint32_t seat = 0;
    const HomeRef* home = nullptr;
    unsigned scopes = 0;                   // how many blocking scopes are open
    Blocking scope = Blocking::may_block;  // as what the core counts them
};
inline thread_local Current current;
// The environments that this thread is the main thread of, the last one that it made at the end.
inline thread_local std::vector<Host*> main_hosts;

// While it lives, this thread does something for an environment; then it does what it did before.
class Doing {
public:
    Doing(Host* host, std::uint32_t seat, const HomeRef* home) : before(current) {
        current = Current();
        current.host = host, current.seat = seat, current.home = home;
    }
    Doing(const Doing&) = delete;
    ~Doing() { current = before; }

private:
    const Current before;
};

// ---- the plan

// The plan of some options: its text (docs/formats.md), and where its runners and jobs lie. First come the parallel runners, one for
// each traits; then the slots of sequenced runners; then those of each worker's single-thread runners. Slots have all three priorities
// in turn. Each task has the step `add 1`, so it finds in its cell how many tasks of its sequence ended before it.
class Plan {
public:
    static constexpr unsigned sorts = 6;        // of slots: a behaviour, and whether it may block
    static constexpr unsigned first_class = 3;  // of each main queue at first

    explicit Plan(const Options& options) : workers(options.worker_threads), sequenced(sorts), single(sorts * workers) {
        require(workers >= 1 && workers <= 63, "there are 1 to 63 worker threads");
        require(options.posts <= 65536 && options.voters <= 16, "there is room for 65,536 posts, and for 16 voters, at most");
        configure(options);
        for (unsigned traits = 0; traits < 3 * sorts; ++traits) runner("parallel", Priority(traits / sorts), traits % sorts);
        for (unsigned sort = 0; sort < sorts; ++sort) slots(sequenced[sort], "sequenced", sort, options.sequenced_runners);
        for (unsigned at = 0; at < single.size(); ++at)
            slots(single[at], "single:" + std::to_string(at / sorts + 1), at % sorts, options.single_thread_runners);
        for (unsigned queue = 0; queue <= options.main_queues; ++queue)
            line("queue " + std::to_string(queue) + " " + std::to_string(first_class) + " " + std::to_string(options.voters));
        for (unsigned task = 0; task < options.posts; ++task) line("task " + std::to_string(task) + " add 1");
        for (const JobSlots& slots_of_one : options.jobs) declare(slots_of_one);
    }
    static unsigned sort_of(Traits traits) { return unsigned(traits.behaviour) * 2 + traits.may_block; }
    static unsigned parallel_runner(Traits traits) { return unsigned(traits.priority) * sorts + sort_of(traits); }

    static unsigned sort_of_job(Priority priority, Behaviour behaviour) { return unsigned(priority) * 3 + unsigned(behaviour); }

    const unsigned workers;
    std::string text;
    std::vector<Slots> sequenced, single;
    std::array<JobsLeft, 9> jobs_left;  // a priority and a behaviour
    std::uint32_t jobs = 0;

private:
    void configure(const Options& options) {
        const unsigned foreground = options.foreground ? options.foreground : workers;
        const unsigned best = options.foreground_best_effort ? options.foreground_best_effort : std::min(2u, foreground);
        line("workers " + std::to_string(workers + 1));  // the last seat is the guest's
        line("groups " + std::to_string(foreground) + " " + std::to_string(best) + " " + std::to_string(options.background));
        line("threshold " + std::to_string(options.may_block_threshold.count()));
    }
    void slots(Slots& all, const std::string& kind, unsigned sort, unsigned count) {
        for (unsigned slot = 0; slot < count; ++slot) all.declare({runners, Priority(slot % 3)}), runner(kind, Priority(slot % 3), sort);
    }
    void runner(const std::string& kind, Priority priority, unsigned sort) {
        const std::string traits = std::string(name(priority)) + " " + name(Behaviour(sort / 2)) + (sort % 2 ? " mayblock" : "");
        line("runner " + std::to_string(runners++) + " " + kind + " " + traits);
    }
    // Jobs whose sizes double.
    void declare(const JobSlots& some) {
        require(1 <= some.least && some.least <= some.most, "the sizes of jobs go up, from 1 item or more");
        require(some.of_each <= 256, "there is room for 256 jobs at most");
        for (std::uint64_t items = some.least;; items *= 2) {
            const std::uint32_t size = std::uint32_t(std::min<std::uint64_t>(items, some.most));
            for (unsigned slot = 0; slot < some.of_each; ++slot) job(some, size);
            if (size == some.most) return;
        }
    }
    void job(const JobSlots& some, std::uint32_t items) {
        jobs_left[sort_of_job(some.priority, some.behaviour)].declare({jobs, items, std::min(some.most_at_once, most_inside_a_job)});
        const std::string numbers = std::to_string(items) + " " + std::to_string(some.most_at_once);
        line("job " + std::to_string(jobs++) + " " + name(some.priority) + " " + name(some.behaviour) + " " + numbers);
    }
    void line(const std::string& words) { text += words + "\n"; }
    static const char* name(Priority priority) {
        static constexpr const char* names[] = {"best_effort", "user_visible", "user_blocking"};
        return names[unsigned(priority)];
    }
    static const char* name(Behaviour behaviour) {
        static constexpr const char* names[] = {"continue", "skip", "block"};
        return names[unsigned(behaviour)];
    }
    unsigned runners = 0;
};

// ---- the host of the core

using JobWork = std::function<void(JobDelegate&)>;

// A job of the plan, from its post on.
struct Job {
    Behaviour behaviour = Behaviour::block_shutdown;
    std::uint32_t items = 0;          // that were asked for: those after them are empty runs
    std::uint32_t left = 0;           // items of the plan's job that have not ended
    JobWork work;                     // until nobody can enter any more
    std::atomic<bool> yields{false};  // what is left of its items is not wanted any more
};

inline live_request request(live_call_code call, std::uint32_t seat = 0, std::uint32_t place = 0, std::uint32_t word = 0, std::uint64_t time = 0) {
    return {std::uint32_t(call), 0, 0, seat, LIVE_NONE, place, word, 0, time};
}

// The core, its lock, who sleeps, and what waits. Handles share it, so it is there as long as somebody may ask it something.
class Host : public std::enable_shared_from_this<Host> {
public:
    explicit Host(const Options& given)
        : options(given), plan(given), room(new Block[live_size() / sizeof(Block) + 1]), parkers(new Parker[plan.workers + 2]),
          events(given.record.kind == Record::events ? new Events(plan.workers + 2) : nullptr), waiting(given.posts),
          moments(std::greater<>(), reserved(given.posts)), jobs(plan.jobs), free_voters(given.main_queues + 1) {
        scope_moments.fill(never);
        if (given.record.kind != Record::nothing && !events) recorder = std::make_unique<Recorder>(given.record);
        for (auto& voters : free_voters)
            for (unsigned voter = given.voters; voter > 0; --voter) voters.push_back(voter - 1);
        open();
    }
    ~Host() {
        if (!is_closed) live_close(core());
    }

    // The lock, while it is held. At the end it is let go; then who was named is woken; and last, what never runs is destroyed.
    class Held {
    public:
        explicit Held(Host& of) : host(of), begun(of.events ? of.events->now() : 0), lock(of.mutex) {}
        Held(const Held&) = delete;
        ~Held() {
            lock.unlock();
            for (const Events::Event& event : seen) host.events->note(event);
            for (std::size_t seat = 0; named.any(); named.reset(seat++))
                if (named.test(seat)) host.parkers[seat].unpark();
        }
        // Makes a call of the core by this thread's seat, and notes its entry and whom it names.
        live_answer call(live_request wanted) {
            live_answer answer{};
            wanted.by = host.own_seat();
            live_call(host.core(), &wanted, &answer);
            if (answer.wake == LIVE_ONE) named.set(answer.woken);
            if (answer.wake == LIVE_EVERYONE)
                for (std::uint32_t seat = 0; seat < host.guest(); ++seat) named.set(seat);
            if (answer.status == LIVE_MADE) note(wanted.seat, answer);
            return answer;
        }
        // A call that is made, or is answered one of these. Any other answer comes only where this header breaks a rule of the core,
        // or after 2^32 - 1 entries: there the program ends.
        live_answer must(const live_request& wanted, std::initializer_list<std::uint32_t> or_else = {}) {
            const live_answer answer = call(wanted);
            if (answer.status == LIVE_MADE || std::find(or_else.begin(), or_else.end(), answer.status) != or_else.end()) return answer;
            std::fprintf(stderr, "taskenv: call %u of seat %u was answered %u\n", wanted.call, wanted.seat, answer.status);
            std::abort();
        }
        // Whether the call's seat rests for it, so that its thread is to sleep once the lock is free.
        bool rests(live_request wanted) {
            wanted.rests = 1;
            return call(wanted).status == LIVE_RESTS;
        }
        // Has the core read the clock, and answers the moment. Delays and thresholds are counted from the last reading.
        std::uint64_t tick() {
            if (host.is_over) return 0;
            const std::uint64_t now = must(request(LIVE_TICK, 0, 0, 0, host.now())).value;
            host.pass(now);
            return now;
        }
        // A driver's call, now or when the driver is free. Once shutdown is done none has an effect.
        void drive(const live_request& wanted) {
            if (host.is_over) return;
            if (host.driver_works) host.kept.push_back(wanted);
            else make(wanted);
        }
        // The driver has ended its task or item: what was kept for it is done.
        void free_driver() {
            host.driver_works = false;
            for (const live_request& wanted : host.kept) make(wanted);
            host.kept.clear();
        }

    private:
        // Notes an entry. Calls that name no seat are the driver's, which is seat 0.
        void note(std::uint32_t seat, const live_answer& entry) {
            if (host.recorder) host.recorder->note(seat, entry);
            if (host.events) host.events->see(seen, seat, begun, entry);
            if (entry.kind == LIVE_DID_DONE) host.end(trash);
        }
        void make(const live_request& wanted) {
            must(wanted);
            if (wanted.call == LIVE_CLOSE) host.sweep_queue(wanted.place, trash);
            host.poke_main();
        }
        Host& host;
        Trash trash;
        std::bitset<66> named;
        const std::uint64_t begun;        // of `events`: a time before all that comes
        std::vector<Events::Event> seen;  // what this thread did, to be noted once the lock is free
        std::unique_lock<std::mutex> lock;
    };

    // ---- posts

    // Posts a closure, and answers the number of its task, or nothing where it was refused. A closure that was is destroyed here.
    std::optional<std::uint32_t> post(const HomeRef& home, OnceClosure closure, Microseconds delay) {
        require(bool(closure), "a closure that is posted is not null");
        const bool is_main = home->sort == Home::main_queue;
        const std::uint64_t wait = std::clamp<std::int64_t>(delay.count(), 0, longest_delay);
        auto task = std::make_unique<Task>(Task{std::move(closure), home, nullptr});
        Held held(*this);
        // The core takes posts to main queues at any time, but nobody runs them once shutdown is done.
        if (is_closed || (is_main && is_over)) return std::nullopt;
        const std::uint64_t ripe = wait ? held.tick() + wait : 0;
        const live_answer did = held.must(request(is_main ? LIVE_MAIN : LIVE_POST, posting_seat(), home->number, 0, wait), {LIVE_FULL});
        if (did.status == LIVE_MADE) ++handed_out;
        if (did.status != LIVE_MADE || !did.ok) return std::nullopt;
        waiting[did.task] = std::move(task);
        if (wait) await_moment(ripe), moments.push(ripe);
        if (is_main) poke_main();
        return did.task;
    }
    // Destroys the closure of a task that has not started, whose run is an empty one then. Answers whether there was one.
    bool cancel(std::uint32_t task) {
        OnceClosure dropped;  // is destroyed once the lock is free
        Held held(*this);
        if (waiting[task]) dropped = std::move(waiting[task]->closure);
        return bool(dropped);
    }
    bool is_waiting(std::uint32_t task) {
        Held held(*this);
        return waiting[task] && waiting[task]->closure;
    }
    unsigned posts_left() {
        Held held(*this);
        return options.posts - handed_out;
    }

    // ---- runners and main queues

    HomeRef home(Home::Sort sort, std::uint32_t number) { return std::make_shared<Home>(shared_from_this(), sort, number); }
    HomeRef parallel_runner(Traits traits) { return home(Home::parallel, Plan::parallel_runner(traits)); }
    HomeRef sequenced_runner(Traits traits) {
        const HomeRef runner = home(Home::sequence, 0);
        if (take_slot(*runner, plan.sequenced[Plan::sort_of(traits)], traits.priority)) return runner;
        throw NoRoom("taskenv: no sequenced runner of this behaviour is free");
    }
    // The workers have their turn: each next runner is the next one's that has a free slot.
    HomeRef single_thread_runner(Traits traits) {
        const HomeRef runner = home(Home::sequence, 0);
        for (unsigned tried = 0; tried < plan.workers; ++tried) {
            const unsigned worker = single_runners_made++ % plan.workers;
            if (take_slot(*runner, plan.single[worker * Plan::sorts + Plan::sort_of(traits)], traits.priority)) return runner;
        }
        throw NoRoom("taskenv: no single-thread runner of this behaviour is free");
    }
    HomeRef main_queue(unsigned its_class) {
        require(its_class <= 7, "a main queue's class is 0 to 7");
        const HomeRef queue = home(Home::main_queue, 0);
        if (!number_main_queue(*queue, its_class)) throw NoRoom("taskenv: all main queues were made");
        return queue;
    }
    void update_priority(Home& runner, Priority priority) {
        require(runner.slots, "only a sequenced or single-thread runner can be given another priority");
        Held held(*this);
        held.drive(request(LIVE_REPRIO, 0, runner.number, std::uint32_t(priority)));
        runner.slot.priority = priority;
    }
    void give_back(Slots& slots, Slot slot) noexcept {
        Held held(*this);
        slots.give_back(slot);
    }
    std::optional<std::uint32_t> take_voter(std::uint32_t queue) {
        Held held(*this);
        auto& free = free_voters[queue];
        if (free.empty()) return std::nullopt;
        const std::uint32_t voter = free.back();
        free.pop_back();
        return voter;
    }
    // The voter votes on, as all do at the beginning, and can be taken again.
    void give_back_voter(std::uint32_t queue, std::uint32_t voter) {
        Held held(*this);
        held.drive(vote(queue, voter, true));
        free_voters[queue].push_back(voter);
    }
    // Makes a driver's call, or keeps it until the driver is free.
    void drive(const live_request& wanted) {
        Held held(*this);
        held.drive(wanted);
    }

    // ---- jobs and scopes

    // Posts a job, and answers its number.
    unsigned post_job(Traits traits, std::uint32_t items, JobWork work, std::uint32_t most_at_once) {
        require(bool(work), "the work of a job is not null");
        const auto slot = take_job(traits, items, most_at_once);
        if (!slot) throw NoRoom("taskenv: no job of this priority and behaviour is left that has room for so many items");
        Held held(*this);
        Job& job = jobs[slot->job];
        job.behaviour = traits.behaviour, job.items = items, job.left = slot->items;
        job.work = std::move(work);
        held.drive(request(LIVE_JOB_POST, 0, slot->job));
        return slot->job;
    }
    void cancel_job(unsigned job) {
        Held held(*this);
        if (is_over) return;
        held.drive(request(LIVE_JOB_CANCEL, 0, job));
        jobs[job].yields = true;
    }
    // The same, and waits until nobody is inside.
    void cancel_job_and_wait(unsigned job) {
        require_driver();
        cancel_job(job);
        await(request(LIVE_CANCELLED, 0, job));
        JobWork dropped;  // is destroyed once the lock is free
        Held held(*this);
        if (!is_over) dropped.swap(jobs[job].work);
    }
    JobReply join_job(unsigned job) {
        require_driver();
        require(!is_done(), "no job is joined after shutdown");  // which only this thread does
        for (;;) {
            live_answer item{};
            {
                JobWork dropped;  // nobody enters a job that has a reply
                Held held(*this);
                const live_answer did = held.must(request(LIVE_JOINED, 0, job), {LIVE_NOT_YET});
                if (did.status == LIVE_MADE) {
                    dropped.swap(jobs[job].work);
                    return JobReply(did.word);
                }
                if (did.ready) item = held.must(request(LIVE_JOB_TAKE, 0, job));
                else if (!held.rests(request(LIVE_JOINED, 0, job))) continue;
                driver_works = did.ready;
            }
            if (item.kind == LIVE_DID_JOB_TAKE) work_on_job(0, item);
            else parkers[0].park();
        }
    }
    // This thread's task opens a scope.
    void open_scope(Blocking scope) { require(opens_scope(scope), "a task with a blocking scope has traits that say it may block"); }
    void close_scope() {
        Held held(*this);
        held.must(request(LIVE_LEAVE, current.seat));
        scope_moments[current.seat] = never;
    }

    // ---- threads

    // What a worker thread does until shutdown is done: it takes, runs and ends, and sleeps where there is nothing to take.
    void work(std::uint32_t seat) {
        const Doing doing(this, seat, nullptr);
        const live_request take = request(LIVE_TAKE, seat);
        for (;;) {
            std::unique_ptr<Task> task;
            live_answer did{};
            bool sleeps = false;
            {
                Held held(*this);
                did = held.must(take, {LIVE_NOTHING, LIVE_OVER});
                if (did.status == LIVE_OVER) return;
                if (did.status == LIVE_NOTHING) sleeps = held.rests(take);
                if (did.kind == LIVE_DID_TAKE) task = std::move(waiting[did.task]);
            }
            if (sleeps) parkers[seat].park();
            if (did.kind == LIVE_DID_JOB_TAKE) work_on_job(seat, did);
            if (!task) continue;
            run_task(seat, *task);
            Held held(*this);
            held.must(request(LIVE_END, seat));
        }
    }
    // What the service thread does until shutdown is done: it sleeps to the next moment that counts, and has the core read the clock.
    void keep_time() {
        for (;;) {
            {
                std::unique_lock<std::mutex> lock(mutex);
                while (!is_over && next_moment() > now()) {
                    if (next_moment() == never) time_changed.wait(lock);
                    else time_changed.wait_until(lock, beginning + Microseconds(next_moment()));
                }
                if (is_over) return;
            }
            Held held(*this);
            held.tick();
        }
    }
    enum class Turn { ran, none, over };
    Turn run_main_task() {
        std::unique_ptr<Task> task;
        {
            Held held(*this);
            main_is_poked = false;
            if (is_over) return Turn::over;
            const live_answer did = held.must(request(LIVE_MAIN_TAKE));
            if (did.kind == LIVE_DID_MAIN_NONE) return Turn::none;
            task = std::move(waiting[did.task]);
            driver_works = true;
        }
        run_task(0, *task);
        Held held(*this);
        held.must(request(LIVE_MAIN_END));
        held.free_driver();
        return Turn::ran;
    }
    // Runs main tasks, and sleeps where there are none, until it is told to quit. The core can't say when a main task may be taken, so
    // whatever may make one ready pokes the main thread: a post to a main queue, a ripe moment, and each driver's call.
    void run_until(const std::atomic<bool>& quits) {
        require_driver();
        while (!quits) {
            const Turn turn = run_main_task();
            if (turn == Turn::over) return;
            if (turn == Turn::ran) continue;
            std::unique_lock<std::mutex> lock(mutex);
            main_changed.wait(lock, [&] { return main_is_poked || quits; });
        }
    }
    void quit(std::atomic<bool>& quits) {
        Held held(*this);
        quits = true;
        poke_main();
    }
    // Makes a call of the driver that waits until what it asks for has come. Once shutdown is done it is not made.
    void await(const live_request& wanted) {
        for (;;) {
            {
                Held held(*this);
                if (is_over) return;
                if (held.must(wanted, {LIVE_NOT_YET, LIVE_BLOCKED}).status == LIVE_MADE) return;
                if (!held.rests(wanted)) continue;
            }
            parkers[0].park();
        }
    }
    void shutdown() {
        require_driver();
        {
            Held held(*this);
            if (is_over) return;
            has_begun_shutdown = true;
            held.must(request(LIVE_SHUTDOWN));
            for (Job& job : jobs)
                if (job.behaviour != Behaviour::block_shutdown) job.yields = true;
        }
        await(request(LIVE_DONE));
    }
    // All threads have ended: the core is closed, and what jobs own is destroyed.
    void close() {
        std::vector<Job> dropped;
        Held held(*this);
        live_close(core());
        is_closed = true;
        jobs.swap(dropped);
    }

    // ---- time

    // Microseconds since the beginning.
    std::uint64_t now() const {
        if (options.mock_time) return mock_now;
        return std::uint64_t(std::chrono::duration_cast<Microseconds>(std::chrono::steady_clock::now() - beginning).count());
    }
    // Moves the mock clock, and has the core read it.
    void move_clock(std::uint64_t moment) {
        Held held(*this);
        mock_now = moment;
        held.tick();
    }
    // The next moment that counts, if it comes by this one.
    std::optional<std::uint64_t> next_by(std::uint64_t last) {
        Held held(*this);
        if (next_moment() > last) return std::nullopt;
        return next_moment();
    }

    // ---- who asks, and what they see

    bool is_main_thread() const { return std::this_thread::get_id() == main_thread; }
    // Only the main thread changes `driver_works`, so it may look at it without the lock.
    void require_driver() const { require(is_main_thread() && !driver_works, "only the main thread may do this, outside of its tasks"); }
    bool is_poked() {
        Held held(*this);
        return main_is_poked;
    }
    bool is_done() {
        Held held(*this);
        return is_over;
    }
    bool has_shutdown_started() const { return has_begun_shutdown; }
    bool is_recorded() const { return recorder || events; }
    // What threads note by themselves is told only at the end, when they have ended.
    std::string recording(bool at_the_end) {
        require(recorder || (events && at_the_end), "the options say that nothing is recorded, or that it is told at the end");
        Held held(*this);
        return plan.text + "%%\n" + (recorder ? recorder->text() : events->text());
    }
    static live_request vote(std::uint32_t queue, std::uint32_t voter, bool on) {
        live_request wanted = request(LIVE_VOTE, 0, queue, voter);
        wanted.on = on;
        return wanted;
    }

private:
    struct alignas(16) Block {
        unsigned char bytes[16];
    };
    static constexpr std::uint64_t never = UINT64_MAX;
    static constexpr std::int64_t longest_delay = 1'000'000'000'000;  // some 11 days: longer ones are as this one

    static std::vector<std::uint64_t> reserved(std::size_t count) {
        std::vector<std::uint64_t> empty;
        empty.reserve(count);
        return empty;
    }
    unsigned char* core() { return reinterpret_cast<unsigned char*>(room.get()); }
    void open() {
        live_opened opened{};
        const auto* const text = reinterpret_cast<const unsigned char*>(plan.text.data());
        const std::uint32_t came = live_open(core(), text, plan.text.size(), &opened);
        if (came == LIVE_OUT_OF_MEMORY) throw std::bad_alloc();
        if (!is_recorded()) plan.text = {};  // nobody asks for it any more
        if (came == LIVE_OPENED) return;
        const std::string where = "line " + std::to_string(opened.line) + ", reason " + std::to_string(opened.number);
        throw std::logic_error("taskenv: these options are no plan: " + where);
    }
    // The guest's seat, under which those post who have none.
    std::uint32_t guest() const { return plan.workers + 1; }
    // The seat of this thread.
    std::uint32_t own_seat() const { return current.host == this ? current.seat : is_main_thread() ? 0 : guest(); }
    // The seat under which this thread posts: a worker's only where it runs a task.
    std::uint32_t posting_seat() const { return own_seat() == 0 || (current.host == this && current.home) ? own_seat() : guest(); }
    // Shutdown is done. Nothing is waited for any more, so no moment counts.
    void end(Trash& trash) {
        is_over = true;
        while (!moments.empty()) moments.pop();
        scope_moments.fill(never);
        time_changed.notify_all();
        for (auto& task : waiting)
            if (task) trash.add(std::move(task));
    }
    void sweep_queue(std::uint32_t queue, Trash& trash) {
        for (auto& task : waiting)
            if (task && task->home->sort == Home::main_queue && task->home->number == queue) trash.add(std::move(task));
    }
    // Gives a runner a free slot, whose priority becomes the wanted one; false where none is free.
    bool take_slot(Home& runner, Slots& slots, Priority wanted) {
        Held held(*this);
        const auto slot = slots.take(wanted);
        if (!slot) return false;
        runner.slots = &slots, runner.slot = *slot, runner.number = slot->runner;
        if (slot->priority != wanted) held.drive(request(LIVE_REPRIO, 0, slot->runner, std::uint32_t(wanted)));
        runner.slot.priority = wanted;
        return true;
    }
    // Gives a main queue its number; false where all were made.
    bool number_main_queue(Home& queue, unsigned its_class) {
        Held held(*this);
        if (main_queues_made == options.main_queues) return false;
        queue.number = main_queues_made + 1;  // 0 is the first one, which is there from the beginning
        if (its_class != Plan::first_class) held.drive(request(LIVE_RANK, 0, queue.number, its_class));
        ++main_queues_made;
        return true;
    }
    std::optional<JobSlot> take_job(Traits traits, std::uint32_t items, std::uint32_t most_at_once) {
        Held held(*this);
        return plan.jobs_left[Plan::sort_of_job(traits.priority, traits.behaviour)].take(items, most_at_once);
    }
    // The next moment at which a delayed task is ripe, or a scope that may block comes to count.
    std::uint64_t next_moment() const {
        const std::uint64_t scope = *std::min_element(scope_moments.begin(), scope_moments.end());
        return moments.empty() ? scope : std::min(scope, moments.top());
    }
    bool opens_scope(Blocking scope) {
        Held held(*this);
        const std::uint64_t now = scope == Blocking::may_block ? held.tick() : 0;
        if (held.call(request(LIVE_ENTER, current.seat, 0, std::uint32_t(scope))).status != LIVE_MADE) return false;
        if (scope == Blocking::will_block || is_over) return true;
        const std::uint64_t counts_from = now + std::uint64_t(options.may_block_threshold.count());
        await_moment(counts_from);
        scope_moments[current.seat] = counts_from;
        return true;
    }
    // Has the service thread sleep no longer than to this moment, which is about to be noted.
    void await_moment(std::uint64_t moment) {
        if (moment < next_moment()) time_changed.notify_one();
    }
    // The moments up to this one have passed.
    void pass(std::uint64_t now) {
        if (!moments.empty() && moments.top() <= now) poke_main();
        while (!moments.empty() && moments.top() <= now) moments.pop();
        for (auto& moment : scope_moments)
            if (moment <= now) moment = never;
    }
    // There may be a main task to take.
    void poke_main() {
        main_is_poked = true;
        main_changed.notify_one();
    }
    // Calls what is a user's. An exception that leaves it goes to the user's handler, or ends the program.
    template <class F>
    void guarded(const F& call) noexcept {
        if (!options.on_exception) return call();
        try {
            call();
        } catch (...) {
            options.on_exception(std::current_exception());
        }
    }
    void run_task(std::uint32_t seat, Task& task) {
        const Doing doing(this, seat, &task.home);
        guarded([&] { task.closure.run(); });
    }
    void work_on_job(std::uint32_t seat, const live_answer& taken) {
        const Doing doing(this, seat, nullptr);
        Job& job = jobs[taken.place];
        for (std::uint32_t item = taken.item;;) {
            if (item < job.items) {
                JobDelegate delegate(job.yields, taken.id, item);
                guarded([&] { job.work(delegate); });
            }
            JobWork dropped;  // is destroyed once the lock is free
            Held held(*this);
            const live_answer did = held.must(request(LIVE_JOB_STEP, seat));
            if (--job.left == 0) dropped.swap(job.work);
            item = did.next;
            if (did.ok) continue;
            if (seat == 0) held.free_driver();
            return;
        }
    }

    const Options options;
    Plan plan;
    const std::unique_ptr<Block[]> room;  // where the core lies
    const std::unique_ptr<Parker[]> parkers;  // of each seat
    const std::thread::id main_thread = std::this_thread::get_id();
    const std::chrono::steady_clock::time_point beginning = std::chrono::steady_clock::now();

    const std::unique_ptr<Events> events;  // what it locks, it says itself
    std::atomic<bool> has_begun_shutdown{false};

    std::mutex mutex;  // the lock. All below is looked at and changed under it
    std::unique_ptr<Recorder> recorder;  // it is there from the beginning, or never
    std::vector<std::unique_ptr<Task>> waiting;  // by number, from the post to the take
    std::uint32_t handed_out = 0;
    // The ripe moments of delayed tasks; and of each seat the moment when its scope comes to count, or never.
    std::priority_queue<std::uint64_t, std::vector<std::uint64_t>, std::greater<>> moments;
    std::array<std::uint64_t, 66> scope_moments;
    std::vector<Job> jobs;
    std::vector<std::vector<std::uint32_t>> free_voters;  // of each main queue
    unsigned main_queues_made = 0;
    std::atomic<unsigned> single_runners_made{0};
    std::atomic<std::uint64_t> mock_now{0};

    bool driver_works = false;       // it runs a main task, or an item of a job
    std::vector<live_request> kept;  // the driver's calls that came meanwhile
    bool main_is_poked = false;
    std::condition_variable main_changed, time_changed;
    bool is_over = false;    // shutdown is done
    bool is_closed = false;  // the core is gone
};

inline Home::~Home() {
    if (slots) host->give_back(*slots, slot);
}

}  // namespace detail

}  // namespace taskenv
