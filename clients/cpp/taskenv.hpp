// The task environment of a process, for C++17 (the notions are those of Chromium's base/task). A proved core, behind taskenv.h,
// decides which task may start, what is refused, and whom to wake; taskenv_host.hpp brings threads, one lock, sleep and closures; and
// here is what users hold. docs/embedding.md begins with a first program, and says what is proved, what is tested, what is trusted.
//
// Driver's calls. Some calls are the main thread's, and the core takes them only while the main thread runs no main task and no item
// of a job: a new priority for a runner (which making one may need), the policy, all that is done to a main queue but posts (a queue
// that is made, fences, votes, classes, closing), and the post and the cancel of a job. Any thread may ask for them. While the main
// thread is at work they are kept in a list, in order, and made as soon as its task or item has ended.
//
// Misuse throws std::logic_error, and changes nothing: null closures, or calls on a thread that may not make them. `NoRoom` is thrown
// where the plan has no free runner, main queue, voter or job left. A post answers false where it was refused, or where no number is left.
#pragma once
#include "taskenv_host.hpp"

#include <tuple>

namespace taskenv {

// What was posted with a delay. Where nobody holds it, the task runs all the same.
class DelayedTaskHandle {
public:
    DelayedTaskHandle() = default;
    DelayedTaskHandle(std::shared_ptr<detail::Host> of, std::optional<std::uint32_t> task) : host(std::move(of)), number(task) {}
    // Whether the post was accepted.
    explicit operator bool() const { return number.has_value(); }
    // Whether the task has neither started nor been cancelled.
    bool is_waiting() const { return number && host->is_waiting(*number); }
    // Destroys the closure, on this thread, unless its task has started; answers whether it did. Its task is an empty run.
    bool cancel() { return number && host->cancel(*number); }

private:
    std::shared_ptr<detail::Host> host;
    std::optional<std::uint32_t> number;
};

// Where tasks are posted, from any thread. Copies are the same runner. A runner may outlive its environment: then it refuses posts.
class TaskRunner {
public:
    TaskRunner() = default;
    explicit TaskRunner(detail::HomeRef at) : home(std::move(at)) {}
    explicit operator bool() const { return home != nullptr; }
    bool operator==(const TaskRunner& other) const {
        if (!home || !other.home) return home == other.home;
        return home->host == other.home->host && home->sort == other.home->sort && home->number == other.home->number;
    }
    bool operator!=(const TaskRunner& other) const { return !(*this == other); }

    // Posts a closure. False: it was refused, and was destroyed on this thread.
    bool post_task(OnceClosure closure) const { return post(std::move(closure), Microseconds(0)).has_value(); }
    // The same, to start no earlier than after the delay. Of a delay above 0, shutdown treats a block task as one that it skips.
    DelayedTaskHandle post_delayed_task(OnceClosure closure, Microseconds delay) const {
        auto number = post(std::move(closure), delay);
        return DelayedTaskHandle(home->host, number);
    }
    // Posts a task, and then, from its end, a reply with its result to the runner that is the default one here (or to the one given).
    template <class Function, class Reply>
    bool post_task_and_reply_with_result(Function task, Reply reply) const;
    template <class Function, class Reply>
    bool post_task_and_reply_with_result(Function task, Reply reply, TaskRunner back) const;
    // Destroys the object in a task. Where that is refused, it is destroyed here.
    template <class T>
    bool delete_soon(std::unique_ptr<T> object) const {
        return post_task([object = std::move(object)]() mutable { object.reset(); });
    }
    // Whether what this thread does now runs one after the other with this runner's tasks: it is one of them; or it is the main
    // thread, of a main queue. Tasks of a parallel runner never do.
    bool runs_tasks_in_current_sequence() const {
        detail::require(home != nullptr, "a null runner");
        if (home->sort == detail::Home::main_queue) return home->host->is_main_thread();
        return home->sort == detail::Home::sequence && detail::current.home && *detail::current.home == home;
    }
    // Gives a sequenced or single-thread runner another priority, also for what waits (a driver's call).
    void update_priority(Priority priority) const {
        detail::require(home != nullptr, "a null runner");
        home->host->update_priority(*home, priority);
    }

private:
    std::optional<std::uint32_t> post(OnceClosure closure, Microseconds delay) const {
        detail::require(home != nullptr, "a null runner");
        return home->host->post(home, std::move(closure), delay);
    }
    detail::HomeRef home;
};

// The runner of the task that this thread runs; of the main thread outside of its tasks, that of its first main queue; else null, as
// in tasks of parallel runners, in jobs, and on threads of no environment.
inline TaskRunner current_default_runner() {
    if (detail::current.home) return (*detail::current.home)->sort == detail::Home::parallel ? TaskRunner() : TaskRunner(*detail::current.home);
    if (detail::current.host || detail::main_hosts.empty()) return TaskRunner();
    return TaskRunner(detail::main_hosts.back()->home(detail::Home::main_queue, 0));
}

template <class Function, class Reply>
bool TaskRunner::post_task_and_reply_with_result(Function task, Reply reply, TaskRunner back) const {
    detail::require(!OnceClosure::is_null(task) && !OnceClosure::is_null(reply), "a closure that is posted is not null");
    detail::require(bool(back), "a reply needs a runner to go to");
    return post_task([task = std::move(task), reply = std::move(reply), back = std::move(back)]() mutable {
        if constexpr (std::is_void_v<decltype(task())>) {
            task();
            back.post_task(std::move(reply));
        } else {
            back.post_task([reply = std::move(reply), result = task()]() mutable { reply(std::move(result)); });
        }
    });
}

template <class Function, class Reply>
bool TaskRunner::post_task_and_reply_with_result(Function task, Reply reply) const {
    return post_task_and_reply_with_result(std::move(task), std::move(reply), current_default_runner());
}

// A function that posts a call of this one, with its arguments, to a runner.
template <class Function>
auto bind_post_task(TaskRunner runner, Function function) {
    return [runner = std::move(runner), function = std::move(function)](auto... arguments) {
        return runner.post_task([function, given = std::make_tuple(std::move(arguments)...)]() mutable { std::apply(function, std::move(given)); });
    };
}

// While it lives, this thread's task is in a blocking scope, so that another one may run meanwhile. Within another scope it changes
// nothing, but that one that will block makes the other one count as such. In main tasks, jobs and threads of no environment it has no
// effect. Its task's runner may block.
class ScopedBlockingCall {
public:
    explicit ScopedBlockingCall(Blocking scope) : counts(detail::current.home && detail::current.seat != 0) {
        detail::Current& now = detail::current;
        if (!counts) return;
        const bool rises = now.scopes > 0 && scope == Blocking::will_block && now.scope == Blocking::may_block;
        if (rises) now.host->close_scope();
        if (rises || now.scopes == 0) now.host->open_scope(scope), now.scope = scope;
        ++now.scopes;
    }
    ScopedBlockingCall(const ScopedBlockingCall&) = delete;
    ~ScopedBlockingCall() {
        if (counts && --detail::current.scopes == 0) detail::current.host->close_scope();
    }

private:
    const bool counts;
};

// A pointer to an object that may be gone. It is looked through only on the sequence on which its factory is invalidated or destroyed.
template <class T>
class WeakPtr {
public:
    WeakPtr() = default;
    WeakPtr(std::shared_ptr<const std::atomic<bool>> lives, T* at) : is_alive(std::move(lives)), object(at) {}
    T* get() const { return is_alive && *is_alive ? object : nullptr; }
    explicit operator bool() const { return get() != nullptr; }
    T* operator->() const { return get(); }
    T& operator*() const { return *get(); }

private:
    std::shared_ptr<const std::atomic<bool>> is_alive;
    T* object = nullptr;
};

// Makes weak pointers to its owner. It is the owner's last member, so that they end before all else does.
template <class T>
class WeakPtrFactory {
public:
    explicit WeakPtrFactory(T* owner) : object(owner) {}
    WeakPtrFactory(const WeakPtrFactory&) = delete;
    ~WeakPtrFactory() { invalidate_weak_ptrs(); }
    WeakPtr<T> get_weak_ptr() const { return WeakPtr<T>(is_alive, object); }
    // What was posted with the pointers that there are is an empty run from now on.
    void invalidate_weak_ptrs() {
        *is_alive = false;
        is_alive = std::make_shared<std::atomic<bool>>(true);
    }

private:
    T* const object;
    std::shared_ptr<std::atomic<bool>> is_alive = std::make_shared<std::atomic<bool>>(true);
};

// A closure that calls a method with these arguments where the object is still there, and else does nothing.
template <class T, class Method, class... Arguments>
auto bind_weak(Method method, WeakPtr<T> object, Arguments... arguments) {
    return [method, object = std::move(object), given = std::make_tuple(std::move(arguments)...)]() mutable {
        if (T* const there = object.get()) std::apply([&](auto&... each) { (there->*method)(each...); }, given);
    };
}

namespace detail {

// A timer: one post, or each time another one. All its calls come on its runner's sequence, and it is destroyed there.
class Timer {
public:
    Timer(const Timer&) = delete;
    ~Timer() { stop(); }
    // Starts it anew. Without a runner it is the default one here. False: the post was refused.
    bool start(Microseconds delay, std::function<void()> task, TaskRunner runner = {}) {
        require(bool(task), "the task of a timer is not null");
        stop();
        shot = std::make_shared<Shot>(Shot{std::move(task), runner ? runner : current_default_runner(), delay, repeats, {}});
        require(bool(shot->runner), "a timer needs a runner");
        return shot->post(shot);
    }
    void stop() {
        if (shot) shot->posted.cancel();
        shot = nullptr;
    }
    bool is_running() const { return shot && shot->posted.is_waiting(); }

protected:
    explicit Timer(bool many) : repeats(many) {}

private:
    struct Shot {
        std::function<void()> task;
        TaskRunner runner;
        Microseconds delay;
        bool repeats;
        DelayedTaskHandle posted;
        bool post(const std::shared_ptr<Shot>& self) {
            posted = runner.post_delayed_task([weak = std::weak_ptr<Shot>(self)] { fire(weak.lock()); }, delay);
            return bool(posted);
        }
    };
    // The task may stop, start or destroy the timer: the shot is held here meanwhile.
    static void fire(const std::shared_ptr<Shot>& shot) {
        if (!shot) return;
        shot->posted = {};
        if (shot->repeats) shot->post(shot);
        shot->task();
    }
    const bool repeats;
    std::shared_ptr<Shot> shot;
};

}  // namespace detail

class OneShotTimer : public detail::Timer {
public:
    OneShotTimer() : Timer(false) {}
};

class RepeatingTimer : public detail::Timer {
public:
    RepeatingTimer() : Timer(true) {}
};

// A voter of a main queue, which runs tasks only while all its voters vote that it does. At its end it votes so.
class Voter {
public:
    Voter(detail::HomeRef queue, std::uint32_t its_number) : home(std::move(queue)), number(its_number) {}
    Voter(Voter&& other) noexcept = default;
    ~Voter() {
        if (home) home->host->give_back_voter(home->number, number);
    }
    // A driver's call.
    void set_voting_enabled(bool on) { home->host->drive(detail::Host::vote(home->number, number, on)); }

private:
    detail::HomeRef home;
    const std::uint32_t number;
};

// A queue of the main thread. All but `task_runner` are driver's calls: asked for within a main task they are made at its end, so a
// fence at `now` that a main task sets is also before what the rest of the task posts.
class MainQueue {
public:
    explicit MainQueue(detail::HomeRef at) : home(std::move(at)) {}
    TaskRunner task_runner() const { return TaskRunner(home); }
    void insert_fence(FenceAt at) const { drive(LIVE_FENCE, std::uint32_t(at)); }
    void remove_fence() const { drive(LIVE_UNFENCE); }
    // From 0, which goes first, to 7.
    void set_class(unsigned its_class) const {
        detail::require(its_class <= 7, "a main queue's class is 0 to 7");
        drive(LIVE_RANK, its_class);
    }
    // Refuses all posts from then on. Tasks that have not started never run, and are destroyed by the thread that makes the call.
    void shut_down() const { drive(LIVE_CLOSE); }
    Voter create_voter() const {
        const auto voter = home->host->take_voter(home->number);
        if (!voter) throw NoRoom("taskenv: the main queue has no free voter");
        return Voter(home, *voter);
    }

private:
    void drive(live_call_code call, std::uint32_t word = 0) const { home->host->drive(detail::request(call, 0, home->number, word)); }
    detail::HomeRef home;
};

// A job that was posted.
class JobHandle {
public:
    JobHandle(std::shared_ptr<detail::Host> of, unsigned its_number) : host(std::move(of)), job(its_number) {}
    // The main thread, outside of its tasks, works on the job too, until it has its reply. Not after shutdown.
    JobReply join() const { return host->join_job(job); }
    // No further item is begun (a driver's call). The main thread, outside of its tasks, also waits until nobody works on the job.
    void cancel() const { host->cancel_job_and_wait(job); }
    void cancel_and_detach() const { host->cancel_job(job); }

private:
    std::shared_ptr<detail::Host> host;
    unsigned job;
};

// An environment. The thread that makes it is its main thread, and alone may run loops, wait, shut it down and destroy it, which it
// does outside of main tasks. Other threads may use it as long as it is there; runners and the other handles may outlive it.
class TaskEnvironment {
public:
    // Throws std::bad_alloc where there is no memory for the plan, std::logic_error where the options are none, and
    // std::system_error where a thread can't be started.
    explicit TaskEnvironment(const Options& options = {}) : host(std::make_shared<detail::Host>(options)), has_mock_time(options.mock_time) {
        detail::main_hosts.reserve(detail::main_hosts.size() + 1);  // so that nothing fails once the threads run
        try {
            for (unsigned seat = 1; seat <= options.worker_threads; ++seat) threads.emplace_back([at = host, seat] { at->work(seat); });
            if (!has_mock_time) threads.emplace_back([at = host] { at->keep_time(); });
        } catch (...) {
            end();
            throw;
        }
        detail::main_hosts.push_back(host.get());
    }
    TaskEnvironment(const TaskEnvironment&) = delete;
    // Shuts down, and waits for all threads, also for running tasks that shutdown doesn't wait for.
    ~TaskEnvironment() {
        auto& hosts = detail::main_hosts;
        hosts.erase(std::remove(hosts.begin(), hosts.end(), host.get()), hosts.end());
        end();
    }

    // Tasks that may run at the same time as each other, in any order.
    TaskRunner task_runner(Traits traits = {}) { return TaskRunner(host->parallel_runner(traits)); }
    // Tasks that run one after the other, in order.
    TaskRunner sequenced_task_runner(Traits traits = {}) { return TaskRunner(host->sequenced_runner(traits)); }
    // The same, all on one worker thread.
    TaskRunner single_thread_task_runner(Traits traits = {}) { return TaskRunner(host->single_thread_runner(traits)); }
    // The main thread's first queue, of class 3; and another one. Those that are made are not given back.
    MainQueue main_queue() { return MainQueue(host->home(detail::Home::main_queue, 0)); }
    MainQueue main_queue(unsigned its_class) { return MainQueue(host->main_queue(its_class)); }
    TaskRunner main_task_runner() { return main_queue().task_runner(); }
    bool post_task(Traits traits, OnceClosure closure) { return task_runner(traits).post_task(std::move(closure)); }

    // Posts a job of so many items: `work` is called once for each, by several threads at once, but by no more than `most_at_once` (a
    // driver's call). It is the smallest job of the plan that has room for them, which is posted once. `may_block` has no effect.
    JobHandle post_job(Traits traits, std::uint32_t items, std::function<void(JobDelegate&)> work, std::uint32_t most_at_once = most_inside_a_job) {
        return JobHandle(host, host->post_job(traits, items, std::move(work), most_at_once));
    }
    // Says which work of the pool may start (a driver's call). From the start of shutdown on it has no effect.
    void set_policy(Policy policy) { host->drive(detail::request(LIVE_POLICY, 0, 0, std::uint32_t(policy))); }

    // Waits until no task of the pool runs and none may start. It waits neither for delays nor for what the policy holds back.
    void flush_for_testing() {
        host->require_driver();
        host->await(detail::request(LIVE_IDLE));
    }
    // Begins shutdown, and waits until all is done that blocks it. No task starts after that, and no post is accepted.
    void shutdown() { host->shutdown(); }
    // Whether shutdown has begun: from any thread, as for a task that may end early.
    bool has_shutdown_started() const { return host->has_shutdown_started(); }

    // Runs main tasks and waits for the pool, until neither has anything to do.
    void run_until_idle() {
        host->require_driver();
        do {
            while (host->run_main_task() == detail::Host::Turn::ran) {}
            flush_for_testing();
        } while (host->is_poked());
    }
    // With mock time: moves the clock, from one moment to the next at which there is something to do, and does that.
    void fast_forward_by(Microseconds delta) {
        host->require_driver();
        detail::require(has_mock_time, "only mock time can be moved");
        const std::uint64_t last = host->now() + std::uint64_t(std::max<std::int64_t>(delta.count(), 0));
        run_until_idle();
        while (const auto next = host->next_by(last)) host->move_clock(*next), run_until_idle();
        host->move_clock(last);
        run_until_idle();
    }
    // The time since the environment was made.
    Microseconds now() const { return Microseconds(host->now()); }
    // How often something can still be posted. (What is refused counts too.)
    unsigned posts_left() const { return host->posts_left(); }
    // The plan, a line `%%`, and what is kept of what happened so far, from any thread. What threads note by themselves is told only at the end.
    std::string recording() const { return host->recording(false); }
    // Called with the whole recording, if there is one, at the end, when nothing can happen any more.
    std::function<void(const std::string&)> on_end_of_recording;

private:
    friend class RunLoop;
    void end() {
        // Worker seats whose threads didn't start have nothing to do: nothing was posted.
        host->shutdown();
        for (auto& thread : threads) thread.join();
        if (on_end_of_recording && host->is_recorded()) on_end_of_recording(host->recording(true));
        host->close();
    }
    const std::shared_ptr<detail::Host> host;
    const bool has_mock_time;
    std::vector<std::thread> threads;
};

// Runs main tasks on the main thread. A main task can't run another loop.
class RunLoop {
public:
    explicit RunLoop(TaskEnvironment& environment) : host(environment.host) {}
    // Runs main tasks, and sleeps where there are none, until it is told to quit. Once shutdown is done there are none any more.
    void run() { host->run_until(*quits); }
    void run_until_idle() {
        host->require_driver();
        while (!*quits && host->run_main_task() == detail::Host::Turn::ran) {}
    }
    // From any thread: `run` returns after the main task that it runs, or at once.
    void quit() { host->quit(*quits); }
    std::function<void()> quit_closure() const {
        return [host = host, quits = quits] { host->quit(*quits); };
    }

private:
    std::shared_ptr<detail::Host> host;
    std::shared_ptr<std::atomic<bool>> quits = std::make_shared<std::atomic<bool>>(false);
};

}  // namespace taskenv
