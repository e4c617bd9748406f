// One test for each feature of the client.
#include "expect.hpp"

using namespace taskenv;
using namespace std::chrono_literals;

namespace {

constexpr Traits skipping{Priority::user_visible, Behaviour::skip_on_shutdown, false};
constexpr Traits blocking{Priority::user_visible, Behaviour::block_shutdown, true};

Options mock(unsigned worker_threads = 2) {
    Options options = small(worker_threads);
    options.mock_time = true;
    return options;
}

// Opens once for all who wait.
class Gate {
public:
    void open() {
        std::lock_guard<std::mutex> lock(mutex);
        is_open = true;
        changed.notify_all();
    }
    void wait() {
        std::unique_lock<std::mutex> lock(mutex);
        changed.wait(lock, [this] { return is_open; });
    }

private:
    std::mutex mutex;
    std::condition_variable changed;
    bool is_open = false;
};

void parallel_tasks_all_run() {
    Environment environment;
    std::atomic<int> ran{0};
    for (int i = 0; i < 500; ++i) EXPECT(environment.task_runner(skipping).post_task([&] { ++ran; }));
    environment.flush_for_testing();
    EXPECT(ran == 500 && environment.posts_left() == 2048 - 500);
}

void parallel_tasks_overlap() {
    Environment environment;
    Gate first, second;
    environment.post_task(skipping, [&] { first.open(), second.wait(); });
    environment.post_task(skipping, [&] { second.open(), first.wait(); });
    environment.flush_for_testing();
}

void a_sequence_runs_in_order() {
    Environment environment;
    std::vector<int> seen;  // no lock: the sequence is one
    const TaskRunner runner = environment.sequenced_task_runner(skipping);
    for (int i = 0; i < 300; ++i) runner.post_task([&seen, i] { seen.push_back(i); });
    environment.flush_for_testing();
    EXPECT(seen.size() == 300 && std::is_sorted(seen.begin(), seen.end()));
}

// Notes, when it is destroyed, whether that is in a task of the runner.
class Witness {
public:
    Witness(TaskRunner of, std::atomic<int>& counts) : runner(std::move(of)), inside(counts) {}
    Witness(const Witness&) = delete;
    ~Witness() { inside += runner.runs_tasks_in_current_sequence() && current_default_runner() == runner; }

private:
    const TaskRunner runner;
    std::atomic<int>& inside;
};

void closures_are_destroyed_in_their_tasks() {
    std::atomic<int> inside{0};
    Environment environment;
    const TaskRunner one = environment.sequenced_task_runner(skipping), two = environment.single_thread_task_runner(skipping);
    for (const TaskRunner& runner : {one, two, environment.main_task_runner()})
        runner.post_task([owned = std::make_unique<Witness>(runner, inside)] {});
    environment.run_until_idle();
    EXPECT(inside == 3);
}

void single_thread_tasks_share_a_thread() {
    Environment environment;
    std::set<std::thread::id> threads;
    const TaskRunner runner = environment.single_thread_task_runner(skipping);
    for (int i = 0; i < 100; ++i) {
        runner.post_task([&] { threads.insert(std::this_thread::get_id()); });
        environment.post_task(skipping, [] {});
    }
    environment.flush_for_testing();
    EXPECT(threads.size() == 1);
}

void runners_come_free() {
    Options options = small(2);
    options.sequenced_runners = 1;
    Environment environment(options);
    Gate gate;
    {
        const TaskRunner runner = environment.sequenced_task_runner(skipping);
        EXPECT(throws<NoRoom>([&] { environment.sequenced_task_runner(skipping); }));
        runner.post_task([&] { gate.wait(); });
    }
    EXPECT(throws<NoRoom>([&] { environment.sequenced_task_runner(skipping); }));  // its task runs still
    gate.open();
    environment.flush_for_testing();
    for (int i = 0; i < 1000; ++i) {
        try {
            environment.sequenced_task_runner(skipping);
            return;
        } catch (const NoRoom&) {
            std::this_thread::sleep_for(1ms);  // the worker lets go of it after its task's end
        }
    }
    EXPECT(false);
}

void priorities_go_first() {
    Options options = small(1);
    options.sequenced_runners = 1;  // so that a runner may have another priority than its slot had
    Environment environment(options);
    Gate busy, gate;
    std::vector<int> seen;
    environment.post_task(skipping, [&] { busy.open(), gate.wait(); });
    busy.wait();
    const TaskRunner raised = environment.sequenced_task_runner({Priority::best_effort, Behaviour::skip_on_shutdown});
    const TaskRunner high = environment.sequenced_task_runner({Priority::user_blocking, Behaviour::block_shutdown});
    raised.post_task([&] { seen.push_back(4); });
    environment.post_task({Priority::best_effort}, [&] { seen.push_back(0); });
    environment.post_task({Priority::user_visible}, [&] { seen.push_back(1); });
    high.post_task([&] { seen.push_back(3); });
    environment.post_task({Priority::user_blocking}, [&] { seen.push_back(2); });
    raised.update_priority(Priority::user_blocking);
    gate.open();
    environment.flush_for_testing();
    EXPECT((seen == std::vector<int>{4, 3, 2, 1, 0}));
}

void delays_pass_in_real_time() {
    Environment environment;
    const auto start = std::chrono::steady_clock::now();
    std::atomic<std::int64_t> first{0}, second{0};
    const auto since = [start] { return std::chrono::duration_cast<Microseconds>(std::chrono::steady_clock::now() - start).count(); };
    RunLoop loop(environment);
    environment.task_runner().post_delayed_task([] {}, 40ms);
    std::this_thread::sleep_for(20ms);  // a delay is counted from its post, and not from what the core read last
    const auto posted = since();
    environment.task_runner().post_delayed_task([&] { first = since(); }, 30ms);
    environment.main_task_runner().post_delayed_task([&] { second = since(), loop.quit(); }, 60ms);
    loop.run();
    environment.flush_for_testing();  // a worker may be late on a busy machine
    EXPECT(first >= posted + 30000 && second >= posted + 60000);
}

void delayed_tasks_cancel() {
    Environment environment(mock());
    bool ran = false;
    auto owned = std::make_shared<int>(1);
    DelayedTaskHandle handle = environment.task_runner().post_delayed_task([&ran, owned] { ran = true; }, 10s);
    EXPECT(handle && handle.is_waiting() && owned.use_count() == 2);
    EXPECT(handle.cancel() && !handle.is_waiting() && owned.use_count() == 1 && !handle.cancel());
    environment.fast_forward_by(20s);
    EXPECT(!ran);
    DelayedTaskHandle late = environment.task_runner().post_delayed_task([&ran] { ran = true; }, 1s);
    environment.fast_forward_by(1s);
    EXPECT(ran && !late.is_waiting() && !late.cancel());
}

void mock_time_moves_alone_by_hand() {
    Environment environment(mock());
    std::vector<std::pair<int, std::int64_t>> seen;
    const TaskRunner runner = environment.sequenced_task_runner();
    const auto see = [&](int which) { return [&, which] { seen.emplace_back(which, environment.now().count()); }; };
    runner.post_delayed_task(see(3), 3s);
    runner.post_delayed_task(see(1), 1s);
    environment.main_task_runner().post_delayed_task(see(2), 2s);
    environment.main_task_runner().post_task(see(0));
    environment.fast_forward_by(2500ms);
    EXPECT(environment.now() == 2500ms && seen.size() == 3);
    environment.fast_forward_by(10s);
    EXPECT((seen == std::vector<std::pair<int, std::int64_t>>{{0, 0}, {1, 1000000}, {2, 2000000}, {3, 3000000}}));
}

void mock_time_ends_after_shutdown() {
    Environment environment(mock());
    bool ran = false;
    environment.task_runner(skipping).post_delayed_task([&] { ran = true; }, 1s);
    environment.main_task_runner().post_task([&] { ran = true; });
    environment.shutdown();
    environment.fast_forward_by(2s);
    EXPECT(!ran && environment.now() == 2s);
}

void main_tasks_run_in_a_loop() {
    Environment environment;
    RunLoop loop(environment);
    std::vector<int> seen;
    const TaskRunner main = environment.main_task_runner();
    const std::thread::id here = std::this_thread::get_id();
    main.post_task([&] { seen.push_back(0); });
    environment.post_task(skipping, [&] {
        std::this_thread::sleep_for(10ms);  // the main thread sleeps by now
        main.post_task([&] {
            EXPECT(std::this_thread::get_id() == here);
            seen.push_back(1);
            loop.quit();
        });
    });
    loop.run();
    EXPECT((seen == std::vector<int>{0, 1}));
    RunLoop foreign(environment);
    std::thread other(foreign.quit_closure());
    foreign.run();
    other.join();
}

void main_queues_have_classes_fences_and_voters() {
    Environment environment(mock());
    std::string seen;
    const auto see = [&](char what) { return [&seen, what] { seen += what; }; };
    const MainQueue usual = environment.main_queue(), urgent = environment.main_queue(0), idle = environment.main_queue(7);
    idle.task_runner().post_task(see('c'));
    usual.task_runner().post_task(see('b'));
    urgent.task_runner().post_task(see('a'));
    environment.run_until_idle();
    EXPECT(seen == "abc");

    usual.task_runner().post_task(see('d'));
    usual.insert_fence(FenceAt::now);
    usual.task_runner().post_task(see('e'));
    environment.run_until_idle();
    EXPECT(seen == "abcd");
    usual.remove_fence();
    environment.run_until_idle();
    EXPECT(seen == "abcde");
    usual.insert_fence(FenceAt::start);
    usual.task_runner().post_task(see('f'));
    environment.run_until_idle();
    EXPECT(seen == "abcde");
    usual.remove_fence();
    {
        Voter voter = usual.create_voter();
        voter.set_voting_enabled(false);
        environment.run_until_idle();
        EXPECT(seen == "abcde");
    }
    environment.run_until_idle();
    EXPECT(seen == "abcdef");
    idle.set_class(1);
    usual.task_runner().post_task(see('h'));
    idle.task_runner().post_task(see('g'));
    environment.run_until_idle();
    EXPECT(seen == "abcdefgh");
}

void a_queue_that_shuts_down_drops_its_tasks() {
    Environment environment;
    const MainQueue queue = environment.main_queue(2);
    auto owned = std::make_shared<int>(1);
    EXPECT(queue.task_runner().post_task([owned] { EXPECT(false); }));
    EXPECT(queue.task_runner().post_delayed_task([owned] { EXPECT(false); }, 1ms));
    EXPECT(owned.use_count() == 3);
    queue.shut_down();
    EXPECT(owned.use_count() == 1 && !queue.task_runner().post_task([owned] {}) && owned.use_count() == 1);
    environment.run_until_idle();
}

void drivers_calls_of_main_tasks_are_kept() {
    Environment environment(mock());
    std::string seen;
    std::atomic<bool> is_held{true};
    const MainQueue queue = environment.main_queue();
    const TaskRunner main = queue.task_runner(), other = environment.main_queue(5).task_runner();
    Gate done;
    main.post_task([&] {
        queue.insert_fence(FenceAt::now);  // is made at the end of this task: what it posts goes before the fence
        main.post_task([&] { seen += 'b'; });
        environment.post_task(skipping, [&] { environment.set_policy(Policy::none), done.open(); });
        done.wait();
        environment.post_task(skipping, [&] { is_held = false; });  // starts at once: the policy is none only at the end of this task
        while (is_held) std::this_thread::yield();
        environment.sequenced_task_runner({Priority::best_effort, Behaviour::block_shutdown});
        seen += 'a';
        EXPECT(throws<std::logic_error>([&] { environment.flush_for_testing(); }));
        EXPECT(throws<std::logic_error>([&] { environment.shutdown(); }));
        EXPECT(throws<std::logic_error>([&] { RunLoop(environment).run(); }));
    });
    other.post_task([&] { main.post_task([&] { seen += 'd'; }), seen += 'c'; });
    environment.run_until_idle();
    EXPECT(seen == "abc");
    is_held = true;
    environment.post_task(skipping, [&] { is_held = false; });
    environment.flush_for_testing();
    EXPECT(is_held);
    environment.set_policy(Policy::all);
    environment.flush_for_testing();
    EXPECT(!is_held);
    queue.remove_fence();
    environment.run_until_idle();
    EXPECT(seen == "abcd");
}

void policies_hold_back() {
    Environment environment;
    std::atomic<int> ran{0};
    environment.set_policy(Policy::none);
    environment.post_task({Priority::user_blocking}, [&] { ran += 1; });
    environment.post_task({Priority::best_effort}, [&] { ran += 10; });
    environment.flush_for_testing();
    EXPECT(ran == 0);
    environment.set_policy(Policy::foreground);
    environment.flush_for_testing();
    EXPECT(ran == 1);
    environment.set_policy(Policy::all);
    environment.flush_for_testing();
    EXPECT(ran == 11);
}

void replies_come_back() {
    Environment environment;
    RunLoop loop(environment);
    const std::thread::id here = std::this_thread::get_id();
    std::unique_ptr<int> got;
    EXPECT(environment.task_runner(skipping).post_task_and_reply_with_result(
        [] { return std::make_unique<int>(42); },
        [&](std::unique_ptr<int> result) {
            EXPECT(std::this_thread::get_id() == here);
            got = std::move(result);
            loop.quit();
        }));
    loop.run();
    EXPECT(got && *got == 42);

    RunLoop again(environment);
    const TaskRunner sequence = environment.sequenced_task_runner(skipping);
    sequence.post_task([&] {
        environment.task_runner(skipping).post_task_and_reply_with_result([] {}, [&] {
            EXPECT(sequence.runs_tasks_in_current_sequence());
            again.quit();
        });
    });
    again.run();
}

void one_knows_where_one_is() {
    Environment environment;
    const TaskRunner one = environment.sequenced_task_runner(skipping), two = environment.single_thread_task_runner(skipping);
    const TaskRunner parallel = environment.task_runner(skipping), main = environment.main_task_runner();
    EXPECT(current_default_runner() == main && main.runs_tasks_in_current_sequence() && !one.runs_tasks_in_current_sequence());
    const auto is_in = [&](const TaskRunner& runner) {
        return [&] {
            for (const TaskRunner* each : {&one, &two, &parallel, &main}) EXPECT(each->runs_tasks_in_current_sequence() == (each == &runner));
            EXPECT(current_default_runner() == runner);
        };
    };
    one.post_task(is_in(one));
    two.post_task(is_in(two));
    main.post_task(is_in(main));
    parallel.post_task([&] { EXPECT(!parallel.runs_tasks_in_current_sequence() && !current_default_runner()); });
    environment.run_until_idle();
    std::thread([&] { EXPECT(!current_default_runner() && !main.runs_tasks_in_current_sequence()); }).join();
}

void blocking_scopes_let_others_run() {
    Options options = small(3);
    options.foreground = 1;
    options.may_block_threshold = 24h;
    Environment environment(options);
    Gate gate;
    environment.post_task(blocking, [&] {
        const ScopedBlockingCall outer(Blocking::may_block);
        {
            const ScopedBlockingCall inner(Blocking::will_block);  // the outer one counts from here on
            gate.wait();
        }
        const ScopedBlockingCall again(Blocking::may_block);
    });
    environment.post_task(blocking, [&] { gate.open(); });  // there is room for one task only
    environment.flush_for_testing();
    environment.post_task(skipping, [] { EXPECT(throws<std::logic_error>([] { ScopedBlockingCall scope(Blocking::may_block); })); });
    environment.flush_for_testing();
    const ScopedBlockingCall no_effect(Blocking::will_block);
}

void a_scope_that_may_block_counts_after_its_threshold() {
    Options options = small(2);
    options.foreground = 1;
    options.may_block_threshold = 30ms;
    Environment environment(options);
    Gate gate;
    environment.post_task(blocking, [&] {
        const ScopedBlockingCall scope(Blocking::may_block);
        gate.wait();
    });
    environment.post_task(blocking, [&] { gate.open(); });
    environment.flush_for_testing();
}

void timers_fire() {
    Environment environment(mock());
    int once = 0, often = 0;
    {
        OneShotTimer one;
        RepeatingTimer many;
        EXPECT(one.start(2s, [&] { once += !one.is_running(); }) && many.start(1s, [&] { ++often; }));
        environment.fast_forward_by(5500ms);
        EXPECT(once == 1 && often == 5 && !one.is_running() && many.is_running());
        many.stop();
        environment.fast_forward_by(5s);
        EXPECT(often == 5);
        many.start(1s, [&] { if (++often == 7) many.stop(); });
        one.start(1s, [&] { ++once, one.start(1s, [&] { ++once; }); });
        environment.fast_forward_by(5s);
        EXPECT(once == 3 && often == 7);
        one.start(1s, [&] { ++once; });
    }
    environment.fast_forward_by(5s);
    EXPECT(once == 3);  // the timer was destroyed
}

void weak_pointers_cancel() {
    Environment environment(mock());
    struct Counter {
        int count = 0;
        void add(int by, const std::string& word) { count += by + int(word.size()); }
        WeakPtrFactory<Counter> factory{this};
    };
    const TaskRunner main = environment.main_task_runner();
    auto counter = std::make_unique<Counter>();
    main.post_task(bind_weak(&Counter::add, counter->factory.get_weak_ptr(), 3, std::string("ab")));
    environment.run_until_idle();
    EXPECT(counter->count == 5);
    main.post_task(bind_weak(&Counter::add, counter->factory.get_weak_ptr(), 1, std::string()));
    counter->factory.invalidate_weak_ptrs();
    environment.run_until_idle();
    EXPECT(counter->count == 5);
    const WeakPtr<Counter> weak = counter->factory.get_weak_ptr();
    main.post_task(bind_weak(&Counter::add, weak, 1, std::string()));
    main.delete_soon(std::move(counter));
    main.post_task(bind_weak(&Counter::add, weak, 1, std::string()));
    environment.run_until_idle();
    EXPECT(!weak);
}

void functions_are_bound_to_runners() {
    Environment environment(mock());
    int got = 0;
    const auto add = bind_post_task(environment.main_task_runner(), [&](int by, std::unique_ptr<int> more) { got += by + *more; });
    environment.post_task(skipping, [add] { add(1, std::make_unique<int>(2)); });
    environment.run_until_idle();
    EXPECT(got == 3);
}

Options with_jobs(std::vector<JobSlots> jobs, unsigned worker_threads = 4) {
    Options options = small(worker_threads);
    options.jobs = std::move(jobs);
    return options;
}

// Slots of user-visible jobs that are skipped on shutdown.
JobSlots slots(std::uint32_t least, std::uint32_t most, std::uint32_t most_at_once = 32) {
    return {skipping.priority, skipping.behaviour, least, most, 1, most_at_once};
}

void jobs_do_each_item_once() {
    Environment environment(with_jobs({slots(1000, 1000, 8)}));
    std::vector<std::atomic<int>> done(1000);
    const JobHandle job = environment.post_job(skipping, 1000, [&](JobDelegate& delegate) {
        EXPECT(delegate.id() < 8 && !delegate.should_yield());
        if (delegate.item() % 250 == 0) EXPECT(environment.post_task(skipping, [] {}));  // from within an item
        ++done[delegate.item()];
    });
    while (done[0] == 0) std::this_thread::yield();  // a worker does this one
    EXPECT(job.join() == JobReply::done && job.join() == JobReply::done);
    for (const auto& each : done) EXPECT(each == 1);
    EXPECT(throws<NoRoom>([&] { environment.post_job(skipping, 1, [](JobDelegate&) {}); }));
}

// Posts a job and joins it: each of its items is done once, and there are no others.
void do_all(Environment& environment, std::uint32_t items) {
    std::vector<std::atomic<int>> done(items);
    const auto work = [&](JobDelegate& delegate) { EXPECT(delegate.item() < items && ++done[delegate.item()] == 1); };
    EXPECT(environment.post_job(skipping, items, work).join() == JobReply::done);
    for (const auto& each : done) EXPECT(each == 1);
}

void jobs_have_any_number_of_items() {
    // Each list takes all of the jobs of 8, 16, 32 and 64 items.
    for (const std::vector<std::uint32_t>& counts :
         std::vector<std::vector<std::uint32_t>>{{0, 1, 15, 63}, {7, 8, 9, 17}, {64, 32, 16, 8}, {16, 8, 1, 0}, {0, 0, 0, 0}, {33, 17, 9, 8}}) {
        Environment environment(with_jobs({slots(8, 64)}));
        EXPECT(throws<NoRoom>([&] { do_all(environment, 65); }));
        for (const std::uint32_t items : counts) do_all(environment, items);
        EXPECT(throws<NoRoom>([&] { do_all(environment, 0); }));
    }
    Environment environment(with_jobs({slots(65536, 65536), slots(65536, 65536)}));  // the largest ones
    EXPECT(throws<NoRoom>([&] { do_all(environment, 65537); }));
    do_all(environment, 65536);
    do_all(environment, 65535);
}

// Which of the plan's jobs were posted, in order, as the log tells.
std::vector<int> jobs_posted(const TaskEnvironment& environment) {
    std::vector<int> posted;
    const std::string log = environment.recording();
    const std::string word = " startjob ";
    for (std::size_t at = log.find(word); at != std::string::npos; at = log.find(word, at + 1))
        posted.push_back(std::stoi(log.substr(at + word.size())));
    return posted;
}

void a_job_is_the_smallest_that_fits() {
    Options options = with_jobs({slots(3, 20), slots(10, 10, 2), {Priority::best_effort, Behaviour::block_shutdown, 5, 5, 2, 1}});
    options.record = Record::all();
    TaskEnvironment environment(options);  // jobs 0 to 3 have 3, 6, 12 and 20 items; 4 has 10, two at once; 5 and 6 have 5, one at once
    keep(environment, running_test, options.record);
    constexpr Traits late{Priority::best_effort, Behaviour::block_shutdown, true};
    const auto post = [&](Traits traits, std::uint32_t items, std::uint32_t at_once) {
        std::atomic<std::uint32_t> inside{0}, most{0};
        const auto work = [&](JobDelegate& delegate) {
            const std::uint32_t now = ++inside;
            for (std::uint32_t before = most; before < now && !most.compare_exchange_weak(before, now);) {}
            EXPECT(now <= at_once && delegate.id() < at_once);
            std::this_thread::sleep_for(100us);
            --inside;
        };
        EXPECT(environment.post_job(traits, items, work, at_once).join() == JobReply::done);
    };
    post(skipping, 7, 32), post(skipping, 6, 100), post(skipping, 6, 31);
    EXPECT((jobs_posted(environment) == std::vector<int>{2, 1, 4}));  // no other job is one of 31 at most
    EXPECT(throws<NoRoom>([&] { post(skipping, 1, 31); }));
    post(late, 5, 1), post(late, 0, 32), post(skipping, 4, 32), post(skipping, 0, 32);
    EXPECT((jobs_posted(environment) == std::vector<int>{2, 1, 4, 5, 6, 3, 0}));
    for (const Traits& traits : {skipping, late, Traits()}) EXPECT(throws<NoRoom>([&] { post(traits, 0, 32); }));
}

void a_plan_has_usual_jobs() {
    Environment environment;
    std::atomic<unsigned> done{0};
    std::vector<JobHandle> jobs;
    for (const Priority priority : {Priority::best_effort, Priority::user_visible, Priority::user_blocking})
        for (const Behaviour behaviour : {Behaviour::continue_on_shutdown, Behaviour::skip_on_shutdown, Behaviour::block_shutdown})
            for (const std::uint32_t items : {1u, 16u, 17u, 4096u})
                jobs.push_back(environment.post_job({priority, behaviour}, items, [&](JobDelegate&) { ++done; }));
    environment.flush_for_testing();  // which waits for jobs, too
    EXPECT(done == 9 * (1 + 16 + 17 + 4096));
    for (const JobHandle& job : jobs) EXPECT(job.join() == JobReply::done);
}

void jobs_are_posted_from_everywhere() {
    Environment environment;
    std::atomic<int> done{0};
    const auto post = [&](std::uint32_t items) { return environment.post_job(skipping, items, [&](JobDelegate&) { ++done; }); };
    environment.main_task_runner().post_task([&] { post(10); });  // is posted at the end of this task
    environment.post_task(skipping, [&] { post(20); });
    std::thread([&] { post(30); }).join();
    environment.post_job(skipping, 3, [&](JobDelegate& delegate) { post(delegate.item()); }).join();
    environment.run_until_idle();
    EXPECT(done == 10 + 20 + 30 + 0 + 1 + 2);
}

void jobs_let_go_of_their_work() {
    auto owned = std::make_shared<int>(1);
    {
        Environment environment(with_jobs({slots(10, 10), slots(10, 10), slots(10, 10), slots(60000, 60000)}));
        const auto work = [owned](JobDelegate&) {};
        environment.post_job(skipping, 10, work);
        environment.flush_for_testing();
        for (int i = 0; i < 10000 && owned.use_count() > 2; ++i) std::this_thread::sleep_for(1ms);  // after its last item's end
        EXPECT(owned.use_count() == 2);
        environment.post_job(skipping, 3, work).join();
        EXPECT(owned.use_count() == 2);
        environment.set_policy(Policy::none);
        environment.post_job(skipping, 60000, work).cancel();
        EXPECT(owned.use_count() == 2);
        environment.post_job(skipping, 10, work);
    }
    EXPECT(owned.use_count() == 1);
}

void jobs_cancel() {
    Environment environment(with_jobs({slots(60000, 60000, 3), slots(8, 8, 3)}));
    std::atomic<int> inside{0}, begun{0};
    const JobHandle job = environment.post_job(skipping, 50000, [&](JobDelegate& delegate) {
        ++inside, ++begun;
        while (!delegate.should_yield()) std::this_thread::yield();
        --inside;
    });
    while (begun < 3) std::this_thread::yield();
    job.cancel();
    EXPECT(inside == 0 && job.join() == JobReply::cancelled && begun == 3);
    environment.set_policy(Policy::none);
    const JobHandle other = environment.post_job(skipping, 5, [](JobDelegate&) { EXPECT(false); });
    other.cancel_and_detach();
    EXPECT(other.join() == JobReply::cancelled);
}

void the_joining_thread_works_too() {
    Environment environment(with_jobs({{Priority::best_effort, Behaviour::skip_on_shutdown, 16, 16, 1, 4}}));
    environment.set_policy(Policy::none);  // no worker may help
    std::vector<int> items;
    const JobHandle job = environment.post_job({Priority::best_effort}, 10, [&](JobDelegate& delegate) {
        items.push_back(int(delegate.item()));
        environment.set_policy(Policy::none);  // kept until the job's last item
    });
    EXPECT(job.join() == JobReply::done && items.size() == 10 && std::is_sorted(items.begin(), items.end()));
}

void shutdown_comes_amid_jobs() {
    for (const Behaviour behaviour : {Behaviour::continue_on_shutdown, Behaviour::skip_on_shutdown, Behaviour::block_shutdown}) {
        const Traits traits{Priority::user_visible, behaviour};
        std::atomic<int> begun{0}, ended{0};
        auto owned = std::make_shared<int>(1);
        {
            Environment environment(with_jobs({{traits.priority, behaviour, 200, 200, 2}, slots(8, 8)}, 3));
            environment.post_job(traits, 150, [&, owned](JobDelegate& delegate) {
                EXPECT(delegate.item() < 150);
                ++begun;
                do std::this_thread::sleep_for(1ms);
                while (behaviour != Behaviour::block_shutdown && !delegate.should_yield());
                EXPECT(delegate.should_yield() == (behaviour != Behaviour::block_shutdown));
                ++ended;
            });
            while (begun < 3) std::this_thread::yield();
            environment.post_task({Priority::user_blocking, Behaviour::block_shutdown}, [&] {
                while (!environment.has_shutdown_started()) std::this_thread::yield();
                environment.post_job(skipping, 3, [owned](JobDelegate&) { EXPECT(false); });  // is refused
            });
            EXPECT(!environment.has_shutdown_started());
            environment.shutdown();
            EXPECT(environment.has_shutdown_started());
            if (behaviour == Behaviour::skip_on_shutdown) EXPECT(begun == ended && begun < 150);
            if (behaviour == Behaviour::block_shutdown) EXPECT(ended == 150);
            environment.post_job(traits, 3, [owned](JobDelegate&) { EXPECT(false); });
        }
        EXPECT(begun == ended && (begun < 150) == (behaviour != Behaviour::block_shutdown) && owned.use_count() == 1);
    }
}

void shutdown_waits_skips_and_refuses() {
    Environment environment(small(2));
    std::atomic<bool> block_ran{false}, late_ran{false};
    auto owned = std::make_shared<int>(1);
    Gate busy, gate;
    environment.post_task({Priority::user_visible, Behaviour::continue_on_shutdown}, [&] { busy.open(), gate.wait(); });
    busy.wait();
    environment.set_policy(Policy::none);
    environment.post_task(skipping, [owned] { EXPECT(false); });
    environment.post_task({Priority::user_visible, Behaviour::continue_on_shutdown}, [owned] { EXPECT(false); });
    environment.task_runner(blocking).post_delayed_task([owned] { EXPECT(false); }, 1h);
    environment.main_task_runner().post_task([owned] { EXPECT(false); });
    environment.post_task(blocking, [&] {
        std::this_thread::sleep_for(5ms);
        block_ran = true;
        EXPECT(!environment.post_task(skipping, [owned] { EXPECT(false); }));
        EXPECT(environment.post_task(blocking, [&] { late_ran = true; }));
    });
    environment.shutdown();
    EXPECT(block_ran && late_ran && owned.use_count() == 1);
    EXPECT(!environment.post_task(blocking, [owned] {}) && !environment.main_task_runner().post_task([owned] {}) && owned.use_count() == 1);
    environment.shutdown();  // once more is nothing
    RunLoop(environment).run();
    environment.set_policy(Policy::all);
    gate.open();
}

void exceptions_go_to_the_handler() {
    Options options = small();
    std::atomic<int> caught{0};
    options.on_exception = [&](std::exception_ptr thrown) {
        try {
            std::rethrow_exception(thrown);
        } catch (const std::runtime_error& error) {
            if (std::string(error.what()) == "mine") ++caught;
        }
    };
    Environment environment(options);
    environment.post_task(skipping, [] { throw std::runtime_error("mine"); });
    environment.main_task_runner().post_task([] { throw std::runtime_error("mine"); });
    environment.run_until_idle();
    EXPECT(caught == 2);
    EXPECT(environment.post_job(skipping, 3, [](JobDelegate&) { throw std::runtime_error("mine"); }).join() == JobReply::done && caught == 5);
}

// What a recording has after its plan.
std::string log_of(const std::string& recording) { return recording.substr(recording.find("%%\n") + 3); }

// A run that is the same each time: its one worker is at work only while the main thread waits.
std::string recording_of_a_run(Record record) {
    Options options = small(1);
    options.posts = 16;
    options.mock_time = true;
    options.record = record;
    std::string last, amid;
    {
        TaskEnvironment environment(options);
        environment.on_end_of_recording = [&](const std::string& recording) { last = recording; };
        const TaskRunner sequence = environment.sequenced_task_runner(skipping);
        for (int i = 0; i < 3; ++i) {
            sequence.post_task([&] { environment.main_task_runner().post_delayed_task([] {}, 1ms); });
            environment.flush_for_testing();
        }
        environment.run_until_idle();
        if (record.kind != Record::nothing) amid = log_of(environment.recording());
    }
    // What is said amid it is its beginning.
    if (record.kind == Record::all_entries) EXPECT(log_of(last).substr(0, amid.rfind("total")) == amid.substr(0, amid.rfind("total")));
    return last;
}

void what_happens_is_recorded() {
    const std::string recording = recording_of_a_run(Record::all()), log = log_of(recording);
    EXPECT(recording.substr(0, 10) == "workers 2\n" && log == log_of(recording_of_a_run(Record::all())));
    const std::string begin = "taskenv log 2\n0 0 post 0 ", end = " 0 shutdown\n";
    EXPECT(log.substr(0, begin.size()) == begin && log.find(" 1 take 0 ") != std::string::npos && log.find(" 1 end 0 1\n") != std::string::npos);
    EXPECT(log.find(end) != std::string::npos && log.find(" done\ntotal ") != std::string::npos);
    EXPECT(recording_of_a_run(Record::off()).empty());
    EXPECT(throws<std::logic_error>([&] { TaskEnvironment(small()).recording(); }) == (wanted_record().kind != Record::all_entries));
}

void the_last_entries_are_kept() {
    const std::string recording = recording_of_a_run(Record::all()), log = log_of(recording);
    const std::string plan = recording.substr(0, recording.size() - log.size());
    std::vector<std::string> lines;
    std::istringstream in(log);
    for (std::string line; std::getline(in, line);) lines.push_back(line + "\n");
    const std::size_t count = lines.size() - 2;  // without the first line and the total
    EXPECT(lines.back() == "total " + std::to_string(count) + "\n");
    write_kept("last-all.open", recording);
    for (const std::size_t last : {std::size_t(0), std::size_t(1), std::size_t(7), count - 1, count, count + 1, std::size_t(1000)}) {
        const std::string told = recording_of_a_run(Record::last(last));
        std::string wanted = "taskenv last " + std::to_string(last) + " of " + std::to_string(count) + " entries\n";
        for (std::size_t line = count - std::min(last, count); line < count; ++line) wanted += lines[line + 1];
        EXPECT(told == plan + (last < count ? wanted : log));
        write_kept("last-" + std::to_string(last) + (last < count ? ".refused" : ".open"), told);
    }
}

void two_environments_live_side_by_side() {
    Environment one;
    const TaskRunner main = one.main_task_runner();
    {
        Environment two;
        EXPECT(current_default_runner() == two.main_task_runner() && current_default_runner() != main);
        std::atomic<int> ran{0};
        const TaskRunner first = one.task_runner(skipping), second = two.sequenced_task_runner(skipping);
        first.post_task([&, second] { second.post_task([&, first] { first.post_task([&] { ++ran; }), ++ran; }), ++ran; });
        while (ran < 3) std::this_thread::yield();
        main.post_task([&] { two.main_task_runner().post_task([&] { ++ran; }), two.run_until_idle(); });
        one.run_until_idle();
        EXPECT(ran == 4);
    }
    EXPECT(current_default_runner() == main);
    auto three = std::make_unique<Environment>(), four = std::make_unique<Environment>();
    three.reset();  // not the last one that was made
    EXPECT(current_default_runner() == four->main_task_runner());
    four.reset();
    EXPECT(current_default_runner() == main);
}

const std::vector<Test> tests = {
    {"parallel_tasks_all_run", parallel_tasks_all_run},
    {"parallel_tasks_overlap", parallel_tasks_overlap},
    {"a_sequence_runs_in_order", a_sequence_runs_in_order},
    {"closures_are_destroyed_in_their_tasks", closures_are_destroyed_in_their_tasks},
    {"single_thread_tasks_share_a_thread", single_thread_tasks_share_a_thread},
    {"runners_come_free", runners_come_free},
    {"priorities_go_first", priorities_go_first},
    {"delays_pass_in_real_time", delays_pass_in_real_time},
    {"delayed_tasks_cancel", delayed_tasks_cancel},
    {"mock_time_moves_alone_by_hand", mock_time_moves_alone_by_hand},
    {"mock_time_ends_after_shutdown", mock_time_ends_after_shutdown},
    {"main_tasks_run_in_a_loop", main_tasks_run_in_a_loop},
    {"main_queues_have_classes_fences_and_voters", main_queues_have_classes_fences_and_voters},
    {"a_queue_that_shuts_down_drops_its_tasks", a_queue_that_shuts_down_drops_its_tasks},
    {"drivers_calls_of_main_tasks_are_kept", drivers_calls_of_main_tasks_are_kept},
    {"policies_hold_back", policies_hold_back},
    {"replies_come_back", replies_come_back},
    {"one_knows_where_one_is", one_knows_where_one_is},
    {"blocking_scopes_let_others_run", blocking_scopes_let_others_run},
    {"a_scope_that_may_block_counts_after_its_threshold", a_scope_that_may_block_counts_after_its_threshold},
    {"timers_fire", timers_fire},
    {"weak_pointers_cancel", weak_pointers_cancel},
    {"functions_are_bound_to_runners", functions_are_bound_to_runners},
    {"jobs_do_each_item_once", jobs_do_each_item_once},
    {"jobs_have_any_number_of_items", jobs_have_any_number_of_items},
    {"a_job_is_the_smallest_that_fits", a_job_is_the_smallest_that_fits},
    {"a_plan_has_usual_jobs", a_plan_has_usual_jobs},
    {"jobs_are_posted_from_everywhere", jobs_are_posted_from_everywhere},
    {"jobs_let_go_of_their_work", jobs_let_go_of_their_work},
    {"jobs_cancel", jobs_cancel},
    {"the_joining_thread_works_too", the_joining_thread_works_too},
    {"shutdown_comes_amid_jobs", shutdown_comes_amid_jobs},
    {"shutdown_waits_skips_and_refuses", shutdown_waits_skips_and_refuses},
    {"exceptions_go_to_the_handler", exceptions_go_to_the_handler},
    {"what_happens_is_recorded", what_happens_is_recorded},
    {"the_last_entries_are_kept", the_last_entries_are_kept},
    {"two_environments_live_side_by_side", two_environments_live_side_by_side},
};

}  // namespace

int main(int count, char** names) { return run_tests(tests, count, names); }
