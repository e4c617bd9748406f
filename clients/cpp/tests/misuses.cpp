// What users do wrong, and what happens at the edges: each is refused, or answered, and nothing breaks.
#include "expect.hpp"

#include <sys/resource.h>
#include <sys/wait.h>
#include <unistd.h>

using namespace taskenv;
using namespace std::chrono_literals;

namespace {

constexpr Traits skipping{Priority::user_visible, Behaviour::skip_on_shutdown, false};
constexpr Traits blocking{Priority::user_visible, Behaviour::block_shutdown, false};

template <class Call>
bool is_misuse(const Call& call) {
    return throws<std::logic_error>(call);
}

// The status of a child process that does this: 0 to 255, or -1 where a signal ended it.
template <class Call>
int status_of_child(const Call& call) {
    const pid_t child = fork();
    EXPECT(child >= 0);
    if (child == 0) {
        std::freopen("/dev/null", "w", stderr);
        _exit(call());
    }
    int status = 0;
    EXPECT(waitpid(child, &status, 0) == child);
    return WIFEXITED(status) ? WEXITSTATUS(status) : -1;
}

void null_closures() {
    Environment environment;
    const TaskRunner runner = environment.task_runner();
    void (*const no_function)() = nullptr;
    EXPECT(is_misuse([&] { runner.post_task(nullptr); }));
    EXPECT(is_misuse([&] { runner.post_task(std::function<void()>()); }));
    EXPECT(is_misuse([&] { runner.post_task(no_function); }));
    EXPECT(is_misuse([&] { runner.post_delayed_task(OnceClosure(), 1s); }));
    EXPECT(is_misuse([&] { runner.post_task_and_reply_with_result(no_function, [] {}); }));
    EXPECT(is_misuse([&] { runner.post_task_and_reply_with_result([] {}, no_function); }));
    EXPECT(is_misuse([&] { environment.post_job(skipping, 1, nullptr); }));
    OneShotTimer timer;
    EXPECT(is_misuse([&] { timer.start(1s, nullptr); }));
    EXPECT(environment.posts_left() == small().posts);
}

void null_runners() {
    const TaskRunner none;
    EXPECT(!none && none == TaskRunner());
    EXPECT(is_misuse([&] { none.post_task([] {}); }));
    EXPECT(is_misuse([&] { none.post_delayed_task([] {}, 1s); }));
    EXPECT(is_misuse([&] { none.runs_tasks_in_current_sequence(); }));
    EXPECT(is_misuse([&] { none.update_priority(Priority::best_effort); }));
    Environment environment;
    std::thread([&] {
        EXPECT(is_misuse([&] { environment.task_runner().post_task_and_reply_with_result([] {}, [] {}); }));  // no runner to reply to
        OneShotTimer timer;
        EXPECT(is_misuse([&] { timer.start(1s, [] {}); }));
    }).join();
}

void calls_on_other_threads() {
    Environment environment;
    const JobHandle job = environment.post_job(skipping, 1, [](JobDelegate&) {});
    const auto all_misused = [&] {
        EXPECT(is_misuse([&] { environment.shutdown(); }));
        EXPECT(is_misuse([&] { environment.flush_for_testing(); }));
        EXPECT(is_misuse([&] { environment.run_until_idle(); }));
        EXPECT(is_misuse([&] { environment.fast_forward_by(1s); }));
        EXPECT(is_misuse([&] { RunLoop(environment).run(); }));
        EXPECT(is_misuse([&] { RunLoop(environment).run_until_idle(); }));
        EXPECT(is_misuse([&] { job.join(); }));
        EXPECT(is_misuse([&] { job.cancel(); }));
    };
    std::thread(all_misused).join();
    environment.post_task(skipping, all_misused);
    environment.main_task_runner().post_task(all_misused);
    environment.run_until_idle();
    EXPECT(is_misuse([&] { environment.fast_forward_by(1s); }));  // its time is real
    EXPECT(job.join() == JobReply::done);
}

void options_that_are_no_plan() {
    for (const unsigned workers : {0u, 64u, 1000u}) EXPECT(is_misuse([&] { Environment environment(small(workers)); }));
    Options many_posts = small();
    many_posts.posts = 65537;
    EXPECT(is_misuse([&] { Environment environment(many_posts); }));
    Options many_runners = small();
    many_runners.sequenced_runners = 5000;
    EXPECT(is_misuse([&] { Environment environment(many_runners); }));
    Options many_voters = small();
    many_voters.voters = 17;
    EXPECT(is_misuse([&] { Environment environment(many_voters); }));
    // Jobs: no item, the most below the least, more than the plan has room for, of one and in all, and nobody or too many at work.
    const auto slots = [](std::uint32_t least, std::uint32_t most, unsigned of_each, std::uint32_t most_at_once) {
        return JobSlots{Priority::user_visible, Behaviour::skip_on_shutdown, least, most, of_each, most_at_once};
    };
    for (const JobSlots& no_slots :
         {slots(0, 8, 1, 32), slots(9, 8, 1, 32), slots(1, 65537, 1, 32), slots(1, UINT32_MAX, 1, 32), slots(1, 1, 257, 32),
          slots(1, 1, UINT32_MAX, 32), slots(65536, 65536, 5, 32), slots(8, 8, 1, 0), slots(8, 8, 1, 65)}) {
        Options options = small();
        options.jobs = {no_slots};
        EXPECT(is_misuse([&] { Environment environment(options); }));
    }
    Options full = small();
    full.jobs = {slots(65536, 65536, 4, 64), slots(1, 1, 0, 1)};  // this is as many items as there is room for
    EXPECT(Environment(full).post_job(skipping, 1, [](JobDelegate&) {}).join() == JobReply::done);
    Options ring = small();
    ring.record = Record::last(SIZE_MAX);
    EXPECT(is_misuse([&] { Environment environment(ring); }));
    Environment environment;
    EXPECT(is_misuse([&] { environment.main_queue(8); }));
    EXPECT(is_misuse([&] { environment.main_queue().set_class(8); }));
    EXPECT(is_misuse([&] { environment.task_runner().update_priority(Priority::best_effort); }));
}

void more_than_there_is() {
    Options options = small(1);
    options.posts = 10;
    options.main_queues = 1;
    options.voters = 1;
    Environment environment(options);
    std::atomic<int> ran{0};
    for (int i = 0; i < 20; ++i) EXPECT(environment.post_task(blocking, [&] { ++ran; }) == (i < 10));
    EXPECT(environment.posts_left() == 0 && !environment.main_task_runner().post_delayed_task([] {}, 1s));
    environment.main_queue(1);
    EXPECT(throws<NoRoom>([&] { environment.main_queue(1); }));
    {
        const Voter voter = environment.main_queue().create_voter();
        EXPECT(throws<NoRoom>([&] { environment.main_queue().create_voter(); }));
    }
    environment.main_queue().create_voter();
    environment.flush_for_testing();
    EXPECT(ran == 10);
}

void delays_out_of_range() {
    Options options = small();
    options.mock_time = true;
    Environment environment(options);
    int ran = 0;
    EXPECT(environment.main_task_runner().post_delayed_task([&] { ++ran; }, -1s));
    EXPECT(environment.main_task_runner().post_delayed_task([&] { ran += 10; }, Microseconds::max()));
    environment.fast_forward_by(-1s);
    EXPECT(ran == 1 && environment.now() == Microseconds(0));
    environment.fast_forward_by(24h * 12);
    EXPECT(ran == 11);
}

void posts_after_shutdown() {
    auto owned = std::make_shared<int>(1);
    const auto refuses = [owned](const TaskRunner& runner) {
        return !runner.post_task([owned] {}) && !runner.post_delayed_task([owned] {}, 1s).cancel() && !runner.delete_soon(std::make_unique<int>(1));
    };
    TaskRunner parallel, sequence, main;
    std::optional<JobHandle> job;
    std::optional<MainQueue> queue;
    DelayedTaskHandle handle;
    std::function<void()> quit;
    {
        Environment environment;
        parallel = environment.task_runner(blocking), sequence = environment.sequenced_task_runner(blocking), main = environment.main_task_runner();
        queue = environment.main_queue(1);
        handle = parallel.post_delayed_task([owned] {}, 1h);
        quit = RunLoop(environment).quit_closure();
        environment.shutdown();
        EXPECT(refuses(parallel) && refuses(sequence) && refuses(main) && !handle.cancel());
        std::thread([&] { EXPECT(refuses(parallel) && refuses(sequence) && refuses(main)); }).join();
        job = environment.post_job(skipping, 1, [owned](JobDelegate&) {});
        EXPECT(is_misuse([&] { job->join(); }));
        job->cancel();
        environment.flush_for_testing();
        environment.run_until_idle();
        environment.sequenced_task_runner({Priority::best_effort});
        environment.main_queue(1).create_voter();
        sequence.update_priority(Priority::best_effort);
    }
    // The environment is gone, and its handles are still there.
    EXPECT(refuses(parallel) && refuses(sequence) && refuses(main) && !handle.cancel() && !handle.is_waiting());
    queue->insert_fence(FenceAt::now);
    queue->shut_down();
    queue->create_voter();
    sequence.update_priority(Priority::user_blocking);
    job->cancel_and_detach();
    quit();
    EXPECT(!sequence.runs_tasks_in_current_sequence() && owned.use_count() == 2);  // one is in `refuses`
}

// Posts when it is destroyed.
class Poster {
public:
    Poster(TaskRunner to, std::atomic<int>& counts_accepted, std::atomic<int>& counts_refused)
        : runner(std::move(to)), accepted(counts_accepted), refused(counts_refused) {}
    Poster(const Poster&) = delete;
    ~Poster() { ++(runner.post_task([] {}) ? accepted : refused); }

private:
    const TaskRunner runner;
    std::atomic<int>& accepted;
    std::atomic<int>& refused;
};

void posts_from_destructors() {
    std::atomic<int> accepted{0}, refused{0};
    {
        Environment environment;
        const TaskRunner sequence = environment.sequenced_task_runner(skipping), parallel = environment.task_runner(skipping);
        for (const TaskRunner& runner : {sequence, environment.main_task_runner(), parallel}) {
            const auto poster = [&] { return std::make_shared<Poster>(runner, accepted, refused); };
            runner.post_task([owned = poster()] {});                                    // at the end of its task
            environment.run_until_idle();
            EXPECT(runner.post_delayed_task([owned = poster()] {}, 1h).cancel());       // where it is cancelled
            runner.post_delayed_task([owned = poster()] {}, 1h);                        // where shutdown drops it
        }
        const MainQueue queue = environment.main_queue(1);
        queue.task_runner().post_task([owned = std::make_shared<Poster>(queue.task_runner(), accepted, refused)] {});
        queue.shut_down();                                                               // where its queue drops it
        EXPECT(accepted == 6 && refused == 1);
        environment.run_until_idle();
    }
    EXPECT(accepted == 6 && refused == 4);
}

void runners_of_another_environment() {
    Environment one;
    const TaskRunner there = one.sequenced_task_runner(skipping);
    {
        Environment two;
        std::atomic<int> ran{0};
        two.post_task(skipping, [&] {
            EXPECT(!there.runs_tasks_in_current_sequence());
            EXPECT(there.post_task([&] { ran += there.runs_tasks_in_current_sequence(); }));
        });
        const auto task = [&] { return there.post_task([&] { ++ran; }); };
        two.task_runner(skipping).post_task_and_reply_with_result(task, [&](bool posted) { ran += posted; }, there);
        two.flush_for_testing();
        while (ran < 3) std::this_thread::yield();
    }
    one.flush_for_testing();
}

void a_task_posts_to_itself_while_shutting_down() {
    for (const Behaviour behaviour : {Behaviour::skip_on_shutdown, Behaviour::block_shutdown, Behaviour::continue_on_shutdown}) {
        TaskRunner runner;
        std::atomic<int> left{300};
        std::atomic<bool> is_refused{false};
        std::function<void()> again = [&] {
            if (--left > 0) is_refused = !runner.post_task(again);
        };
        Environment environment(small(2));
        runner = environment.sequenced_task_runner({Priority::user_visible, behaviour});
        EXPECT(runner.post_task(again));
        while (left > 250) std::this_thread::yield();
        environment.shutdown();
        if (behaviour == Behaviour::block_shutdown) EXPECT(left == 0 && !is_refused);
    }
}

void a_thousand_threads_post() {
    Options options = small();
    options.posts = 65536;
    Environment environment(options);
    std::atomic<int> ran{0}, refused{0};
    const TaskRunner parallel = environment.task_runner(skipping), sequence = environment.sequenced_task_runner(skipping);
    std::vector<std::thread> threads;
    for (int thread = 0; thread < 1000; ++thread)
        threads.emplace_back([&] {
            for (int post = 0; post < 10; ++post)
                for (const TaskRunner* runner : {&parallel, &sequence}) refused += !runner->post_task([&] { ++ran; });
        });
    for (auto& thread : threads) thread.join();
    environment.flush_for_testing();
    EXPECT(ran == 20000 && refused == 0);
}

void no_memory_to_open() {
#ifndef IS_SANITIZED  // the sanitizers need more memory than any limit leaves
    const int status = status_of_child([] {
        unsigned refused = 0;
        // From next to no room on, up to where there is enough: each time a clean refusal, or an environment.
        for (rlim_t room = 1 << 16; room < (rlim_t(1) << 33); room += room / 2) {
            std::ifstream statm("/proc/self/statm");
            rlim_t pages = 0;
            statm >> pages;
            const rlimit limit{pages * rlim_t(sysconf(_SC_PAGESIZE)) + room, RLIM_INFINITY};
            if (setrlimit(RLIMIT_AS, &limit) != 0) return 2;
            try {
                TaskEnvironment environment(small());
                environment.flush_for_testing();
                return refused > 0 ? 0 : 3;
            } catch (const std::bad_alloc&) {
                ++refused;
            } catch (const std::system_error&) {
                ++refused;  // no thread could be started
            }
        }
        return 4;
    });
    EXPECT(status == 0);
#endif
}

void exceptions_without_a_handler_end_the_program() {
#ifndef IS_SANITIZED  // they have ways of their own to end a program
    const auto child = [](auto post) {
        return status_of_child([&] {
            TaskEnvironment environment(small());
            post(environment);
            environment.run_until_idle();
            return 0;
        });
    };
    EXPECT(child([](TaskEnvironment& environment) { environment.post_task(skipping, [] {}); }) == 0);
    EXPECT(child([](TaskEnvironment& environment) { environment.post_task(skipping, [] { throw 1; }); }) == -1);
    EXPECT(child([](TaskEnvironment& environment) { environment.main_task_runner().post_task([] { throw 1; }); }) == -1);
    // An environment that is destroyed by one of its own tasks.
    EXPECT(status_of_child([] {
        auto environment = std::make_unique<TaskEnvironment>(small());
        environment->main_task_runner().post_task([&] { environment.reset(); });
        RunLoop(*environment).run_until_idle();
        return 0;
    }) == -1);
#endif
}

#ifndef IS_SANITIZED
// What a handler of std::terminate finds in the last 4 entries, where an environment has done five tasks and this comes then.
std::string last_of_a_crash(void (*crash)(TaskEnvironment&)) {
    static TaskEnvironment* crashes = nullptr;
    static std::string written_to;
    char file[] = "/tmp/taskenv-XXXXXX";
    const int opened = mkstemp(file);
    EXPECT(opened >= 0 && close(opened) == 0);
    written_to = file;
    const int status = status_of_child([crash] {
        Options options = small(1);
        options.record = Record::last(4);
        TaskEnvironment environment(options);
        crashes = &environment;
        std::set_terminate([] {
            std::ofstream(written_to) << crashes->recording();
            _exit(7);
        });
        for (int i = 0; i < 5; ++i) environment.post_task(skipping, [] {}), environment.flush_for_testing();
        crash(environment);
        return 0;
    });
    EXPECT(status == 7);
    std::stringstream told;
    told << std::ifstream(file).rdbuf();
    std::remove(file);
    return told.str().substr(told.str().find("%%\n") + 3);
}
#endif

void the_last_entries_tell_of_a_crash() {
#ifndef IS_SANITIZED
    // The fifth task, what the main thread waited for, and the sixth: it was taken, and did not end.
    EXPECT(last_of_a_crash([](TaskEnvironment& environment) {
        environment.post_task(skipping, [] { throw 1; });
        environment.flush_for_testing();
    }) == "taskenv last 4 of 22 entries\n18 1 end 4 1\n19 0 idle\n20 0 post 5 8 0 ok\n21 1 take 5 8 0\n");
    // Misuses that nobody catches.
    const std::string idle = "taskenv last 4 of 20 entries\n16 0 post 4 8 0 ok\n17 1 take 4 8 0\n18 1 end 4 1\n19 0 idle\n";
    EXPECT(last_of_a_crash([](TaskEnvironment& environment) { environment.post_job(skipping, 65536, [](JobDelegate&) {}); }) == idle);
    EXPECT(last_of_a_crash([](TaskEnvironment& environment) { environment.post_task(skipping, nullptr); }) == idle);
    EXPECT(last_of_a_crash([](TaskEnvironment& environment) {
        std::vector<MainQueue> queues;
        for (;;) queues.push_back(environment.main_queue(3));
    }) == idle);
    EXPECT(last_of_a_crash([](TaskEnvironment& environment) {
        std::vector<TaskRunner> runners;
        for (;;) runners.push_back(environment.single_thread_task_runner({Priority::best_effort}));
    }) == idle);
#endif
}

const std::vector<Test> tests = {
    {"no_memory_to_open", no_memory_to_open},  // first: what it forks has one thread
    {"exceptions_without_a_handler_end_the_program", exceptions_without_a_handler_end_the_program},
    {"the_last_entries_tell_of_a_crash", the_last_entries_tell_of_a_crash},
    {"null_closures", null_closures},
    {"null_runners", null_runners},
    {"calls_on_other_threads", calls_on_other_threads},
    {"options_that_are_no_plan", options_that_are_no_plan},
    {"more_than_there_is", more_than_there_is},
    {"delays_out_of_range", delays_out_of_range},
    {"posts_after_shutdown", posts_after_shutdown},
    {"posts_from_destructors", posts_from_destructors},
    {"runners_of_another_environment", runners_of_another_environment},
    {"a_task_posts_to_itself_while_shutting_down", a_task_posts_to_itself_while_shutting_down},
    {"a_thousand_threads_post", a_thousand_threads_post},
};

}  // namespace

int main(int count, char** names) { return run_tests(tests, count, names); }
