// The pools that are measured, each behind the same five calls: made for so many workers, a post from the main thread, one to the pool's
// one sequence, one from a task, and work on each of many items by the workers and the main thread. Boost.Asio and oneTBB are there
// where their headers are.
#pragma once
#include "../taskenv.hpp"

#include <deque>

#if __has_include(<boost/asio.hpp>)
#define HAS_ASIO 1
#include <boost/asio.hpp>
#else
#define HAS_ASIO 0
#endif
#if __has_include(<oneapi/tbb.h>)
#define HAS_TBB 1
#include <oneapi/tbb.h>
#else
#define HAS_TBB 0
#endif

// Opens for those who wait once it was counted down to nothing.
class Countdown {
public:
    explicit Countdown(unsigned count) : left(count) {}
    void one_less() {
        if (--left != 0) return;
        std::lock_guard<std::mutex> lock(mutex);
        is_open = true;
        changed.notify_all();
    }
    void wait() {
        std::unique_lock<std::mutex> lock(mutex);
        changed.wait(lock, [this] { return is_open; });
    }

private:
    std::atomic<unsigned> left;
    std::mutex mutex;
    std::condition_variable changed;
    bool is_open = false;
};

// Work on each item, for pools that have no such thing: so many tasks, and this thread, draw the next item from one counter.
template <class Pool, class Work>
void share_items(Pool& pool, unsigned workers, unsigned items, Work work) {
    std::atomic<unsigned> next{0};
    Countdown left(workers);
    const auto draw = [&] {
        for (unsigned item; (item = next++) < items;) work(item);
    };
    for (unsigned worker = 0; worker < workers; ++worker) pool.post([&] { draw(), left.one_less(); });
    draw();
    left.wait();
}

// This library. Its items are those of a job: the core hands out each one, and may have a worker make way for other work between two.
template <bool records>
class TaskenvPool {
public:
    static constexpr const char* name = records ? "taskenv, recorded" : "taskenv";
    TaskenvPool(unsigned workers, unsigned posts, unsigned items)
        : environment(options(workers, posts, items)), flat(environment.task_runner(traits)), sequence(environment.sequenced_task_runner(traits)) {}
    template <class F>
    void post(F function) {
        flat.post_task(std::move(function));
    }
    template <class F>
    void post_in_order(F function) {
        sequence.post_task(std::move(function));
    }
    template <class F>
    void post_inside(F function) {
        flat.post_task(std::move(function));
    }
    template <class Work>
    void each(unsigned items, Work work) {
        environment.post_job(traits, items, [&](taskenv::JobDelegate& delegate) { work(delegate.item()); }).join();
    }

private:
    static constexpr taskenv::Traits traits{taskenv::Priority::user_visible, taskenv::Behaviour::skip_on_shutdown, false};
    static taskenv::Options options(unsigned workers, unsigned posts, unsigned items) {
        taskenv::Options room;
        room.worker_threads = workers;
        room.posts = posts;
        room.sequenced_runners = 1;
        room.single_thread_runners = room.main_queues = 0;
        room.jobs = {{traits.priority, traits.behaviour, items, items, 1}};
        room.record = records ? taskenv::Record::all() : taskenv::Record::off();
        return room;
    }
    taskenv::TaskEnvironment environment;
    const taskenv::TaskRunner flat, sequence;
};

// What one writes oneself: one mutex, one list of what may run, one condition. It has no priorities, limits, delays or shutdown.
class MutexPool {
public:
    static constexpr const char* name = "one mutex";
    using Task = std::function<void()>;
    MutexPool(unsigned workers, unsigned, unsigned) {
        for (unsigned worker = 0; worker < workers; ++worker) threads.emplace_back([this] { work(); });
    }
    ~MutexPool() {
        {
            std::lock_guard<std::mutex> lock(mutex);
            is_over = true;
        }
        changed.notify_all();
        for (std::thread& thread : threads) thread.join();
    }
    void post(Task task) { add({std::move(task), false}); }
    void post_inside(Task task) { add({std::move(task), false}); }
    // Of the sequence only the first task is in the list; the next one follows it when it has ended.
    void post_in_order(Task task) {
        std::unique_lock<std::mutex> lock(mutex);
        if (std::exchange(sequence_runs, true)) return sequence.push_back(std::move(task));
        lock.unlock();
        add({std::move(task), true});
    }
    template <class Work>
    void each(unsigned items, Work work_on) {
        share_items(*this, unsigned(threads.size()), items, std::move(work_on));
    }

private:
    struct Ready {
        Task task;
        bool is_of_sequence;
    };
    void add(Ready ready) {
        {
            std::lock_guard<std::mutex> lock(mutex);
            list.push_back(std::move(ready));
        }
        changed.notify_one();
    }
    void work() {
        std::unique_lock<std::mutex> lock(mutex);
        for (;;) {
            changed.wait(lock, [this] { return is_over || !list.empty(); });
            if (list.empty()) return;
            Ready ready = std::move(list.front());
            list.pop_front();
            lock.unlock();
            ready.task();
            ready.task = nullptr;
            lock.lock();
            if (!ready.is_of_sequence) continue;
            sequence_runs = !sequence.empty();
            if (!sequence_runs) continue;
            list.push_back({std::move(sequence.front()), true});
            sequence.pop_front();
        }
    }
    std::mutex mutex;
    std::condition_variable changed;
    std::deque<Ready> list;
    std::deque<Task> sequence;
    bool sequence_runs = false, is_over = false;
    std::vector<std::thread> threads;
};

#if HAS_ASIO
class AsioPool {
public:
    static constexpr const char* name = "Boost.Asio";
    AsioPool(unsigned count, unsigned, unsigned) : workers(count), pool(count), strand(boost::asio::make_strand(pool)) {}
    ~AsioPool() { pool.join(); }
    template <class F>
    void post(F function) {
        boost::asio::post(pool, std::move(function));
    }
    template <class F>
    void post_in_order(F function) {
        boost::asio::post(strand, std::move(function));
    }
    template <class F>
    void post_inside(F function) {
        boost::asio::post(pool, std::move(function));
    }
    template <class Work>
    void each(unsigned items, Work work) {
        share_items(*this, workers, items, std::move(work));
    }

private:
    const unsigned workers;
    boost::asio::thread_pool pool;
    boost::asio::strand<boost::asio::thread_pool::executor_type> strand;
};
#endif

#if HAS_TBB
// The main thread posts into an arena in which it has no place, and works in another one on items. oneTBB has no sequences: here it is a
// list under a mutex, which one task at a time empties.
class TbbPool {
public:
    static constexpr const char* name = "oneTBB";
    TbbPool(unsigned workers, unsigned, unsigned)
        : limit(tbb::global_control::max_allowed_parallelism, workers + 1), arena(int(workers), 0), shared(int(workers) + 1, 1) {}
    ~TbbPool() { group.wait(); }
    template <class F>
    void post(F function) {
        arena.enqueue(std::move(function));
    }
    template <class F>
    void post_inside(F function) {
        group.run(std::move(function));
    }
    template <class F>
    void post_in_order(F function) {
        std::unique_lock<std::mutex> lock(mutex);
        sequence.emplace_back(std::move(function));
        if (std::exchange(sequence_runs, true)) return;
        lock.unlock();
        arena.enqueue([this] { run_sequence(); });
    }
    template <class Work>
    void each(unsigned items, Work work) {
        using Range = tbb::blocked_range<unsigned>;
        shared.execute([&] { tbb::parallel_for(Range(0, items, 1), [&](const Range& some) { work(some.begin()); }, tbb::simple_partitioner()); });
    }

private:
    void run_sequence() {
        std::unique_lock<std::mutex> lock(mutex);
        while (!sequence.empty()) {
            std::function<void()> task = std::move(sequence.front());
            sequence.pop_front();
            lock.unlock();
            task();
            task = nullptr;
            lock.lock();
        }
        sequence_runs = false;
    }
    tbb::global_control limit;
    tbb::task_arena arena, shared;
    tbb::task_group group;
    std::mutex mutex;
    std::deque<std::function<void()>> sequence;
    bool sequence_runs = false;
};
#endif
