// The words of the client in C++: traits, options, and closures. taskenv.hpp is what programs include.
#pragma once
#include "taskenv.h"

#include <algorithm>
#include <atomic>
#include <chrono>
#include <cstddef>
#include <cstdint>
#include <exception>
#include <functional>
#include <memory>
#include <stdexcept>
#include <thread>
#include <type_traits>
#include <utility>
#include <vector>

namespace taskenv {

using Microseconds = std::chrono::microseconds;

enum class Priority : std::uint32_t { best_effort = LIVE_BEST_EFFORT, user_visible = LIVE_USER_VISIBLE, user_blocking = LIVE_USER_BLOCKING };

// What shutdown does with a task: `continue_on_shutdown` and `skip_on_shutdown` don't start any more, and the former isn't waited for
// where it runs; `block_shutdown` runs, and is waited for.
enum class Behaviour : std::uint32_t { continue_on_shutdown, skip_on_shutdown, block_shutdown };

// Which work of the pool may start: all, all but best effort, or none.
enum class Policy : std::uint32_t { all = LIVE_ALL, foreground = LIVE_FOREGROUND, none = LIVE_NO_WORK };

// Whether a scope may block, or will for certain.
enum class Blocking : std::uint32_t { may_block = LIVE_MAY_BLOCK, will_block = LIVE_WILL_BLOCK };

// Whether a fence holds back what is posted from now on, or also what waits.
enum class FenceAt : std::uint32_t { now = LIVE_NOW, start = LIVE_START };

enum class JobReply : std::uint32_t { refused = LIVE_REFUSED, done = LIVE_FINISHED, cancelled = LIVE_JOB_CANCELLED, stopped = LIVE_STOPPED };

// What a task needs. Blocking scopes have an effect only where it may block.
struct Traits {
    Priority priority = Priority::user_blocking;
    Behaviour behaviour = Behaviour::skip_on_shutdown;
    bool may_block = false;
};

// On how many items of a job the pool works at once, at most.
inline constexpr std::uint32_t most_inside_a_job = 32;

// Jobs of the plan, each of which can be posted once: so many of each size. The sizes double from the least one up to the most.
struct JobSlots {
    Priority priority = Priority::user_visible;
    Behaviour behaviour = Behaviour::skip_on_shutdown;
    std::uint32_t least = 16, most = 4096;           // items of the smallest jobs, and of the largest ones
    unsigned of_each = 3;                            // how many there are of each size
    std::uint32_t most_at_once = most_inside_a_job;  // on how many items of one threads work at once
};

// The jobs of a plan unless it is said: of each priority and behaviour 27, of 16 to 4,096 items. A plan has room for 256 jobs, with
// 262,144 items in all.
inline std::vector<JobSlots> usual_jobs() {
    std::vector<JobSlots> all;
    for (const Priority priority : {Priority::best_effort, Priority::user_visible, Priority::user_blocking})
        for (const Behaviour behaviour : {Behaviour::continue_on_shutdown, Behaviour::skip_on_shutdown, Behaviour::block_shutdown})
            all.push_back({priority, behaviour});
    return all;
}

// What is kept of what happens (docs/embedding.md, "What is recorded").
struct Record {
    enum Kind { nothing, last_entries, all_entries, events };
    static Record off() { return {nothing, 0}; }
    // The last so many entries, in memory that is taken at the beginning.
    static Record last(std::size_t entries) { return {last_entries, entries}; }
    static Record all() { return {all_entries, 0}; }
    // What each seat's thread saw, noted by itself, with times: for a judge that finds the order.
    static Record by_thread() { return {events, 0}; }
    Kind kind;
    std::size_t entries;
};

// How many worker threads a machine gets unless it is said: one less than it has processors, but 3 at least.
inline unsigned usual_worker_threads() {
    const unsigned processors = std::thread::hardware_concurrency();
    return std::clamp(processors, 4u, 64u) - 1;
}

// What there is room for. It is all taken at the beginning, so an environment does not grow.
struct Options {
    unsigned worker_threads = usual_worker_threads();  // 1 to 63
    // How many tasks run at once, of all work in the foreground, and of best effort there; and in a background group of its own, or
    // 0 where best effort has none. Of the first two, 0 is: as many as there are workers, and 2 of these.
    unsigned foreground = 0, foreground_best_effort = 0, background = 0;
    Microseconds may_block_threshold = std::chrono::seconds(1);  // how long a scope that may block is open before it counts
    unsigned posts = 65536;                                      // how often something can be posted at all; 65,536 at most
    unsigned sequenced_runners = 64;    // how many there are at once, of each behaviour, with and without `may_block`
    unsigned single_thread_runners = 2;  // the same on each worker
    unsigned main_queues = 8;            // how many can be made at all, beside the first one
    unsigned voters = 4;                 // how many there are at once of each main queue; 16 at most
    std::vector<JobSlots> jobs = usual_jobs();  // each can be posted once; some 500 bytes each
    bool mock_time = false;              // a clock that only `fast_forward_by` moves
    Record record = Record::off();       // what is kept of what happens, for `TaskEnvironment::recording`
    // What is done with an exception that leaves a task. Without it the program ends. It is called on the task's thread.
    std::function<void(std::exception_ptr)> on_exception;
};

// The plan has no free runner, main queue, voter or job left.
struct NoRoom : std::runtime_error {
    using std::runtime_error::runtime_error;
};

// ---- closures

// A function that runs at most once, and may own what can't be copied. It is null where it was made of a null function.
class OnceClosure {
public:
    OnceClosure() = default;
    OnceClosure(std::nullptr_t) {}
    template <class F, class = std::enable_if_t<!std::is_same_v<std::decay_t<F>, OnceClosure>>>
    OnceClosure(F&& function) {
        if (!is_null(function)) body = std::make_unique<Body<std::decay_t<F>>>(std::forward<F>(function));
    }
    explicit operator bool() const { return body != nullptr; }
    // Runs the function, and destroys it, on this thread. A null one is an empty run.
    void run() {
        if (const auto once = std::move(body)) once->run();
    }
    // Whether a function object is null, as a std::function or a pointer may be.
    template <class F>
    static bool is_null(const F& function) {
        if constexpr (std::is_constructible_v<bool, const F&>) return !static_cast<bool>(function);
        else return false;
    }

private:
    struct Base {
        virtual ~Base() = default;
        virtual void run() = 0;
    };
    template <class F>
    struct Body final : Base {
        template <class G>
        explicit Body(G&& given) : function(std::forward<G>(given)) {}
        void run() override { function(); }
        F function;
    };
    std::unique_ptr<Base> body;
};

// What the work of a job sees of the item that it is called for.
class JobDelegate {
public:
    JobDelegate(const std::atomic<bool>& no_more, std::uint32_t its_id, std::uint32_t its_item) : yields(no_more), number(its_id), at(its_item) {}
    std::uint32_t item() const { return at; }
    // A number that nobody else has who works on the job at this moment, the least one that was free.
    std::uint32_t id() const { return number; }
    // Whether what is left of the item is not wanted any more: the job was cancelled, or is one that shutdown stops. (Whether the
    // thread makes way for work of a higher priority, the core decides between items.)
    bool should_yield() const { return yields; }

private:
    const std::atomic<bool>& yields;
    const std::uint32_t number, at;
};

}  // namespace taskenv
