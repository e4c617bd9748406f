// The parts of a pool with several locks: what waits, who is at work, and who sleeps. Which lock guards what says split_pool.h.
#pragma once
#include "groups.h"
#include "jobs.h"
#include "seen.h"

#include <condition_variable>
#include <deque>
#include <mutex>
#include <set>
#include <tuple>
#include <utility>
#include <variant>

// A number that each accepted post draws, or at a tick each task that ripens: the least one goes first. It is drawn while the locks
// are held under which the task can be seen, so nobody sees a later one without the earlier ones.
using Ticket = std::uint64_t;

// A task that is ready. Its behaviour is the one in effect.
struct Posted { Ticket ticket; unsigned task; Behaviour behaviour; };

// Tasks that run one at a time and in order: one task of a parallel runner, or all tasks of another runner.
struct Sequence {
    std::mutex mutex;
    unsigned runner;
    std::deque<Posted> tasks;  // the first one is that which runs, if one does
    Value cell = 0;            // what the last task left
    bool runs = false;
};

// Who goes first has the least of these: by priority, then by how many are inside, then by ticket.
using Rank = std::tuple<int, std::size_t, Ticket>;

// A sequence that waits, with its first task.
struct Waiting {
    Sequence* sequence;
    Priority priority;
    unsigned only_seat;  // that may take it, or 0
    Posted first;
    Rank rank() const { return {-priority, 0, first.ticket}; }
    bool operator<(const Waiting& other) const { return rank() < other.rank(); }
};

struct Group {
    std::mutex mutex;
    std::set<Waiting> waiting;
    Groups at_work;  // who is at work in this group; of the other group it knows nobody
    explicit Group(const Script& script) : at_work(script, Bug::none) {}
};

// The best of what may be taken: a sequence that waits, or else a job.
struct Best { const Waiting* sequence; unsigned job; };

// What a seat found as it took a task.
struct Taken { Sequence* sequence; unsigned task, runner; Value found; Behaviour behaviour; Priority priority; };
// An item of a job.
struct Held { unsigned job; Claim claim; };
struct TakenMain { unsigned task, queue; Value found; };

// Rings after each event. Who found nothing to do waits for the next ring after it looked.
class Bell {
    std::mutex mutex;
    std::condition_variable rings;
    unsigned long count = 0;

public:
    void ring() {
        { const std::lock_guard lock(mutex); count++; }
        rings.notify_all();
    }
    unsigned long heard() {
        const std::lock_guard lock(mutex);
        return count;
    }
    void wait(unsigned long heard) {
        std::unique_lock lock(mutex);
        rings.wait(lock, [&] { return count != heard; });
    }
};

// A thread of the run, with what it saw. The driver says before its last entry that it is that: after it nothing may be taken.
struct Seat {
    unsigned number;
    Seen seen = {};
    bool is_at_last_entry = false;
};
