// What workers take: sequences of tasks, and jobs.
#pragma once
#include "script.h"

#include <cstddef>
#include <deque>
#include <tuple>
#include <utility>

// Since when something is ready: the place of its post, or of the tick at which it ripened and its number among those of that tick.
using Key = std::pair<std::size_t, std::size_t>;

// A task that is ready. Its behaviour is the one in effect.
struct Posted { Key key; unsigned task; Behaviour behaviour; };

// Tasks that run one at a time and in order: one task of a parallel runner, or all tasks of another runner.
struct Sequence {
    unsigned runner;
    std::deque<Posted> waiting = {};  // the least key first
    Value cell = 0;                   // what the last task left
    bool runs = false;
};

// Something that waits: a sequence, or else a job. The least rank goes first: higher priority, fewer inside, earlier key.
struct Source {
    Sequence* sequence;
    unsigned job;
    Priority priority;
    std::size_t inside;
    Key key;
    unsigned only_seat;  // that may take it, or 0
    auto rank() const { return std::make_tuple(-priority, inside, key); }
};
