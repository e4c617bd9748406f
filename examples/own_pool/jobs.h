// A job: its items are claimed by several seats, the least number first. The lock of the pool guards it.
#pragma once
#include "bug.h"
#include "script.h"

#include <algorithm>
#include <optional>
#include <set>

// An item that a seat holds, and the number under which the seat is inside.
struct Claim {
    unsigned id, item;
    Value sum_before;  // what the job's sum was at the claim, which only the bug sum-races adds to
};

struct Job {
    const JobTraits& traits;
    std::optional<std::size_t> place = {};  // of its post, where that was accepted
    bool is_refused = false, is_cancelled = false;
    std::set<unsigned> inside = {};  // the numbers under which seats are inside
    unsigned claimed = 0, done = 0;  // how many items
    Value sum = 0;

    bool is_done() const { return done == traits.items; }
    bool has_unclaimed() const { return claimed < traits.items; }
    bool is_over() const { return inside.empty() && (is_done() || is_cancelled); }
    // Whether one more may go in, by all but the phase of shutdown.
    bool has_space() const {
        return place && !is_cancelled && has_unclaimed() && inside.size() < std::min({traits.cap, 32u, traits.items - done});
    }

    // Goes in under the least number that is free.
    Claim enter() {
        unsigned id = 0;
        while (inside.count(id) > 0) id++;
        inside.insert(id);
        return {id, claimed++, sum};
    }
    void finish(const Claim& claim, Value value, Bug bug) {
        done++;
        sum = (bug == Bug::sum_races ? claim.sum_before : sum) + value;
    }
    void go_on(Claim& claim) { claim = {claim.id, claimed++, sum}; }
    void leave(const Claim& claim) { inside.erase(claim.id); }
};
