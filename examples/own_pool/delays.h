// The tasks that wait for their ripe moment, of the pool or of the main queues.
#pragma once
#include "bug.h"
#include "script.h"

#include <algorithm>
#include <vector>

struct Delayed {
    Value ripe;
    unsigned task, home;  // the home is a runner or a main queue
};

class Delays {
    const Bug bug;
    std::vector<Delayed> waiting;  // in the order of their posts

public:
    explicit Delays(Bug bug) : bug(bug) {}

    void add(const Delayed& delayed) { waiting.push_back(delayed); }
    void drop_all() { waiting.clear(); }
    void drop_of(unsigned home) {
        const auto is_of_it = [&](const Delayed& delayed) { return delayed.home == home; };
        waiting.erase(std::remove_if(waiting.begin(), waiting.end(), is_of_it), waiting.end());
    }
    // Those that ripen by now, by their ripe moments, and of one moment by their posts. They wait no more.
    std::vector<Delayed> ripened(Value now) {
        const auto waits_on = [&](const Delayed& delayed) { return delayed.ripe > now; };
        const auto first = std::stable_partition(waiting.begin(), waiting.end(), waits_on);
        std::vector<Delayed> ripe(first, waiting.end());
        waiting.erase(first, waiting.end());
        if (bug != Bug::ripens_in_post_order)
            std::stable_sort(ripe.begin(), ripe.end(), [](const Delayed& a, const Delayed& b) { return a.ripe < b.ripe; });
        return ripe;
    }
};
