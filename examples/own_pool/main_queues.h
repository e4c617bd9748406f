// The main thread's queues, and the selector that says which of their tasks goes next. The lock of the pool guards them.
#pragma once
#include "bug.h"
#include "delays.h"
#include "script.h"

#include <algorithm>
#include <array>
#include <deque>
#include <optional>
#include <tuple>
#include <vector>

enum Lane { immediate, delayed };
struct Ordered { std::size_t order; unsigned task; };

struct MainQueue {
    unsigned rank;  // its class, from 0, which goes first
    std::vector<bool> votes;
    std::optional<std::size_t> fence = {};  // an order: only tasks below it may go
    bool is_closed = false;
    std::array<std::deque<Ordered>, 2> lanes = {};  // of ready tasks, the least order first
    Value cell = 0;

    bool is_enabled() const { return !is_closed && std::find(votes.begin(), votes.end(), false) == votes.end(); }
};

// The first task of a lane.
struct Front {
    unsigned queue;
    Lane lane;
    unsigned rank;
    std::size_t order;
};

class MainQueues {
    const Bug bug;
    std::vector<MainQueue> queues;
    Delays delays;
    std::size_t next_order = 2;  // below all of these lie 0, and 1, where a fence at the start stands
    unsigned streak = 0;         // how many delayed tasks in a row went while an immediate one of their class waited

    bool is_open(const MainQueue& queue, Lane lane) const {
        if (!queue.is_enabled() || queue.lanes[lane].empty()) return false;
        if (bug == Bug::fences_one_lane && lane == delayed) return true;
        return !queue.fence || queue.lanes[lane].front().order < *queue.fence;
    }
    // The open fronts of the least class that has any.
    std::vector<Front> first_class() const {
        std::vector<Front> fronts;
        for (unsigned number = 0; number < queues.size(); number++)
            for (const Lane lane : {immediate, delayed})
                if (const MainQueue& queue = queues[number]; is_open(queue, lane)) {
                    if (!fronts.empty() && queue.rank < fronts[0].rank) fronts.clear();
                    if (fronts.empty() || queue.rank == fronts[0].rank)
                        fronts.push_back({number, lane, queue.rank, queue.lanes[lane].front().order});
                }
        return fronts;
    }
    static bool is_immediate(const Front& front) { return front.lane == immediate; }

public:
    MainQueues(const Script& script, Bug bug) : bug(bug), delays(bug) {
        for (const QueueTraits& traits : script.queues) queues.push_back({traits.rank, std::vector<bool>(traits.voters, true)});
    }

    Value& cell(unsigned queue) { return queues[queue].cell; }

    // Whether the post is accepted.
    bool post(unsigned task, unsigned queue, Value delay, Value now) {
        if (queues[queue].is_closed) return false;
        if (delay > 0) delays.add({now + delay, task, queue});
        else queues[queue].lanes[immediate].push_back({next_order++, task});
        return true;
    }
    void ripen(Value now) {
        for (const Delayed& ripe : delays.ripened(now)) queues[ripe.home].lanes[delayed].push_back({next_order++, ripe.task});
    }
    void fence_now(unsigned queue) { queues[queue].fence = next_order++; }
    void fence_start(unsigned queue) { queues[queue].fence = 1; }
    void unfence(unsigned queue) { queues[queue].fence.reset(); }
    void vote(unsigned queue, unsigned voter, bool on) { queues[queue].votes[voter] = on; }
    void rank(unsigned queue, unsigned rank) { queues[queue].rank = rank; }
    // Drops the tasks of the queue, and refuses others from now on.
    void close(unsigned queue) {
        queues[queue].is_closed = true;
        for (std::deque<Ordered>& lane : queues[queue].lanes) lane.clear();
        delays.drop_of(queue);
    }

    // Takes the task that goes next out of its lane, and says which, and of which queue. After three delayed ones in a row an
    // immediate one of the class has its turn, where there is one.
    std::optional<std::pair<unsigned, unsigned>> take() {
        std::vector<Front> fronts = first_class();
        if (fronts.empty()) return {};
        const bool has_immediate = std::any_of(fronts.begin(), fronts.end(), is_immediate);
        if (streak >= 3 && has_immediate)
            fronts.erase(std::stable_partition(fronts.begin(), fronts.end(), is_immediate), fronts.end());
        const auto goes_before = [](const Front& a, const Front& b) { return a.order < b.order; };
        const Front first = *std::min_element(fronts.begin(), fronts.end(), goes_before);
        streak = first.lane == delayed && has_immediate ? streak + 1 : 0;
        std::deque<Ordered>& lane = queues[first.queue].lanes[first.lane];
        const unsigned task = lane.front().task;
        lane.pop_front();
        return std::make_pair(task, first.queue);
    }
};
