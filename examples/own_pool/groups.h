// How much of the pool's work may run at once. Best-effort work is of the background group, where the script has one, and all other
// work of the foreground group. A task in a blocking scope makes room for one more.
#pragma once
#include "bug.h"
#include "script.h"

#include <algorithm>
#include <optional>
#include <vector>

struct Scope { bool is_sure; Value since; };  // whether it will block, or only may
struct Work { Priority priority; std::optional<Scope> scope; };

class Groups {
    const Script& script;
    const Bug bug;
    std::vector<std::optional<Work>> at_work;  // for each seat; the driver's is always none

    bool is_background(Priority priority) const { return priority == best_effort && script.background_limit > 0; }
    bool is_blocked(const Work& work, Value now) const {
        return work.scope && (work.scope->is_sure || work.scope->since + script.threshold <= now);
    }
    // Whether as many workers are at work that counts as may be: the limit, and one more for each that is blocked.
    template <class Test> bool is_full(unsigned limit, Value now, const Test& counts) const {
        unsigned busy = 0;
        for (const std::optional<Work>& work : at_work) {
            if (!work || !counts(work->priority)) continue;
            busy++;
            if (is_blocked(*work, now)) limit++;
        }
        return bug == Bug::limit_off_by_one ? busy > limit : busy >= limit;
    }

public:
    Groups(const Script& script, Bug bug) : script(script), bug(bug), at_work(script.workers + 1) {}

    void begin(unsigned seat, Priority priority) { at_work[seat] = Work{priority, {}}; }
    void finish(unsigned seat) { at_work[seat].reset(); }
    void open_scope(unsigned seat, bool is_sure, Value now) { at_work[seat]->scope = Scope{is_sure, now}; }
    void close_scope(unsigned seat) { at_work[seat]->scope.reset(); }

    bool are_in_one(Priority a, Priority b) const { return is_background(a) == is_background(b); }
    // Whether the group of this priority runs as much as it may.
    bool is_group_full(Priority priority, Value now) const {
        const unsigned limit = is_background(priority) ? script.background_limit : script.foreground_limit;
        return is_full(limit, now, [&](Priority other) { return are_in_one(priority, other); });
    }
    bool has_room(Priority priority, Value now) const {
        if (is_group_full(priority, now)) return false;
        if (priority != best_effort || is_background(priority)) return true;
        return !is_full(script.best_effort_limit, now, [](Priority other) { return other == best_effort; });
    }
    bool is_quiet() const {
        return std::none_of(at_work.begin(), at_work.end(), [](const std::optional<Work>& work) { return work.has_value(); });
    }
};
