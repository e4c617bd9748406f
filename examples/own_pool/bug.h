// The bugs that a pool can be told to have.
#pragma once
#include <map>
#include <string>

enum class Bug {
    none,
    never_makes_way,       // a worker stays at its job, whatever better work waits
    last_in_first_out,     // the last task of a sequence is taken first
    loses_state,           // what a task leaves is not handed on
    ends_late,             // a sequence is free before its task's end is entered
    limit_off_by_one,      // a group runs one more than its limit
    fences_one_lane,       // a fence holds back no task that had a delay
    ripens_in_post_order,  // delayed tasks that ripen at one tick go by their posts
    sum_races,             // two seats add to a job's sum as if each were alone
    forgets_skip_tasks,    // shutdown does not wait for a skip task that runs
    looks_in_turn,         // of a pool with several locks: a worker lets go of one group's lock before it looks at the other group
};

// Those of a pool with one lock, own_pool.cpp.
inline const std::map<std::string, Bug> bugs{
    {"never-makes-way", Bug::never_makes_way},   {"last-in-first-out", Bug::last_in_first_out},
    {"loses-state", Bug::loses_state},           {"ends-late", Bug::ends_late},
    {"limit-off-by-one", Bug::limit_off_by_one}, {"fences-one-lane", Bug::fences_one_lane},
    {"ripens-in-post-order", Bug::ripens_in_post_order},
    {"sum-races", Bug::sum_races},               {"forgets-skip-tasks", Bug::forgets_skip_tasks}};
// Those of a pool with several, split_pool.cpp.
inline const std::map<std::string, Bug> split_bugs{{"last-in-first-out", Bug::last_in_first_out},
                                                   {"loses-state", Bug::loses_state},
                                                   {"ends-late", Bug::ends_late},
                                                   {"looks-in-turn", Bug::looks_in_turn}};
