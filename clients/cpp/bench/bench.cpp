// What a task costs, in microseconds: in this library, with and without its recorder, and in other pools. `run` builds and starts it.
//
//     bench ROUNDS TASKS SECONDS
//
// In a round each pool is made anew for 1, 2, 4 and 8 workers, and is measured in each way, the pools by turns; each next round begins with
// another pool. There are as many rounds as are asked for, or fewer where the seconds have passed, but an odd number. Written are, for
// each way, number of workers and pool, the median of the rounds, the least and the most.
//
// The tasks do nothing but count. So the figures are what a pool costs, and none of them says how fast work is done.
#include "pools.hpp"

#include <map>

#ifndef FLAGS
#define FLAGS "flags unknown"
#endif

namespace {

using Clock = std::chrono::steady_clock;

constexpr unsigned latencies = 64;  // how often it is measured in a round how long a post takes to its run
constexpr unsigned warm_up = 64;    // tasks, so that all threads have started
const Clock::duration pause_before = std::chrono::microseconds(300);  // so that workers sleep, where they do so at all

double microseconds(Clock::duration time) { return std::chrono::duration<double, std::micro>(time).count(); }

double median(std::vector<double> values) {
    std::sort(values.begin(), values.end());
    return values[values.size() / 2];
}

// What was measured: for each way, number of workers, and pool (by its place, and its name), one value a round.
using Key = std::tuple<std::string, unsigned, std::size_t, std::string>;
using Results = std::map<Key, std::vector<double>>;

// Microseconds a task of what starts so many tasks, until all have run.
template <class Start>
double each_of(unsigned tasks, const Start& start) {
    Countdown left(tasks);
    const auto begin = Clock::now();
    start(left);
    left.wait();
    return microseconds(Clock::now() - begin) / tasks;
}

// From the post of a task, after a pause, to its begin: the median of some.
template <class Pool>
double post_to_run(Pool& pool) {
    std::vector<double> all;
    for (unsigned time = 0; time < latencies; ++time) {
        std::this_thread::sleep_for(pause_before);
        std::atomic<bool> has_run{false};
        Clock::time_point began;
        const auto begin = Clock::now();
        pool.post([&] { began = Clock::now(), has_run = true; });
        while (!has_run) std::this_thread::yield();
        all.push_back(microseconds(began - begin));
    }
    return median(all);
}

// A task that posts up to two others, as the nodes of a full tree do.
template <class Pool>
void grow(Pool& pool, unsigned node, unsigned nodes, Countdown& left) {
    for (const unsigned child : {2 * node + 1, 2 * node + 2})
        if (child < nodes) pool.post_inside([&pool, child, nodes, &left] { grow(pool, child, nodes, left); });
    left.one_less();
}

// One pool, in each way.
template <class Pool>
void measure(Results& results, std::size_t place, unsigned workers, unsigned tasks) {
    Pool pool(workers, 3 * tasks + latencies + warm_up, tasks);
    const auto note = [&](const char* way, double value) { results[{way, workers, place, Pool::name}].push_back(value); };
    const auto bulk = [&](Countdown& left, unsigned count) {
        for (unsigned task = 0; task < count; ++task) pool.post([&left] { left.one_less(); });
    };
    each_of(warm_up, [&](Countdown& left) { bulk(left, warm_up); });
    note("post_to_run", post_to_run(pool));
    note("bulk", each_of(tasks, [&](Countdown& left) { bulk(left, tasks); }));
    note("sequence", each_of(tasks, [&](Countdown& left) {
             for (unsigned task = 0; task < tasks; ++task) pool.post_in_order([&left] { left.one_less(); });
         }));
    note("inside", each_of(tasks, [&](Countdown& left) { pool.post([&] { grow(pool, 0, tasks, left); }); }));
    note("items", each_of(tasks, [&](Countdown& left) { pool.each(tasks, [&left](unsigned) { left.one_less(); }); }));
}

// The core by itself, on one thread: what opening costs for each post that there is room for, and a task's post, take and end.
void measure_core(Results& results, unsigned tasks) {
    std::string plan = "workers 2\nrunner 0 parallel user_visible skip\n";
    for (unsigned task = 0; task < tasks; ++task) plan += "task " + std::to_string(task) + " add 1\n";
    const std::unique_ptr<std::max_align_t[]> room(new std::max_align_t[live_size() / sizeof(std::max_align_t) + 1]);
    unsigned char* const core = reinterpret_cast<unsigned char*>(room.get());
    live_opened opened;
    const auto begin = Clock::now();
    if (live_open(core, reinterpret_cast<const unsigned char*>(plan.data()), plan.size(), &opened) != LIVE_OPENED) throw std::bad_alloc();
    const auto open = Clock::now();
    for (unsigned call = 0; call < 3 * tasks; ++call) {
        static constexpr live_call_code codes[] = {LIVE_POST, LIVE_TAKE, LIVE_END};
        const std::uint32_t seat = call % 3 == 0 ? 0 : 1;
        const live_request request{std::uint32_t(codes[call % 3]), 0, seat, seat, LIVE_NONE, 0, 0, 0, 0};
        live_answer answer;
        live_call(core, &request, &answer);
        taskenv::detail::require(answer.status == LIVE_MADE, "a call of the core was not made");
    }
    results[{"core_open", 1, 0, "core"}].push_back(microseconds(open - begin) / tasks);
    results[{"core_calls", 1, 0, "core"}].push_back(microseconds(Clock::now() - open) / tasks);
    live_close(core);
}

struct Measured {
    const char* name;
    void (*measure)(Results&, std::size_t, unsigned, unsigned);
};
template <class Pool>
constexpr Measured measured = {Pool::name, measure<Pool>};

const std::vector<Measured> pools = {
    measured<TaskenvPool<false>>, measured<TaskenvPool<true>>, measured<MutexPool>,
#if HAS_ASIO
    measured<AsioPool>,
#endif
#if HAS_TBB
    measured<TbbPool>,
#endif
};

void round_of(Results& results, unsigned round, unsigned tasks) {
    measure_core(results, tasks);
    for (const unsigned workers : {1, 2, 4, 8})
        for (std::size_t turn = 0; turn < pools.size(); ++turn) {
            const std::size_t place = (turn + round) % pools.size();
            pools[place].measure(results, place, workers, tasks);
        }
}

void write(Results results, unsigned rounds, unsigned tasks) {
    std::printf("# %u rounds of %u tasks; %u processors; compiler %s, %s\n", rounds, tasks, std::thread::hardware_concurrency(), __VERSION__, FLAGS);
#if HAS_ASIO
    std::printf("# Boost %u.%u\n", BOOST_VERSION / 100000, BOOST_VERSION / 100 % 1000);
#else
    std::printf("# Boost.Asio is left out, since its headers are missing (libboost-dev)\n");
#endif
#if HAS_TBB
    std::printf("# oneTBB %u.%u\n", unsigned(TBB_VERSION_MAJOR), unsigned(TBB_VERSION_MINOR));
#else
    std::printf("# oneTBB is left out, since its headers are missing (libtbb-dev)\n");
#endif
    std::printf("way\tworkers\tpool\tmedian\tleast\tmost\n");
    for (auto& [key, values] : results) {
        values.resize(rounds);
        const auto [least, most] = std::minmax_element(values.begin(), values.end());
        std::printf("%s\t%u\t%s\t%.3f\t%.3f\t%.3f\n", std::get<0>(key).c_str(), std::get<1>(key), std::get<3>(key).c_str(), median(values), *least, *most);
    }
}

}  // namespace

int main(int count, char** words) {
    const unsigned wanted = count > 1 ? unsigned(std::atoi(words[1])) : 0, tasks = count > 2 ? unsigned(std::atoi(words[2])) : 0;
    const double seconds = count > 3 ? std::atof(words[3]) : 0;
    if (count != 4 || wanted % 2 == 0 || tasks < 1 || 3 * tasks + latencies + warm_up > 65536) {
        std::fprintf(stderr, "bench ROUNDS TASKS SECONDS: an odd number of rounds, and 1 to 21802 tasks\n");
        return 2;
    }
    Results results;
    const auto begin = Clock::now();
    unsigned rounds = 0;
    while (rounds < wanted && (rounds == 0 || microseconds(Clock::now() - begin) < seconds * 1e6)) {
        round_of(results, rounds++, tasks);
        std::fprintf(stderr, "\rround %u of %u", rounds, wanted);
    }
    std::fprintf(stderr, "\n");
    write(std::move(results), rounds - (rounds % 2 == 0), tasks);
}
