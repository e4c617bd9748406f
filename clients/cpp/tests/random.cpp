// Random work for an environment, from many threads at once: random FIRST LAST plays the seeds from FIRST to LAST. What comes of a
// seed depends on the threads too. Of each it is checked that sequences run singly and in order, that each accepted closure ran at
// most once and was destroyed once, and that none that was refused ran. Recordings are kept as in the other tests.
#include "expect.hpp"

#include <random>

using namespace taskenv;
using namespace std::chrono_literals;

namespace {

class Dice {
public:
    explicit Dice(std::uint64_t seed) : generator(seed) {}
    unsigned below(unsigned bound) { return unsigned(generator() % bound); }
    bool one_in(unsigned many) { return below(many) == 0; }
    Traits traits() { return {Priority(below(3)), Behaviour(below(3)), one_in(2)}; }

private:
    std::mt19937_64 generator;
};

// What is counted of all closures.
struct Counts {
    std::atomic<unsigned> accepted{0}, refused{0}, ran{0}, destroyed{0};
};

// A runner, with what shows that its tasks run singly and in order.
struct Lane {
    explicit Lane(TaskRunner of, Traits its, bool sequence) : runner(std::move(of)), traits(its), is_sequence(sequence) {}
    const TaskRunner runner;
    const Traits traits;
    const bool is_sequence;
    std::mutex mutex;                       // so that numbers rise in the order of posts
    unsigned posted = 0;
    unsigned last_run = 0;                  // no lock: only the sequence looks at it
    std::atomic<bool> is_running{false};
};
using LaneRef = std::shared_ptr<Lane>;

class Play;

// One closure. It is destroyed once, whatever becomes of it.
class Piece {
public:
    Piece(Play& of, LaneRef at, unsigned its_number, std::uint64_t seed, unsigned its_depth)
        : play(&of), lane(std::move(at)), number(its_number), dice(seed), depth(its_depth) {}
    Piece(Piece&& other) noexcept
        : play(std::exchange(other.play, nullptr)), lane(std::move(other.lane)), number(other.number), dice(other.dice), depth(other.depth) {}
    ~Piece();
    void operator()();

private:
    void work();
    Play* play;
    LaneRef lane;
    unsigned number;  // of an immediate post to a sequence, from 1; else 0
    Dice dice;
    unsigned depth;
};

class Play {
public:
    explicit Play(std::uint64_t its_seed) : seed(its_seed), dice(its_seed), options(options_of(dice)) {}

    void run() {
        {
            TaskEnvironment made(options);
            environment = &made;
            keep(made, "random-" + std::to_string(seed), options.record);
            const MainQueue queues_made[] = {made.main_queue(), made.main_queue(dice.below(8)), made.main_queue(dice.below(8))};
            queues.assign(std::begin(queues_made), std::end(queues_made));
            for (unsigned lane = 0; lane < 6; ++lane) lanes.push_back(new_lane(dice));
            const unsigned posters = 1 + dice.below(8);
            std::atomic<unsigned> at_work{posters};
            std::vector<std::thread> threads;
            for (unsigned poster = 0; poster < posters; ++poster)
                threads.emplace_back([this, poster, &at_work] {
                    Dice own(seed * 1000 + poster);
                    for (unsigned turn = 0; turn < 150; ++turn) act(own, 3);
                    --at_work;
                });
            const bool waits = dice.one_in(2);  // or shuts down while they post
            for (unsigned turn = 0; waits ? at_work > 0 : turn < 20; ++turn) drive();
            for (unsigned turn = dice.below(4); turn > 0; --turn) drive();
            made.shutdown();
            for (auto& thread : threads) thread.join();
            EXPECT(!made.post_task({Priority::user_blocking, Behaviour::block_shutdown}, [] {}));
            {
                std::lock_guard<std::mutex> lock(mutex);
                handles.clear(), lanes.clear(), queues.clear(), voters.clear(), jobs.clear();
            }
        }
        const unsigned all = counts.accepted + counts.refused;
        EXPECT(counts.destroyed == all && counts.ran <= counts.accepted);
        std::cerr << "seed " << seed << ": accepted " << counts.accepted << ", refused " << counts.refused << ", ran " << counts.ran << std::endl;
    }

    // Does one thing, as any thread may.
    void act(Dice& own, unsigned depth) {
        switch (own.below(depth > 0 ? 16 : 4)) {
        case 0: return set_lane(own);
        case 1: return cancel(own);
        case 2: return environment->set_policy(own.one_in(3) ? Policy(own.below(3)) : Policy::all);
        case 3: return change_queue(own);
        case 4: return post_job(own);
        case 5: return update_priority(own);
        default: return post(own, depth - 1);
        }
    }

    Counts counts;

private:
    static Options options_of(Dice& dice) {
        Options options;
        options.worker_threads = 1 + dice.below(8);
        options.foreground = 1 + dice.below(options.worker_threads);
        options.foreground_best_effort = 1 + dice.below(options.foreground);
        options.background = dice.one_in(2) ? 0 : 1 + dice.below(3);
        options.may_block_threshold = Microseconds(dice.below(2000));
        options.posts = dice.one_in(4) ? 300 : 20000;
        options.sequenced_runners = 4;
        options.single_thread_runners = 1;
        for (JobSlots& slots : options.jobs) {
            slots.least = 1 + dice.below(20), slots.most = 100 + dice.below(200);
            slots.most_at_once = 1 + dice.below(6), slots.of_each = 1;
        }
        options.record = wanted_record();
        return options;
    }
    LaneRef new_lane(Dice& own) {
        const Traits traits = own.traits();
        try {
            switch (own.below(4)) {
            case 0: return std::make_shared<Lane>(environment->task_runner(traits), traits, false);
            case 1: return std::make_shared<Lane>(environment->single_thread_task_runner(traits), traits, true);
            case 2: return std::make_shared<Lane>(queues[own.below(unsigned(queues.size()))].task_runner(), Traits(), false);
            default: return std::make_shared<Lane>(environment->sequenced_task_runner(traits), traits, true);
            }
        } catch (const NoRoom&) {
            return std::make_shared<Lane>(environment->task_runner(traits), traits, false);
        }
    }
    // Another lane in the place of one, which lives on as long as it has tasks.
    void set_lane(Dice& own) {
        if (!own.one_in(4)) return;
        LaneRef lane = new_lane(own);
        std::lock_guard<std::mutex> lock(mutex);
        if (!lanes.empty()) lanes[own.below(unsigned(lanes.size()))].swap(lane);
    }
    LaneRef some_lane(Dice& own) {
        std::lock_guard<std::mutex> lock(mutex);
        return lanes.empty() ? nullptr : lanes[own.below(unsigned(lanes.size()))];
    }
    void post(Dice& own, unsigned depth) {
        const LaneRef lane = some_lane(own);
        if (!lane) return;
        const std::uint64_t piece_seed = (std::uint64_t(own.below(1u << 31)) << 20) + own.below(1u << 20);
        if (own.one_in(3)) {
            DelayedTaskHandle handle = lane->runner.post_delayed_task(Piece(*this, lane, 0, piece_seed, depth), Microseconds(own.below(4000)));
            ++(handle ? counts.accepted : counts.refused);
            std::lock_guard<std::mutex> lock(mutex);
            handles.push_back(std::move(handle));
        } else {
            std::lock_guard<std::mutex> in_order(lane->mutex);
            ++(lane->runner.post_task(Piece(*this, lane, ++lane->posted, piece_seed, depth)) ? counts.accepted : counts.refused);
        }
    }
    void cancel(Dice& own) {
        DelayedTaskHandle handle;
        {
            std::lock_guard<std::mutex> lock(mutex);
            if (handles.empty()) return;
            handle = handles[own.below(unsigned(handles.size()))];
        }
        handle.cancel();
    }
    void change_queue(Dice& own) {
        std::optional<MainQueue> queue;
        {
            std::lock_guard<std::mutex> lock(mutex);
            if (queues.empty()) return;
            queue = queues[own.below(unsigned(queues.size()))];
        }
        switch (own.below(7)) {
        case 0: return queue->insert_fence(FenceAt(own.below(2)));
        case 1:
        case 2: return queue->remove_fence();
        case 3: return queue->set_class(own.below(8));
        case 4: return own.one_in(20) ? queue->shut_down() : queue->remove_fence();
        default: return vote(own, *queue);
        }
    }
    void vote(Dice& own, const MainQueue& queue) {
        std::optional<Voter> voter, old;
        try {
            voter.emplace(queue.create_voter());
        } catch (const NoRoom&) {
        }
        if (voter) voter->set_voting_enabled(own.one_in(2));
        std::lock_guard<std::mutex> lock(mutex);
        if (voter && own.one_in(2)) voters.push_back(std::make_unique<Voter>(std::move(*voter))), voter.reset();
        if (!voters.empty() && own.one_in(2)) voters.pop_back();
    }
    void post_job(Dice& own) {
        const std::uint32_t items = own.below(200);
        try {
            const JobHandle handle = environment->post_job(own.traits(), items, [items](JobDelegate& delegate) {
                EXPECT(delegate.item() < items);
                if (delegate.item() % 7 == 0 && !delegate.should_yield()) std::this_thread::yield();
            });
            if (own.one_in(3)) handle.cancel_and_detach();
            std::lock_guard<std::mutex> lock(mutex);
            jobs.push_back(handle);
        } catch (const NoRoom&) {
            // All that have so many items were posted before.
        }
    }
    void update_priority(Dice& own) {
        const LaneRef lane = some_lane(own);
        if (lane && lane->is_sequence) lane->runner.update_priority(Priority(own.below(3)));
    }
    // What the main thread does.
    void drive() {
        switch (dice.below(5)) {
        case 0: return environment->flush_for_testing();
        case 1: return RunLoop(*environment).run_until_idle();
        case 2: return join();
        case 3: return act(dice, 3);
        default: {
            RunLoop loop(*environment);
            std::thread other([&, pause = dice.below(3000)] {
                std::this_thread::sleep_for(Microseconds(pause));
                loop.quit();
            });
            loop.run();
            other.join();
        }
        }
    }
    void join() {
        std::optional<JobHandle> job;
        {
            std::lock_guard<std::mutex> lock(mutex);
            if (jobs.empty()) return;
            job = jobs[dice.below(unsigned(jobs.size()))];
        }
        if (dice.one_in(3)) job->cancel();
        job->join();
    }

    const std::uint64_t seed;
    Dice dice;  // of the main thread
    const Options options;
    TaskEnvironment* environment = nullptr;
    std::mutex mutex;  // of what follows
    std::vector<LaneRef> lanes;
    std::vector<MainQueue> queues;
    std::vector<DelayedTaskHandle> handles;
    std::vector<std::unique_ptr<Voter>> voters;
    std::vector<JobHandle> jobs;
};

Piece::~Piece() {
    if (play) ++play->counts.destroyed;
}

void Piece::operator()() {
    ++play->counts.ran;
    if (!lane->is_sequence) return work();
    EXPECT(lane->runner.runs_tasks_in_current_sequence() && !lane->is_running.exchange(true));
    EXPECT(number == 0 || number > lane->last_run);
    if (number > 0) lane->last_run = number;
    work();
    lane->is_running = false;
}

void Piece::work() {
    if (lane->traits.may_block && dice.one_in(3)) {
        const ScopedBlockingCall outer(Blocking(dice.below(2)));
        std::this_thread::sleep_for(Microseconds(dice.below(500)));
        const ScopedBlockingCall inner(Blocking(dice.below(2)));
    }
    for (unsigned turn = dice.below(3); turn > 0 && depth > 0; --turn) play->act(dice, depth - 1);
}

}  // namespace

int main(int count, char** words) {
    const unsigned long first = count > 1 ? std::stoul(words[1]) : 1, last = count > 2 ? std::stoul(words[2]) : first;
    for (unsigned long seed = first; seed <= last; ++seed) Play(seed).run();
    std::cout << last - first + 1 << " passed" << std::endl;
}
