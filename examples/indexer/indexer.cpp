// Indexes the files of a folder tree: of each its size, when it was changed, and a hash of what is in it. Started again it reads only what
// is new, has changed, or was not reached. Ctrl-C may come at any moment: it shuts down, and the index says what it lacks. After
// `kill -9` the index is the last one that was written. For POSIX systems.
//
// Built from this folder, where `./taskenv --library` has put the core into out/library of the repository:
//     g++ -O2 -std=c++17 -pthread -I../../clients/cpp -I../../out/library indexer.cpp ../../out/library/libtaskenv.a -o indexer
//
// What to look for:
// - `hash_file` reads in blocking scopes and hashes out of them, so that other tasks run while the disk is waited for.
// - `post_files` gives small files to the pool as its usual work, and large ones as best effort that shutdown doesn't wait for.
// - `add` and `write` run on one sequence, which owns the index, so that it needs no lock. It blocks shutdown: what is hashed when Ctrl-C
//   comes is still added and written. One write is for many files, a delayed task; since shutdown drops these, the last ones have no delay.
// - `run` is the main thread's: a repeating timer draws how far the work is, and the loop ends with the work, or by Ctrl-C.
// - An environment has room for so many posts, 65,536 at most, and a file takes up to three. So a large tree is done in batches. Each
//   is an environment of its own, and has shut down before the next one opens; the index goes from one to the next.
#include "index.hpp"
#include "taskenv.hpp"

#include <csignal>
#include <cstring>
#include <iostream>

#include <pthread.h>

namespace fs = std::filesystem;
using taskenv::Behaviour;
using taskenv::Priority;

// What a batch may take.
struct Limits {
    unsigned posts = 65536;
    std::uint64_t large = 1 << 20;  // how many bytes a large file has at least
    taskenv::Microseconds write_after{250'000};  // how long after an entry the index is written
};

// A file that is open to be read, if that is allowed.
struct Opened {
    explicit Opened(const fs::path& path) : file(open(path.c_str(), O_RDONLY | O_CLOEXEC)) {}
    Opened(const Opened&) = delete;
    ~Opened() {
        if (file >= 0) close(file);
    }
    std::optional<Stamp> stamp() const {
        struct stat seen;
        return file >= 0 && fstat(file, &seen) == 0 ? std::optional(Stamp(seen)) : std::nullopt;
    }
    const int file;
};

// The FNV-1a hash of a file, of 64 bits; or nothing, where it can't be read, changes meanwhile, or the work stops.
std::optional<Entry> hash_file(const fs::path& path, const std::atomic<bool>& stops) {
    std::vector<unsigned char> block(1 << 18);
    std::optional<taskenv::ScopedBlockingCall> scope(std::in_place, taskenv::Blocking::may_block);
    const Opened opened(path);
    const std::optional<Stamp> before = opened.stamp();
    std::uint64_t hash = 0xcbf29ce484222325;
    while (before && !stops) {
        const ssize_t count = read(opened.file, block.data(), block.size());
        if (count < 0) break;
        if (count == 0) return opened.stamp() == before ? std::optional(Entry{*before, hash}) : std::nullopt;
        scope.reset();
        for (ssize_t at = 0; at < count; ++at) hash = (hash ^ block[std::size_t(at)]) * 0x100000001b3;
        scope.emplace(taskenv::Blocking::may_block);
    }
    return std::nullopt;
}

// Ctrl-C. A thread of its own waits for it, since a handler may take no lock; threads that are started after it don't get it.
class Interrupt {
public:
    Interrupt() {
        sigemptyset(&signals);
        for (const int signal : {SIGINT, SIGTERM, SIGHUP}) sigaddset(&signals, signal);
        pthread_sigmask(SIG_BLOCK, &signals, nullptr);
        waiter = std::thread([this] {
            int signal = 0;
            sigwait(&signals, &signal);
            std::lock_guard<std::mutex> lock(mutex);
            came = true;
            if (tell) tell();
        });
    }
    ~Interrupt() {
        pthread_kill(waiter.native_handle(), SIGINT);
        waiter.join();
    }
    // Has this called when it comes, or at once if it came. Null: nothing is to be called any more.
    void then(std::function<void()> told) {
        std::lock_guard<std::mutex> lock(mutex);
        tell = std::move(told);
        if (came && tell) tell();
    }
    std::atomic<bool> came{false};

private:
    sigset_t signals;
    std::mutex mutex;
    std::function<void()> tell;
    std::thread waiter;
};

// Some files, with an environment of their own. A file takes three posts at most: it is hashed, it is added, and the index is written.
// Each time that is drawn takes one; once these are used up, no more is drawn.
class Batch {
public:
    static std::size_t most_files(const Limits& limits) { return (limits.posts - draws(limits) - others) / 3; }

    Batch(Index& of, const fs::path& tree, const Limits& given, Stamps some, std::size_t of_later_ones)
        : index(of), root(tree), limits(given), files(std::move(some)), later(of_later_ones), left(files.size()), environment(options()), loop(environment),
          owner(environment.sequenced_task_runner({Priority::user_visible, Behaviour::block_shutdown, true})) {}

    // Does the files, or as many as are done when the signal comes. Answers 0, or the system's error where the index was not written.
    int run(Interrupt& interrupt) {
        interrupt.then(loop.quit_closure());
        owner.post_task([this] { write(); });  // says what is lacking so far
        post_files();
        taskenv::RepeatingTimer timer;
        timer.start(std::chrono::milliseconds(500), [this, &timer] { ++drawn < draws(limits) ? draw() : timer.stop(); });
        if (left != 0) loop.run();
        timer.stop();
        stops = true;
        owner.post_task([this] { write(); });
        environment.shutdown();
        interrupt.then(nullptr);
        draw();
        return error;
    }

private:
    static constexpr unsigned others = 8;  // posts: the first and the last write, and the timer's first post
    static unsigned draws(const Limits& limits) { return std::min(4096u, limits.posts / 4); }
    taskenv::Options options() const {
        taskenv::Options room;
        room.posts = 3 * unsigned(files.size()) + draws(limits) + others;
        room.sequenced_runners = 1;
        room.single_thread_runners = room.main_queues = 0;
        return room;
    }
    void post_files() {
        const auto usual = environment.task_runner({Priority::user_visible, Behaviour::skip_on_shutdown, true});
        const auto large = environment.task_runner({Priority::best_effort, Behaviour::continue_on_shutdown, true});
        for (const auto& [name, stamp] : files)
            (stamp.size < limits.large ? usual : large)
                .post_task_and_reply_with_result([this, path = root / name] { return hash_file(path, stops); },
                                                 [this, name = name](const std::optional<Entry>& entry) { add(name, entry); }, owner);
    }
    // A file is done, and has an entry if it was read.
    void add(const std::string& name, const std::optional<Entry>& entry) {
        if (entry) index.add(name, *entry), write_soon(stops);
        if (--left == 0) loop.quit();
    }
    // Has the index written: once for all that is added until then.
    void write_soon(bool at_once) {
        bool& waits = at_once ? last_write_waits : write_waits;
        if (waits) return;
        waits = true;
        owner.post_delayed_task([this, &waits] { waits = false, write(); }, at_once ? taskenv::Microseconds(0) : limits.write_after);
    }
    void write() {
        const taskenv::ScopedBlockingCall scope(taskenv::Blocking::will_block);
        error = index.write();
    }
    void draw() const { std::cerr << '\r' << left + later << " files to go    " << std::flush; }

    Index& index;  // the owner's, with what says how it is written
    bool write_waits = false, last_write_waits = false;
    int error = 0;
    const fs::path root;
    const Limits limits;
    const Stamps files;
    const std::size_t later;  // how many files come in later batches
    std::atomic<std::size_t> left;
    std::atomic<bool> stops{false};
    unsigned drawn = 0;
    taskenv::TaskEnvironment environment;  // at its end its threads have ended, and then all that is above
    taskenv::RunLoop loop;
    const taskenv::TaskRunner owner;
};

// The files of the tree, but the index's own. Links are not followed. False: not all of it was seen.
bool walk(const fs::path& root, const Index& index, const Interrupt& interrupt, Stamps& seen) {
    bool to_its_end = true;
    std::vector<fs::path> folders{root};
    while (!folders.empty() && !interrupt.came) {
        std::error_code error;
        fs::directory_iterator each(folders.back(), error);
        folders.pop_back();
        for (; !error && each != fs::directory_iterator() && !interrupt.came; each.increment(error)) {
            const fs::path& path = each->path();
            struct stat status;
            if (lstat(path.c_str(), &status) != 0) continue;
            if (S_ISDIR(status.st_mode)) folders.push_back(path);
            else if (S_ISREG(status.st_mode) && !index.is_own(path)) seen[path.lexically_relative(root).string()] = Stamp(status);
        }
        to_its_end = to_its_end && !error;
    }
    return to_its_end && !interrupt.came;
}

// Does all that the index lacks, batch by batch. Answers 0, or the system's error.
int work(Index& index, const fs::path& root, const Limits& limits, Interrupt& interrupt) {
    Stamps all = index.lacking;
    for (;;) {
        Stamps some;
        while (!all.empty() && some.size() < Batch::most_files(limits)) some.insert(all.extract(all.begin()));
        const int error = Batch(index, root, limits, std::move(some), all.size()).run(interrupt);
        if (error || all.empty() || interrupt.came) return error;
    }
}

int main(int count, char** words) {
    if (count < 3 || count > 6) {
        std::cerr << "indexer FOLDER INDEX [POSTS [LARGE [MILLISECONDS]]]: posts of a batch, bytes of a large file, from an entry to its write\n";
        return 2;
    }
    Limits limits;
    if (count > 3) limits.posts = std::clamp(unsigned(std::strtoul(words[3], nullptr, 10)), 256u, 65536u);
    if (count > 4) limits.large = std::strtoull(words[4], nullptr, 10);
    if (count > 5) limits.write_after = std::chrono::milliseconds(std::strtoul(words[5], nullptr, 10));
    const fs::path root = fs::absolute(words[1]).lexically_normal();
    Index index(fs::absolute(words[2]).lexically_normal());
    Interrupt interrupt;
    if (!fs::is_directory(root) || !index.read()) {
        std::cerr << "indexer: " << (fs::is_directory(root) ? index.path : root) << (fs::is_directory(root) ? " is no whole index\n" : " is no folder\n");
        return 2;
    }
    Stamps seen;
    const bool to_its_end = walk(root, index, interrupt, seen);
    index.compare(std::move(seen), to_its_end);
    if (const int error = work(index, root, limits, interrupt)) {
        std::cerr << "\nindexer: the index was not written: " << std::strerror(error) << '\n';
        return 2;
    }
    std::cout << '\n' << index.hashed.size() << " files are in the index, " << index.lacking.size() << " are lacking" << (to_its_end ? "\n" : ", and more\n");
    return index.is_complete() ? 0 : 1;
}
