// What the client in C++ keeps of what happens, and how that is written (docs/formats.md). taskenv.hpp is what programs include.
#pragma once
#include "taskenv_words.hpp"

#include <algorithm>
#include <atomic>
#include <chrono>
#include <map>
#include <mutex>
#include <new>
#include <string>
#include <thread>
#include <tuple>
#include <utility>
#include <vector>

namespace taskenv {

namespace detail {

// ---- entries in words

inline std::string word(const char* text) { return text; }
inline std::string word(const std::string& text) { return text; }
inline std::string word(std::uint64_t number) { return std::to_string(number); }
template <class First, class... Rest>
inline std::string words(First first, Rest... rest) {
    return (word(first) + ... + (" " + word(rest)));
}
inline std::string words_of(const live_answer& did) {
    static constexpr const char* policies[] = {"all", "foreground", "none"};
    static constexpr const char* priorities[] = {"best_effort", "user_visible", "user_blocking"};
    static constexpr const char* replies[] = {"refused", "done", "cancelled", "stopped"};
    const char* const ok = did.ok ? "ok" : "no";
    switch (did.kind) {
    case LIVE_DID_POST: return words("post", did.task, did.place, did.value, ok);
    case LIVE_DID_MAIN: return words("main", did.task, did.place, did.value, ok);
    case LIVE_DID_TICK: return words("tick", did.value);
    case LIVE_DID_TAKE: return words("take", did.task, did.place, did.value);
    case LIVE_DID_END: return words("end", did.task, did.value);
    case LIVE_DID_ENTER: return words("block", did.task, did.word == LIVE_MAY_BLOCK ? "may" : "will");
    case LIVE_DID_LEAVE: return words("unblock", did.task);
    case LIVE_DID_POLICY: return words("policy", policies[did.word]);
    case LIVE_DID_REPRIO: return words("reprio", did.place, priorities[did.word]);
    case LIVE_DID_FENCE: return words("fence", did.place, did.word == LIVE_NOW ? "now" : "start");
    case LIVE_DID_UNFENCE: return words("unfence", did.place);
    case LIVE_DID_VOTE: return words("vote", did.place, did.word, did.ok ? "on" : "off");
    case LIVE_DID_RANK: return words("rank", did.place, did.word);
    case LIVE_DID_CLOSE: return words("close", did.place);
    case LIVE_DID_MAIN_TAKE: return words("maintake", did.task, did.place, did.value);
    case LIVE_DID_MAIN_END: return words("mainend", did.task, did.value);
    case LIVE_DID_MAIN_NONE: return "mainnone";
    case LIVE_DID_JOB_POST: return words("startjob", did.place, ok);
    case LIVE_DID_JOB_TAKE: return words("jobtake", did.place, did.id, did.item);
    case LIVE_DID_JOB_STEP: return words("jobstep", did.place, did.id, did.item, did.value) + (did.ok ? " " + word(did.next) : " -");
    case LIVE_DID_JOB_CANCEL: return words("cancel", did.place);
    case LIVE_DID_CANCELLED: return words("cancelled", did.place);
    case LIVE_DID_JOINED: return words("joined", did.place, replies[did.word]) + (did.word == LIVE_FINISHED ? " " + word(did.value) : "");
    case LIVE_DID_IDLE: return "idle";
    case LIVE_DID_SHUTDOWN: return "shutdown";
    case LIVE_DID_DONE: return "done";
    default: return "?";
    }
}

// ---- the two ways to keep them

// Keeps the entries in their order, all of them or the last ones. The environment's lock is held while it is asked.
class Recorder {
public:
    explicit Recorder(Record record) : keeps_all(record.kind == Record::all_entries), entries(record.entries) {}
    // Where there is no memory for an entry, the log ends before it, and lacks its total, so that it is known as cut.
    void note(std::uint32_t seat, const live_answer& what) noexcept {
        if (is_cut) return;
        try {
            if (keeps_all) entries.push_back({seat, what});
            else if (!entries.empty()) entries[noted % entries.size()] = {seat, what};
            ++noted;
        } catch (const std::bad_alloc&) {
            is_cut = true;
        }
    }
    // A log of version 2. Where entries were dropped it is none: the first line says so, the others keep their places, and there is no total.
    std::string text() const {
        const std::uint64_t first = noted - std::min<std::uint64_t>(noted, entries.size());
        std::string log = first == 0 ? "taskenv log 2\n" : words("taskenv last", noted - first, "of", noted, "entries") + "\n";
        for (std::uint64_t place = first; place < noted; ++place) {
            const Entry& entry = entries[place % entries.size()];
            log += words(place, entry.seat, words_of(entry.what)) + "\n";
        }
        return is_cut || first > 0 ? log : log + words("total", noted) + "\n";
    }

private:
    struct Entry {
        std::uint32_t seat;
        live_answer what;
    };
    const bool keeps_all;
    std::vector<Entry> entries;  // where not all are kept, a ring: each place lies at its remainder
    std::uint64_t noted = 0;
    bool is_cut = false;
};

// Keeps what each seat saw, with two times of each event: the first from before the environment's lock, the second from right after the
// event. Each thread notes its own events into a list of its own, once that lock is free, so that no thread waits for another to note.
// Several threads act for the driver's seat and for the guest's: an event has its number among those of its seat.
class Events {
public:
    struct Event {
        std::uint32_t seat;
        std::uint64_t number;
        std::uint64_t from, to;
        live_answer what;
    };
    explicit Events(std::uint32_t seats) : counts(seats) {}
    // Nanoseconds since the beginning.
    std::uint64_t now() const {
        return std::uint64_t(std::chrono::duration_cast<std::chrono::nanoseconds>(std::chrono::steady_clock::now() - beginning).count());
    }
    // Puts down an event that has just come, to be noted later. The environment's lock is held.
    void see(std::vector<Event>& seen, std::uint32_t seat, std::uint64_t from, const live_answer& what) noexcept {
        const std::uint64_t number = counts[seat]++;
        try {
            seen.push_back({seat, number, from, now(), what});
        } catch (const std::bad_alloc&) {
            ++lost, ++noted;
        }
    }
    // Notes an event into this thread's list. The lock is free.
    void note(const Event& event) noexcept {
        try {
            List& list = own_list();
            const std::lock_guard<std::mutex> own(list.lock);  // held by this thread alone, but where all lists are read
            list.events.push_back(event);
        } catch (const std::bad_alloc&) {
            ++lost;
        }
        ++noted;
    }
    // What `arrange` reads, the events of each seat in their order. The environment's lock is held, so nothing new comes meanwhile; threads
    // that have yet to note what they did are waited for. Where there was no memory for an event, the last line is no event.
    std::string text() {
        std::uint64_t all = 0;
        for (const std::uint64_t count : counts) all += count;
        while (noted < all) std::this_thread::yield();
        std::vector<Event> events;
        const std::lock_guard<std::mutex> hold(lock);
        for (auto& [thread, list] : lists) {
            const std::lock_guard<std::mutex> own(list.lock);
            events.insert(events.end(), list.events.begin(), list.events.end());
        }
        std::sort(events.begin(), events.end(),
                  [](const Event& a, const Event& b) { return std::tie(a.seat, a.number) < std::tie(b.seat, b.number); });
        std::string text;
        for (const Event& event : events)
            text += "[" + words(event.from, event.to) + "] " + words(event.seat, words_of(event.what)) + "\n";
        return lost > 0 ? text + words("no memory for", std::uint64_t(lost), "events") + "\n" : text;
    }

private:
    struct alignas(64) List {
        std::mutex lock;
        std::vector<Event> events;
    };
    // The list of this thread, which is looked up where the thread has last noted for another environment.
    List& own_list() {
        thread_local std::pair<std::uint64_t, List*> last{0, nullptr};
        if (last.first != serial) {
            const std::lock_guard<std::mutex> hold(lock);
            last = {serial, &lists[std::this_thread::get_id()]};
        }
        return *last.second;
    }
    static std::uint64_t next_serial() {
        static std::atomic<std::uint64_t> made{0};
        return ++made;
    }
    const std::chrono::steady_clock::time_point beginning = std::chrono::steady_clock::now();
    const std::uint64_t serial = next_serial();
    std::vector<std::uint64_t> counts;  // the events of each seat so far
    std::atomic<std::uint64_t> noted{0};
    std::atomic<std::uint64_t> lost{0};
    std::mutex lock;  // of which lists there are
    std::map<std::thread::id, List> lists;
};

}  // namespace detail

}  // namespace taskenv
