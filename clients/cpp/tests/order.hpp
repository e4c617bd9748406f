// The order in which the tests' environments call their cores. It is noted here, beside the client: its calls of `live_open` and
// `live_call` come to the functions of this file first. It is noted where RECORD says that threads note their events by themselves.
#pragma once
#include <taskenv.h>

#include <cstdlib>
#include <map>
#include <mutex>
#include <optional>
#include <sstream>
#include <string>
#include <vector>

// Of each core that is open, the seats of its entries, in order.
inline std::map<const unsigned char*, std::vector<std::uint32_t>> seats_of_entries;
inline std::mutex seats_of_entries_mutex;
// The core that this thread has opened last.
inline thread_local const unsigned char* core_made_last = nullptr;

inline bool notes_order() {
    static const bool is_wanted = std::getenv("RECORD") && std::string(std::getenv("RECORD")) == "threads";
    return is_wanted;
}

inline std::uint32_t open_and_note(unsigned char* core, const unsigned char* plan, std::size_t length, live_opened* opened) {
    core_made_last = core;
    if (notes_order()) {
        const std::lock_guard<std::mutex> lock(seats_of_entries_mutex);
        seats_of_entries[core].clear();
    }
    return live_open(core, plan, length, opened);
}

// Calls that name no seat are the driver's, whose seat is 0. The client holds its lock, so entries are noted in their order.
inline void call_and_note(unsigned char* core, const live_request* request, live_answer* answer) {
    live_call(core, request, answer);
    if (!notes_order() || answer->status != LIVE_MADE) return;
    const std::lock_guard<std::mutex> lock(seats_of_entries_mutex);
    seats_of_entries[core].push_back(request->seat);
}

inline std::vector<std::uint32_t> order_of(const unsigned char* core) {
    const std::lock_guard<std::mutex> lock(seats_of_entries_mutex);
    return seats_of_entries[core];
}

// The plan with the log that events come to in this order of their seats; nothing where they are other events, or where one came before
// another by its times that it comes after in the order.
inline std::optional<std::string> log_of_events(const std::string& recording, const std::vector<std::uint32_t>& order) {
    struct Event {
        std::uint64_t from, to;
        std::string words;
    };
    std::map<std::uint32_t, std::vector<Event>> events;
    const std::size_t end_of_plan = recording.find("%%\n") + 3;
    std::istringstream lines(recording.substr(end_of_plan));
    std::size_t count = 0;
    for (std::string line; std::getline(lines, line); ++count) {
        std::istringstream parts(line);
        Event event;
        char bracket = 0, last = 0;
        std::uint32_t seat = 0;
        if (!(parts >> bracket >> event.from >> event.to >> last >> seat) || bracket != '[' || last != ']') return std::nullopt;
        if (event.from > event.to) return std::nullopt;
        std::getline(parts >> std::ws, event.words);
        events[seat].push_back(event);
    }
    if (count != order.size()) return std::nullopt;
    std::string log = recording.substr(0, end_of_plan) + "taskenv log 2\n";
    std::map<std::uint32_t, std::size_t> told;
    std::uint64_t latest = 0;  // of the times after which the events so far came
    for (std::size_t place = 0; place < order.size(); ++place) {
        const std::uint32_t seat = order[place];
        if (told[seat] == events[seat].size()) return std::nullopt;
        const Event& event = events[seat][told[seat]++];
        latest = std::max(latest, event.from);
        if (event.to < latest) return std::nullopt;
        log += std::to_string(place) + " " + std::to_string(seat) + " " + event.words + "\n";
    }
    return log + "total " + std::to_string(order.size()) + "\n";
}

#define live_open open_and_note
#define live_call call_and_note
