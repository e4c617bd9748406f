// What each thread saw, in a list of its own: no lock guards it, and no place says where an event stands among those of others. Each
// event has two times of one clock, between which it came. `taskenv arrange` looks for an order of them all.
#pragma once
#include <chrono>
#include <cstdint>
#include <ostream>
#include <sstream>
#include <string>
#include <vector>

using Nanoseconds = std::int64_t;

// The time since the first call, by the clock of all threads.
inline Nanoseconds time_now() {
    static const auto opening = std::chrono::steady_clock::now();
    return std::chrono::duration_cast<std::chrono::nanoseconds>(std::chrono::steady_clock::now() - opening).count();
}

// The events of one thread.
class Seen {
    std::vector<std::string> lines;

public:
    void add(Nanoseconds from, Nanoseconds to, const std::string& event) {
        lines.push_back('[' + std::to_string(from) + ' ' + std::to_string(to) + "] " + event + '\n');
    }
    void write(std::ostream& output) const {
        for (const std::string& line : lines) output << line;
    }
};

template <class... Parts> std::string event_line(unsigned seat, const Parts&... parts) {
    std::ostringstream line;
    line << seat;
    ((line << ' ' << parts), ...);
    return line.str();
}
