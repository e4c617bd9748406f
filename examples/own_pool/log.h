// Writes the log as the run goes. Whoever enters something holds the lock that guards what it tells of, so places stand in the
// order in which things happened. Each line goes out whole, at once: what is killed leaves all that had happened by then.
#pragma once
#include <cstddef>
#include <iostream>
#include <sstream>
#include <string>

class Log {
    std::ostream& output;
    std::size_t next_place = 0;

    void write(const std::string& line) { output << line << std::flush; }

public:
    explicit Log(std::ostream& output) : output(output) { write("taskenv log 2\n"); }

    // The place of the entry that comes next.
    std::size_t place() const { return next_place; }
    template <class... Parts> void enter(unsigned seat, const Parts&... parts) {
        std::ostringstream line;
        line << next_place++ << ' ' << seat;
        ((line << ' ' << parts), ...);
        line << '\n';
        write(line.str());
    }
    void total() { write("total " + std::to_string(next_place) + '\n'); }
};
