// The index: what is known of a tree's files. It knows of no task and no thread, and its file is one process's at a time.
#pragma once
#include <cerrno>
#include <cstdint>
#include <cstdio>
#include <filesystem>
#include <fstream>
#include <iomanip>
#include <map>
#include <sstream>
#include <string>

#include <fcntl.h>
#include <sys/stat.h>
#include <unistd.h>

// By what it is seen whether a file has changed: its size, and when it was changed last, in nanoseconds. (What changes a file and leaves
// both is not seen.)
struct Stamp {
    std::uint64_t size = 0, changed = 0;
    Stamp() = default;
    explicit Stamp(const struct stat& seen)
        : size(std::uint64_t(seen.st_size)), changed(std::uint64_t(seen.st_mtim.tv_sec) * 1'000'000'000 + std::uint64_t(seen.st_mtim.tv_nsec)) {}
    bool operator==(const Stamp& other) const { return size == other.size && changed == other.changed; }
};
using Stamps = std::map<std::string, Stamp>;  // by the files' names in the tree

struct Entry {
    Stamp stamp;
    std::uint64_t hash = 0;
};

// Its text has a line for each file that was hashed (`file HASH SIZE CHANGED "NAME"`), one for each that it lacks (`lacks "NAME"`), and
// one that counts both, so that a cut text is known: `end 3 0 whole`, or `part` where the tree itself was not seen to its end.
class Index {
public:
    explicit Index(std::filesystem::path at) : path(std::move(at)) {}

    // Reads the text, if there is one. False: it is no whole index.
    bool read() {
        std::ifstream text(path, std::ios::binary);
        if (!text) return !std::filesystem::exists(path);
        for (std::string kind, name; text >> kind;) {
            Entry entry;
            std::size_t all_hashed = 0, all_lacking = 0;
            if (kind == "file") {
                text >> std::hex >> entry.hash >> std::dec >> entry.stamp.size >> entry.stamp.changed >> std::quoted(name);
                hashed[name] = entry;
            } else if (kind == "lacks") {
                text >> std::quoted(name);
                lacking[name] = {};
            } else {
                text >> all_hashed >> all_lacking >> name;
                return kind == "end" && text && all_hashed == hashed.size() && all_lacking == lacking.size() && (text >> std::ws).eof();
            }
        }
        return false;
    }
    // The tree has these files. What was hashed of a file as it was, or of one that is gone, is not known any more; but where the tree was
    // not seen to its end, nothing is said of other files.
    void compare(Stamps seen, bool to_its_end) {
        for (auto at = hashed.begin(); at != hashed.end();) {
            const auto found = seen.find(at->first);
            const bool is_same = found != seen.end() && found->second == at->second.stamp;
            if (is_same) seen.erase(found);
            at = is_same || (found == seen.end() && !to_its_end) ? std::next(at) : hashed.erase(at);
        }
        lacking = std::move(seen);
        is_whole_tree = to_its_end;
    }
    void add(const std::string& name, const Entry& entry) {
        hashed[name] = entry;
        lacking.erase(name);
    }
    // Puts the text in the place of the old one, which is there whole until then: the new one is written to a file beside it, is on the
    // disk, and then gets its name. Answers 0, or the number of the system's error; then the old one is still there.
    int write() const {
        const std::string beside = path.string() + ".new";
        std::ostringstream text;
        for (const auto& [name, entry] : hashed)
            text << "file " << std::hex << entry.hash << std::dec << ' ' << entry.stamp.size << ' ' << entry.stamp.changed << ' ' << std::quoted(name) << '\n';
        for (const auto& [name, stamp] : lacking) text << "lacks " << std::quoted(name) << '\n';
        text << "end " << hashed.size() << ' ' << lacking.size() << (is_whole_tree ? " whole\n" : " part\n");
        if (const int error = store(beside, text.str())) return error;
        return std::rename(beside.c_str(), path.c_str()) == 0 ? 0 : errno;
    }
    bool is_complete() const { return lacking.empty() && is_whole_tree; }
    bool is_own(const std::filesystem::path& file) const { return file == path || file == path.string() + ".new"; }

    const std::filesystem::path path;
    std::map<std::string, Entry> hashed;
    Stamps lacking;

private:
    static int store(const std::string& name, const std::string& text) {
        const int file = open(name.c_str(), O_WRONLY | O_CREAT | O_TRUNC | O_CLOEXEC, 0666);
        int error = file < 0 ? errno : 0;
        for (std::size_t at = 0; !error && at < text.size();) {
            const ssize_t count = ::write(file, text.data() + at, text.size() - at);
            if (count < 0) error = errno;
            else at += std::size_t(count);
        }
        if (!error && fsync(file) != 0) error = errno;
        if (file >= 0 && close(file) != 0 && !error) error = errno;
        return error;
    }
    bool is_whole_tree = false;
};
