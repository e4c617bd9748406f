// What the tests share: a condition that has to hold, a list of tests, and recordings that are kept for the judge.
//
// The environment variable RECORD says what small options record: all, threads, or nothing. KEEP is a folder for the recordings: plans
// with logs are NAME.open, and plans with what threads noted by themselves are NAME.events.
#pragma once
#include "order.hpp"

#include "../taskenv.hpp"

#include <fstream>
#include <iostream>
#include <set>

#define EXPECT(condition)                                                                          \
    do {                                                                                           \
        if (!(condition)) {                                                                        \
            std::cerr << __FILE__ << ":" << __LINE__ << ": not so: " << #condition << std::endl; \
            std::abort();                                                                          \
        }                                                                                          \
    } while (false)

#if defined(__SANITIZE_THREAD__) || defined(__SANITIZE_ADDRESS__)
#define IS_SANITIZED
#elif defined(__has_feature)
#if __has_feature(thread_sanitizer) || __has_feature(address_sanitizer)
#define IS_SANITIZED
#endif
#endif

// Whether a call throws this exception.
template <class Exception, class Call>
bool throws(const Call& call) {
    try {
        call();
    } catch (const Exception&) {
        return true;
    }
    return false;
}

struct Test {
    const char* name;
    void (*run)();
};

inline std::string variable(const char* name) {
    const char* const value = std::getenv(name);
    return value ? value : "";
}

// What small options record.
inline taskenv::Record wanted_record() {
    const std::string wanted = variable("RECORD");
    EXPECT(wanted.empty() || wanted == "all" || wanted == "threads");
    return wanted == "all" ? taskenv::Record::all() : wanted == "threads" ? taskenv::Record::by_thread() : taskenv::Record::off();
}

// Writes a recording to the folder, if there is one.
inline void write_kept(const std::string& name, const std::string& recording) {
    if (const std::string folder = variable("KEEP"); !folder.empty()) std::ofstream(folder + "/" + name) << recording;
}

// Has an environment's recording kept at its end. This thread has just made it. Of what threads noted by themselves it is checked that
// each seat's list is that of the order in which the core was called, and that no times are against it; and the log that comes of this
// order is kept too.
inline void keep(taskenv::TaskEnvironment& environment, const std::string& name, taskenv::Record record) {
    environment.on_end_of_recording = [name, record, core = core_made_last](const std::string& recording) {
        if (record.kind != taskenv::Record::events) return write_kept(name + ".open", recording);
        write_kept(name + ".events", recording);
        const std::optional<std::string> log = log_of_events(recording, order_of(core));
        EXPECT(log);
        write_kept(name + "-ordered.open", *log);
    };
}

// The test that runs, for the names of its recordings.
inline std::string running_test;

// Small options: what most tests need, and a recording.
inline taskenv::Options small(unsigned worker_threads = 4) {
    taskenv::Options options;
    options.worker_threads = worker_threads;
    options.posts = 2048;
    options.sequenced_runners = 8;
    options.single_thread_runners = 1;
    options.main_queues = 4;
    options.record = wanted_record();
    return options;
}

// An environment whose recording is kept under the name of the test, and a number.
class Environment : public taskenv::TaskEnvironment {
public:
    explicit Environment(const taskenv::Options& options = small()) : TaskEnvironment(options) {
        static unsigned made = 0;
        keep(*this, running_test + "-" + std::to_string(made++), options.record);
    }
};

// Runs the tests, or those that are named.
inline int run_tests(const std::vector<Test>& tests, int count, char** names) {
    unsigned passed = 0;
    for (const Test& test : tests) {
        if (count > 1 && std::find(names + 1, names + count, std::string(test.name)) == names + count) continue;
        std::cerr << test.name << std::endl;
        running_test = test.name;
        test.run();
        ++passed;
    }
    std::cout << passed << " passed" << std::endl;
    return passed > 0 ? 0 : 1;
}
