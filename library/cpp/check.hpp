// What the tests have in common: each test has a name, and a check that fails ends the program with its line.
#ifndef CHECK_HPP
#define CHECK_HPP

#include "shardheap.hpp"

#include <cstdio>
#include <cstdlib>
#include <cstring>
#include <vector>

struct test {
    const char *name;
    void (*run)();
};

inline std::vector<test> &all_tests() {
    static std::vector<test> tests;
    return tests;
}

struct registered {
    registered(const char *name, void (*run)()) { all_tests().push_back({name, run}); }
};

#define TEST(name)                                                                                                     \
    static void name();                                                                                                \
    static const registered name##_registered(#name, name);                                                            \
    static void name()

inline const char *running = "no test";

[[noreturn]] inline void failed(const char *text, const char *file, int line) {
    std::fprintf(stderr, "%s:%d: %s: %s\n", file, line, running, text);
    std::abort();
}

#define CHECK(...) ((__VA_ARGS__) ? void() : failed(#__VA_ARGS__, __FILE__, __LINE__))

#define IS(call, reason)                                                                                               \
    do {                                                                                                               \
        const gearlongan::errc is_code = (call);                                                                       \
        if (is_code == gearlongan::errc::reason) break;                                                                \
        std::fprintf(stderr, "%s: ", gearlongan::make_error_code(is_code).message().c_str());                          \
        failed(#call " is not " #reason, __FILE__, __LINE__);                                                          \
    } while (false)

// Whether the call throws this refusal. Its result is not used.
#define THROWS(call, why)                                                                                              \
    do {                                                                                                               \
        bool is_thrown = false;                                                                                        \
        try {                                                                                                          \
            (void)(call);                                                                                              \
        } catch (const gearlongan::error &refused) {                                                                   \
            is_thrown = refused.reason() == gearlongan::errc::why;                                                     \
            if (!is_thrown) std::fprintf(stderr, "%s: ", refused.what());                                              \
        }                                                                                                              \
        if (!is_thrown) failed(#call " does not throw " #why, __FILE__, __LINE__);                                     \
    } while (false)

// Runs all tests, or those whose names are given.
inline int run_tests(int argc, char **argv) {
    int ran = 0;
    for (const test &it : all_tests()) {
        bool wanted = argc < 2;
        for (int at = 1; at < argc; at++) wanted = wanted || std::strcmp(argv[at], it.name) == 0;
        if (!wanted) continue;
        running = it.name;
        it.run();
        ran++;
    }
    const char *slash = std::strrchr(argv[0], '/');
    std::printf("%s: %d tests passed\n", slash ? slash + 1 : argv[0], ran);
    return ran == 0;
}

#endif
