// What tests of C++ say: each is a function that checks; a check that fails is told, and the program ends with 1.
#pragma once
#include <cstdio>
#include <functional>
#include <utility>
#include <vector>

static int failures = 0;

#define CHECK(condition)                                                                                                                   \
    do {                                                                                                                                   \
        if (!(condition)) failures++, std::printf("%s:%d: not %s\n", __FILE__, __LINE__, #condition);                                      \
    } while (false)

// The same of what the rest of a test stands on, which ends there.
#define REQUIRE(condition)                                                                                                                 \
    do {                                                                                                                                   \
        int before = failures;                                                                                                             \
        CHECK(condition);                                                                                                                  \
        if (failures != before) return;                                                                                                    \
    } while (false)

// Whether a call throws an exception of a class.
template <typename Thrown, typename Call>
bool throws(Call call) {
    try {
        call();
    } catch (const Thrown &) {
        return true;
    } catch (...) {
    }
    return false;
}

static inline int checked_all(const std::vector<std::pair<const char *, std::function<void()>>> &tests) {
    for (auto &[name, test] : tests) {
        int before = failures;
        try {
            test();
        } catch (const std::exception &why) {
            failures++;
            std::printf("it threw %s\n", why.what());
        }
        if (failures != before) std::printf("failed: %s\n", name);
    }
    std::printf("%zu tests, %d checks failed\n", tests.size(), failures);
    return failures != 0;
}
