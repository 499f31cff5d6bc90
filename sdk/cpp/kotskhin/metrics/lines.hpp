// What is told on the standard error, where no hook is.
#pragma once
#include "kotskhin/metrics/process.hpp"
#include <algorithm>
#include <iostream>
#include <set>
#include <string_view>

namespace kotskhin::metrics::detail {

inline std::string strip_controls(std::string_view text) {
    std::string kept(text);
    auto is_control = [](char character) { return (character >= 0 && character < ' ') || character == '\x7f'; };
    kept.erase(std::remove_if(kept.begin(), kept.end(), is_control), kept.end());
    return kept;
}

// The first line of a text, of at most 1 KiB.
inline std::string first_line(std::string_view text) {
    text = text.substr(0, text.find_first_of("\r\n"));
    size_t most = std::min<size_t>(text.size(), 1024);
    // (no character is cut in two)
    while (most && most < text.size() && (static_cast<uint8_t>(text[most]) & 0xc0) == 0x80) most--;
    return strip_controls(text.substr(0, most));
}

// Tells one line. What can't be written is not told.
inline void tell_line(std::string_view text) noexcept {
    try {
        std::cerr << "kotskhin: " + strip_controls(text) + "\n" << std::flush;
    } catch (...) {
    }
}

// Tells the first refusal of each kind, by instrument and reason, of so many kinds.
class Lines {
    static constexpr size_t MOST = 1000;
    Process process;
    std::mutex lock;
    std::set<std::pair<std::string, int32_t>> kinds;

    bool is_first(const Refusal &refusal) {
        auto has = process.hold(lock);
        return kinds.size() < MOST && kinds.emplace(refusal.instrument, refusal.code).second;
    }

public:
    void tell(const Refusal &refusal) noexcept {
        try {
            // (what is told of a fork may not wait for a thread that is not there)
            if (refusal.code == FORKED || is_first(refusal)) tell_line(refusal.what());
        } catch (...) {
        }
    }
};

}  // namespace kotskhin::metrics::detail
