// What the answers to exports say was not taken.
#pragma once
#include <algorithm>
#include <charconv>
#include <cstdint>
#include <optional>
#include <stdexcept>
#include <string>
#include <string_view>
#include <utility>

namespace kotskhin::metrics {

// An export was answered by 2xx, and some of it was not taken all the same: as by a gateway that took its writer for dead. Sent again it
// would be answered likewise, and so would the next one.
struct NotTaken : std::runtime_error {
    // How many points were not taken; or exports, where what was posted is the kit's own bytes. The other one is 0.
    uint64_t points, exports;
    // What the answer says of it; empty where it says nothing.
    std::string message;

    explicit NotTaken(uint64_t points, uint64_t exports = 0, std::string message = "")
        : std::runtime_error(describe(points, exports, message)), points(points), exports(exports), message(std::move(message)) {}

private:
    static std::string describe(uint64_t points, uint64_t exports, const std::string &message) {
        if (exports) return std::to_string(exports) + " exports came late, and were not taken";
        return std::to_string(points) + " points were not taken" + (message.empty() ? "" : ": " + message);
    }
};

namespace detail {

// The most bytes of an answer that are looked at.
constexpr size_t MOST_LOOKED_AT = 64 << 10;

// A message of Protocol Buffers that is still to be read. A call answers false where there is no such thing.
class Fields {
    std::string_view left;

    bool read_number(uint64_t &value) {
        value = 0;
        for (size_t turn = 0; turn < std::min<size_t>(left.size(), 10); turn++) {
            auto byte = static_cast<uint8_t>(left[turn]);
            value |= uint64_t{byte & 127u} << (7 * turn);
            if (byte < 128) return left.remove_prefix(turn + 1), true;
        }
        return false;
    }

public:
    enum : uint64_t { NUMBER = 0, EIGHT = 1, BYTES = 2, FOUR = 5 };
    // Of the field that was read last: its number, its type, and its number or its bytes.
    uint64_t field = 0, wire = 0, value = 0;
    std::string_view bytes;

    explicit Fields(std::string_view left) : left(left) {}
    bool at_end() const { return left.empty(); }
    bool is(uint64_t number, uint64_t type) const { return field == number && wire == type; }
    bool next() {
        uint64_t tag, size = 0;
        if (!read_number(tag)) return false;
        field = tag >> 3;
        wire = tag & 7;
        if (field == 0 || field >= 1u << 29) return false;
        switch (wire) {
        case NUMBER: return read_number(value);
        case EIGHT: size = 8; break;
        case FOUR: size = 4; break;
        case BYTES:
            if (!read_number(size)) return false;
            break;
        default: return false;
        }
        if (size > left.size()) return false;
        bytes = left.substr(0, size);
        left.remove_prefix(size);
        return true;
    }
};

// What an ExportMetricsServiceResponse says. One that rejects no point and has a message is a warning alone, as the protocol has it. A
// field that is not known is passed over, and of one that comes twice the last counts.
inline std::optional<NotTaken> points_not_taken(std::string_view answer) {
    if (answer.size() > MOST_LOOKED_AT) return {};
    uint64_t points = 0;
    std::string_view message;
    for (Fields outer(answer); !outer.at_end();) {
        if (!outer.next()) return {};
        if (!outer.is(1, Fields::BYTES)) continue;
        for (Fields inner(outer.bytes); !inner.at_end();) {
            if (!inner.next()) return {};
            if (inner.is(1, Fields::NUMBER)) points = inner.value;
            if (inner.is(2, Fields::BYTES)) message = inner.bytes;
        }
    }
    // (what is above is a number below 0)
    if (points == 0 || points > INT64_MAX) return {};
    return NotTaken(points, 0, std::string(message));
}

// How many exports a gateway says were late, by the value of a header: a whole number of at most 19 digits, and anything else says nothing.
inline uint64_t read_late(std::string_view value) {
    const char *const BLANKS = " \t\r\n";
    value.remove_prefix(std::min(value.find_first_not_of(BLANKS), value.size()));
    value = value.substr(0, value.find_last_not_of(BLANKS) + 1);
    const char *end = value.data() + value.size();
    uint64_t late = 0;
    return value.size() <= 19 && std::from_chars(value.data(), end, late).ptr == end ? late : 0;
}

}  // namespace detail
}  // namespace kotskhin::metrics
