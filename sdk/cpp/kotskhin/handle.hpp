// Handles, texts, bytes and numbers, as the rest has them.
#pragma once
#include "kotskhin/error.hpp"
#include <cstddef>
#include <cstdint>
#include <iterator>
#include <limits>
#include <stdexcept>
#include <string>
#include <string_view>
#include <type_traits>
#include <utility>
#include <vector>

namespace kotskhin {

// A text: a pointer that is never null, and a length. It points into what it was made of.
struct Text {
    const uint8_t *at;
    size_t len;
    Text(std::string_view text) : at(reinterpret_cast<const uint8_t *>(text.empty() ? "" : text.data())), len(text.size()) {}
    Text(const char *text) : Text(std::string_view(text)) {}
    Text(const std::string &text) : Text(std::string_view(text)) {}
};

// Bytes that lie one after the other: of a vector, an array, a string, a span.
struct Bytes {
    const uint8_t *at;
    size_t len;
    Bytes(const void *bytes, size_t len) : at(kit_bytes_at(bytes)), len(len) {}
    template <typename Range, typename Item = std::remove_pointer_t<decltype(std::data(std::declval<const Range &>()))>>
    Bytes(const Range &range) : Bytes(std::data(range), std::size(range)) {
        static_assert(sizeof(Item) == 1 && !std::is_array_v<Range>, "bytes, and no text that ends in a 0");
    }
};

// A number of whatever type that is whole: one that has no room is std::out_of_range, where the language would wrap it.
template <typename Room>
struct Number {
    Room value;
    template <typename Given, typename = std::enable_if_t<std::is_integral_v<Given> && !std::is_same_v<Given, bool>>>
    constexpr Number(Given given) : value(static_cast<Room>(given)) {
        if (!fits(given)) throw std::out_of_range("kotskhin: a number has no room in its type");
    }
    constexpr operator Room() const { return value; }

private:
    template <typename Given>
    static constexpr bool fits(Given given) {
        if constexpr (std::is_signed_v<Given> && std::is_unsigned_v<Room>) {
            return given >= 0 && static_cast<std::make_unsigned_t<Given>>(given) <= std::numeric_limits<Room>::max();
        } else if constexpr (std::is_unsigned_v<Given> && std::is_signed_v<Room>) {
            return given <= static_cast<std::make_unsigned_t<Room>>(std::numeric_limits<Room>::max());
        } else {
            return given >= std::numeric_limits<Room>::min() && given <= std::numeric_limits<Room>::max();
        }
    }
};

// A value that is recorded; a time, in nanoseconds since the Unix epoch.
using Value = Number<int64_t>;
using Time = Number<uint64_t>;
// The number of an instrument, of a pair that is held, of a row.
using Index = Number<size_t>;

// The instance of a service, 128 bits.
struct Instance {
    uint64_t high = 0, low = 0;
    bool operator==(const Instance &other) const { return high == other.high && low == other.low; }
    bool operator!=(const Instance &other) const { return !(*this == other); }
};

// A handle for one call that only reads what another has.
template <typename Kind>
struct Lent {
    Kind raw;
    Kind *at() { return &raw; }
};

// The one owner of what a handle has.
template <typename Kind>
class Handle {
    Kind raw = KIT_EMPTY;

public:
    Handle() = default;
    Handle(Handle &&other) noexcept : raw(std::exchange(other.raw, KIT_NONE(Kind))) {}
    Handle &operator=(Handle &&other) noexcept {
        if (this != &other) {
            close();
            raw = std::exchange(other.raw, KIT_NONE(Kind));
        }
        return *this;
    }
    ~Handle() { close(); }
    // Gives up what it has.
    void close() noexcept { kit_free(&raw.handle); }
    explicit operator bool() const { return raw.handle.full; }
    Kind *at() { return &raw; }
    Lent<Kind> lent() const { return {raw}; }
};

// A thing that a handle has.
template <typename Kind>
class Thing {
protected:
    Handle<Kind> handle;
    Thing() = default;
    explicit Thing(Handle<Kind> &&has) : handle(std::move(has)) {}

public:
    // Gives it up. It may be closed again; other calls throw Nothing from then on.
    void close() noexcept { handle.close(); }
    // Whether it has something: it was neither moved nor closed.
    explicit operator bool() const { return static_cast<bool>(handle); }
    // For calls of kotskhin.h.
    Handle<Kind> &raw() { return handle; }
    const Handle<Kind> &raw() const { return handle; }
};

namespace detail {

// What a call copies out into a room, of which it tells the whole length, once the room is enough.
template <typename Room, typename Call>
Room copy_out(size_t first, Call call) {
    Room made(first, typename Room::value_type());
    for (;;) {
        size_t len = 0;
        check(call(made.data(), made.size(), &len));
        bool is_whole = len <= made.size();
        made.resize(len);
        if (is_whole) return made;
    }
}

template <typename Call>
std::string copy_text(Call call) {
    return copy_out<std::string>(64,
                                 [&](char *into, size_t room, size_t *len) { return call(reinterpret_cast<uint8_t *>(into), room, len); });
}

inline std::vector<uint8_t> copy_bytes(const Handle<kit_bytes> &made) {
    return copy_out<std::vector<uint8_t>>(
        1024, [&](uint8_t *into, size_t room, size_t *len) { return kit_bytes_copy(made.lent().at(), into, room, len); });
}

// Whether a type is a range of what can be taken apart as a pair.
template <typename Range, typename = void>
inline constexpr bool is_pairs = false;
template <typename Range>
using PairOf = decltype(*std::begin(std::declval<const Range &>()));
template <typename Range>
inline constexpr bool is_pairs<Range, std::void_t<decltype(std::declval<PairOf<Range>>().first, std::declval<PairOf<Range>>().second)>> =
    true;

}  // namespace detail

}  // namespace kotskhin
