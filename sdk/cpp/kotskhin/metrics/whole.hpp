// The values that are recorded.
#pragma once
#include "kotskhin/metrics/refusal.hpp"
#include "kotskhin/plan.hpp"

namespace kotskhin::metrics {

// A whole number, of any type that is for such alone. To make one never throws: what has no room is refused once it is recorded.
class Whole {
    int64_t number;
    bool has_room;

    template <typename Given, typename... Other>
    static constexpr bool is_any = (std::is_same_v<Given, Other> || ...);
#ifdef __cpp_char8_t
    template <typename Given>
    static constexpr bool is_character = is_any<Given, char, wchar_t, char8_t, char16_t, char32_t>;
#else
    template <typename Given>
    static constexpr bool is_character = is_any<Given, char, wchar_t, char16_t, char32_t>;
#endif
    template <typename Given>
    static constexpr bool is_whole = std::is_integral_v<Given> && !std::is_same_v<Given, bool> && !is_character<Given>;

    template <typename Given>
    static constexpr bool fits(Given given) {
        if constexpr (std::is_unsigned_v<Given>) return given <= static_cast<std::make_unsigned_t<int64_t>>(INT64_MAX);
        else return given >= INT64_MIN && given <= INT64_MAX;
    }

public:
    template <typename Given, std::enable_if_t<is_whole<Given>, int> = 0>
    constexpr Whole(Given given) noexcept : number(static_cast<int64_t>(given)), has_room(fits(given)) {}
    template <typename Given, std::enable_if_t<!is_whole<Given>, int> = 0>
    Whole(Given) = delete;  // A value is a whole number: neither a fraction nor a truth, a character or a word of an enumeration is one.

    constexpr int64_t value() const noexcept { return number; }
    // Why an instrument of a kind does not take it, or KIT_OK.
    constexpr int32_t fault(Kind kind) const noexcept {
        if (!has_room) return VALUE_TOO_WIDE;
        bool takes_any = kind == Kind::UpDown || kind == Kind::Gauge;
        return takes_any || number >= 0 ? static_cast<int32_t>(KIT_OK) : static_cast<int32_t>(KIT_NEGATIVE);
    }
};

}  // namespace kotskhin::metrics
