// Attributes, as a recording has them.
#pragma once
#include "kotskhin/attributes.hpp"

namespace kotskhin::metrics {

// The value of an attribute. To make one never throws: a whole number that has no room is refused once it is recorded.
class AttributeArgument {
    enum class Is : char { Text, Whole, Truth, Wide };
    Is is;
    std::string_view text;
    int64_t whole = 0;

public:
    AttributeArgument(std::string_view text) noexcept : is(Is::Text), text(text) {}
    AttributeArgument(const char *text) noexcept : is(Is::Text), text(text) {}
    AttributeArgument(const std::string &text) noexcept : is(Is::Text), text(text) {}
    template <typename Given, typename = std::enable_if_t<std::is_integral_v<Given>>>
    AttributeArgument(Given given) noexcept : is(std::is_same_v<Given, bool> ? Is::Truth : Is::Whole), whole(static_cast<int64_t>(given)) {
        if constexpr (std::is_unsigned_v<Given> && sizeof(Given) >= sizeof(int64_t)) {
            if (whole < 0) is = Is::Wide;
        }
    }
    AttributeArgument(const OwnedValue &value) noexcept : is(Is::Text) {
        if (auto owned = std::get_if<std::string>(&value)) text = *owned;
        else if (auto number = std::get_if<int64_t>(&value)) *this = AttributeArgument(*number);
        else if (auto truth = std::get_if<bool>(&value)) *this = AttributeArgument(*truth);
    }

    bool is_too_wide() const { return is == Is::Wide; }
    AttributeValue value() const {
        switch (is) {
        case Is::Text: return text;
        case Is::Truth: return whole != 0;
        default: return whole;
        }
    }
    // Behind a text that no other pair comes to.
    void write(std::string_view key, std::string &into) const {
        auto length = [&](uint64_t number) { into.append(reinterpret_cast<const char *>(&number), sizeof number); };
        length(key.size());
        into.append(key);
        into.push_back(static_cast<char>(is));
        length(is == Is::Text ? text.size() : static_cast<uint64_t>(whole));
        into.append(text);
    }
};

// Pairs of a recording, wherever they come from: as they are walked through.
using PairsGiven = std::initializer_list<std::pair<std::string_view, AttributeArgument>>;

}  // namespace kotskhin::metrics
