// Sets of attributes.
#pragma once
#include "kotskhin/handle.hpp"
#include <initializer_list>
#include <string>
#include <utility>
#include <variant>
#include <vector>

namespace kotskhin {

// The value of an attribute: a text, a whole number or a truth. A text points into what it was made of.
struct AttributeValue {
    std::variant<std::string_view, int64_t, bool> value;
    AttributeValue(std::string_view text) : value(text) {}
    AttributeValue(const char *text) : value(std::string_view(text)) {}
    AttributeValue(const std::string &text) : value(std::string_view(text)) {}
    template <typename Given, typename = std::enable_if_t<std::is_integral_v<Given>>>
    AttributeValue(Given given) {
        if constexpr (std::is_same_v<Given, bool>) value.emplace<bool>(given);
        else value.emplace<int64_t>(Value(given).value);
    }
};

// The value of an attribute that is read, or kept.
using OwnedValue = std::variant<std::string, int64_t, bool>;

// What is read of a set, or of a row: pairs in the order of keys.
using OwnedPairs = std::vector<std::pair<std::string, OwnedValue>>;

namespace detail {

template <typename Given>
AttributeValue to_value(const Given &value) {
    if constexpr (std::is_same_v<Given, OwnedValue>) return std::visit([](auto &owned) { return AttributeValue(owned); }, value);
    else return value;
}

inline void add(Handle<kit_pairs> &list, Text key, const AttributeValue &given) {
    if (auto text = std::get_if<std::string_view>(&given.value)) {
        Text value(*text);
        check(kit_pairs_add_text(list.at(), key.at, key.len, value.at, value.len));
    } else if (auto whole = std::get_if<int64_t>(&given.value)) {
        check(kit_pairs_add_whole(list.at(), key.at, key.len, *whole));
    } else {
        check(kit_pairs_add_truth(list.at(), key.at, key.len, std::get<bool>(given.value)));
    }
}

inline OwnedPairs read_pairs(const Handle<kit_attributes> &set) {
    size_t count = 0;
    check(kit_attributes_len(set.lent().at(), &count));
    OwnedPairs pairs;
    for (size_t number = 0; number < count; number++) {
        std::string key = copy_text([&](auto... room) { return kit_attributes_key(set.lent().at(), number, room...); });
        uint8_t kind = 0;
        int64_t whole = 0;
        check(kit_attributes_value(set.lent().at(), number, &kind, &whole));
        OwnedValue value;
        if (kind == 0) value = copy_text([&](auto... room) { return kit_attributes_text(set.lent().at(), number, room...); });
        else if (kind == 1) value = whole;
        else value = whole == 1;
        pairs.emplace_back(std::move(key), std::move(value));
    }
    return pairs;
}

}  // namespace detail

// Pairs as they were written down: to be made a set, or to say which points an ask is of.
class Pairs : public Thing<kit_pairs> {
public:
    Pairs() = default;
    Pairs(std::initializer_list<std::pair<std::string_view, AttributeValue>> pairs) {
        for (auto &[key, value] : pairs) add(key, value);
    }
    // Of a map, or of a range of pairs.
    template <typename Range, typename = std::enable_if_t<detail::is_pairs<Range>>>
    explicit Pairs(const Range &pairs) {
        for (auto &[key, value] : pairs) add(key, detail::to_value(value));
    }
    void add(Text key, const AttributeValue &value) { detail::add(handle, key, value); }
};

// A set of attributes: of a key that is given twice the later value stays. Make it once, and record with it often, from any thread.
class Attributes : public Thing<kit_attributes> {
    Pairs of;

    static Handle<kit_attributes> make(const Pairs &pairs) {
        Handle<kit_attributes> set;
        uint64_t place = 0;
        check(kit_attributes_make(set.at(), pairs.raw().lent().at(), &place), place);
        return set;
    }

public:
    Attributes() : Attributes(Pairs()) {}
    explicit Attributes(Pairs &&pairs) : Thing(make(pairs)), of(std::move(pairs)) {}
    Attributes(std::initializer_list<std::pair<std::string_view, AttributeValue>> pairs) : Attributes(Pairs(pairs)) {}
    // Of a map, or of a range of pairs.
    template <typename Range, typename = std::enable_if_t<detail::is_pairs<Range>>>
    explicit Attributes(const Range &pairs) : Attributes(Pairs(pairs)) {}

    // Its pairs, in the order of their keys: each key once.
    OwnedPairs pairs() const { return detail::read_pairs(handle); }

    // An equal set, for a call that has its set for itself.
    Handle<kit_attributes> copy_handle() const {
        if (!handle) detail::refuse(KIT_NOTHING);
        return make(of);
    }
};

}  // namespace kotskhin
