// Views: what is made of instruments.
#pragma once
#include "kotskhin/plan.hpp"
#include <algorithm>
#include <cctype>
#include <optional>

namespace kotskhin::metrics {

// An instrument that is declared.
struct Declared {
    std::string scope, name, unit;
    Kind kind;

    // Whether both are one, but for the unit: names are taken without regard to case.
    bool is_named_as(const Declared &other) const { return kind == other.kind && scope == other.scope && same_name(name, other.name); }
    static bool same_name(std::string_view one, std::string_view other) {
        auto lower = [](char letter) { return letter >= 'A' && letter <= 'Z' ? static_cast<char>(letter + 32) : letter; };
        auto same = [&](char a, char b) { return lower(a) == lower(b); };
        return one.size() == other.size() && std::equal(one.begin(), one.end(), other.begin(), same);
    }
};

// Which instruments a view is of: those of a kind, a name and a unit. What is not said is any; of names "*" is, too.
struct InstrumentSelector {
    std::optional<Kind> kind;
    std::string name = "*";
    std::optional<std::string> unit;
};

// Which meters: those of a name. An empty one is any.
struct MeterSelector {
    std::string name;
};

// A stream that a view makes of an instrument: its name, where that is another than the instrument's; what it makes of values; as a
// histogram its bounds; the keys of attributes that it keeps, where these are not all.
struct View {
    std::string name;
    Aggregation aggregation = Aggregation::AsKind;
    std::optional<std::vector<int64_t>> boundaries;
    std::optional<std::vector<std::string>> keys;

    // The kit's view that makes this stream of an instrument, which has this name in the plan.
    kotskhin::View of(const Declared &instrument, const std::string &planned) const {
        auto made = kotskhin::View::of_name(planned).scope(instrument.scope).kind(instrument.kind);
        if (!name.empty()) made.rename(name);
        else if (planned != instrument.name) made.rename(instrument.name);
        if (keys) made.keep(*keys);
        if (boundaries) made.buckets(*boundaries);
        else made.aggregate(aggregation);
        return made;
    }
};

struct ViewOf {
    InstrumentSelector instruments;
    MeterSelector meters;
    View view;

    bool is_of(const Declared &instrument) const {
        if (instruments.kind && *instruments.kind != instrument.kind) return false;
        if (instruments.unit && *instruments.unit != instrument.unit) return false;
        if (!meters.name.empty() && meters.name != instrument.scope) return false;
        return instruments.name == "*" || Declared::same_name(instruments.name, instrument.name);
    }
};

}  // namespace kotskhin::metrics
