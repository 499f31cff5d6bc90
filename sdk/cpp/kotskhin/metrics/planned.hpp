// The instruments that are declared, and the plan of them.
#pragma once
#include "kotskhin/metrics/views.hpp"

namespace kotskhin::metrics::detail {

class Instruments {
    struct Entry {
        Declared declared;
        std::vector<View> views;
        // Whether another has its scope, name and kind, and another unit.
        bool shares_name = false;
    };
    std::vector<Entry> list;
    std::optional<Plan> planned;

    // What an instrument is called in the plan. A view of the kit is of a scope, a name and a kind, so of two instruments that differ in
    // their units alone those with views have a name there that nothing else has, and their views give it back to the stream.
    static std::string name_in_plan(const std::vector<Entry> &all, size_t number) {
        const Entry &entry = all[number];
        if (!entry.shares_name || entry.views.empty()) return entry.declared.name;
        std::string name = "instrument-" + std::to_string(number);
        auto has_name = [&](const Entry &other) { return Declared::same_name(other.declared.name, name); };
        while (std::any_of(all.begin(), all.end(), has_name)) name += "_";
        return name;
    }

    static Plan make_plan(const std::vector<Entry> &all, uint64_t limit) {
        std::vector<std::string> names;
        for (size_t number = 0; number < all.size(); number++) names.push_back(name_in_plan(all, number));
        std::vector<Instrument> planned;
        Views views;
        for (size_t number = 0; number < all.size(); number++) {
            const Declared &instrument = all[number].declared;
            planned.push_back({instrument.scope, names[number], instrument.unit, instrument.kind});
            for (auto &view : all[number].views) views.add(view.of(instrument, names[number]));
        }
        return Plan::of(planned, views, limit);
    }

public:
    bool is_empty() const { return list.empty(); }
    // The number of that which is the same but for the case of its name.
    std::optional<size_t> find(const Declared &instrument) const {
        auto is_same = [&](const Entry &entry) { return entry.declared.is_named_as(instrument) && entry.declared.unit == instrument.unit; };
        auto found = std::find_if(list.begin(), list.end(), is_same);
        if (found == list.end()) return {};
        return static_cast<size_t>(found - list.begin());
    }
    // Declares one more, which these views make streams of, and tells its number. Where the plan with it is refused nothing changes.
    size_t add(Declared instrument, std::vector<View> views, uint64_t limit) {
        std::vector<Entry> all = list;
        Entry added{std::move(instrument), std::move(views)};
        for (auto &entry : all) {
            if (entry.declared.is_named_as(added.declared)) entry.shares_name = added.shares_name = true;
        }
        all.push_back(std::move(added));
        planned = make_plan(all, limit);
        list = std::move(all);
        return list.size() - 1;
    }
    Plan &plan(uint64_t limit) {
        if (!planned) planned = make_plan(list, limit);
        return *planned;
    }
};

}  // namespace kotskhin::metrics::detail
