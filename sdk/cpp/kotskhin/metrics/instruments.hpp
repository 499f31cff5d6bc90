// Meters and their instruments.
#pragma once
#include "kotskhin/metrics/shared.hpp"
#include "kotskhin/metrics/whole.hpp"

namespace kotskhin::metrics {

namespace detail {

// An instrument that was declared, or the reason why it was not.
class Part {
    std::shared_ptr<Shared> shared;
    Kind kind;
    size_t number = 0;
    int32_t code = KIT_OK;
    std::string name;
    Place declared;

    void refuse(const Refused &why, uint64_t count, RefusalOf of) const noexcept { refuse(why.code, why.place, why.second, count, of); }
    void refuse(int32_t why, std::optional<uint64_t> place, std::optional<uint64_t> second, uint64_t count, RefusalOf of) const noexcept {
        try {
            shared->refuse({name, declared, why, place, second, count, of});
        } catch (...) {
            // (no memory for the name)
            shared->refuse({{}, declared, why, place, second, count, of});
        }
    }

public:
    Part(std::shared_ptr<Shared> given, Declared instrument, const std::optional<std::vector<int64_t>> &boundaries, Place declared)
        : shared(std::move(given)), kind(instrument.kind), name(instrument.name), declared(declared) {
        std::vector<Refused> passed_over;
        std::optional<Refused> why;
        try {
            number = shared->declare(std::move(instrument), boundaries, passed_over);
        } catch (const Refused &refused) {
            why = refused;
            code = refused.code;
        }
        for (auto &view : passed_over) refuse(view, 0, RefusalOf::View);
        if (why) refuse(*why, 0, RefusalOf::Instrument);
    }

protected:
    // A recording at attributes: a list, a map or another range of pairs.
    template <typename Given>
    void note(Whole value, const Given &attributes) const noexcept {
        int32_t why = code == KIT_OK ? value.fault(kind) : code;
        std::optional<uint64_t> place;
        try {
            if (why == KIT_OK) why = shared->record(At<Given>{number, kind == Kind::Gauge, attributes}, value.value());
        } catch (const Refused &refused) {
            why = refused.code;
            place = refused.place;
        } catch (...) {
            why = KIT_NO_MEMORY;
        }
        if (why != KIT_OK) refuse(why, place, {}, 1, RefusalOf::Recordings);
    }
};

// What is added to.
class Adding : Part {
public:
    using Part::Part;
    void Add(Whole value) const noexcept { note(value, PairsGiven{}); }
    void Add(Whole value, PairsGiven attributes) const noexcept { note(value, attributes); }
    template <typename Range, typename = std::enable_if_t<kotskhin::detail::is_pairs<Range>>>
    void Add(Whole value, const Range &attributes) const noexcept {
        note(value, attributes);
    }
};

// What values are recorded by.
class Recording : Part {
public:
    using Part::Part;
    void Record(Whole value) const noexcept { note(value, PairsGiven{}); }
    void Record(Whole value, PairsGiven attributes) const noexcept { note(value, attributes); }
    template <typename Range, typename = std::enable_if_t<kotskhin::detail::is_pairs<Range>>>
    void Record(Whole value, const Range &attributes) const noexcept {
        note(value, attributes);
    }
};

}  // namespace detail

// (None is the base of another, nor is what they share a public one: a pointer to one instrument is none to another.)

// Increments of at least 0.
template <typename Value>
class Counter : detail::Adding {
public:
    using detail::Adding::Add, detail::Adding::Adding;
};

// Increments of either sign.
template <typename Value>
class UpDownCounter : detail::Adding {
public:
    using detail::Adding::Add, detail::Adding::Adding;
};

// Values of which the last one counts, whichever thread recorded it. Each goes to the writer at once.
template <typename Value>
class Gauge : detail::Recording {
public:
    using detail::Recording::Record, detail::Recording::Recording;
};

// Values of at least 0 whose distribution counts.
template <typename Value>
class Histogram : detail::Recording {
public:
    using detail::Recording::Record, detail::Recording::Recording;
};

// Declares the instruments of one scope. Each is that which was declared before, where scope, name, unit and kind are the same. One that is
// refused is told to the provider's hook, and records nothing: where the provider has started (DECLARED_LATE), or the plan with it is
// refused. Descriptions are for who reads the code: exports have none.
class Meter {
    std::shared_ptr<detail::Shared> shared;
    std::string scope;

    template <typename Made>
    std::unique_ptr<Made> make(std::string name, std::string unit, Kind kind, Place declared,
                               const std::optional<std::vector<int64_t>> &boundaries = {}) const {
        return std::unique_ptr<Made>(new Made(shared, Declared{scope, std::move(name), std::move(unit), kind}, boundaries, declared));
    }

public:
    Meter(std::shared_ptr<detail::Shared> shared, std::string scope) : shared(std::move(shared)), scope(std::move(scope)) {}

    std::unique_ptr<Counter<uint64_t>> CreateUInt64Counter(std::string name, std::string_view = "", std::string unit = "",
                                                           Place declared = Place::here()) const {
        return make<Counter<uint64_t>>(std::move(name), std::move(unit), Kind::Counter, declared);
    }
    std::unique_ptr<UpDownCounter<int64_t>> CreateInt64UpDownCounter(std::string name, std::string_view = "", std::string unit = "",
                                                                     Place declared = Place::here()) const {
        return make<UpDownCounter<int64_t>>(std::move(name), std::move(unit), Kind::UpDown, declared);
    }
    std::unique_ptr<Gauge<int64_t>> CreateInt64Gauge(std::string name, std::string_view = "", std::string unit = "",
                                                     Place declared = Place::here()) const {
        return make<Gauge<int64_t>>(std::move(name), std::move(unit), Kind::Gauge, declared);
    }
    std::unique_ptr<Histogram<uint64_t>> CreateUInt64Histogram(std::string name, std::string_view = "", std::string unit = "",
                                                               Place declared = Place::here()) const {
        return make<Histogram<uint64_t>>(std::move(name), std::move(unit), Kind::Histogram, declared);
    }
    // With the upper bounds of its buckets, which strictly rise, where no view says others.
    std::unique_ptr<Histogram<uint64_t>> CreateUInt64Histogram(std::string name, std::string_view, std::string unit,
                                                               std::vector<int64_t> boundaries, Place declared = Place::here()) const {
        return make<Histogram<uint64_t>>(std::move(name), std::move(unit), Kind::Histogram, declared, boundaries);
    }
};

}  // namespace kotskhin::metrics
