// Instruments and views, and the plans that they make.
#pragma once
#include "kotskhin/streams.hpp"
#include <initializer_list>

namespace kotskhin {

// How many attribute sets a stream has points of their own for, where nothing else is asked.
constexpr uint64_t default_limit = KIT_DEFAULT_LIMIT;

// What an instrument takes: increments of at least 0; of either sign; values of which the last counts; values of at least 0 whose
// distribution counts.
enum class Kind : uint8_t { Counter = KIT_COUNTER, UpDown = KIT_UP_DOWN, Gauge = KIT_GAUGE, Histogram = KIT_HISTOGRAM };

// A kind, or its number in kotskhin.h; one that is no number of a kind is refused as BadNumber.
struct KindNumber {
    uint8_t number;
    constexpr KindNumber(Kind kind) : number(static_cast<uint8_t>(kind)) {}
    constexpr KindNumber(int number) : number(static_cast<uint8_t>(number < 0 || number > 255 ? 255 : number)) {}
};

struct Instrument {
    std::string_view scope, name, unit;
    KindNumber kind;
};

// What a view makes of values: as the kind does, a sum, the last value, nothing.
enum class Aggregation : uint8_t { AsKind = KIT_AS_KIND, Sum = KIT_SUM, LastValue = KIT_LAST_VALUE, Drop = KIT_DROP };

// An aggregation, or its number in kotskhin.h; one that is no number of one is refused as BadNumber.
struct AggregationNumber {
    uint8_t number;
    constexpr AggregationNumber(Aggregation aggregation) : number(static_cast<uint8_t>(aggregation)) {}
    constexpr AggregationNumber(int number) : number(static_cast<uint8_t>(number < 0 || number > 255 ? 255 : number)) {}
};

// Bounds of histograms, or any whole numbers that lie one after the other.
struct Bounds {
    const int64_t *at;
    size_t len;
    Bounds(std::initializer_list<int64_t> bounds) : Bounds(bounds.begin(), bounds.size()) {}
    template <typename Range, typename = decltype(static_cast<const int64_t *>(std::data(std::declval<const Range &>())))>
    Bounds(const Range &bounds) : Bounds(std::data(bounds), std::size(bounds)) {}
    Bounds(const int64_t *bounds, size_t len) : at(len ? bounds : &none()), len(len) {}

private:
    static const int64_t &none() {
        static const int64_t zero = 0;
        return zero;
    }
};

// The bounds of a histogram for which no view says others.
inline std::vector<int64_t> default_bounds() {
    int64_t none = 0;
    std::vector<int64_t> bounds(kit_default_bounds(&none, 0));
    kit_default_bounds(bounds.data(), bounds.size());
    return bounds;
}

namespace detail {

template <typename Keys>
Handle<kit_keys> make_keys(const Keys &keys) {
    Handle<kit_keys> list;
    for (auto &given : keys) {
        Text key(given);
        check(kit_keys_add(list.at(), key.at, key.len));
    }
    return list;
}

}  // namespace detail

// A view: which instruments it matches, and what is made of their recordings (OpenTelemetry Metrics SDK, "View"). Each call answers the
// view, so that they can be written one behind the other.
class View : public Thing<kit_view> {
    View() = default;

public:
    // Of the instruments of one name, but for the case of ASCII letters. It changes nothing yet.
    static View of_name(Text name) {
        View made;
        check(kit_view_of_name(made.handle.at(), name.at, name.len));
        return made;
    }
    // Of all instruments. It changes nothing yet.
    static View of_every() {
        View made;
        check(kit_view_of_every(made.handle.at()));
        return made;
    }
    // From now on of one kind; of one scope.
    View &kind(KindNumber kind) & { return chain(kit_view_kind(handle.at(), kind.number)); }
    View &scope(Text scope) & { return chain(kit_view_scope(handle.at(), scope.at, scope.len)); }
    // From now on its stream has this name.
    View &rename(Text name) & { return chain(kit_view_rename(handle.at(), name.at, name.len)); }
    // From now on its stream keeps these keys of attributes alone.
    template <typename Keys = std::initializer_list<std::string_view>>
    View &keep(const Keys &keys) & {
        return chain(kit_view_keep(handle.at(), detail::make_keys(keys).at()));
    }
    // From now on it aggregates so.
    View &aggregate(AggregationNumber aggregation) & { return chain(kit_view_aggregation(handle.at(), aggregation.number)); }
    // From now on it is a histogram of these bounds.
    View &buckets(Bounds bounds) & { return chain(kit_view_buckets(handle.at(), bounds.at, bounds.len)); }

    View kind(KindNumber kind) && { return std::move(this->kind(kind)); }
    View scope(Text scope) && { return std::move(this->scope(scope)); }
    View rename(Text name) && { return std::move(rename(name)); }
    template <typename Keys = std::initializer_list<std::string_view>>
    View keep(const Keys &keys) && {
        return std::move(keep(keys));
    }
    View aggregate(AggregationNumber aggregation) && { return std::move(aggregate(aggregation)); }
    View buckets(Bounds bounds) && { return std::move(buckets(bounds)); }

private:
    View &chain(int32_t code) {
        check(code);
        return *this;
    }
};

// Views, numbered from 0 in the order in which they are added.
class Views : public Thing<kit_views> {
public:
    Views() = default;
    template <typename... More>
    explicit Views(const View &first, const More &...more) {
        add(first);
        (add(more), ...);
    }
    void add(const View &view) { check(kit_views_add(handle.at(), view.raw().lent().at())); }
};

// Which instruments feed which streams. Instruments are numbered from 0, in the order in which they are given. Many writers may start
// under one plan.
class Plan : public Thing<kit_plan> {
    template <typename Range>
    void build(const Range &instruments, const Views &views, uint64_t limit) {
        Handle<kit_instruments> list;
        for (const Instrument &one : instruments) {
            Text scope(one.scope), name(one.name), unit(one.unit);
            check(kit_instruments_add(list.at(), scope.at, scope.len, name.at, name.len, unit.at, unit.len, one.kind.number));
        }
        uint64_t place = 0, second = 0;
        check(kit_plan_build(handle.at(), list.at(), views.raw().lent().at(), limit, &place, &second), place, second);
    }

public:
    Plan(std::initializer_list<Instrument> instruments, Number<uint64_t> limit = default_limit) { build(instruments, Views(), limit); }
    Plan(std::initializer_list<Instrument> instruments, const Views &views, Number<uint64_t> limit = default_limit) {
        build(instruments, views, limit);
    }
    // The same of any range of instruments.
    template <typename Range>
    static Plan of(const Range &instruments, const Views &views = {}, Number<uint64_t> limit = default_limit) {
        Plan made;
        made.build(instruments, views, limit);
        return made;
    }
    // Its streams, whose numbers are those that Overflow tells.
    Streams streams() const {
        Handle<kit_streams> streams;
        check(kit_plan_streams(handle.lent().at(), streams.at()));
        return Streams(std::move(streams));
    }

private:
    Plan() = default;
};

}  // namespace kotskhin
