// Asks of gateways, and the rows that answer them.
#pragma once
#include "kotskhin/attributes.hpp"
#include "kotskhin/plan.hpp"
#include <optional>
#include <variant>

namespace kotskhin {

// What is asked of a gateway: a stream, and which of its points. Without more, all of them, a row for each attribute set. Each call that
// narrows it answers the ask, so that they can be written one behind the other.
class Ask : public Thing<kit_ask> {
    Ask() = default;

public:
    // Of the sum of a counter, which is monotonic, or of an up-down counter, which is not.
    static Ask sum(Text scope, Text name, Text unit, bool monotonic = true) {
        Ask made;
        check(kit_ask_sum(made.handle.at(), scope.at, scope.len, name.at, name.len, unit.at, unit.len, monotonic));
        return made;
    }
    static Ask gauge(Text scope, Text name, Text unit) {
        Ask made;
        check(kit_ask_gauge(made.handle.at(), scope.at, scope.len, name.at, name.len, unit.at, unit.len));
        return made;
    }
    static Ask histogram(Text scope, Text name, Text unit, Bounds bounds) {
        Ask made;
        check(kit_ask_histogram(made.handle.at(), scope.at, scope.len, name.at, name.len, unit.at, unit.len, bounds.at, bounds.len));
        return made;
    }
    // Of a stream by its number, as it stands.
    static Ask stream(const Streams &streams, size_t number) {
        Ask made;
        check(kit_ask_stream(made.handle.at(), streams.raw().lent().at(), number));
        return made;
    }
    // From now on of one service's writers.
    Ask &service(Text service) & { return chain(kit_ask_service(handle.at(), service.at, service.len)); }
    // From now on of the points that have each of these pairs.
    Ask &only(const Pairs &pairs) & { return chain(kit_ask_only(handle.at(), pairs.raw().lent().at())); }
    // From now on rows are told apart by these keys alone.
    template <typename Keys = std::initializer_list<std::string_view>>
    Ask &keep(const Keys &keys) & {
        return chain(kit_ask_keep(handle.at(), detail::make_keys(keys).at()));
    }

    Ask service(Text service) && { return std::move(this->service(service)); }
    Ask only(const Pairs &pairs) && { return std::move(only(pairs)); }
    template <typename Keys = std::initializer_list<std::string_view>>
    Ask keep(const Keys &keys) && {
        return std::move(keep(keys));
    }

private:
    Ask &chain(int32_t code) {
        check(code);
        return *this;
    }
};

// A total of 128 bits in two's complement: a sum; and one without a sign, a count.
struct WideSum {
    uint64_t high = 0, low = 0;
    bool operator==(const WideSum &other) const { return high == other.high && low == other.low; }
    // As 64 bits, where it has room there.
    std::optional<int64_t> narrow() const {
        bool fits = high == (low >> 63 ? UINT64_MAX : 0);
        return fits ? std::optional<int64_t>(static_cast<int64_t>(low)) : std::nullopt;
    }
    std::string text() const;
};
struct WideCount {
    uint64_t high = 0, low = 0;
    bool operator==(const WideCount &other) const { return high == other.high && low == other.low; }
    std::optional<uint64_t> narrow() const { return high ? std::nullopt : std::optional<uint64_t>(low); }
    // In decimal digits.
    std::string text() const {
        uint32_t parts[4] = {static_cast<uint32_t>(high >> 32), static_cast<uint32_t>(high), static_cast<uint32_t>(low >> 32),
                             static_cast<uint32_t>(low)};
        std::string digits;
        do {
            uint64_t rest = 0;
            for (uint32_t &part : parts) {
                rest = rest << 32 | part;
                part = static_cast<uint32_t>(rest / 10);
                rest %= 10;
            }
            digits.insert(digits.begin(), static_cast<char>('0' + rest));
        } while (parts[0] | parts[1] | parts[2] | parts[3]);
        return digits;
    }
};

inline std::string WideSum::text() const {
    if (!(high >> 63)) return WideCount{high, low}.text();
    uint64_t other = ~low + 1;
    return "-" + WideCount{~high + (other == 0), other}.text();
}

// The newest point of a gauge's row.
struct Newest {
    uint64_t time;
    int64_t value;
};

// The least and the greatest value of a histogram's row.
struct Range {
    int64_t least, greatest;
};

// What a histogram's row comes to. It has one bucket more than bounds, and no range where it has no value.
struct Distribution {
    WideCount count;
    WideSum sum;
    std::vector<WideCount> buckets;
    std::optional<Range> range;
};

// A row as data. A gauge's has no newest point where it has conflicts alone.
struct Row {
    OwnedPairs attributes;
    uint64_t points, conflicts;
    std::variant<WideSum, std::optional<Newest>, Distribution> total;
};

// The rows that answer an ask, numbered from 0 in the order of their attribute sets.
class Rows : public Thing<kit_rows> {
public:
    explicit Rows(Handle<kit_rows> &&has) : Thing(std::move(has)) {}

    size_t size() const {
        size_t count = 0;
        check(kit_rows_len(handle.lent().at(), &count));
        return count;
    }
    // The set that a row is of, pair by pair.
    OwnedPairs attributes(size_t row) const {
        Handle<kit_attributes> set;
        check(kit_rows_attributes(handle.lent().at(), row, set.at()));
        return detail::read_pairs(set);
    }
    // A row as data, and all of them.
    Row row(size_t number) const {
        kit_row read{};
        check(kit_rows_read(handle.lent().at(), number, &read));
        return Row{attributes(number), read.points, read.conflicts, read_total(number, read)};
    }
    std::vector<Row> all() const {
        std::vector<Row> rows;
        for (size_t number = 0; number < size(); number++) rows.push_back(row(number));
        return rows;
    }
    // The table: a line for each row below a header.
    std::string table() const {
        Handle<kit_text> table;
        check(kit_rows_table(handle.lent().at(), table.at()));
        return detail::copy_text([&](auto... room) { return kit_text_copy(table.lent().at(), room...); });
    }

private:
    decltype(Row::total) read_total(size_t number, const kit_row &read) const {
        if (read.shape == KIT_SHAPE_GAUGE) return read.has_value ? std::optional(Newest{read.time, read.value}) : std::nullopt;
        WideSum sum{static_cast<uint64_t>(read.sum_high), read.sum_low};
        if (read.shape == KIT_SHAPE_SUM) return sum;
        Distribution values{WideCount{read.count_high, read.count_low}, sum, read_buckets(number, read.buckets), {}};
        if (read.has_range) values.range = Range{read.least, read.greatest};
        return values;
    }
    std::vector<WideCount> read_buckets(size_t row, size_t count) const {
        std::vector<kit_count> room(count + 1);
        check(kit_rows_buckets(handle.lent().at(), row, room.data(), count, &count));
        std::vector<WideCount> counts;
        for (size_t bucket = 0; bucket < count; bucket++) counts.push_back({room[bucket].high, room[bucket].low});
        return counts;
    }
};

}  // namespace kotskhin
