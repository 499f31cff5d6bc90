// Streams: what can be asked for.
#pragma once
#include "kotskhin/handle.hpp"
#include <optional>

namespace kotskhin {

// What the points of a stream are.
enum class Shape : uint8_t { MonotonicSum = 0, Sum = 1, Gauge = 2, Histogram = 3 };

// A stream, by all that an ask wants. Only a histogram has bounds.
struct Stream {
    std::string scope, name, unit;
    Shape shape;
    std::vector<int64_t> bounds;
};

// The streams of a plan, whose numbers are those that Overflow tells, of a gateway, or of an export.
class Streams : public Thing<kit_streams> {
    std::string read_text(size_t number, uint8_t part) const {
        return detail::copy_text([&](auto... room) { return kit_streams_text(handle.lent().at(), number, part, room...); });
    }

public:
    explicit Streams(Handle<kit_streams> &&has) : Thing(std::move(has)) {}

    size_t size() const {
        size_t count = 0;
        check(kit_streams_len(handle.lent().at(), &count));
        return count;
    }
    // The stream of a number, from 0.
    Stream operator[](size_t number) const {
        uint8_t shape = 0;
        size_t bounds = 0;
        check(kit_streams_shape(handle.lent().at(), number, &shape, &bounds));
        Stream stream{read_text(number, 0), read_text(number, 1), read_text(number, 2), static_cast<Shape>(shape), {}};
        stream.bounds = detail::copy_out<std::vector<int64_t>>(bounds + 1, [&](int64_t *into, size_t room, size_t *len) {
            return kit_streams_bounds(handle.lent().at(), number, into, room, len);
        });
        return stream;
    }
    std::vector<Stream> all() const {
        std::vector<Stream> streams;
        for (size_t number = 0; number < size(); number++) streams.push_back((*this)[number]);
        return streams;
    }
};

}  // namespace kotskhin
