// What a provider refuses, and where instruments were declared.
#pragma once
#include "kotskhin/error.hpp"
#include <functional>

namespace kotskhin::metrics {

// Codes that are no library's: of an instrument that was declared after its provider started; of a value, or a whole number in attributes,
// that is above 2^63 - 1 (or below -2^63); of a provider that nothing started; of a stream with more sets of attributes than it has points
// for; of a provider that another process made, of which this one is a fork.
enum : int32_t { DECLARED_LATE = -1, VALUE_TOO_WIDE = -2, NOT_STARTED = -3, CARDINALITY_LIMIT = -4, FORKED = -5 };

// What a code says: one of these, or of kotskhin.h.
inline std::string reason(int32_t code) {
    switch (code) {
    case DECLARED_LATE: return "DECLARED_LATE: the provider had started before the instrument was declared";
    case VALUE_TOO_WIDE: return "VALUE_TOO_WIDE: a number is above 2^63 - 1, the greatest that is recorded";
    case NOT_STARTED: return "NOT_STARTED: the provider has not started";
    case CARDINALITY_LIMIT: return "CARDINALITY_LIMIT: further sets are counted together, in the point otel.metric.overflow=true";
    case FORKED: return "FORKED: the provider is of the process that made it, and not of that one's fork";
    default: return describe(code);
    }
}

// The exception of a code that is no library's.
inline Refused make_refused(int32_t code) { return Refused(code, reason(code)); }

// A place in a program's text.
struct Place {
    const char *file = nullptr;
    int line = 0;
    static constexpr Place here(const char *file = __builtin_FILE(), int line = __builtin_LINE()) { return {file, line}; }
};

// What a refusal is of: recordings; an instrument, whose recordings all are refused; a view, which is passed over; a stream, whose further
// sets are counted together; the provider.
enum class RefusalOf : uint8_t { Recordings, Instrument, View, Stream, Provider };

// What was refused.
struct Refusal {
    // The name of the instrument, or of the stream that would leave its range or its limit; empty where it is not known.
    std::string instrument;
    // Where the instrument was declared; no file where that is not known.
    Place declared;
    // Why: of several recordings, why the first, with the places that the code tells. Of a view the place is its number, from 0.
    int32_t code;
    std::optional<uint64_t> place, second;
    // How many recordings: none where it is of none.
    uint64_t count;
    RefusalOf of = RefusalOf::Recordings;

    std::string what() const {
        std::string name = instrument.empty() ? "an instrument" : "'" + instrument + "'";
        if (declared.file) name += ", declared at " + std::string(declared.file) + ":" + std::to_string(declared.line);
        switch (of) {
        case RefusalOf::Instrument: return name + ", is refused: " + reason(code);
        case RefusalOf::View: return name + ": view " + std::to_string(place.value_or(0)) + " is passed over: " + reason(code);
        case RefusalOf::Stream: return name + ": " + reason(code);
        case RefusalOf::Provider: return reason(code);
        default: return name + ": " + std::to_string(count) + " refused: " + reason(code);
        }
    }
};

using OnRefused = std::function<void(const Refusal &)>;

}  // namespace kotskhin::metrics
