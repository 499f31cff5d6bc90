// Why calls are refused.
#pragma once
#include "kotskhin.h"
#include <cstdint>
#include <optional>
#include <stdexcept>
#include <string>
#include <utility>

namespace kotskhin {

// What a code says, behind its name.
inline std::string describe(int32_t code) {
    uint8_t none = 0;
    std::string text(kit_code_text(code, &none, 0), ' ');
    kit_code_text(code, reinterpret_cast<uint8_t *>(text.data()), text.size());
    return std::string(kit_code_name(code)) + ": " + text;
}

// How many places a code tells, in a call that tells places.
constexpr int places_of(int32_t code) {
    switch (code) {
    case KIT_BAD_AGGREGATION:
    case KIT_SAME_STREAM: return 2;
    case KIT_NOT_TEXT:
    case KIT_OVERFLOW:
    case KIT_TIME_NOT_AFTER:
    case KIT_START_NOT_AFTER:
    case KIT_EMPTY_KEY:
    case KIT_BAD_NAME:
    case KIT_BAD_UNIT:
    case KIT_BAD_BOUNDS:
    case KIT_BAD_RENAME:
    case KIT_WILDCARD_RENAME:
    case KIT_RESERVED_SCOPE:
    case KIT_TRUNCATED:
    case KIT_BAD_MAGIC:
    case KIT_BAD_VERSION:
    case KIT_NOT_CANONICAL:
    case KIT_BAD_CHECKSUM:
    case KIT_OTLP_BOUNDS:
    case KIT_RESERVED_POINT:
    case KIT_TOO_LONG_TEXT:
    case KIT_TOO_MANY_ATTRIBUTES: return 1;
    // (what is wrong with a request of OTLP has a place each)
    default: return code > KIT_TOO_LONG && code <= KIT_NO_EXPORT;
    }
}

// Why a call is refused: a code of kotskhin.h, with the places that it tells. Nothing was changed.
struct Refused : std::runtime_error {
    int32_t code;
    std::optional<uint64_t> place, second;

    explicit Refused(int32_t code, std::optional<uint64_t> place = {}, std::optional<uint64_t> second = {})
        : std::runtime_error("kotskhin: " + describe(code) + describe_places(place, second)), code(code), place(place), second(second) {}
    // By a code that is not of kotskhin.h, and what it says.
    Refused(int32_t code, const std::string &says) : std::runtime_error("kotskhin: " + says), code(code) {}

private:
    static std::string describe_places(std::optional<uint64_t> place, std::optional<uint64_t> second) {
        if (!place) return "";
        return " (" + std::to_string(*place) + (second ? " and " + std::to_string(*second) : "") + ")";
    }
};

// The refusal of one code.
template <int32_t Code>
struct RefusedBy : Refused {
    explicit RefusedBy(std::optional<uint64_t> place = {}, std::optional<uint64_t> second = {}) : Refused(Code, place, second) {}
};

using NoMemory = RefusedBy<KIT_NO_MEMORY>;
using Nothing = RefusedBy<KIT_NOTHING>;
using WrongKind = RefusedBy<KIT_WRONG_KIND>;
using Full = RefusedBy<KIT_FULL>;
using NotText = RefusedBy<KIT_NOT_TEXT>;
using BadNumber = RefusedBy<KIT_BAD_NUMBER>;
using NoHeld = RefusedBy<KIT_NO_HELD>;
using NoRow = RefusedBy<KIT_NO_ROW>;
using NoPoint = RefusedBy<KIT_NO_POINT>;
using Closed = RefusedBy<KIT_CLOSED>;
using NoInstrument = RefusedBy<KIT_NO_INSTRUMENT>;
using Negative = RefusedBy<KIT_NEGATIVE>;
using Overflow = RefusedBy<KIT_OVERFLOW>;
using TimeNotAfter = RefusedBy<KIT_TIME_NOT_AFTER>;
using StartNotAfter = RefusedBy<KIT_START_NOT_AFTER>;
using Busy = RefusedBy<KIT_BUSY>;
using Exhausted = RefusedBy<KIT_EXHAUSTED>;
using SeatsFull = RefusedBy<KIT_SEATS_FULL>;
using NoItem = RefusedBy<KIT_NO_ITEM>;
using EmptyKey = RefusedBy<KIT_EMPTY_KEY>;
using BadName = RefusedBy<KIT_BAD_NAME>;
using BadUnit = RefusedBy<KIT_BAD_UNIT>;
using BadBounds = RefusedBy<KIT_BAD_BOUNDS>;
using BadRename = RefusedBy<KIT_BAD_RENAME>;
using WildcardRename = RefusedBy<KIT_WILDCARD_RENAME>;
using BadAggregation = RefusedBy<KIT_BAD_AGGREGATION>;
using SameStream = RefusedBy<KIT_SAME_STREAM>;
using BadLimit = RefusedBy<KIT_BAD_LIMIT>;
using ReservedScope = RefusedBy<KIT_RESERVED_SCOPE>;
using WrongShape = RefusedBy<KIT_WRONG_SHAPE>;
using NotAddressed = RefusedBy<KIT_NOT_ADDRESSED>;
using Truncated = RefusedBy<KIT_TRUNCATED>;
using BadMagic = RefusedBy<KIT_BAD_MAGIC>;
using BadVersion = RefusedBy<KIT_BAD_VERSION>;
using NotCanonical = RefusedBy<KIT_NOT_CANONICAL>;
using BadChecksum = RefusedBy<KIT_BAD_CHECKSUM>;
using BadExport = RefusedBy<KIT_BAD_EXPORT>;
using RecorderFull = RefusedBy<KIT_RECORDER_FULL>;
using OtlpBounds = RefusedBy<KIT_OTLP_BOUNDS>;
using TooLong = RefusedBy<KIT_TOO_LONG>;
using TooLongText = RefusedBy<KIT_TOO_LONG_TEXT>;
using TooManyAttributes = RefusedBy<KIT_TOO_MANY_ATTRIBUTES>;
// Of archives: why an incarnation is not adopted, no export is made, and none is sealed.
using OtherService = RefusedBy<KIT_OTHER_SERVICE>;
using IsArchive = RefusedBy<KIT_IS_ARCHIVE>;
using Adopted = RefusedBy<KIT_ADOPTED>;
using Conflict = RefusedBy<KIT_CONFLICT>;
using Torn = RefusedBy<KIT_TORN>;
using Unsound = RefusedBy<KIT_UNSOUND>;
using OutOfRange = RefusedBy<KIT_OUT_OF_RANGE>;
using SetLimit = RefusedBy<KIT_SET_LIMIT>;
using TimeNotLater = RefusedBy<KIT_TIME_NOT_LATER>;
using StartNotLater = RefusedBy<KIT_START_NOT_LATER>;
using Unexported = RefusedBy<KIT_UNEXPORTED>;

// Of requests of OTLP that are read: bytes that are none, and what they say that no export has.
namespace request {

using Malformed = RefusedBy<KIT_MALFORMED>;
using NoService = RefusedBy<KIT_NO_SERVICE>;
using NoInstance = RefusedBy<KIT_NO_INSTANCE>;
using NotUuid = RefusedBy<KIT_NOT_UUID>;
using ScopeTwice = RefusedBy<KIT_SCOPE_TWICE>;
using ExponentialHistogram = RefusedBy<KIT_EXPONENTIAL_HISTOGRAM>;
using Summary = RefusedBy<KIT_SUMMARY>;
using NoData = RefusedBy<KIT_NO_DATA>;
using Delta = RefusedBy<KIT_DELTA>;
using NoTemporality = RefusedBy<KIT_NO_TEMPORALITY>;
using NoRecordedValue = RefusedBy<KIT_NO_RECORDED_VALUE>;
using UnknownStart = RefusedBy<KIT_UNKNOWN_START>;
using FloatValue = RefusedBy<KIT_FLOAT_VALUE>;
using NoPointValue = RefusedBy<KIT_NO_POINT_VALUE>;
using NoSum = RefusedBy<KIT_NO_SUM>;
using NotWhole = RefusedBy<KIT_NOT_WHOLE>;
using Inexact = RefusedBy<KIT_INEXACT>;
using NotRising = RefusedBy<KIT_NOT_RISING>;
using HalfRange = RefusedBy<KIT_HALF_RANGE>;
using NoKey = RefusedBy<KIT_NO_KEY>;
using AttributeTwice = RefusedBy<KIT_ATTRIBUTE_TWICE>;
using AttributeValue = RefusedBy<KIT_ATTRIBUTE_VALUE>;
using NoExport = RefusedBy<KIT_NO_EXPORT>;
using ReservedPoint = RefusedBy<KIT_RESERVED_POINT>;

}  // namespace request

namespace detail {

template <int32_t... Codes>
[[noreturn]] void throw_refused(int32_t code, std::optional<uint64_t> place, std::optional<uint64_t> second,
                                std::integer_sequence<int32_t, Codes...>) {
    ((code == Codes ? throw RefusedBy<Codes>(place, second) : void()), ...);
    throw Refused(code, place, second);
}

// Throws the class of a code that is not KIT_OK: the codes are those below 128.
[[noreturn]] inline void refuse(int32_t code, std::optional<uint64_t> place = {}, std::optional<uint64_t> second = {}) {
    throw_refused(code, place, second, std::make_integer_sequence<int32_t, 128>());
}

}  // namespace detail

inline void check(int32_t code) {
    if (code != KIT_OK) detail::refuse(code);
}

// Of a call that tells a place. (by references: a call and what it tells are written down as arguments beside each other)
inline void check(int32_t code, const uint64_t &place) {
    if (code == KIT_OK) return;
    if (places_of(code) == 0) detail::refuse(code);
    detail::refuse(code, place);
}

// Of a call that tells two.
inline void check(int32_t code, const uint64_t &place, const uint64_t &second) {
    if (places_of(code) == 2) detail::refuse(code, place, second);
    check(code, place);
}

}  // namespace kotskhin
