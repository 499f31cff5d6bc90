"""Why calls are refused: a code for each reason, and an exception of its name."""
import enum
import re
import typing

from kotskhin.declared import CODES


class Code(enum.IntEnum):
    """Why a call is refused: the codes of kotskhin.h. Each has what it says, and the words for the places that it tells."""

    says: str
    places: tuple[str, ...]

    if typing.TYPE_CHECKING:
        # (what checkers see of the loop below, which makes them of the declarations: a test holds these to those)
        NO_MEMORY = 1
        NOTHING = 2
        WRONG_KIND = 3
        FULL = 4
        NOT_TEXT = 5
        BAD_NUMBER = 6
        NO_HELD = 7
        NO_ROW = 8
        NO_POINT = 9
        CLOSED = 10
        NO_INSTRUMENT = 11
        NEGATIVE = 12
        OVERFLOW = 13
        TIME_NOT_AFTER = 14
        START_NOT_AFTER = 15
        BUSY = 16
        EXHAUSTED = 17
        SEATS_FULL = 18
        NO_ITEM = 19
        EMPTY_KEY = 20
        BAD_NAME = 30
        BAD_UNIT = 31
        BAD_BOUNDS = 32
        BAD_RENAME = 33
        WILDCARD_RENAME = 34
        BAD_AGGREGATION = 35
        SAME_STREAM = 36
        BAD_LIMIT = 37
        RESERVED_SCOPE = 38
        WRONG_SHAPE = 42
        NOT_ADDRESSED = 50
        TRUNCATED = 60
        BAD_MAGIC = 61
        BAD_VERSION = 62
        NOT_CANONICAL = 63
        BAD_CHECKSUM = 64
        BAD_EXPORT = 65
        RECORDER_FULL = 70
        OTLP_BOUNDS = 80
        TOO_LONG = 81
        MALFORMED = 82
        NO_SERVICE = 83
        NO_INSTANCE = 84
        NOT_UUID = 85
        SCOPE_TWICE = 86
        EXPONENTIAL_HISTOGRAM = 87
        SUMMARY = 88
        NO_DATA = 89
        DELTA = 90
        NO_TEMPORALITY = 91
        NO_RECORDED_VALUE = 92
        UNKNOWN_START = 93
        FLOAT_VALUE = 94
        NO_POINT_VALUE = 95
        NO_SUM = 96
        NOT_WHOLE = 97
        INEXACT = 98
        NOT_RISING = 99
        HALF_RANGE = 100
        NO_KEY = 101
        ATTRIBUTE_TWICE = 102
        ATTRIBUTE_VALUE = 103
        NO_EXPORT = 104
        RESERVED_POINT = 106
        TOO_LONG_TEXT = 107
        TOO_MANY_ATTRIBUTES = 108
        OTHER_SERVICE = 110
        IS_ARCHIVE = 111
        ADOPTED = 112
        CONFLICT = 113
        TORN = 114
        UNSOUND = 115
        OUT_OF_RANGE = 116
        SET_LIMIT = 117
        TIME_NOT_LATER = 118
        START_NOT_LATER = 119
        UNEXPORTED = 120
    else:
        _ignore_ = ["code"]
        for code in CODES[1:]:
            vars()[code[0]] = code[1:]

        def __new__(cls, number, says, places):
            code = int.__new__(cls, number)
            code._value_, code.says, code.places = number, says, places
            return code


class Refused(Exception):
    """A call is refused, and changed nothing. It has a `code`, the code's `name`, and the `place` that is told, or both, `place` and
    `second`: None where none is told. Each code has a class of its own below, to be caught by its name."""

    # What is refused, where who calls knows it by its own name, and by no place.
    of: str | None = None

    _classes: "typing.ClassVar[dict[Code, type[Refused]]]" = {}

    def __init_subclass__(cls) -> None:
        super().__init_subclass__()
        code = Code.__members__.get(re.sub(r"(?<=[a-z])(?=[A-Z])", "_", cls.__name__).upper())
        if code is not None:
            Refused._classes[code] = cls

    def __new__(cls, code: Code, place: int | None = None, second: int | None = None) -> "Refused":
        return super().__new__(Refused._classes.get(code, Refused) if cls is Refused else cls)

    def __init__(self, code: Code, place: int | None = None, second: int | None = None) -> None:
        super().__init__(code, place, second)
        self.code, self.place, self.second = code, place, second

    @property
    def name(self) -> str:
        return self.code.name

    def __str__(self) -> str:
        if self.of is not None:
            return f"{self.name}: {self.of}: {self.code.says}"
        places = ", ".join(f"{word} {place}" for word, place in zip(self.code.places, (self.place, self.second)))
        return f"{self.name}: {self.code.says}" + (f" ({places})" if places else "")


class NoMemory(Refused, MemoryError):
    """Memory was refused."""


class Nothing(Refused):
    """What is used was closed, or a writer was shared: it has nothing."""


class WrongKind(Refused):
    """A thing of another kind."""


class Full(Refused):
    """What is to be filled has something."""


class NotText(Refused):
    """A text is not UTF-8; of bytes with the byte."""


class BadNumber(Refused):
    """A number stands for nothing here."""


class NoHeld(Refused):
    """Nothing is held under this number."""


class NoRow(Refused, IndexError):
    """There is no row of this number."""


class NoPoint(Refused):
    """There is no point of what is asked for."""


class Closed(Refused):
    """The writer was shut down."""


class NoInstrument(Refused):
    """There is no instrument of this number."""


class Negative(Refused):
    """The instrument takes no value below 0."""


class Overflow(Refused):
    """A total would leave 64 bits: with the stream."""


class TimeNotAfter(Refused):
    """The time is not after that of the last collection: with that time."""


class StartNotAfter(Refused):
    """The start is not after the start so far: with that start."""


class Busy(Refused):
    """A call of another thread has the writer."""


class Exhausted(Refused):
    """The writer accepted as many changes as it may."""


class SeatsFull(Refused):
    """The writer has as many seats as it may."""


class NoItem(Refused, IndexError):
    """There is no item of this number."""


class EmptyKey(Refused):
    """A key is empty: with the pair."""


class BadName(Refused):
    """A name breaks the rule of names: with the instrument."""


class BadUnit(Refused):
    """A unit breaks the rule of units: with the instrument."""


class BadBounds(Refused):
    """Bounds do not strictly rise, or are too many: with the view."""


class BadRename(Refused):
    """A new name breaks the rule of names: with the view."""


class WildcardRename(Refused):
    """A view of every name gives a new one: with the view."""


class BadAggregation(Refused):
    """An aggregation does not fit its instrument: with the instrument, and second the view."""


class SameStream(Refused):
    """Two instruments feed one stream: with both."""


class BadLimit(Refused):
    """The limit is 0."""


class ReservedScope(Refused):
    """The scope of an instrument is that of tombstones, which archives alone tell: with the instrument."""


class WrongShape(Refused):
    """A value is of another shape."""


class NotAddressed(Refused):
    """The message goes to another id."""


class Truncated(Refused):
    """Bytes end within what they begin: with the byte."""


class BadMagic(Refused):
    """Bytes do not begin as an export or a message does: with the byte."""


class BadVersion(Refused):
    """The version is none that is known: with the byte."""


class NotCanonical(Refused):
    """A value is not in its one form: with the byte."""


class BadChecksum(Refused):
    """The checksum is not that of the bytes before it: with the byte."""


class BadExport(Refused):
    """The values are none that an export can have."""


class RecorderFull(Refused):
    """A recorder has as many recordings as it may."""


class OtlpBounds(Refused):
    """The bounds of a point do not rise as doubles: with the point."""


class TooLong(Refused):
    """The request has more bytes than one may have."""


class Malformed(Refused):
    """Bytes begin no field that can stand there: with the byte."""


class NoService(Refused):
    """A resource names no service: with the resource."""


class NoInstance(Refused):
    """A resource names no instance: with the resource."""


class NotUuid(Refused):
    """The instance of a resource is no UUID: with the resource."""


class ScopeTwice(Refused):
    """A scope comes in two versions: with the scope."""


class ExponentialHistogram(Refused):
    """A metric is an exponential histogram: with the metric."""


class Summary(Refused):
    """A metric is a summary: with the metric."""


class NoData(Refused):
    """A metric has no data: with the metric."""


class Delta(Refused):
    """A metric is told as deltas: with the metric."""


class NoTemporality(Refused):
    """A metric is not said to be cumulative: with the metric."""


class NoRecordedValue(Refused):
    """A point has no recorded value: with the point."""


class UnknownStart(Refused):
    """The start of a point is not known: with the point."""


class FloatValue(Refused):
    """The value of a point is a double: with the point."""


class NoPointValue(Refused):
    """A point has no value: with the point."""


class NoSum(Refused):
    """A histogram has no sum: with the point."""


class NotWhole(Refused):
    """A double of a histogram is no whole number: with the point."""


class Inexact(Refused):
    """A double of a histogram may stand for several whole numbers: with the point."""


class NotRising(Refused):
    """The bounds of a histogram do not strictly rise: with the point."""


class HalfRange(Refused):
    """A histogram has a least or a greatest value alone: with the point."""


class NoKey(Refused):
    """An attribute of a point has no key: with the point."""


class AttributeTwice(Refused):
    """Two attributes of a point have one key: with the point."""


class AttributeValue(Refused):
    """The value of an attribute is of a kind that is not known: with the point."""


class NoExport(Refused):
    """What a request says together makes no export: with the export."""


class ReservedPoint(Refused):
    """A point of a request has the scope of tombstones, `kotskhin.archive`, and would hide points of others: with the export."""


class TooLongText(Refused):
    """A service, a scope, a name or a unit has more than 1024 bytes: of a request with the byte."""


class TooManyAttributes(Refused):
    """A point has more than 128 attributes: with the point."""


class OtherService(Refused):
    """An incarnation is of another service than the archive."""


class IsArchive(Refused):
    """An incarnation is an archive's."""


class Adopted(Refused):
    """An archive adopted the incarnation before, be it before it was sealed."""


class Conflict(Refused):
    """A point of an incarnation is a conflict: two writers shared the identity."""


class Torn(Refused):
    """The points of an incarnation are not all of one time: not all of its last collection has come."""


class Unsound(Refused):
    """No export has the points of an incarnation."""


class OutOfRange(Refused):
    """The start or the time of an incarnation is at or above 2**63 - 1, or a total would leave its range."""


class SetLimit(Refused):
    """An archive would have more totals than its limit."""


class TimeNotLater(Refused):
    """The time is not later than that of the archive's last export, or than its start."""


class StartNotLater(Refused):
    """The start is not later than the archive's last export, or than its start."""


class Unexported(Refused):
    """An archive adopted incarnations since its last export."""


class ForkedError(RuntimeError):
    """What is used was made before a fork, by the parent of this process."""


def refusal(number: int, *places: int) -> Refused:
    """The refusal of a code, with those of the places that it tells."""
    code = Code(number)
    return Refused(code, *places[: len(code.places)])


# (a library that knows more codes than this page still tells each by a class of its name)
for _code in Code:
    if _code not in Refused._classes:
        _name = "".join(map(str.capitalize, _code.name.split("_")))
        globals()[_name] = type(_name, (Refused,), {"__doc__": f"{_code.says[:1].upper()}{_code.says[1:]}.", "__module__": __name__})

__all__ = [
    "Code", "Refused", "ForkedError", "NoMemory", "Nothing", "WrongKind", "Full", "NotText", "BadNumber", "NoHeld", "NoRow", "NoPoint",
    "Closed", "NoInstrument", "Negative", "Overflow", "TimeNotAfter", "StartNotAfter", "Busy", "Exhausted", "SeatsFull", "NoItem",
    "EmptyKey", "BadName", "BadUnit", "BadBounds", "BadRename", "WildcardRename", "BadAggregation", "SameStream", "BadLimit",
    "ReservedScope", "WrongShape", "NotAddressed", "Truncated", "BadMagic", "BadVersion", "NotCanonical",
    "BadChecksum", "BadExport", "RecorderFull", "OtlpBounds", "TooLong", "Malformed", "NoService", "NoInstance", "NotUuid", "ScopeTwice",
    "ExponentialHistogram", "Summary", "NoData", "Delta", "NoTemporality", "NoRecordedValue", "UnknownStart", "FloatValue",
    "NoPointValue", "NoSum", "NotWhole", "Inexact", "NotRising", "HalfRange", "NoKey", "AttributeTwice", "AttributeValue", "NoExport",
    "ReservedPoint", "TooLongText", "TooManyAttributes", "OtherService", "IsArchive", "Adopted", "Conflict", "Torn", "Unsound",
    "OutOfRange", "SetLimit", "TimeNotLater", "StartNotLater", "Unexported",
]
