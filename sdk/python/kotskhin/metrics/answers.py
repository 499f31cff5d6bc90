"""What the answers to exports say was not taken."""
import re
from collections.abc import Iterator

# The most bytes that are looked at of an answer.
MOST = 64 << 10
# Types of fields in Protocol Buffers, and how many bytes a field has of those that say so by themselves.
NUMBER, BYTES, SIZES = 0, 2, {1: 8, 5: 4}


class NotTaken(Exception):
    """An export was answered by 2xx, and some of it was not taken all the same: as by a gateway that took its writer for dead. Sent again
    it would be answered likewise, and so would the next one.

    `points` is how many points were not taken; or `exports` how many exports, where what was posted is the kit's own bytes. The other one
    is 0. `message` is what the answer says of it, where it says anything."""

    def __init__(self, points: int = 0, exports: int = 0, message: str = "") -> None:
        super().__init__(points, exports, message)
        self.points, self.exports, self.message = points, exports, message

    def __str__(self) -> str:
        if self.exports:
            return f"{self.exports} exports came late, and were not taken"
        return f"{self.points} points were not taken" + (f": {self.message}" if self.message else "")


def _number(message: bytes, at: int) -> tuple[int, int]:
    """A number of 1 to 10 bytes, and where it ends."""
    value = 0
    for turn, byte in enumerate(message[at : at + 10]):
        value |= (byte & 127) << 7 * turn
        if byte < 128:
            return value & (1 << 64) - 1, at + turn + 1
    raise ValueError("a number is cut, or too long")


def _fields(message: bytes) -> Iterator[tuple[int, int, int, bytes]]:
    """Of a message of Protocol Buffers each field, in their order: its number, its type, and what it has, a number or bytes."""
    at = 0
    while at < len(message):
        tag, at = _number(message, at)
        field, wire = tag >> 3, tag & 7
        if not 0 < field < 1 << 29 or wire not in (NUMBER, BYTES, *SIZES):
            raise ValueError("there is no such field")
        number, held = 0, b""
        if wire == NUMBER:
            number, at = _number(message, at)
        else:
            size, at = (SIZES[wire], at) if wire in SIZES else _number(message, at)
            if size > len(message) - at:
                raise ValueError("a field is cut")
            held, at = message[at : at + size], at + size
        yield field, wire, number, held


def points_not_taken(answer: bytes) -> NotTaken | None:
    """What an answer to OTLP says, an ExportMetricsServiceResponse. One that rejects no point and has a message is a warning alone, as the
    protocol has it. Other servers may answer anything, which says nothing here."""
    if len(answer) > MOST:
        return None
    points, message = 0, b""
    try:
        for outer, of, _, partial in _fields(answer):
            # (a field that is not known is passed over, and of one that comes twice the last counts)
            for field, wire, number, held in _fields(partial) if (outer, of) == (1, BYTES) else ():
                if (field, wire) == (1, NUMBER):
                    points = number
                elif (field, wire) == (2, BYTES):
                    message = held
    except ValueError:
        return None
    # (what is above is a number below 0)
    return NotTaken(points=points, message=message.decode(errors="replace")) if 0 < points < 1 << 63 else None


def exports_not_taken(late: str) -> NotTaken | None:
    """What a gateway's header Kotskhin-Late says of the kit's own bytes: a whole number of at most 19 digits. Others say nothing."""
    exports = int(late) if re.fullmatch(r"[0-9]{1,19}[ \t]*", late) else 0
    return NotTaken(exports=exports) if exports else None
