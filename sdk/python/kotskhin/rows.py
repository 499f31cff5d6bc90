"""Rows, which answer an ask."""
import dataclasses
from ctypes import byref, c_size_t

from kotskhin import calls
from kotskhin.attributes import Attributes, Value
from kotskhin.calls import RawCount, RawRow
from kotskhin.handle import Handle, Items
from kotskhin.library import copy_out


@dataclasses.dataclass(frozen=True)
class Row:
    """A row: its attributes, how many points its total is of and how many conflicts it leaves out, and its total.

    A sum has `total`. A gauge has `time` and `value`, None where it has conflicts alone. A histogram has `count`, `total`, `buckets`, and
    `least` and `greatest`, None where it has no value. What a shape has not is None. Whole numbers here may be wider than 64 bits."""

    attributes: dict[str, Value]
    points: int
    conflicts: int
    total: int | None = None
    time: int | None = None
    value: int | None = None
    count: int | None = None
    least: int | None = None
    greatest: int | None = None
    buckets: tuple[int, ...] | None = None


class Rows(Items[Row]):
    """The rows that answer an ask, in the order of their attribute sets: each as a Row."""

    def __len__(self) -> int:
        count = c_size_t()
        calls.kit_rows_len(self, byref(count))
        return count.value

    def _item(self, row: int) -> Row:
        read = RawRow()
        calls.kit_rows_read(self, row, byref(read))
        made = Row(dict(self.attributes(row)), read.points, read.conflicts)
        if read.shape == _GAUGE:
            return dataclasses.replace(made, time=read.time, value=read.value) if read.has_value else made
        made = dataclasses.replace(made, total=(read.sum_high << 64) + read.sum_low)
        if read.shape != _HISTOGRAM:
            return made
        if read.has_range:
            made = dataclasses.replace(made, least=read.least, greatest=read.greatest)
        return dataclasses.replace(made, count=_count(read.count_high, read.count_low), buckets=self._buckets(row, read.buckets))

    def _buckets(self, row: int, count: int) -> tuple[int, ...]:
        room = (RawCount * count)()
        calls.kit_rows_buckets(self, row, room, count, byref(c_size_t()))
        return tuple(_count(bucket.high, bucket.low) for bucket in room)

    def attributes(self, row: int) -> list[tuple[str, Value]]:
        """The attribute set that a row is of, pair by pair in the order of keys."""
        made = Attributes.__new__(Attributes)
        Handle.__init__(made)
        with made:
            calls.kit_rows_attributes(self, row, made)
            return made.pairs()

    def table(self) -> str:
        """A line for each row below a header."""
        with Handle() as made:
            calls.kit_rows_table(self, made)
            return copy_out(calls.kit_text_copy, made).decode()


# Shapes of rows, as kotskhin.h has them.
_GAUGE, _HISTOGRAM = 2, 3


def _count(high: int, low: int) -> int:
    return high << 64 | low
