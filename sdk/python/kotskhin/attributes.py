"""Attribute sets, and lists of pairs and of keys."""
import operator
import typing
from collections.abc import Iterable, Iterator, Mapping, Sequence, Set
from ctypes import byref, c_int64, c_size_t, c_uint8

from kotskhin import calls
from kotskhin.handle import Handle
from kotskhin.library import copy_out, text

# A value of an attribute: a text, a whole number of 64 bits, or a truth.
Value = typing.Union[str, int, bool]
# Attributes: a map, or pairs. (whatever gives pairs will do; of a type that a map could have too checkers would not take mixed values)
Pair: typing.TypeAlias = tuple[str, Value]
Pairs = typing.Union[Mapping[str, Value], Sequence[Pair], Iterator[Pair], Set[Pair]]


def pairs_of(of: Pairs) -> Iterable[tuple[str, Value]]:
    """The pairs of a map, or pairs as they are."""
    return of.items() if isinstance(of, Mapping) else of


def write_pairs(pairs: Pairs) -> Handle:
    """The pairs, written down in their order."""
    made = Handle()
    for key, given in pairs_of(pairs):
        value = plain_value(key, given)
        if isinstance(value, str):
            calls.kit_pairs_add_text(made, *text(key), *text(value))
        elif isinstance(value, bool):
            calls.kit_pairs_add_truth(made, *text(key), value)
        else:
            calls.kit_pairs_add_whole(made, *text(key), value)
    return made


def plain_value(key: object, value: object) -> Value:
    """The text, the whole number or the truth that a value is: of a class that is derived of these, as an enum, its plain value."""
    if isinstance(value, bool):
        return value
    if isinstance(value, str):
        return str.__str__(value)
    if isinstance(value, typing.SupportsIndex):
        return operator.index(value)
    raise TypeError(f"the value of {key!r} is a {type(value).__name__}, not a text, a whole number or a truth: {value!r}")


def plain(pairs: Pairs) -> dict[str, Value]:
    """The set of pairs as a dict of plain keys and values."""
    made = {}
    for key, value in pairs_of(pairs):
        if not isinstance(key, str):
            raise TypeError(f"{key!r} is no text")
        made[str.__str__(key)] = plain_value(key, value)
    return made


def keys_of(keys: Iterable[str]) -> Handle:
    """Keys, written down in their order."""
    made = Handle()
    if isinstance(keys, str):
        raise TypeError(f"keys are a list of texts, not the text {keys!r}")
    for key in keys:
        calls.kit_keys_add(made, *text(key))
    return made


class Attributes(Handle):
    """A set of attributes, of a map or of pairs. Values are texts, whole numbers of 64 bits and truths. Of a key that is given twice the
    later value stays."""

    def __init__(self, pairs: Pairs = ()) -> None:
        super().__init__()
        with write_pairs(pairs) as made:
            calls.kit_attributes_make(self, made)

    def __len__(self) -> int:
        count = c_size_t()
        calls.kit_attributes_len(self, byref(count))
        return count.value

    def pairs(self) -> list[tuple[str, Value]]:
        """The pairs, in the order of their keys."""
        return [(copy_out(calls.kit_attributes_key, self, number).decode(), self._value(number)) for number in range(len(self))]

    def _value(self, number: int) -> Value:
        kind, whole = c_uint8(), c_int64()
        calls.kit_attributes_value(self, number, byref(kind), byref(whole))
        if kind.value == 0:
            return copy_out(calls.kit_attributes_text, self, number).decode()
        return whole.value if kind.value == 1 else bool(whole.value)

    def __repr__(self) -> str:
        return f"Attributes({dict(self.pairs())!r})" if self._raw.full else "Attributes (closed)"
