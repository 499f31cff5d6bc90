"""The shared library: its functions, by which kotskhin.calls makes its calls, and what these hold to ranges and raise.

Calls that take long, which are those of gateways, messages, archives and bytes, let go of Python's own lock; who makes them sees to
it that a handle is in one call at a time. All others keep it, so that each is done before another thread gets on: no lock of ours is
taken then. Where Python runs without that lock, all calls are made under one of ours."""
import ctypes
import operator
import os
import pathlib
import sys
import threading
import typing
import uuid
from collections.abc import Callable, Iterable
from ctypes import byref, c_bool, c_int64, c_size_t, c_uint32, c_uint64

from kotskhin.declared import VERSION
from kotskhin.errors import refusal

NAME = "libkotskhin.so.0"
# What kit_version tells more of a library that was made without its proofs (sdk/build --quick).
NOT_PROVED = 1 << 31
# Calls that take as long as what they read or make is large.
LONG = (
    *("kit_gateway_", "kit_message_", "kit_export_encode", "kit_export_decode", "kit_bytes_copy"),
    *("kit_export_otlp", "kit_exports_of_otlp", "kit_archive_"),
)

# What ctypes takes and gives is of many types, which it looks at itself at each call.
CData = typing.Any
Given: typing.TypeAlias = CData
Whole = typing.SupportsIndex
# Bytes that are read where they are.
BytesLike = typing.Union[bytes, bytearray, memoryview]
# A function of C as it is, which answers a number; and one whose refusals are raised.
Function: typing.TypeAlias = Callable[..., int]
Checked: typing.TypeAlias = Callable[..., None]


class Raw(ctypes.Structure):
    """A handle's bytes."""

    _fields_ = [("full", c_bool), ("at", ctypes.c_void_p)]


def _find() -> str:
    """Where the library is: what KOTSKHIN_SO says, or beside this package, as a wheel carries it, or where the system's loader looks."""
    if path := os.environ.get("KOTSKHIN_SO"):
        return path
    beside = pathlib.Path(__file__).with_name(NAME)
    return str(beside) if beside.is_file() else NAME


def _import_error(fault: Exception) -> ImportError:
    told = f"kotskhin's library is not beside its package: set KOTSKHIN_SO to the path of {NAME}"
    return ImportError(f"{told}, which sdk/build makes in FOLDER/shared: {fault}")


def _open() -> tuple[ctypes.PyDLL, ctypes.CDLL]:
    """The library twice: as its calls keep Python's lock, and as they let it go."""
    path = _find()
    try:
        keeping, letting = ctypes.PyDLL(path), ctypes.CDLL(path)
        keeping.kit_version.restype = c_uint32
        if keeping.kit_version() & ~NOT_PROVED != VERSION:
            raise AttributeError(f"{path} is of the version {keeping.kit_version()}, not {VERSION}")
    except (OSError, AttributeError) as fault:
        raise _import_error(fault) from None
    return keeping, letting


KEEPING, LETTING = _open()
# (a collector may give up a handle while its thread has the lock, so it may be taken again)
_lock = threading.RLock()
has_own_lock: bool = getattr(sys, "_is_gil_enabled", lambda: True)()


def _lock_each(function: Function) -> Function:
    """A function whose calls come one after another."""

    def call(*given: CData) -> int:
        with _lock:
            return function(*given)

    return call


def function(name: str, result: CData, *types: CData) -> Function:
    """A function of the library, which answers a result and takes these types."""
    try:
        made: CData = getattr(LETTING if name.startswith(LONG) and has_own_lock else KEEPING, name)
    except AttributeError as fault:
        raise _import_error(fault) from None
    made.restype, made.argtypes = result, types
    kept: Function = made if has_own_lock else _lock_each(made)
    return kept


def as_they_are(name: str) -> Function:
    """A call that answers its code and takes things of ctypes alone, which are of its types: none is looked at."""
    made: CData = getattr(ctypes.PyDLL(KEEPING._name), name)
    made.restype = ctypes.c_int32
    unchecked: Function = made if has_own_lock else _lock_each(made)
    return unchecked


def whole(value: Whole, least: int, most: int) -> int:
    """A number as it is, where it lies in a range."""
    number = operator.index(value)
    if not least <= number <= most:
        raise OverflowError(f"{number} is not within {least} to {most}")
    return number


def _hold(bits: int, is_signed: bool) -> Callable[[Whole], int]:
    """What holds a number to the range of a type."""
    least, most = -(1 << bits - 1) if is_signed else 0, (1 << bits - is_signed) - 1

    def held(value: Whole) -> int:
        number = operator.index(value)
        if not least <= number <= most:
            raise OverflowError(f"{number} is not within {least} to {most}")
        return number

    return held


uint8, uint32, uint64, int64 = _hold(8, False), _hold(32, False), _hold(64, False), _hold(64, True)
size_t = _hold(8 * ctypes.sizeof(c_size_t), False)
MOST_SIZE = (1 << 8 * ctypes.sizeof(c_size_t)) - 1


def _answer(function: Function, given: tuple[CData, ...]) -> int:
    """The code that a function answers."""
    # (ctypes would take it for a null pointer, which no call looks at)
    if None in given:
        raise TypeError("None is no thing of the kit, and no number")
    try:
        return function(*given)
    except ctypes.ArgumentError as fault:
        raise _mistake(given, fault) from None


def _mistake(given: Iterable[CData], fault: Exception) -> TypeError:
    """Why ctypes did not take what is given: a thing of a parent's, which says so itself, or another type."""
    for one in given:
        getattr(one, "_is_ours", lambda: None)()
    return TypeError(str(fault))


def check(function: Function, *given: CData) -> None:
    """Makes a call, and raises what is refused."""
    if code := _answer(function, given):
        raise refusal(code)


def check_at(function: Function, *given: CData) -> None:
    """Makes a call that tells a place."""
    place = c_uint64()
    if code := _answer(function, (*given, place)):
        raise refusal(code, place.value)


def check_at_both(function: Function, *given: CData) -> None:
    """Makes a call that tells two places."""
    place, second = c_uint64(), c_uint64()
    if code := _answer(function, (*given, place, second)):
        raise refusal(code, place.value, second.value)


def text(of: str) -> tuple[bytes, int]:
    """A text as C takes it. (surrogates are no UTF-8, and the library says so)"""
    if not isinstance(of, str):
        raise TypeError(f"{of!r} is no text")
    encoded = str.encode(of, "utf-8", "surrogatepass")
    return encoded, len(encoded)


def data(of: BytesLike) -> tuple[bytes, int]:
    """Bytes as C takes them, which it reads where they are when they are bytes."""
    read = of if isinstance(of, bytes) else bytes(memoryview(of))
    return read, len(read)


def copy_out(call: Checked, *at: object) -> bytes:
    """What a call copies out, once its room is enough."""
    length = c_size_t(256)
    while True:
        room = ctypes.create_string_buffer(max(length.value, 1))
        call(*at, room, len(room), byref(length))
        if length.value <= len(room):
            return room.raw[: length.value]


def integers(of: Iterable[Whole]) -> tuple[ctypes.Array[c_int64], int]:
    """Whole numbers of 64 bits as C takes a list of them."""
    held = [int64(number) for number in of]
    return (c_int64 * max(len(held), 1))(*held), len(held)


def halves(instance: int | uuid.UUID) -> tuple[int, int]:
    """The high and the low 64 bits of an instance, which has 128: a number, or a UUID."""
    return divmod(whole(instance.int if isinstance(instance, uuid.UUID) else instance, 0, (1 << 128) - 1), 1 << 64)
