"""What all things of the library have in common: they are given up once, and not used by a child of the process that made them."""
import itertools
import os
import threading
import typing
from collections.abc import Callable, Sequence
from ctypes import byref

from kotskhin.calls import kit_free
from kotskhin.errors import ForkedError
from kotskhin.library import Raw

_forks = 0
_numbers = itertools.count()


def _count_fork() -> None:
    """In a child: another thread of the parent may have been in a call, so what the parent made is left alone."""
    global _forks
    _forks += 1


os.register_at_fork(after_in_child=_count_fork)


def forks() -> int:
    """How many forks lie between this process and the first one."""
    return _forks


Self = typing.TypeVar("Self", bound="Handle")


class Handle:
    """A thing of the library. It is given up by `close`, at the end of a `with`, or once nothing names it. A call on what was closed is
    refused as Nothing; to close it again does nothing."""

    __slots__ = ("_raw", "_forks", "__weakref__")

    def __init__(self) -> None:
        self._raw, self._forks = Raw(False, None), _forks

    def _is_ours(self) -> None:
        """Whether this process made it; else it is told so."""
        if self._forks != _forks:
            told = f"this {type(self).__name__} was made before a fork"
            raise ForkedError(f"{told}: make one in each process, a writer under an instance of its own")

    @property
    def _as_parameter_(self) -> object:
        self._is_ours()
        return byref(self._raw)

    def close(self) -> None:
        """Gives it up now."""
        if self._forks == _forks:
            kit_free(byref(self._raw))

    def __enter__(self: Self) -> Self:
        return self

    def __exit__(self, *_: object) -> None:
        self.close()

    def __del__(self, free: Callable[..., object] = kit_free, byref: Callable[..., object] = byref) -> None:
        if self._forks == _forks:
            free(byref(self._raw))


Item = typing.TypeVar("Item")


class Items(Handle, Sequence[Item]):
    """A thing that has items, by their numbers."""

    def _item(self, number: int) -> Item:
        raise NotImplementedError

    @typing.overload
    def __getitem__(self, number: int) -> Item: ...

    @typing.overload
    def __getitem__(self, number: slice) -> list[Item]: ...

    def __getitem__(self, number: int | slice) -> Item | list[Item]:
        if isinstance(number, slice):
            return [self._item(one) for one in range(*number.indices(len(self)))]
        return self._item(number)


class LockedHandle(Handle):
    """A thing whose calls let go of Python's own lock: it has one, and is in one call at a time."""

    __slots__ = ("_own_lock", "_number")

    def __init__(self) -> None:
        super().__init__()
        # (of two things the one that was made first is locked first; one that is closed by a collector may be locked by its thread)
        self._own_lock, self._number = threading.RLock(), next(_numbers)

    @property
    def _lock(self) -> "threading._RLock":
        # (in a child nobody may be left who gives back what was locked in the parent)
        self._is_ours()
        return self._own_lock

    def close(self) -> None:
        """Gives it up, once no call has it."""
        if self._forks == _forks:
            with self._own_lock:
                super().close()


class both:
    """The locks of one or two things, in one order in all threads."""

    def __init__(self, *things: LockedHandle) -> None:
        self._locks = [thing._lock for thing in sorted(things, key=lambda thing: thing._number)]

    def __enter__(self) -> None:
        for lock in self._locks:
            lock.acquire()

    def __exit__(self, *_: object) -> None:
        for lock in reversed(self._locks):
            lock.release()
