"""What the library says of codes, of bounds, and of itself."""
from ctypes import c_int64, create_string_buffer

from kotskhin import calls
from kotskhin.library import NOT_PROVED


def code_text(code: int) -> str:
    """What the library says of a code."""
    room = create_string_buffer(256)
    size = calls.kit_code_text(code, room, len(room))
    return room.raw[: min(size, len(room))].decode()


def default_bounds() -> list[int]:
    """The bounds of a histogram for which no view says others."""
    room = (c_int64 * calls.kit_default_bounds((c_int64 * 1)(), 0))()
    calls.kit_default_bounds(room, len(room))
    return list(room)


def version() -> str:
    """The version of the library, which also says where it was made without its proofs: `0.1.0, not proved`."""
    told = calls.kit_version()
    numbers = ".".join(str(told >> shift & 255) for shift in (16, 8, 0))
    return f"{numbers}, not proved" if told & NOT_PROVED else numbers
