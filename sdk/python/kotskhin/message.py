"""Messages, by which gateways tell each other what changed."""
import typing
from ctypes import byref, c_size_t, c_uint32

from kotskhin import calls
from kotskhin.export import encode
from kotskhin.handle import LockedHandle
from kotskhin.incarnations import Incarnation, incarnations_of
from kotskhin.library import BytesLike, data


class Envelope(typing.NamedTuple):
    """From which id to which a message goes, and how many points it carries: an answer carries none."""

    sender: int
    receiver: int
    points: int


class Message(LockedHandle):
    """What one gateway tells another. It may be lost, come late or come twice."""

    def envelope(self) -> Envelope:
        """What stands on it: what a receiver compares with the peer that brought it."""
        sender, receiver, points = c_uint32(), c_uint32(), c_size_t()
        with self._lock:
            calls.kit_message_read(self, byref(sender), byref(receiver), byref(points))
        return Envelope(sender.value, receiver.value, points.value)

    def incarnations(self) -> list[Incarnation]:
        """Of whom it carries points: what a receiver compares with those of whom its sender may speak."""
        return incarnations_of(calls.kit_message_incarnations, self)

    def encode(self) -> bytes:
        """Its bytes, for a gateway in another process."""
        return encode(calls.kit_message_encode, self)

    @classmethod
    def decode(cls, of: BytesLike) -> "Message":
        """The message of bytes that encode made."""
        made = cls()
        calls.kit_message_decode(made, *data(of))
        return made
