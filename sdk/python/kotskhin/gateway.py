"""Gateways, and what is asked of them."""
import contextlib
import typing
from collections.abc import Iterable
from ctypes import byref, c_bool, c_size_t, c_uint32, c_uint64

from kotskhin import calls
from kotskhin.attributes import Pairs, keys_of, write_pairs
from kotskhin.constants import default_bounds
from kotskhin.errors import NoItem
from kotskhin.export import Export, encode
from kotskhin.handle import Handle, LockedHandle, both
from kotskhin.incarnations import Incarnation, incarnations_of
from kotskhin.library import BytesLike, Checked, copy_out, data, halves, integers, text
from kotskhin.message import Message
from kotskhin.plan import Streams
from kotskhin.rows import Rows


# The types under which pages of a gateway are answered.
OPENMETRICS_TYPE = "application/openmetrics-text; version=1.0.0; charset=utf-8"
PROMETHEUS_TYPE = "text/plain; version=0.0.4; charset=utf-8"


class Ask(LockedHandle):
    """What is asked of a gateway: a stream, and which of its points. Without more of all services, with a row for each attribute set."""

    @classmethod
    def sum(cls, scope: str, name: str, unit: str, monotonic: bool = True) -> "Ask":
        """Of the sum of a counter, which is monotonic, or of an up-down counter, which is not."""
        made = cls()
        calls.kit_ask_sum(made, *text(scope), *text(name), *text(unit), monotonic)
        return made

    @classmethod
    def gauge(cls, scope: str, name: str, unit: str) -> "Ask":
        """Of a gauge."""
        made = cls()
        calls.kit_ask_gauge(made, *text(scope), *text(name), *text(unit))
        return made

    @classmethod
    def histogram(cls, scope: str, name: str, unit: str, bounds: Iterable[int] | None = None) -> "Ask":
        """Of a histogram of these bounds, or of those for which no view says others."""
        made = cls()
        bounds = default_bounds() if bounds is None else bounds
        calls.kit_ask_histogram(made, *text(scope), *text(name), *text(unit), *integers(bounds))
        return made

    @classmethod
    def stream(cls, streams: Streams, number: int) -> "Ask":
        """Of a stream as it stands, by its number."""
        made = cls()
        calls.kit_ask_stream(made, streams, number)
        return made

    def service(self, service: str) -> "Ask":
        """From now on of one service's writers."""
        with self._lock:
            calls.kit_ask_service(self, *text(service))
        return self

    def only(self, pairs: Pairs) -> "Ask":
        """From now on of the points that have each of these pairs."""
        made = write_pairs(pairs)
        with self._lock:
            calls.kit_ask_only(self, made)
        return self

    def keep(self, keys: Iterable[str]) -> "Ask":
        """From now on rows are told apart by these keys alone."""
        made = keys_of(keys)
        with self._lock:
            calls.kit_ask_keep(self, made)
        return self


class Taking(typing.NamedTuple):
    """What became of an export that a gateway took: how many keys changed, none where all that it has was held, or newer.

    One that is late is of an incarnation that a tombstone names: of its points at most tombstones were taken, and `changed` is 0."""

    changed: int
    is_late: bool


class Gateway(LockedHandle):
    """What exports brought: of each point the newest. It adds up the points of all writers when it is asked.

    What a tombstone of an archive names is counted in the archive's totals, so its points are forgotten as the tombstone comes. Gateways
    tell each other by `merge`, or by messages. The ids of those that exchange messages are distinct."""

    def __init__(self, id: int) -> None:
        super().__init__()
        calls.kit_gateway_open(self, id)

    def _read(self) -> tuple[int, int, int]:
        id, points, conflicts = c_uint32(), c_size_t(), c_uint64()
        with self._lock:
            calls.kit_gateway_read(self, byref(id), byref(points), byref(conflicts))
        return id.value, points.value, conflicts.value

    def head(self) -> tuple[int, int]:
        """Its id, and how many points it holds."""
        return self._read()[:2]

    def conflicts(self) -> int:
        """Of how many keys two points of one time differ."""
        return self._read()[2]

    def take(self, export: Export) -> Taking:
        """Joins the points of an export, and forgets what a tombstone then names."""
        changed, late = c_uint64(), c_bool()
        with both(self, export):
            calls.kit_gateway_take(self, export, byref(changed), byref(late))
        return Taking(changed.value, late.value)

    def merge(self, other: "Gateway") -> int:
        """Joins what another gateway holds, forgets what a tombstone then names, and tells how many keys the join changed: none of
        itself."""
        changed = c_uint64()
        with both(self, other):
            if other is not self:
                calls.kit_gateway_merge(self, other, byref(changed))
        return changed.value

    def merge_bytes(self, of: BytesLike) -> int:
        """Merges the gateway whose bytes `encode` made, or the points of a message, and tells how many keys the join changed.

        So a gateway comes back: under an id that was never used. Under the id of old it would never be told again what it had
        acknowledged after the bytes were made."""
        changed = c_uint64()
        with self._lock:
            calls.kit_gateway_merge_bytes(self, *data(of), byref(changed))
        return changed.value

    def send(self, to: int) -> Message:
        """A message to the gateway of an id: what changed since the last one whose answer was handed here."""
        message = Message()
        with self._lock:
            calls.kit_gateway_send(self, to, message)
        return message

    def hand(self, message: Message) -> Message | None:
        """Takes in a message, forgets what a tombstone then names, and gives the answer to its sender, or none."""
        answer, answered = Message(), c_bool()
        with both(self, message):
            calls.kit_gateway_hand(self, message, answer, byref(answered))
        return answer if answered.value else None

    def same(self, other: "Gateway") -> bool:
        """Whether another gateway holds the same points."""
        same = c_bool(True)
        with both(self, other):
            if other is not self:
                calls.kit_gateway_same(self, other, byref(same))
        return same.value

    def newest(self, service: str, instance: int, start: int) -> int:
        """The greatest time that is held of one incarnation of a service's instance."""
        newest = c_uint64()
        with self._lock:
            calls.kit_gateway_newest(self, *text(service), *halves(instance), start, byref(newest))
        return newest.value

    def streams(self) -> Streams:
        """The streams that it holds points of, each once."""
        made = Streams()
        with self._lock:
            calls.kit_gateway_streams(self, made)
        return made

    def incarnations(self) -> list[Incarnation]:
        """Of whom it holds points, by service, instance and start."""
        return incarnations_of(calls.kit_gateway_incarnations, self)

    def services(self) -> list[str]:
        """The services of which it holds points, each once."""
        services: list[str] = []
        with contextlib.suppress(NoItem):
            while True:
                with self._lock:
                    services.append(copy_out(calls.kit_gateway_service, self, len(services)).decode())
        return services

    def openmetrics(self, service: str | None = None, *, tombstones: bool = False) -> str:
        """The page of what it holds, of one service or of all, in OpenMetrics 1.0. Its type is OPENMETRICS_TYPE.

        Tombstones of archives, one for each incarnation that was adopted, are shown only where they are asked for."""
        return self._page(calls.kit_gateway_openmetrics, service, tombstones)

    def prometheus(self, service: str | None = None, *, tombstones: bool = False) -> str:
        """The same page in Prometheus' text format 0.0.4. Its type is PROMETHEUS_TYPE."""
        return self._page(calls.kit_gateway_prometheus, service, tombstones)

    def _page(self, call: Checked, service: str | None, tombstones: bool) -> str:
        with Handle() as made:
            with self._lock:
                call(self, service is not None, *text(service or ""), tombstones, made)
            return copy_out(calls.kit_text_copy, made).decode()

    def rows(self, ask: Ask) -> Rows:
        """The rows that answer an ask."""
        made = Rows()
        with both(self, ask):
            calls.kit_gateway_rows(self, ask, made)
        return made

    def table(self, ask: Ask) -> str:
        """The rows that answer an ask, as a table."""
        with self.rows(ask) as rows:
            return rows.table()

    def sum(self, scope: str, name: str, unit: str, monotonic: bool = True) -> str:
        """The table of a sum, a line for each attribute set."""
        with Ask.sum(scope, name, unit, monotonic) as ask:
            return self.table(ask)

    def gauge(self, scope: str, name: str, unit: str) -> str:
        """The table of a gauge."""
        with Ask.gauge(scope, name, unit) as ask:
            return self.table(ask)

    def histogram(self, scope: str, name: str, unit: str, bounds: Iterable[int] | None = None) -> str:
        """The table of a histogram."""
        with Ask.histogram(scope, name, unit, bounds) as ask:
            return self.table(ask)

    def encode(self) -> bytes:
        """All its points as bytes, to be kept: `merge_bytes` brings them back."""
        return encode(calls.kit_gateway_encode, self)
