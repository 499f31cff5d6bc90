"""Which streams have more attribute sets than their limit."""
import threading

from kotskhin.export import Export
from kotskhin.gateway import Ask, Gateway
from kotskhin.plan import Stream


class CardinalityLimit(Exception):
    """A stream has points of its own for as many attribute sets as it may: `stream` and `limit`. Recordings at further sets are counted
    together, in the point of otel.metric.overflow=true. It is told once for each stream."""

    name = "CARDINALITY_LIMIT"

    def __init__(self, stream: Stream, limit: int) -> None:
        super().__init__(stream, limit)
        self.stream, self.limit = stream, limit

    def __str__(self) -> str:
        of = f"the stream {self.stream.name!r} of {self.stream.scope!r} has points of its own for {self.limit} attribute sets"
        return f"{self.name}: {of}: recordings at further sets are counted together in the point otel.metric.overflow=true"


class Limits:
    """Sees at each collection which streams have come beyond their limit, of each once.

    It looks into an export only where one stream can have, and where there are more points than when it looked last."""

    def __init__(self, limit: int) -> None:
        self._limit, self._seen, self._told = limit, 0, set[Stream]()
        # (one that collects while a signal interrupts it may collect again)
        self._lock = threading.RLock()

    def beyond(self, export: Export) -> list[CardinalityLimit]:
        """What is to be told of an export."""
        points = export.head().points
        with self._lock:
            if points <= max(self._limit, self._seen):
                return []
            found = [stream for stream in self._over(export) if stream not in self._told]
            self._seen = points
            self._told.update(found)
        return [CardinalityLimit(stream, self._limit) for stream in found]

    def _over(self, export: Export) -> list[Stream]:
        """The streams of an export that have more points than the limit: one of these is that of all further sets."""
        with Gateway(0) as gateway:
            gateway.take(export)
            with gateway.streams() as streams:
                return [stream for number, stream in enumerate(streams) if self._points(gateway, Ask.stream(streams, number)) > self._limit]

    @staticmethod
    def _points(gateway: Gateway, ask: Ask) -> int:
        """How many points a stream has."""
        with ask, gateway.rows(ask.keep([])) as rows:
            return rows[0].points
