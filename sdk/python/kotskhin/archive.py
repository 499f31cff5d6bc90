"""Archives, which adopt what has ended."""
import uuid
from ctypes import byref, c_size_t, c_uint64

from kotskhin import calls
from kotskhin.export import Export
from kotskhin.gateway import Gateway
from kotskhin.handle import LockedHandle, both
from kotskhin.library import halves, text
from kotskhin.writer import unique_instance


class Archive(LockedHandle):
    """A writer that adopts ended incarnations of its service, with at most so many totals.

    Its exports have their sums and histograms, added up, and a tombstone for each: gateways that take one forget the points of what it
    names, so that each counts once. Gauges are not adopted, and are shown no more.

    Its instance is drawn anew: `instance` tells it. It begins under the start 1, before every worker. A page shows a metric as the youngest
    of those who have it says, and an archive that began later than the workers would show an old plan's metric in place of the live one."""

    def __init__(self, service: str, limit: int) -> None:
        self._begin(service, limit, unique_instance(), 1)

    def _begin(self, service: str, limit: int, instance: "int | uuid.UUID", start: int) -> None:
        super().__init__()
        self.instance = instance
        calls.kit_archive_begin(self, *text(service), *halves(instance), start, limit)

    def adopt(self, gateway: Gateway, service: str, instance: int, start: int) -> None:
        """Adopts what a gateway holds of an incarnation that has ended: what it exports later is never counted. The gateway stays as it is.

        Refused, by the first that fits: OtherService, IsArchive, Adopted, NoPoint, Conflict, Torn, Unsound, OutOfRange, SetLimit; and
        NoMemory."""
        with both(self, gateway):
            calls.kit_archive_adopt(self, gateway, *text(service), *halves(instance), start)

    def export(self, time: int) -> Export:
        """All totals, and a tombstone for each incarnation that it adopted since it began or was sealed.

        Refused: TimeNotLater, where the time is not later than that of the last export."""
        made = Export()
        with self._lock:
            calls.kit_archive_export(self, time, made)
        return made

    def seal(self, start: int) -> None:
        """Begins anew under a later start, without totals; what it adopted it never adopts again. It makes no other export with these
        totals: so keep the last one until it has come where it is to.

        Refused: StartNotLater; Unexported, where it adopted since its last export."""
        with self._lock:
            calls.kit_archive_seal(self, start)

    @property
    def start(self) -> int:
        """Since when it counts."""
        return self._read()[0]

    @property
    def adopted(self) -> int:
        """How many incarnations it adopted since it began or was sealed."""
        return self._read()[1]

    def _read(self) -> tuple[int, int]:
        start, adopted = c_uint64(), c_size_t()
        with self._lock:
            calls.kit_archive_read(self, byref(start), byref(adopted))
        return start.value, adopted.value
