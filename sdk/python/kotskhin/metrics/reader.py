"""A thread that collects once in an interval, and exports what it collected."""
import logging
import threading
import time
import typing
from collections.abc import Callable

from kotskhin.export import Export
from kotskhin.metrics.exporters import ExportFailed, Exporter, ending_of, export_of

if typing.TYPE_CHECKING:
    from kotskhin.metrics.provider import MeterProvider

log = logging.getLogger("kotskhin")


class Asked:
    """An export that a reader's thread is asked for: the last one, which ends the exporter, or one to be collected; and what failed of it
    once it is done."""

    def __init__(self, last: Export | None, is_end: bool) -> None:
        self.last, self.is_end, self.is_done = last, is_end, threading.Event()
        self.fault: ExportFailed | None = None


class PeriodicExportingMetricReader:
    """Collects from its provider once in an interval, on a thread of its own, and gives each export to an exporter: an object that has
    `export(export, timeout)`, or a function of the export. Its calls come one after another.

    An export that fails is counted (`failed`), and told to `on_failed` with an ExportFailed, or logged. It is not tried again: exports are
    cumulative, so the next one covers it. One that takes longer than its timeout is told as a TimeoutError while it goes on; ticks that
    pass meanwhile are left out."""

    def __init__(
        self,
        exporter: Exporter,
        export_interval_millis: float = 60_000,
        export_timeout_millis: float = 30_000,
        on_failed: Callable[[ExportFailed], object] | None = None,
    ) -> None:
        if not export_interval_millis > 0 or not export_timeout_millis > 0:
            raise ValueError("an interval and a timeout are above 0")
        self._export, self._ending = export_of(exporter), ending_of(exporter)
        self._interval, self._timeout = export_interval_millis / 1000, export_timeout_millis / 1000
        self._hook, self.failed = on_failed, 0
        self._provider: "MeterProvider | None" = None

    def _of(self, provider: "MeterProvider") -> None:
        """Is a provider's from now on; its thread begins once that starts."""
        if self._provider not in (None, provider):
            raise ValueError("a reader is of one provider")
        self._provider, self._wakes = provider, threading.Condition()
        self._asked: list[Asked] = []
        self._is_begun = self._is_ended = False
        # The export that is under way, and whether none comes any more.
        self._under_way: Export | None = None
        self._is_over, self._watches = False, threading.Condition()

    def _begin(self) -> None:
        try:
            for name, work in (("watch", self._watch), ("reader", self._run)):
                threading.Thread(target=work, name=f"kotskhin-{name}", daemon=True).start()
            self._is_begun = True
        except RuntimeError as fault:
            # (the interpreter is at its end: whoever asks for an export makes it himself)
            log.warning("a reader has no thread: %s", fault)

    def _collect(self) -> Export | None:
        return self._provider.collect() if self._provider else None

    def _now_under_way(self, export: Export | None, is_over: bool = False) -> None:
        with self._watches:
            self._under_way, self._is_over = export, is_over
            self._watches.notify()

    def _watch(self) -> None:
        """Tells of an export that takes too long, while it goes on. (a thread of its own from the start on: at exit none can be made)"""
        while True:
            with self._watches:
                self._watches.wait_for(lambda: self._under_way or self._is_over)
                if self._is_over:
                    return
                export = self._under_way
                is_late = not self._watches.wait_for(lambda: self._under_way is not export, self._timeout)
            if is_late:
                self._tell(ExportFailed("an export", TimeoutError("it takes too long, and goes on"), export))
                with self._watches:
                    self._watches.wait_for(lambda: self._under_way is not export)

    def _run(self) -> None:
        due = time.monotonic() + self._interval
        while True:
            with self._wakes:
                self._wakes.wait_for(lambda: self._asked, max(0, due - time.monotonic()))
                asked = self._asked.pop(0) if self._asked else None
            if asked is None:
                self._push(self._collect)
                due += self._interval * max(1, -((due - time.monotonic()) // self._interval))
                continue
            self._do(asked)
            if asked.is_end:
                return

    def _do(self, asked: Asked) -> None:
        """One export that was asked for; the last one ends the exporter."""
        if asked.is_end:
            asked.fault = self._push(lambda: asked.last) or self._end_exporter()
            self._now_under_way(None, is_over=True)
        else:
            asked.fault = self._push(self._collect)
        asked.is_done.set()

    def _push(self, collect: Callable[[], Export | None]) -> ExportFailed | None:
        """One collection and its export, and what failed."""
        export = None
        try:
            export = collect()
            if export is None:
                return None
            self._now_under_way(export)
            try:
                self._export(export, self._timeout)
            finally:
                self._now_under_way(None)
        except Exception as fault:
            told = ExportFailed("an export", fault, export)
            self._tell(told)
            return told
        return None

    def _end_exporter(self) -> ExportFailed | None:
        try:
            self._ending()
        except Exception as fault:
            return ExportFailed("the end of an exporter", fault, None)
        return None

    def _tell(self, fault: ExportFailed) -> None:
        self.failed += 1
        try:
            if self._hook:
                self._hook(fault)
            else:
                log.warning("%s", fault)
        except Exception:
            log.exception("on_failed failed")

    def _ask(self, last: Export | None, ends: float, is_end: bool = False) -> None:
        """Asks the thread to export, and waits until then; raises what failed."""
        asked = Asked(last, is_end)
        with self._wakes:
            if self._is_ended:
                return
            self._is_ended = is_end
            if self._is_begun:
                self._asked.append(asked)
                self._wakes.notify()
        if not self._is_begun:
            self._do(asked)
        elif not asked.is_done.wait(max(0, ends - time.monotonic())):
            raise ExportFailed("an export", TimeoutError("it was not done in time, and goes on"), last)
        if asked.fault:
            raise asked.fault

    def _end(self, last: Export | None, ends: float) -> None:
        """Exports what was collected last, ends the exporter and the thread."""
        self._ask(last, ends, is_end=True)

    def force_flush(self, timeout_millis: float = 30_000) -> bool:
        """Collects and exports now. Raises ExportFailed where that fails or takes longer."""
        self._ask(None, time.monotonic() + timeout_millis / 1000)
        return True
