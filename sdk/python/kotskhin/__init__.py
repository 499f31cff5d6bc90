"""Proved metrics for Python: the whole kit, by ctypes over its shared library. `kotskhin.metrics` has the names of OpenTelemetry over it.

A wheel carries the library; without one KOTSKHIN_SO has the path of libkotskhin.so.0, or the system's loader finds it. Times are
nanoseconds since the Unix epoch.

Before any call, a number that its C type can't hold is an OverflowError, and a number, a text, bytes or an attribute of another type is a
TypeError. A call that the kit refuses raises Refused, by a class of the code's name, and changes nothing. What was made before a fork
raises ForkedError after it. Things are given up by `close`, by the end of a `with`, or once nothing names them."""
from kotskhin import errors
from kotskhin.archive import Archive
from kotskhin.attributes import Attributes, Pairs, Value
from kotskhin.declared import CODES, VERSION
from kotskhin.errors import *  # noqa: F403 (each refusal by its name)
from kotskhin.export import Export, ExportHead
from kotskhin.gateway import OPENMETRICS_TYPE, PROMETHEUS_TYPE, Ask, Gateway, Taking
from kotskhin.incarnations import Incarnation
from kotskhin.constants import code_text, default_bounds, version
from kotskhin.message import Envelope, Message
from kotskhin.plan import COUNTER, DEFAULT_LIMIT, GAUGE, HISTOGRAM, UP_DOWN, Aggregation, Instrument, Kind, Plan
from kotskhin.plan import Shape, Stream, Streams, View
from kotskhin.rows import Row, Rows
from kotskhin.writer import Recorder, Seat, Taken, Writer, unique_instance

__version__ = ".".join(str(VERSION >> shift & 255) for shift in (16, 8, 0))
__all__ = [
    "CODES", "VERSION", "Archive", "Attributes", "Pairs", "Value", "Export", "ExportHead", "Ask", "Gateway", "Incarnation", "Row", "Rows",
    "OPENMETRICS_TYPE", "PROMETHEUS_TYPE", "Taking", "code_text", "default_bounds", "version", "Envelope", "Message", "COUNTER", "UP_DOWN",
    "GAUGE", "HISTOGRAM", "DEFAULT_LIMIT", "Aggregation", "Instrument", "Kind", "Plan", "Shape", "Stream", "Streams", "View",
    "Recorder", "Seat", "Taken", "Writer", "unique_instance",
]
__all__ += errors.__all__
