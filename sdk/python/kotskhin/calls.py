"""Made by sdk/declarations.py of what crates/kit_c exports.

A call holds each number to the range of its type, and raises what is refused. Whatever else it is given
ctypes looks at."""
from ctypes import POINTER, Structure, c_bool, c_char_p, c_int32, c_int64, c_size_t, c_uint32, c_uint64, c_uint8

from kotskhin.library import Given, Raw, Whole, check, check_at, check_at_both, function, int64, size_t, uint32, uint64, uint8


class RawCount(Structure):
    """The struct kit_count of C."""

    high: int
    low: int

    _fields_ = [
        ("high", c_uint64),
        ("low", c_uint64),
    ]


class RawRow(Structure):
    """The struct kit_row of C."""

    points: int
    conflicts: int
    sum_high: int
    sum_low: int
    count_high: int
    count_low: int
    time: int
    value: int
    least: int
    greatest: int
    buckets: int
    shape: int
    has_value: bool
    has_range: bool

    _fields_ = [
        ("points", c_uint64),
        ("conflicts", c_uint64),
        ("sum_high", c_int64),
        ("sum_low", c_uint64),
        ("count_high", c_uint64),
        ("count_low", c_uint64),
        ("time", c_uint64),
        ("value", c_int64),
        ("least", c_int64),
        ("greatest", c_int64),
        ("buckets", c_size_t),
        ("shape", c_uint8),
        ("has_value", c_bool),
        ("has_range", c_bool),
    ]


class RawTaken(Structure):
    """The struct kit_taken of C."""

    recorded: int
    refused: int
    code: int
    first: int
    place: int

    _fields_ = [
        ("recorded", c_size_t),
        ("refused", c_size_t),
        ("code", c_int32),
        ("first", c_size_t),
        ("place", c_uint64),
    ]


_kit_archive_begin = function("kit_archive_begin", c_int32, POINTER(Raw), c_char_p, c_size_t, c_uint64, c_uint64, c_uint64, c_size_t)


def kit_archive_begin(
    archive: Given, service: Given, service_len: Whole, instance_high: Whole, instance_low: Whole, start: Whole, limit: Whole,
) -> None:
    check(_kit_archive_begin, archive, service, service_len, uint64(instance_high), uint64(instance_low), uint64(start), size_t(limit))


_kit_archive_adopt = function("kit_archive_adopt", c_int32, POINTER(Raw), POINTER(Raw), c_char_p, c_size_t, c_uint64, c_uint64, c_uint64)


def kit_archive_adopt(
    archive: Given, gateway: Given, service: Given, service_len: Whole, instance_high: Whole, instance_low: Whole, start: Whole,
) -> None:
    check(_kit_archive_adopt, archive, gateway, service, service_len, uint64(instance_high), uint64(instance_low), uint64(start))


_kit_archive_export = function("kit_archive_export", c_int32, POINTER(Raw), c_uint64, POINTER(Raw))


def kit_archive_export(archive: Given, time: Whole, export_: Given) -> None:
    check(_kit_archive_export, archive, uint64(time), export_)


_kit_archive_seal = function("kit_archive_seal", c_int32, POINTER(Raw), c_uint64)


def kit_archive_seal(archive: Given, start: Whole) -> None:
    check(_kit_archive_seal, archive, uint64(start))


_kit_archive_read = function("kit_archive_read", c_int32, POINTER(Raw), POINTER(c_uint64), POINTER(c_size_t))


def kit_archive_read(archive: Given, start: Given, adopted: Given) -> None:
    check(_kit_archive_read, archive, start, adopted)


_kit_ask_sum = function("kit_ask_sum", c_int32, POINTER(Raw), c_char_p, c_size_t, c_char_p, c_size_t, c_char_p, c_size_t, c_bool)


def kit_ask_sum(
    ask: Given, scope: Given, scope_len: Whole, name: Given, name_len: Whole, unit: Given, unit_len: Whole, monotonic: bool,
) -> None:
    check(_kit_ask_sum, ask, scope, scope_len, name, name_len, unit, unit_len, monotonic)


_kit_ask_gauge = function("kit_ask_gauge", c_int32, POINTER(Raw), c_char_p, c_size_t, c_char_p, c_size_t, c_char_p, c_size_t)


def kit_ask_gauge(ask: Given, scope: Given, scope_len: Whole, name: Given, name_len: Whole, unit: Given, unit_len: Whole) -> None:
    check(_kit_ask_gauge, ask, scope, scope_len, name, name_len, unit, unit_len)


_kit_ask_histogram = function(
    "kit_ask_histogram", c_int32, POINTER(Raw), c_char_p, c_size_t, c_char_p, c_size_t, c_char_p, c_size_t, POINTER(c_int64), c_size_t,
)


def kit_ask_histogram(
    ask: Given, scope: Given, scope_len: Whole, name: Given, name_len: Whole, unit: Given, unit_len: Whole, bounds: Given,
    bounds_len: Whole,
) -> None:
    check(_kit_ask_histogram, ask, scope, scope_len, name, name_len, unit, unit_len, bounds, bounds_len)


_kit_ask_service = function("kit_ask_service", c_int32, POINTER(Raw), c_char_p, c_size_t)


def kit_ask_service(ask: Given, service: Given, service_len: Whole) -> None:
    check(_kit_ask_service, ask, service, service_len)


_kit_ask_only = function("kit_ask_only", c_int32, POINTER(Raw), POINTER(Raw))


def kit_ask_only(ask: Given, pairs: Given) -> None:
    check(_kit_ask_only, ask, pairs)


_kit_ask_keep = function("kit_ask_keep", c_int32, POINTER(Raw), POINTER(Raw))


def kit_ask_keep(ask: Given, keys: Given) -> None:
    check(_kit_ask_keep, ask, keys)


_kit_gateway_rows = function("kit_gateway_rows", c_int32, POINTER(Raw), POINTER(Raw), POINTER(Raw))


def kit_gateway_rows(gateway: Given, ask: Given, rows: Given) -> None:
    check(_kit_gateway_rows, gateway, ask, rows)


_kit_rows_table = function("kit_rows_table", c_int32, POINTER(Raw), POINTER(Raw))


def kit_rows_table(rows: Given, text: Given) -> None:
    check(_kit_rows_table, rows, text)


_kit_pairs_add_text = function("kit_pairs_add_text", c_int32, POINTER(Raw), c_char_p, c_size_t, c_char_p, c_size_t)


def kit_pairs_add_text(pairs: Given, key: Given, key_len: Whole, value: Given, value_len: Whole) -> None:
    check(_kit_pairs_add_text, pairs, key, key_len, value, value_len)


_kit_pairs_add_whole = function("kit_pairs_add_whole", c_int32, POINTER(Raw), c_char_p, c_size_t, c_int64)


def kit_pairs_add_whole(pairs: Given, key: Given, key_len: Whole, value: Whole) -> None:
    check(_kit_pairs_add_whole, pairs, key, key_len, int64(value))


_kit_pairs_add_truth = function("kit_pairs_add_truth", c_int32, POINTER(Raw), c_char_p, c_size_t, c_bool)


def kit_pairs_add_truth(pairs: Given, key: Given, key_len: Whole, value: bool) -> None:
    check(_kit_pairs_add_truth, pairs, key, key_len, value)


_kit_attributes_make = function("kit_attributes_make", c_int32, POINTER(Raw), POINTER(Raw), POINTER(c_uint64))


def kit_attributes_make(attributes: Given, pairs: Given) -> None:
    check_at(_kit_attributes_make, attributes, pairs)


kit_code_text = function("kit_code_text", c_size_t, c_int32, c_char_p, c_size_t)


_kit_export_read = function(
    "kit_export_read", c_int32, POINTER(Raw), POINTER(c_uint64), POINTER(c_uint64), POINTER(c_uint64), POINTER(c_uint64), POINTER(c_size_t),
)


def kit_export_read(export_: Given, instance_high: Given, instance_low: Given, start: Given, time: Given, points: Given) -> None:
    check(_kit_export_read, export_, instance_high, instance_low, start, time, points)


_kit_export_service = function("kit_export_service", c_int32, POINTER(Raw), c_char_p, c_size_t, POINTER(c_size_t))


def kit_export_service(export_: Given, into: Given, room: Whole, len: Given) -> None:
    check(_kit_export_service, export_, into, room, len)


_kit_export_encode = function("kit_export_encode", c_int32, POINTER(Raw), POINTER(Raw))


def kit_export_encode(export_: Given, bytes: Given) -> None:
    check(_kit_export_encode, export_, bytes)


_kit_bytes_copy = function("kit_bytes_copy", c_int32, POINTER(Raw), c_char_p, c_size_t, POINTER(c_size_t))


def kit_bytes_copy(bytes: Given, into: Given, room: Whole, len: Given) -> None:
    check(_kit_bytes_copy, bytes, into, room, len)


_kit_export_decode = function("kit_export_decode", c_int32, POINTER(Raw), c_char_p, c_size_t, POINTER(c_uint64))


def kit_export_decode(export_: Given, bytes: Given, bytes_len: Whole) -> None:
    check_at(_kit_export_decode, export_, bytes, bytes_len)


_kit_export_otlp = function("kit_export_otlp", c_int32, POINTER(Raw), POINTER(Raw), POINTER(c_uint64))


def kit_export_otlp(export_: Given, bytes: Given) -> None:
    check_at(_kit_export_otlp, export_, bytes)


_kit_gateway_openmetrics = function("kit_gateway_openmetrics", c_int32, POINTER(Raw), c_bool, c_char_p, c_size_t, c_bool, POINTER(Raw))


def kit_gateway_openmetrics(gateway: Given, only: bool, service: Given, service_len: Whole, tombstones: bool, text: Given) -> None:
    check(_kit_gateway_openmetrics, gateway, only, service, service_len, tombstones, text)


_kit_gateway_prometheus = function("kit_gateway_prometheus", c_int32, POINTER(Raw), c_bool, c_char_p, c_size_t, c_bool, POINTER(Raw))


def kit_gateway_prometheus(gateway: Given, only: bool, service: Given, service_len: Whole, tombstones: bool, text: Given) -> None:
    check(_kit_gateway_prometheus, gateway, only, service, service_len, tombstones, text)


_kit_gateway_open = function("kit_gateway_open", c_int32, POINTER(Raw), c_uint32)


def kit_gateway_open(gateway: Given, id: Whole) -> None:
    check(_kit_gateway_open, gateway, uint32(id))


_kit_gateway_read = function("kit_gateway_read", c_int32, POINTER(Raw), POINTER(c_uint32), POINTER(c_size_t), POINTER(c_uint64))


def kit_gateway_read(gateway: Given, id: Given, points: Given, conflicts: Given) -> None:
    check(_kit_gateway_read, gateway, id, points, conflicts)


_kit_gateway_take = function("kit_gateway_take", c_int32, POINTER(Raw), POINTER(Raw), POINTER(c_uint64), POINTER(c_bool))


def kit_gateway_take(gateway: Given, export_: Given, changed: Given, late: Given) -> None:
    check(_kit_gateway_take, gateway, export_, changed, late)


_kit_gateway_merge = function("kit_gateway_merge", c_int32, POINTER(Raw), POINTER(Raw), POINTER(c_uint64))


def kit_gateway_merge(gateway: Given, other: Given, changed: Given) -> None:
    check(_kit_gateway_merge, gateway, other, changed)


_kit_gateway_merge_bytes = function(
    "kit_gateway_merge_bytes", c_int32, POINTER(Raw), c_char_p, c_size_t, POINTER(c_uint64), POINTER(c_uint64),
)


def kit_gateway_merge_bytes(gateway: Given, bytes: Given, bytes_len: Whole, changed: Given) -> None:
    check_at(_kit_gateway_merge_bytes, gateway, bytes, bytes_len, changed)


_kit_gateway_encode = function("kit_gateway_encode", c_int32, POINTER(Raw), POINTER(Raw))


def kit_gateway_encode(gateway: Given, bytes: Given) -> None:
    check(_kit_gateway_encode, gateway, bytes)


_kit_gateway_same = function("kit_gateway_same", c_int32, POINTER(Raw), POINTER(Raw), POINTER(c_bool))


def kit_gateway_same(gateway: Given, other: Given, same: Given) -> None:
    check(_kit_gateway_same, gateway, other, same)


_kit_gateway_newest = function(
    "kit_gateway_newest", c_int32, POINTER(Raw), c_char_p, c_size_t, c_uint64, c_uint64, c_uint64, POINTER(c_uint64),
)


def kit_gateway_newest(
    gateway: Given, service: Given, service_len: Whole, instance_high: Whole, instance_low: Whole, start: Whole, time: Given,
) -> None:
    check(_kit_gateway_newest, gateway, service, service_len, uint64(instance_high), uint64(instance_low), uint64(start), time)


kit_free = function("kit_free", None, POINTER(Raw))


_kit_gateway_incarnations = function("kit_gateway_incarnations", c_int32, POINTER(Raw), POINTER(Raw))


def kit_gateway_incarnations(gateway: Given, incarnations: Given) -> None:
    check(_kit_gateway_incarnations, gateway, incarnations)


_kit_message_incarnations = function("kit_message_incarnations", c_int32, POINTER(Raw), POINTER(Raw))


def kit_message_incarnations(message: Given, incarnations: Given) -> None:
    check(_kit_message_incarnations, message, incarnations)


_kit_incarnations_len = function("kit_incarnations_len", c_int32, POINTER(Raw), POINTER(c_size_t))


def kit_incarnations_len(incarnations: Given, count: Given) -> None:
    check(_kit_incarnations_len, incarnations, count)


_kit_incarnations_read = function(
    "kit_incarnations_read", c_int32, POINTER(Raw), c_size_t, POINTER(c_uint64), POINTER(c_uint64), POINTER(c_uint64), POINTER(c_uint64),
    POINTER(c_size_t),
)


def kit_incarnations_read(
    incarnations: Given, number: Whole, instance_high: Given, instance_low: Given, start: Given, newest: Given, points: Given,
) -> None:
    check(_kit_incarnations_read, incarnations, size_t(number), instance_high, instance_low, start, newest, points)


_kit_incarnations_service = function("kit_incarnations_service", c_int32, POINTER(Raw), c_size_t, c_char_p, c_size_t, POINTER(c_size_t))


def kit_incarnations_service(incarnations: Given, number: Whole, into: Given, room: Whole, len: Given) -> None:
    check(_kit_incarnations_service, incarnations, size_t(number), into, room, len)


_kit_gateway_service = function("kit_gateway_service", c_int32, POINTER(Raw), c_size_t, c_char_p, c_size_t, POINTER(c_size_t))


def kit_gateway_service(gateway: Given, number: Whole, into: Given, room: Whole, len: Given) -> None:
    check(_kit_gateway_service, gateway, size_t(number), into, room, len)


_kit_instruments_add = function(
    "kit_instruments_add", c_int32, POINTER(Raw), c_char_p, c_size_t, c_char_p, c_size_t, c_char_p, c_size_t, c_uint8,
)


def kit_instruments_add(
    instruments: Given, scope: Given, scope_len: Whole, name: Given, name_len: Whole, unit: Given, unit_len: Whole, kind: Whole,
) -> None:
    check(_kit_instruments_add, instruments, scope, scope_len, name, name_len, unit, unit_len, uint8(kind))


_kit_plan_build = function(
    "kit_plan_build", c_int32, POINTER(Raw), POINTER(Raw), POINTER(Raw), c_uint64, POINTER(c_uint64), POINTER(c_uint64),
)


def kit_plan_build(plan: Given, instruments: Given, views: Given, limit: Whole) -> None:
    check_at_both(_kit_plan_build, plan, instruments, views, uint64(limit))


_kit_gateway_send = function("kit_gateway_send", c_int32, POINTER(Raw), c_uint32, POINTER(Raw))


def kit_gateway_send(gateway: Given, to: Whole, message: Given) -> None:
    check(_kit_gateway_send, gateway, uint32(to), message)


_kit_gateway_hand = function("kit_gateway_hand", c_int32, POINTER(Raw), POINTER(Raw), POINTER(Raw), POINTER(c_bool))


def kit_gateway_hand(gateway: Given, message: Given, answer: Given, answered: Given) -> None:
    check(_kit_gateway_hand, gateway, message, answer, answered)


_kit_message_read = function("kit_message_read", c_int32, POINTER(Raw), POINTER(c_uint32), POINTER(c_uint32), POINTER(c_size_t))


def kit_message_read(message: Given, from_: Given, to: Given, points: Given) -> None:
    check(_kit_message_read, message, from_, to, points)


_kit_message_encode = function("kit_message_encode", c_int32, POINTER(Raw), POINTER(Raw))


def kit_message_encode(message: Given, bytes: Given) -> None:
    check(_kit_message_encode, message, bytes)


_kit_message_decode = function("kit_message_decode", c_int32, POINTER(Raw), c_char_p, c_size_t, POINTER(c_uint64))


def kit_message_decode(message: Given, bytes: Given, bytes_len: Whole) -> None:
    check_at(_kit_message_decode, message, bytes, bytes_len)


_kit_recorder_new = function("kit_recorder_new", c_int32, POINTER(Raw), c_size_t)


def kit_recorder_new(recorder: Given, capacity: Whole) -> None:
    check(_kit_recorder_new, recorder, size_t(capacity))


_kit_recorder_measure = function("kit_recorder_measure", c_int32, POINTER(Raw), c_size_t, POINTER(Raw), c_int64)


def kit_recorder_measure(recorder: Given, instrument: Whole, attributes: Given, value: Whole) -> None:
    check(_kit_recorder_measure, recorder, size_t(instrument), attributes, int64(value))


_kit_recorder_measure_held = function("kit_recorder_measure_held", c_int32, POINTER(Raw), c_size_t, c_int64)


def kit_recorder_measure_held(recorder: Given, number: Whole, value: Whole) -> None:
    check(_kit_recorder_measure_held, recorder, size_t(number), int64(value))


_kit_recorder_len = function("kit_recorder_len", c_int32, POINTER(Raw), POINTER(c_size_t))


def kit_recorder_len(recorder: Given, count: Given) -> None:
    check(_kit_recorder_len, recorder, count)


_kit_recorder_clear = function("kit_recorder_clear", c_int32, POINTER(Raw))


def kit_recorder_clear(recorder: Given) -> None:
    check(_kit_recorder_clear, recorder)


_kit_exports_of_otlp = function("kit_exports_of_otlp", c_int32, POINTER(Raw), c_char_p, c_size_t, POINTER(c_uint64))


def kit_exports_of_otlp(exports: Given, bytes: Given, bytes_len: Whole) -> None:
    check_at(_kit_exports_of_otlp, exports, bytes, bytes_len)


_kit_exports_len = function("kit_exports_len", c_int32, POINTER(Raw), POINTER(c_size_t))


def kit_exports_len(exports: Given, count: Given) -> None:
    check(_kit_exports_len, exports, count)


_kit_exports_read = function("kit_exports_read", c_int32, POINTER(Raw), c_size_t, POINTER(Raw))


def kit_exports_read(exports: Given, number: Whole, export_: Given) -> None:
    check(_kit_exports_read, exports, size_t(number), export_)


_kit_rows_len = function("kit_rows_len", c_int32, POINTER(Raw), POINTER(c_size_t))


def kit_rows_len(rows: Given, count: Given) -> None:
    check(_kit_rows_len, rows, count)


_kit_rows_attributes = function("kit_rows_attributes", c_int32, POINTER(Raw), c_size_t, POINTER(Raw))


def kit_rows_attributes(rows: Given, number: Whole, attributes: Given) -> None:
    check(_kit_rows_attributes, rows, size_t(number), attributes)


_kit_rows_read = function("kit_rows_read", c_int32, POINTER(Raw), c_size_t, POINTER(RawRow))


def kit_rows_read(rows: Given, number: Whole, row: Given) -> None:
    check(_kit_rows_read, rows, size_t(number), row)


_kit_rows_buckets = function("kit_rows_buckets", c_int32, POINTER(Raw), c_size_t, POINTER(RawCount), c_size_t, POINTER(c_size_t))


def kit_rows_buckets(rows: Given, number: Whole, into: Given, room: Whole, len: Given) -> None:
    check(_kit_rows_buckets, rows, size_t(number), into, room, len)


_kit_writer_share = function("kit_writer_share", c_int32, POINTER(Raw), POINTER(Raw))


def kit_writer_share(writer: Given, seat: Given) -> None:
    check(_kit_writer_share, writer, seat)


_kit_seat_measure = function("kit_seat_measure", c_int32, POINTER(Raw), c_size_t, POINTER(Raw), c_int64, POINTER(c_uint64))


def kit_seat_measure(seat: Given, instrument: Whole, attributes: Given, value: Whole) -> None:
    check_at(_kit_seat_measure, seat, size_t(instrument), attributes, int64(value))


_kit_seat_measure_held = function("kit_seat_measure_held", c_int32, POINTER(Raw), c_size_t, c_int64, POINTER(c_uint64))


def kit_seat_measure_held(seat: Given, number: Whole, value: Whole) -> None:
    check_at(_kit_seat_measure_held, seat, size_t(number), int64(value))


_kit_seat_hold = function("kit_seat_hold", c_int32, POINTER(Raw), c_size_t, POINTER(Raw), POINTER(c_size_t))


def kit_seat_hold(seat: Given, instrument: Whole, attributes: Given, number: Given) -> None:
    check(_kit_seat_hold, seat, size_t(instrument), attributes, number)


_kit_seat_take_in = function("kit_seat_take_in", c_int32, POINTER(Raw), POINTER(Raw), c_size_t, POINTER(RawTaken))


def kit_seat_take_in(seat: Given, recorder: Given, most: Whole, taken: Given) -> None:
    check(_kit_seat_take_in, seat, recorder, size_t(most), taken)


_kit_seat_split = function("kit_seat_split", c_int32, POINTER(Raw), POINTER(Raw))


def kit_seat_split(seat: Given, made: Given) -> None:
    check(_kit_seat_split, seat, made)


_kit_seat_collect = function("kit_seat_collect", c_int32, POINTER(Raw), c_uint64, POINTER(Raw), POINTER(c_uint64))


def kit_seat_collect(seat: Given, time: Whole, export_: Given) -> None:
    check_at(_kit_seat_collect, seat, uint64(time), export_)


_kit_attributes_len = function("kit_attributes_len", c_int32, POINTER(Raw), POINTER(c_size_t))


def kit_attributes_len(attributes: Given, count: Given) -> None:
    check(_kit_attributes_len, attributes, count)


_kit_attributes_key = function("kit_attributes_key", c_int32, POINTER(Raw), c_size_t, c_char_p, c_size_t, POINTER(c_size_t))


def kit_attributes_key(attributes: Given, number: Whole, into: Given, room: Whole, len: Given) -> None:
    check(_kit_attributes_key, attributes, size_t(number), into, room, len)


_kit_attributes_value = function("kit_attributes_value", c_int32, POINTER(Raw), c_size_t, POINTER(c_uint8), POINTER(c_int64))


def kit_attributes_value(attributes: Given, number: Whole, kind: Given, whole: Given) -> None:
    check(_kit_attributes_value, attributes, size_t(number), kind, whole)


_kit_attributes_text = function("kit_attributes_text", c_int32, POINTER(Raw), c_size_t, c_char_p, c_size_t, POINTER(c_size_t))


def kit_attributes_text(attributes: Given, number: Whole, into: Given, room: Whole, len: Given) -> None:
    check(_kit_attributes_text, attributes, size_t(number), into, room, len)


_kit_plan_streams = function("kit_plan_streams", c_int32, POINTER(Raw), POINTER(Raw))


def kit_plan_streams(plan: Given, streams: Given) -> None:
    check(_kit_plan_streams, plan, streams)


_kit_export_streams = function("kit_export_streams", c_int32, POINTER(Raw), POINTER(Raw))


def kit_export_streams(export_: Given, streams: Given) -> None:
    check(_kit_export_streams, export_, streams)


_kit_gateway_streams = function("kit_gateway_streams", c_int32, POINTER(Raw), POINTER(Raw))


def kit_gateway_streams(gateway: Given, streams: Given) -> None:
    check(_kit_gateway_streams, gateway, streams)


_kit_streams_len = function("kit_streams_len", c_int32, POINTER(Raw), POINTER(c_size_t))


def kit_streams_len(streams: Given, count: Given) -> None:
    check(_kit_streams_len, streams, count)


_kit_streams_text = function("kit_streams_text", c_int32, POINTER(Raw), c_size_t, c_uint8, c_char_p, c_size_t, POINTER(c_size_t))


def kit_streams_text(streams: Given, number: Whole, part: Whole, into: Given, room: Whole, len: Given) -> None:
    check(_kit_streams_text, streams, size_t(number), uint8(part), into, room, len)


_kit_streams_shape = function("kit_streams_shape", c_int32, POINTER(Raw), c_size_t, POINTER(c_uint8), POINTER(c_size_t))


def kit_streams_shape(streams: Given, number: Whole, shape: Given, bounds: Given) -> None:
    check(_kit_streams_shape, streams, size_t(number), shape, bounds)


_kit_streams_bounds = function("kit_streams_bounds", c_int32, POINTER(Raw), c_size_t, POINTER(c_int64), c_size_t, POINTER(c_size_t))


def kit_streams_bounds(streams: Given, number: Whole, into: Given, room: Whole, len: Given) -> None:
    check(_kit_streams_bounds, streams, size_t(number), into, room, len)


_kit_ask_stream = function("kit_ask_stream", c_int32, POINTER(Raw), POINTER(Raw), c_size_t)


def kit_ask_stream(ask: Given, streams: Given, number: Whole) -> None:
    check(_kit_ask_stream, ask, streams, size_t(number))


kit_default_bounds = function("kit_default_bounds", c_size_t, POINTER(c_int64), c_size_t)


_kit_text_copy = function("kit_text_copy", c_int32, POINTER(Raw), c_char_p, c_size_t, POINTER(c_size_t))


def kit_text_copy(text: Given, into: Given, room: Whole, len: Given) -> None:
    check(_kit_text_copy, text, into, room, len)


kit_version = function("kit_version", c_uint32)


_kit_view_of_name = function("kit_view_of_name", c_int32, POINTER(Raw), c_char_p, c_size_t)


def kit_view_of_name(view: Given, name: Given, name_len: Whole) -> None:
    check(_kit_view_of_name, view, name, name_len)


_kit_view_of_every = function("kit_view_of_every", c_int32, POINTER(Raw))


def kit_view_of_every(view: Given) -> None:
    check(_kit_view_of_every, view)


_kit_view_kind = function("kit_view_kind", c_int32, POINTER(Raw), c_uint8)


def kit_view_kind(view: Given, kind: Whole) -> None:
    check(_kit_view_kind, view, uint8(kind))


_kit_view_scope = function("kit_view_scope", c_int32, POINTER(Raw), c_char_p, c_size_t)


def kit_view_scope(view: Given, scope: Given, scope_len: Whole) -> None:
    check(_kit_view_scope, view, scope, scope_len)


_kit_view_rename = function("kit_view_rename", c_int32, POINTER(Raw), c_char_p, c_size_t)


def kit_view_rename(view: Given, name: Given, name_len: Whole) -> None:
    check(_kit_view_rename, view, name, name_len)


_kit_view_keep = function("kit_view_keep", c_int32, POINTER(Raw), POINTER(Raw))


def kit_view_keep(view: Given, keys: Given) -> None:
    check(_kit_view_keep, view, keys)


_kit_view_aggregation = function("kit_view_aggregation", c_int32, POINTER(Raw), c_uint8)


def kit_view_aggregation(view: Given, number: Whole) -> None:
    check(_kit_view_aggregation, view, uint8(number))


_kit_view_buckets = function("kit_view_buckets", c_int32, POINTER(Raw), POINTER(c_int64), c_size_t)


def kit_view_buckets(view: Given, bounds: Given, bounds_len: Whole) -> None:
    check(_kit_view_buckets, view, bounds, bounds_len)


_kit_views_add = function("kit_views_add", c_int32, POINTER(Raw), POINTER(Raw))


def kit_views_add(views: Given, view: Given) -> None:
    check(_kit_views_add, views, view)


_kit_keys_add = function("kit_keys_add", c_int32, POINTER(Raw), c_char_p, c_size_t)


def kit_keys_add(keys: Given, key: Given, key_len: Whole) -> None:
    check(_kit_keys_add, keys, key, key_len)


_kit_writer_start = function("kit_writer_start", c_int32, POINTER(Raw), POINTER(Raw), c_char_p, c_size_t, c_uint64, c_uint64, c_uint64)


def kit_writer_start(
    writer: Given, plan: Given, service: Given, service_len: Whole, instance_high: Whole, instance_low: Whole, start: Whole,
) -> None:
    check(_kit_writer_start, writer, plan, service, service_len, uint64(instance_high), uint64(instance_low), uint64(start))


_kit_writer_measure = function("kit_writer_measure", c_int32, POINTER(Raw), c_size_t, POINTER(Raw), c_int64, POINTER(c_uint64))


def kit_writer_measure(writer: Given, instrument: Whole, attributes: Given, value: Whole) -> None:
    check_at(_kit_writer_measure, writer, size_t(instrument), attributes, int64(value))


_kit_writer_hold = function("kit_writer_hold", c_int32, POINTER(Raw), c_size_t, POINTER(Raw), POINTER(c_size_t))


def kit_writer_hold(writer: Given, instrument: Whole, attributes: Given, number: Given) -> None:
    check(_kit_writer_hold, writer, size_t(instrument), attributes, number)


_kit_writer_measure_held = function("kit_writer_measure_held", c_int32, POINTER(Raw), c_size_t, c_int64, POINTER(c_uint64))


def kit_writer_measure_held(writer: Given, number: Whole, value: Whole) -> None:
    check_at(_kit_writer_measure_held, writer, size_t(number), int64(value))


_kit_writer_take_in = function("kit_writer_take_in", c_int32, POINTER(Raw), POINTER(Raw), c_size_t, POINTER(RawTaken))


def kit_writer_take_in(writer: Given, recorder: Given, most: Whole, taken: Given) -> None:
    check(_kit_writer_take_in, writer, recorder, size_t(most), taken)


_kit_writer_collect = function("kit_writer_collect", c_int32, POINTER(Raw), c_uint64, POINTER(Raw), POINTER(c_uint64))


def kit_writer_collect(writer: Given, time: Whole, export_: Given) -> None:
    check_at(_kit_writer_collect, writer, uint64(time), export_)


_kit_writer_shutdown = function("kit_writer_shutdown", c_int32, POINTER(Raw), c_uint64, POINTER(Raw), POINTER(c_uint64))


def kit_writer_shutdown(writer: Given, time: Whole, export_: Given) -> None:
    check_at(_kit_writer_shutdown, writer, uint64(time), export_)


_kit_writer_restart = function("kit_writer_restart", c_int32, POINTER(Raw), c_uint64, POINTER(c_uint64))


def kit_writer_restart(writer: Given, start: Whole) -> None:
    check_at(_kit_writer_restart, writer, uint64(start))
