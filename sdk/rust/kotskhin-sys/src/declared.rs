//! Made by sdk/declarations.py of what crates/kit_c exports.
use crate::Handle;

pub const VERSION: u32 = 256;

/// Done.
pub const OK: i32 = 0;
/// Memory was refused.
pub const NO_MEMORY: i32 = 1;
/// A handle that is read has nothing.
pub const NOTHING: i32 = 2;
/// A handle has a thing of another kind.
pub const WRONG_KIND: i32 = 3;
/// The handle that is to be filled has something.
pub const FULL: i32 = 4;
/// A text is not UTF-8.
pub const NOT_TEXT: i32 = 5;
/// A number stands for nothing here.
pub const BAD_NUMBER: i32 = 6;
/// Nothing is held under this number.
pub const NO_HELD: i32 = 7;
/// There is no row of this number.
pub const NO_ROW: i32 = 8;
/// There is no point of what is asked for.
pub const NO_POINT: i32 = 9;
/// The writer was shut down.
pub const CLOSED: i32 = 10;
/// There is no instrument of this number.
pub const NO_INSTRUMENT: i32 = 11;
/// The instrument takes no value below 0.
pub const NEGATIVE: i32 = 12;
/// A total would leave 64 bits.
pub const OVERFLOW: i32 = 13;
/// The time is not after that of the last collection.
pub const TIME_NOT_AFTER: i32 = 14;
/// The start is not after the start so far.
pub const START_NOT_AFTER: i32 = 15;
/// A call of another thread has the writer.
pub const BUSY: i32 = 16;
/// The writer accepted as many changes as it may.
pub const EXHAUSTED: i32 = 17;
/// The writer has as many seats as it may.
pub const SEATS_FULL: i32 = 18;
/// There is no item of this number.
pub const NO_ITEM: i32 = 19;
/// A key is empty.
pub const EMPTY_KEY: i32 = 20;
/// A name begins with a letter, has letters, digits, '_', '.', '-' and '/' alone, and at most 255 of them.
pub const BAD_NAME: i32 = 30;
/// A unit has ASCII characters alone, and at most 63 of them.
pub const BAD_UNIT: i32 = 31;
/// Bounds do not strictly rise, or are more than 1024.
pub const BAD_BOUNDS: i32 = 32;
/// A new name begins with a letter, has letters, digits, '_', '.', '-' and '/' alone, and at most 255 of them.
pub const BAD_RENAME: i32 = 33;
/// A view of every name gives a new one.
pub const WILDCARD_RENAME: i32 = 34;
/// An aggregation does not fit its instrument.
pub const BAD_AGGREGATION: i32 = 35;
/// Two instruments feed one stream.
pub const SAME_STREAM: i32 = 36;
/// The limit is 0.
pub const BAD_LIMIT: i32 = 37;
/// The scope of an instrument is that of tombstones.
pub const RESERVED_SCOPE: i32 = 38;
/// A value is of another shape.
pub const WRONG_SHAPE: i32 = 42;
/// The message goes to another id.
pub const NOT_ADDRESSED: i32 = 50;
/// Bytes end within what they begin.
pub const TRUNCATED: i32 = 60;
/// Bytes do not begin as an export or a message does.
pub const BAD_MAGIC: i32 = 61;
/// The version is none that is known.
pub const BAD_VERSION: i32 = 62;
/// A value is not in its one form.
pub const NOT_CANONICAL: i32 = 63;
/// The checksum is not that of the bytes before it.
pub const BAD_CHECKSUM: i32 = 64;
/// The values are none that an export can have.
pub const BAD_EXPORT: i32 = 65;
/// A log has as many recordings as it may.
pub const RECORDER_FULL: i32 = 70;
/// The bounds of a point do not rise as doubles.
pub const OTLP_BOUNDS: i32 = 80;
/// The request has more bytes than one may have.
pub const TOO_LONG: i32 = 81;
/// Bytes begin no field that can stand there.
pub const MALFORMED: i32 = 82;
/// A resource names no service.
pub const NO_SERVICE: i32 = 83;
/// A resource names no instance.
pub const NO_INSTANCE: i32 = 84;
/// The instance of a resource is no UUID.
pub const NOT_UUID: i32 = 85;
/// A scope comes in two versions.
pub const SCOPE_TWICE: i32 = 86;
/// A metric is an exponential histogram.
pub const EXPONENTIAL_HISTOGRAM: i32 = 87;
/// A metric is a summary.
pub const SUMMARY: i32 = 88;
/// A metric has no data.
pub const NO_DATA: i32 = 89;
/// A metric is told as deltas.
pub const DELTA: i32 = 90;
/// A metric is not said to be cumulative.
pub const NO_TEMPORALITY: i32 = 91;
/// A point has no recorded value.
pub const NO_RECORDED_VALUE: i32 = 92;
/// The start of a point is not known.
pub const UNKNOWN_START: i32 = 93;
/// The value of a point is a double.
pub const FLOAT_VALUE: i32 = 94;
/// A point has no value.
pub const NO_POINT_VALUE: i32 = 95;
/// A histogram has no sum.
pub const NO_SUM: i32 = 96;
/// A double of a histogram is no whole number.
pub const NOT_WHOLE: i32 = 97;
/// A double of a histogram may stand for several whole numbers.
pub const INEXACT: i32 = 98;
/// The bounds of a histogram do not strictly rise.
pub const NOT_RISING: i32 = 99;
/// A histogram has a least or a greatest value alone.
pub const HALF_RANGE: i32 = 100;
/// An attribute of a point has no key.
pub const NO_KEY: i32 = 101;
/// Two attributes of a point have one key.
pub const ATTRIBUTE_TWICE: i32 = 102;
/// The value of an attribute is of a kind that is not known.
pub const ATTRIBUTE_VALUE: i32 = 103;
/// What a request says together makes no export.
pub const NO_EXPORT: i32 = 104;
/// A point of an export has the scope of tombstones.
pub const RESERVED_POINT: i32 = 106;
/// A text has more than 1024 bytes.
pub const TOO_LONG_TEXT: i32 = 107;
/// A point has more than 128 attributes.
pub const TOO_MANY_ATTRIBUTES: i32 = 108;
/// The incarnation is of another service than the archive.
pub const OTHER_SERVICE: i32 = 110;
/// The incarnation is an archive's.
pub const IS_ARCHIVE: i32 = 111;
/// The incarnation was adopted before.
pub const ADOPTED: i32 = 112;
/// A point of the incarnation is a conflict.
pub const CONFLICT: i32 = 113;
/// The points of the incarnation are not of one time.
pub const TORN: i32 = 114;
/// No export has the points of the incarnation.
pub const UNSOUND: i32 = 115;
/// A number leaves the range of archives.
pub const OUT_OF_RANGE: i32 = 116;
/// There would be more totals than the limit.
pub const SET_LIMIT: i32 = 117;
/// The time is not later than that of the last export.
pub const TIME_NOT_LATER: i32 = 118;
/// The start is not later than the last export.
pub const START_NOT_LATER: i32 = 119;
/// Incarnations were adopted since the last export.
pub const UNEXPORTED: i32 = 120;

/// The words for the places that a code tells.
pub const fn places(code: i32) -> &'static [&'static str] {
    match code {
        NOT_TEXT | TRUNCATED | BAD_MAGIC | BAD_VERSION | NOT_CANONICAL | BAD_CHECKSUM | MALFORMED | TOO_LONG_TEXT => &["byte"],
        OVERFLOW => &["stream"],
        TIME_NOT_AFTER => &["time"],
        START_NOT_AFTER => &["start"],
        EMPTY_KEY => &["pair"],
        BAD_NAME | BAD_UNIT | RESERVED_SCOPE => &["instrument"],
        BAD_BOUNDS | BAD_RENAME | WILDCARD_RENAME => &["view"],
        BAD_AGGREGATION => &["instrument", "view"],
        SAME_STREAM => &["instrument", "instrument"],
        OTLP_BOUNDS | NO_RECORDED_VALUE | UNKNOWN_START | FLOAT_VALUE | NO_POINT_VALUE | NO_SUM | NOT_WHOLE | INEXACT | NOT_RISING |
            HALF_RANGE | NO_KEY | ATTRIBUTE_TWICE | ATTRIBUTE_VALUE | TOO_MANY_ATTRIBUTES => &["point"],
        NO_SERVICE | NO_INSTANCE | NOT_UUID => &["resource"],
        SCOPE_TWICE => &["scope"],
        EXPONENTIAL_HISTOGRAM | SUMMARY | NO_DATA | DELTA | NO_TEMPORALITY => &["metric"],
        NO_EXPORT | RESERVED_POINT => &["export"],
        _ => &[],
    }
}

kind!(
    /// Pairs of attributes that are written down, or nothing.
    Pairs
);

kind!(
    /// A set of attributes, or nothing.
    Attributes
);

kind!(
    /// Instruments that are written down, or nothing.
    Instruments
);

kind!(
    /// A view that is being made, or nothing.
    View
);

kind!(
    /// Views that are written down, or nothing.
    Views
);

kind!(
    /// Keys of attributes that are written down, or nothing.
    Keys
);

kind!(
    /// A plan, or nothing.
    Plan
);

kind!(
    /// A writer, or nothing.
    Writer
);

kind!(
    /// A thread's own log of recordings, or nothing.
    Recorder
);

kind!(
    /// An export, or nothing.
    Export
);

kind!(
    /// Exports that were read, or nothing.
    Exports
);

kind!(
    /// A gateway, which shows no point that an archive adopted, or nothing.
    Gateway
);

kind!(
    /// A message of a gateway, or nothing.
    Message
);

kind!(
    /// A writer that adopts ended incarnations of others, or nothing.
    Archive
);

kind!(
    /// A place at a writer that threads share, or nothing.
    Seat
);

kind!(
    /// An ask of a gateway, or nothing.
    Ask
);

kind!(
    /// Rows that a gateway answered, or nothing.
    Rows
);

kind!(
    /// Streams, or nothing.
    Streams
);

kind!(
    /// Incarnations of which there are points, or nothing.
    Incarnations
);

kind!(
    /// A text, or nothing.
    Text
);

kind!(
    /// An export, a message or a request as bytes, or nothing.
    Bytes
);

/// A count of 128 bits: `high` times 2^64, and `low`.
#[repr(C)]
#[derive(Clone, Copy, Debug, Default)]
pub struct Count {
    pub high: u64,
    pub low: u64,
}

/// A row as numbers: what its shape has none of is 0 or false. A sum and a count have 128 bits: the high half times 2^64, and the low half.
#[repr(C)]
#[derive(Clone, Copy, Debug, Default)]
pub struct Row {
    pub points: u64,
    pub conflicts: u64,
    pub sum_high: i64,
    pub sum_low: u64,
    pub count_high: u64,
    pub count_low: u64,
    pub time: u64,
    pub value: i64,
    pub least: i64,
    pub greatest: i64,
    pub buckets: usize,
    pub shape: u8,
    pub has_value: bool,
    pub has_range: bool,
}

/// How many recordings of a log a writer recorded and refused, and why the first of these: its code, its place in the log and what the code
/// tells. Where none was refused these are `OK`, 0 and 0.
#[repr(C)]
#[derive(Clone, Copy, Debug, Default)]
pub struct Taken {
    pub recorded: usize,
    pub refused: usize,
    pub code: i32,
    pub first: usize,
    pub place: u64,
}

unsafe extern "C" {
    pub fn kit_archive_begin(
        archive: *mut Archive,
        service: *const u8,
        service_len: usize,
        instance_high: u64,
        instance_low: u64,
        start: u64,
        limit: usize,
    ) -> i32;
    pub fn kit_archive_adopt(
        archive: *mut Archive,
        gateway: *mut Gateway,
        service: *const u8,
        service_len: usize,
        instance_high: u64,
        instance_low: u64,
        start: u64,
    ) -> i32;
    pub fn kit_archive_export(
        archive: *mut Archive,
        time: u64,
        export_: *mut Export,
    ) -> i32;
    pub fn kit_archive_seal(
        archive: *mut Archive,
        start: u64,
    ) -> i32;
    pub fn kit_archive_read(
        archive: *mut Archive,
        start: *mut u64,
        adopted: *mut usize,
    ) -> i32;
    pub fn kit_ask_sum(
        ask: *mut Ask,
        scope: *const u8,
        scope_len: usize,
        name: *const u8,
        name_len: usize,
        unit: *const u8,
        unit_len: usize,
        monotonic: bool,
    ) -> i32;
    pub fn kit_ask_gauge(
        ask: *mut Ask,
        scope: *const u8,
        scope_len: usize,
        name: *const u8,
        name_len: usize,
        unit: *const u8,
        unit_len: usize,
    ) -> i32;
    pub fn kit_ask_histogram(
        ask: *mut Ask,
        scope: *const u8,
        scope_len: usize,
        name: *const u8,
        name_len: usize,
        unit: *const u8,
        unit_len: usize,
        bounds: *const i64,
        bounds_len: usize,
    ) -> i32;
    pub fn kit_ask_service(
        ask: *mut Ask,
        service: *const u8,
        service_len: usize,
    ) -> i32;
    pub fn kit_ask_only(
        ask: *mut Ask,
        pairs: *mut Pairs,
    ) -> i32;
    pub fn kit_ask_keep(
        ask: *mut Ask,
        keys: *mut Keys,
    ) -> i32;
    pub fn kit_gateway_rows(
        gateway: *mut Gateway,
        ask: *mut Ask,
        rows: *mut Rows,
    ) -> i32;
    pub fn kit_rows_table(
        rows: *mut Rows,
        text: *mut Text,
    ) -> i32;
    pub fn kit_pairs_add_text(
        pairs: *mut Pairs,
        key: *const u8,
        key_len: usize,
        value: *const u8,
        value_len: usize,
    ) -> i32;
    pub fn kit_pairs_add_whole(
        pairs: *mut Pairs,
        key: *const u8,
        key_len: usize,
        value: i64,
    ) -> i32;
    pub fn kit_pairs_add_truth(
        pairs: *mut Pairs,
        key: *const u8,
        key_len: usize,
        value: bool,
    ) -> i32;
    pub fn kit_attributes_make(
        attributes: *mut Attributes,
        pairs: *mut Pairs,
        place: *mut u64,
    ) -> i32;
    pub fn kit_code_text(
        code: i32,
        into: *mut u8,
        room: usize,
    ) -> usize;
    pub fn kit_export_read(
        export_: *mut Export,
        instance_high: *mut u64,
        instance_low: *mut u64,
        start: *mut u64,
        time: *mut u64,
        points: *mut usize,
    ) -> i32;
    pub fn kit_export_service(
        export_: *mut Export,
        into: *mut u8,
        room: usize,
        len: *mut usize,
    ) -> i32;
    pub fn kit_export_encode(
        export_: *mut Export,
        bytes: *mut Bytes,
    ) -> i32;
    pub fn kit_bytes_copy(
        bytes: *mut Bytes,
        into: *mut u8,
        room: usize,
        len: *mut usize,
    ) -> i32;
    pub fn kit_export_decode(
        export_: *mut Export,
        bytes: *const u8,
        bytes_len: usize,
        place: *mut u64,
    ) -> i32;
    pub fn kit_export_otlp(
        export_: *mut Export,
        bytes: *mut Bytes,
        place: *mut u64,
    ) -> i32;
    pub fn kit_gateway_openmetrics(
        gateway: *mut Gateway,
        only: bool,
        service: *const u8,
        service_len: usize,
        tombstones: bool,
        text: *mut Text,
    ) -> i32;
    pub fn kit_gateway_prometheus(
        gateway: *mut Gateway,
        only: bool,
        service: *const u8,
        service_len: usize,
        tombstones: bool,
        text: *mut Text,
    ) -> i32;
    pub fn kit_gateway_open(
        gateway: *mut Gateway,
        id: u32,
    ) -> i32;
    pub fn kit_gateway_read(
        gateway: *mut Gateway,
        id: *mut u32,
        points: *mut usize,
        conflicts: *mut u64,
    ) -> i32;
    pub fn kit_gateway_take(
        gateway: *mut Gateway,
        export_: *mut Export,
        changed: *mut u64,
        late: *mut bool,
    ) -> i32;
    pub fn kit_gateway_merge(
        gateway: *mut Gateway,
        other: *mut Gateway,
        changed: *mut u64,
    ) -> i32;
    pub fn kit_gateway_merge_bytes(
        gateway: *mut Gateway,
        bytes: *const u8,
        bytes_len: usize,
        changed: *mut u64,
        place: *mut u64,
    ) -> i32;
    pub fn kit_gateway_encode(
        gateway: *mut Gateway,
        bytes: *mut Bytes,
    ) -> i32;
    pub fn kit_gateway_same(
        gateway: *mut Gateway,
        other: *mut Gateway,
        same: *mut bool,
    ) -> i32;
    pub fn kit_gateway_newest(
        gateway: *mut Gateway,
        service: *const u8,
        service_len: usize,
        instance_high: u64,
        instance_low: u64,
        start: u64,
        time: *mut u64,
    ) -> i32;
    pub fn kit_free(
        handle: *mut Handle,
    );
    pub fn kit_gateway_incarnations(
        gateway: *mut Gateway,
        incarnations: *mut Incarnations,
    ) -> i32;
    pub fn kit_message_incarnations(
        message: *mut Message,
        incarnations: *mut Incarnations,
    ) -> i32;
    pub fn kit_incarnations_len(
        incarnations: *mut Incarnations,
        count: *mut usize,
    ) -> i32;
    pub fn kit_incarnations_read(
        incarnations: *mut Incarnations,
        number: usize,
        instance_high: *mut u64,
        instance_low: *mut u64,
        start: *mut u64,
        newest: *mut u64,
        points: *mut usize,
    ) -> i32;
    pub fn kit_incarnations_service(
        incarnations: *mut Incarnations,
        number: usize,
        into: *mut u8,
        room: usize,
        len: *mut usize,
    ) -> i32;
    pub fn kit_gateway_service(
        gateway: *mut Gateway,
        number: usize,
        into: *mut u8,
        room: usize,
        len: *mut usize,
    ) -> i32;
    pub fn kit_instruments_add(
        instruments: *mut Instruments,
        scope: *const u8,
        scope_len: usize,
        name: *const u8,
        name_len: usize,
        unit: *const u8,
        unit_len: usize,
        kind: u8,
    ) -> i32;
    pub fn kit_plan_build(
        plan: *mut Plan,
        instruments: *mut Instruments,
        views: *mut Views,
        limit: u64,
        place: *mut u64,
        second: *mut u64,
    ) -> i32;
    pub fn kit_gateway_send(
        gateway: *mut Gateway,
        to: u32,
        message: *mut Message,
    ) -> i32;
    pub fn kit_gateway_hand(
        gateway: *mut Gateway,
        message: *mut Message,
        answer: *mut Message,
        answered: *mut bool,
    ) -> i32;
    pub fn kit_message_read(
        message: *mut Message,
        from: *mut u32,
        to: *mut u32,
        points: *mut usize,
    ) -> i32;
    pub fn kit_message_encode(
        message: *mut Message,
        bytes: *mut Bytes,
    ) -> i32;
    pub fn kit_message_decode(
        message: *mut Message,
        bytes: *const u8,
        bytes_len: usize,
        place: *mut u64,
    ) -> i32;
    pub fn kit_recorder_new(
        recorder: *mut Recorder,
        capacity: usize,
    ) -> i32;
    pub fn kit_recorder_measure(
        recorder: *mut Recorder,
        instrument: usize,
        attributes: *mut Attributes,
        value: i64,
    ) -> i32;
    pub fn kit_recorder_measure_held(
        recorder: *mut Recorder,
        number: usize,
        value: i64,
    ) -> i32;
    pub fn kit_recorder_len(
        recorder: *mut Recorder,
        count: *mut usize,
    ) -> i32;
    pub fn kit_recorder_clear(
        recorder: *mut Recorder,
    ) -> i32;
    pub fn kit_exports_of_otlp(
        exports: *mut Exports,
        bytes: *const u8,
        bytes_len: usize,
        place: *mut u64,
    ) -> i32;
    pub fn kit_exports_len(
        exports: *mut Exports,
        count: *mut usize,
    ) -> i32;
    pub fn kit_exports_read(
        exports: *mut Exports,
        number: usize,
        export_: *mut Export,
    ) -> i32;
    pub fn kit_rows_len(
        rows: *mut Rows,
        count: *mut usize,
    ) -> i32;
    pub fn kit_rows_attributes(
        rows: *mut Rows,
        number: usize,
        attributes: *mut Attributes,
    ) -> i32;
    pub fn kit_rows_read(
        rows: *mut Rows,
        number: usize,
        row: *mut Row,
    ) -> i32;
    pub fn kit_rows_buckets(
        rows: *mut Rows,
        number: usize,
        into: *mut Count,
        room: usize,
        len: *mut usize,
    ) -> i32;
    pub fn kit_writer_share(
        writer: *mut Writer,
        seat: *mut Seat,
    ) -> i32;
    pub fn kit_seat_measure(
        seat: *mut Seat,
        instrument: usize,
        attributes: *mut Attributes,
        value: i64,
        place: *mut u64,
    ) -> i32;
    pub fn kit_seat_measure_held(
        seat: *mut Seat,
        number: usize,
        value: i64,
        place: *mut u64,
    ) -> i32;
    pub fn kit_seat_hold(
        seat: *mut Seat,
        instrument: usize,
        attributes: *mut Attributes,
        number: *mut usize,
    ) -> i32;
    pub fn kit_seat_take_in(
        seat: *mut Seat,
        recorder: *mut Recorder,
        most: usize,
        taken: *mut Taken,
    ) -> i32;
    pub fn kit_seat_split(
        seat: *mut Seat,
        made: *mut Seat,
    ) -> i32;
    pub fn kit_seat_collect(
        seat: *mut Seat,
        time: u64,
        export_: *mut Export,
        place: *mut u64,
    ) -> i32;
    pub fn kit_attributes_len(
        attributes: *mut Attributes,
        count: *mut usize,
    ) -> i32;
    pub fn kit_attributes_key(
        attributes: *mut Attributes,
        number: usize,
        into: *mut u8,
        room: usize,
        len: *mut usize,
    ) -> i32;
    pub fn kit_attributes_value(
        attributes: *mut Attributes,
        number: usize,
        kind: *mut u8,
        whole: *mut i64,
    ) -> i32;
    pub fn kit_attributes_text(
        attributes: *mut Attributes,
        number: usize,
        into: *mut u8,
        room: usize,
        len: *mut usize,
    ) -> i32;
    pub fn kit_plan_streams(
        plan: *mut Plan,
        streams: *mut Streams,
    ) -> i32;
    pub fn kit_export_streams(
        export_: *mut Export,
        streams: *mut Streams,
    ) -> i32;
    pub fn kit_gateway_streams(
        gateway: *mut Gateway,
        streams: *mut Streams,
    ) -> i32;
    pub fn kit_streams_len(
        streams: *mut Streams,
        count: *mut usize,
    ) -> i32;
    pub fn kit_streams_text(
        streams: *mut Streams,
        number: usize,
        part: u8,
        into: *mut u8,
        room: usize,
        len: *mut usize,
    ) -> i32;
    pub fn kit_streams_shape(
        streams: *mut Streams,
        number: usize,
        shape: *mut u8,
        bounds: *mut usize,
    ) -> i32;
    pub fn kit_streams_bounds(
        streams: *mut Streams,
        number: usize,
        into: *mut i64,
        room: usize,
        len: *mut usize,
    ) -> i32;
    pub fn kit_ask_stream(
        ask: *mut Ask,
        streams: *mut Streams,
        number: usize,
    ) -> i32;
    pub fn kit_default_bounds(
        into: *mut i64,
        room: usize,
    ) -> usize;
    pub fn kit_text_copy(
        text: *mut Text,
        into: *mut u8,
        room: usize,
        len: *mut usize,
    ) -> i32;
    pub fn kit_version() -> u32;
    pub fn kit_view_of_name(
        view: *mut View,
        name: *const u8,
        name_len: usize,
    ) -> i32;
    pub fn kit_view_of_every(
        view: *mut View,
    ) -> i32;
    pub fn kit_view_kind(
        view: *mut View,
        kind: u8,
    ) -> i32;
    pub fn kit_view_scope(
        view: *mut View,
        scope: *const u8,
        scope_len: usize,
    ) -> i32;
    pub fn kit_view_rename(
        view: *mut View,
        name: *const u8,
        name_len: usize,
    ) -> i32;
    pub fn kit_view_keep(
        view: *mut View,
        keys: *mut Keys,
    ) -> i32;
    pub fn kit_view_aggregation(
        view: *mut View,
        number: u8,
    ) -> i32;
    pub fn kit_view_buckets(
        view: *mut View,
        bounds: *const i64,
        bounds_len: usize,
    ) -> i32;
    pub fn kit_views_add(
        views: *mut Views,
        view: *mut View,
    ) -> i32;
    pub fn kit_keys_add(
        keys: *mut Keys,
        key: *const u8,
        key_len: usize,
    ) -> i32;
    pub fn kit_writer_start(
        writer: *mut Writer,
        plan: *mut Plan,
        service: *const u8,
        service_len: usize,
        instance_high: u64,
        instance_low: u64,
        start: u64,
    ) -> i32;
    pub fn kit_writer_measure(
        writer: *mut Writer,
        instrument: usize,
        attributes: *mut Attributes,
        value: i64,
        place: *mut u64,
    ) -> i32;
    pub fn kit_writer_hold(
        writer: *mut Writer,
        instrument: usize,
        attributes: *mut Attributes,
        number: *mut usize,
    ) -> i32;
    pub fn kit_writer_measure_held(
        writer: *mut Writer,
        number: usize,
        value: i64,
        place: *mut u64,
    ) -> i32;
    pub fn kit_writer_take_in(
        writer: *mut Writer,
        recorder: *mut Recorder,
        most: usize,
        taken: *mut Taken,
    ) -> i32;
    pub fn kit_writer_collect(
        writer: *mut Writer,
        time: u64,
        export_: *mut Export,
        place: *mut u64,
    ) -> i32;
    pub fn kit_writer_shutdown(
        writer: *mut Writer,
        time: u64,
        export_: *mut Export,
        place: *mut u64,
    ) -> i32;
    pub fn kit_writer_restart(
        writer: *mut Writer,
        start: u64,
        place: *mut u64,
    ) -> i32;
}
