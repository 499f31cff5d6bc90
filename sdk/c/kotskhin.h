/* Kotskhin for C: proved metrics (libkotskhin.a, libkotskhin.so.0).
 *
 * Made by sdk/declarations.py of what crates/kit_c exports: change it there.
 *
 * A handle has one thing of its kind, or nothing. Begin with KIT_EMPTY, and give back what it has by kit_writer_free and its like.
 * - What a call reads (KIT_READS) stays; what it makes goes into an empty handle; what it changes is its first handle, and a log taken in.
 * - A call answers KIT_OK, or why it is refused: what stands first in the order of its page. A refused call leaves every handle as it was,
 *   and what it was to tell, too, but for the place that some refusals tell (see the codes).
 * - KIT_NO_MEMORY stands last in each order, and may come before. KIT_WRONG_KIND stands in none: it is of handles that are cast.
 * - Texts and lists are a pointer and a length; they are copied. Texts are UTF-8, with no 0 at the end.
 * - Times are nanoseconds since the Unix epoch.
 *
 * What a caller keeps, and what happens otherwise (docs/use/C.md):
 * - No pointer is null, also where its length is 0 (KIT_BYTES): else a fault, or what C leaves undefined. Compilers warn of it.
 * - A handle is in one call at a time, and one call has it once: else a call answers KIT_NOTHING, or memory is freed under another. What calls
 *   only read may be read by many threads at once, each by a handle of its own that is lent (KIT_LENT).
 * - No handle that has something is copied, but to be lent, or so that the copy stands for it from then on: else what it has is freed twice.
 * - No byte of a handle is written: one that leads nowhere is followed. */
#ifndef KOTSKHIN_H
#define KOTSKHIN_H

#include <stdbool.h>
#include <stddef.h>
#include <stdint.h>

#ifdef __cplusplus
extern "C" {
#endif

#define KIT_VERSION 256 /* 0.1.0: the first number * 65536 + the second * 256 + the third */
#define KIT_VERSION_TEXT "0.1.0"
/* What KIT_VERSION and kit_version tell more where the library was made without its proofs (`sdk/build --quick`): to try it, and never in a
 * release. */
#define KIT_NOT_PROVED 2147483648u

/* KIT_CALL stands before each call, KIT_CHECKED also before each that may be refused: its answer is to be looked at. */
#if defined(__GNUC__) || defined(__clang__)
#define KIT_CALL __attribute__((nonnull))
#define KIT_CHECKED __attribute__((nonnull, warn_unused_result))
#else
#define KIT_CALL
#define KIT_CHECKED
#endif

/* Stands before each handle that a call only reads: once it answers, the handle is as it was. */
#define KIT_READS

/* What all handles are. Its fields are the library's. */
typedef struct kit_handle {
    bool full;
    void *at;
} kit_handle;

/* Gives up what a handle has. The handle is then empty, and may be used again; one that is empty stays so. Never refused. */
KIT_CALL void kit_free(kit_handle *handle);

/* What a handle of any kind begins as, also a static one: kit_writer writer = KIT_EMPTY. As a value, to be assigned, KIT_NONE(kit_writer). */
#ifdef __cplusplus
#define KIT_EMPTY {{false, nullptr}}
#define KIT_NONE(kind) (kind KIT_EMPTY)
#define KIT_SIZE(kind, size) static_assert(sizeof(kind) == (size), #kind)
#else
#define KIT_EMPTY {{false, 0}}
#define KIT_NONE(kind) ((kind)KIT_EMPTY)
#define KIT_SIZE(kind, size) _Static_assert(sizeof(kind) == (size), #kind)
/* A handle for one call that only reads it, by which other threads may read the same thing at once: KIT_LENT(kit_attributes, &set). It is the
 * caller's that no call changes the thing or gives it up meanwhile. */
#define KIT_LENT(kind, handle) ((kind[1]){*(handle)})
/* For the place of a refusal that nobody looks at. */
#define KIT_NO_PLACE ((uint64_t[1]){0})
#endif

/* A text that is written down, as its pointer and its length. */
#define KIT_TEXT(text) (const uint8_t *)("" text), sizeof("" text) - 1
/* Bytes that are so many: the pointer to none of them may be null here. */
#define KIT_BYTES(at, len) kit_bytes_at(at), (len)
static inline const uint8_t *kit_bytes_at(const void *at) { return (const uint8_t *)(at ? at : ""); }

/* Pairs of attributes that are written down, or nothing. */
typedef struct kit_pairs { kit_handle handle; } kit_pairs;
KIT_SIZE(kit_pairs, 16);
static inline KIT_CALL void kit_pairs_free(kit_pairs *own) { kit_free(&own->handle); }

/* A set of attributes, or nothing. */
typedef struct kit_attributes { kit_handle handle; } kit_attributes;
KIT_SIZE(kit_attributes, 16);
static inline KIT_CALL void kit_attributes_free(kit_attributes *own) { kit_free(&own->handle); }

/* Instruments that are written down, or nothing. */
typedef struct kit_instruments { kit_handle handle; } kit_instruments;
KIT_SIZE(kit_instruments, 16);
static inline KIT_CALL void kit_instruments_free(kit_instruments *own) { kit_free(&own->handle); }

/* A view that is being made, or nothing. */
typedef struct kit_view { kit_handle handle; } kit_view;
KIT_SIZE(kit_view, 16);
static inline KIT_CALL void kit_view_free(kit_view *own) { kit_free(&own->handle); }

/* Views that are written down, or nothing. */
typedef struct kit_views { kit_handle handle; } kit_views;
KIT_SIZE(kit_views, 16);
static inline KIT_CALL void kit_views_free(kit_views *own) { kit_free(&own->handle); }

/* Keys of attributes that are written down, or nothing. */
typedef struct kit_keys { kit_handle handle; } kit_keys;
KIT_SIZE(kit_keys, 16);
static inline KIT_CALL void kit_keys_free(kit_keys *own) { kit_free(&own->handle); }

/* A plan, or nothing. */
typedef struct kit_plan { kit_handle handle; } kit_plan;
KIT_SIZE(kit_plan, 16);
static inline KIT_CALL void kit_plan_free(kit_plan *own) { kit_free(&own->handle); }

/* A writer, or nothing. */
typedef struct kit_writer { kit_handle handle; } kit_writer;
KIT_SIZE(kit_writer, 16);
static inline KIT_CALL void kit_writer_free(kit_writer *own) { kit_free(&own->handle); }

/* A thread's own log of recordings, or nothing. */
typedef struct kit_recorder { kit_handle handle; } kit_recorder;
KIT_SIZE(kit_recorder, 16);
static inline KIT_CALL void kit_recorder_free(kit_recorder *own) { kit_free(&own->handle); }

/* An export, or nothing. */
typedef struct kit_export { kit_handle handle; } kit_export;
KIT_SIZE(kit_export, 16);
static inline KIT_CALL void kit_export_free(kit_export *own) { kit_free(&own->handle); }

/* Exports that were read, or nothing. */
typedef struct kit_exports { kit_handle handle; } kit_exports;
KIT_SIZE(kit_exports, 16);
static inline KIT_CALL void kit_exports_free(kit_exports *own) { kit_free(&own->handle); }

/* A gateway, which shows no point that an archive adopted, or nothing. */
typedef struct kit_gateway { kit_handle handle; } kit_gateway;
KIT_SIZE(kit_gateway, 16);
static inline KIT_CALL void kit_gateway_free(kit_gateway *own) { kit_free(&own->handle); }

/* A message of a gateway, or nothing. */
typedef struct kit_message { kit_handle handle; } kit_message;
KIT_SIZE(kit_message, 16);
static inline KIT_CALL void kit_message_free(kit_message *own) { kit_free(&own->handle); }

/* A writer that adopts ended incarnations of others, or nothing. */
typedef struct kit_archive { kit_handle handle; } kit_archive;
KIT_SIZE(kit_archive, 16);
static inline KIT_CALL void kit_archive_free(kit_archive *own) { kit_free(&own->handle); }

/* A place at a writer that threads share, or nothing. */
typedef struct kit_seat { kit_handle handle; } kit_seat;
KIT_SIZE(kit_seat, 16);
static inline KIT_CALL void kit_seat_free(kit_seat *own) { kit_free(&own->handle); }

/* An ask of a gateway, or nothing. */
typedef struct kit_ask { kit_handle handle; } kit_ask;
KIT_SIZE(kit_ask, 16);
static inline KIT_CALL void kit_ask_free(kit_ask *own) { kit_free(&own->handle); }

/* Rows that a gateway answered, or nothing. */
typedef struct kit_rows { kit_handle handle; } kit_rows;
KIT_SIZE(kit_rows, 16);
static inline KIT_CALL void kit_rows_free(kit_rows *own) { kit_free(&own->handle); }

/* Streams, or nothing. */
typedef struct kit_streams { kit_handle handle; } kit_streams;
KIT_SIZE(kit_streams, 16);
static inline KIT_CALL void kit_streams_free(kit_streams *own) { kit_free(&own->handle); }

/* Incarnations of which there are points, or nothing. */
typedef struct kit_incarnations { kit_handle handle; } kit_incarnations;
KIT_SIZE(kit_incarnations, 16);
static inline KIT_CALL void kit_incarnations_free(kit_incarnations *own) { kit_free(&own->handle); }

/* A text, or nothing. */
typedef struct kit_text { kit_handle handle; } kit_text;
KIT_SIZE(kit_text, 16);
static inline KIT_CALL void kit_text_free(kit_text *own) { kit_free(&own->handle); }

/* An export, a message or a request as bytes, or nothing. */
typedef struct kit_bytes { kit_handle handle; } kit_bytes;
KIT_SIZE(kit_bytes, 16);
static inline KIT_CALL void kit_bytes_free(kit_bytes *own) { kit_free(&own->handle); }

/* A count of 128 bits: high times 2^64, and low. */
typedef struct kit_count {
    uint64_t high;
    uint64_t low;
} kit_count;
KIT_SIZE(kit_count, 16);

/* A row as numbers: what its shape has none of is 0 or false. A sum and a count have 128 bits: the high half times 2^64, and the low half. */
typedef struct kit_row {
    uint64_t points; /* Of how many points the total is. */
    uint64_t conflicts; /* How many keys hold a conflict, of which nothing is in the total. */
    int64_t sum_high; /* What the values of a sum or of a histogram come to. */
    uint64_t sum_low;
    uint64_t count_high; /* How many values a histogram is of. */
    uint64_t count_low;
    uint64_t time; /* Of a gauge the newest point, where has_value: a row of conflicts alone has none. */
    int64_t value;
    int64_t least; /* Of a histogram the least and the greatest value, where has_range: one without values has none. */
    int64_t greatest;
    size_t buckets; /* How many buckets a histogram has: one more than bounds. */
    uint8_t shape; /* 1 a sum, 2 a gauge, 3 a histogram, as of streams. */
    bool has_value;
    bool has_range;
} kit_row;
KIT_SIZE(kit_row, 96);

/* How many recordings of a log a writer recorded and refused, and why the first of these: its code, its place in the log and what the code
 * tells. Where none was refused these are KIT_OK, 0 and 0. */
typedef struct kit_taken {
    size_t recorded;
    size_t refused;
    int32_t code;
    size_t first;
    uint64_t place;
} kit_taken;
KIT_SIZE(kit_taken, 40);

/* What calls answer. With a * the place that is told is said behind it, and behind ** the second. */
enum {
    KIT_OK = 0,                     /* done */
    KIT_NO_MEMORY = 1,              /* memory was refused */
    KIT_NOTHING = 2,                /* a handle that is read has nothing */
    KIT_WRONG_KIND = 3,             /* a handle has a thing of another kind */
    KIT_FULL = 4,                   /* the handle that is to be filled has something */
    KIT_NOT_TEXT = 5,               /* a text is not UTF-8: * the byte */
    KIT_BAD_NUMBER = 6,             /* a number stands for nothing here */
    KIT_NO_HELD = 7,                /* nothing is held under this number */
    KIT_NO_ROW = 8,                 /* there is no row of this number */
    KIT_NO_POINT = 9,               /* there is no point of what is asked for */

    KIT_CLOSED = 10,                /* the writer was shut down */
    KIT_NO_INSTRUMENT = 11,         /* there is no instrument of this number */
    KIT_NEGATIVE = 12,              /* the instrument takes no value below 0 */
    KIT_OVERFLOW = 13,              /* a total would leave 64 bits: * the stream */
    KIT_TIME_NOT_AFTER = 14,        /* the time is not after that of the last collection: * the time */
    KIT_START_NOT_AFTER = 15,       /* the start is not after the start so far: * the start */
    KIT_BUSY = 16,                  /* a call of another thread has the writer */
    KIT_EXHAUSTED = 17,             /* the writer accepted as many changes as it may */
    KIT_SEATS_FULL = 18,            /* the writer has as many seats as it may */
    KIT_NO_ITEM = 19,               /* there is no item of this number */

    KIT_EMPTY_KEY = 20,             /* a key is empty: * the pair */

    KIT_BAD_NAME = 30,              /* a name begins with a letter, has letters, digits, '_', '.', '-' and '/' alone, and at most 255 of them: * the instrument */
    KIT_BAD_UNIT = 31,              /* a unit has ASCII characters alone, and at most 63 of them: * the instrument */
    KIT_BAD_BOUNDS = 32,            /* bounds do not strictly rise, or are more than 1024: * the view */
    KIT_BAD_RENAME = 33,            /* a new name begins with a letter, has letters, digits, '_', '.', '-' and '/' alone, and at most 255 of them: * the view */
    KIT_WILDCARD_RENAME = 34,       /* a view of every name gives a new one: * the view */
    KIT_BAD_AGGREGATION = 35,       /* an aggregation does not fit its instrument: * the instrument and ** the view */
    KIT_SAME_STREAM = 36,           /* two instruments feed one stream: * the instrument and ** the instrument */
    KIT_BAD_LIMIT = 37,             /* the limit is 0 */
    KIT_RESERVED_SCOPE = 38,        /* the scope of an instrument is that of tombstones: * the instrument */

    KIT_WRONG_SHAPE = 42,           /* a value is of another shape */

    KIT_NOT_ADDRESSED = 50,         /* the message goes to another id */

    KIT_TRUNCATED = 60,             /* bytes end within what they begin: * the byte */
    KIT_BAD_MAGIC = 61,             /* bytes do not begin as an export or a message does: * the byte */
    KIT_BAD_VERSION = 62,           /* the version is none that is known: * the byte */
    KIT_NOT_CANONICAL = 63,         /* a value is not in its one form: * the byte */
    KIT_BAD_CHECKSUM = 64,          /* the checksum is not that of the bytes before it: * the byte */
    KIT_BAD_EXPORT = 65,            /* the values are none that an export can have */

    KIT_RECORDER_FULL = 70,         /* a log has as many recordings as it may */

    KIT_OTLP_BOUNDS = 80,           /* the bounds of a point do not rise as doubles: * the point */
    KIT_TOO_LONG = 81,              /* the request has more bytes than one may have */
    KIT_MALFORMED = 82,             /* bytes begin no field that can stand there: * the byte */
    KIT_NO_SERVICE = 83,            /* a resource names no service: * the resource */
    KIT_NO_INSTANCE = 84,           /* a resource names no instance: * the resource */
    KIT_NOT_UUID = 85,              /* the instance of a resource is no UUID: * the resource */
    KIT_SCOPE_TWICE = 86,           /* a scope comes in two versions: * the scope */
    KIT_EXPONENTIAL_HISTOGRAM = 87, /* a metric is an exponential histogram: * the metric */
    KIT_SUMMARY = 88,               /* a metric is a summary: * the metric */
    KIT_NO_DATA = 89,               /* a metric has no data: * the metric */

    KIT_DELTA = 90,                 /* a metric is told as deltas: * the metric */
    KIT_NO_TEMPORALITY = 91,        /* a metric is not said to be cumulative: * the metric */
    KIT_NO_RECORDED_VALUE = 92,     /* a point has no recorded value: * the point */
    KIT_UNKNOWN_START = 93,         /* the start of a point is not known: * the point */
    KIT_FLOAT_VALUE = 94,           /* the value of a point is a double: * the point */
    KIT_NO_POINT_VALUE = 95,        /* a point has no value: * the point */
    KIT_NO_SUM = 96,                /* a histogram has no sum: * the point */
    KIT_NOT_WHOLE = 97,             /* a double of a histogram is no whole number: * the point */
    KIT_INEXACT = 98,               /* a double of a histogram may stand for several whole numbers: * the point */
    KIT_NOT_RISING = 99,            /* the bounds of a histogram do not strictly rise: * the point */

    KIT_HALF_RANGE = 100,           /* a histogram has a least or a greatest value alone: * the point */
    KIT_NO_KEY = 101,               /* an attribute of a point has no key: * the point */
    KIT_ATTRIBUTE_TWICE = 102,      /* two attributes of a point have one key: * the point */
    KIT_ATTRIBUTE_VALUE = 103,      /* the value of an attribute is of a kind that is not known: * the point */
    KIT_NO_EXPORT = 104,            /* what a request says together makes no export: * the export */
    KIT_RESERVED_POINT = 106,       /* a point of an export has the scope of tombstones: * the export */
    KIT_TOO_LONG_TEXT = 107,        /* a text has more than 1024 bytes: * the byte */
    KIT_TOO_MANY_ATTRIBUTES = 108,  /* a point has more than 128 attributes: * the point */

    KIT_OTHER_SERVICE = 110,        /* the incarnation is of another service than the archive */
    KIT_IS_ARCHIVE = 111,           /* the incarnation is an archive's */
    KIT_ADOPTED = 112,              /* the incarnation was adopted before */
    KIT_CONFLICT = 113,             /* a point of the incarnation is a conflict */
    KIT_TORN = 114,                 /* the points of the incarnation are not of one time */
    KIT_UNSOUND = 115,              /* no export has the points of the incarnation */
    KIT_OUT_OF_RANGE = 116,         /* a number leaves the range of archives */
    KIT_SET_LIMIT = 117,            /* there would be more totals than the limit */
    KIT_TIME_NOT_LATER = 118,       /* the time is not later than that of the last export */
    KIT_START_NOT_LATER = 119,      /* the start is not later than the last export */

    KIT_UNEXPORTED = 120,           /* incarnations were adopted since the last export */
};

/* Kinds of instruments. */
enum {
    KIT_COUNTER = 0,
    KIT_UP_DOWN = 1,
    KIT_GAUGE = 2,
    KIT_HISTOGRAM = 3,
};

/* What views make of values: as the kind of the instrument does, a sum, the last value, nothing. */
enum {
    KIT_AS_KIND = 0,
    KIT_SUM = 1,
    KIT_LAST_VALUE = 2,
    KIT_DROP = 3,
};

/* Shapes of streams and of rows: a row of a sum has KIT_SHAPE_SUM, whether it only rises or not. */
enum {
    KIT_SHAPE_RISING = 0,
    KIT_SHAPE_SUM = 1,
    KIT_SHAPE_GAUGE = 2,
    KIT_SHAPE_HISTOGRAM = 3,
};

/* How many attribute sets a stream has points of their own for, where nothing else is asked. */
enum { KIT_DEFAULT_LIMIT = 2000 };

/* The name of a code, as it stands above, for a message; kit_code_text has what it says. */
static inline const char *kit_code_name(int32_t code) {
    switch (code) {
    case KIT_OK: return "KIT_OK";
    case KIT_NO_MEMORY: return "KIT_NO_MEMORY";
    case KIT_NOTHING: return "KIT_NOTHING";
    case KIT_WRONG_KIND: return "KIT_WRONG_KIND";
    case KIT_FULL: return "KIT_FULL";
    case KIT_NOT_TEXT: return "KIT_NOT_TEXT";
    case KIT_BAD_NUMBER: return "KIT_BAD_NUMBER";
    case KIT_NO_HELD: return "KIT_NO_HELD";
    case KIT_NO_ROW: return "KIT_NO_ROW";
    case KIT_NO_POINT: return "KIT_NO_POINT";
    case KIT_CLOSED: return "KIT_CLOSED";
    case KIT_NO_INSTRUMENT: return "KIT_NO_INSTRUMENT";
    case KIT_NEGATIVE: return "KIT_NEGATIVE";
    case KIT_OVERFLOW: return "KIT_OVERFLOW";
    case KIT_TIME_NOT_AFTER: return "KIT_TIME_NOT_AFTER";
    case KIT_START_NOT_AFTER: return "KIT_START_NOT_AFTER";
    case KIT_BUSY: return "KIT_BUSY";
    case KIT_EXHAUSTED: return "KIT_EXHAUSTED";
    case KIT_SEATS_FULL: return "KIT_SEATS_FULL";
    case KIT_NO_ITEM: return "KIT_NO_ITEM";
    case KIT_EMPTY_KEY: return "KIT_EMPTY_KEY";
    case KIT_BAD_NAME: return "KIT_BAD_NAME";
    case KIT_BAD_UNIT: return "KIT_BAD_UNIT";
    case KIT_BAD_BOUNDS: return "KIT_BAD_BOUNDS";
    case KIT_BAD_RENAME: return "KIT_BAD_RENAME";
    case KIT_WILDCARD_RENAME: return "KIT_WILDCARD_RENAME";
    case KIT_BAD_AGGREGATION: return "KIT_BAD_AGGREGATION";
    case KIT_SAME_STREAM: return "KIT_SAME_STREAM";
    case KIT_BAD_LIMIT: return "KIT_BAD_LIMIT";
    case KIT_RESERVED_SCOPE: return "KIT_RESERVED_SCOPE";
    case KIT_WRONG_SHAPE: return "KIT_WRONG_SHAPE";
    case KIT_NOT_ADDRESSED: return "KIT_NOT_ADDRESSED";
    case KIT_TRUNCATED: return "KIT_TRUNCATED";
    case KIT_BAD_MAGIC: return "KIT_BAD_MAGIC";
    case KIT_BAD_VERSION: return "KIT_BAD_VERSION";
    case KIT_NOT_CANONICAL: return "KIT_NOT_CANONICAL";
    case KIT_BAD_CHECKSUM: return "KIT_BAD_CHECKSUM";
    case KIT_BAD_EXPORT: return "KIT_BAD_EXPORT";
    case KIT_RECORDER_FULL: return "KIT_RECORDER_FULL";
    case KIT_OTLP_BOUNDS: return "KIT_OTLP_BOUNDS";
    case KIT_TOO_LONG: return "KIT_TOO_LONG";
    case KIT_MALFORMED: return "KIT_MALFORMED";
    case KIT_NO_SERVICE: return "KIT_NO_SERVICE";
    case KIT_NO_INSTANCE: return "KIT_NO_INSTANCE";
    case KIT_NOT_UUID: return "KIT_NOT_UUID";
    case KIT_SCOPE_TWICE: return "KIT_SCOPE_TWICE";
    case KIT_EXPONENTIAL_HISTOGRAM: return "KIT_EXPONENTIAL_HISTOGRAM";
    case KIT_SUMMARY: return "KIT_SUMMARY";
    case KIT_NO_DATA: return "KIT_NO_DATA";
    case KIT_DELTA: return "KIT_DELTA";
    case KIT_NO_TEMPORALITY: return "KIT_NO_TEMPORALITY";
    case KIT_NO_RECORDED_VALUE: return "KIT_NO_RECORDED_VALUE";
    case KIT_UNKNOWN_START: return "KIT_UNKNOWN_START";
    case KIT_FLOAT_VALUE: return "KIT_FLOAT_VALUE";
    case KIT_NO_POINT_VALUE: return "KIT_NO_POINT_VALUE";
    case KIT_NO_SUM: return "KIT_NO_SUM";
    case KIT_NOT_WHOLE: return "KIT_NOT_WHOLE";
    case KIT_INEXACT: return "KIT_INEXACT";
    case KIT_NOT_RISING: return "KIT_NOT_RISING";
    case KIT_HALF_RANGE: return "KIT_HALF_RANGE";
    case KIT_NO_KEY: return "KIT_NO_KEY";
    case KIT_ATTRIBUTE_TWICE: return "KIT_ATTRIBUTE_TWICE";
    case KIT_ATTRIBUTE_VALUE: return "KIT_ATTRIBUTE_VALUE";
    case KIT_NO_EXPORT: return "KIT_NO_EXPORT";
    case KIT_RESERVED_POINT: return "KIT_RESERVED_POINT";
    case KIT_TOO_LONG_TEXT: return "KIT_TOO_LONG_TEXT";
    case KIT_TOO_MANY_ATTRIBUTES: return "KIT_TOO_MANY_ATTRIBUTES";
    case KIT_OTHER_SERVICE: return "KIT_OTHER_SERVICE";
    case KIT_IS_ARCHIVE: return "KIT_IS_ARCHIVE";
    case KIT_ADOPTED: return "KIT_ADOPTED";
    case KIT_CONFLICT: return "KIT_CONFLICT";
    case KIT_TORN: return "KIT_TORN";
    case KIT_UNSOUND: return "KIT_UNSOUND";
    case KIT_OUT_OF_RANGE: return "KIT_OUT_OF_RANGE";
    case KIT_SET_LIMIT: return "KIT_SET_LIMIT";
    case KIT_TIME_NOT_LATER: return "KIT_TIME_NOT_LATER";
    case KIT_START_NOT_LATER: return "KIT_START_NOT_LATER";
    case KIT_UNEXPORTED: return "KIT_UNEXPORTED";
    default: return "no code";
    }
}

/* Tells the version of the library as one number: 65,536 for each of its first, 256 for each of its second, and its third number. A caller
 * compares it with that of the header, which also covers how structs are laid out. */
KIT_CALL uint32_t kit_version(void);

/* Copies the front of the text of a code that has room, and answers how many bytes the whole text has, in UTF-8 and with no 0 at its end:
 * none where the number is no code. It is a clause that begins small and has no full stop. */
KIT_CALL size_t kit_code_text(int32_t code, uint8_t *into, size_t room);

/* The version of the library as a text, which also says where it was made without its proofs: "0.1.0, not proved". */
static inline const char *kit_version_text(void) {
    return kit_version() & KIT_NOT_PROVED ? KIT_VERSION_TEXT ", not proved" : KIT_VERSION_TEXT;
}

/* Plans: instruments and views, numbered from 0 in the order in which they are added, and what streams they come to. */

/* Adds an instrument: instruments are numbered from 0 in the order in which they are added. A handle that has nothing begins with it. The
 * kinds: 0 a counter, 1 an up-down counter, 2 a gauge, 3 a histogram.
 *
 * Refused, in this order: KIT_BAD_NUMBER where the kind is none of these; KIT_NOT_TEXT where the scope, the name or the unit is no UTF-8;
 * KIT_NO_MEMORY. */
KIT_CHECKED int32_t kit_instruments_add(kit_instruments *instruments, const uint8_t *scope, size_t scope_len, const uint8_t *name,
                                        size_t name_len, const uint8_t *unit, size_t unit_len, uint8_t kind);

/* Makes the plan of instruments and views, in which each stream has points of their own for so many attribute sets (OpenTelemetry Metrics
 * SDK, "View", "Cardinality limits"). Instruments and views stay; a handle that has nothing stands for none. Many writers may start under
 * one plan.
 *
 * Refused, in this order: KIT_FULL; what Plan::build refuses, KIT_BAD_NAME to KIT_BAD_LIMIT, with its places; KIT_RESERVED_SCOPE with the
 * least instrument in the scope kotskhin.archive, which is that of tombstones; KIT_NO_MEMORY. */
KIT_CHECKED int32_t kit_plan_build(kit_plan *plan, KIT_READS kit_instruments *instruments, KIT_READS kit_views *views, uint64_t limit,
                                   uint64_t *place, uint64_t *second);

/* Makes a view of the instruments of one name, but for the case of ASCII letters. It changes nothing yet.
 *
 * Refused, in this order: KIT_FULL; KIT_NOT_TEXT; KIT_NO_MEMORY. */
KIT_CHECKED int32_t kit_view_of_name(kit_view *view, const uint8_t *name, size_t name_len);

/* Makes a view of all instruments. It changes nothing yet.
 *
 * Refused, in this order: KIT_FULL; KIT_NO_MEMORY. */
KIT_CHECKED int32_t kit_view_of_every(kit_view *view);

/* From now on a view is of instruments of one kind: 0 counters, 1 up-down counters, 2 gauges, 3 histograms.
 *
 * Refused, in this order: KIT_BAD_NUMBER where the kind is none of these; KIT_NOTHING. Takes no memory. */
KIT_CHECKED int32_t kit_view_kind(kit_view *view, uint8_t kind);

/* From now on a view is of instruments of one scope.
 *
 * Refused, in this order: KIT_NOT_TEXT; KIT_NOTHING; KIT_NO_MEMORY. */
KIT_CHECKED int32_t kit_view_scope(kit_view *view, const uint8_t *scope, size_t scope_len);

/* From now on a view gives its stream a new name.
 *
 * Refused, in this order: KIT_NOT_TEXT; KIT_NOTHING; KIT_NO_MEMORY. */
KIT_CHECKED int32_t kit_view_rename(kit_view *view, const uint8_t *name, size_t name_len);

/* From now on the stream of a view keeps these keys of attributes alone, which stay; none where their handle has nothing.
 *
 * Refused, in this order: KIT_NOTHING of the view; KIT_NO_MEMORY. */
KIT_CHECKED int32_t kit_view_keep(kit_view *view, KIT_READS kit_keys *keys);

/* From now on a view aggregates so: 0 as the kind of the instrument does, 1 a sum, 2 the last value, 3 not at all.
 *
 * Refused, in this order: KIT_BAD_NUMBER where the number is none of these; KIT_NOTHING. Takes no memory. */
KIT_CHECKED int32_t kit_view_aggregation(kit_view *view, uint8_t number);

/* From now on a view is a histogram of these bounds.
 *
 * Refused, in this order: KIT_NOTHING; KIT_NO_MEMORY. */
KIT_CHECKED int32_t kit_view_buckets(kit_view *view, const int64_t *bounds, size_t bounds_len);

/* Adds a copy of a view: views are numbered from 0 in the order in which they are added. A handle that has nothing begins with it.
 *
 * Refused, in this order: KIT_NOTHING of the view; KIT_NO_MEMORY. */
KIT_CHECKED int32_t kit_views_add(kit_views *views, KIT_READS kit_view *view);

/* Adds a key. A handle that has nothing begins with it.
 *
 * Refused, in this order: KIT_NOT_TEXT; KIT_NO_MEMORY. */
KIT_CHECKED int32_t kit_keys_add(kit_keys *keys, const uint8_t *key, size_t key_len);

/* Attributes: pairs are written down, and made a set, which can be read pair by pair. */

/* Adds a pair whose value is a text. A handle that has nothing begins with it.
 *
 * Refused, in this order: KIT_NOT_TEXT where the key or else the value is no UTF-8; KIT_NO_MEMORY. */
KIT_CHECKED int32_t kit_pairs_add_text(kit_pairs *pairs, const uint8_t *key, size_t key_len, const uint8_t *value, size_t value_len);

/* Adds a pair whose value is a whole number. A handle that has nothing begins with it.
 *
 * Refused, in this order: KIT_NOT_TEXT where the key is no UTF-8; KIT_NO_MEMORY. */
KIT_CHECKED int32_t kit_pairs_add_whole(kit_pairs *pairs, const uint8_t *key, size_t key_len, int64_t value);

/* Adds a pair whose value is a truth. A handle that has nothing begins with it.
 *
 * Refused, in this order: KIT_NOT_TEXT where the key is no UTF-8; KIT_NO_MEMORY. */
KIT_CHECKED int32_t kit_pairs_add_truth(kit_pairs *pairs, const uint8_t *key, size_t key_len, bool value);

/* Makes a set of the pairs that a handle has, or of none where it has nothing. The pairs stay.
 *
 * Refused, in this order: KIT_FULL; KIT_EMPTY_KEY with the least place of an empty key; KIT_NO_MEMORY. O(n log n) comparisons of keys, O(n)
 * where they rise already. */
KIT_CHECKED int32_t kit_attributes_make(kit_attributes *attributes, KIT_READS kit_pairs *pairs, uint64_t *place);

/* Tells how many pairs a set has: they are numbered from 0, in the order of their keys.
 *
 * Refused: KIT_NOTHING. O(1), takes no memory. */
KIT_CHECKED int32_t kit_attributes_len(KIT_READS kit_attributes *attributes, size_t *count);

/* Copies the front of the key of a pair that has room, and tells in len how many bytes the whole key has, in UTF-8 and with no 0 at its
 * end.
 *
 * Refused, in this order: KIT_NOTHING; KIT_NO_ITEM where there is no pair of this number. Takes no memory. */
KIT_CHECKED int32_t kit_attributes_key(KIT_READS kit_attributes *attributes, size_t number, uint8_t *into, size_t room, size_t *len);

/* Tells the value of a pair: its kind, 0 a text, 1 a whole number, 2 a truth; and it as a number, where a truth is 1 or 0 and a text its
 * length, and kit_attributes_text copies it.
 *
 * Refused, in this order: KIT_NOTHING; KIT_NO_ITEM where there is no pair of this number. O(1), takes no memory. */
KIT_CHECKED int32_t kit_attributes_value(KIT_READS kit_attributes *attributes, size_t number, uint8_t *kind, int64_t *whole);

/* Copies the front of the text that the value of a pair is, and tells in len how many bytes the whole text has, in UTF-8 and with no 0 at
 * its end.
 *
 * Refused, in this order: KIT_NOTHING; KIT_NO_ITEM where there is no pair of this number; KIT_WRONG_SHAPE where its value is no text. Takes
 * no memory. */
KIT_CHECKED int32_t kit_attributes_text(KIT_READS kit_attributes *attributes, size_t number, uint8_t *into, size_t room, size_t *len);

/* Writers count from a start on. */

/* Starts a writer, which counts from a start on, under a copy of a plan. The instance is a UUID as two numbers. Times are nanoseconds since
 * the Unix epoch.
 *
 * Refused, in this order: KIT_FULL; KIT_NOT_TEXT where the service is no UTF-8; KIT_NOTHING of the plan; KIT_NO_MEMORY. */
KIT_CHECKED int32_t kit_writer_start(kit_writer *writer, KIT_READS kit_plan *plan, const uint8_t *service, size_t service_len,
                                     uint64_t instance_high, uint64_t instance_low, uint64_t start);

/* Records a value of an instrument at an attribute set, in the stream of every feed of the instrument or in none (OpenTelemetry Metrics
 * API, "Counter", "Histogram", "Gauge").
 *
 * Refused, in this order: KIT_NOTHING of the writer, then of the attributes; KIT_CLOSED; KIT_NO_INSTRUMENT; KIT_NEGATIVE; KIT_OVERFLOW with
 * the stream; KIT_NO_MEMORY, but that a feed which keeps a list of keys may want memory before it and the feeds behind it are looked at.
 * O(feeds of the instrument); no memory where every feed keeps all keys and its stream has the point. */
KIT_CHECKED int32_t kit_writer_measure(kit_writer *writer, size_t instrument, KIT_READS kit_attributes *attributes, int64_t value,
                                       uint64_t *place);

/* Holds a pair of an instrument and an attribute set beside the writer, and tells its number, for kit_writer_measure_held. Numbers count
 * from 0, and stay as long as the writer does, over restarts too. A pair that is held already has the number that it has: nothing changes
 * and no memory is taken, so this may be called at each recording.
 *
 * Refused, in this order: KIT_NOTHING of the writer, then of the attributes; of a pair that is not held already KIT_CLOSED;
 * KIT_NO_INSTRUMENT; KIT_NO_MEMORY. O(size of the attributes). */
KIT_CHECKED int32_t kit_writer_hold(kit_writer *writer, size_t instrument, kit_attributes *attributes, size_t *number);

/* Records a value at the pair of a number, which kit_writer_hold told, as kit_writer_measure does.
 *
 * Refused, in this order: KIT_NOTHING; KIT_CLOSED; KIT_NO_HELD where nothing is held under the number; KIT_NEGATIVE; KIT_OVERFLOW with the
 * stream; KIT_NO_MEMORY as of kit_writer_measure. O(feeds of the instrument), and from the first value on no set is looked up. */
KIT_CHECKED int32_t kit_writer_measure_held(kit_writer *writer, size_t number, int64_t value, uint64_t *place);

/* Takes in at most so many recordings of a log, from its front: each is measured as if it had been so then, one after the other, and
 * forgotten. What is refused is refused by itself, and told: how many were recorded and refused, and why the first of these. Where memory
 * is wanting it stops, and that recording and those behind it stay. What was noted before a restart counts in the incarnation that takes it
 * in.
 *
 * Refused, in this order: KIT_NOTHING of the writer, then of the recorder; KIT_CLOSED. O(what each recording takes). */
KIT_CHECKED int32_t kit_writer_take_in(kit_writer *writer, kit_recorder *recorder, size_t most, kit_taken *taken);

/* Collects the points since the start, as an export. Exports are cumulative, so a lost one is covered by the next (OpenTelemetry Metrics
 * SDK, "MetricReader", Collect). The time is in nanoseconds since the Unix epoch.
 *
 * Refused, in this order: KIT_FULL; KIT_NOTHING; KIT_CLOSED; KIT_TIME_NOT_AFTER with the last collection or the start; KIT_NO_MEMORY.
 * O(size of the points). */
KIT_CHECKED int32_t kit_writer_collect(kit_writer *writer, uint64_t time, kit_export *export_, uint64_t *place);

/* Collects for the last time, and closes the writer (OpenTelemetry Metrics SDK, "MetricReader", Shutdown).
 *
 * Refused as kit_writer_collect is.
 *
 * In all: KIT_FULL, KIT_NOTHING, KIT_CLOSED, KIT_TIME_NOT_AFTER, KIT_NO_MEMORY. */
KIT_CHECKED int32_t kit_writer_shutdown(kit_writer *writer, uint64_t time, kit_export *export_, uint64_t *place);

/* Begins a new incarnation under a later start: the writer is open and has recorded nothing (OpenTelemetry Metrics Data Model, "Resets and
 * Gaps").
 *
 * Refused, in this order: KIT_NOTHING; KIT_START_NOT_AFTER with the start so far; KIT_NO_MEMORY. */
KIT_CHECKED int32_t kit_writer_restart(kit_writer *writer, uint64_t start, uint64_t *place);

/* Recorders are threads' own logs of recordings: each thread notes in its own, which meets no other, and a writer takes in what is noted. */

/* Makes a log of no recordings, which may have as many as its capacity says: 32 bytes for each are taken now. It needs no writer, and any
 * may take it in. Of several logs the one that is taken in last has the last word on a gauge, whenever its values were noted: so a gauge
 * that threads set in turn is recorded at the writer itself.
 *
 * Refused, in this order: KIT_FULL; KIT_NO_MEMORY. */
KIT_CHECKED int32_t kit_recorder_new(kit_recorder *recorder, size_t capacity);

/* Notes a recording of a value, by an instrument at an attribute set. No writer is looked at: what no instrument takes is refused once a
 * writer takes it in. A set is kept once for all its recordings.
 *
 * Refused, in this order: KIT_NOTHING of the recorder, then of the attributes; KIT_RECORDER_FULL where it has as many recordings as its
 * capacity says; KIT_NO_MEMORY. O(size of the attributes). */
KIT_CHECKED int32_t kit_recorder_measure(kit_recorder *recorder, size_t instrument, KIT_READS kit_attributes *attributes, int64_t value);

/* Notes a recording of a value at the pair of a number, which the writer told that will take the log in.
 *
 * Refused, in this order: KIT_NOTHING; KIT_RECORDER_FULL where it has as many recordings as its capacity says, or where the number is 2^32
 * or more. O(1), takes no memory. */
KIT_CHECKED int32_t kit_recorder_measure_held(kit_recorder *recorder, size_t number, int64_t value);

/* Tells how many recordings a log has.
 *
 * Refused: KIT_NOTHING. O(1), takes no memory. */
KIT_CHECKED int32_t kit_recorder_len(KIT_READS kit_recorder *recorder, size_t *count);

/* Forgets all recordings of a log, which keeps its capacity.
 *
 * Refused: KIT_NOTHING. Takes no memory. */
KIT_CHECKED int32_t kit_recorder_clear(kit_recorder *recorder);

/* Seats are places at a writer that threads share, one for each thread. They wait for nobody, and answer KIT_BUSY while another thread's call
 * has the writer: yield, and try again. The writer lasts as long as a seat does. */

/* Shares a writer: its handle has nothing then, and the seat is the first place at it, which kit_seat_split makes others of, one for each
 * thread. What the writer held stays held, under the same numbers.
 *
 * Refused, in this order: KIT_FULL of the seat; KIT_NOTHING of the writer; KIT_NO_MEMORY. O(size of the plan and the points). */
KIT_CHECKED int32_t kit_writer_share(kit_writer *writer, kit_seat *seat);

/* Records a value at an attribute set by a seat, which is one thread's. It waits for nobody.
 *
 * Refused, in this order: KIT_NOTHING of the seat, then of the attributes; KIT_BUSY where another thread's call has the writer;
 * KIT_EXHAUSTED where it accepted 2^62 changes; then as kit_writer_measure is. Nothing is recorded then, though the seat may have seen what
 * others recorded.
 *
 * In all: KIT_NOTHING, KIT_BUSY, KIT_EXHAUSTED, KIT_CLOSED, KIT_NO_INSTRUMENT, KIT_NEGATIVE, KIT_OVERFLOW, KIT_NO_MEMORY. */
KIT_CHECKED int32_t kit_seat_measure(kit_seat *seat, size_t instrument, KIT_READS kit_attributes *attributes, int64_t value,
                                     uint64_t *place);

/* Records a value by a seat at the pair of a number, whichever seat's call told it.
 *
 * Refused, in this order: KIT_NOTHING; KIT_BUSY where another thread's call has the writer; KIT_EXHAUSTED where it accepted 2^62 changes;
 * then as kit_writer_measure_held is.
 *
 * In all: KIT_NOTHING, KIT_BUSY, KIT_EXHAUSTED, KIT_CLOSED, KIT_NO_HELD, KIT_NEGATIVE, KIT_OVERFLOW, KIT_NO_MEMORY. */
KIT_CHECKED int32_t kit_seat_measure_held(kit_seat *seat, size_t number, int64_t value, uint64_t *place);

/* Holds a pair of an instrument and an attribute set by a seat, and tells its number, which any seat of the writer may use. A seat knows
 * the numbers of the pairs that were held when the writer was shared, of those that it held itself, and those that the seat knew that it
 * was split from. Of such a pair nothing changes, no memory is taken and the writer is not asked for. A pair that another seat held
 * meanwhile gets another number here: both count at the same point, each for as long as the writer lives.
 *
 * Refused, in this order: KIT_NOTHING of the seat, then of the attributes; of a pair that the seat does not know KIT_NO_MEMORY; KIT_BUSY
 * where another thread's call has the writer; KIT_EXHAUSTED where it accepted 2^62 changes; KIT_CLOSED; KIT_NO_INSTRUMENT; KIT_NO_MEMORY. */
KIT_CHECKED int32_t kit_seat_hold(kit_seat *seat, size_t instrument, kit_attributes *attributes, size_t *number);

/* Takes in at most so many recordings of a log by a seat, from its front, as kit_writer_take_in does: by one change, so that others see all
 * of them or none. By pieces other seats get in between.
 *
 * Refused, in this order: KIT_NOTHING of the seat, then of the recorder; KIT_BUSY where another thread's call has the writer; KIT_EXHAUSTED
 * where it accepted 2^62 changes; KIT_CLOSED. The log stays as it is then. */
KIT_CHECKED int32_t kit_seat_take_in(kit_seat *seat, kit_recorder *recorder, size_t most, kit_taken *taken);

/* Makes another seat at the writer, for another thread, which knows the numbers that this one knows.
 *
 * Refused, in this order: KIT_FULL of the new one; KIT_NOTHING; KIT_NO_MEMORY; KIT_BUSY where another thread's call has the writer;
 * KIT_SEATS_FULL where 4,096 seats were made. */
KIT_CHECKED int32_t kit_seat_split(kit_seat *seat, kit_seat *made);

/* Collects the points of the writer by a seat, as an export: all that any seat recorded before it.
 *
 * Refused, in this order: KIT_FULL of the export; KIT_NOTHING; KIT_BUSY where another thread's call has the writer; KIT_EXHAUSTED where it
 * accepted 2^62 changes; then as kit_writer_collect is.
 *
 * In all: KIT_FULL, KIT_NOTHING, KIT_BUSY, KIT_EXHAUSTED, KIT_CLOSED, KIT_TIME_NOT_AFTER, KIT_NO_MEMORY. */
KIT_CHECKED int32_t kit_seat_collect(kit_seat *seat, uint64_t time, kit_export *export_, uint64_t *place);

/* Gateways take exports, in any order and however often each comes, and merge with other gateways. They show no point that a tombstone names,
 * and so forget what an archive adopted. */

/* Opens a gateway without points, under an id. The id is for messages (kit_gateway_send): among gateways that exchange some each has its
 * own, and one that comes back from its bytes needs one that was never used. Under its old id it would not be sent again what it had
 * acknowledged, and nothing would tell.
 *
 * Refused, in this order: KIT_FULL; KIT_NO_MEMORY. */
KIT_CHECKED int32_t kit_gateway_open(kit_gateway *gateway, uint32_t id);

/* Tells the id of a gateway, how many points it holds, and the number of keys at whose time different values came: two writers recorded
 * under one identity.
 *
 * Refused: KIT_NOTHING. O(1), takes no memory. */
KIT_CHECKED int32_t kit_gateway_read(KIT_READS kit_gateway *gateway, uint32_t *id, size_t *points, uint64_t *conflicts);

/* Joins the points of an export, which stays, and forgets what a tombstone then names. It tells the number of keys whose points changed,
 * and whether the export is late: a tombstone that was held before names its incarnation. Of its points only tombstones were taken then,
 * and the number is 0. An export that comes again changes nothing (OpenTelemetry Metrics Data Model, "Single-Writer").
 *
 * Refused, in this order: KIT_NOTHING of the gateway, then of the export; KIT_NO_MEMORY. */
KIT_CHECKED int32_t kit_gateway_take(kit_gateway *gateway, KIT_READS kit_export *export_, uint64_t *changed, bool *late);

/* Joins what another gateway holds, which stays, and forgets what a tombstone then names. It tells the number of keys whose points the join
 * changed. What comes again changes nothing, in whatever order.
 *
 * Refused, in this order: KIT_NOTHING of this gateway, then of the other; KIT_NO_MEMORY. */
KIT_CHECKED int32_t kit_gateway_merge(kit_gateway *gateway, KIT_READS kit_gateway *other, uint64_t *changed);

/* Joins what the bytes bring that kit_gateway_encode made of a gateway, or kit_message_encode of a message, here or in another process. It
 * does so as kit_gateway_merge does: a gateway comes back from its bytes by it, once it was opened under an id that was never used. Who
 * made the bytes is not known here.
 *
 * Refused, in this order: KIT_NOTHING; then for the first thing that is wrong with the bytes, with its place: KIT_TRUNCATED, KIT_BAD_MAGIC,
 * KIT_BAD_VERSION, KIT_NOT_CANONICAL, KIT_NOT_TEXT, KIT_BAD_CHECKSUM, KIT_BAD_EXPORT which tells none; KIT_NO_MEMORY alone where they are
 * such bytes. */
KIT_CHECKED int32_t kit_gateway_merge_bytes(kit_gateway *gateway, const uint8_t *bytes, size_t bytes_len, uint64_t *changed,
                                            uint64_t *place);

/* A gateway's points as bytes, to be kept, and brought back by kit_gateway_merge_bytes: those of a message of all that it holds, from it to
 * itself. The gateway stays; its points are copied once.
 *
 * Refused, in this order: KIT_FULL; KIT_NOTHING; KIT_NO_MEMORY. O(size of the points). */
KIT_CHECKED int32_t kit_gateway_encode(KIT_READS kit_gateway *gateway, kit_bytes *bytes);

/* Tells whether two gateways hold equal points; their ids are not compared.
 *
 * Refused, in this order: KIT_NOTHING of this gateway, then of the other. Takes no memory. */
KIT_CHECKED int32_t kit_gateway_same(KIT_READS kit_gateway *gateway, KIT_READS kit_gateway *other, bool *same);

/* Tells the greatest time that a gateway holds of one incarnation of a service's instance: all that was collected up to then has come. The
 * instance is a UUID as two numbers. O(log n of what is held).
 *
 * Refused, in this order: KIT_NOT_TEXT where the service is no UTF-8; KIT_NOTHING; KIT_NO_POINT where nothing of that incarnation is held;
 * KIT_NO_MEMORY. */
KIT_CHECKED int32_t kit_gateway_newest(KIT_READS kit_gateway *gateway, const uint8_t *service, size_t service_len, uint64_t instance_high,
                                       uint64_t instance_low, uint64_t start, uint64_t *time);

/* Messages, by which gateways tell each other what changed; as bytes for other processes. */

/* A message to the gateway of an id. It carries what changed since the last message of which that gateway's answer was handed here, so a
 * message may be lost, come late or come twice.
 *
 * Refused, in this order: KIT_FULL; KIT_NOTHING; KIT_NO_MEMORY. */
KIT_CHECKED int32_t kit_gateway_send(KIT_READS kit_gateway *gateway, uint32_t to, kit_message *message);

/* Hands a gateway a message, which stays, and forgets what a tombstone then names. It tells whether the message is to be answered: then
 * answer has the message to its sender.
 *
 * Refused, in this order: KIT_FULL of the answer; KIT_NOTHING of the gateway, then of the message; KIT_NOT_ADDRESSED where the message goes
 * to another id; KIT_NO_MEMORY. */
KIT_CHECKED int32_t kit_gateway_hand(kit_gateway *gateway, KIT_READS kit_message *message, kit_message *answer, bool *answered);

/* Tells from which id and to which a message goes, and how many points it carries: an answer carries none.
 *
 * Refused: KIT_NOTHING. Takes no memory. */
KIT_CHECKED int32_t kit_message_read(KIT_READS kit_message *message, uint32_t *from, uint32_t *to, size_t *points);

/* The bytes of a message, which stays: they may go to a gateway in another process. Each message has one form.
 *
 * Refused, in this order: KIT_FULL; KIT_NOTHING; KIT_NO_MEMORY. O(n) in the bytes. */
KIT_CHECKED int32_t kit_message_encode(KIT_READS kit_message *message, kit_bytes *bytes);

/* The message of bytes that kit_message_encode made, here or in another process. Each of its points is one that an export can bring; who
 * made the bytes is not known here.
 *
 * Refused, in this order: KIT_FULL; then for the first thing that is wrong with the bytes, with its place: KIT_TRUNCATED, KIT_BAD_MAGIC,
 * KIT_BAD_VERSION, KIT_NOT_CANONICAL, KIT_NOT_TEXT, KIT_BAD_CHECKSUM, KIT_BAD_EXPORT which tells none; KIT_NO_MEMORY alone where they are
 * such a message's. */
KIT_CHECKED int32_t kit_message_decode(kit_message *message, const uint8_t *bytes, size_t bytes_len, uint64_t *place);

/* What an export tells beside its points, and its bytes, for other processes: each export has one form, and no other bytes are read. */

/* Tells who made an export, its instance as two numbers, and of when and how many points it is: so that who takes it in from another
 * process can compare it with what is known of that one. kit_export_service tells the service.
 *
 * Refused: KIT_NOTHING. O(1), takes no memory. */
KIT_CHECKED int32_t kit_export_read(KIT_READS kit_export *export_, uint64_t *instance_high, uint64_t *instance_low, uint64_t *start,
                                    uint64_t *time, size_t *points);

/* Copies the front of the service of an export's writer that has room, and tells in len how many bytes it has, in UTF-8 and with no 0 at
 * its end.
 *
 * Refused: KIT_NOTHING. Takes no memory. */
KIT_CHECKED int32_t kit_export_service(KIT_READS kit_export *export_, uint8_t *into, size_t room, size_t *len);

/* The bytes of an export, which stays: they may go to another process. Each export has one form.
 *
 * Refused, in this order: KIT_FULL; KIT_NOTHING; KIT_NO_MEMORY. */
KIT_CHECKED int32_t kit_export_encode(KIT_READS kit_export *export_, kit_bytes *bytes);

/* Copies the front of bytes that has room, and tells in len how many there are. They stay.
 *
 * Refused: KIT_NOTHING. Takes no memory. */
KIT_CHECKED int32_t kit_bytes_copy(KIT_READS kit_bytes *bytes, uint8_t *into, size_t room, size_t *len);

/* The export of bytes that kit_export_encode made, here or in another process.
 *
 * Refused, in this order: KIT_FULL; then for the first thing that is wrong with the bytes, with its place: KIT_TRUNCATED, KIT_BAD_MAGIC,
 * KIT_BAD_VERSION, KIT_NOT_CANONICAL, KIT_NOT_TEXT, KIT_BAD_CHECKSUM, KIT_BAD_EXPORT which tells none; KIT_NO_MEMORY alone where they are
 * an export's. */
KIT_CHECKED int32_t kit_export_decode(kit_export *export_, const uint8_t *bytes, size_t bytes_len, uint64_t *place);

/* Archives adopt ended incarnations of others: their points are those that they adopted, added up, and a tombstone for each. */

/* Begins an archive that adopted nothing, with at most so many totals, of which each is a stream's at an attribute set. It is a writer of
 * its own: the instance is a UUID as two numbers, drawn anew, which no other writer has, archives among them. The start is in nanoseconds
 * since the Unix epoch. Let it be 1, before each worker's. Of two metrics that claim one name a page shows the youngest incarnation's. So
 * an archive that begins later than the workers can hide a live metric by one of an old plan that it adopted.
 *
 * Refused, in this order: KIT_FULL; KIT_NOT_TEXT where the service is no UTF-8; KIT_NO_MEMORY. */
KIT_CHECKED int32_t kit_archive_begin(kit_archive *archive, const uint8_t *service, size_t service_len, uint64_t instance_high,
                                      uint64_t instance_low, uint64_t start, size_t limit);

/* Adopts an incarnation of a service's instance from what a gateway, which stays, holds of it: adds the sums and the histograms to the
 * archive's own, and notes that it did. Gauges are not adopted. It is for incarnations that have ended: what one exports later is not
 * counted.
 *
 * Refused, in this order: KIT_NOT_TEXT where the service is no UTF-8; KIT_NOTHING of the archive, then of the gateway; KIT_OTHER_SERVICE;
 * KIT_IS_ARCHIVE; KIT_ADOPTED where this archive did so before; KIT_NO_POINT where nothing of it is held; KIT_CONFLICT where different
 * values of one time came; KIT_TORN where its points are of several times; KIT_UNSOUND where no export has them; KIT_OUT_OF_RANGE where its
 * start or its time is 2^63 - 1 or later, or a total would leave its range; KIT_SET_LIMIT; KIT_NO_MEMORY. The service is copied before the
 * archive is asked, so want of memory for that may be told in place of what follows KIT_NOTHING. */
KIT_CHECKED int32_t kit_archive_adopt(kit_archive *archive, KIT_READS kit_gateway *gateway, const uint8_t *service, size_t service_len,
                                      uint64_t instance_high, uint64_t instance_low, uint64_t start);

/* The points of an archive at a time, as an export: all totals, and a tombstone for each incarnation that it adopted since it began or was
 * sealed. Exports are cumulative, so a lost one is covered by the next.
 *
 * Refused, in this order: KIT_FULL; KIT_NOTHING; KIT_TIME_NOT_LATER than the last export, or than the start before the first;
 * KIT_NO_MEMORY. O(size of the points). */
KIT_CHECKED int32_t kit_archive_export(kit_archive *archive, uint64_t time, kit_export *export_);

/* Seals an archive and begins it anew under a later start, without totals. What it adopted it does not adopt again. What it exported stays,
 * wherever it was taken, and is exported no more: so keep the last export until it has come where it is to.
 *
 * Refused, in this order: KIT_NOTHING; KIT_START_NOT_LATER than the last export, or than the start before the first; KIT_UNEXPORTED where
 * it adopted since its last export. Takes no memory. */
KIT_CHECKED int32_t kit_archive_seal(kit_archive *archive, uint64_t start);

/* Tells the start of an archive, and how many incarnations it adopted since it began or was sealed.
 *
 * Refused: KIT_NOTHING. O(1), takes no memory. */
KIT_CHECKED int32_t kit_archive_read(KIT_READS kit_archive *archive, uint64_t *start, size_t *adopted);

/* What others read: exports as OTLP, and what gateways hold as pages for Prometheus; and exports that others bring by OTLP. */

/* The bytes of the request that brings an export, which stays, to a Collector: the body of a POST to /v1/metrics, with Content-Type:
 * application/x-protobuf (OTLP).
 *
 * Refused, in this order: KIT_FULL; KIT_NOTHING; KIT_OTLP_BOUNDS with the least place of a point whose bounds do not strictly rise as
 * doubles; KIT_TOO_LONG_TEXT, which tells no place, where the service, a scope, a name or a unit has more than 1,024 bytes;
 * KIT_TOO_MANY_ATTRIBUTES with the place of the first point that has more than 128; KIT_TOO_LONG where the request has more than
 * 2,147,483,647 bytes; KIT_NO_MEMORY. O(n) in the bytes. */
KIT_CHECKED int32_t kit_export_otlp(KIT_READS kit_export *export_, kit_bytes *bytes, uint64_t *place);

/* The page of what a gateway, which stays, holds, in OpenMetrics 1.0: where only is true, of one service alone, else of all: then the
 * service is not looked at. Only where tombstones is true it has a row for each tombstone, which tells whom an archive adopted; without
 * them the families of the kit's own count none of them either. It answers a request that accepts application/openmetrics-text, with
 * Content-Type: application/openmetrics-text; version=1.0.0; charset=utf-8.
 *
 * Refused, in this order: KIT_FULL; KIT_NOT_TEXT where the service is no UTF-8; KIT_NOTHING; KIT_NO_MEMORY. O(n log n) comparisons of
 * labels. */
KIT_CHECKED int32_t kit_gateway_openmetrics(KIT_READS kit_gateway *gateway, bool only, const uint8_t *service, size_t service_len,
                                            bool tombstones, kit_text *text);

/* The same page in Prometheus' text format 0.0.4, with Content-Type: text/plain; version=0.0.4; charset=utf-8: for all other requests, for
 * a Pushgateway, and for files.
 *
 * Refused, in this order: KIT_FULL; KIT_NOT_TEXT where the service is no UTF-8; KIT_NOTHING; KIT_NO_MEMORY. O(n log n) comparisons of
 * labels. */
KIT_CHECKED int32_t kit_gateway_prometheus(KIT_READS kit_gateway *gateway, bool only, const uint8_t *service, size_t service_len,
                                           bool tombstones, kit_text *text);

/* The exports that the body of a POST to /v1/metrics brings (OTLP, with Content-Type: application/x-protobuf). Who made the bytes is not
 * known here: of whom each export is, kit_export_read and kit_export_service tell.
 *
 * Refused, in this order: KIT_FULL; then for the first thing that is wrong with the bytes, with its place: KIT_MALFORMED, KIT_NOT_TEXT,
 * KIT_TOO_LONG_TEXT; then for the first that they say and that no export has, in the order of the request, with the place of the resource,
 * scope, metric, point or export: KIT_NO_SERVICE to KIT_NO_EXPORT, KIT_TOO_MANY_ATTRIBUTES; KIT_RESERVED_POINT with the place of the first
 * export that has a point in the scope kotskhin.archive, which would hide points of others; KIT_NO_MEMORY. */
KIT_CHECKED int32_t kit_exports_of_otlp(kit_exports *exports, const uint8_t *bytes, size_t bytes_len, uint64_t *place);

/* Tells how many exports there are: they are numbered from 0.
 *
 * Refused: KIT_NOTHING. O(1), takes no memory. */
KIT_CHECKED int32_t kit_exports_len(KIT_READS kit_exports *exports, size_t *count);

/* The export of a number. The exports stay.
 *
 * Refused, in this order: KIT_FULL; KIT_NOTHING of the exports; KIT_NO_ITEM where there is no export of this number; KIT_NO_MEMORY. */
KIT_CHECKED int32_t kit_exports_read(KIT_READS kit_exports *exports, size_t number, kit_export *export_);

/* Asks of a gateway, the rows that it answers with, and their table. */

/* Asks for the points of a sum: of all services, with a row for each attribute set. The name is taken without regard to case, as plans take
 * it; scope and unit stand as they are.
 *
 * Refused, in this order: KIT_FULL; KIT_NOT_TEXT where the scope, the name or the unit is no UTF-8; KIT_NO_MEMORY. */
KIT_CHECKED int32_t kit_ask_sum(kit_ask *ask, const uint8_t *scope, size_t scope_len, const uint8_t *name, size_t name_len,
                                const uint8_t *unit, size_t unit_len, bool monotonic);

/* Asks for the points of a gauge: of all services, with a row for each attribute set.
 *
 * Refused as kit_ask_sum is.
 *
 * In all: KIT_FULL, KIT_NOT_TEXT, KIT_NO_MEMORY. */
KIT_CHECKED int32_t kit_ask_gauge(kit_ask *ask, const uint8_t *scope, size_t scope_len, const uint8_t *name, size_t name_len,
                                  const uint8_t *unit, size_t unit_len);

/* Asks for the points of a histogram of these bounds: of all services, with a row for each attribute set.
 *
 * Refused as kit_ask_sum is.
 *
 * In all: KIT_FULL, KIT_NOT_TEXT, KIT_NO_MEMORY. */
KIT_CHECKED int32_t kit_ask_histogram(kit_ask *ask, const uint8_t *scope, size_t scope_len, const uint8_t *name, size_t name_len,
                                      const uint8_t *unit, size_t unit_len, const int64_t *bounds, size_t bounds_len);

/* From now on an ask is of the points of one service's writers.
 *
 * Refused, in this order: KIT_NOT_TEXT; KIT_NOTHING; KIT_NO_MEMORY. */
KIT_CHECKED int32_t kit_ask_service(kit_ask *ask, const uint8_t *service, size_t service_len);

/* From now on an ask is of the points whose attributes have each of these pairs, which stay.
 *
 * Refused, in this order: KIT_NOTHING of the ask; KIT_NO_MEMORY. */
KIT_CHECKED int32_t kit_ask_only(kit_ask *ask, KIT_READS kit_pairs *pairs);

/* From now on an ask's rows are told apart by these keys alone, which stay; by none where their handle has nothing.
 *
 * Refused, in this order: KIT_NOTHING of the ask; KIT_NO_MEMORY. */
KIT_CHECKED int32_t kit_ask_keep(kit_ask *ask, KIT_READS kit_keys *keys);

/* The rows that a gateway answers an ask with. Both stay.
 *
 * Refused, in this order: KIT_FULL; KIT_NOTHING of the gateway, then of the ask; KIT_NO_MEMORY. Of n points and r rows O(n log r)
 * comparisons of sets. */
KIT_CHECKED int32_t kit_gateway_rows(KIT_READS kit_gateway *gateway, KIT_READS kit_ask *ask, kit_rows *rows);

/* The table of rows, as a text. The rows stay.
 *
 * Refused, in this order: KIT_FULL; KIT_NOTHING; KIT_NO_MEMORY. */
KIT_CHECKED int32_t kit_rows_table(KIT_READS kit_rows *rows, kit_text *text);

/* Streams: what can be asked for. */

/* The streams of a plan, which stays, under the numbers that KIT_OVERFLOW tells.
 *
 * Refused, in this order: KIT_FULL; KIT_NOTHING; KIT_NO_MEMORY. O(streams). */
KIT_CHECKED int32_t kit_plan_streams(KIT_READS kit_plan *plan, kit_streams *streams);

/* The streams of the points of an export, which stays: each once, in the order in which the points name them first.
 *
 * Refused, in this order: KIT_FULL; KIT_NOTHING; KIT_NO_MEMORY. O(points), and memory for the streams alone. */
KIT_CHECKED int32_t kit_export_streams(KIT_READS kit_export *export_, kit_streams *streams);

/* The streams of which a gateway, which stays, holds points: each once, in the order in which the points' keys name them first.
 *
 * Refused, in this order: KIT_FULL; KIT_NOTHING; KIT_NO_MEMORY. O(points), and memory for the streams alone. */
KIT_CHECKED int32_t kit_gateway_streams(KIT_READS kit_gateway *gateway, kit_streams *streams);

/* Tells how many streams there are: they are numbered from 0.
 *
 * Refused: KIT_NOTHING. O(1), takes no memory. */
KIT_CHECKED int32_t kit_streams_len(KIT_READS kit_streams *streams, size_t *count);

/* Copies the front of a text of a stream that has room, and tells in len how many bytes the whole text has, in UTF-8 and with no 0 at its
 * end. The text is 0 the scope, 1 the name, 2 the unit.
 *
 * Refused, in this order: KIT_NOTHING; KIT_NO_ITEM where there is no stream of this number; KIT_BAD_NUMBER where the text is none of these.
 * Takes no memory. */
KIT_CHECKED int32_t kit_streams_text(KIT_READS kit_streams *streams, size_t number, uint8_t part, uint8_t *into, size_t room, size_t *len);

/* Tells the shape of a stream, 0 a sum that only rises, 1 a sum, 2 a gauge, 3 a histogram, and how many bounds it has: only a histogram has
 * some.
 *
 * Refused, in this order: KIT_NOTHING; KIT_NO_ITEM where there is no stream of this number. O(1), takes no memory. */
KIT_CHECKED int32_t kit_streams_shape(KIT_READS kit_streams *streams, size_t number, uint8_t *shape, size_t *bounds);

/* Copies the front of the bounds of a stream that has room, and tells in len how many there are: only a histogram has some.
 *
 * Refused, in this order: KIT_NOTHING; KIT_NO_ITEM where there is no stream of this number. Takes no memory. */
KIT_CHECKED int32_t kit_streams_bounds(KIT_READS kit_streams *streams, size_t number, int64_t *into, size_t room, size_t *len);

/* Asks for the points of a stream: of all services, with a row for each attribute set. The streams stay.
 *
 * Refused, in this order: KIT_FULL; KIT_NOTHING of the streams; KIT_NO_ITEM where there is no stream of this number; KIT_NO_MEMORY. */
KIT_CHECKED int32_t kit_ask_stream(kit_ask *ask, KIT_READS kit_streams *streams, size_t number);

/* Copies the front of the bounds that has room of a histogram for which no view says others, and answers how many there are: 15
 * (OpenTelemetry Metrics SDK, "Explicit Bucket Histogram Aggregation"). */
KIT_CALL size_t kit_default_bounds(int64_t *into, size_t room);

/* Incarnations and services: of whom a gateway holds points, or a message carries some. */

/* The incarnations of which a gateway, which stays, holds points: each once, by service, instance and start. All of a service are side by
 * side.
 *
 * Refused, in this order: KIT_FULL; KIT_NOTHING; KIT_NO_MEMORY. O(incarnations). */
KIT_CHECKED int32_t kit_gateway_incarnations(KIT_READS kit_gateway *gateway, kit_incarnations *incarnations);

/* The incarnations of which a message, which stays, carries points, in the same order: who receives it compares them with those of which
 * its sender may speak, before a gateway is handed it.
 *
 * Refused, in this order: KIT_FULL; KIT_NOTHING; KIT_NO_MEMORY. O(incarnations). */
KIT_CHECKED int32_t kit_message_incarnations(KIT_READS kit_message *message, kit_incarnations *incarnations);

/* Tells how many incarnations there are: they are numbered from 0.
 *
 * Refused: KIT_NOTHING. O(1), takes no memory. */
KIT_CHECKED int32_t kit_incarnations_len(KIT_READS kit_incarnations *incarnations, size_t *count);

/* Tells the instance of an incarnation as two numbers, its start, the greatest time of its points, and how many points of it there are.
 * kit_incarnations_service tells the service.
 *
 * Refused, in this order: KIT_NOTHING; KIT_NO_ITEM where there is no incarnation of this number. O(1), takes no memory. */
KIT_CHECKED int32_t kit_incarnations_read(KIT_READS kit_incarnations *incarnations, size_t number, uint64_t *instance_high,
                                          uint64_t *instance_low, uint64_t *start, uint64_t *newest, size_t *points);

/* Copies the front of the service of an incarnation that has room, and tells in len how many bytes it has, in UTF-8 and with no 0 at its
 * end.
 *
 * Refused, in this order: KIT_NOTHING; KIT_NO_ITEM where there is no incarnation of this number. Takes no memory. */
KIT_CHECKED int32_t kit_incarnations_service(KIT_READS kit_incarnations *incarnations, size_t number, uint8_t *into, size_t room,
                                             size_t *len);

/* Copies the front of a service that has room, of those of which a gateway holds points, and tells in len how many bytes it has, in UTF-8
 * and with no 0 at its end. They are numbered from 0, each once, in order.
 *
 * Refused, in this order: KIT_NOTHING; KIT_NO_ITEM where there is no service of this number: so whoever wants all reads on until then. O(m)
 * of m incarnations, takes no memory. */
KIT_CHECKED int32_t kit_gateway_service(KIT_READS kit_gateway *gateway, size_t number, uint8_t *into, size_t room, size_t *len);

/* Rows as numbers. */

/* Tells how many rows there are: they are numbered from 0, in the order of their attribute sets.
 *
 * Refused: KIT_NOTHING. Takes no memory. */
KIT_CHECKED int32_t kit_rows_len(KIT_READS kit_rows *rows, size_t *count);

/* The attributes that a row is of, as a set of their own: its labels. The rows stay.
 *
 * Refused, in this order: KIT_FULL; KIT_NOTHING; KIT_NO_ROW; KIT_NO_MEMORY. O(size of the attributes). */
KIT_CHECKED int32_t kit_rows_attributes(KIT_READS kit_rows *rows, size_t number, kit_attributes *attributes);

/* Tells a row as numbers. kit_rows_attributes tells its labels, kit_rows_buckets the buckets of a histogram.
 *
 * Refused, in this order: KIT_NOTHING; KIT_NO_ROW. O(1), takes no memory. */
KIT_CHECKED int32_t kit_rows_read(KIT_READS kit_rows *rows, size_t number, kit_row *row);

/* Copies the front of the buckets of a row that has room, each as how many values it has, and tells in len how many there are: only a
 * histogram has some. A bucket has the values up to the bound of its number and above the one before it, and the last one those above all
 * bounds.
 *
 * Refused, in this order: KIT_NOTHING; KIT_NO_ROW. Takes no memory. */
KIT_CHECKED int32_t kit_rows_buckets(KIT_READS kit_rows *rows, size_t number, kit_count *into, size_t room, size_t *len);

/* Texts. */

/* Copies the front of a text that has room, and tells in len how many bytes the whole text has, in UTF-8 and with no 0 at its end. The text
 * stays.
 *
 * Refused: KIT_NOTHING. Takes no memory. */
KIT_CHECKED int32_t kit_text_copy(KIT_READS kit_text *text, uint8_t *into, size_t room, size_t *len);

#ifdef __cplusplus
}
#endif
#endif
