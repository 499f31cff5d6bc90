/* Every call of the header that has handles, by one table: what it does with each, and a thing of each kind. handles.c and reads.c try them. */
#ifndef CALLS_H
#define CALLS_H

#include <kotskhin.h>
#include <stdio.h>
#include <stdlib.h>
#include <string.h>

#define TEXT(s) (const uint8_t *)(s), sizeof(s) - 1
#define MUST(call)                                                        \
    do {                                                                  \
        if (call) {                                                       \
            printf("line %d: %s is refused\n", __LINE__, #call);          \
            exit(1);                                                      \
        }                                                                 \
    } while (0)

/* What a handle can have. */
enum kind {
    NOTHING, PAIRS, ATTRIBUTES, STREAMS, INSTRUMENTS, VIEW, VIEWS, KEYS, PLAN, WRITER, EXPORT, EXPORTS, GATEWAY, MESSAGE, ARCHIVE, SEAT,
    RECORDER, ASK, INCARNATIONS, TOLD_TEXT, BYTES, ROWS, KINDS
};

/* How a call has a handle: something must be there and is changed, or may be; it is empty and is filled; or what is there is only read. */
enum part { THERE = 1, OPENS, FILLED, READ, MAY_READ };

struct hand {
    enum part part;
    enum kind kind;
};

enum { MOST = 3 };

struct row {
    const char *name;
    int32_t (*call)(kit_handle **h);
    struct hand hands[MOST];
};

static const int64_t bounds[] = {10, 20};
/* (each thread has its own) */
static _Thread_local uint64_t place, second, third, fourth;
static _Thread_local size_t size;
static _Thread_local int64_t whole, some_bounds[4];
static _Thread_local kit_row told_row;
static _Thread_local kit_count some_counts[4];
static _Thread_local uint8_t shape;
static _Thread_local bool truth;
static _Thread_local uint32_t id, other_id;
static _Thread_local uint8_t room[256];
/* The bytes of an export, of a message, and of a request. */
static uint8_t encoded[1024], told[1024], posted[1024];
static size_t encoded_len, told_len, posted_len;
static _Thread_local kit_taken taken;

/* A thing of a kind in an empty handle: of the scope app the counter requests, at no attributes 7, from shop since 100 at 200. */
static void make(enum kind kind, kit_handle *made) {
    kit_handle one = {0}, two = {0}, three = {0};
    switch (kind) {
    case PAIRS: MUST(kit_pairs_add_whole((void *)made, TEXT("status"), 200)); break;
    case ATTRIBUTES:
        MUST(kit_pairs_add_text((void *)&one, TEXT("route"), TEXT("/cart")));
        MUST(kit_attributes_make((void *)made, (void *)&one, &place));
        break;
    case STREAMS:
        make(PLAN, &one);
        MUST(kit_plan_streams((void *)&one, (void *)made));
        break;
    case INSTRUMENTS:
        MUST(kit_instruments_add((void *)made, TEXT("app"), TEXT("requests"), TEXT("1"), KIT_COUNTER));
        MUST(kit_instruments_add((void *)made, TEXT("app"), TEXT("depth"), TEXT("1"), KIT_GAUGE));
        MUST(kit_instruments_add((void *)made, TEXT("app"), TEXT("size"), TEXT("By"), KIT_HISTOGRAM));
        break;
    case VIEW:
        MUST(kit_view_of_name((void *)made, TEXT("size")));
        MUST(kit_view_buckets((void *)made, bounds, 2));
        break;
    case VIEWS:
        make(VIEW, &one);
        MUST(kit_views_add((void *)made, (void *)&one));
        break;
    case KEYS: MUST(kit_keys_add((void *)made, TEXT("status"))); break;
    case PLAN:
        make(INSTRUMENTS, &one), make(VIEWS, &two);
        MUST(kit_plan_build((void *)made, (void *)&one, (void *)&two, KIT_DEFAULT_LIMIT, &place, &second));
        break;
    case WRITER:
        make(PLAN, &one), make(ATTRIBUTES, &two);
        MUST(kit_writer_start((void *)made, (void *)&one, TEXT("shop"), 0, 1, 100));
        MUST(kit_writer_hold((void *)made, 0, (void *)&two, &size));
        for (size_t instrument = 0; instrument < 3; instrument++) MUST(kit_writer_measure((void *)made, instrument, (void *)&two, 7, &place));
        break;
    case EXPORT:
        make(WRITER, &one);
        MUST(kit_writer_collect((void *)&one, 200, (void *)made, &place));
        break;
    case EXPORTS: MUST(kit_exports_of_otlp((void *)made, posted, posted_len, &place)); break;
    case GATEWAY:
        make(EXPORT, &one);
        MUST(kit_gateway_open((void *)made, 1));
        MUST(kit_gateway_take((void *)made, (void *)&one, &place, &truth));
        break;
    case MESSAGE:
        make(EXPORT, &one);
        MUST(kit_gateway_open((void *)&two, 2));
        MUST(kit_gateway_take((void *)&two, (void *)&one, &place, &truth));
        MUST(kit_gateway_send((void *)&two, 1, (void *)made));
        break;
    case ARCHIVE: MUST(kit_archive_begin((void *)made, TEXT("shop"), 8, 1, 300, 10)); break;
    case SEAT:
        make(WRITER, &one);
        MUST(kit_writer_share((void *)&one, (void *)made));
        break;
    case RECORDER:
        make(ATTRIBUTES, &one);
        MUST(kit_recorder_new((void *)made, 8));
        MUST(kit_recorder_measure((void *)made, 2, (void *)&one, 7));
        MUST(kit_recorder_measure_held((void *)made, 0, 7));
        break;
    case ASK: MUST(kit_ask_sum((void *)made, TEXT("app"), TEXT("requests"), TEXT("1"), true)); break;
    case INCARNATIONS:
        make(GATEWAY, &one);
        MUST(kit_gateway_incarnations((void *)&one, (void *)made));
        break;
    case TOLD_TEXT:
        make(ROWS, &one);
        MUST(kit_rows_table((void *)&one, (void *)made));
        break;
    case BYTES:
        make(EXPORT, &one);
        MUST(kit_export_encode((void *)&one, (void *)made));
        break;
    case ROWS:
        make(GATEWAY, &one);
        MUST(kit_ask_histogram((void *)&two, TEXT("app"), TEXT("size"), TEXT("By"), bounds, 2));
        MUST(kit_gateway_rows((void *)&one, (void *)&two, (void *)made));
        break;
    case NOTHING:
    case KINDS: break;
    }
    kit_free(&one), kit_free(&two), kit_free(&three);
}

/* Each call, with its handles by h and all else as it should be: a cast forces each handle to be of the kind that is wanted. */
#define AS(kind, place) (kit_##kind *)h[place]
#define CALL(name, ...) \
    static int32_t name(kit_handle **h) { return kit_##name(__VA_ARGS__); }
CALL(instruments_add, AS(instruments, 0), TEXT("app"), TEXT("more"), TEXT("1"), KIT_COUNTER)
CALL(keys_add, AS(keys, 0), TEXT("route"))
CALL(view_of_name, AS(view, 0), TEXT("a name of more than thirty bytes of text"))
CALL(view_of_every, AS(view, 0))
CALL(view_kind, AS(view, 0), KIT_COUNTER)
CALL(view_scope, AS(view, 0), TEXT("a scope of more than thirty bytes"))
CALL(view_rename, AS(view, 0), TEXT("a_new_name_of_more_than_thirty_bytes"))
CALL(view_keep, AS(view, 0), AS(keys, 1))
CALL(view_aggregation, AS(view, 0), KIT_DROP)
CALL(view_buckets, AS(view, 0), bounds, 2)
CALL(views_add, AS(views, 0), AS(view, 1))
CALL(plan_build, AS(plan, 0), AS(instruments, 1), AS(views, 2), KIT_DEFAULT_LIMIT, &place, &second)
CALL(pairs_add_text, AS(pairs, 0), TEXT("route"), TEXT("/cart"))
CALL(pairs_add_whole, AS(pairs, 0), TEXT("attempt"), 1)
CALL(pairs_add_truth, AS(pairs, 0), TEXT("cached"), true)
CALL(attributes_make, AS(attributes, 0), AS(pairs, 1), &place)
CALL(writer_start, AS(writer, 0), AS(plan, 1), TEXT("a service of more than thirty bytes"), 0, 1, 100)
CALL(writer_measure, AS(writer, 0), 0, AS(attributes, 1), 1, &place)
CALL(writer_hold, AS(writer, 0), 1, AS(attributes, 1), &size)
CALL(writer_measure_held, AS(writer, 0), 0, 1, &place)
CALL(writer_collect, AS(writer, 0), 300, AS(export, 1), &place)
CALL(writer_shutdown, AS(writer, 0), 300, AS(export, 1), &place)
CALL(writer_restart, AS(writer, 0), 300, &place)
CALL(writer_share, AS(writer, 0), AS(seat, 1))
CALL(seat_split, AS(seat, 0), AS(seat, 1))
CALL(seat_measure, AS(seat, 0), 0, AS(attributes, 1), 1, &place)
CALL(seat_hold, AS(seat, 0), 1, AS(attributes, 1), &size)
CALL(seat_measure_held, AS(seat, 0), 0, 1, &place)
CALL(seat_take_in, AS(seat, 0), AS(recorder, 1), 1, &taken)
CALL(seat_collect, AS(seat, 0), 300, AS(export, 1), &place)
CALL(recorder_new, AS(recorder, 0), 8)
CALL(recorder_measure, AS(recorder, 0), 0, AS(attributes, 1), 1)
CALL(recorder_measure_held, AS(recorder, 0), 0, 1)
CALL(recorder_len, AS(recorder, 0), &size)
CALL(recorder_clear, AS(recorder, 0))
CALL(writer_take_in, AS(writer, 0), AS(recorder, 1), 1, &taken)
CALL(export_encode, AS(export, 0), AS(bytes, 1))
CALL(export_decode, AS(export, 0), encoded, encoded_len, &place)
CALL(bytes_copy, AS(bytes, 0), room, sizeof room, &size)
CALL(gateway_open, AS(gateway, 0), 3)
CALL(gateway_take, AS(gateway, 0), AS(export, 1), &place, &truth)
CALL(gateway_merge, AS(gateway, 0), AS(gateway, 1), &place)
CALL(gateway_newest, AS(gateway, 0), TEXT("shop"), 0, 1, 100, &place)
CALL(gateway_same, AS(gateway, 0), AS(gateway, 1), &truth)
CALL(gateway_merge_bytes, AS(gateway, 0), told, told_len, &place, &second)
CALL(gateway_send, AS(gateway, 0), 5, AS(message, 1))
CALL(gateway_hand, AS(gateway, 0), AS(message, 1), AS(message, 2), &truth)
CALL(message_read, AS(message, 0), &id, &other_id, &size)
CALL(archive_begin, AS(archive, 0), TEXT("a service of more than thirty bytes"), 8, 1, 300, 10)
CALL(archive_adopt, AS(archive, 0), AS(gateway, 1), TEXT("shop"), 0, 1, 100)
CALL(archive_export, AS(archive, 0), 400, AS(export, 1))
CALL(archive_seal, AS(archive, 0), 400)
CALL(archive_read, AS(archive, 0), &place, &size)
CALL(message_encode, AS(message, 0), AS(bytes, 1))
CALL(message_decode, AS(message, 0), told, told_len, &place)
CALL(ask_sum, AS(ask, 0), TEXT("app"), TEXT("requests"), TEXT("1"), true)
CALL(ask_gauge, AS(ask, 0), TEXT("app"), TEXT("depth"), TEXT("1"))
CALL(ask_histogram, AS(ask, 0), TEXT("app"), TEXT("size"), TEXT("By"), bounds, 2)
CALL(ask_service, AS(ask, 0), TEXT("a service of more than thirty bytes"))
CALL(ask_only, AS(ask, 0), AS(pairs, 1))
CALL(ask_keep, AS(ask, 0), AS(keys, 1))
CALL(gateway_rows, AS(gateway, 0), AS(ask, 1), AS(rows, 2))
CALL(rows_table, AS(rows, 0), AS(text, 1))
CALL(rows_len, AS(rows, 0), &size)
CALL(rows_read, AS(rows, 0), 0, &told_row)
CALL(rows_buckets, AS(rows, 0), 0, some_counts, 4, &size)
CALL(text_copy, AS(text, 0), room, sizeof room, &size)
CALL(gateway_read, AS(gateway, 0), &id, &size, &place)
CALL(export_read, AS(export, 0), &place, &second, &third, &fourth, &size)
CALL(export_service, AS(export, 0), room, sizeof room, &size)
CALL(rows_attributes, AS(rows, 0), 0, AS(attributes, 1))
CALL(attributes_len, AS(attributes, 0), &size)
CALL(attributes_key, AS(attributes, 0), 0, room, sizeof room, &size)
CALL(attributes_value, AS(attributes, 0), 0, &shape, &whole)
CALL(attributes_text, AS(attributes, 0), 0, room, sizeof room, &size)
CALL(plan_streams, AS(plan, 0), AS(streams, 1))
CALL(gateway_streams, AS(gateway, 0), AS(streams, 1))
CALL(export_streams, AS(export, 0), AS(streams, 1))
CALL(streams_len, AS(streams, 0), &size)
CALL(streams_text, AS(streams, 0), 0, 1, room, sizeof room, &size)
CALL(streams_shape, AS(streams, 0), 2, &shape, &size)
CALL(streams_bounds, AS(streams, 0), 2, some_bounds, 4, &size)
CALL(ask_stream, AS(ask, 0), AS(streams, 1), 0)
CALL(gateway_encode, AS(gateway, 0), AS(bytes, 1))
CALL(export_otlp, AS(export, 0), AS(bytes, 1), &place)
CALL(exports_of_otlp, AS(exports, 0), posted, posted_len, &place)
CALL(exports_len, AS(exports, 0), &size)
CALL(exports_read, AS(exports, 0), 0, AS(export, 1))
CALL(gateway_openmetrics, AS(gateway, 0), false, TEXT(""), false, AS(text, 1))
CALL(gateway_prometheus, AS(gateway, 0), true, TEXT("shop"), true, AS(text, 1))
CALL(gateway_incarnations, AS(gateway, 0), AS(incarnations, 1))
CALL(message_incarnations, AS(message, 0), AS(incarnations, 1))
CALL(incarnations_len, AS(incarnations, 0), &size)
CALL(incarnations_read, AS(incarnations, 0), 0, &place, &second, &third, &fourth, &size)
CALL(incarnations_service, AS(incarnations, 0), 0, room, sizeof room, &size)
CALL(gateway_service, AS(gateway, 0), 0, room, sizeof room, &size)

#define ROW(name, ...) {#name, name, {__VA_ARGS__}}
static const struct row CALLS[] = {
    ROW(instruments_add, {OPENS, INSTRUMENTS}), ROW(keys_add, {OPENS, KEYS}), ROW(view_of_name, {FILLED, VIEW}),
    ROW(view_of_every, {FILLED, VIEW}), ROW(view_kind, {THERE, VIEW}), ROW(view_scope, {THERE, VIEW}), ROW(view_rename, {THERE, VIEW}),
    ROW(view_keep, {THERE, VIEW}, {MAY_READ, KEYS}), ROW(view_aggregation, {THERE, VIEW}), ROW(view_buckets, {THERE, VIEW}),
    ROW(views_add, {OPENS, VIEWS}, {READ, VIEW}), ROW(plan_build, {FILLED, PLAN}, {MAY_READ, INSTRUMENTS}, {MAY_READ, VIEWS}),
    ROW(pairs_add_text, {OPENS, PAIRS}), ROW(pairs_add_whole, {OPENS, PAIRS}), ROW(pairs_add_truth, {OPENS, PAIRS}),
    ROW(attributes_make, {FILLED, ATTRIBUTES}, {MAY_READ, PAIRS}), ROW(writer_start, {FILLED, WRITER}, {READ, PLAN}),
    ROW(writer_measure, {THERE, WRITER}, {READ, ATTRIBUTES}), ROW(writer_hold, {THERE, WRITER}, {THERE, ATTRIBUTES}),
    ROW(writer_measure_held, {THERE, WRITER}), ROW(writer_collect, {THERE, WRITER}, {FILLED, EXPORT}),
    ROW(writer_shutdown, {THERE, WRITER}, {FILLED, EXPORT}), ROW(writer_restart, {THERE, WRITER}),
    ROW(writer_share, {THERE, WRITER}, {FILLED, SEAT}), ROW(seat_split, {THERE, SEAT}, {FILLED, SEAT}),
    ROW(seat_measure, {THERE, SEAT}, {READ, ATTRIBUTES}), ROW(seat_hold, {THERE, SEAT}, {THERE, ATTRIBUTES}),
    ROW(seat_measure_held, {THERE, SEAT}), ROW(seat_take_in, {THERE, SEAT}, {THERE, RECORDER}),
    ROW(seat_collect, {THERE, SEAT}, {FILLED, EXPORT}), ROW(recorder_new, {FILLED, RECORDER}),
    ROW(recorder_measure, {THERE, RECORDER}, {READ, ATTRIBUTES}), ROW(recorder_measure_held, {THERE, RECORDER}),
    ROW(recorder_len, {READ, RECORDER}), ROW(recorder_clear, {THERE, RECORDER}), ROW(writer_take_in, {THERE, WRITER}, {THERE, RECORDER}),
    ROW(export_encode, {READ, EXPORT}, {FILLED, BYTES}), ROW(export_decode, {FILLED, EXPORT}), ROW(bytes_copy, {READ, BYTES}),
    ROW(gateway_open, {FILLED, GATEWAY}), ROW(gateway_take, {THERE, GATEWAY}, {READ, EXPORT}),
    ROW(gateway_merge, {THERE, GATEWAY}, {READ, GATEWAY}), ROW(gateway_newest, {READ, GATEWAY}),
    ROW(gateway_same, {READ, GATEWAY}, {READ, GATEWAY}), ROW(gateway_merge_bytes, {THERE, GATEWAY}), ROW(gateway_send, {READ, GATEWAY}, {FILLED, MESSAGE}),
    ROW(gateway_hand, {THERE, GATEWAY}, {READ, MESSAGE}, {FILLED, MESSAGE}), ROW(message_read, {READ, MESSAGE}),
    ROW(message_encode, {READ, MESSAGE}, {FILLED, BYTES}), ROW(message_decode, {FILLED, MESSAGE}), ROW(ask_sum, {FILLED, ASK}),
    ROW(ask_gauge, {FILLED, ASK}), ROW(ask_histogram, {FILLED, ASK}), ROW(ask_service, {THERE, ASK}),
    ROW(ask_only, {THERE, ASK}, {MAY_READ, PAIRS}), ROW(ask_keep, {THERE, ASK}, {MAY_READ, KEYS}),
    ROW(gateway_rows, {READ, GATEWAY}, {READ, ASK}, {FILLED, ROWS}), ROW(rows_table, {READ, ROWS}, {FILLED, TOLD_TEXT}),
    ROW(rows_len, {READ, ROWS}), ROW(rows_read, {READ, ROWS}), ROW(rows_buckets, {READ, ROWS}), ROW(text_copy, {READ, TOLD_TEXT}),
    ROW(gateway_read, {READ, GATEWAY}), ROW(export_read, {READ, EXPORT}),
    ROW(export_service, {READ, EXPORT}), ROW(rows_attributes, {READ, ROWS}, {FILLED, ATTRIBUTES}),
    ROW(attributes_len, {READ, ATTRIBUTES}), ROW(attributes_key, {READ, ATTRIBUTES}), ROW(attributes_value, {READ, ATTRIBUTES}),
    ROW(attributes_text, {READ, ATTRIBUTES}), ROW(plan_streams, {READ, PLAN}, {FILLED, STREAMS}), ROW(streams_len, {READ, STREAMS}),
    ROW(streams_text, {READ, STREAMS}), ROW(streams_shape, {READ, STREAMS}), ROW(streams_bounds, {READ, STREAMS}),
    ROW(ask_stream, {FILLED, ASK}, {READ, STREAMS}), ROW(gateway_streams, {READ, GATEWAY}, {FILLED, STREAMS}), ROW(export_streams, {READ, EXPORT}, {FILLED, STREAMS}), ROW(gateway_encode, {READ, GATEWAY}, {FILLED, BYTES}),
    ROW(export_otlp, {READ, EXPORT}, {FILLED, BYTES}),
    ROW(exports_of_otlp, {FILLED, EXPORTS}), ROW(exports_len, {READ, EXPORTS}), ROW(exports_read, {READ, EXPORTS}, {FILLED, EXPORT}),
    ROW(gateway_openmetrics, {READ, GATEWAY}, {FILLED, TOLD_TEXT}), ROW(gateway_prometheus, {READ, GATEWAY}, {FILLED, TOLD_TEXT}),
    ROW(gateway_incarnations, {READ, GATEWAY}, {FILLED, INCARNATIONS}), ROW(message_incarnations, {READ, MESSAGE}, {FILLED, INCARNATIONS}),
    ROW(incarnations_len, {READ, INCARNATIONS}), ROW(incarnations_read, {READ, INCARNATIONS}), ROW(incarnations_service, {READ, INCARNATIONS}),
    ROW(gateway_service, {READ, GATEWAY}), ROW(archive_begin, {FILLED, ARCHIVE}), ROW(archive_adopt, {THERE, ARCHIVE}, {READ, GATEWAY}),
    ROW(archive_export, {THERE, ARCHIVE}, {FILLED, EXPORT}), ROW(archive_seal, {THERE, ARCHIVE}), ROW(archive_read, {READ, ARCHIVE}),
};

static bool is_read(struct hand hand) { return hand.part == READ || hand.part == MAY_READ; }

static int hands_of(const struct row *row) {
    int count = 0;
    while (count < MOST && row->hands[count].part) count++;
    return count;
}

/* The handles of a call while it is tried. */
static _Thread_local kit_handle own[MOST];
static _Thread_local kit_handle *given[MOST];

static void clear(void) {
    for (int i = 0; i < MOST; i++) kit_free(&own[i]);
}

static void expect(const struct row *row, const char *what, int hand, int kind, bool holds) {
    if (holds) return;
    printf("kit_%s: handle %d, kind %d: %s\n", row->name, hand, kind, what);
    exit(1);
}

/* The bytes of an export, of a message and of a request, for the calls that read them. */
static void prepare(void) {
    kit_handle bytes = {0}, message = {0}, made = {0};
    make(BYTES, &bytes), make(MESSAGE, &message), make(EXPORT, &made);
    MUST(kit_bytes_copy((kit_bytes *)&bytes, encoded, sizeof encoded, &encoded_len) || encoded_len > sizeof encoded);
    kit_free(&bytes);
    MUST(kit_message_encode((kit_message *)&message, (kit_bytes *)&bytes));
    MUST(kit_bytes_copy((kit_bytes *)&bytes, told, sizeof told, &told_len) || told_len > sizeof told);
    kit_free(&bytes);
    MUST(kit_export_otlp((kit_export *)&made, (kit_bytes *)&bytes, &place));
    MUST(kit_bytes_copy((kit_bytes *)&bytes, posted, sizeof posted, &posted_len) || posted_len > sizeof posted);
    kit_free(&bytes), kit_free(&message), kit_free(&made);
}

#endif
