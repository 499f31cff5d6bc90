/* One writer under a lock of the host, one writer for each thread, one writer with a seat for each, which also takes logs in by pieces, and
 * one that takes in a log of each now and then: each comes to all recordings, and no collection that is made meanwhile has fewer than one
 * before. Exits with the number of the first check that fails, or 0. */
#include <kotskhin.h>
#include <pthread.h>
#include <sched.h>
#include <stdio.h>
#include <string.h>

#define TEXT(s) (const uint8_t *)(s), sizeof(s) - 1
enum { THREADS = 4, TIMES = 25000, OFTEN = 1000, PIECE = 300 };

static pthread_mutex_t lock = PTHREAD_MUTEX_INITIALIZER;
static pthread_mutex_t gathered_lock = PTHREAD_MUTEX_INITIALIZER;
static kit_plan plan;
static kit_writer shared, gathered, own[THREADS];
static kit_seat seats[THREADS];
static kit_recorder recorders[THREADS];

/* The writer that gathers takes in what a log has. */
static bool gather(kit_recorder *recorder) {
    kit_taken taken;
    pthread_mutex_lock(&gathered_lock);
    int32_t code = kit_writer_take_in(&gathered, recorder, SIZE_MAX, &taken);
    pthread_mutex_unlock(&gathered_lock);
    return !code && taken.recorded == OFTEN && !taken.refused;
}

/* The writer that is shared takes in a log by pieces. */
static bool give(kit_seat *seat, kit_recorder *recorder) {
    kit_taken taken = {0};
    for (size_t left = OFTEN; left; left -= taken.recorded) {
        int32_t code;
        while ((code = kit_seat_take_in(seat, recorder, PIECE, &taken)) == KIT_BUSY) {
            sched_yield();
        }
        if (code || taken.refused || taken.recorded != (left < PIECE ? left : PIECE)) return false;
    }
    return true;
}

static void *work(void *at) {
    kit_writer *mine = at;
    kit_seat *seat = &seats[mine - own];
    kit_recorder *recorder = &recorders[mine - own];
    kit_pairs pairs = KIT_EMPTY;
    kit_attributes none = KIT_EMPTY;
    kit_recorder log = KIT_EMPTY; /* attributes are this thread's own */
    size_t number = 0;
    uint64_t place = 0;
    if (kit_attributes_make(&none, &pairs, &place) || kit_recorder_new(&log, OFTEN)) return "attributes";
    int32_t code;
    while ((code = kit_seat_hold(seat, 0, &none, &number)) == KIT_BUSY) {
        sched_yield();
    }
    if (code) return "hold";
    for (int i = 0; i < TIMES; i++) {
        pthread_mutex_lock(&lock);
        code = kit_writer_measure(&shared, 0, &none, 1, &place);
        pthread_mutex_unlock(&lock);
        if (code || kit_writer_measure(mine, 0, &none, 1, &place)) return "measure";
        while ((code = kit_seat_measure(seat, 0, &none, 1, &place)) == KIT_BUSY) {
            sched_yield();
        }
        if (code || kit_recorder_measure_held(&log, number, 1)) return "seat";
        if (kit_recorder_measure_held(recorder, 0, 1)) return "recorder";
        if (i % OFTEN == OFTEN - 1 && (!gather(recorder) || !give(seat, &log))) return "take in";
    }
    kit_attributes_free(&none), kit_recorder_free(&log);
    return NULL;
}

static int bring(kit_writer *writer, kit_gateway *gateway) {
    kit_export collected = KIT_EMPTY;
    uint64_t place = 0, changed = 0;
    bool late = false;
    int32_t code = kit_writer_collect(writer, 200, &collected, &place);
    code = code ? code : kit_gateway_take(gateway, &collected, &changed, &late);
    kit_export_free(&collected), kit_writer_free(writer);
    return code;
}

/* Collects from the writer that gathers, and brings the points. */
static int bring_gathered(uint64_t time, kit_gateway *gateway) {
    kit_export collected = KIT_EMPTY;
    uint64_t place = 0, changed = 0;
    bool late = false;
    pthread_mutex_lock(&gathered_lock);
    int32_t code = kit_writer_collect(&gathered, time, &collected, &place);
    pthread_mutex_unlock(&gathered_lock);
    code = code ? code : kit_gateway_take(gateway, &collected, &changed, &late);
    kit_export_free(&collected);
    return code;
}

/* Collects by a seat, and brings the points. */
static int bring_by_seat(kit_seat *seat, uint64_t time, kit_gateway *gateway) {
    kit_export collected = KIT_EMPTY;
    uint64_t place = 0, changed = 0;
    bool late = false;
    int32_t code;
    while ((code = kit_seat_collect(seat, time, &collected, &place)) == KIT_BUSY) {
        sched_yield();
    }
    code = code ? code : kit_gateway_take(gateway, &collected, &changed, &late);
    kit_export_free(&collected);
    return code;
}

/* The total of the counter that a gateway has, or -1. */
static int64_t total(kit_gateway *gateway) {
    kit_ask ask = KIT_EMPTY;
    kit_rows rows = KIT_EMPTY;
    kit_row row = {0};
    int64_t told = -1;
    size_t count = 0;
    if (!kit_ask_sum(&ask, TEXT("app"), TEXT("requests"), TEXT("1"), true) && !kit_gateway_rows(gateway, &ask, &rows) &&
        !kit_rows_len(&rows, &count)) {
        told = count && kit_rows_read(&rows, 0, &row) ? -1 : (int64_t)row.sum_low;
    }
    kit_ask_free(&ask), kit_rows_free(&rows);
    return told;
}

static bool tells(kit_gateway *gateway, const char *end) {
    kit_ask ask = KIT_EMPTY;
    kit_rows rows = KIT_EMPTY;
    kit_text table = KIT_EMPTY;
    uint8_t text[1024];
    size_t len = 0;
    bool fits = !kit_ask_sum(&ask, TEXT("app"), TEXT("requests"), TEXT("1"), true) && !kit_gateway_rows(gateway, &ask, &rows) &&
                !kit_rows_table(&rows, &table) && !kit_text_copy(&table, text, sizeof text, &len) && len <= sizeof text &&
                len >= strlen(end) && !memcmp(text + len - strlen(end), end, strlen(end));
    kit_ask_free(&ask), kit_rows_free(&rows), kit_text_free(&table), kit_gateway_free(gateway);
    return fits;
}

int main(void) {
    kit_gateway one = KIT_EMPTY, four = KIT_EMPTY, seated = KIT_EMPTY;
    kit_writer seated_writer = KIT_EMPTY;
    kit_seat first = KIT_EMPTY;
    kit_instruments instruments = KIT_EMPTY;
    kit_views views = KIT_EMPTY;
    kit_pairs pairs = KIT_EMPTY;
    kit_gateway whole = KIT_EMPTY;
    kit_attributes none = KIT_EMPTY;
    size_t number = 0;
    pthread_t threads[THREADS];
    uint64_t place = 0, second = 0;
    if (kit_instruments_add(&instruments, TEXT("app"), TEXT("requests"), TEXT("1"), KIT_COUNTER)) return 1;
    if (kit_plan_build(&plan, &instruments, &views, KIT_DEFAULT_LIMIT, &place, &second)) return 2;
    kit_instruments_free(&instruments);
    if (kit_writer_start(&shared, &plan, TEXT("shop"), 0, 9, 100)) return 3;
    if (kit_gateway_open(&one, 1) || kit_gateway_open(&four, 2)) return 4;
    for (int i = 0; i < THREADS; i++) {
        if (kit_writer_start(&own[i], &plan, TEXT("shop"), 0, i + 1, 100)) return 5;
    }
    if (kit_writer_start(&seated_writer, &plan, TEXT("shop"), 0, 99, 100) || kit_writer_share(&seated_writer, &first)) return 12;
    if (kit_gateway_open(&seated, 3)) return 12;
    for (int i = 0; i < THREADS; i++) {
        if (kit_seat_split(&first, &seats[i])) return 13;
    }
    if (kit_writer_start(&gathered, &plan, TEXT("shop"), 0, 98, 100) || kit_gateway_open(&whole, 4)) return 17;
    if (kit_attributes_make(&none, &pairs, &place) || kit_writer_hold(&gathered, 0, &none, &number) || number) return 18;
    for (int i = 0; i < THREADS; i++) {
        if (kit_recorder_new(&recorders[i], OFTEN)) return 19;
    }
    for (int i = 0; i < THREADS; i++) {
        if (pthread_create(&threads[i], NULL, work, &own[i])) return 6;
    }
    int64_t before = 0, gathered_before = 0;
    for (uint64_t time = 101; time < 120; time++) {
        if (bring_by_seat(&first, time, &seated)) return 14;
        int64_t now = total(&seated);
        if (now < before) return 15;
        before = now;
        if (bring_gathered(time, &whole)) return 20;
        now = total(&whole);
        if (now < gathered_before || now % OFTEN) return 21; /* (each was taken in whole) */
        gathered_before = now;
    }
    for (int i = 0; i < THREADS; i++) {
        void *why = NULL;
        if (pthread_join(threads[i], &why) || why) return 7;
        if (bring(&own[i], &four)) return 8;
    }
    if (bring(&shared, &one)) return 9;
    if (!tells(&one, "  1          0  100000\n")) return 10;
    if (!tells(&four, "  4          0  100000\n")) return 11;
    for (int i = 0; i < THREADS; i++) {
        kit_seat_free(&seats[i]);
        size_t left = 77;
        if (kit_recorder_len(&recorders[i], &left) || left) return 22;
        kit_recorder_free(&recorders[i]);
    }
    if (bring_gathered(200, &whole) || total(&whole) != 100000) return 23;
    kit_writer_free(&gathered), kit_gateway_free(&whole), kit_attributes_free(&none);
    if (bring_by_seat(&first, 200, &seated) || total(&seated) != 200000) return 16;
    kit_seat_free(&first), kit_gateway_free(&seated), kit_plan_free(&plan);
    return 0;
}
