/* Logs that are taken in, and held numbers, against recording one by one.
 *
 *     taken_in [LISTS [SEED]]      10,000 lists, and seed 1, where nothing else is said
 *
 * Each list of recordings is split at random between two logs, held numbers and a writer, which takes the logs in by pieces at random
 * moments. A second writer of the same identity records the same, one by one in the order of taking in. What is recorded and what is
 * refused is the same, and so are their exports, byte for byte: totals, ranges and buckets, which sets went to the overflow set, and the
 * order in which sets were seen first. Instruments are of all kinds, one feeds two streams, of which one keeps a key alone, and some limits
 * are reached. There are values below 0, totals that leave their range, instruments and numbers that are not there, logs that are full or
 * cleared, and restarts. In half of the lists the writer is shared. Before that one list whose tables are known, and after it threads with
 * a log each beside one that collects. Prints the first check that does not hold and exits with 1, or exits with 0. */
#include <kotskhin.h>
#include <pthread.h>
#include <stdio.h>
#include <stdlib.h>
#include <string.h>

#define TEXT(s) (const uint8_t *)(s), sizeof(s) - 1
#define CHECK(holds)                                                                                  \
    do {                                                                                              \
        if (!(holds)) {                                                                               \
            printf("list %lu of seed %lu, line %d: %s does not hold\n", list_number, seed, __LINE__, #holds); \
            exit(1);                                                                                  \
        }                                                                                             \
    } while (0)

enum instrument { REQUESTS, SIZE, OPEN, DEPTH, INSTRUMENTS };
/* Streams by their numbers: the first two are those of the requests. */
enum stream { BY_ROUTE, EACH, SIZES, OPENED, DEPTHS, STREAMS };
enum { SETS = 9, PLANS = 4, TWO_SETS = 1, NO_LIMIT = 3, LONGEST = 48, ROOM = 12, THREADS = 4, TIMES = 20000, OFTEN = 500 };
/* A number under which nothing is held. */
enum { NOT_HELD = 1000 };

/* A recording: at a pair, or at a number that stands for nothing. */
struct recording {
    size_t instrument, set;
    int64_t value;
    bool lost;
};

/* What a log has. */
struct list {
    struct recording items[ROOM];
    size_t len;
};

/* A writer with two logs, what they have, and the writer that records one by one. Of each pair the number, and how many have one. */
struct split {
    kit_writer writer, one_by_one;
    kit_seat seat;
    kit_recorder recorders[2];
    bool shared;
    struct list noted[2];
    size_t numbers[INSTRUMENTS][SETS], held;
    bool has_number[INSTRUMENTS][SETS];
    uint64_t time;
};

static unsigned long list_number, seed = 1;
static kit_attributes sets[SETS];
static kit_plan plans[PLANS];
static const uint64_t limits[PLANS] = {1, 2, 3, 100};
/* How often a log was full, a recording was refused, and the overflow set had values. */
static unsigned long full, refused, overflown;

/* Marsaglia, "Xorshift RNGs" (2003). */
static uint64_t random_number(uint64_t below) {
    static uint64_t state;
    if (!state) state = seed * 0x9e3779b97f4a7c15 | 1;
    state ^= state << 13, state ^= state >> 7, state ^= state << 17;
    return (state >> 11) % below;
}

static void make_set(size_t number, const char *route, int64_t status, bool overflow) {
    kit_pairs pairs = KIT_EMPTY;
    uint64_t place = 0;
    if (status) CHECK(!kit_pairs_add_whole(&pairs, TEXT("status"), status));
    if (route) CHECK(!kit_pairs_add_text(&pairs, TEXT("route"), (const uint8_t *)route, strlen(route)));
    if (overflow) CHECK(!kit_pairs_add_truth(&pairs, TEXT("otel.metric.overflow"), true));
    CHECK(!kit_attributes_make(&sets[number], &pairs, &place));
    kit_pairs_free(&pairs);
}

static void make_sets(void) {
    make_set(0, NULL, 0, false), make_set(1, "/", 0, false), make_set(2, "/cart", 0, false);
    make_set(3, "/", 200, false), make_set(4, "/", 500, false), make_set(5, NULL, 200, false);
    make_set(6, "/cart", 200, false), make_set(7, NULL, 0, true), make_set(8, "/", 0, true);
}

/* Views: the requests by route alone, and as they are; the sizes in buckets. */
static void make_plans(void) {
    static const int64_t bounds[] = {2, 5};
    kit_instruments instruments = KIT_EMPTY;
    kit_views list = KIT_EMPTY;
    kit_view views[3] = {KIT_EMPTY, KIT_EMPTY, KIT_EMPTY};
    kit_keys route = KIT_EMPTY;
    uint64_t place = 0, second = 0;
    CHECK(!kit_instruments_add(&instruments, TEXT("app"), TEXT("requests"), TEXT("1"), KIT_COUNTER));
    CHECK(!kit_instruments_add(&instruments, TEXT("app"), TEXT("size"), TEXT("By"), KIT_HISTOGRAM));
    CHECK(!kit_instruments_add(&instruments, TEXT("app"), TEXT("open"), TEXT("1"), KIT_UP_DOWN));
    CHECK(!kit_instruments_add(&instruments, TEXT("app"), TEXT("depth"), TEXT("1"), KIT_GAUGE));
    CHECK(!kit_keys_add(&route, TEXT("route")));
    CHECK(!kit_view_of_name(&views[0], TEXT("requests")) && !kit_view_keep(&views[0], &route));
    CHECK(!kit_view_rename(&views[0], TEXT("by_route")) && !kit_view_of_name(&views[1], TEXT("requests")));
    CHECK(!kit_view_of_name(&views[2], TEXT("size")) && !kit_view_buckets(&views[2], bounds, 2));
    for (int i = 0; i < 3; i++) {
        CHECK(!kit_views_add(&list, &views[i]));
        kit_view_free(&views[i]);
    }
    for (int i = 0; i < PLANS; i++) {
        CHECK(!kit_plan_build(&plans[i], &instruments, &list, limits[i], &place, &second));
    }
    kit_instruments_free(&instruments), kit_views_free(&list), kit_keys_free(&route);
}

static void start(kit_writer *writer, size_t plan) {
    CHECK(!kit_writer_start(writer, &plans[plan], TEXT("shop"), 0, 1, 100));
}

static int32_t measure(kit_writer *writer, struct recording recording, uint64_t *place) {
    if (recording.lost) return kit_writer_measure_held(writer, NOT_HELD, recording.value, place);
    return kit_writer_measure(writer, recording.instrument, &sets[recording.set], recording.value, place);
}

/* The table of a stream at a gateway, which the caller frees. */
static char *table_of(kit_gateway *gateway, enum stream stream) {
    static const int64_t bounds[] = {2, 5};
    kit_ask ask = KIT_EMPTY;
    kit_rows rows = KIT_EMPTY;
    kit_text table = KIT_EMPTY;
    size_t len = 0, room = 4096;
    char *text = calloc(1, room);
    switch (stream) {
    case BY_ROUTE: CHECK(!kit_ask_sum(&ask, TEXT("app"), TEXT("by_route"), TEXT("1"), true)); break;
    case EACH: CHECK(!kit_ask_sum(&ask, TEXT("app"), TEXT("requests"), TEXT("1"), true)); break;
    case SIZES: CHECK(!kit_ask_histogram(&ask, TEXT("app"), TEXT("size"), TEXT("By"), bounds, 2)); break;
    case OPENED: CHECK(!kit_ask_sum(&ask, TEXT("app"), TEXT("open"), TEXT("1"), false)); break;
    default: CHECK(!kit_ask_gauge(&ask, TEXT("app"), TEXT("depth"), TEXT("1")));
    }
    CHECK(text && !kit_gateway_rows(gateway, &ask, &rows) && !kit_rows_table(&rows, &table));
    CHECK(!kit_text_copy(&table, (uint8_t *)text, room - 1, &len) && len < room);
    kit_ask_free(&ask), kit_rows_free(&rows), kit_text_free(&table);
    return text;
}

static bool tells(kit_gateway *gateway, enum stream stream, const char *wanted) {
    char *text = table_of(gateway, stream);
    bool same = !strcmp(text, wanted);
    if (!same) printf("%s", text);
    free(text);
    return same;
}

/* The bytes of an export, which the caller frees, and a gateway that took it. */
static uint8_t *delivered(kit_export *made, size_t *len, kit_gateway *gateway) {
    kit_bytes bytes = KIT_EMPTY;
    uint64_t changed = 0;
    bool late = false;
    CHECK(!kit_export_encode(made, &bytes));
    uint8_t none = 0, *copy = NULL;
    CHECK(!kit_bytes_copy(&bytes, &none, 0, len));
    copy = malloc(*len);
    CHECK(copy && !kit_bytes_copy(&bytes, copy, *len, len));
    CHECK(!kit_gateway_open(gateway, 1) && !kit_gateway_take(gateway, made, &changed, &late));
    kit_export_free(made), kit_bytes_free(&bytes);
    return copy;
}

/* Whether two gateways answer with the same tables; it is counted where the overflow set has a row. */
static void same_tables(kit_gateway *gateway, kit_gateway *other) {
    bool overflows = false;
    for (enum stream stream = 0; stream < STREAMS; stream++) {
        char *table = table_of(gateway, stream);
        CHECK(tells(other, stream, table));
        overflows = overflows || strstr(table, "{otel.metric.overflow=true}");
        free(table);
    }
    overflown += overflows;
}

/* Whether both writers collect the same, in bytes and in tables. */
static void same(struct split *all) {
    kit_gateway gateway = KIT_EMPTY, second = KIT_EMPTY;
    size_t len = 0, other_len = 0;
    kit_export made = KIT_EMPTY, other = KIT_EMPTY;
    uint64_t place = 0, time = all->time++;
    CHECK(!(all->shared ? kit_seat_collect(&all->seat, time, &made, &place) : kit_writer_collect(&all->writer, time, &made, &place)));
    CHECK(!kit_writer_collect(&all->one_by_one, time, &other, &place));
    uint8_t *bytes = delivered(&made, &len, &gateway), *others = delivered(&other, &other_len, &second);
    same_tables(&gateway, &second);
    CHECK(len == other_len && !memcmp(bytes, others, len));
    free(bytes), free(others), kit_gateway_free(&gateway), kit_gateway_free(&second);
}

static size_t len_of(kit_recorder *recorder) {
    size_t len = 77;
    CHECK(!kit_recorder_len(recorder, &len));
    return len;
}

/* The number of a pair, which it keeps. */
static size_t number_of(struct split *all, struct recording recording) {
    size_t number = 77, *known = &all->numbers[recording.instrument][recording.set];
    bool *has = &all->has_number[recording.instrument][recording.set];
    int32_t code = all->shared ? kit_seat_hold(&all->seat, recording.instrument, &sets[recording.set], &number)
                               : kit_writer_hold(&all->writer, recording.instrument, &sets[recording.set], &number);
    CHECK(!code);
    if (!*has) *has = true, *known = all->held++;
    CHECK(number == *known);
    return number;
}

/* The writer takes in the front of a log; the second writer records that, one by one, and refuses what was refused. */
static void take_in(struct split *all, size_t which, size_t most) {
    struct list *noted = &all->noted[which];
    kit_taken taken = {.recorded = 77, .refused = 77, .code = 77, .first = 77, .place = 77}, wanted = {0};
    size_t count = most < noted->len ? most : noted->len;
    CHECK(!(all->shared ? kit_seat_take_in(&all->seat, &all->recorders[which], most, &taken)
                        : kit_writer_take_in(&all->writer, &all->recorders[which], most, &taken)));
    for (size_t i = 0; i < count; i++) {
        uint64_t place = 0;
        int32_t code = measure(&all->one_by_one, noted->items[i], &place);
        wanted.recorded += !code;
        if (code && !wanted.refused++) wanted.code = code, wanted.first = i, wanted.place = place;
    }
    CHECK(taken.recorded == wanted.recorded && taken.refused == wanted.refused);
    CHECK(taken.code == wanted.code && taken.first == wanted.first && taken.place == wanted.place);
    noted->len -= count, refused += taken.refused;
    memmove(noted->items, noted->items + count, noted->len * sizeof *noted->items);
    CHECK(len_of(&all->recorders[which]) == noted->len);
}

/* Both writers record, or refuse for one cause. */
static void measure_both(struct split *all, struct recording recording, bool by_number) {
    uint64_t place = 77, other = 77;
    by_number = by_number && recording.instrument < INSTRUMENTS;
    size_t number = recording.lost ? NOT_HELD : by_number ? number_of(all, recording) : 77;
    int32_t code;
    if (recording.lost || by_number) {
        code = all->shared ? kit_seat_measure_held(&all->seat, number, recording.value, &place)
                           : kit_writer_measure_held(&all->writer, number, recording.value, &place);
    } else {
        code = all->shared ? kit_seat_measure(&all->seat, recording.instrument, &sets[recording.set], recording.value, &place)
                           : kit_writer_measure(&all->writer, recording.instrument, &sets[recording.set], recording.value, &place);
    }
    CHECK(code == measure(&all->one_by_one, recording, &other) && place == other);
    refused += code != KIT_OK;
}

/* A log notes a recording, whatever a writer will say of it. Where it is full it is taken in first, and then it has room. */
static void note(struct split *all, size_t which, struct recording recording, bool by_number) {
    kit_recorder *recorder = &all->recorders[which];
    by_number = by_number && recording.instrument < INSTRUMENTS;
    size_t number = recording.lost ? NOT_HELD : by_number ? number_of(all, recording) : 77;
    for (;;) {
        int32_t code = recording.lost || by_number ? kit_recorder_measure_held(recorder, number, recording.value)
                                            : kit_recorder_measure(recorder, recording.instrument, &sets[recording.set], recording.value);
        if (code == KIT_OK) break;
        CHECK(code == KIT_RECORDER_FULL && all->noted[which].len == ROOM);
        take_in(all, which, 1 + random_number(ROOM)), full++;
    }
    all->noted[which].items[all->noted[which].len++] = recording;
}

static bool rises(size_t instrument) { return instrument == REQUESTS || instrument == SIZE; }

/* A recording: in some lists of values that leave 64 bits together, now and then of one below 0, and seldom of no instrument or number. */
static struct recording any_recording(bool wide) {
    struct recording recording = {.instrument = random_number(INSTRUMENTS), .set = random_number(SETS)};
    recording.value = (int64_t)random_number(8);
    if (wide && !random_number(4)) recording.value = INT64_MAX - recording.value;
    if (rises(recording.instrument) ? !random_number(16) : random_number(2)) recording.value = -recording.value;
    if (!random_number(64)) recording.instrument = INSTRUMENTS;
    recording.lost = !random_number(64);
    return recording;
}

/* Both writers begin anew: what logs have is of the incarnation that takes it in. */
static void restart(struct split *all) {
    uint64_t place = 0, start = all->time++;
    CHECK(!kit_writer_restart(&all->writer, start, &place) && !kit_writer_restart(&all->one_by_one, start, &place));
}

static void split_at_random(void) {
    struct split all = {.time = 101};
    size_t plan = random_number(PLANS), len = random_number(LONGEST);
    bool wide = !random_number(4), shares = random_number(2);
    start(&all.writer, plan), start(&all.one_by_one, plan);
    for (size_t i = 0; i < 2; i++) CHECK(!kit_recorder_new(&all.recorders[i], ROOM));
    for (size_t i = 0; i < len; i++) {
        size_t where = random_number(3);
        if (where == 2) measure_both(&all, any_recording(wide), random_number(2));
        else note(&all, where, any_recording(wide), random_number(2));
        if (!random_number(12)) take_in(&all, random_number(2), random_number(2) ? SIZE_MAX : random_number(ROOM));
        if (!random_number(32)) same(&all);
        if (!random_number(64) && !all.shared) restart(&all);
        if (!random_number(64)) {
            CHECK(!kit_recorder_clear(&all.recorders[1]) && !len_of(&all.recorders[1]));
            all.noted[1].len = 0;
        }
        if (shares && !all.shared && !random_number(8)) {
            CHECK(!kit_writer_share(&all.writer, &all.seat));
            all.shared = true;
        }
    }
    size_t first = random_number(2);
    take_in(&all, first, SIZE_MAX), take_in(&all, !first, SIZE_MAX);
    same(&all);
    kit_writer_free(&all.writer), kit_writer_free(&all.one_by_one), kit_seat_free(&all.seat);
    for (size_t i = 0; i < 2; i++) kit_recorder_free(&all.recorders[i]);
}

static int32_t noted(kit_recorder *recorder, enum instrument instrument, size_t set, int64_t value) {
    return kit_recorder_measure(recorder, instrument, &sets[set], value);
}

/* What a writer collects at a time comes to these tables. */
static void collects(kit_writer *writer, uint64_t time, const char *by_route, const char *each, const char *sizes) {
    kit_gateway gateway = KIT_EMPTY;
    kit_export made = KIT_EMPTY;
    uint64_t place = 0;
    size_t len = 0;
    CHECK(!kit_writer_collect(writer, time, &made, &place));
    free(delivered(&made, &len, &gateway));
    CHECK(tells(&gateway, BY_ROUTE, by_route) && tells(&gateway, EACH, each) && tells(&gateway, SIZES, sizes));
    kit_gateway_free(&gateway);
}

#define HEAD "attributes                   points  conflicts  total\n"
static const char *const BY_ROUTES = HEAD "{otel.metric.overflow=true}       1          0  8\n"
                                          "{route=\"/\"}                       1          0  6\n"
                                          "{route=\"/cart\"}                   1          0  1\n";
static const char *const ALL_ROUTES = HEAD "{otel.metric.overflow=true}       1          0  12\n"
                                           "{route=\"/\"}                       1          0  2\n"
                                           "{route=\"/cart\"}                   1          0  1\n";
static const char *const ALL_SIZES = HEAD
    "{otel.metric.overflow=true}       1          0  count=2 sum=9 buckets=0,2,0 min=4 max=5\n"
    "{route=\"/\"}                       1          0  count=1 sum=3 buckets=0,1,0 min=3 max=3\n"
    "{route=\"/cart\"}                   1          0  count=1 sum=7 buckets=0,0,1 min=7 max=7\n";

static bool takes(kit_writer *writer, kit_recorder *recorder, size_t most, kit_taken wanted) {
    kit_taken taken = {.recorded = 77, .refused = 77, .code = 77, .first = 77, .place = 77};
    return !kit_writer_take_in(writer, recorder, most, &taken) && taken.recorded == wanted.recorded && taken.refused == wanted.refused &&
           taken.code == wanted.code && taken.first == wanted.first && taken.place == wanted.place;
}

/* Logs at the limit 2, whose tables are known: the limit is reached in their midst, the overflow set is recorded itself, one view keeps the
 * route alone, and a value below 0 and a total that would leave its range are refused by themselves. */
static void known(void) {
    kit_writer writer = KIT_EMPTY;
    kit_recorder recorder = KIT_EMPTY;
    start(&writer, TWO_SETS);
    CHECK(!kit_recorder_new(&recorder, ROOM));
    CHECK(!noted(&recorder, REQUESTS, 2, 1) && !noted(&recorder, REQUESTS, 1, 2));
    CHECK(!noted(&recorder, SIZE, 2, 7) && !noted(&recorder, SIZE, 1, -1));
    CHECK(!noted(&recorder, SIZE, 1, 3) && !noted(&recorder, SIZE, 7, 5));
    CHECK(takes(&writer, &recorder, 3, (kit_taken){.recorded = 3}) && len_of(&recorder) == 3);
    CHECK(takes(&writer, &recorder, SIZE_MAX, (kit_taken){.recorded = 2, .refused = 1, .code = KIT_NEGATIVE}) && !len_of(&recorder));
    CHECK(!noted(&recorder, DEPTH, 0, 9) && !noted(&recorder, OPEN, 0, 9));
    CHECK(!noted(&recorder, REQUESTS, 3, 4) && !noted(&recorder, REQUESTS, 0, 8) && !noted(&recorder, SIZE, 0, 4));
    CHECK(takes(&writer, &recorder, SIZE_MAX, (kit_taken){.recorded = 5}) && !len_of(&recorder));
    CHECK(takes(&writer, &recorder, SIZE_MAX, (kit_taken){.recorded = 0}));
    collects(&writer, 150, BY_ROUTES, ALL_ROUTES, ALL_SIZES);

    CHECK(!noted(&recorder, DEPTH, 1, 1) && !noted(&recorder, REQUESTS, 1, INT64_MAX - 5) && !noted(&recorder, SIZE, 1, -7));
    kit_taken wide = {.recorded = 1, .refused = 2, .code = KIT_OVERFLOW, .first = 1, .place = BY_ROUTE};
    CHECK(takes(&writer, &recorder, SIZE_MAX, wide) && !len_of(&recorder));
    collects(&writer, 160, BY_ROUTES, ALL_ROUTES, ALL_SIZES);
    kit_writer_free(&writer), kit_recorder_free(&recorder);
}

static pthread_mutex_t lock = PTHREAD_MUTEX_INITIALIZER;
static kit_writer gathered;
static kit_recorder own[THREADS];

/* The number of each pair, which are held before threads begin. */
static size_t numbers[INSTRUMENTS][SETS];

/* What a thread records at a time, by numbers: a set's handle is in one call at a time. */
static struct recording recording_of(size_t thread, size_t time) {
    struct recording recording = {.instrument = time % 3 ? REQUESTS : SIZE, .set = (thread + time) % 7, .value = (int64_t)(time % 9)};
    return recording;
}

static void gather(kit_recorder *recorder) {
    kit_taken taken = {0};
    pthread_mutex_lock(&lock);
    CHECK(!kit_writer_take_in(&gathered, recorder, SIZE_MAX, &taken) && !taken.refused);
    pthread_mutex_unlock(&lock);
}

static void *work(void *at) {
    kit_recorder *recorder = at;
    size_t thread = (size_t)(recorder - own);
    for (size_t time = 0; time < TIMES; time++) {
        struct recording recording = recording_of(thread, time);
        CHECK(!kit_recorder_measure_held(recorder, numbers[recording.instrument][recording.set], recording.value));
        if (time % OFTEN == OFTEN - 1) gather(recorder);
    }
    gather(recorder);
    return NULL;
}

/* Threads with a log each beside one that collects: after the joins the tables are those of one writer that recorded all. */
static void threads(void) {
    pthread_t started[THREADS];
    kit_writer whole = KIT_EMPTY;
    kit_gateway gateway = KIT_EMPTY, other = KIT_EMPTY;
    kit_export made = KIT_EMPTY;
    uint64_t place = 77, changed = 0, time = 101;
    bool late = false;
    size_t len = 0;
    start(&gathered, NO_LIMIT), start(&whole, NO_LIMIT);
    for (size_t i = 0; i < INSTRUMENTS; i++) {
        for (size_t set = 0; set < SETS; set++) CHECK(!kit_writer_hold(&gathered, i, &sets[set], &numbers[i][set]));
    }
    for (size_t i = 0; i < THREADS; i++) CHECK(!kit_recorder_new(&own[i], OFTEN));
    for (size_t i = 0; i < THREADS; i++) CHECK(!pthread_create(&started[i], NULL, work, &own[i]));
    CHECK(!kit_gateway_open(&gateway, 1));
    for (; time < 150; time++) {
        pthread_mutex_lock(&lock);
        CHECK(!kit_writer_collect(&gathered, time, &made, &place));
        pthread_mutex_unlock(&lock);
        CHECK(!kit_gateway_take(&gateway, &made, &changed, &late));
        kit_export_free(&made);
    }
    for (size_t i = 0; i < THREADS; i++) CHECK(!pthread_join(started[i], NULL) && !len_of(&own[i]));
    for (size_t i = 0; i < THREADS * TIMES; i++) CHECK(!measure(&whole, recording_of(i / TIMES, i % TIMES), &place));
    CHECK(!kit_writer_collect(&whole, 200, &made, &place));
    free(delivered(&made, &len, &other));
    CHECK(!kit_writer_collect(&gathered, 200, &made, &place) && !kit_gateway_take(&gateway, &made, &changed, &late));
    same_tables(&gateway, &other);
    for (size_t i = 0; i < THREADS; i++) kit_recorder_free(&own[i]);
    kit_writer_free(&gathered), kit_writer_free(&whole), kit_gateway_free(&gateway), kit_gateway_free(&other), kit_export_free(&made);
}

int main(int words, char **word) {
    unsigned long lists = words > 1 ? strtoul(word[1], NULL, 10) : 10000;
    if (words > 2) seed = strtoul(word[2], NULL, 10);
    make_sets(), make_plans(), known();
    for (list_number = 1; list_number <= lists; list_number++) split_at_random();
    CHECK(full > lists / 10 && refused > lists / 100 && overflown > lists / 10); /* (none of it is rare) */
    threads();
    for (size_t i = 0; i < SETS; i++) kit_attributes_free(&sets[i]);
    for (size_t i = 0; i < PLANS; i++) kit_plan_free(&plans[i]);
    return 0;
}
