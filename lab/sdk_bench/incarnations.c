/* What a gateway of many incarnations costs from C: each of one service of a hundred, with so many points, in no order of identities.
 * Arguments: how many incarnations, and how many points each has. Each line: a name, and microseconds of one call. */
#define _POSIX_C_SOURCE 200809L
#include <inttypes.h>
#include <kotskhin.h>
#include <stdio.h>
#include <stdlib.h>
#include <sys/resource.h>
#include <time.h>

#define TEXT(text) KIT_TEXT(text)
#define MUST(call)                                                            \
    do {                                                                      \
        int32_t code = (call);                                                \
        if (code) {                                                           \
            fprintf(stderr, "%s: refused: %s\n", #call, kit_code_name(code)); \
            exit(1);                                                          \
        }                                                                     \
    } while (0)

enum { KEPT = 1000, SERVICES = 100, ROUNDS = 20 };

static uint64_t place, second, changed, points_each;
static bool late;
static kit_plan plan;
static kit_attributes *sets;
static kit_writer kept[KEPT];
static kit_export again[KEPT];

static double now(void) {
    struct timespec at;
    clock_gettime(CLOCK_MONOTONIC, &at);
    return (double)at.tv_sec * 1e6 + (double)at.tv_nsec / 1e3;
}

static void tell(const char *what, double took, double calls) { printf("%-44s %12.2f\n", what, took / calls), fflush(stdout); }

static void make_plan(void) {
    kit_instruments instruments = KIT_EMPTY;
    kit_views views = KIT_EMPTY;
    MUST(kit_instruments_add(&instruments, TEXT("app"), TEXT("requests"), TEXT("1"), KIT_COUNTER));
    MUST(kit_plan_build(&plan, &instruments, &views, KIT_DEFAULT_LIMIT, &place, &second));
    kit_instruments_free(&instruments), kit_views_free(&views);
    sets = calloc(points_each, sizeof *sets);
    for (uint64_t i = 0; i < points_each; i++) {
        kit_pairs pairs = KIT_EMPTY;
        MUST(kit_pairs_add_whole(&pairs, TEXT("status"), (int64_t)i));
        MUST(kit_attributes_make(&sets[i], &pairs, &place));
        kit_pairs_free(&pairs);
    }
}

static void record(kit_writer *writer) {
    for (uint64_t i = 0; i < points_each; i++) MUST(kit_writer_measure(writer, 0, &sets[i], 1, &place));
}

/* The writer of a number: its service is one of a hundred, and its instance is the number scrambled. */
static void start(kit_writer *writer, uint64_t number) {
    char service[16];
    int len = snprintf(service, sizeof service, "shop%02" PRIu64, number % SERVICES);
    MUST(kit_writer_start(writer, &plan, (const uint8_t *)service, (size_t)len, number * 0x9E3779B97F4A7C15u, number, 100));
    record(writer);
}

static void first_export(kit_export *export_, uint64_t number) {
    kit_writer writer = KIT_EMPTY;
    start(&writer, number);
    MUST(kit_writer_collect(&writer, 200, export_, &place));
    kit_writer_free(&writer);
}

/* Takes incarnations of these numbers, and gives the microseconds that the takes took. */
static double take_new(kit_gateway *gateway, uint64_t from, uint64_t to) {
    double took = 0;
    for (uint64_t number = from; number < to; number++) {
        kit_export made = KIT_EMPTY;
        first_export(&made, number);
        double at = now();
        MUST(kit_gateway_take(gateway, &made, &changed, &late));
        took += now() - at;
        kit_export_free(&made);
    }
    return took;
}

/* Sends what changed, hands it over, and hands the answer back; gives what sending took, and adds what handing took. */
static double pass_on(kit_gateway *from, kit_gateway *to, double *handing) {
    kit_message message = KIT_EMPTY, answer = KIT_EMPTY, none = KIT_EMPTY;
    bool answered = false;
    double at = now(), took;
    MUST(kit_gateway_send(from, 2, &message));
    took = now() - at;
    at = now();
    MUST(kit_gateway_hand(to, &message, &answer, &answered));
    *handing += now() - at;
    if (answered) MUST(kit_gateway_hand(from, &answer, &none, &answered));
    kit_message_free(&message), kit_message_free(&answer), kit_message_free(&none);
    return took;
}

static void gossip(kit_gateway *gateway, kit_gateway *peer, uint64_t *time, size_t changes, const char *sent, const char *handed) {
    double sending = 0, handing = 0;
    for (int round = 0; round < ROUNDS; round++) {
        ++*time;
        for (size_t i = 0; i < changes; i++) {
            kit_export made = KIT_EMPTY;
            size_t writer = (i + (size_t)round * 37) % KEPT;
            MUST(kit_writer_collect(&kept[writer], *time, &made, &place));
            MUST(kit_gateway_take(gateway, &made, &changed, &late));
            kit_export_free(&made);
        }
        sending += pass_on(gateway, peer, &handing);
    }
    tell(sent, sending, ROUNDS), tell(handed, handing, ROUNDS);
}

static void merges(kit_gateway *gateway) {
    kit_gateway all = KIT_EMPTY, twin = KIT_EMPTY, few = KIT_EMPTY;
    kit_ask ask = KIT_EMPTY;
    kit_rows rows = KIT_EMPTY;
    MUST(kit_gateway_open(&all, 4));
    MUST(kit_gateway_merge(&all, gateway, &changed));
    MUST(kit_gateway_open(&twin, 5));
    MUST(kit_gateway_merge(&twin, gateway, &changed));
    double at = now();
    MUST(kit_gateway_merge(&all, &twin, &changed));
    tell("merge of equals", now() - at, 1);
    MUST(kit_gateway_open(&few, 3));
    for (size_t i = 0; i < KEPT; i++) {
        kit_export made = KIT_EMPTY;
        first_export(&made, (1u << 30) + i);
        MUST(kit_gateway_take(&few, &made, &changed, &late));
        kit_export_free(&made);
    }
    at = now();
    MUST(kit_gateway_merge(&all, &few, &changed));
    tell("merge of 1,000 new ones into all", now() - at, 1);
    MUST(kit_ask_sum(&ask, TEXT("app"), TEXT("requests"), TEXT("1"), true));
    MUST(kit_ask_service(&ask, TEXT("shop07")));
    at = now();
    MUST(kit_gateway_rows(&all, &ask, &rows));
    tell("roll-up of one service of a hundred", now() - at, 1);
    kit_rows_free(&rows), kit_ask_free(&ask), kit_gateway_free(&all), kit_gateway_free(&twin), kit_gateway_free(&few);
}

int main(int argc, char **argv) {
    uint64_t held = argc > 1 ? strtoull(argv[1], 0, 10) : 1000, time = 300;
    points_each = argc > 2 ? strtoull(argv[2], 0, 10) : 1;
    kit_gateway gateway = KIT_EMPTY, peer = KIT_EMPTY;
    double handing = 0, took = 0;
    struct rusage used;
    make_plan();
    MUST(kit_gateway_open(&gateway, 1));
    MUST(kit_gateway_open(&peer, 2));
    tell("take of a new one, mean of filling", take_new(&gateway, KEPT, held), (double)(held - KEPT));
    for (size_t i = 0; i < KEPT; i++) {
        kit_export made = KIT_EMPTY;
        start(&kept[i], i);
        MUST(kit_writer_collect(&kept[i], 200, &made, &place));
        double at = now();
        MUST(kit_gateway_take(&gateway, &made, &changed, &late));
        took += now() - at;
        kit_export_free(&made);
        MUST(kit_writer_collect(&kept[i], 250, &again[i], &place));
    }
    tell("take of a new one, where all are held", took, KEPT);
    getrusage(RUSAGE_SELF, &used);
    tell("bytes of memory an incarnation", (double)used.ru_maxrss * 1024, (double)held);
    double at = now();
    for (size_t i = 0; i < KEPT; i++) MUST(kit_gateway_take(&gateway, &again[i], &changed, &late));
    tell("take of a held one's next collection", now() - at, KEPT);
    pass_on(&gateway, &peer, &handing);
    gossip(&gateway, &peer, &time, 1, "send after 1 change", "hand of 1 change");
    gossip(&gateway, &peer, &time, KEPT, "send after 1,000 changes", "hand of 1,000 changes");
    merges(&gateway);
    return 0;
}
