/* What a recording costs from C.
 *
 *     bench ROUNDS [threads]
 *
 * Each line: a name, and the least of the rounds in nanoseconds for each recording; by one thread, or by four. */
#define _POSIX_C_SOURCE 200809L
#include <kotskhin.h>
#include <pthread.h>
#include <sched.h>
#include <stdio.h>
#include <stdlib.h>
#include <string.h>
#include <time.h>

#define TEXT(s) (const uint8_t *)(s), sizeof(s) - 1
#define MUST(call)                                                           \
    do {                                                                     \
        int32_t code = (call);                                               \
        if (code) {                                                          \
            fprintf(stderr, "%s: refused with code %d\n", #call, (int)code); \
            exit(1);                                                         \
        }                                                                    \
    } while (0)

enum { TIMES = 400000, THREADS = 4, COUNTER = 0, HISTOGRAM = 1, PIECE = 1000 };

static kit_plan plan;
static kit_writer writer;
static kit_attributes none, four;
static kit_seat seats[THREADS];
static kit_recorder logs[THREADS];
static size_t number, empty, sizes;
static uint64_t place;
static int rounds;

static double now(void) {
    struct timespec at;
    clock_gettime(CLOCK_MONOTONIC, &at);
    return (double)at.tv_sec * 1e9 + (double)at.tv_nsec;
}

/* attribute.0 to attribute.3, each with the value `value 0`, as kit_bench has them */
static void make(kit_attributes *set) {
    kit_pairs pairs = KIT_EMPTY;
    uint8_t key[] = "attribute.0";
    for (int i = 0; i < 4; i++) {
        key[sizeof key - 2] = (uint8_t)('0' + i);
        MUST(kit_pairs_add_text(&pairs, key, sizeof key - 1, TEXT("value 0")));
    }
    MUST(kit_attributes_make(set, &pairs, &place));
    kit_pairs_free(&pairs);
}

static void without(int times) {
    for (int i = 0; i < times; i++) MUST(kit_writer_measure(&writer, COUNTER, &none, 1, &place));
}

static void held(int times) {
    for (int i = 0; i < times; i++) MUST(kit_writer_measure(&writer, COUNTER, &four, 1, &place));
}

static void by_number(int times) {
    for (int i = 0; i < times; i++) MUST(kit_writer_measure_held(&writer, number, 1, &place));
}

static void without_by_number(int times) {
    for (int i = 0; i < times; i++) MUST(kit_writer_measure_held(&writer, empty, 1, &place));
}

static void histogram_by_number(int times) {
    for (int i = 0; i < times; i++) MUST(kit_writer_measure_held(&writer, sizes, 1, &place));
}

/* as a caller who keeps no number does */
static void holding(int times) {
    for (int i = 0; i < times; i++) {
        size_t told = 0;
        MUST(kit_writer_hold(&writer, COUNTER, &four, &told));
        MUST(kit_writer_measure_held(&writer, told, 1, &place));
    }
}

static void logged(int times) {
    kit_taken taken;
    for (int i = 0; i < times; i++) {
        MUST(kit_recorder_measure_held(&logs[0], number, 1));
        if (i % PIECE == PIECE - 1) MUST(kit_writer_take_in(&writer, &logs[0], SIZE_MAX, &taken));
    }
}

static void histogram(int times) {
    for (int i = 0; i < times; i++) MUST(kit_writer_measure(&writer, HISTOGRAM, &four, 1, &place));
}

static void anew(int times) {
    for (int i = 0; i < times; i++) {
        kit_attributes set = KIT_EMPTY;
        make(&set);
        MUST(kit_writer_measure(&writer, COUNTER, &set, 1, &place));
        kit_attributes_free(&set);
    }
}

static void *record(void *seat) {
    uint64_t told = 0;
    for (int i = 0; i < TIMES; i++) {
        int32_t answer;
        while ((answer = kit_seat_measure_held(seat, number, 1, &told)) == KIT_BUSY) sched_yield();
        MUST(answer);
    }
    return NULL;
}

static void by_seats(int times) {
    pthread_t threads[THREADS];
    (void)times;
    for (int i = 0; i < THREADS; i++) pthread_create(&threads[i], NULL, record, &seats[i]);
    for (int i = 0; i < THREADS; i++) pthread_join(threads[i], NULL);
}

static void *note(void *at) {
    kit_recorder *log = at;
    kit_seat *seat = &seats[log - logs];
    kit_taken taken;
    for (int i = 0; i < TIMES; i++) {
        MUST(kit_recorder_measure_held(log, number, 1));
        if (i % PIECE != PIECE - 1) continue;
        int32_t answer;
        while ((answer = kit_seat_take_in(seat, log, SIZE_MAX, &taken)) == KIT_BUSY) sched_yield();
        MUST(answer);
    }
    return NULL;
}

static void by_logs(int times) {
    pthread_t threads[THREADS];
    (void)times;
    for (int i = 0; i < THREADS; i++) pthread_create(&threads[i], NULL, note, &logs[i]);
    for (int i = 0; i < THREADS; i++) pthread_join(threads[i], NULL);
}

static void tell(const char *name, void (*run)(int times), int times, double recordings) {
    double least = 1e18;
    for (int round = 0; round < rounds; round++) {
        double began = now();
        run(times);
        double each = (now() - began) / recordings;
        least = each < least ? each : least;
    }
    printf("%-55s %7.1f\n", name, least);
}

static void by_one(void) {
    tell("C: no attributes, a held set", without, TIMES, TIMES);
    tell("C: no attributes, by number", without_by_number, TIMES, TIMES);
    tell("C: 4 attributes, a held set", held, TIMES, TIMES);
    tell("C: 4 attributes, by number", by_number, TIMES, TIMES);
    tell("C: 4 attributes, held at each recording", holding, TIMES, TIMES);
    tell("C: 4 attributes, by number, in a log, taken in each 1,000", logged, TIMES, TIMES);
    tell("C: 4 attributes, a held set, a histogram", histogram, TIMES, TIMES);
    tell("C: 4 attributes, by number, a histogram", histogram_by_number, TIMES, TIMES);
    tell("C: 4 attributes, made anew", anew, TIMES / 8, TIMES / 8);
}

static void by_threads(void) {
    MUST(kit_writer_share(&writer, &seats[0]));
    for (int i = 1; i < THREADS; i++) MUST(kit_seat_split(&seats[0], &seats[i]));
    tell("C: 4 attributes, by number, 4 threads by seats", by_seats, TIMES, (double)THREADS * TIMES);
    tell("C: 4 attributes, by number, 4 threads by logs", by_logs, TIMES, (double)THREADS * TIMES);
}

int main(int argc, char **argv) {
    kit_instruments instruments = KIT_EMPTY;
    kit_views views = KIT_EMPTY;
    kit_pairs pairs = KIT_EMPTY;
    uint64_t second = 0;
    MUST(kit_instruments_add(&instruments, TEXT("bench"), TEXT("requests"), TEXT("1"), KIT_COUNTER));
    MUST(kit_instruments_add(&instruments, TEXT("bench"), TEXT("sizes"), TEXT("1"), KIT_HISTOGRAM));
    MUST(kit_plan_build(&plan, &instruments, &views, KIT_DEFAULT_LIMIT, &place, &second));
    MUST(kit_writer_start(&writer, &plan, TEXT("bench"), 0, 1, 100));
    MUST(kit_attributes_make(&none, &pairs, &place));
    make(&four);
    MUST(kit_writer_hold(&writer, COUNTER, &four, &number));
    MUST(kit_writer_hold(&writer, COUNTER, &none, &empty));
    MUST(kit_writer_hold(&writer, HISTOGRAM, &four, &sizes));
    for (int i = 0; i < THREADS; i++) MUST(kit_recorder_new(&logs[i], PIECE));
    rounds = argc > 1 ? atoi(argv[1]) : 25;
    if (argc > 2) by_threads();
    else by_one();
    return 0;
}
