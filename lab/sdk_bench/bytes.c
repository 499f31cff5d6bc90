/* What exports as bytes cost from C: an export of 100,000 points of 4 attributes, encoded and decoded, beside a plain copy of as many
 * bytes. Each line: a name, and the least of the rounds in nanoseconds for each point; the first the bytes of a point. */
#define _POSIX_C_SOURCE 200809L
#include <kotskhin.h>
#include <stdio.h>
#include <stdlib.h>
#include <string.h>
#include <time.h>

#define TEXT(s) (const uint8_t *)(s), sizeof(s) - 1
#define MUST(call)                                                           \
    do {                                                                     \
        int32_t code = (call);                                               \
        if (code) {                                                          \
            fprintf(stderr, "%s: refused with code %d\n", #call, (int)code); \
            exit(1);                                                         \
        }                                                                    \
    } while (0)

enum { ROUNDS = 25, POINTS = 100000 };

static kit_export collected;
static kit_bytes bytes;
static uint8_t *front, *copy;
static size_t len;
static uint64_t place;

static double now(void) {
    struct timespec at;
    clock_gettime(CLOCK_MONOTONIC, &at);
    return (double)at.tv_sec * 1e9 + (double)at.tv_nsec;
}

static void pair(kit_pairs *pairs, const char *key, const char *word, uint32_t number) {
    char text[32];
    int len = snprintf(text, sizeof text, "%s%u", word, number);
    MUST(kit_pairs_add_text(pairs, (const uint8_t *)key, strlen(key), (const uint8_t *)text, (size_t)len));
}

/* The sets of kit_bench: 4 attributes each, in no order. */
static void record(kit_writer *writer, uint32_t number) {
    kit_pairs pairs = KIT_EMPTY;
    kit_attributes set = KIT_EMPTY;
    pair(&pairs, "host", "h", number * 2654435761u);
    pair(&pairs, "method", "m", number % 4);
    pair(&pairs, "route", "r", number % 100);
    pair(&pairs, "zone", "z", number % 3);
    MUST(kit_attributes_make(&set, &pairs, &place));
    MUST(kit_writer_measure(writer, 0, &set, number, &place));
    kit_pairs_free(&pairs), kit_attributes_free(&set);
}

static void encode(void) {
    kit_bytes_free(&bytes);
    MUST(kit_export_encode(&collected, &bytes));
}

static void plain(void) {
    memcpy(copy, front, len);
    __asm__ volatile("" : : "r"(copy) : "memory"); /* (so that the copy is made) */
}

static void decode(void) {
    kit_export read = KIT_EMPTY;
    MUST(kit_export_decode(&read, front, len, &place));
    kit_export_free(&read);
}

static void tell(const char *name, void (*run)(void)) {
    double least = 1e18;
    for (int round = 0; round < ROUNDS; round++) {
        double began = now();
        run();
        double each = (now() - began) / POINTS;
        least = each < least ? each : least;
    }
    printf("%-55s %7.1f\n", name, least);
}

int main(void) {
    kit_instruments instruments = KIT_EMPTY;
    kit_views views = KIT_EMPTY;
    kit_plan plan = KIT_EMPTY;
    kit_writer writer = KIT_EMPTY;
    uint64_t second = 0;
    MUST(kit_instruments_add(&instruments, TEXT("app"), TEXT("requests"), TEXT("1"), KIT_COUNTER));
    MUST(kit_plan_build(&plan, &instruments, &views, POINTS, &place, &second));
    MUST(kit_writer_start(&writer, &plan, TEXT("shop"), 0, 1, 100));
    for (uint32_t number = 0; number < POINTS; number++) record(&writer, number);
    MUST(kit_writer_collect(&writer, 200, &collected, &place));
    encode();
    uint8_t none[1];
    MUST(kit_bytes_copy(&bytes, none, 0, &len));
    front = malloc(len), copy = malloc(len);
    if (!front || !copy) return 1;
    MUST(kit_bytes_copy(&bytes, front, len, &len));
    printf("%-55s %7.1f\n", "C: bytes of a point", (double)len / POINTS);
    tell("C: an export of 4 attributes, encoded", encode);
    tell("C: a plain copy of as many bytes", plain);
    tell("C: an export of 4 attributes, decoded and given up", decode);
    return 0;
}
