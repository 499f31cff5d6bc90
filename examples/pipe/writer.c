/* The first of two processes: it records, and writes the bytes of each collection to its standard output, the number of the bytes
 * before them in eight, the highest first. One export it sends twice, and one it keeps back until a later one is gone: neither
 * changes what a gateway makes of them. At its end it tells on the standard error what it counted. */
#include <inttypes.h>
#include <kotskhin.h>
#include <stdio.h>
#include <stdlib.h>

#define TEXT(s) (const uint8_t *)(s), sizeof(s) - 1
/* Ends the program where a call is refused. */
#define MUST(call)                                                           \
    do {                                                                     \
        int32_t code = (call);                                               \
        if (code) {                                                          \
            fprintf(stderr, "%s: refused with code %d\n", #call, (int)code); \
            exit(1);                                                         \
        }                                                                    \
    } while (0)

/* Writes the bytes of an export behind their number. */
static void sends(kit_export *export_) {
    kit_bytes bytes = KIT_EMPTY;
    uint8_t none = 0;
    size_t len = 0;
    MUST(kit_export_encode(export_, &bytes));
    MUST(kit_bytes_copy(&bytes, &none, 0, &len));
    uint8_t *copy = malloc(len);
    if (!copy) {
        fprintf(stderr, "no memory\n");
        exit(1);
    }
    MUST(kit_bytes_copy(&bytes, copy, len, &len));
    for (int shift = 56; shift >= 0; shift -= 8) {
        putchar((int)((uint64_t)len >> shift & 255));
    }
    if (fwrite(copy, 1, len, stdout) != len || fflush(stdout)) {
        fprintf(stderr, "the pipe is closed\n");
        exit(1);
    }
    free(copy);
    kit_bytes_free(&bytes);
}

int main(void) {
    static const char *const routes[] = {"/", "/cart", "/pay"};
    kit_instruments instruments = KIT_EMPTY;
    kit_views views = KIT_EMPTY;
    kit_plan plan = KIT_EMPTY;
    kit_writer writer = KIT_EMPTY;
    kit_export kept = KIT_EMPTY;
    uint64_t place = 0, second = 0, counted = 0;
    size_t numbers[3] = {0};

    MUST(kit_instruments_add(&instruments, TEXT("app"), TEXT("requests"), TEXT("1"), KIT_COUNTER));
    MUST(kit_plan_build(&plan, &instruments, &views, KIT_DEFAULT_LIMIT, &place, &second));
    MUST(kit_writer_start(&writer, &plan, TEXT("shop"), 0, 1, 100));
    for (size_t i = 0; i < 3; i++) {
        kit_pairs pairs = KIT_EMPTY;
        kit_attributes set = KIT_EMPTY;
        size_t len = 0;
        while (routes[i][len]) len++;
        MUST(kit_pairs_add_text(&pairs, TEXT("route"), (const uint8_t *)routes[i], len));
        MUST(kit_attributes_make(&set, &pairs, &place));
        MUST(kit_writer_hold(&writer, 0, &set, &numbers[i]));
        kit_pairs_free(&pairs), kit_attributes_free(&set);
    }
    for (uint64_t round = 1; round <= 5; round++) {
        for (uint64_t i = 0; i < 1000; i++) {
            MUST(kit_writer_measure_held(&writer, numbers[(round + i) % 3], (int64_t)(i % 7), &place));
            counted += i % 7;
        }
        kit_export collected = KIT_EMPTY;
        MUST(kit_writer_collect(&writer, 100 + round, &collected, &place));
        if (round == 2) {
            kept = collected;
            continue;
        }
        sends(&collected);
        if (round == 3) {
            sends(&collected);
        }
        kit_export_free(&collected);
    }
    sends(&kept);
    fprintf(stderr, "counted %" PRIu64 "\n", counted);

    kit_handle *all[] = {&instruments.handle, &views.handle, &plan.handle, &writer.handle, &kept.handle};
    for (size_t i = 0; i < sizeof all / sizeof *all; i++) {
        kit_free(all[i]);
    }
    return 0;
}
