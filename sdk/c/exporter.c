/* A generic exporter: of a gateway whose bytes (kit_gateway_encode) it reads, it prints each stream, and of each every row with its labels.
 * It knows no name beforehand. */
#include <inttypes.h>
#include <kotskhin.h>
#include <stdio.h>
#include <stdlib.h>

static uint8_t bytes[1 << 26], text[256];
static size_t len;

/* Ends the program where a call is refused. */
static void must(int32_t code) {
    if (code) fprintf(stderr, "refused: %s\n", kit_code_name(code)), exit(1);
}
/* Prints up to 256 bytes of what a call copies out: its room and its length stand last among the call's parameters. */
#define PRINT(call, ...) (must(call(__VA_ARGS__, text, sizeof text, &len)), fwrite(text, 1, len < sizeof text ? len : sizeof text, stdout))

enum { MOST_BUCKETS = 64 };

/* A row's labels and its value. */
static void print_row(kit_rows *rows, size_t row) {
    kit_attributes set = KIT_EMPTY;
    kit_row told;
    kit_count buckets[MOST_BUCKETS];
    size_t labels = 0, count = 0;
    int64_t value = 0;
    must(kit_rows_attributes(rows, row, &set));
    must(kit_attributes_len(&set, &labels));
    for (size_t i = 0; i < labels; i++) {
        uint8_t kind = 0;
        putchar(i ? ',' : '{'), PRINT(kit_attributes_key, &set, i), putchar('=');
        must(kit_attributes_value(&set, i, &kind, &value));
        if (kind == 0) putchar('"'), PRINT(kit_attributes_text, &set, i), putchar('"');
        if (kind == 1) printf("%" PRId64, value);
        if (kind == 2) printf(value ? "true" : "false");
    }
    must(kit_rows_read(rows, row, &told));
    must(kit_rows_buckets(rows, row, buckets, MOST_BUCKETS, &count));
    /* (of a total of 128 bits its low half, which is all of it where it fits into 64) */
    printf("%s %" PRId64, labels ? "}" : "{}", told.shape == KIT_SHAPE_GAUGE ? told.value : (int64_t)told.sum_low);
    for (size_t i = 0; i < count && i < MOST_BUCKETS; i++) printf(i ? " %" PRIu64 : " in buckets %" PRIu64, buckets[i].low);
    putchar('\n'), kit_attributes_free(&set);
}

static void print_stream(kit_gateway *gateway, kit_streams *streams, size_t stream) {
    kit_ask ask = KIT_EMPTY;
    kit_rows rows = KIT_EMPTY;
    size_t count = 0;
    must(kit_ask_stream(&ask, streams, stream));
    must(kit_gateway_rows(gateway, &ask, &rows));
    must(kit_rows_len(&rows, &count));
    for (size_t row = 0; row < count; row++) {
        for (uint8_t part = 0; part < 3; part++) PRINT(kit_streams_text, streams, stream, part), putchar(' ');
        print_row(&rows, row);
    }
    kit_ask_free(&ask), kit_rows_free(&rows);
}

int main(void) {
    kit_gateway gateway = KIT_EMPTY;
    kit_streams streams = KIT_EMPTY;
    size_t count = 0;
    uint64_t changed = 0;
    must(kit_gateway_open(&gateway, 0));
    must(kit_gateway_merge_bytes(&gateway, bytes, fread(bytes, 1, sizeof bytes, stdin), &changed, KIT_NO_PLACE));
    must(kit_gateway_streams(&gateway, &streams));
    must(kit_streams_len(&streams, &count));
    for (size_t i = 0; i < count; i++) print_stream(&gateway, &streams, i);
    kit_gateway_free(&gateway), kit_streams_free(&streams);
}
