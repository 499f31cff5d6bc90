/* The bytes of a gateway, for sdk/c/exporter.c: what two shops record under one plan, each at a route and a status of its own. */
#include <kotskhin.h>
#include <stdio.h>
#include <stdlib.h>

#define TEXT(text) KIT_TEXT(text)
#define MUST(call)                                                            \
    do {                                                                      \
        int32_t code = (call);                                                \
        if (code) {                                                           \
            fprintf(stderr, "%s: refused: %s\n", #call, kit_code_name(code)); \
            exit(1);                                                          \
        }                                                                     \
    } while (0)

static uint64_t place, second, changed;
static bool late;

static void make_plan(kit_plan *plan) {
    const int64_t bounds[] = {10, 100};
    kit_instruments instruments = KIT_EMPTY;
    kit_view view = KIT_EMPTY;
    kit_views views = KIT_EMPTY;
    MUST(kit_instruments_add(&instruments, TEXT("app"), TEXT("requests"), TEXT("1"), KIT_COUNTER));
    MUST(kit_instruments_add(&instruments, TEXT("app"), TEXT("depth"), TEXT("1"), KIT_GAUGE));
    MUST(kit_instruments_add(&instruments, TEXT("app"), TEXT("size"), TEXT("By"), KIT_HISTOGRAM));
    MUST(kit_view_of_name(&view, TEXT("size")));
    MUST(kit_view_buckets(&view, bounds, 2));
    MUST(kit_views_add(&views, &view));
    MUST(kit_plan_build(plan, &instruments, &views, KIT_DEFAULT_LIMIT, &place, &second));
    kit_instruments_free(&instruments), kit_view_free(&view), kit_views_free(&views);
}

static void record(kit_gateway *gateway, kit_plan *plan, uint64_t shop) {
    kit_pairs pairs = KIT_EMPTY;
    kit_attributes set = KIT_EMPTY;
    kit_writer writer = KIT_EMPTY;
    kit_export made = KIT_EMPTY;
    if (shop == 1) MUST(kit_pairs_add_text(&pairs, TEXT("route"), TEXT("/cart")));
    MUST(kit_pairs_add_whole(&pairs, TEXT("status"), 200));
    MUST(kit_pairs_add_truth(&pairs, TEXT("cached"), shop == 2));
    MUST(kit_attributes_make(&set, &pairs, &place));
    MUST(kit_writer_start(&writer, plan, TEXT("shop"), 0, shop, 100));
    for (size_t instrument = 0; instrument < 3; instrument++) {
        for (int64_t value = 1; value < 1000; value *= 10) MUST(kit_writer_measure(&writer, instrument, &set, value, &place));
    }
    MUST(kit_writer_collect(&writer, 200, &made, &place));
    MUST(kit_gateway_take(gateway, &made, &changed, &late));
    kit_pairs_free(&pairs), kit_attributes_free(&set), kit_writer_free(&writer), kit_export_free(&made);
}

int main(void) {
    static uint8_t room[4096];
    kit_plan plan = KIT_EMPTY;
    kit_gateway gateway = KIT_EMPTY;
    kit_bytes bytes = KIT_EMPTY;
    size_t len = 0;
    make_plan(&plan);
    MUST(kit_gateway_open(&gateway, 1));
    for (uint64_t shop = 1; shop <= 2; shop++) record(&gateway, &plan, shop);
    MUST(kit_gateway_encode(&gateway, &bytes));
    MUST(kit_bytes_copy(&bytes, room, sizeof room, &len));
    kit_plan_free(&plan), kit_gateway_free(&gateway), kit_bytes_free(&bytes);
    return len > sizeof room || fwrite(room, 1, len, stdout) != len;
}
