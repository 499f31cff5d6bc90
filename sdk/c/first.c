/* Two recordings, one collection, one delivery, one table: the script of examples/first.otm, in C. */
#include <kotskhin.h>
#include <stdio.h>

#define TEXT(text) KIT_TEXT(text)
/* Ends the program where a call is refused. */
#define MUST(call)                                                            \
    do {                                                                      \
        int32_t code = (call);                                                \
        if (code) {                                                           \
            fprintf(stderr, "%s: refused: %s\n", #call, kit_code_name(code)); \
            return 1;                                                         \
        }                                                                     \
    } while (0)

int main(void) {
    kit_instruments instruments = KIT_EMPTY;
    kit_views views = KIT_EMPTY;
    kit_plan plan = KIT_EMPTY;
    kit_pairs pairs = KIT_EMPTY;
    kit_attributes none = KIT_EMPTY;
    kit_writer writer = KIT_EMPTY;
    kit_export collected = KIT_EMPTY;
    kit_gateway gateway = KIT_EMPTY;
    kit_ask ask = KIT_EMPTY;
    kit_rows rows = KIT_EMPTY;
    kit_text table = KIT_EMPTY;
    uint64_t place = 0, second = 0, changed = 0;
    bool late = false;

    MUST(kit_instruments_add(&instruments, TEXT("app"), TEXT("requests"), TEXT("1"), KIT_COUNTER));
    MUST(kit_plan_build(&plan, &instruments, &views, KIT_DEFAULT_LIMIT, &place, &second));
    MUST(kit_writer_start(&writer, &plan, TEXT("shop"), 0, 1, 100));
    MUST(kit_attributes_make(&none, &pairs, &place));

    MUST(kit_writer_measure(&writer, 0, &none, 3, &place));
    MUST(kit_writer_measure(&writer, 0, &none, 4, &place));
    MUST(kit_writer_collect(&writer, 200, &collected, &place));

    MUST(kit_gateway_open(&gateway, 1));
    MUST(kit_gateway_take(&gateway, &collected, &changed, &late));

    MUST(kit_ask_sum(&ask, TEXT("app"), TEXT("requests"), TEXT("1"), true));
    MUST(kit_gateway_rows(&gateway, &ask, &rows));
    MUST(kit_rows_table(&rows, &table));
    uint8_t text[1024];
    size_t len = 0;
    MUST(kit_text_copy(&table, text, sizeof text, &len));
    fwrite(text, 1, len < sizeof text ? len : sizeof text, stdout);

    kit_instruments_free(&instruments), kit_views_free(&views), kit_plan_free(&plan), kit_pairs_free(&pairs), kit_attributes_free(&none);
    kit_writer_free(&writer), kit_export_free(&collected), kit_gateway_free(&gateway);
    kit_ask_free(&ask), kit_rows_free(&rows), kit_text_free(&table);
    return 0;
}
