/* Every refusal, raised once: what it answers, the place that it tells, and that it leaves all as it was; but for those of formats.c. KIT_EXHAUSTED
 * wants 2^62 changes: for it the number is lowered where it lies in memory. Growths of calls refused one after the other (linked with --wrap=malloc,--wrap=realloc,--wrap=free).
 * Prints the first check that does not hold and exits with 1, or exits with 0. handles.c has what each call makes of handles. */
#include "growths.h"

/* The seat that records and splits in the midst of another's call, and what it is answered. */
static kit_seat *meddles = NULL;
static int32_t meddled[3];

static void meddle(void) {
    kit_seat *seat = meddles, made = KIT_EMPTY;
    kit_export collected = KIT_EMPTY;
    uint64_t place = 77;
    unsigned after = refused;
    meets = NULL, refused = 0;
    meddled[0] = kit_seat_measure_held(seat, 0, 1, &place);
    meddled[1] = kit_seat_collect(seat, 300, &collected, &place);
    meddled[2] = kit_seat_split(seat, &made);
    CHECK(place == 77 && !made.handle.full && !collected.handle.full);
    refused = after;
}

static uint64_t place, second, changed;
static bool late;

/* The table of the counter at a gateway is this one. It is asked for by a name with a capital, which plans and asks take for the same. */
static bool tells(kit_gateway *gateway, const char *want) {
    kit_ask ask = KIT_EMPTY;
    kit_rows rows = KIT_EMPTY;
    kit_text table = KIT_EMPTY;
    uint8_t text[1024];
    size_t len = 0;
    bool fits = !kit_ask_sum(&ask, TEXT("app"), TEXT("Requests"), TEXT("1"), true) && !kit_gateway_rows(gateway, &ask, &rows) &&
                !kit_rows_table(&rows, &table) && !kit_text_copy(&table, text, sizeof text, &len) && len == strlen(want) &&
                !memcmp(text, want, len);
    kit_ask_free(&ask), kit_rows_free(&rows), kit_text_free(&table);
    return fits;
}

static const char *const SEVEN = "attributes  points  conflicts  total\n{}               1          0  7\n";
static const char *const NO_ROWS = "attributes  points  conflicts  total\n";

/* A gateway tells this id, and so many points. */
static bool reads(kit_gateway *gateway, uint32_t id, size_t points) {
    uint32_t told = 77;
    uint64_t conflicts = 77;
    size_t len = 77;
    return !kit_gateway_read(gateway, &told, &len, &conflicts) && told == id && len == points;
}

/* Two rows tell the same. */
static bool is_row(kit_row row, kit_row wanted) {
    return row.points == wanted.points && row.conflicts == wanted.conflicts && row.sum_high == wanted.sum_high && row.sum_low == wanted.sum_low &&
           row.count_high == wanted.count_high && row.count_low == wanted.count_low && row.time == wanted.time && row.value == wanted.value &&
           row.least == wanted.least && row.greatest == wanted.greatest && row.buckets == wanted.buckets && row.shape == wanted.shape &&
           row.has_value == wanted.has_value && row.has_range == wanted.has_range;
}

/* What a writer has comes to 7, as a fresh gateway says. */
static bool has_seven(kit_writer *writer, uint64_t time) {
    kit_export collected = KIT_EMPTY;
    kit_gateway gateway = KIT_EMPTY;
    bool fits = !kit_writer_collect(writer, time, &collected, &place) && !kit_gateway_open(&gateway, 9) &&
                !kit_gateway_take(&gateway, &collected, &changed, &late) && tells(&gateway, SEVEN);
    kit_export_free(&collected), kit_gateway_free(&gateway);
    return fits;
}

/* The plan of these instruments and of one view is refused so. */
static int32_t planned(kit_instruments *instruments, kit_view *view) {
    kit_views views = KIT_EMPTY;
    kit_plan plan = KIT_EMPTY;
    CHECK(!kit_views_add(&views, view));
    place = second = 77;
    int32_t code = kit_plan_build(&plan, instruments, &views, 1, &place, &second);
    CHECK(plan.handle.full == (code == KIT_OK));
    kit_views_free(&views), kit_plan_free(&plan);
    return code;
}

static void views(void) {
    kit_instruments instruments = KIT_EMPTY;
    kit_view view = KIT_EMPTY;
    kit_views list = KIT_EMPTY;
    kit_keys keys = KIT_EMPTY;
    CHECK(!kit_instruments_add(&instruments, TEXT("app"), TEXT("requests"), TEXT("1"), KIT_COUNTER));
    CHECK(!kit_instruments_add(&instruments, TEXT("app"), TEXT("size"), TEXT("By"), KIT_HISTOGRAM));
    CHECK(kit_view_of_name(&view, TEXT("\xff")) == KIT_NOT_TEXT && !view.handle.full);
    CHECK(kit_view_kind(&view, KIT_COUNTER) == KIT_NOTHING && !view.handle.full);
    EACH_GROWTH(kit_view_of_name(&view, TEXT("a name of more than thirty bytes of text")), !view.handle.full);
    CHECK(kit_view_of_every(&view) == KIT_FULL && view.handle.full);
    CHECK(kit_view_kind(&view, 4) == KIT_BAD_NUMBER && kit_view_aggregation(&view, 4) == KIT_BAD_NUMBER);
    CHECK(kit_view_scope(&view, TEXT("\xff")) == KIT_NOT_TEXT);
    CHECK(kit_views_add(&list, (void *)&keys) == KIT_NOTHING && !list.handle.full);
    EACH_GROWTH(kit_views_add(&list, &view), !list.handle.full && view.handle.full);
    kit_view_free(&view);

    CHECK(!kit_view_of_name(&view, TEXT("Size")));
    EACH_GROWTH(kit_view_rename(&view, TEXT("a_new_name_of_more_than_thirty_bytes")), view.handle.full);
    EACH_GROWTH(kit_view_scope(&view, TEXT("a scope of more than thirty bytes")), view.handle.full);
    CHECK(!kit_view_scope(&view, TEXT("app")) && !kit_view_kind(&view, KIT_HISTOGRAM));
    CHECK(!kit_keys_add(&keys, TEXT("route")));
    EACH_GROWTH(kit_view_keep(&view, &keys), view.handle.full && keys.handle.full);
    CHECK(planned(&instruments, &view) == KIT_OK && place == 77 && second == 77);
    CHECK(!kit_view_rename(&view, TEXT("9 lives")) && planned(&instruments, &view) == KIT_BAD_RENAME && place == 0);
    CHECK(!kit_view_rename(&view, TEXT("fine")) && !kit_view_aggregation(&view, KIT_LAST_VALUE));
    CHECK(planned(&instruments, &view) == KIT_BAD_AGGREGATION && place == 1 && second == 0);
    const int64_t falling[] = {2, 1};
    EACH_GROWTH(kit_view_buckets(&view, falling, 2), view.handle.full);
    CHECK(planned(&instruments, &view) == KIT_BAD_BOUNDS && place == 0);
    kit_view_free(&view);
    CHECK(!kit_view_of_every(&view) && !kit_view_aggregation(&view, KIT_DROP) && planned(&instruments, &view) == KIT_OK);
    CHECK(!kit_view_rename(&view, TEXT("fine")) && planned(&instruments, &view) == KIT_WILDCARD_RENAME && place == 0);
    kit_view_free(&view);
    CHECK(!kit_view_of_name(&view, TEXT("size")) && !kit_view_rename(&view, TEXT("fine")));
    CHECK(!kit_instruments_add(&instruments, TEXT("app"), TEXT("fine"), TEXT("By"), KIT_HISTOGRAM));
    CHECK(planned(&instruments, &view) == KIT_SAME_STREAM && place == 1 && second == 2);
    kit_instruments_free(&instruments), kit_view_free(&view), kit_views_free(&list), kit_keys_free(&keys);
}

/* Why the plan of an instrument of the scope app, of two in the scope of tombstones behind it, and of a view, where there is one, is refused. */
static int32_t planned_beside(const char *name, const char *unit, kit_view *view, uint64_t limit) {
    kit_instruments instruments = KIT_EMPTY;
    kit_views views = KIT_EMPTY;
    kit_plan plan = KIT_EMPTY;
    CHECK(!kit_instruments_add(&instruments, TEXT("app"), KIT_BYTES(name, strlen(name)), KIT_BYTES(unit, strlen(unit)), KIT_COUNTER));
    CHECK(!kit_instruments_add(&instruments, TEXT("kotskhin.archive"), TEXT("requests"), TEXT("1"), KIT_COUNTER));
    CHECK(!kit_instruments_add(&instruments, TEXT("kotskhin.archive"), TEXT("adopted"), TEXT("ns"), KIT_GAUGE));
    if (view) CHECK(!kit_views_add(&views, view));
    place = second = 77;
    int32_t code = kit_plan_build(&plan, &instruments, &views, limit, &place, &second);
    CHECK(code != KIT_OK && !plan.handle.full && instruments.handle.full);
    kit_instruments_free(&instruments), kit_views_free(&views);
    return code;
}

/* A code, or KIT_OK of the one that is wanted in the end, for EACH_GROWTH. */
static int32_t ends_in(int32_t wanted, int32_t code) { return code == wanted ? KIT_OK : code; }

/* The scope of tombstones is looked at last: all else that a plan is refused for comes before. */
static void reserved(void) {
    kit_instruments near = KIT_EMPTY;
    kit_views none = KIT_EMPTY;
    kit_view view = KIT_EMPTY;
    kit_plan plan = KIT_EMPTY;
    const int64_t falling[] = {2, 1};
    CHECK(planned_beside("fine", "1", NULL, 1) == KIT_RESERVED_SCOPE && place == 1 && second == 77);
    CHECK(planned_beside("9 lives", "1", NULL, 1) == KIT_BAD_NAME && place == 0);
    CHECK(planned_beside("fine", "\xc3\xa4", NULL, 1) == KIT_BAD_UNIT && place == 0);
    CHECK(planned_beside("fine", "1", NULL, 0) == KIT_BAD_LIMIT && place == 77);
    /* (no view takes an instrument out of its scope: neither one that drops its stream, nor one that gives it another name) */
    CHECK(!kit_view_of_every(&view) && !kit_view_aggregation(&view, KIT_DROP));
    CHECK(planned_beside("fine", "1", &view, 1) == KIT_RESERVED_SCOPE && place == 1);
    CHECK(!kit_view_rename(&view, TEXT("fine")) && planned_beside("fine", "1", &view, 1) == KIT_WILDCARD_RENAME && place == 0);
    kit_view_free(&view);
    CHECK(!kit_view_of_name(&view, TEXT("adopted")) && !kit_view_rename(&view, TEXT("other")));
    CHECK(planned_beside("fine", "1", &view, 1) == KIT_RESERVED_SCOPE && place == 1);
    CHECK(!kit_view_rename(&view, TEXT("9 lives")) && planned_beside("fine", "1", &view, 1) == KIT_BAD_RENAME && place == 0);
    CHECK(!kit_view_rename(&view, TEXT("other")) && !kit_view_aggregation(&view, KIT_SUM));
    CHECK(planned_beside("fine", "1", &view, 1) == KIT_BAD_AGGREGATION && place == 2 && second == 0);
    CHECK(!kit_view_buckets(&view, falling, 2) && planned_beside("fine", "1", &view, 1) == KIT_BAD_BOUNDS && place == 0);
    kit_view_free(&view);
    CHECK(!kit_view_of_name(&view, TEXT("fine")));
    CHECK(!kit_views_add(&none, &view) && !kit_views_add(&none, &view));
    CHECK(!kit_instruments_add(&near, TEXT("kotskhin.archive"), TEXT("fine"), TEXT("1"), KIT_COUNTER));
    CHECK(kit_plan_build(&plan, &near, &none, 1, &place, &second) == KIT_SAME_STREAM && place == 0 && second == 0);
    kit_view_free(&view), kit_views_free(&none);
    place = 77;
    EACH_GROWTH(ends_in(KIT_RESERVED_SCOPE, kit_plan_build(&plan, &near, &none, 1, &place, &second)), !plan.handle.full && place == 77);
    kit_instruments_free(&near);
    /* Of a scope each letter counts. */
    CHECK(!kit_instruments_add(&near, TEXT("Kotskhin.archive"), TEXT("adopted"), TEXT("ns"), KIT_GAUGE));
    CHECK(!kit_instruments_add(&near, TEXT("kotskhin.archives"), TEXT("adopted"), TEXT("ns"), KIT_GAUGE));
    CHECK(!kit_instruments_add(&near, TEXT("kotskhin.archiv"), TEXT("adopted"), TEXT("ns"), KIT_GAUGE));
    CHECK(!kit_instruments_add(&near, TEXT("app"), TEXT("kotskhin.archive"), TEXT("ns"), KIT_GAUGE));
    CHECK(!kit_plan_build(&plan, &near, &none, 1, &place, &second));
    kit_instruments_free(&near), kit_plan_free(&plan);
}

static void plans(kit_plan *plan) {
    kit_instruments instruments = KIT_EMPTY, bad = KIT_EMPTY, none = KIT_EMPTY;
    kit_views views = KIT_EMPTY;
    kit_plan other = KIT_EMPTY;
    CHECK(kit_instruments_add(&instruments, TEXT("app"), TEXT("requests"), TEXT("1"), 4) == KIT_BAD_NUMBER && !instruments.handle.full);
    CHECK(kit_instruments_add(&instruments, TEXT("\xff"), TEXT("requests"), TEXT("1"), KIT_COUNTER) == KIT_NOT_TEXT);
    CHECK(!instruments.handle.full);
    EACH_GROWTH(kit_instruments_add(&instruments, TEXT("a scope of more than thirty bytes"), TEXT("other"), TEXT("1"), KIT_COUNTER),
                !instruments.handle.full);
    kit_instruments_free(&instruments);
    CHECK(!kit_instruments_add(&instruments, TEXT("app"), TEXT("requests"), TEXT("1"), KIT_COUNTER));
    CHECK(!kit_instruments_add(&instruments, TEXT("app"), TEXT("size"), TEXT("By"), KIT_HISTOGRAM));

    CHECK(kit_plan_build((void *)&instruments, &instruments, &views, 1, &place, &second) == KIT_FULL);
    CHECK(kit_plan_build(&other, &instruments, &views, 0, &place, &second) == KIT_BAD_LIMIT && !other.handle.full);
    CHECK(!kit_instruments_add(&bad, TEXT("app"), TEXT("fine"), TEXT("1"), KIT_COUNTER));
    CHECK(!kit_instruments_add(&bad, TEXT("app"), TEXT("9 lives"), TEXT("1"), KIT_COUNTER));
    CHECK(kit_plan_build(&other, &bad, &views, 1, &place, &second) == KIT_BAD_NAME && place == 1 && !other.handle.full);
    kit_instruments_free(&bad);
    CHECK(!kit_instruments_add(&bad, TEXT("app"), TEXT("fine"), TEXT("\xc3\xa4"), KIT_COUNTER));
    CHECK(kit_plan_build(&other, &bad, &views, 1, &place, &second) == KIT_BAD_UNIT && place == 0);
    kit_instruments_free(&bad);
    reserved();
    CHECK(!kit_instruments_add(&bad, TEXT("app"), TEXT("fine"), TEXT("1"), KIT_COUNTER));
    CHECK(!kit_instruments_add(&bad, TEXT("app"), TEXT("other"), TEXT("1"), KIT_COUNTER));
    CHECK(!kit_instruments_add(&bad, TEXT("app"), TEXT("fine"), TEXT("1"), KIT_HISTOGRAM));
    CHECK(!kit_instruments_add(&bad, TEXT("app"), TEXT("Fine"), TEXT("1"), KIT_COUNTER));
    CHECK(!kit_plan_build(&other, &bad, &views, 1, &place, &second));
    kit_plan_free(&other);
    CHECK(kit_plan_build(&other, &none, &views, 1, &place, &second) == KIT_OK); /* (no instruments make a plan, too) */
    kit_plan_free(&other);
    EACH_GROWTH(kit_plan_build(plan, &instruments, &views, KIT_DEFAULT_LIMIT, &place, &second), !plan->handle.full && instruments.handle.full);
    kit_instruments_free(&instruments), kit_views_free(&views), kit_instruments_free(&bad);
}

static void attributes(kit_attributes *none, kit_attributes *four) {
    kit_pairs pairs = KIT_EMPTY, emptied = KIT_EMPTY;
    kit_attributes bad = KIT_EMPTY;
    CHECK(!kit_attributes_make(none, &pairs, &place));
    CHECK(kit_attributes_make(none, &pairs, &place) == KIT_FULL && none->handle.full);
    CHECK(kit_pairs_add_text(&pairs, TEXT("k\xff"), TEXT("v")) == KIT_NOT_TEXT && !pairs.handle.full);
    CHECK(kit_pairs_add_text(&pairs, TEXT("k"), TEXT("v\xff")) == KIT_NOT_TEXT && !pairs.handle.full);
    EACH_GROWTH(kit_pairs_add_text(&pairs, TEXT("route"), TEXT("a value of more than thirty bytes of text")), !pairs.handle.full);
    CHECK(!kit_pairs_add_text(&emptied, KIT_BYTES("k", 1), KIT_BYTES(NULL, 0)));
    CHECK(!kit_pairs_add_whole(&pairs, TEXT("status"), 200));
    CHECK(!kit_pairs_add_truth(&pairs, TEXT("cached"), true));
    CHECK(!kit_pairs_add_whole(&pairs, TEXT("attempt"), 1));
    EACH_GROWTH(kit_attributes_make(four, &pairs, &place), !four->handle.full && pairs.handle.full);
    CHECK(!kit_pairs_add_whole(&pairs, TEXT(""), 1));
    place = 77;
    CHECK(kit_attributes_make(&bad, &pairs, &place) == KIT_EMPTY_KEY && place == 4 && !bad.handle.full && pairs.handle.full);
    kit_pairs_free(&pairs), kit_pairs_free(&emptied);
}

static void writers(kit_plan *plan, kit_attributes *none, kit_attributes *four) {
    kit_writer writer = KIT_EMPTY, nothing = KIT_EMPTY;
    kit_export collected = KIT_EMPTY;
    size_t number = 77;
    CHECK(kit_writer_start(&writer, (void *)&nothing, TEXT("shop"), 0, 1, 100) == KIT_NOTHING && !writer.handle.full);
    CHECK(kit_writer_start(&writer, plan, TEXT("\xff"), 0, 1, 100) == KIT_NOT_TEXT && !writer.handle.full);
    EACH_GROWTH(kit_writer_start(&writer, plan, TEXT("a service of more than thirty bytes"), 0, 1, 100), !writer.handle.full && plan->handle.full);
    CHECK(kit_writer_start(&writer, plan, TEXT("shop"), 0, 1, 100) == KIT_FULL && writer.handle.full);
    kit_writer_free(&writer);
    CHECK(!kit_writer_start(&writer, plan, TEXT("shop"), 0, 1, 100));

    EACH_GROWTH(kit_writer_measure(&writer, 0, none, 3, &place), writer.handle.full && none->handle.full);
    EACH_GROWTH(kit_writer_hold(&writer, 0, none, &number), number == 77);
    CHECK(number == 0);
    refused = 1; /* (a pair that is held takes no memory) */
    CHECK(!kit_writer_hold(&writer, 0, none, &number) && number == 0 && refused == 1);
    CHECK(!kit_writer_measure_held(&writer, number, 1, &place)); /* (where the place can't be noted the value is recorded all the same) */
    refused = 0;
    CHECK(!kit_writer_measure_held(&writer, number, 1, &place));
    refused = 1; /* (at a place that is known no memory is taken) */
    CHECK(!kit_writer_measure_held(&writer, number, 2, &place) && refused == 1);
    refused = 0;
    CHECK(!kit_writer_hold(&writer, 1, none, &number) && number == 1 && !kit_writer_hold(&writer, 0, four, &number) && number == 2);
    CHECK(!kit_writer_hold(&writer, 0, none, &number) && number == 0);
    CHECK(kit_writer_hold(&writer, 2, none, &number) == KIT_NO_INSTRUMENT && number == 0);
    CHECK(kit_writer_hold(&nothing, 0, none, &number) == KIT_NOTHING && kit_writer_hold(&writer, 0, (void *)&nothing, &number) == KIT_NOTHING);

    CHECK(kit_writer_measure(&writer, 2, none, 1, &place) == KIT_NO_INSTRUMENT);
    CHECK(kit_writer_measure(&writer, 0, none, -1, &place) == KIT_NEGATIVE);
    place = 77;
    CHECK(kit_writer_measure(&writer, 0, none, INT64_MAX, &place) == KIT_OVERFLOW && place == 0);
    CHECK(kit_writer_measure_held(&writer, 3, 1, &place) == KIT_NO_HELD);
    CHECK(kit_writer_measure_held(&writer, number, -1, &place) == KIT_NEGATIVE);
    CHECK(kit_writer_measure(&nothing, 0, none, 1, &place) == KIT_NOTHING && !nothing.handle.full);
    CHECK(kit_writer_measure(&writer, 0, (void *)&nothing, 1, &place) == KIT_NOTHING && !nothing.handle.full && writer.handle.full);
    CHECK(kit_writer_measure((void *)none, 0, none, 1, &place) != KIT_OK && none->handle.full); /* one handle given twice */
    CHECK(kit_writer_measure(&writer, 0, (void *)&writer, 1, &place) != KIT_OK && writer.handle.full);
    CHECK(has_seven(&writer, 150));

    CHECK(kit_writer_collect(&writer, 150, &collected, &place) == KIT_TIME_NOT_AFTER && place == 150 && !collected.handle.full);
    CHECK(kit_writer_collect(&writer, 200, (void *)none, &place) == KIT_FULL && none->handle.full);
    CHECK(kit_writer_collect(&nothing, 200, &collected, &place) == KIT_NOTHING && !collected.handle.full);
    EACH_GROWTH(kit_writer_collect(&writer, 200, &collected, &place), !collected.handle.full && writer.handle.full);
    kit_export_free(&collected);
    EACH_GROWTH(kit_writer_shutdown(&writer, 300, &collected, &place), !collected.handle.full && writer.handle.full);
    kit_export_free(&collected);
    CHECK(kit_writer_measure(&writer, 0, none, 1, &place) == KIT_CLOSED);
    CHECK(kit_writer_measure_held(&writer, 0, 1, &place) == KIT_CLOSED && kit_writer_measure_held(&writer, 9, 1, &place) == KIT_CLOSED);
    CHECK(kit_writer_hold(&writer, 1, four, &number) == KIT_CLOSED && number == 0);
    CHECK(!kit_writer_hold(&writer, 0, four, &number) && number == 2); /* (it is held already) */
    CHECK(kit_writer_collect(&writer, 400, &collected, &place) == KIT_CLOSED && !collected.handle.full);
    CHECK(kit_writer_restart(&writer, 100, &place) == KIT_START_NOT_AFTER && place == 100);
    EACH_GROWTH(kit_writer_restart(&writer, 400, &place), kit_writer_measure(&writer, 0, none, 1, &place) == KIT_CLOSED);
    CHECK(!kit_writer_measure_held(&writer, 0, 7, &place) && has_seven(&writer, 500));
    kit_writer_free(&writer), kit_writer_free(&writer);
    CHECK(kit_writer_measure(&writer, 0, none, 1, &place) == KIT_NOTHING); /* an emptied one */
}

static void gateways(kit_plan *plan, kit_attributes *none, kit_attributes *four) {
    kit_writer writer = KIT_EMPTY, other = KIT_EMPTY;
    kit_export collected = KIT_EMPTY, twin = KIT_EMPTY, no_export = KIT_EMPTY;
    kit_gateway gateway = KIT_EMPTY, second_one = KIT_EMPTY, nothing = KIT_EMPTY;
    CHECK(!kit_writer_start(&writer, plan, TEXT("shop"), 0, 1, 100) && !kit_writer_measure(&writer, 0, none, 7, &place));
    CHECK(!kit_writer_start(&other, plan, TEXT("shop"), 0, 1, 100) && !kit_writer_measure(&other, 0, none, 8, &place));
    CHECK(!kit_writer_collect(&writer, 200, &collected, &place) && !kit_writer_collect(&other, 200, &twin, &place));
    EACH_GROWTH(kit_gateway_open(&gateway, 1), !gateway.handle.full);
    CHECK(kit_gateway_open(&gateway, 2) == KIT_FULL && tells(&gateway, NO_ROWS));
    CHECK(!kit_gateway_open(&second_one, 2));
    changed = 77, late = true;
    CHECK(kit_gateway_take(&nothing, &collected, &changed, &late) == KIT_NOTHING && kit_gateway_take(&gateway, &no_export, &changed, &late) == KIT_NOTHING);
    EACH_GROWTH(kit_gateway_take(&gateway, &collected, &changed, &late), changed == 77 && late && tells(&gateway, NO_ROWS) && reads(&gateway, 1, 0));
    CHECK(changed == 1 && !late && tells(&gateway, SEVEN) && reads(&gateway, 1, 1));
    CHECK(!kit_gateway_take(&gateway, &collected, &changed, &late) && changed == 0 && !late && tells(&gateway, SEVEN));
    CHECK(kit_gateway_merge(&nothing, &gateway, &changed) == KIT_NOTHING && kit_gateway_merge(&gateway, &nothing, &changed) == KIT_NOTHING && changed == 0);
    EACH_GROWTH(kit_gateway_merge(&second_one, &gateway, &changed), tells(&second_one, NO_ROWS));
    CHECK(changed == 1 && tells(&second_one, SEVEN));

    bool same = false;
    uint32_t id = 77;
    size_t points = 77;
    uint64_t count = 77;
    CHECK(!kit_gateway_same(&gateway, &second_one, &same) && same);
    CHECK(kit_gateway_read(&nothing, &id, &points, &count) == KIT_NOTHING && id == 77 && points == 77 && count == 77);
    CHECK(!kit_gateway_read(&gateway, &id, &points, &count) && id == 1 && points == 1 && count == 0);
    CHECK(!kit_gateway_take(&second_one, &twin, &changed, &late) && changed == 1);
    CHECK(!kit_gateway_read(&second_one, &id, &points, &count) && id == 2 && points == 1 && count == 1);
    CHECK(!kit_gateway_same(&gateway, &second_one, &same) && !same);

    CHECK(kit_gateway_take(&gateway, (void *)four, &changed, &late) == KIT_WRONG_KIND && four->handle.full);
    CHECK(kit_gateway_take(&gateway, (void *)&gateway, &changed, &late) != KIT_OK && tells(&gateway, SEVEN)); /* one handle given twice */
    CHECK(kit_gateway_merge(&gateway, &gateway, &changed) != KIT_OK && tells(&gateway, SEVEN));

    kit_ask ask = KIT_EMPTY;
    kit_rows rows = KIT_EMPTY;
    kit_text table = KIT_EMPTY;
    kit_pairs pairs = KIT_EMPTY;
    kit_keys keys = KIT_EMPTY;
    uint8_t text[4];
    size_t len = 77;
    CHECK(kit_ask_sum((void *)&gateway, TEXT("app"), TEXT("requests"), TEXT("1"), true) == KIT_FULL);
    CHECK(kit_ask_gauge(&ask, TEXT("\xff"), TEXT("requests"), TEXT("1")) == KIT_NOT_TEXT && !ask.handle.full);
    const int64_t bounds[] = {1, 2, 3};
    EACH_GROWTH(kit_ask_histogram(&ask, TEXT("app"), TEXT("size"), TEXT("By"), bounds, 3), !ask.handle.full);
    kit_ask_free(&ask);
    CHECK(!kit_ask_sum(&ask, TEXT("app"), TEXT("requests"), TEXT("1"), true));
    EACH_GROWTH(kit_ask_service(&ask, TEXT("a service of more than thirty bytes")), ask.handle.full);
    CHECK(!kit_ask_service(&ask, TEXT("shop")));
    EACH_GROWTH(kit_keys_add(&keys, TEXT("a key of more than thirty bytes of text")), !keys.handle.full);
    EACH_GROWTH(kit_ask_keep(&ask, &keys), ask.handle.full && keys.handle.full);
    CHECK(!kit_pairs_add_whole(&pairs, TEXT("status"), 200));
    EACH_GROWTH(kit_ask_only(&ask, &pairs), ask.handle.full && pairs.handle.full);
    kit_ask_free(&ask);
    CHECK(!kit_ask_sum(&ask, TEXT("app"), TEXT("requests"), TEXT("1"), true));
    CHECK(kit_gateway_rows(&gateway, &ask, (void *)&ask) == KIT_FULL);
    CHECK(kit_gateway_rows((void *)&rows, &ask, (void *)&table) == KIT_NOTHING && !table.handle.full);
    EACH_GROWTH(kit_gateway_rows(&gateway, &ask, &rows), !rows.handle.full);
    EACH_GROWTH(kit_rows_table(&rows, &table), !table.handle.full && rows.handle.full);
    size_t rows_len = 77;
    kit_row row = {.points = 77};
    kit_rows no_rows = KIT_EMPTY;
    CHECK(!kit_rows_len(&rows, &rows_len) && rows_len == 1);
    CHECK(kit_rows_read(&no_rows, 0, &row) == KIT_NOTHING && kit_rows_read(&rows, 1, &row) == KIT_NO_ROW && row.points == 77);
    CHECK(!kit_rows_read(&rows, 0, &row) && is_row(row, (kit_row){.points = 1, .sum_low = 7, .shape = KIT_SHAPE_SUM}));
    CHECK(!kit_text_copy(&table, text, sizeof text, &len) && len == strlen(SEVEN) && !memcmp(text, SEVEN, sizeof text));

    /* Two writers, whose sums leave 64 bits together. */
    kit_writer wide[2] = {KIT_EMPTY, KIT_EMPTY};
    kit_rows wide_rows = KIT_EMPTY;
    for (uint64_t i = 0; i < 2; i++) {
        kit_export_free(&collected);
        CHECK(!kit_writer_start(&wide[i], plan, TEXT("wide"), 0, i, 100) && !kit_writer_measure(&wide[i], 0, none, INT64_MAX, &place));
        CHECK(!kit_writer_collect(&wide[i], 200, &collected, &place) && !kit_gateway_take(&gateway, &collected, &changed, &late));
        kit_writer_free(&wide[i]);
    }
    CHECK(!kit_ask_service(&ask, TEXT("wide")) && !kit_gateway_rows(&gateway, &ask, &wide_rows));
    CHECK(!kit_rows_read(&wide_rows, 0, &row) && is_row(row, (kit_row){.points = 2, .sum_low = UINT64_MAX - 1, .shape = KIT_SHAPE_SUM}));
    kit_rows_free(&wide_rows);

    kit_handle *all[] = {&writer.handle, &other.handle, &collected.handle, &twin.handle, &gateway.handle, &second_one.handle, &ask.handle, &rows.handle, &table.handle, &pairs.handle, &keys.handle};
    for (size_t i = 0; i < sizeof all / sizeof *all; i++) {
        kit_free(all[i]);
        CHECK(!all[i]->full);
    }
}

/* Sums below 0, of one writer and of two that leave 64 bits together. */
static void below_0(void) {
    kit_instruments instruments = KIT_EMPTY;
    kit_views none = KIT_EMPTY;
    kit_plan plan = KIT_EMPTY;
    kit_pairs pairs = KIT_EMPTY;
    kit_attributes set = KIT_EMPTY;
    kit_gateway gateway = KIT_EMPTY;
    kit_ask ask = KIT_EMPTY;
    const int64_t values[] = {-7, INT64_MIN, INT64_MIN};
    const kit_row wanted[] = {{.points = 1, .sum_high = -1, .sum_low = (uint64_t)-7, .shape = KIT_SHAPE_SUM},
                              {.points = 2, .sum_high = -1, .sum_low = (uint64_t)INT64_MAX + 1 - 7, .shape = KIT_SHAPE_SUM},
                              {.points = 3, .sum_high = -2, .sum_low = (uint64_t)-7, .shape = KIT_SHAPE_SUM}};
    CHECK(!kit_instruments_add(&instruments, TEXT("app"), TEXT("queue"), TEXT("1"), KIT_UP_DOWN));
    CHECK(!kit_plan_build(&plan, &instruments, &none, 1, &place, &second) && !kit_attributes_make(&set, &pairs, &place));
    CHECK(!kit_gateway_open(&gateway, 1) && !kit_ask_sum(&ask, TEXT("app"), TEXT("queue"), TEXT("1"), false));
    for (uint64_t i = 0; i < 3; i++) {
        kit_writer writer = KIT_EMPTY;
        kit_export made = KIT_EMPTY;
        kit_rows rows = KIT_EMPTY;
        kit_row row = {0};
        CHECK(!kit_writer_start(&writer, &plan, TEXT("shop"), 0, i, 100) && !kit_writer_measure(&writer, 0, &set, values[i], &place));
        CHECK(!kit_writer_collect(&writer, 200, &made, &place) && !kit_gateway_take(&gateway, &made, &changed, &late));
        CHECK(!kit_gateway_rows(&gateway, &ask, &rows) && !kit_rows_read(&rows, 0, &row) && is_row(row, wanted[i]));
        kit_writer_free(&writer), kit_export_free(&made), kit_rows_free(&rows);
    }
    kit_instruments_free(&instruments), kit_plan_free(&plan), kit_attributes_free(&set), kit_gateway_free(&gateway), kit_ask_free(&ask);
}

/* Two writers under one identity: a gauge that has a conflict alone. */
static void gauges(void) {
    kit_instruments instruments = KIT_EMPTY;
    kit_views views_of = KIT_EMPTY;
    kit_plan plan = KIT_EMPTY;
    kit_pairs pairs = KIT_EMPTY;
    kit_attributes none = KIT_EMPTY;
    kit_gateway gateway = KIT_EMPTY;
    kit_ask ask = KIT_EMPTY;
    kit_rows rows = KIT_EMPTY;
    kit_row row = {0};
    CHECK(!kit_instruments_add(&instruments, TEXT("app"), TEXT("depth"), TEXT("1"), KIT_GAUGE));
    CHECK(!kit_plan_build(&plan, &instruments, &views_of, 1, &place, &second) && !kit_attributes_make(&none, &pairs, &place));
    CHECK(!kit_gateway_open(&gateway, 1) && !kit_ask_gauge(&ask, TEXT("app"), TEXT("depth"), TEXT("1")));
    for (int64_t i = 0; i < 2; i++) {
        kit_writer writer = KIT_EMPTY;
        kit_export collected = KIT_EMPTY;
        CHECK(!kit_writer_start(&writer, &plan, TEXT("shop"), 0, 1, 100) && !kit_writer_measure(&writer, 0, &none, 7 + i, &place));
        CHECK(!kit_writer_collect(&writer, 200, &collected, &place) && !kit_gateway_take(&gateway, &collected, &changed, &late));
        CHECK(!kit_gateway_rows(&gateway, &ask, &rows));
        const kit_row newest = {.points = 1, .time = 200, .value = 7, .shape = KIT_SHAPE_GAUGE, .has_value = true};
        CHECK(!kit_rows_read(&rows, 0, &row) && is_row(row, i == 0 ? newest : (kit_row){.conflicts = 1, .shape = KIT_SHAPE_GAUGE}));
        kit_writer_free(&writer), kit_export_free(&collected), kit_rows_free(&rows);
    }
    kit_instruments_free(&instruments), kit_plan_free(&plan), kit_attributes_free(&none), kit_gateway_free(&gateway), kit_ask_free(&ask);
}

/* Rows of a histogram of the bounds 10 and 20: as numbers, with two writers whose counts' sums leave 64 bits together. */
static void histograms(void) {
    const int64_t bounds[] = {10, 20}, values[] = {3, 10, 11, 50};
    kit_instruments instruments = KIT_EMPTY;
    kit_view view = KIT_EMPTY;
    kit_views list = KIT_EMPTY;
    kit_plan plan = KIT_EMPTY;
    kit_pairs pairs = KIT_EMPTY;
    kit_attributes none = KIT_EMPTY;
    kit_writer writer = KIT_EMPTY, other = KIT_EMPTY;
    kit_export collected = KIT_EMPTY;
    kit_gateway gateway = KIT_EMPTY;
    kit_ask ask = KIT_EMPTY;
    kit_rows rows = KIT_EMPTY;
    kit_row row = {0};
    kit_count buckets[4] = {{0}};
    size_t len = 77;
    CHECK(!kit_instruments_add(&instruments, TEXT("app"), TEXT("size"), TEXT("By"), KIT_HISTOGRAM));
    CHECK(!kit_view_of_name(&view, TEXT("size")) && !kit_view_buckets(&view, bounds, 2) && !kit_views_add(&list, &view));
    CHECK(!kit_plan_build(&plan, &instruments, &list, 1, &place, &second) && !kit_attributes_make(&none, &pairs, &place));
    CHECK(!kit_writer_start(&writer, &plan, TEXT("shop"), 0, 1, 100) && !kit_gateway_open(&gateway, 1));
    for (size_t i = 0; i < 4; i++) {
        CHECK(!kit_writer_measure(&writer, 0, &none, values[i], &place));
    }
    CHECK(!kit_writer_collect(&writer, 200, &collected, &place) && !kit_gateway_take(&gateway, &collected, &changed, &late));
    CHECK(!kit_ask_histogram(&ask, TEXT("app"), TEXT("size"), TEXT("By"), bounds, 2) && !kit_gateway_rows(&gateway, &ask, &rows));

    kit_row wanted = {.points = 1, .sum_low = 74, .count_low = 4, .least = 3, .greatest = 50, .buckets = 3, .shape = KIT_SHAPE_HISTOGRAM, .has_range = true};
    CHECK(!kit_rows_read(&rows, 0, &row) && is_row(row, wanted));
    CHECK(kit_rows_buckets(&rows, 1, buckets, 4, &len) == KIT_NO_ROW && kit_rows_buckets((void *)&pairs, 0, buckets, 4, &len) == KIT_NOTHING && len == 77);
    CHECK(!kit_rows_buckets(&rows, 0, buckets, 0, &len) && len == 3 && !buckets[0].low);
    CHECK(!kit_rows_buckets(&rows, 0, buckets, 2, &len) && len == 3 && buckets[0].low == 2 && buckets[1].low == 1 && !buckets[2].low);
    CHECK(!kit_rows_buckets(&rows, 0, buckets, 4, &len) && len == 3 && buckets[2].low == 1 && !buckets[2].high && !buckets[3].low);
    kit_rows_free(&rows), kit_export_free(&collected);

    CHECK(!kit_writer_start(&other, &plan, TEXT("shop"), 0, 2, 100) && !kit_writer_measure(&other, 0, &none, INT64_MAX, &place));
    CHECK(!kit_writer_collect(&other, 200, &collected, &place) && !kit_gateway_take(&gateway, &collected, &changed, &late));
    CHECK(!kit_gateway_rows(&gateway, &ask, &rows));
    wanted.points = 2, wanted.sum_low = (uint64_t)INT64_MAX + 74, wanted.count_low = 5, wanted.greatest = INT64_MAX;
    CHECK(!kit_rows_read(&rows, 0, &row) && is_row(row, wanted));

    uint64_t time = 77;
    CHECK(kit_gateway_newest(&gateway, TEXT("\xff"), 0, 1, 100, &time) == KIT_NOT_TEXT && time == 77);
    CHECK(kit_gateway_newest((void *)&pairs, TEXT("shop"), 0, 1, 100, &time) == KIT_NOTHING && time == 77);
    CHECK(kit_gateway_newest(&gateway, TEXT("shop"), 0, 3, 100, &time) == KIT_NO_POINT && time == 77);
    refused = 1;
    CHECK(kit_gateway_newest(&gateway, TEXT("a service of more than thirty bytes"), 0, 1, 100, &time) == KIT_NO_MEMORY && time == 77);
    refused = 0;
    CHECK(!kit_gateway_newest(&gateway, TEXT("shop"), 0, 1, 100, &time) && time == 200);
    kit_handle *all[] = {&instruments.handle, &view.handle, &list.handle, &plan.handle, &none.handle, &writer.handle, &other.handle, &collected.handle, &gateway.handle, &ask.handle, &rows.handle};
    for (size_t i = 0; i < sizeof all / sizeof *all; i++) {
        kit_free(all[i]);
    }
}

/* Gateways tell each other what changed. */
static void gossip(kit_plan *plan, kit_attributes *none) {
    kit_gateway one = KIT_EMPTY, other = KIT_EMPTY, nothing = KIT_EMPTY;
    kit_writer writer = KIT_EMPTY;
    kit_export collected = KIT_EMPTY;
    kit_message sent = KIT_EMPTY, answer = KIT_EMPTY, no_message = KIT_EMPTY;
    uint32_t from = 77, to = 77;
    size_t points = 77;
    bool answered = true;
    CHECK(!kit_writer_start(&writer, plan, TEXT("shop"), 0, 1, 100) && !kit_writer_measure(&writer, 0, none, 7, &place));
    CHECK(!kit_writer_collect(&writer, 200, &collected, &place));
    CHECK(!kit_gateway_open(&one, 1) && !kit_gateway_open(&other, 2) && !kit_gateway_take(&one, &collected, &changed, &late));

    CHECK(kit_gateway_send(&nothing, 2, &sent) == KIT_NOTHING && kit_gateway_send(&one, 2, (void *)&writer) == KIT_FULL && !sent.handle.full);
    EACH_GROWTH(kit_gateway_send(&one, 2, &sent), !sent.handle.full && one.handle.full);
    CHECK(kit_message_read(&no_message, &from, &to, &points) == KIT_NOTHING && from == 77 && to == 77 && points == 77);
    CHECK(!kit_message_read(&sent, &from, &to, &points) && from == 1 && to == 2 && points == 1);
    CHECK(kit_gateway_hand(&one, &sent, &answer, &answered) == KIT_NOT_ADDRESSED && !answer.handle.full && answered);
    BEFORE_MEMORY(kit_gateway_hand(&one, &sent, &answer, &answered), KIT_NOT_ADDRESSED);
    CHECK(kit_gateway_hand(&other, &sent, (void *)&writer, &answered) == KIT_FULL);
    CHECK(kit_gateway_hand(&nothing, &sent, &answer, &answered) == KIT_NOTHING && kit_gateway_hand(&other, &no_message, &answer, &answered) == KIT_NOTHING);
    answered = false;
    EACH_GROWTH(kit_gateway_hand(&other, &sent, &answer, &answered), !answer.handle.full && !answered && tells(&other, NO_ROWS));
    CHECK(answer.handle.full && answered && sent.handle.full && tells(&other, SEVEN) && reads(&other, 2, 1));
    CHECK(!kit_message_read(&answer, &from, &to, &points) && from == 2 && to == 1 && points == 0);
    kit_message_free(&sent);
    EACH_GROWTH(kit_gateway_hand(&one, &answer, &sent, &answered), !sent.handle.full && answered);
    BEFORE_MEMORY(kit_gateway_hand(&one, &answer, &sent, &answered), KIT_OK); /* an Ack of an id that acknowledged before takes none */
    CHECK(!sent.handle.full && !answered && !kit_gateway_send(&one, 2, &sent));
    CHECK(!kit_message_read(&sent, &from, &to, &points) && from == 1 && to == 2 && points == 0); /* all of it was acknowledged */

    /* One that came back under its old id is sent no more than what changed since: under a new one all. */
    kit_message_free(&sent), kit_gateway_free(&other);
    CHECK(!kit_gateway_open(&other, 2) && !kit_gateway_send(&one, 3, &sent));
    CHECK(!kit_message_read(&sent, &from, &to, &points) && to == 3 && points == 1 && tells(&other, NO_ROWS));
    kit_handle *all[] = {&one.handle, &other.handle, &writer.handle, &collected.handle, &sent.handle, &answer.handle};
    for (size_t i = 0; i < sizeof all / sizeof *all; i++) {
        kit_free(all[i]);
        CHECK(!all[i]->full);
    }
}

/* A seat is its writer's alone: two shared writers, of which each has what its own seats recorded. */
static void writers_apart(kit_plan *plan, kit_attributes *none) {
    kit_writer writers[2] = {KIT_EMPTY, KIT_EMPTY};
    kit_seat seats[2] = {KIT_EMPTY, KIT_EMPTY}, made[2] = {KIT_EMPTY, KIT_EMPTY};
    kit_export collected = KIT_EMPTY;
    kit_gateway gateway = KIT_EMPTY;
    for (uint64_t i = 0; i < 2; i++) {
        CHECK(!kit_writer_start(&writers[i], plan, TEXT("shop"), 0, i + 1, 100) && !kit_writer_share(&writers[i], &seats[i]));
        CHECK(!kit_seat_split(&seats[i], &made[i]) && !kit_seat_measure(&seats[i], 0, none, i ? 7 : 1, &place));
    }
    CHECK(!kit_seat_measure(&made[0], 0, none, 1, &place) && !kit_gateway_open(&gateway, 1));
    CHECK(!kit_seat_collect(&made[1], 200, &collected, &place) && !kit_gateway_take(&gateway, &collected, &changed, &late) && tells(&gateway, SEVEN));
    for (int i = 0; i < 2; i++) kit_seat_free(&seats[i]), kit_seat_free(&made[i]);
    kit_export_free(&collected), kit_gateway_free(&gateway);
}

/* Seats hold pairs: what was held when the writer was shared has its number at each, at no memory; another has one that each may use. */
static void seats_hold(kit_seat *seat, kit_seat *more, kit_attributes *none, kit_attributes *four) {
    kit_seat nothing = KIT_EMPTY;
    size_t number = 77;
    refused = 1;
    CHECK(!kit_seat_hold(seat, 0, none, &number) && number == 0 && !kit_seat_hold(more, 0, none, &number) && number == 0 && refused == 1);
    refused = 0;
    number = 77;
    EACH_GROWTH(kit_seat_hold(seat, 0, four, &number), number == 77 && kit_seat_measure_held(more, 1, 1, &place) == KIT_NO_HELD);
    CHECK(number == 1 && !kit_seat_hold(seat, 0, four, &number) && number == 1);
    CHECK(kit_seat_measure_held(more, 1, -1, &place) == KIT_NEGATIVE && !kit_seat_hold(more, 0, four, &number) && number == 2);
    CHECK(kit_seat_hold(seat, 2, four, &number) == KIT_NO_INSTRUMENT && number == 2);
    CHECK(kit_seat_hold(&nothing, 0, none, &number) == KIT_NOTHING && kit_seat_hold(seat, 0, (void *)&nothing, &number) == KIT_NOTHING);
}

/* Seats at one writer, in one thread: what each refuses, and that all of them record into it. */
static void seats(kit_plan *plan, kit_attributes *none, kit_attributes *four) {
    kit_writer writer = KIT_EMPTY;
    kit_seat seat = KIT_EMPTY, more = KIT_EMPTY, nothing = KIT_EMPTY;
    kit_export collected = KIT_EMPTY;
    kit_gateway gateway = KIT_EMPTY;
    size_t number = 77;
    CHECK(kit_writer_share(&writer, &seat) == KIT_NOTHING && !seat.handle.full);
    CHECK(!kit_writer_start(&writer, plan, TEXT("shop"), 0, 1, 100) && !kit_writer_hold(&writer, 0, none, &number));
    CHECK(!kit_writer_measure_held(&writer, number, 1, &place));
    CHECK(kit_writer_share(&writer, (void *)none) == KIT_FULL && writer.handle.full);
    EACH_GROWTH(kit_writer_share(&writer, &seat), !seat.handle.full && !kit_writer_measure_held(&writer, number, 0, &place));
    CHECK(!writer.handle.full && kit_writer_share(&writer, &seat) == KIT_FULL);
    CHECK(kit_seat_split(&seat, (void *)none) == KIT_FULL && kit_seat_split(&nothing, &more) == KIT_NOTHING && !more.handle.full);
    EACH_GROWTH(kit_seat_split(&seat, &more), !more.handle.full && seat.handle.full);

    CHECK(!kit_seat_measure(&seat, 0, none, 2, &place) && !kit_seat_measure(&more, 0, none, 3, &place));
    CHECK(!kit_seat_measure_held(&more, number, 1, &place));
    CHECK(kit_seat_measure_held(&more, 1, 1, &place) == KIT_NO_HELD && kit_seat_measure(&more, 2, none, 1, &place) == KIT_NO_INSTRUMENT);
    seats_hold(&seat, &more, none, four);
    CHECK(kit_seat_measure(&nothing, 0, none, 1, &place) == KIT_NOTHING && kit_seat_measure(&seat, 0, (void *)&nothing, 1, &place) == KIT_NOTHING);
    CHECK(kit_seat_measure((void *)none, 0, none, 1, &place) != KIT_OK);
    CHECK(kit_seat_measure(&seat, 0, none, -1, &place) == KIT_NEGATIVE);
    place = 77;
    CHECK(kit_seat_measure(&seat, 0, none, INT64_MAX, &place) == KIT_OVERFLOW && place == 0);

    CHECK(kit_seat_collect(&seat, 200, (void *)none, &place) == KIT_FULL && kit_seat_collect(&nothing, 200, &collected, &place) == KIT_NOTHING);
    CHECK(kit_seat_collect(&seat, 100, &collected, &place) == KIT_TIME_NOT_AFTER && place == 100 && !collected.handle.full);
    /* Each growth of a collection is in the midst of it, where another seat's calls are to find the writer in use. */
    for (int i = 0; i < 3; i++) meddled[i] = KIT_OK;
    meddles = &seat, meets = meddle;
    refused = 3;
    CHECK(kit_seat_collect(&more, 200, &collected, &place) == KIT_NO_MEMORY && !meets);
    refused = 0;
    CHECK(meddled[0] == KIT_BUSY && meddled[1] == KIT_BUSY && meddled[2] == KIT_BUSY && seat.handle.full);
    EACH_GROWTH(kit_seat_collect(&more, 200, &collected, &place), !collected.handle.full && more.handle.full);
    kit_seat_free(&more);
    CHECK(!kit_gateway_open(&gateway, 1) && !kit_gateway_take(&gateway, &collected, &changed, &late) && tells(&gateway, SEVEN));
    kit_export_free(&collected);
    CHECK(kit_seat_collect(&seat, 200, &collected, &place) == KIT_TIME_NOT_AFTER && place == 200 && !collected.handle.full);
    uint32_t made = 2; /* (the first one, and the one that was freed) */
    int32_t code = KIT_OK;
    while (!(code = kit_seat_split(&seat, &more))) {
        kit_seat_free(&more), made++;
    }
    CHECK(code == KIT_SEATS_FULL && made == 4096 && !more.handle.full && !kit_seat_measure_held(&seat, number, 1, &place));
    kit_seat_free(&seat), kit_export_free(&collected), kit_gateway_free(&gateway);
}

/* A plan of one counter requests and one instrument of a kind, under a limit. */
static void plan_under(kit_plan *plan, uint8_t kind, uint64_t limit) {
    kit_instruments instruments = KIT_EMPTY;
    kit_views views = KIT_EMPTY;
    CHECK(!kit_instruments_add(&instruments, TEXT("app"), TEXT("requests"), TEXT("1"), KIT_COUNTER));
    CHECK(!kit_instruments_add(&instruments, TEXT("app"), TEXT("size"), TEXT("By"), kind));
    CHECK(!kit_plan_build(plan, &instruments, &views, limit, &place, &second));
    kit_instruments_free(&instruments);
}

static size_t len_of(kit_recorder *recorder) {
    size_t count = 77;
    CHECK(!kit_recorder_len(recorder, &count));
    return count;
}

/* The blocks that sharing a writer takes. */
static struct { void *at; size_t size; } blocks[64];
static size_t noted = 0;

static void note(void *at, size_t size) {
    CHECK(noted < sizeof blocks / sizeof *blocks);
    blocks[noted].at = at, blocks[noted].size = size, noted++;
}

void __real_free(void *at);

void __wrap_free(void *at) {
    for (size_t i = 0; i < noted; i++) {
        if (blocks[i].at == at) blocks[i].size = 0;
    }
    __real_free(at);
}

/* Writes a number in the place of the only word of these blocks that is another. */
static void poke(uint64_t number, uint64_t other) {
    uint64_t *found = NULL;
    for (size_t i = 0; i < noted; i++) {
        uint64_t *words = blocks[i].at;
        for (size_t word = 0; word < blocks[i].size / sizeof *words; word++) {
            if (words[word] != number) continue;
            CHECK(!found);
            found = &words[word];
        }
    }
    CHECK(found);
    *found = other;
}

/* A shared writer that may accept no more than 3 changes. */
static void exhausted(kit_plan *plan, kit_attributes *none, kit_attributes *four) {
    kit_writer writer = KIT_EMPTY;
    kit_seat seat = KIT_EMPTY;
    kit_recorder recorder = KIT_EMPTY;
    kit_export collected = KIT_EMPTY;
    kit_taken told = {.first = 77};
    size_t number = 77;
    CHECK(!kit_writer_start(&writer, plan, TEXT("shop"), 0, 1, 100));
    notes = note;
    CHECK(!kit_writer_share(&writer, &seat));
    notes = NULL;
    poke(UINT64_C(1) << 62, 3);
    CHECK(!kit_seat_measure(&seat, 0, none, 7, &place) && !kit_seat_hold(&seat, 0, none, &number) && number == 0);
    CHECK(!kit_seat_measure_held(&seat, 0, 1, &place));
    place = 77;
    CHECK(kit_seat_measure(&seat, 0, none, 7, &place) == KIT_EXHAUSTED && kit_seat_measure_held(&seat, 0, 1, &place) == KIT_EXHAUSTED);
    CHECK(kit_seat_hold(&seat, 0, four, &number) == KIT_EXHAUSTED && !kit_seat_hold(&seat, 0, none, &number) && number == 0);
    CHECK(kit_seat_collect(&seat, 200, &collected, &place) == KIT_EXHAUSTED && !collected.handle.full && place == 77);
    CHECK(!kit_recorder_new(&recorder, 8) && !kit_recorder_measure_held(&recorder, 0, 1));
    CHECK(kit_seat_take_in(&seat, &recorder, 1, &told) == KIT_EXHAUSTED && told.first == 77 && len_of(&recorder) == 1);
    kit_seat_free(&seat), kit_recorder_free(&recorder);
}

/* Whether what was told of a log says so. */
static bool says(kit_taken told, size_t recorded, size_t refused_ones, int32_t code, size_t first, uint64_t stream) {
    return told.recorded == recorded && told.refused == refused_ones && told.code == code && told.first == first && told.place == stream;
}

/* What is refused of a log is refused by itself and told, each cause once; where memory is wanting the rest stays. */
static void logs_in(kit_attributes *none, kit_attributes *four) {
    kit_plan plan = KIT_EMPTY;
    kit_writer writer = KIT_EMPTY;
    kit_recorder log = KIT_EMPTY;
    kit_taken told = {0};
    plan_under(&plan, KIT_UP_DOWN, 7);
    CHECK(!kit_writer_start(&writer, &plan, TEXT("shop"), 0, 1, 100) && !kit_recorder_new(&log, 8));
    CHECK(!kit_recorder_measure(&log, 0, none, 3) && !kit_recorder_measure(&log, 0, none, -1) && !kit_recorder_measure(&log, 0, none, 4));
    CHECK(!kit_writer_take_in(&writer, &log, SIZE_MAX, &told) && says(told, 2, 1, KIT_NEGATIVE, 1, 0) && !len_of(&log));
    CHECK(!kit_recorder_measure(&log, 2, none, 1) && !kit_writer_take_in(&writer, &log, 1, &told));
    CHECK(says(told, 0, 1, KIT_NO_INSTRUMENT, 0, 0));
    CHECK(!kit_recorder_measure_held(&log, 0, 1) && !kit_writer_take_in(&writer, &log, 1, &told) && says(told, 0, 1, KIT_NO_HELD, 0, 0));
    CHECK(!kit_recorder_measure(&log, 1, none, 0) && !kit_recorder_measure(&log, 1, none, INT64_MAX));
    CHECK(!kit_recorder_measure(&log, 1, none, 1));
    CHECK(!kit_writer_take_in(&writer, &log, SIZE_MAX, &told) && says(told, 2, 1, KIT_OVERFLOW, 2, 1) && has_seven(&writer, 150));
    CHECK(!kit_recorder_measure(&log, 0, none, 0) && !kit_recorder_measure(&log, 1, four, 1) && !kit_recorder_measure(&log, 0, none, 0));
    for (unsigned growth = 1; len_of(&log); growth++) {
        size_t before = len_of(&log);
        refused = growth;
        CHECK(!kit_writer_take_in(&writer, &log, SIZE_MAX, &told) && says(told, before - len_of(&log), 0, KIT_OK, 0, 0));
        refused = 0;
    }
    CHECK(!kit_writer_take_in(&writer, &log, SIZE_MAX, &told) && says(told, 0, 0, KIT_OK, 0, 0) && has_seven(&writer, 160));
    kit_plan_free(&plan), kit_writer_free(&writer), kit_recorder_free(&log);
}

/* Logs: what each of their calls refuses, and that writers and seats take in what they have, or leave it where they are closed. */
static void recorders(kit_plan *plan, kit_attributes *none) {
    kit_writer writer = KIT_EMPTY;
    kit_seat seat = KIT_EMPTY;
    kit_recorder recorder = KIT_EMPTY, nothing = KIT_EMPTY;
    kit_export collected = KIT_EMPTY;
    kit_taken told = {.recorded = 77};
    size_t number = 77;
    CHECK(!kit_writer_start(&writer, plan, TEXT("shop"), 0, 1, 100) && !kit_writer_hold(&writer, 0, none, &number));
    CHECK(kit_recorder_new((void *)&writer, 1) == KIT_FULL && kit_recorder_new(&recorder, SIZE_MAX) == KIT_NO_MEMORY && !recorder.handle.full);
    EACH_GROWTH(kit_recorder_new(&recorder, 3), !recorder.handle.full);
    CHECK(kit_recorder_len(&nothing, &number) == KIT_NOTHING && number == 0);
    CHECK(kit_recorder_clear(&nothing) == KIT_NOTHING && writer.handle.full);
    EACH_GROWTH(kit_recorder_measure(&recorder, 0, none, 1), !len_of(&recorder));
    refused = 1; /* (a number takes no memory, nor does a set that is there) */
    CHECK(!kit_recorder_measure_held(&recorder, number, 2) && !kit_recorder_measure(&recorder, 0, none, 4) && refused == 1);
    refused = 0;
    CHECK(kit_recorder_measure(&recorder, 0, none, 1) == KIT_RECORDER_FULL && len_of(&recorder) == 3);
    CHECK(kit_recorder_measure_held(&recorder, number, 1) == KIT_RECORDER_FULL);
    CHECK(kit_recorder_measure(&nothing, 0, none, 1) == KIT_NOTHING && kit_recorder_measure(&recorder, 0, (void *)&nothing, 1) == KIT_NOTHING);
    CHECK(kit_recorder_measure_held(&nothing, 0, 1) == KIT_NOTHING);

    CHECK(kit_writer_take_in((void *)&nothing, &recorder, 1, &told) == KIT_NOTHING);
    CHECK(kit_writer_take_in(&writer, &nothing, 1, &told) == KIT_NOTHING);
    CHECK(told.recorded == 77 && len_of(&recorder) == 3);
    CHECK(!kit_writer_take_in(&writer, &recorder, 2, &told) && says(told, 2, 0, KIT_OK, 0, 0) && len_of(&recorder) == 1);
    CHECK(!kit_writer_take_in(&writer, &recorder, 0, &told) && says(told, 0, 0, KIT_OK, 0, 0) && len_of(&recorder) == 1);
    CHECK(!kit_writer_take_in(&writer, &recorder, 2, &told) && says(told, 1, 0, KIT_OK, 0, 0) && has_seven(&writer, 150));
    CHECK(!kit_recorder_measure_held(&recorder, number, 7) && !kit_recorder_clear(&recorder) && !len_of(&recorder));
    CHECK(kit_recorder_measure_held(&recorder, (size_t)1 << 32, 1) == KIT_RECORDER_FULL);
    CHECK(!kit_recorder_measure_held(&recorder, number, 7));

    CHECK(!kit_writer_shutdown(&writer, 200, &collected, &place));
    CHECK(kit_writer_take_in(&writer, &recorder, 1, &told) == KIT_CLOSED && len_of(&recorder) == 1);
    CHECK(kit_seat_take_in(&seat, &recorder, 1, &told) == KIT_NOTHING && !kit_writer_share(&writer, &seat));
    CHECK(kit_seat_take_in(&seat, &recorder, 1, &told) == KIT_CLOSED && len_of(&recorder) == 1 && says(told, 1, 0, KIT_OK, 0, 0));
    CHECK(kit_seat_take_in(&seat, &nothing, 1, &told) == KIT_NOTHING);
    kit_seat_free(&seat);
    CHECK(!kit_writer_start(&writer, plan, TEXT("shop"), 0, 2, 100) && !kit_writer_share(&writer, &seat));
    CHECK(!kit_seat_hold(&seat, 0, none, &number) && number == 0);
    CHECK(!kit_seat_take_in(&seat, &recorder, SIZE_MAX, &told) && says(told, 1, 0, KIT_OK, 0, 0) && !len_of(&recorder));
    kit_handle *all[] = {&writer.handle, &seat.handle, &recorder.handle, &nothing.handle, &collected.handle};
    for (size_t i = 0; i < sizeof all / sizeof *all; i++) {
        kit_free(all[i]);
    }
}

/* Puts the checksum of bytes behind them (Adler-32: RFC 1950, section 8.2). */
static void checksum(uint8_t *bytes, size_t len) {
    uint32_t sum = 1, sums = 0;
    for (size_t i = 0; i < len; i++) sum = (sum + bytes[i]) % 65521, sums = (sums + sum) % 65521;
    for (int i = 0; i < 4; i++) bytes[len + i] = (uint8_t)((sums << 16 | sum) >> (24 - 8 * i));
}

/* An export as bytes, and each way in which bytes are none. */
static void encodings(kit_plan *plan, kit_attributes *none) {
    kit_writer writer = KIT_EMPTY;
    kit_export collected = KIT_EMPTY, read = KIT_EMPTY;
    kit_bytes made = KIT_EMPTY;
    kit_gateway gateway = KIT_EMPTY;
    uint8_t bytes[1024], few[4] = {0};
    size_t len = 77, whole = 77;
    CHECK(!kit_writer_start(&writer, plan, TEXT("shop"), 0, 1, 100) && !kit_writer_measure(&writer, 0, none, 7, &place));
    CHECK(!kit_writer_collect(&writer, 200, &collected, &place));
    CHECK(kit_export_encode((void *)&made, (void *)&read) == KIT_NOTHING && !made.handle.full);
    CHECK(kit_export_encode(&collected, (void *)none) == KIT_FULL && len == 77);
    EACH_GROWTH(kit_export_encode(&collected, &made), !made.handle.full && collected.handle.full);
    CHECK(!kit_bytes_copy(&made, few, sizeof few, &len) && !kit_bytes_copy(&made, bytes, sizeof bytes, &whole));
    CHECK(len == whole && len > sizeof few && len < sizeof bytes && !memcmp(few, bytes, sizeof few));

    CHECK(kit_export_decode((void *)none, bytes, len, &place) == KIT_FULL && none->handle.full);
    EACH_GROWTH(kit_export_decode(&read, bytes, len, &place), !read.handle.full);
    CHECK(!kit_gateway_open(&gateway, 1) && !kit_gateway_take(&gateway, &read, &changed, &late) && tells(&gateway, SEVEN));
    CHECK(!kit_gateway_take(&gateway, &collected, &changed, &late) && changed == 0); /* it is the very export */
    kit_export_free(&read);
    for (size_t short_of = 0; short_of < len; short_of++) {
        CHECK(kit_export_decode(&read, bytes, short_of, &place) == KIT_TRUNCATED && place == short_of && !read.handle.full);
    }
    bytes[len] = 0;
    CHECK(kit_export_decode(&read, bytes, len + 1, &place) == KIT_NOT_CANONICAL && !read.handle.full);
    place = 77;
    bytes[0] ^= 1;
    CHECK(kit_export_decode(&read, bytes, len, &place) == KIT_BAD_MAGIC && place == 0);
    bytes[0] ^= 1, bytes[4] ^= 0x40;
    CHECK(kit_export_decode(&read, bytes, len, &place) == KIT_BAD_VERSION && place == 4);
    bytes[4] ^= 0x40, bytes[len - 1] ^= 1;
    CHECK(kit_export_decode(&read, bytes, len, &place) == KIT_BAD_CHECKSUM && place == len - 4 && !read.handle.full);
    uint8_t first = bytes[7];
    place = 77, bytes[7] = 0xff; /* (in the service) */
    CHECK(kit_export_decode(&read, bytes, len, &place) == KIT_NOT_TEXT && place == 6 && !read.handle.full);
    place = 77, bytes[7] = first, bytes[len - 5] = 13; /* (-7, of a sum that only rises) */
    checksum(bytes, len - 4);
    CHECK(kit_export_decode(&read, bytes, len, &place) == KIT_BAD_EXPORT && place == 77 && !read.handle.full);
    kit_writer_free(&writer), kit_export_free(&collected), kit_bytes_free(&made), kit_gateway_free(&gateway);
}

/* A gateway merges bytes of a message that carries the 7. */
static void merged_bytes(kit_gateway *gateway, const uint8_t *bytes, size_t len) {
    kit_gateway nothing = KIT_EMPTY;
    changed = 77, place = 77;
    CHECK(kit_gateway_merge_bytes(&nothing, bytes, len, &changed, &place) == KIT_NOTHING && !kit_gateway_open(gateway, 6));
    BEFORE_MEMORY(kit_gateway_merge_bytes(&nothing, bytes, 0, &changed, &place), KIT_NOTHING);
    for (size_t short_of = 0; short_of < len; short_of++) {
        CHECK(kit_gateway_merge_bytes(gateway, bytes, short_of, &changed, &place) == KIT_TRUNCATED && place == short_of && changed == 77);
    }
    EACH_GROWTH(kit_gateway_merge_bytes(gateway, bytes, len, &changed, &place), changed == 77 && reads(gateway, 6, 0));
    CHECK(changed == 1 && place == len - 1 && reads(gateway, 6, 1) && tells(gateway, SEVEN));
    CHECK(!kit_gateway_merge_bytes(gateway, bytes, len, &changed, &place) && changed == 0);
}

/* A message as bytes: they come to a gateway as the message itself does. */
static void told(kit_plan *plan, kit_attributes *none) {
    kit_writer writer = KIT_EMPTY;
    kit_export collected = KIT_EMPTY, none_read = KIT_EMPTY;
    kit_gateway one = KIT_EMPTY, other = KIT_EMPTY, merged = KIT_EMPTY;
    kit_message sent = KIT_EMPTY, read = KIT_EMPTY, answer = KIT_EMPTY;
    kit_bytes made = KIT_EMPTY;
    uint8_t bytes[1024];
    size_t len = 77;
    bool answered = false;
    CHECK(!kit_writer_start(&writer, plan, TEXT("shop"), 0, 1, 100) && !kit_writer_measure(&writer, 0, none, 7, &place));
    CHECK(!kit_writer_collect(&writer, 200, &collected, &place) && !kit_gateway_open(&one, 1) && !kit_gateway_open(&other, 2));
    CHECK(!kit_gateway_take(&one, &collected, &changed, &late) && !kit_gateway_send(&one, 2, &sent));
    CHECK(kit_message_encode((void *)&made, (void *)&read) == KIT_NOTHING && !made.handle.full);
    CHECK(kit_message_encode(&sent, (void *)none) == KIT_FULL && sent.handle.full);
    EACH_GROWTH(kit_message_encode(&sent, &made), !made.handle.full && sent.handle.full);
    CHECK(!kit_bytes_copy(&made, bytes, sizeof bytes, &len) && len < sizeof bytes);

    CHECK(kit_message_decode((void *)none, bytes, len, &place) == KIT_FULL && none->handle.full);
    EACH_GROWTH(kit_message_decode(&read, bytes, len, &place), !read.handle.full);
    CHECK(!kit_gateway_hand(&other, &read, &answer, &answered) && answered && tells(&other, SEVEN));
    kit_message_free(&read), kit_bytes_free(&made);
    CHECK(!kit_gateway_hand(&one, &answer, &read, &answered) && !answered && !read.handle.full);
    for (size_t short_of = 0; short_of < len; short_of++) {
        CHECK(kit_message_decode(&read, bytes, short_of, &place) == KIT_TRUNCATED && place == short_of && !read.handle.full);
    }
    merged_bytes(&merged, bytes, len);
    CHECK(kit_export_decode(&none_read, bytes, len, &place) == KIT_BAD_MAGIC && place == 3 && !none_read.handle.full);
    bytes[len - 1] ^= 1;
    CHECK(kit_message_decode(&read, bytes, len, &place) == KIT_BAD_CHECKSUM && place == len - 4 && !read.handle.full);
    place = 77, bytes[len - 5] = 13; /* (-7, of a sum that only rises) */
    checksum(bytes, len - 4);
    CHECK(kit_message_decode(&read, bytes, len, &place) == KIT_BAD_EXPORT && place == 77 && !read.handle.full);
    changed = 77, place = 77;
    CHECK(kit_gateway_merge_bytes(&merged, bytes, len, &changed, &place) == KIT_BAD_EXPORT && place == 77 && changed == 77 && reads(&merged, 6, 1));
    kit_handle *all[] = {&writer.handle, &collected.handle, &one.handle, &other.handle, &merged.handle, &sent.handle, &made.handle, &read.handle, &answer.handle};
    for (size_t i = 0; i < sizeof all / sizeof *all; i++) {
        kit_free(all[i]);
    }
}

/* Each code says something of its own, of which the front is copied that has room; what is no code says nothing. */
static void texts(void) {
    char said[128][128] = {{0}}, few[4];
    const struct {
        int32_t code;
        const char *says;
    } some[] = {{KIT_OK, "done"}, {KIT_NO_MEMORY, "memory was refused"}, {KIT_NO_ROW, "there is no row of this number"},
                {KIT_OVERFLOW, "a total would leave 64 bits"}, {KIT_EMPTY_KEY, "a key is empty"},
                {KIT_BAD_UNIT, "a unit has ASCII characters alone, and at most 63 of them"},
                {KIT_WRONG_SHAPE, "a value is of another shape"}, {KIT_NOT_ADDRESSED, "the message goes to another id"},
                {KIT_TRUNCATED, "bytes end within what they begin"}, {KIT_RECORDER_FULL, "a log has as many recordings as it may"},
                {KIT_MALFORMED, "bytes begin no field that can stand there"}, {KIT_ADOPTED, "the incarnation was adopted before"},
                {KIT_UNEXPORTED, "incarnations were adopted since the last export"}};
    for (int32_t code = 0; code < 128; code++) {
        size_t len = kit_code_text(code, (uint8_t *)said[code], 127);
        CHECK(len < 127 && !len == !strcmp(kit_code_name(code), "no code") && strlen(said[code]) == len);
        CHECK(kit_code_text(code, (uint8_t *)few, sizeof few) == len && !memcmp(few, said[code], len < sizeof few ? len : sizeof few));
        for (int32_t other = 0; len && other < code; other++) CHECK(strcmp(said[code], said[other]));
    }
    for (size_t i = 0; i < sizeof some / sizeof *some; i++) CHECK(!strcmp(said[some[i].code], some[i].says));
    CHECK(kit_version() == KIT_VERSION && !kit_code_text(-1, (uint8_t *)few, sizeof few) && !kit_code_text(INT32_MIN, (uint8_t *)few, 0));
}

static bool is(const uint8_t *text, size_t len, const char *wanted) { return len == strlen(wanted) && !memcmp(text, wanted, len); }

/* A set of four pairs, which is read pair by pair in the order of keys. */
static void sets(kit_attributes *four) {
    kit_attributes nothing = KIT_EMPTY;
    uint8_t text[64], kind = 77;
    size_t len = 77;
    int64_t whole = 77;
    CHECK(kit_attributes_len(&nothing, &len) == KIT_NOTHING && len == 77 && !kit_attributes_len(four, &len) && len == 4);
    CHECK(!kit_attributes_key(four, 0, text, sizeof text, &len) && is(text, len, "attempt"));
    CHECK(!kit_attributes_key(four, 3, text, 2, &len) && len == 6 && !memcmp(text, "st", 2));
    CHECK(!kit_attributes_value(four, 0, &kind, &whole) && kind == 1 && whole == 1);
    CHECK(!kit_attributes_value(four, 1, &kind, &whole) && kind == 2 && whole == 1);
    CHECK(!kit_attributes_value(four, 3, &kind, &whole) && kind == 1 && whole == 200);
    CHECK(!kit_attributes_value(four, 2, &kind, &whole) && kind == 0 && whole == 41);
    CHECK(!kit_attributes_text(four, 2, text, sizeof text, &len) && is(text, len, "a value of more than thirty bytes of text"));
    len = 77, kind = 77, whole = 77;
    CHECK(kit_attributes_key(four, 4, text, sizeof text, &len) == KIT_NO_ITEM && kit_attributes_text(four, 4, text, 1, &len) == KIT_NO_ITEM);
    CHECK(kit_attributes_value(four, 4, &kind, &whole) == KIT_NO_ITEM && kind == 77 && whole == 77);
    CHECK(kit_attributes_text(four, 0, text, sizeof text, &len) == KIT_WRONG_SHAPE && len == 77);
    CHECK(kit_attributes_key(&nothing, 0, text, sizeof text, &len) == KIT_NOTHING && kit_attributes_text(&nothing, 0, text, 1, &len) == KIT_NOTHING);
    CHECK(kit_attributes_value(&nothing, 0, &kind, &whole) == KIT_NOTHING && len == 77);
}

/* A gateway as bytes, and back, under another id. */
static void kept(kit_gateway *gateway) {
    kit_bytes bytes = KIT_EMPTY;
    kit_gateway again = KIT_EMPTY, none = KIT_EMPTY;
    uint8_t room[1024];
    size_t len = 77;
    bool same = false;
    CHECK(kit_gateway_encode(&none, &bytes) == KIT_NOTHING && !bytes.handle.full);
    EACH_GROWTH(kit_gateway_encode(gateway, &bytes), !bytes.handle.full && gateway->handle.full);
    CHECK(kit_gateway_encode(gateway, &bytes) == KIT_FULL && !kit_bytes_copy(&bytes, room, sizeof room, &len) && len < sizeof room);
    CHECK(!kit_gateway_open(&again, 7) && !kit_gateway_merge_bytes(&again, room, len, &changed, &place) && changed == 1 && reads(&again, 7, 1));
    CHECK(!kit_gateway_same(gateway, &again, &same) && same);
    kit_bytes_free(&bytes), kit_gateway_free(&again);
}

/* The streams of a plan, whose numbers are those that an overflow tells, and what is asked of them. */
static void streams(kit_plan *plan, kit_attributes *four) {
    kit_streams list = KIT_EMPTY, nothing = KIT_EMPTY;
    kit_plan no_plan = KIT_EMPTY;
    kit_writer writer = KIT_EMPTY;
    kit_export made = KIT_EMPTY, no_export = KIT_EMPTY;
    kit_gateway gateway = KIT_EMPTY, no_gateway = KIT_EMPTY;
    kit_ask ask = KIT_EMPTY;
    kit_rows rows = KIT_EMPTY;
    kit_attributes set = KIT_EMPTY;
    uint8_t text[64], shape = 77;
    size_t len = 77, many = 77;
    kit_row row = {0};
    int64_t bounds[20];
    CHECK(kit_plan_streams(&no_plan, &list) == KIT_NOTHING && !list.handle.full);
    EACH_GROWTH(kit_plan_streams(plan, &list), !list.handle.full);
    CHECK(kit_plan_streams(plan, &list) == KIT_FULL && !kit_streams_len(&list, &len) && len == 2 && kit_streams_len(&nothing, &len) == KIT_NOTHING);
    CHECK(!kit_streams_text(&list, 0, 0, text, sizeof text, &len) && is(text, len, "app"));
    CHECK(!kit_streams_text(&list, 1, 1, text, sizeof text, &len) && is(text, len, "size"));
    CHECK(!kit_streams_text(&list, 1, 2, text, sizeof text, &len) && is(text, len, "By"));
    CHECK(kit_streams_text(&list, 1, 3, text, sizeof text, &len) == KIT_BAD_NUMBER && len == 2);
    CHECK(kit_streams_text(&list, 2, 1, text, sizeof text, &len) == KIT_NO_ITEM && kit_streams_text(&nothing, 0, 0, text, 1, &len) == KIT_NOTHING);
    CHECK(!kit_streams_shape(&list, 0, &shape, &many) && shape == 0 && many == 0 && !kit_streams_shape(&list, 1, &shape, &many));
    CHECK(shape == 3 && many == 15 && kit_streams_shape(&list, 2, &shape, &many) == KIT_NO_ITEM);
    CHECK(kit_streams_shape(&nothing, 0, &shape, &many) == KIT_NOTHING && shape == 3 && many == 15);
    CHECK(!kit_streams_bounds(&list, 1, bounds, 20, &len) && len == 15 && bounds[0] == 0 && bounds[1] == 5 && bounds[14] == 10000);
    CHECK(kit_streams_bounds(&list, 2, bounds, 20, &len) == KIT_NO_ITEM && kit_streams_bounds(&nothing, 0, bounds, 20, &len) == KIT_NOTHING);
    CHECK(kit_ask_stream(&ask, &nothing, 0) == KIT_NOTHING && kit_ask_stream(&ask, &list, 2) == KIT_NO_ITEM && !ask.handle.full);
    EACH_GROWTH(kit_ask_stream(&ask, &list, 0), !ask.handle.full);
    CHECK(kit_ask_stream(&ask, &list, 0) == KIT_FULL);

    CHECK(!kit_writer_start(&writer, plan, TEXT("shop"), 8, 9, 100) && !kit_writer_measure(&writer, 0, four, 7, &place));
    CHECK(kit_writer_measure(&writer, 0, four, INT64_MAX, &place) == KIT_OVERFLOW);
    CHECK(!kit_streams_text(&list, place, 1, text, sizeof text, &len) && is(text, len, "requests"));
    CHECK(!kit_writer_collect(&writer, 200, &made, &place) && !kit_gateway_open(&gateway, 5) && !kit_gateway_take(&gateway, &made, &changed, &late));
    CHECK(!kit_gateway_rows(&gateway, &ask, &rows) && !kit_rows_read(&rows, 0, &row) && row.sum_low == 7 && !row.sum_high && !row.buckets);
    len = 77;
    CHECK(!kit_rows_buckets(&rows, 0, (kit_count[1]){{0}}, 1, &len) && len == 0 && kit_default_bounds(bounds, 20) == 15);
    EACH_GROWTH(kit_rows_attributes(&rows, 0, &set), !set.handle.full);
    CHECK(kit_rows_attributes(&rows, 0, &set) == KIT_FULL);
    sets(&set);
    kit_attributes_free(&set);
    CHECK(kit_rows_attributes(&rows, 1, &set) == KIT_NO_ROW && !set.handle.full);

    uint64_t high = 77, low = 77, start = 77, time = 77;
    CHECK(reads(&gateway, 5, 1));
    kept(&gateway);
    CHECK(kit_gateway_streams(&gateway, &list) == KIT_FULL && kit_gateway_streams(&no_gateway, &nothing) == KIT_NOTHING && !nothing.handle.full);
    EACH_GROWTH(kit_gateway_streams(&gateway, &nothing), !nothing.handle.full && gateway.handle.full);
    CHECK(!kit_streams_len(&nothing, &len) && len == 1 && !kit_streams_text(&nothing, 0, 1, text, sizeof text, &len) && is(text, len, "requests"));
    kit_streams_free(&nothing);
    CHECK(kit_export_streams(&no_export, &nothing) == KIT_NOTHING && kit_export_streams(&made, &list) == KIT_FULL && !nothing.handle.full);
    EACH_GROWTH(kit_export_streams(&made, &nothing), !nothing.handle.full && made.handle.full);
    CHECK(!kit_streams_len(&nothing, &len) && len == 1 && !kit_streams_text(&nothing, 0, 1, text, sizeof text, &len) && is(text, len, "requests"));
    CHECK(!kit_export_read(&made, &high, &low, &start, &time, &len) && high == 8 && low == 9 && start == 100 && time == 200 && len == 1);
    CHECK(!kit_export_service(&made, text, sizeof text, &len) && is(text, len, "shop"));
    kit_handle *all[] = {&list.handle, &nothing.handle, &writer.handle, &made.handle, &gateway.handle, &ask.handle, &rows.handle};
    for (size_t i = 0; i < sizeof all / sizeof *all; i++) kit_free(all[i]);
    CHECK(!reads(&gateway, 5, 1) && kit_export_service(&made, text, sizeof text, &len) == KIT_NOTHING);
    CHECK(kit_export_read(&made, &high, &low, &start, &time, &len) == KIT_NOTHING && kit_rows_attributes(&rows, 0, &set) == KIT_NOTHING);
}

int main(void) {
    kit_plan plan = KIT_EMPTY;
    kit_attributes none = KIT_EMPTY, four = KIT_EMPTY;
    views();
    plans(&plan);
    attributes(&none, &four);
    writers(&plan, &none, &four);
    gateways(&plan, &none, &four);
    below_0();
    gauges();
    histograms();
    gossip(&plan, &none);
    seats(&plan, &none, &four);
    exhausted(&plan, &none, &four);
    writers_apart(&plan, &none);
    recorders(&plan, &none);
    logs_in(&none, &four);
    encodings(&plan, &none);
    told(&plan, &none);
    texts();
    sets(&four);
    streams(&plan, &four);
    kit_plan_free(&plan), kit_attributes_free(&none), kit_attributes_free(&four);
    return 0;
}
