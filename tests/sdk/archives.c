/* Archives: every refusal of their calls, raised once, that it leaves all as it was, and each of their growths refused in turn
 * (linked with --wrap=malloc,--wrap=realloc); KIT_UNSOUND is not, since no call brings points that no export has. What a gateway tells of the
 * counter is the same before and after an adoption, and a live metric of a page stays on it, where the archive begins before every worker.
 * Prints the first check that does not hold and exits with 1, or exits with 0. */
#include "growths.h"

static uint64_t place, changed;
static bool late;

enum { LIMIT = 2 };

/* The plan of a counter, a gauge and a histogram. */
static void plan_of(kit_plan *plan) {
    kit_instruments instruments = KIT_EMPTY;
    kit_views views = KIT_EMPTY;
    uint64_t second = 0;
    CHECK(!kit_instruments_add(&instruments, TEXT("app"), TEXT("requests"), TEXT("1"), KIT_COUNTER));
    CHECK(!kit_instruments_add(&instruments, TEXT("app"), TEXT("depth"), TEXT("1"), KIT_GAUGE));
    CHECK(!kit_instruments_add(&instruments, TEXT("app"), TEXT("size"), TEXT("By"), KIT_HISTOGRAM));
    CHECK(!kit_plan_build(plan, &instruments, &views, KIT_DEFAULT_LIMIT, &place, &second));
    kit_instruments_free(&instruments);
}

/* What an instance of the shop recorded by an instrument from a start on, collected at a time. */
static void recorded(kit_export *made, uint64_t instance, uint64_t start, uint64_t time, size_t instrument, int64_t value) {
    kit_plan plan = KIT_EMPTY;
    kit_writer writer = KIT_EMPTY;
    kit_pairs pairs = KIT_EMPTY;
    kit_attributes none = KIT_EMPTY;
    plan_of(&plan);
    CHECK(!kit_attributes_make(&none, &pairs, &place) && !kit_writer_start(&writer, &plan, TEXT("shop"), 0, instance, start));
    CHECK(!kit_writer_measure(&writer, instrument, &none, value, &place) && !kit_writer_collect(&writer, time, made, &place));
    kit_plan_free(&plan), kit_writer_free(&writer), kit_attributes_free(&none);
}

/* A gateway takes that. */
static void took(kit_gateway *gateway, uint64_t instance, uint64_t start, uint64_t time, size_t instrument, int64_t value) {
    kit_export made = KIT_EMPTY;
    recorded(&made, instance, start, time, instrument, value);
    CHECK(!kit_gateway_take(gateway, &made, &changed, &late) && changed == 1 && !late);
    kit_export_free(&made);
}

/* The counter at a gateway comes to this total, of so many points. */
static bool totals(kit_gateway *gateway, uint64_t total, uint64_t points) {
    kit_ask ask = KIT_EMPTY;
    kit_rows rows = KIT_EMPTY;
    kit_row row = {0};
    CHECK(!kit_ask_sum(&ask, TEXT("app"), TEXT("requests"), TEXT("1"), true) && !kit_gateway_rows(gateway, &ask, &rows));
    bool fits = !kit_rows_read(&rows, 0, &row) && row.sum_low == total && !row.sum_high && row.points == points;
    kit_ask_free(&ask), kit_rows_free(&rows);
    return fits;
}

/* A gateway tells this id, and so many points. */
static bool reads(kit_gateway *gateway, uint32_t id, size_t points) {
    uint32_t told = 77;
    uint64_t conflicts = 77;
    size_t len = 77;
    return !kit_gateway_read(gateway, &told, &len, &conflicts) && told == id && len == points;
}

/* An archive tells this start, and so many adopted. */
static bool tells(kit_archive *archive, uint64_t start, size_t adopted) {
    uint64_t since = 77;
    size_t count = 77;
    return !kit_archive_read(archive, &since, &count) && since == start && count == adopted;
}

static int32_t adopt(kit_archive *archive, kit_gateway *gateway, uint64_t instance, uint64_t start) {
    return kit_archive_adopt(archive, gateway, TEXT("shop"), 0, instance, start);
}

/* What an archive adopts from a gateway that holds these: of the instances 1 and 2 the counter, of 3 a gauge, of 4 a histogram. */
static void adopted_by(kit_archive *archive, kit_gateway *gateway) {
    const uint8_t wrong[] = {0xff};
    kit_archive none = KIT_EMPTY;
    kit_gateway nothing = KIT_EMPTY;
    EACH_GROWTH(kit_archive_begin(archive, TEXT("shop"), 8, 1, 1000, LIMIT), !archive->handle.full);
    CHECK(kit_archive_begin(archive, TEXT("shop"), 8, 1, 1000, LIMIT) == KIT_FULL && tells(archive, 1000, 0));
    CHECK(kit_archive_begin(&none, wrong, 1, 8, 1, 1000, LIMIT) == KIT_NOT_TEXT && !none.handle.full);
    BEFORE_MEMORY(kit_archive_begin(&none, wrong, 1, 8, 1, 1000, LIMIT), KIT_NOT_TEXT);
    BEFORE_MEMORY(kit_archive_adopt(archive, gateway, wrong, 1, 0, 1, 100), KIT_NOT_TEXT);
    BEFORE_MEMORY(adopt(&none, gateway, 1, 100), KIT_NOTHING);
    BEFORE_MEMORY(adopt(archive, &nothing, 1, 100), KIT_NOTHING);
    CHECK(kit_archive_adopt(archive, gateway, TEXT("store"), 0, 1, 100) == KIT_OTHER_SERVICE);
    CHECK(kit_archive_adopt(archive, gateway, TEXT("shop"), 8, 1, 1000) == KIT_IS_ARCHIVE);
    CHECK(adopt(archive, gateway, 1, 101) == KIT_NO_POINT && tells(archive, 1000, 0));
    EACH_GROWTH(adopt(archive, gateway, 1, 100), tells(archive, 1000, 0));
    CHECK(adopt(archive, gateway, 1, 100) == KIT_ADOPTED && tells(archive, 1000, 1));
    CHECK(!adopt(archive, gateway, 2, 100) && !adopt(archive, gateway, 3, 100) && !adopt(archive, gateway, 4, 100) && tells(archive, 1000, 4));
}

/* What an archive does not adopt, of a gateway of its own. */
static void refused_of(kit_archive *archive) {
    kit_gateway gateway = KIT_EMPTY;
    kit_export made = KIT_EMPTY;
    CHECK(!kit_gateway_open(&gateway, 9));
    took(&gateway, 11, 100, 200, 0, 7);
    recorded(&made, 11, 100, 200, 0, 8); /* two writers of one identity */
    CHECK(!kit_gateway_take(&gateway, &made, &changed, &late) && adopt(archive, &gateway, 11, 100) == KIT_CONFLICT);
    took(&gateway, 12, 100, 200, 0, 7), took(&gateway, 12, 100, 201, 1, 7);
    CHECK(adopt(archive, &gateway, 12, 100) == KIT_TORN);
    took(&gateway, 13, 100, 200, 0, INT64_MAX);
    CHECK(adopt(archive, &gateway, 13, 100) == KIT_OUT_OF_RANGE);
    kit_gateway_free(&gateway), kit_export_free(&made);
}

/* An archive that may have one total alone. */
static void limited(kit_gateway *gateway) {
    kit_archive small = KIT_EMPTY;
    CHECK(!kit_archive_begin(&small, TEXT("shop"), 8, 2, 1000, 1) && !adopt(&small, gateway, 1, 100));
    CHECK(adopt(&small, gateway, 4, 100) == KIT_SET_LIMIT && tells(&small, 1000, 1));
    kit_archive_free(&small);
}

/* What an archive exports hides at a gateway what it adopted, and nothing else, and what comes of it later is late. */
static void exported(kit_archive *archive, kit_gateway *gateway) {
    kit_export made = KIT_EMPTY, again = KIT_EMPTY;
    kit_archive none = KIT_EMPTY;
    size_t points = 0;
    uint64_t high = 0, low = 0, start = 0, time = 0;
    CHECK(totals(gateway, 12, 3) && reads(gateway, 1, 5));
    CHECK(kit_archive_export(&none, 1100, &made) == KIT_NOTHING);
    BEFORE_MEMORY(kit_archive_export(archive, 1000, &made), KIT_TIME_NOT_LATER);
    CHECK(kit_archive_seal(archive, 2000) == KIT_UNEXPORTED && kit_archive_seal(&none, 2000) == KIT_NOTHING && tells(archive, 1000, 4));
    EACH_GROWTH(kit_archive_export(archive, 1100, &made), !made.handle.full && kit_archive_seal(archive, 2000) == KIT_UNEXPORTED);
    CHECK(kit_archive_export(archive, 1200, &made) == KIT_FULL && kit_archive_export(archive, 1100, &again) == KIT_TIME_NOT_LATER);
    CHECK(!kit_export_read(&made, &high, &low, &start, &time, &points) && high == 8 && low == 1 && start == 1000 && time == 1100 && points == 6);
    CHECK(adopt(archive, gateway, 1, 100) == KIT_ADOPTED && !again.handle.full);

    changed = 77, late = true;
    EACH_GROWTH(kit_gateway_take(gateway, &made, &changed, &late), changed == 77 && late && totals(gateway, 12, 3) && reads(gateway, 1, 5));
    CHECK(changed == 6 && !late && totals(gateway, 12, 2) && reads(gateway, 1, 7));
    recorded(&again, 1, 100, 300, 0, 9);
    changed = 77;
    /* (that an export is late is one look-up) */
    BEFORE_MEMORY(kit_gateway_take(gateway, &again, &changed, &late), KIT_OK);
    CHECK(changed == 0 && late && totals(gateway, 12, 2) && reads(gateway, 1, 7) && adopt(archive, gateway, 1, 100) == KIT_ADOPTED);
    kit_export_free(&made), kit_export_free(&again);
}

/* A gateway's page tells so many keys in either format, and has tombstones where they are asked for alone. */
static bool shows(kit_gateway *gateway, bool tombstones, const char *keys) {
    static char page[4096];
    kit_text texts[2] = {KIT_EMPTY, KIT_EMPTY};
    bool fits = true;
    CHECK(!kit_gateway_openmetrics(gateway, false, TEXT(""), tombstones, &texts[0]));
    CHECK(!kit_gateway_prometheus(gateway, true, TEXT("shop"), tombstones, &texts[1]));
    for (size_t i = 0; i < 2; i++) {
        size_t len = 0;
        CHECK(!kit_text_copy(&texts[i], (uint8_t *)page, sizeof page - 1, &len) && len < sizeof page);
        page[len] = 0;
        fits = fits && strstr(page, keys) && tombstones == !!strstr(page, "kotskhin.archive");
        kit_text_free(&texts[i]);
    }
    return fits;
}

/* What an archive exported hides what it adopted from whoever is told of it later, by a message, a merge or bytes. */
static void told_of(kit_gateway *gateway) {
    kit_gateway others[3] = {KIT_EMPTY, KIT_EMPTY, KIT_EMPTY};
    kit_message sent = KIT_EMPTY, answer = KIT_EMPTY;
    kit_export made = KIT_EMPTY;
    kit_bytes bytes = KIT_EMPTY;
    static uint8_t room[4096];
    size_t len = 0;
    bool answered = false, same = false;
    for (uint32_t i = 0; i < 3; i++) {
        CHECK(!kit_gateway_open(&others[i], i + 2));
        took(&others[i], 1, 100, 200, 0, 3); /* (which was adopted meanwhile) */
    }
    CHECK(!kit_gateway_send(gateway, 2, &sent) && !kit_gateway_hand(&others[0], &sent, &answer, &answered) && answered);
    CHECK(!kit_gateway_merge(&others[1], gateway, &changed) && !kit_gateway_encode(gateway, &bytes));
    CHECK(!kit_bytes_copy(&bytes, room, sizeof room, &len) && len < sizeof room && !kit_gateway_merge_bytes(&others[2], room, len, &changed, &place));
    recorded(&made, 1, 100, 300, 0, 9);
    for (size_t i = 0; i < 3; i++) {
        CHECK(!kit_gateway_same(gateway, &others[i], &same) && same && totals(&others[i], 12, 2));
        CHECK(!kit_gateway_take(&others[i], &made, &changed, &late) && changed == 0 && late);
        kit_gateway_free(&others[i]);
    }
    kit_message_free(&sent), kit_message_free(&answer), kit_export_free(&made), kit_bytes_free(&bytes);
}

/* A sealed archive begins anew, and adopts nothing again. */
static void sealed(kit_archive *archive, kit_gateway *gateway) {
    kit_archive none = KIT_EMPTY;
    uint64_t start = 77;
    size_t adopted = 77;
    CHECK(kit_archive_seal(archive, 1100) == KIT_START_NOT_LATER && tells(archive, 1000, 4));
    CHECK(!kit_archive_seal(archive, 2000) && tells(archive, 2000, 0) && adopt(archive, gateway, 1, 100) == KIT_ADOPTED);
    CHECK(kit_archive_read(&none, &start, &adopted) == KIT_NOTHING && start == 77 && adopted == 77);
}

/* The page of a gateway shows the sales of a worker that lives: a metric is shown as the youngest of those who have it says. */
static bool is_live_shown(kit_gateway *gateway) {
    kit_text text = KIT_EMPTY;
    static char told[4096];
    size_t len = 0;
    CHECK(!kit_gateway_prometheus(gateway, true, TEXT("shop"), false, &text) && !kit_text_copy(&text, (uint8_t *)told, sizeof told - 1, &len));
    CHECK(len < sizeof told);
    told[len] = 0;
    kit_text_free(&text);
    return strstr(told, "# TYPE sales gauge\n") && strstr(told, "\nsales{") && !strstr(told, "sales_total");
}

/* The sales of an instance of the shop, by a kind of instrument. */
static void sold(kit_gateway *gateway, int32_t kind, uint64_t instance, uint64_t start) {
    kit_instruments instruments = KIT_EMPTY;
    kit_views views = KIT_EMPTY;
    kit_plan plan = KIT_EMPTY;
    kit_writer writer = KIT_EMPTY;
    kit_pairs pairs = KIT_EMPTY;
    kit_attributes none = KIT_EMPTY;
    kit_export made = KIT_EMPTY;
    uint64_t second = 0;
    CHECK(!kit_instruments_add(&instruments, TEXT("app"), TEXT("sales"), TEXT("1"), kind) && !kit_attributes_make(&none, &pairs, &place));
    CHECK(!kit_plan_build(&plan, &instruments, &views, KIT_DEFAULT_LIMIT, &place, &second));
    CHECK(!kit_writer_start(&writer, &plan, TEXT("shop"), 0, instance, start) && !kit_writer_measure(&writer, 0, &none, 7, &place));
    CHECK(!kit_writer_collect(&writer, start + 100, &made, &place) && !kit_gateway_take(gateway, &made, &changed, &late) && changed == 1);
    kit_instruments_free(&instruments), kit_plan_free(&plan), kit_writer_free(&writer), kit_attributes_free(&none), kit_export_free(&made);
}

/* The sales of an old plan were a counter, those of today's are not. An archive that begins before every worker hides no live metric; one
 * that begins later shows the old plan's in its place. */
static void shown(uint64_t start, bool is_live) {
    kit_gateway gateway = KIT_EMPTY;
    kit_archive archive = KIT_EMPTY;
    kit_export made = KIT_EMPTY;
    CHECK(!kit_gateway_open(&gateway, 1));
    sold(&gateway, KIT_COUNTER, 1, 100), sold(&gateway, KIT_UP_DOWN, 2, 500);
    CHECK(is_live_shown(&gateway) && !kit_archive_begin(&archive, TEXT("shop"), 8, 3, start, LIMIT) && !adopt(&archive, &gateway, 1, 100));
    CHECK(!kit_archive_export(&archive, 2000, &made) && !kit_gateway_take(&gateway, &made, &changed, &late) && !late);
    CHECK(is_live_shown(&gateway) == is_live);
    kit_gateway_free(&gateway), kit_archive_free(&archive), kit_export_free(&made);
}

int main(void) {
    kit_gateway gateway = KIT_EMPTY;
    kit_archive archive = KIT_EMPTY;
    CHECK(!kit_gateway_open(&gateway, 1));
    took(&gateway, 1, 100, 200, 0, 3), took(&gateway, 2, 100, 201, 0, 4), took(&gateway, 3, 100, 202, 1, 5), took(&gateway, 4, 100, 203, 2, 6);
    took(&gateway, 5, 100, 204, 0, 5);
    adopted_by(&archive, &gateway);
    refused_of(&archive);
    limited(&gateway);
    exported(&archive, &gateway);
    CHECK(shows(&gateway, false, "\nkotskhin_keys 3\n") && shows(&gateway, true, "\nkotskhin_keys 7\n"));
    told_of(&gateway);
    sealed(&archive, &gateway);
    shown(1, true), shown(1000, false);
    kit_gateway_free(&gateway), kit_archive_free(&archive);
    return 0;
}
