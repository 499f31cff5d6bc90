/* What others read: an export as OTLP, byte by byte as any library for Protocol Buffers makes it, and read again; pages for Prometheus; and of which
 * incarnations and services a gateway holds points and a message carries some. Each refusal of these calls is raised once, and each of their growths is
 * refused in turn (linked with --wrap=malloc,--wrap=realloc); KIT_TOO_LONG wants an export of 2 GiB and is not. Prints the first check that
 * does not hold and exits with 1, or exits with 0. */
#include "growths.h"

static uint64_t place, changed;
static bool late;

static bool is(const uint8_t *text, size_t len, const char *wanted) { return len == strlen(wanted) && !memcmp(text, wanted, len); }

/* The plan of a counter, and of a histogram where bounds are given. */
static void plan_of(kit_plan *plan, const int64_t *bounds, size_t count) {
    kit_instruments instruments = KIT_EMPTY;
    kit_view view = KIT_EMPTY;
    kit_views views = KIT_EMPTY;
    uint64_t second = 0;
    CHECK(!kit_instruments_add(&instruments, TEXT("app"), TEXT("requests"), TEXT("1"), KIT_COUNTER));
    if (count) {
        CHECK(!kit_instruments_add(&instruments, TEXT("app"), TEXT("size"), TEXT("By"), KIT_HISTOGRAM));
        CHECK(!kit_view_of_name(&view, TEXT("size")) && !kit_view_buckets(&view, bounds, count) && !kit_views_add(&views, &view));
    }
    CHECK(!kit_plan_build(plan, &instruments, &views, KIT_DEFAULT_LIMIT, &place, &second));
    kit_instruments_free(&instruments), kit_view_free(&view), kit_views_free(&views);
}

/* What an instance of a service recorded from a start on: 7 of each instrument, collected at a time. */
static void export_of(kit_export *made, const char *service, uint64_t instance, uint64_t start, uint64_t time, const int64_t *bounds, size_t count) {
    kit_plan plan = KIT_EMPTY;
    kit_writer writer = KIT_EMPTY;
    kit_pairs pairs = KIT_EMPTY;
    kit_attributes none = KIT_EMPTY;
    plan_of(&plan, bounds, count);
    CHECK(!kit_attributes_make(&none, &pairs, &place));
    CHECK(!kit_writer_start(&writer, &plan, KIT_BYTES(service, strlen(service)), 0x1122334455667788, instance, start));
    for (size_t instrument = 0; instrument <= !!count; instrument++) CHECK(!kit_writer_measure(&writer, instrument, &none, 7, &place));
    CHECK(!kit_writer_collect(&writer, time, made, &place));
    kit_plan_free(&plan), kit_writer_free(&writer), kit_attributes_free(&none);
}

/* The request of one counter at 7: the resource's two attributes, the scope, and a monotonic cumulative sum of one point. */
static const uint8_t request[] =
    "\x0a\x95\x01"
    "\x0a\x58"
    "\x0a\x3d\x0a\x13service.instance.id\x12\x26\x0a\x24""11223344-5566-7788-0000-000000000001"
    "\x0a\x17\x0a\x0cservice.name\x12\x07\x0a\x05store"
    "\x12\x39"
    "\x0a\x05\x0a\x03""app"
    "\x12\x30\x0a\x08requests\x1a\x01\x31\x3a\x21"
    "\x0a\x1b\x11\x64\0\0\0\0\0\0\0\x19\xc8\0\0\0\0\0\0\0\x31\x07\0\0\0\0\0\0\0"
    "\x10\x02\x18\x01";

static void otlp(void) {
    const int64_t close[] = {1, INT64_C(9007199254740992), INT64_C(9007199254740993)};
    kit_export made = KIT_EMPTY, nothing = KIT_EMPTY;
    kit_bytes bytes = KIT_EMPTY;
    uint8_t told[1024];
    size_t len = 77;
    export_of(&made, "store", 1, 100, 200, NULL, 0);
    CHECK(kit_export_otlp(&nothing, &bytes, &place) == KIT_NOTHING && !bytes.handle.full);
    place = 77;
    EACH_GROWTH(kit_export_otlp(&made, &bytes, &place), !bytes.handle.full && made.handle.full && place == 77);
    CHECK(kit_export_otlp(&made, &bytes, &place) == KIT_FULL && place == 77);
    CHECK(!kit_bytes_copy(&bytes, told, sizeof told, &len));
    CHECK(len == sizeof request - 1 && !memcmp(told, request, len));
    kit_export_free(&made), kit_bytes_free(&bytes);
    /* (as doubles the last two of these bounds are equal) */
    export_of(&made, "store", 1, 100, 200, close, 3);
    CHECK(kit_export_otlp(&made, &bytes, &place) == KIT_OTLP_BOUNDS && place == 1 && !bytes.handle.full && made.handle.full);
    kit_export_free(&made);
}

/* Bytes of Protocol Buffers, piece by piece. */
typedef struct piece { uint8_t at[4096]; size_t len; } piece;

static piece raw(const void *at, size_t len) {
    piece made = {.len = len};
    CHECK(len <= sizeof made.at);
    memcpy(made.at, at, len);
    return made;
}

#define RAW(text) raw(text, sizeof(text) - 1)

static piece and(piece one, piece other) {
    CHECK(one.len + other.len <= sizeof one.at);
    memcpy(one.at + one.len, other.at, other.len);
    one.len += other.len;
    return one;
}

/* A field of a message. */
static piece field(char tag, piece of) {
    char head[] = {tag, (char)(of.len | 0x80), (char)(of.len >> 7)};
    return of.len < 0x80 ? and(raw((char[]){tag, (char)of.len}, 2), of) : and(raw(head, 3), of);
}

#define SERVICE "\x0a\x17\x0a\x0cservice.name\x12\x07\x0a\x05store"
#define INSTANCE "\x0a\x3d\x0a\x13service.instance.id\x12\x26\x0a\x24""11223344-5566-7788-0000-000000000001"
#define WHO SERVICE INSTANCE
#define START "\x11\x64\0\0\0\0\0\0\0"
#define TIME "\x19\xc8\0\0\0\0\0\0\0"
#define SEVEN "\x31\x07\0\0\0\0\0\0\0"
#define CUMULATIVE "\x10\x02\x18\x01"
#define SOME "\x21\1\0\0\0\0\0\0\0\x32\x08\1\0\0\0\0\0\0\0"

/* The request of one resource, one scope and one metric. */
static piece of(piece resource, piece metric) {
    piece scope = and(RAW("\x0a\x05\x0a\x03""app"), field(0x12, metric));
    return field(0x0a, and(field(0x0a, resource), field(0x12, scope)));
}

static piece metric(piece data) { return of(RAW(WHO), and(RAW("\x0a\x01m"), data)); }

static piece sum(piece point) { return metric(field(0x3a, and(field(0x0a, point), RAW(CUMULATIVE)))); }

static piece gauge(piece point) { return metric(field(0x2a, field(0x0a, point))); }

static piece histogram(piece point) { return metric(field(0x4a, and(field(0x0a, and(RAW(START TIME SOME), point)), RAW("\x10\x02")))); }

/* What reading bytes as a request answers, and the place that it tells: nothing is read. */
static int32_t answer(piece bytes) {
    kit_exports list = KIT_EMPTY;
    place = 77;
    int32_t code = kit_exports_of_otlp(&list, bytes.at, bytes.len, &place);
    CHECK(!list.handle.full);
    return code;
}

static piece two_versions(void) {
    piece app = field(0x0a, RAW("\x0a\x03""app")), other = field(0x0a, RAW("\x0a\x03""app\x12\x01""2"));
    return field(0x0a, and(field(0x0a, RAW(WHO)), and(field(0x12, app), field(0x12, other))));
}

/* A metric of a long name, without points. */
static piece named(size_t len) {
    char name[2048];
    memset(name, 'm', sizeof name);
    return of(RAW(WHO), and(field(0x0a, raw(name, len)), field(0x2a, RAW(""))));
}

/* An attribute of a point: its key, and the field of its value. */
static piece with(const char *key, piece value) { return field(0x3a, and(field(0x0a, raw(key, strlen(key))), field(0x12, value))); }

/* So many of them. */
static piece many(int count) {
    piece made = RAW("");
    for (int i = 0; i < count; i++) {
        char key[] = {(char)('a' + i / 16), (char)('a' + i % 16), 0};
        made = and(made, with(key, RAW("\x10\x01")));
    }
    return made;
}

/* Two scopes, of which the second, which makes an export of its own, is that of tombstones. */
static piece tombstone(void) {
    piece one = and(RAW("\x0a\x01m"), field(0x2a, field(0x0a, RAW(START TIME SEVEN))));
    piece other = and(RAW("\x0a\x01n"), field(0x2a, field(0x0a, RAW(START "\x19\xc9\0\0\0\0\0\0\0" SEVEN))));
    piece first = field(0x12, and(RAW("\x0a\x05\x0a\x03""app"), field(0x12, one)));
    piece second = field(0x12, and(RAW("\x0a\x12\x0a\x10""kotskhin.archive"), field(0x12, other)));
    return field(0x0a, and(field(0x0a, RAW(WHO)), and(first, second)));
}

static void requests(void) {
    piece seven = RAW(START TIME SEVEN), point = field(0x0a, seven), truth = RAW("\x10\x01");
    CHECK(answer(RAW("\x0a\x05")) == KIT_MALFORMED && place == 0);
    CHECK(answer(of(RAW("\x0a\x13\x0a\x0cservice.name\x12\x03\x0a\x01\xff"), RAW(""))) == KIT_NOT_TEXT && place == 24);
    CHECK(answer(of(RAW(INSTANCE), RAW(""))) == KIT_NO_SERVICE && place == 0);
    CHECK(answer(of(RAW(SERVICE), RAW(""))) == KIT_NO_INSTANCE && place == 0);
    CHECK(answer(of(RAW(SERVICE "\x0a\x1a\x0a\x13service.instance.id\x12\x03\x0a\x01" "7"), RAW(""))) == KIT_NOT_UUID && place == 0);
    CHECK(answer(two_versions()) == KIT_SCOPE_TWICE && place == 1);
    CHECK(answer(metric(field(0x52, RAW("")))) == KIT_EXPONENTIAL_HISTOGRAM && place == 0);
    CHECK(answer(metric(field(0x5a, RAW("")))) == KIT_SUMMARY && answer(metric(RAW(""))) == KIT_NO_DATA && place == 0);
    CHECK(answer(metric(field(0x3a, and(point, RAW("\x10\x01"))))) == KIT_DELTA && place == 0);
    CHECK(answer(metric(field(0x3a, point))) == KIT_NO_TEMPORALITY && place == 0);
    CHECK(answer(gauge(and(seven, RAW("\x40\x01")))) == KIT_NO_RECORDED_VALUE && place == 0);
    CHECK(answer(sum(RAW(TIME SEVEN))) == KIT_UNKNOWN_START && answer(sum(RAW(START TIME))) == KIT_NO_POINT_VALUE && place == 0);
    CHECK(answer(gauge(RAW(TIME "\x21\0\0\0\0\0\0\xf0\x3f"))) == KIT_FLOAT_VALUE && place == 0);
    CHECK(answer(histogram(RAW(""))) == KIT_NO_SUM && answer(histogram(RAW("\x29\0\0\0\0\0\0\xe0\x3f"))) == KIT_NOT_WHOLE && place == 0);
    CHECK(answer(histogram(RAW("\x29\0\0\0\0\0\0\x40\x43"))) == KIT_INEXACT && place == 0);
    CHECK(answer(histogram(RAW("\x29\0\0\0\0\0\0\0\0\x3a\x10\0\0\0\0\0\0\0\x40\0\0\0\0\0\0\xf0\x3f"))) == KIT_NOT_RISING && place == 0);
    CHECK(answer(histogram(RAW("\x29\0\0\0\0\0\0\0\0\x59\0\0\0\0\0\0\0\0"))) == KIT_HALF_RANGE && place == 0);
    CHECK(answer(sum(and(seven, with("", truth)))) == KIT_NO_KEY && place == 0);
    CHECK(answer(sum(and(seven, and(with("k", truth), with("k", truth))))) == KIT_ATTRIBUTE_TWICE && place == 0);
    CHECK(answer(sum(and(seven, with("k", RAW("\x21\0\0\0\0\0\0\xf0\x3f"))))) == KIT_ATTRIBUTE_VALUE && place == 0);
    CHECK(answer(named(1025)) == KIT_TOO_LONG_TEXT && place < 1025);
    CHECK(answer(sum(and(seven, many(129)))) == KIT_TOO_MANY_ATTRIBUTES && place == 0);
    CHECK(answer(tombstone()) == KIT_RESERVED_POINT && place == 1);
    CHECK(answer(metric(field(0x3a, and(point, and(point, RAW(CUMULATIVE)))))) == KIT_NO_EXPORT && place == 0);
}

/* What was written is read, and comes to a gateway as what it was written of. */
static void read_again(void) {
    kit_exports list = KIT_EMPTY, nothing = KIT_EMPTY;
    kit_export made = KIT_EMPTY, read = KIT_EMPTY;
    kit_gateway one = KIT_EMPTY, other = KIT_EMPTY;
    size_t len = 77;
    bool same = false;
    CHECK(kit_exports_len(&nothing, &len) == KIT_NOTHING && kit_exports_read(&nothing, 0, &read) == KIT_NOTHING && len == 77);
    EACH_GROWTH(kit_exports_of_otlp(&list, request, sizeof request - 1, &place), !list.handle.full);
    CHECK(kit_exports_of_otlp(&list, request, sizeof request - 1, &place) == KIT_FULL && !kit_exports_len(&list, &len) && len == 1);
    CHECK(kit_exports_read(&list, 1, &read) == KIT_NO_ITEM && !read.handle.full);
    EACH_GROWTH(kit_exports_read(&list, 0, &read), !read.handle.full && list.handle.full);
    CHECK(kit_exports_read(&list, 0, &read) == KIT_FULL);
    export_of(&made, "store", 1, 100, 200, NULL, 0);
    CHECK(!kit_gateway_open(&one, 1) && !kit_gateway_open(&other, 1) && !kit_gateway_take(&one, &made, &changed, &late));
    CHECK(!kit_gateway_take(&other, &read, &changed, &late) && changed == 1 && !kit_gateway_same(&one, &other, &same) && same);
    kit_exports_free(&list);
    CHECK(!kit_exports_of_otlp(&list, KIT_BYTES(NULL, 0), &place) && !kit_exports_len(&list, &len) && len == 0);
    kit_handle *all[] = {&list.handle, &made.handle, &read.handle, &one.handle, &other.handle};
    for (size_t i = 0; i < sizeof all / sizeof *all; i++) kit_free(all[i]);
}

/* Whether a text, which is given up, has each of some lines, up to a null, and ends with the last one of them. */
static bool has(kit_text *text, const char *const *lines) {
    char told[4096] = {0};
    size_t len = 0;
    CHECK(!kit_text_copy(text, (uint8_t *)told, sizeof told - 1, &len) && len < sizeof told);
    kit_text_free(text);
    for (; *lines; lines++) {
        const char *at = strstr(told, *lines);
        if (at && (at == told || at[-1] == '\n') && (lines[1] || strlen(at) == strlen(*lines))) continue;
        printf("%s in\n%s", *lines, told);
        return false;
    }
    return true;
}

/* The three incarnations of shop are one row, and its newest time is 400 ns; Prometheus calls the family by its samples, and ends without a mark. */
#define ROW "requests_total{otel_scope_name=\"app\",service_name=\"shop\"} 21\n"
#define OTHER_ROW "requests_total{otel_scope_name=\"app\",service_name=\"a service of more than thirty bytes\"} 7\n"
#define NEWEST "kotskhin_newest_seconds{service_name=\"shop\"} 0.000000400\n"
static const char *const OF_SHOP[] = {"# TYPE requests counter\n", ROW, "kotskhin_keys 3\n", "# EOF\n", NULL};
static const char *const AS_TEXT[] = {"# TYPE requests_total counter\n", ROW, "kotskhin_keys 3\n", NEWEST, NULL};
static const char *const OF_ALL[] = {"# TYPE requests counter\n", ROW, OTHER_ROW, "kotskhin_keys 5\n", "# EOF\n", NULL};
static const char *const OF_NONE[] = {"kotskhin_keys 0\n", "# EOF\n", NULL};

static void pages(kit_gateway *gateway) {
    kit_gateway nothing = KIT_EMPTY;
    kit_text text = KIT_EMPTY, other = KIT_EMPTY;
    CHECK(kit_gateway_openmetrics(&nothing, false, TEXT(""), false, &text) == KIT_NOTHING && !text.handle.full);
    CHECK(kit_gateway_prometheus(&nothing, false, TEXT(""), false, &text) == KIT_NOTHING && !text.handle.full);
    CHECK(kit_gateway_openmetrics(gateway, true, TEXT("\xff"), false, &text) == KIT_NOT_TEXT && !text.handle.full);
    CHECK(kit_gateway_prometheus(gateway, true, TEXT("\xff"), false, &text) == KIT_NOT_TEXT && !text.handle.full);
    EACH_GROWTH(kit_gateway_prometheus(gateway, true, TEXT("shop"), false, &other), !other.handle.full && gateway->handle.full);
    EACH_GROWTH(kit_gateway_openmetrics(gateway, true, TEXT("shop"), false, &text), !text.handle.full && gateway->handle.full);
    CHECK(kit_gateway_openmetrics(gateway, false, TEXT(""), false, &text) == KIT_FULL && kit_gateway_prometheus(gateway, false, TEXT(""), false, &text) == KIT_FULL);
    CHECK(has(&text, OF_SHOP) && has(&other, AS_TEXT));
    CHECK(!kit_gateway_openmetrics(gateway, false, TEXT(""), false, &text) && !kit_gateway_openmetrics(gateway, true, TEXT("none"), false, &other));
    CHECK(has(&text, OF_ALL) && has(&other, OF_NONE));
}

/* The incarnations of a list: of a service and an instance, since a start, up to a time, with so many points. */
static bool lists(kit_incarnations *list, size_t number, const char *service, uint64_t instance, uint64_t from, uint64_t to, size_t many) {
    uint8_t text[64];
    uint64_t high = 0, low = 0, start = 0, newest = 0;
    size_t len = 0, points = 0;
    CHECK(!kit_incarnations_service(list, number, text, sizeof text, &len));
    CHECK(!kit_incarnations_read(list, number, &high, &low, &start, &newest, &points));
    return is(text, len, service) && high == 0x1122334455667788 && low == instance && start == from && newest == to && points == many;
}

static void incarnations(kit_gateway *gateway) {
    kit_gateway none = KIT_EMPTY, far = KIT_EMPTY;
    kit_message message = KIT_EMPTY, no_message = KIT_EMPTY;
    kit_incarnations list = KIT_EMPTY, nothing = KIT_EMPTY;
    uint8_t text[4] = {0};
    uint64_t high = 77, low = 77, start = 77, newest = 77;
    size_t len = 77;
    CHECK(kit_gateway_incarnations(&none, &list) == KIT_NOTHING && kit_message_incarnations(&no_message, &list) == KIT_NOTHING);
    CHECK(kit_incarnations_len(&nothing, &len) == KIT_NOTHING && kit_incarnations_service(&nothing, 0, text, 4, &len) == KIT_NOTHING);
    CHECK(kit_incarnations_read(&nothing, 0, &high, &low, &start, &newest, &len) == KIT_NOTHING && len == 77 && !list.handle.full);
    EACH_GROWTH(kit_gateway_incarnations(gateway, &list), !list.handle.full && gateway->handle.full);
    CHECK(kit_gateway_incarnations(gateway, &list) == KIT_FULL && !kit_incarnations_len(&list, &len) && len == 4);
    CHECK(lists(&list, 0, "a service of more than thirty bytes", 9, 100, 250, 2) && lists(&list, 1, "shop", 1, 100, 200, 1));
    CHECK(lists(&list, 2, "shop", 1, 300, 400, 1) && lists(&list, 3, "shop", 2, 100, 300, 1));
    len = 77;
    CHECK(kit_incarnations_service(&list, 4, text, 4, &len) == KIT_NO_ITEM && len == 77);
    CHECK(kit_incarnations_read(&list, 4, &high, &low, &start, &newest, &len) == KIT_NO_ITEM && len == 77 && high == 77 && newest == 77);
    CHECK(!kit_incarnations_service(&list, 0, text, 4, &len) && len == 35 && !memcmp(text, "a se", 4));
    kit_incarnations_free(&list);

    /* (a message of all that a gateway holds, an answer, which carries nothing, and one of what changed) */
    CHECK(!kit_gateway_send(gateway, 2, &message));
    EACH_GROWTH(kit_message_incarnations(&message, &list), !list.handle.full && message.handle.full);
    CHECK(kit_message_incarnations(&message, &list) == KIT_FULL && lists(&list, 2, "shop", 1, 300, 400, 1));
    CHECK(!kit_incarnations_len(&list, &len) && len == 4);
    kit_incarnations_free(&list);
    bool answered = false;
    CHECK(!kit_gateway_open(&far, 2) && !kit_gateway_hand(&far, &message, &no_message, &answered) && answered);
    CHECK(!kit_message_incarnations(&no_message, &list) && !kit_incarnations_len(&list, &len) && len == 0);
    kit_incarnations_free(&list), kit_message_free(&message);
    CHECK(!kit_gateway_hand(gateway, &no_message, &message, &answered) && !answered);
    kit_export made = KIT_EMPTY;
    export_of(&made, "other", 3, 100, 200, NULL, 0);
    CHECK(!kit_gateway_take(gateway, &made, &changed, &late) && !kit_gateway_send(gateway, 2, &message));
    CHECK(!kit_message_incarnations(&message, &list) && !kit_incarnations_len(&list, &len) && len == 1 && lists(&list, 0, "other", 3, 100, 200, 1));
    kit_handle *all[] = {&far.handle, &message.handle, &no_message.handle, &list.handle, &made.handle};
    for (size_t i = 0; i < sizeof all / sizeof *all; i++) kit_free(all[i]);
}

/* The services of a gateway: each once, however many of its instances and starts there are. */
static void services(kit_gateway *gateway) {
    kit_gateway nothing = KIT_EMPTY, none = KIT_EMPTY;
    uint8_t text[64] = {0};
    size_t len = 77;
    CHECK(!kit_gateway_open(&none, 2) && kit_gateway_service(&nothing, 0, text, sizeof text, &len) == KIT_NOTHING);
    CHECK(kit_gateway_service(&none, 0, text, sizeof text, &len) == KIT_NO_ITEM && kit_gateway_service(gateway, 2, text, sizeof text, &len) == KIT_NO_ITEM);
    CHECK(kit_gateway_service(gateway, SIZE_MAX, text, sizeof text, &len) == KIT_NO_ITEM && len == 77 && !text[0]);
    CHECK(!kit_gateway_service(gateway, 0, text, 4, &len) && len == 35 && !memcmp(text, "a se", 4) && !text[4]);
    CHECK(!kit_gateway_service(gateway, 0, text, sizeof text, &len) && is(text, len, "a service of more than thirty bytes"));
    CHECK(!kit_gateway_service(gateway, 1, text, sizeof text, &len) && is(text, len, "shop"));
    kit_gateway_free(&none);
}

int main(void) {
    const int64_t bounds[] = {10, 20};
    kit_gateway gateway = KIT_EMPTY;
    otlp();
    requests();
    read_again();
    CHECK(!kit_gateway_open(&gateway, 1));
    kit_export taken[4] = {KIT_EMPTY, KIT_EMPTY, KIT_EMPTY, KIT_EMPTY};
    export_of(&taken[0], "shop", 2, 100, 300, NULL, 0), export_of(&taken[1], "a service of more than thirty bytes", 9, 100, 250, bounds, 2);
    export_of(&taken[2], "shop", 1, 300, 400, NULL, 0), export_of(&taken[3], "shop", 1, 100, 200, NULL, 0);
    for (size_t i = 0; i < 4; i++) {
        CHECK(!kit_gateway_take(&gateway, &taken[i], &changed, &late));
        kit_export_free(&taken[i]);
    }
    services(&gateway);
    pages(&gateway);
    incarnations(&gateway); /* (which takes one more export) */
    kit_gateway_free(&gateway);
    return 0;
}
