/* Bytes whose texts, or whose points' keys, were picked to share a hash are written and read nearly as fast as others. The kit's hash has no
 * secret, so a sender can pick them: texts that would all stand at one slot of the table of an export, and sets whose hashes are equal.
 * Were texts or keys found by the hash alone, reading would take the square of their number, here some hundred times as long.
 *
 * So are bytes of which one pair of keys was picked, where keys of one set differ in the last byte of their scopes alone: the pair makes
 * reading look further than at the hashes of all keys. Scopes of 64 bytes are shared by the points of a stream, longer ones stand at each
 * point: were those shared too, comparing keys would take as long as the scopes are for points of a few bytes each.
 *
 * Each is compared with as many points, of about as many bytes, of which none was picked. Prints the first check that does not hold and exits
 * with 1; else the times.
 *
 *     chosen [POINTS]      how many points an export has, a power of two from 256 on. 8192 where nothing is said */
#define _POSIX_C_SOURCE 200809L
#include <kotskhin.h>
#include <stdio.h>
#include <stdlib.h>
#include <string.h>
#include <time.h>

#define TEXT(s) (const uint8_t *)(s), sizeof(s) - 1
#define CHECK(holds)                                                 \
    do {                                                             \
        if (!(holds)) {                                              \
            printf("line %d: %s does not hold\n", __LINE__, #holds); \
            exit(1);                                                 \
        }                                                            \
    } while (0)

/* How many slots the table has for each of so many texts; how often each is timed, and how much slower the picked ones may be. */
enum { SLOTS_EACH = 4, MOST = 1 << 13, LETTERS = 8, ROUNDS = 5, SLOWER = 40 };

/* How long a scope is that points share, and one that stands at each, of which there are fewer sets; and room for the bytes of the largest
 * export or message here. */
enum { SHARED = 64, LONG = 1 << 16, FEWER = 128, ROOM = 1 << 24 };

static size_t points = MOST;

static const uint64_t INITIAL = 0x243f6a8885a308d3, MULTIPLIER = 0x9e3779b97f4a7c15;
static const uint8_t END_OF_TEXT = 0xff;

static uint64_t place, changed, seed = 0x2545f4914f6cdd1d;
static bool late;

/* xorshift64* */
static uint64_t any(void) {
    seed ^= seed >> 12, seed ^= seed << 25, seed ^= seed >> 27;
    return seed * 0x2545f4914f6cdd1d;
}

/* (GNU C has it, ISO C has not) */
__extension__ typedef unsigned __int128 wide;

/* The kit's hash (FoldHasher of Rattle's library) takes up to 8 bytes at a time. */
static uint64_t fed(uint64_t state, const void *bytes, size_t len) {
    uint8_t padded[8] = {0};
    uint32_t low, high;
    uint64_t number;
    memcpy(padded, bytes, len);
    if (len >= 4) {
        memcpy(&low, padded, 4), memcpy(&high, padded + len - 4, 4);
        number = low | (uint64_t)high << 32;
    } else {
        number = len ? padded[0] | (uint64_t)padded[len / 2] << 8 | (uint64_t)padded[len - 1] << 16 : 0;
    }
    wide product = (wide)(state ^ number) * (MULTIPLIER ^ 2 * len);
    return (uint64_t)product ^ (uint64_t)(product >> 64);
}

static uint64_t fed_number(uint64_t state, uint64_t number) { return fed(state, &number, sizeof number); }

static uint64_t fed_text(uint64_t state, const char *text, size_t len) { return fed(fed(state, text, len), &END_OF_TEXT, 1); }

static void lettered(char *text) {
    uint64_t number = any();
    for (size_t i = 0; i < LETTERS; i++, number >>= 4) text[i] = (char)('a' + number % 16);
}

/* Any text, or one of those whose hash names the first slot. */
static void text_of(char *text, bool picked) {
    do lettered(text);
    while (picked && fed_text(INITIAL, text, LETTERS) % (SLOTS_EACH * points));
}

/* The whole number that makes the hash of the set of a text under `a` and of it under `z` zero. */
static int64_t zeroing(const char *text) {
    enum { A_TEXT = 0, A_WHOLE_NUMBER = 2 };
    uint64_t state = fed_text(fed_number(INITIAL, 2), "a", 1);
    state = fed_text(fed_number(state, A_TEXT), text, LETTERS);
    return (int64_t)fed_number(fed_text(state, "z", 1), A_WHOLE_NUMBER);
}

enum pick { NONE, ITS_TEXTS, ITS_SETS, A_PAIR };

/* The points of an export: so many streams, which differ in the last byte of scopes of one length, and the same sets in each. */
struct kind {
    size_t streams, scope, sets;
};

/* Of a pair the first two sets have one hash, and no others. */
static enum pick pick_of(enum pick pick, size_t set) {
    if (pick != A_PAIR) return pick;
    return set < 2 ? ITS_SETS : NONE;
}

static void recorded(kit_writer *writer, size_t streams, enum pick pick) {
    kit_pairs pairs = KIT_EMPTY;
    kit_attributes set = KIT_EMPTY;
    char text[LETTERS];
    text_of(text, pick == ITS_TEXTS);
    int64_t number = pick == ITS_SETS ? zeroing(text) : (int64_t)any();
    CHECK(!kit_pairs_add_text(&pairs, TEXT("a"), (const uint8_t *)text, LETTERS));
    CHECK(!kit_pairs_add_whole(&pairs, TEXT("z"), number) && !kit_attributes_make(&set, &pairs, &place));
    for (size_t i = 0; i < streams; i++) CHECK(!kit_writer_measure(writer, i, &set, 1, &place));
    kit_pairs_free(&pairs), kit_attributes_free(&set);
}

static void scoped(kit_instruments *instruments, const struct kind *kind) {
    static uint8_t scope[LONG];
    memset(scope, 's', kind->scope);
    for (size_t i = 0; i < kind->streams; i++) {
        scope[kind->scope - 1] = (uint8_t)('a' + i);
        CHECK(!kit_instruments_add(instruments, scope, kind->scope, TEXT("requests"), TEXT("1"), KIT_COUNTER));
    }
}

static void collected(kit_export *export_, const struct kind *kind, enum pick pick) {
    kit_instruments instruments = KIT_EMPTY;
    kit_views views = KIT_EMPTY;
    kit_plan plan = KIT_EMPTY;
    kit_writer writer = KIT_EMPTY;
    uint64_t second;
    scoped(&instruments, kind);
    CHECK(!kit_plan_build(&plan, &instruments, &views, kind->sets + 1, &place, &second));
    CHECK(!kit_writer_start(&writer, &plan, TEXT("shop"), 0, 1, 100));
    for (size_t i = 0; i < kind->sets; i++) recorded(&writer, kind->streams, pick_of(pick, i));
    CHECK(!kit_writer_collect(&writer, 200, export_, &place));
    kit_instruments_free(&instruments), kit_views_free(&views), kit_plan_free(&plan), kit_writer_free(&writer);
}

/* What a gateway of no peers tells another of an export. */
static void told(kit_export *export_, kit_message *message) {
    kit_gateway gateway = KIT_EMPTY;
    CHECK(!kit_gateway_open(&gateway, 1) && !kit_gateway_take(&gateway, export_, &changed, &late) && !kit_gateway_send(&gateway, 2, message));
    kit_gateway_free(&gateway);
}

struct form {
    int32_t (*encode)(kit_handle *thing, kit_bytes *bytes);
    int32_t (*decode)(kit_handle *thing, const uint8_t *bytes, size_t len, uint64_t *at);
};
/* An export or a message, by the handle that is in each. */
static int32_t export_encoded(kit_handle *thing, kit_bytes *bytes) { return kit_export_encode((kit_export *)thing, bytes); }

static int32_t export_decoded(kit_handle *thing, const uint8_t *bytes, size_t len, uint64_t *at) {
    return kit_export_decode((kit_export *)thing, bytes, len, at);
}

static int32_t message_encoded(kit_handle *thing, kit_bytes *bytes) { return kit_message_encode((kit_message *)thing, bytes); }

static int32_t message_decoded(kit_handle *thing, const uint8_t *bytes, size_t len, uint64_t *at) {
    return kit_message_decode((kit_message *)thing, bytes, len, at);
}

static const struct form AN_EXPORT = {export_encoded, export_decoded};
static const struct form A_MESSAGE = {message_encoded, message_decoded};

/* Microseconds. */
static double now(void) {
    struct timespec at;
    clock_gettime(CLOCK_PROCESS_CPUTIME_ID, &at);
    return (double)at.tv_sec * 1e6 + (double)at.tv_nsec / 1e3;
}

struct took {
    double written, read;
};

static double least(double one, double other) { return one < other ? one : other; }

static struct took timed(const struct form *form, kit_handle *thing) {
    static uint8_t copy[ROOM];
    struct took took = {1e12, 1e12};
    for (size_t round = 0; round < ROUNDS; round++) {
        kit_bytes bytes = KIT_EMPTY;
        kit_handle read = {0};
        size_t len = 0;
        double start = now();
        CHECK(!form->encode(thing, &bytes));
        took.written = least(took.written, now() - start);
        CHECK(!kit_bytes_copy(&bytes, copy, sizeof copy, &len) && len <= sizeof copy);
        start = now();
        CHECK(!form->decode(&read, copy, len, &place));
        took.read = least(took.read, now() - start);
        kit_bytes_free(&bytes), kit_free(&read);
    }
    return took;
}

struct both {
    struct took export_, message;
};

static struct both of(const struct kind *kind, enum pick pick) {
    kit_export export_ = KIT_EMPTY;
    kit_message message = KIT_EMPTY;
    collected(&export_, kind, pick), told(&export_, &message);
    struct both both = {timed(&AN_EXPORT, &export_.handle), timed(&A_MESSAGE, &message.handle)};
    kit_export_free(&export_), kit_message_free(&message);
    return both;
}

static void compared_one(const char *a, const char *what, struct took picked, struct took plain) {
    printf("%s of %s: written in %.0f us, of others in %.0f; read in %.0f, of others in %.0f\n", a, what, picked.written, plain.written,
           picked.read, plain.read);
    CHECK(picked.written < SLOWER * plain.written && picked.read < SLOWER * plain.read);
}

static void compared(const char *what, struct both picked, struct both plain) {
    compared_one("an export", what, picked.export_, plain.export_);
    compared_one("a message", what, picked.message, plain.message);
}

int main(int count, char **given) {
    points = count > 1 ? strtoul(given[1], NULL, 10) : points;
    CHECK(2 * FEWER <= points && points <= MOST);
    const struct kind one = {1, 3, points}, shared = {2, SHARED, points / 4}, longer = {2, LONG, points / FEWER};
    struct both plain = of(&one, NONE);
    compared("picked texts", of(&one, ITS_TEXTS), plain);
    compared("picked sets", of(&one, ITS_SETS), plain);
    compared("a picked pair in shared scopes", of(&shared, A_PAIR), of(&shared, NONE));
    compared("a picked pair in long scopes", of(&longer, A_PAIR), of(&longer, NONE));
    return 0;
}
