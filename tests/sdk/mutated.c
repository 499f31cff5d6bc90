/* Exports and messages as bytes, many of them, from a seed: random ones there and back; every prefix of six encodings; and bytes that
 * were changed, cut, joined or made up, half of them under a right checksum, read with and without memory (linked with
 * --wrap=malloc,--wrap=realloc). What is read must have the very bytes, and what is refused leaves the handle empty, for one of the
 * reasons that docs/design/BYTES.md has. Prints the first check that does not hold and exits with 1; else what came how often.
 *
 *     mutated [EXPORTS [STRINGS]]      how many exports, and a message of each; how many strings. 100000 and 1000000 where nothing is said */
#include <kotskhin.h>
#include <stdio.h>
#include <stdlib.h>
#include <string.h>

#define TEXT(s) (const uint8_t *)(s), sizeof(s) - 1
#define CHECK(holds)                                            \
    do {                                                        \
        if (!(holds)) {                                         \
            printf("line %d: %s does not hold\n", __LINE__, #holds); \
            exit(1);                                            \
        }                                                       \
    } while (0)

enum { INSTRUMENTS = 4, SAMPLES = 6, ROOM = 1 << 16, CODES = 70 };

/* What has bytes: an export, whose fourth byte is a K, and a message, whose fourth is an M. */
struct form {
    const char *magic;
    int32_t (*encode)(kit_handle *thing, kit_bytes *bytes);
    int32_t (*decode)(kit_handle *thing, const uint8_t *bytes, size_t len, uint64_t *at);
};
/* An export or a message, by the handle that is in each. */
static int32_t export_encoded(kit_handle *thing, kit_bytes *bytes) { return kit_export_encode((kit_export *)thing, bytes); }

static int32_t export_decoded(kit_handle *thing, const uint8_t *bytes, size_t len, uint64_t *at) {
    return kit_export_decode((kit_export *)thing, bytes, len, at);
}

static int32_t message_encoded(kit_handle *thing, kit_bytes *bytes) { return kit_message_encode((kit_message *)thing, bytes); }

static int32_t message_decoded(kit_handle *thing, const uint8_t *bytes, size_t len, uint64_t *at) {
    return kit_message_decode((kit_message *)thing, bytes, len, at);
}

static const struct form AN_EXPORT = {"KTSK", export_encoded, export_decoded};
static const struct form A_MESSAGE = {"KTSM", message_encoded, message_decoded};

void *__real_malloc(size_t size);
void *__real_realloc(void *at, size_t size);

/* The growth that is refused, counted from 1; 0 for none. */
static unsigned refused = 0;

static bool refuses(void) { return refused && !--refused; }

void *__wrap_malloc(size_t size) { return refuses() ? NULL : __real_malloc(size); }

void *__wrap_realloc(void *at, size_t size) { return refuses() ? NULL : __real_realloc(at, size); }

static bool late;
static uint64_t place, second, changed, seed = 0x9e3779b97f4a7c15;

/* xorshift64* */
static uint64_t any(void) {
    seed ^= seed >> 12, seed ^= seed << 25, seed ^= seed >> 27;
    return seed * 0x2545f4914f6cdd1d;
}

static size_t below(size_t n) { return n ? (size_t)(any() >> 11) % n : 0; }

/* RFC 1950, section 8.2. */
static void seal(uint8_t *bytes, size_t len) {
    uint32_t low = 1, high = 0;
    for (size_t i = 0; i < len; i++) low = (low + bytes[i]) % 65521, high = (high + low) % 65521;
    bytes[len] = (uint8_t)(high >> 8), bytes[len + 1] = (uint8_t)high;
    bytes[len + 2] = (uint8_t)(low >> 8), bytes[len + 3] = (uint8_t)low;
}

static void planned(kit_plan *plan) {
    const int64_t bounds[] = {-5, 0, 1000};
    kit_instruments instruments = KIT_EMPTY;
    kit_view view = KIT_EMPTY;
    kit_views views = KIT_EMPTY;
    for (uint8_t kind = 0; kind < INSTRUMENTS; kind++) {
        uint8_t name[] = "a_metric_0";
        name[sizeof name - 2] = (uint8_t)('0' + kind);
        CHECK(!kit_instruments_add(&instruments, TEXT("a scope of more than thirty bytes"), name, sizeof name - 1, TEXT("1"), kind));
    }
    CHECK(!kit_view_of_name(&view, TEXT("a_metric_3")) && !kit_view_buckets(&view, bounds, 3) && !kit_views_add(&views, &view));
    CHECK(!kit_plan_build(plan, &instruments, &views, KIT_DEFAULT_LIMIT, &place, &second));
    kit_instruments_free(&instruments), kit_view_free(&view), kit_views_free(&views);
}

/* A set of up to as many attributes. */
static void made(kit_attributes *set, size_t most) {
    static const char *const texts[] = {"", "v", "Grüße", "a value of more than thirty bytes of text"};
    kit_pairs pairs = KIT_EMPTY;
    for (size_t i = below(most + 1); i > 0; i--) {
        uint8_t key[] = "attribute.0";
        key[sizeof key - 2] = (uint8_t)('0' + below(8));
        const char *text = texts[below(4)];
        switch (below(3)) {
            case 0: CHECK(!kit_pairs_add_text(&pairs, key, sizeof key - 1, (const uint8_t *)text, strlen(text))); break;
            case 1: CHECK(!kit_pairs_add_whole(&pairs, key, sizeof key - 1, (int64_t)any() >> below(64))); break;
            default: CHECK(!kit_pairs_add_truth(&pairs, key, sizeof key - 1, any() & 1)); break;
        }
    }
    CHECK(!kit_attributes_make(set, &pairs, &place));
    kit_pairs_free(&pairs);
}

/* An export of up to as many recordings. */
static void collected(kit_plan *plan, kit_export *export_, size_t most) {
    kit_writer writer = KIT_EMPTY;
    uint64_t start = any() >> below(64);
    start -= start == UINT64_MAX;
    CHECK(!kit_writer_start(&writer, plan, TEXT("shop"), any(), any(), start));
    for (size_t i = below(most + 1); i > 0; i--) {
        kit_attributes set = KIT_EMPTY;
        made(&set, 5);
        size_t instrument = below(INSTRUMENTS);
        int64_t value = (int64_t)((any() >> 1) >> below(63));
        value = any() & 1 && (instrument == KIT_UP_DOWN || instrument == KIT_GAUGE) ? -value : value;
        int32_t code = kit_writer_measure(&writer, instrument, &set, value, &place);
        CHECK(code == KIT_OK || code == KIT_OVERFLOW);
        kit_attributes_free(&set);
    }
    CHECK(!kit_writer_collect(&writer, start + 1 + below(1000) * (start < UINT64_MAX / 2), export_, &place));
    kit_writer_free(&writer);
}

static size_t encoded(const struct form *form, kit_handle *thing, uint8_t *bytes) {
    kit_bytes whole = KIT_EMPTY;
    size_t len = 0;
    CHECK(!form->encode(thing, &whole) && !kit_bytes_copy(&whole, bytes, ROOM, &len) && len <= ROOM);
    kit_bytes_free(&whole);
    return len;
}

/* What is read of these bytes has them. */
static void reread(const struct form *form, kit_handle *thing, const uint8_t *bytes, size_t len) {
    static uint8_t again[ROOM];
    CHECK(encoded(form, thing, again) == len && !memcmp(bytes, again, len));
}

/* Gateway 1 tells gateway 2 of an export. */
static void told(kit_export *export_, kit_message *message) {
    kit_gateway gateway = KIT_EMPTY;
    CHECK(!kit_gateway_open(&gateway, 1) && !kit_gateway_take(&gateway, export_, &changed, &late) && !kit_gateway_send(&gateway, 2, message));
    kit_gateway_free(&gateway);
}

/* What gateway 2 answers. */
static void answered(kit_message *message, kit_message *answer) {
    kit_gateway gateway = KIT_EMPTY;
    bool is_answered = false;
    CHECK(!kit_gateway_open(&gateway, 2) && !kit_gateway_hand(&gateway, message, answer, &is_answered) && is_answered);
    kit_gateway_free(&gateway);
}

/* What is read of an export's bytes has them, and brings a gateway nothing that the export did not. */
static void export_there_and_back(kit_export *export_, bool taken) {
    static uint8_t bytes[ROOM];
    kit_export read = KIT_EMPTY;
    kit_gateway gateway = KIT_EMPTY;
    size_t len = encoded(&AN_EXPORT, &export_->handle, bytes);
    CHECK(!kit_export_decode(&read, bytes, len, &place));
    reread(&AN_EXPORT, &read.handle, bytes, len);
    if (taken) {
        CHECK(!kit_gateway_open(&gateway, 1) && !kit_gateway_take(&gateway, export_, &changed, &late));
        CHECK(!kit_gateway_take(&gateway, &read, &changed, &late) && changed == 0);
    }
    kit_export_free(&read), kit_gateway_free(&gateway);
}

/* What is read of a message's bytes has them, and is answered by the same bytes. */
static void message_there_and_back(kit_export *export_, bool taken) {
    static uint8_t bytes[ROOM];
    kit_message message = KIT_EMPTY, read = KIT_EMPTY, one = KIT_EMPTY, other = KIT_EMPTY;
    told(export_, &message);
    size_t len = encoded(&A_MESSAGE, &message.handle, bytes);
    CHECK(!kit_message_decode(&read, bytes, len, &place));
    reread(&A_MESSAGE, &read.handle, bytes, len);
    if (taken) {
        answered(&message, &one), answered(&read, &other);
        len = encoded(&A_MESSAGE, &one.handle, bytes);
        reread(&A_MESSAGE, &other.handle, bytes, len);
    }
    kit_message_free(&message), kit_message_free(&read), kit_message_free(&one), kit_message_free(&other);
}

static void there_and_back(kit_plan *plan, size_t count) {
    for (; count > 0; count--) {
        kit_export export_ = KIT_EMPTY;
        collected(plan, &export_, 8);
        export_there_and_back(&export_, count % 16 == 0), message_there_and_back(&export_, count % 16 == 0);
        kit_export_free(&export_);
    }
}

/* Exports, messages that carry points, and an answer, which carries none. */
static struct sample {
    const struct form *form;
    size_t len;
    uint8_t bytes[ROOM];
} samples[SAMPLES];

static void sampled(kit_plan *plan, struct sample *sample, size_t number) {
    static const size_t most[SAMPLES] = {0, 6, 120, 6, 120, 6};
    kit_export export_ = KIT_EMPTY;
    kit_message message = KIT_EMPTY, answer = KIT_EMPTY;
    collected(plan, &export_, most[number]);
    told(&export_, &message);
    answered(&message, &answer);
    sample->form = number < 3 ? &AN_EXPORT : &A_MESSAGE;
    sample->len = encoded(sample->form, number < 3 ? &export_.handle : number < 5 ? &message.handle : &answer.handle, sample->bytes);
    kit_export_free(&export_), kit_message_free(&message), kit_message_free(&answer);
}

static void prefixes(kit_plan *plan) {
    for (size_t i = 0; i < SAMPLES; i++) {
        struct sample *sample = &samples[i];
        kit_handle read = {0};
        do sampled(plan, sample, i);
        while (0 < i && i < 5 && sample->len < 100 * (i < 3 ? i : i - 2));
        for (size_t short_of = 0; short_of < sample->len; short_of++) {
            CHECK(sample->form->decode(&read, sample->bytes, short_of, &place) == KIT_TRUNCATED && place == short_of && !read.full);
        }
    }
}

/* Bytes near those of a sample, or any. */
static size_t mutated(const struct sample *from, uint8_t *bytes) {
    const struct sample *other = &samples[below(SAMPLES)];
    size_t len = from->len;
    if (below(8) == 0) { /* (any bytes, some behind a right head) */
        len = below(200);
        for (size_t i = 0; i < len; i++) bytes[i] = (uint8_t)any();
        memcpy(bytes, from->bytes, any() & 1 && len > 5 ? 5 : 0);
    } else {
        memcpy(bytes, from->bytes, len);
        for (size_t changes = 1 + below(3); changes > 0 && len > 6; changes--) {
            size_t at = below(len), many = 1 + below(4);
            switch (below(6)) {
                case 0: bytes[at] ^= (uint8_t)(1u << below(8)); break;
                case 1: bytes[at] = (uint8_t)any(); break;
                case 2: /* (some bytes are lost) */
                    many = many < len - at ? many : len - at;
                    memmove(bytes + at, bytes + at + many, len - at - many), len -= many;
                    break;
                case 3: /* (some come twice) */
                    many = many < len - at ? many : len - at;
                    memmove(bytes + at + many, bytes + at, len - at), len += many;
                    break;
                case 4: len = at; break;
                default: memcpy(bytes + at, other->bytes + at, many); break;
            }
        }
    }
    if (any() & 1 && len >= 4) seal(bytes, len - 4);
    return len;
}

/* What is told of bytes that were read as one form, with all memory or not. */
static void fits(const struct form *form, kit_handle *read, const uint8_t *bytes, size_t len, int32_t code, bool wanting) {
    CHECK(code >= 0 && code < CODES && read->full == (code == KIT_OK));
    switch (code) {
        case KIT_OK: reread(form, read, bytes, len); break;
        case KIT_NO_MEMORY: CHECK(wanting); break;
        case KIT_TRUNCATED: CHECK(place == len); break;
        case KIT_BAD_MAGIC: CHECK(place < 4 && bytes[place] != form->magic[place]); break;
        case KIT_BAD_VERSION: CHECK(place == 4 && bytes[4] != 2); break;
        case KIT_BAD_CHECKSUM: CHECK(place + 4 <= len); break;
        case KIT_NOT_CANONICAL:
        case KIT_NOT_TEXT: CHECK(place <= len); break;
        default: CHECK(code == KIT_BAD_EXPORT && place == UINT64_MAX); break;
    }
}

static void strings(size_t count) {
    static uint8_t bytes[2 * ROOM];
    static size_t came[CODES];
    for (size_t i = 0; i < count; i++) {
        const struct sample *from = &samples[below(SAMPLES)];
        const struct form *form = below(32) ? from->form : from->form == &AN_EXPORT ? &A_MESSAGE : &AN_EXPORT;
        kit_handle read = {0};
        size_t len = mutated(from, bytes);
        bool wanting = i % 4 == 0;
        place = UINT64_MAX;
        refused = wanting ? 1 + (unsigned)below(12) : 0;
        int32_t code = form->decode(&read, bytes, len, &place);
        refused = 0;
        fits(form, &read, bytes, len, code, wanting);
        came[code]++;
        kit_free(&read);
    }
    printf("read %zu, no memory %zu, truncated %zu, magic %zu, version %zu, not canonical %zu, no text %zu, checksum %zu, no export %zu\n",
           came[KIT_OK], came[KIT_NO_MEMORY], came[KIT_TRUNCATED], came[KIT_BAD_MAGIC], came[KIT_BAD_VERSION], came[KIT_NOT_CANONICAL],
           came[KIT_NOT_TEXT], came[KIT_BAD_CHECKSUM], came[KIT_BAD_EXPORT]);
    if (count >= 10000) { /* (each came) */
        CHECK(came[KIT_OK] && came[KIT_NO_MEMORY] && came[KIT_TRUNCATED] && came[KIT_BAD_MAGIC] && came[KIT_BAD_VERSION]);
        CHECK(came[KIT_NOT_CANONICAL] && came[KIT_NOT_TEXT] && came[KIT_BAD_CHECKSUM] && came[KIT_BAD_EXPORT]);
    }
}

int main(int count, char **given) {
    kit_plan plan = KIT_EMPTY;
    planned(&plan);
    there_and_back(&plan, count > 1 ? strtoul(given[1], NULL, 10) : 100000);
    prefixes(&plan);
    strings(count > 2 ? strtoul(given[2], NULL, 10) : 1000000);
    kit_plan_free(&plan);
    return 0;
}
