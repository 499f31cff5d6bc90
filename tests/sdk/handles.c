/* Every call of calls.h: each of its handles empty, of each kind that it is not to be, full where it is to be filled, and
 * given twice; and its growths refused one after the other (linked with --wrap=malloc,--wrap=realloc). A refused call leaves each handle as
 * it was. Prints the first check that does not hold and exits with 1, or exits with 0. */
#include "calls.h"

void *__real_malloc(size_t size);
void *__real_realloc(void *at, size_t size);

/* The growth that is refused, counted from 1; 0 for none. */
static unsigned refused = 0;

static bool refuses(void) { return refused && !--refused; }

void *__wrap_malloc(size_t size) { return refuses() ? NULL : __real_malloc(size); }

void *__wrap_realloc(void *at, size_t size) { return refuses() ? NULL : __real_realloc(at, size); }

static bool must_be_there(struct hand hand) { return hand.part == THERE || hand.part == READ; }

/* What a call is to have. */
static void lay(const struct row *row) {
    for (int i = 0; i < hands_of(row); i++) {
        given[i] = &own[i];
        if (row->hands[i].part != FILLED) make(row->hands[i].kind, &own[i]);
    }
}

/* What the handles of a call were before it. */
static kit_handle before[MOST];

static bool unchanged(void) {
    for (int i = 0; i < MOST; i++) {
        if (own[i].full != before[i].full || own[i].at != before[i].at) return false;
    }
    return true;
}

static int32_t called(const struct row *row) {
    memcpy(before, own, sizeof own);
    return row->call(given);
}

/* A writer that is shared is left empty: its seat has it. */
static bool is_given_over(const struct row *row, int hand) { return !strcmp(row->name, "writer_share") && !hand; }

/* Each growth refused in turn, until the call succeeds. */
static void grows(const struct row *row) {
    lay(row);
    for (unsigned growth = 1;; growth++) {
        refused = growth;
        int32_t code = called(row);
        refused = 0;
        if (code == KIT_OK) break;
        expect(row, "a refused growth is told so and changes nothing", -1, (int)growth, code == KIT_NO_MEMORY && unchanged());
    }
    for (int i = 0; i < hands_of(row); i++) {
        bool stays = own[i].full == before[i].full && own[i].at == before[i].at;
        expect(row, "what is read is there once the call succeeded", i, -1, !is_read(row->hands[i]) || stays);
        expect(row, "it is there once the call succeeded", i, -1, own[i].full || is_given_over(row, i));
    }
    clear();
}

/* What a call only reads it may have by a handle that is lent, which then has the same. */
static void lends(const struct row *row) {
    kit_handle lent[MOST] = {{0}};
    lay(row);
    for (int i = 0; i < hands_of(row); i++) {
        if (is_read(row->hands[i])) lent[i] = own[i], given[i] = &lent[i];
    }
    expect(row, "a handle may be lent", -1, -1, called(row) == KIT_OK);
    for (int i = 0; i < hands_of(row); i++) {
        bool same = !is_read(row->hands[i]) || (own[i].full == lent[i].full && own[i].at == lent[i].at);
        expect(row, "what was lent is given back", i, -1, same);
    }
    clear();
}

static void emptied(const struct row *row, int hand) {
    lay(row);
    kit_free(&own[hand]);
    int32_t code = called(row);
    if (must_be_there(row->hands[hand])) {
        expect(row, "an empty handle is told so and changes nothing", hand, -1, code == KIT_NOTHING && unchanged());
    } else {
        expect(row, "the handle may be empty", hand, -1, code == KIT_OK);
    }
    clear();
}

static void of_another_kind(const struct row *row, int hand, enum kind kind) {
    int32_t wanted = row->hands[hand].part == FILLED ? KIT_FULL : KIT_WRONG_KIND;
    if (wanted != KIT_FULL && row->hands[hand].kind == kind) return;
    lay(row);
    kit_free(&own[hand]);
    make(kind, &own[hand]);
    int32_t code = called(row);
    expect(row, "what the handle has is told so and changes nothing", hand, (int)kind, code == wanted && unchanged());
    clear();
}

/* One handle for two of a call, with what the one wants, with what the other wants, and with nothing. */
static void given_twice(const struct row *row, int hand, int other) {
    const enum kind kinds[] = {row->hands[hand].kind, row->hands[other].kind, NOTHING};
    bool must = must_be_there(row->hands[hand]) || must_be_there(row->hands[other]);
    for (int i = 0; i < 3; i++) {
        lay(row);
        kit_free(&own[hand]), kit_free(&own[other]);
        make(kinds[i], &own[hand]);
        given[other] = &own[hand];
        int32_t code = called(row);
        expect(row, "one handle given twice breaks nothing", hand, (int)kinds[i], code == KIT_OK ? !must : unchanged());
        clear();
    }
}

int main(void) {
    prepare();
    for (size_t i = 0; i < sizeof CALLS / sizeof *CALLS; i++) {
        const struct row *row = &CALLS[i];
        grows(row), lends(row);
        for (int hand = 0; hand < hands_of(row); hand++) {
            emptied(row, hand);
            for (enum kind kind = PAIRS; kind < KINDS; kind++) of_another_kind(row, hand, kind);
            for (int other = hand + 1; other < hands_of(row); other++) given_twice(row, hand, other);
        }
    }
    return 0;
}
