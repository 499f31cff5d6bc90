/* Threads that read the same things at once, each by handles that are lent (KIT_LENT): every call of calls.h that only reads, and then one
 * gateway, one set and one plan, while each thread records into a writer of its own. What is read is as it was, and each thread reads the
 * same. Under helgrind it shows that no such call writes to what another reads. Takes how often each thread calls (200). Prints the first
 * check that does not hold and exits with 1, or exits with 0. */
#include "calls.h"
#include <pthread.h>

enum { THREADS = 4 };

static int often = 200;

/* What all threads read for one row. */
static kit_handle shared[MOST];

/* A call by handles that are lent for what it reads, and by the thread's own for the rest. */
static void *reads(void *at) {
    const struct row *row = at;
    for (int time = 0; time < often; time++) {
        kit_handle lent[MOST] = {{0}};
        for (int i = 0; i < hands_of(row); i++) {
            given[i] = &own[i];
            if (is_read(row->hands[i])) lent[i] = shared[i], given[i] = &lent[i];
            else if (row->hands[i].part != FILLED) make(row->hands[i].kind, &own[i]);
        }
        int32_t code = row->call(given);
        expect(row, "threads may read at once", -1, code, code == KIT_OK);
        for (int i = 0; i < hands_of(row); i++) {
            bool same = lent[i].full == shared[i].full && lent[i].at == shared[i].at;
            expect(row, "what was lent is given back", i, -1, !is_read(row->hands[i]) || same);
        }
        clear();
    }
    return NULL;
}

static void together(void *(*work)(void *at), void *at) {
    pthread_t threads[THREADS];
    for (int i = 0; i < THREADS; i++) MUST(pthread_create(&threads[i], NULL, work, at));
    for (int i = 0; i < THREADS; i++) MUST(pthread_join(threads[i], NULL));
}

static void each_row(void) {
    for (size_t i = 0; i < sizeof CALLS / sizeof *CALLS; i++) {
        const struct row *row = &CALLS[i];
        bool any = false;
        for (int hand = 0; hand < hands_of(row); hand++) {
            if (is_read(row->hands[hand])) make(row->hands[hand].kind, &shared[hand]), any = true;
        }
        if (any) together(reads, (void *)row);
        for (int hand = 0; hand < MOST; hand++) kit_free(&shared[hand]);
    }
}

static kit_gateway gateway;
static kit_attributes set;
static kit_plan plan;

/* Whether a gateway's table of the counter ends so. */
static bool ends(kit_gateway *asked, const char *end) {
    kit_ask ask = KIT_EMPTY;
    kit_rows rows = KIT_EMPTY;
    kit_text table = KIT_EMPTY;
    uint8_t text[512];
    size_t len = 0;
    MUST(kit_ask_sum(&ask, TEXT("app"), TEXT("requests"), TEXT("1"), true));
    MUST(kit_gateway_rows(KIT_LENT(kit_gateway, asked), &ask, &rows));
    MUST(kit_rows_table(&rows, &table));
    MUST(kit_text_copy(&table, text, sizeof text, &len) || len > sizeof text || len < strlen(end));
    kit_ask_free(&ask), kit_rows_free(&rows), kit_text_free(&table);
    return !memcmp(text + len - strlen(end), end, strlen(end));
}

/* Records as often at the set that all share, and merges what all read with what it recorded: 7 and as many. */
static void *records(void *at) {
    uint64_t instance = 1 + (uint64_t)__atomic_fetch_add((int *)at, 1, __ATOMIC_SEQ_CST), changed = 0;
    bool late = false;
    kit_writer writer = KIT_EMPTY;
    kit_export made = KIT_EMPTY;
    kit_gateway whole = KIT_EMPTY;
    char total[32];
    MUST(kit_writer_start(&writer, KIT_LENT(kit_plan, &plan), TEXT("other"), 0, instance, 100));
    for (int i = 0; i < often; i++) {
        MUST(kit_writer_measure(&writer, 0, KIT_LENT(kit_attributes, &set), 1, KIT_NO_PLACE));
        if (i % 16 == 0) MUST(!ends(&gateway, "  7\n"));
    }
    MUST(kit_writer_collect(&writer, 200, &made, KIT_NO_PLACE));
    MUST(kit_gateway_open(&whole, 2) || kit_gateway_take(&whole, &made, &changed, &late));
    MUST(kit_gateway_merge(&whole, KIT_LENT(kit_gateway, &gateway), &changed));
    snprintf(total, sizeof total, "  %d\n", often + 7);
    MUST(!ends(&whole, total));
    kit_writer_free(&writer), kit_export_free(&made), kit_gateway_free(&whole);
    return NULL;
}

int main(int words, char **word) {
    int started = 0;
    often = words > 1 ? atoi(word[1]) : often;
    prepare();
    each_row();
    make(GATEWAY, &gateway.handle), make(ATTRIBUTES, &set.handle), make(PLAN, &plan.handle);
    together(records, &started);
    kit_gateway_free(&gateway), kit_attributes_free(&set), kit_plan_free(&plan);
    return 0;
}
