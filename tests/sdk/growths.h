/* Checks, and growths that are refused one after the other (linked with --wrap=malloc,--wrap=realloc). */
#ifndef GROWTHS_H
#define GROWTHS_H

#include <kotskhin.h>
#include <stdio.h>
#include <stdlib.h>
#include <string.h>

#define TEXT(s) (const uint8_t *)(s), sizeof(s) - 1
#define CHECK(holds)                                            \
    do {                                                        \
        if (!(holds)) {                                         \
            printf("line %d: %s does not hold\n", __LINE__, #holds); \
            exit(1);                                            \
        }                                                       \
    } while (0)

void *__real_malloc(size_t size);
void *__real_realloc(void *at, size_t size);

/* The growth that is refused, counted from 1; 0 for none. */
static unsigned refused = 0;

static bool refuses(void) { return refused && !--refused; }

/* What is done, once, in the midst of a call that takes memory. */
static void (*meets)(void) = NULL;

/* What blocks of a call are told to, each filled with 0 before. */
static void (*notes)(void *at, size_t size) = NULL;

void *__wrap_malloc(size_t size) {
    if (meets) meets();
    void *at = refuses() ? NULL : __real_malloc(size);
    if (at && notes) memset(at, 0, size), notes(at, size);
    return at;
}

void *__wrap_realloc(void *at, size_t size) { return refuses() ? NULL : __real_realloc(at, size); }

/* Makes a call again until no growth of it is refused: each refusal says so, and leaves all as it was. */
#define EACH_GROWTH(call, as_before)             \
    do {                                         \
        unsigned growth = 0;                     \
        for (;;) {                               \
            refused = ++growth;                  \
            int32_t code = (call);               \
            refused = 0;                         \
            if (code == KIT_OK) {                \
                break;                           \
            }                                    \
            CHECK(code == KIT_NO_MEMORY);        \
            CHECK(as_before);                    \
        }                                        \
        CHECK(growth > 1);                       \
    } while (0)

/* Makes a call whose first growth is refused: it answers this all the same, since it looks before it takes memory. */
#define BEFORE_MEMORY(call, answer)  \
    do {                             \
        refused = 1;                 \
        int32_t code = (call);       \
        refused = 0;                 \
        CHECK(code == (answer));     \
    } while (0)

#endif
