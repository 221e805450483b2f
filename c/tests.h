/* Definitions shared by the C tests. */
#ifndef TESTS_H
#define TESTS_H

/* On a loaded machine, and under valgrind, another thread may be in the middle of a write for longer than the helpers usually wait. */
#ifndef BES_WITHIN
#define BES_WITHIN 60000 /* milliseconds */
#define BES_CHANGE_WITHIN 60000
#define BES_TRIES 10000000u
#endif

#include "bestore.h"
#include <stdio.h>
#include <stdlib.h>

#define CHECK(e) do { if (!(e)) { fprintf(stderr, "%s:%d: %s\n", __FILE__, __LINE__, #e); exit(1); } } while (0)
#define OK(call) CHECK((call) == BES_OK)

/* Everything that can be observed of a small store and of a pass's pin. */
typedef struct view {
    uint32_t has_indices, has_node;
    uint64_t length;
    bes_counts indices, attributes;
    bes_operation operations[2][64];
    uint8_t bytes[2][64 * (63 + 255)], journal[1 << 16];
} view;

/* Reads the store and node 1. */
static inline void look(bes_pass *pass, view *seen)
{
    memset(seen, 0, sizeof *seen);
    seen->has_indices = bes_indices(pass, &seen->indices, seen->operations[0], 64, seen->bytes[0], sizeof seen->bytes[0]);
    seen->has_node = bes_attributes(pass, 1, &seen->attributes, seen->operations[1], 64, seen->bytes[1], sizeof seen->bytes[1]);
    CHECK(bes_journal(pass, seen->journal, sizeof seen->journal, &seen->length) == BES_OK && seen->length <= sizeof seen->journal);
}

/* Reads everything again, and compares. */
static inline bool is_as_it_was(bes_pass *pass, const view *before)
{
    static view after;
    look(pass, &after);
    return memcmp(before, &after, sizeof after) == 0;
}

/* Returns what LEAVES has seen before its call. */
static inline view *seen_before(void)
{
    static view before;
    return &before;
}

/* Checks that a call returns this error, and leaves the store and the pin unchanged. */
#define LEAVES(pass, call, answer) do { \
        look(pass, seen_before()); \
        CHECK((call) == (answer) && is_as_it_was(pass, seen_before())); \
    } while (0)

/* Takes passes until none is left. Returns the number taken. */
static inline int take_passes(bes_pass *pass, bes_pass *taken)
{
    for (int i = 0;; i++) {
        uint32_t answer = bes_another(pass, &taken[i]);
        if (answer == BES_NO_PASS)
            return i;
        CHECK(answer == BES_OK && i < 64);
    }
}

/* Closes these passes. */
static inline void close_passes(bes_pass *taken, int count)
{
    for (int i = 0; i < count; i++)
        CHECK(bes_close(&taken[i]) == BES_OK);
}

#endif
