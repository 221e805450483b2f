/* The workloads' queries: comparisons joined by `&&`, or all by `||`, with a `*` at either end of a text or at both. */
#ifndef QUERY_H
#define QUERY_H
#include <stdbool.h>
#include <stddef.h>
#include <stdint.h>

#include "text.h"

/* FRONT, MIDDLE, END: the value begins with the text, contains it, ends with it. OTHER: `!=`. */
enum comparing { EQUAL, FRONT, MIDDLE, END, OTHER, BELOW, UP_TO, ABOVE, FROM };

struct comparison {
    enum comparing how;
    struct text name; /* inside the query's text */
    struct text text; /* inside the query's text */
    bool is_quoted;
    int64_t number;
};

/* `pick`: the comparison whose index is walked; with `||`, each of them in turn. `low`, `high`: the comparisons that bound the
 * walk, or -1. `prepared`: what a peer has prepared. If `is_kept` is set, its pass keeps this. */
struct query {
    int count, pick, low, high;
    bool is_any, is_kept;
    struct comparison comparisons[8];
    void *prepared;
};

/* Parses a text, which the query then points into. If it isn't a query, the process ends. A peer that parses texts itself
 * overrides this, and fills in only `prepared`. */
void parse(struct query *query, struct text text);

/* Picks the comparison of this name, and those that bound a walk over its index. Returns whether there is one. */
bool pick_name(struct query *query, struct text name);

bool number_holds(const struct comparison *comparison, int64_t number);
bool text_holds(const struct comparison *comparison, struct text text);

/* Returns the lowest and highest number that a walk over the picked index visits. */
void number_bounds(const struct query *query, int64_t *low, int64_t *high);

/* Whether each key of a walk has to be compared with the picked text, because the matching keys aren't next to each other. */
static inline bool is_scan(const struct comparison *it) { return it->how == MIDDLE || it->how == END || it->how == OTHER; }

/* Removes duplicates from sorted nodes. Returns how many are left. */
size_t without_doubles(uint64_t *nodes, size_t count);

/* Sorts nodes, which are all below 2^32. It sorts by digits, so that no peer is judged by a slow sort. */
void sort_nodes(uint64_t *nodes, size_t count);

static inline bool same_text(struct text a, struct text b) {
    return a.length == b.length && !__builtin_memcmp(a.bytes, b.bytes, a.length);
}
#endif
