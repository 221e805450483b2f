/* What LMDB's adapter and the model share: whether a query is true of a node that a walk finds. */
#ifndef HOLDS_H
#define HOLDS_H
#include "../driver/peer.h"
#include "keys.h"

/* Whether a comparison is true of a stored value, which is its kind followed by the number or the
 * text. */
static inline bool value_holds(const struct comparison *it, const uint8_t *stored, size_t length) {
    if (stored[0] == IS_NUMBER) return number_holds(it, take_number(stored + 1));
    return text_holds(it, (struct text){(const char *)stored + 1, length - 1});
}

/* Whether it is true of a node at the pin. Each peer defines this. */
static bool holds(struct pass *pass, const struct comparison *it, uint64_t node);

/* What a value adds to a sum of attributes: its number, or the text's length. */
static inline uint64_t weight_of(const uint8_t *stored, size_t length) {
    return stored[0] == IS_NUMBER ? take_number(stored + 1) : length - 1;
}

static inline bool all_hold(struct pass *pass, const struct query *query, uint64_t node) {
    for (int i = 0; i < query->count; i++)
        if (is_asked(query, i) && !holds(pass, &query->comparisons[i], node)) return false;
    return true;
}
#endif
