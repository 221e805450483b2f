/* Queries over files, and over names that share a prefix. */
#include <stdio.h>

#include "asking.h"
#include "files.h"
#include "workloads.h"

#define SHOWN 50

static void time_patterns(struct pass *pass, const struct data *data, uint64_t *answers) {
    ask_each(pass, data, "contains", (struct asking){CONTAINS, 0, 0, 5, 10, false}, answers);
    ask_each(pass, data, "ends", (struct asking){ENDS, 0, 0, 5, 10, false}, answers);
    ask_each(pass, data, "unequal", (struct asking){UNEQUAL, 0, 0, 5, 10, false}, answers);
    ask_each(pass, data, "any-three", (struct asking){ANY_THREE, 0, 0, 64, 60, false}, answers);
    ask_each(pass, data, "contains-from", (struct asking){CONTAINS_FROM, 0, 0, 5, 10, false}, answers);
}

/* Sums up the attributes of the nodes that a query finds. */
static uint64_t read_found(struct pass *pass, struct query *query) {
    return has_joined_reads ? ask_joined(pass, query) : read_each(pass, nodes_found, count_found(pass, query));
}

/* Returns the last of the first nodes that a query finds. */
static uint64_t look_at_first(struct pass *pass, struct query *query) {
    size_t count = count_found(pass, query);
    return count < SHOWN ? 0 : nodes_found[SHOWN - 1];
}

/* Returns how many nodes a query finds when any will do, whichever a peer finds first. */
static uint64_t look_at_any(struct pass *pass, struct query *query) { return ask_some(pass, query, nodes_found, SHOWN); }

void run_patterns(const struct data *data) {
    struct store *store = open_files(1);
    struct pass *pass = store_pass(store, 0);
    uint64_t answers = NO_ANSWERS, none = NO_ANSWERS;
    import_singly(pass, data);
    pin(pass);
    time_patterns(pass, data, &answers);
    if (has_attributes) use_each(pass, data, "attributes", (struct asking){SIZE_RANGE, 100, 100, 16, 20, false}, read_found, &answers);
    use_each(pass, data, "first-50", (struct asking){ALL_SIZES, 0, 0, 5, 20, false}, look_at_first, &answers);
    use_each(pass, data, "any-50", (struct asking){ALL_SIZES, 0, 0, 5, 20, false}, look_at_any, &none);
    unpin(pass);
    say_answers(answers);
    store_close(store);
}

/* Sets names with a prefix of this length, in a separate index. */
static void fill_front(struct pass *pass, const struct data *data, uint64_t length) {
    char called[16], text[NAME_MOST];
    struct text name = {called, snprintf(called, sizeof called, "name%u", (unsigned)length)};
    must(make_index(pass, name, IS_TEXT));
    for (uint64_t i = 0; i < data->nodes; i++) {
        size_t count = snprintf(text, sizeof text, "%s%05u", front_text(length), data->names[i]);
        struct value value = text_value((struct text){text, count});
        must(set(pass, i + 1, name, &value));
    }
}

void run_shared(const struct data *data) {
    struct store *store = store_open(PAGES, 1);
    struct pass *pass = store_pass(store, 0);
    uint64_t answers = NO_ANSWERS, node;
    for (uint64_t i = 0; i < data->nodes; i++) must(make_node(pass, &node));
    for (uint64_t length = 8; length <= 24; length += 8) fill_front(pass, data, length);
    pin(pass);
    ask_each(pass, data, "shared-8", KEPT_ONES(SHARED, 8), &answers);
    ask_each(pass, data, "shared-16", KEPT_ONES(SHARED, 16), &answers);
    ask_each(pass, data, "shared-24", KEPT_ONES(SHARED, 24), &answers);
    unpin(pass);
    say_answers(answers);
    store_close(store);
}
