/* Writes by one thread, as one commit each, or 64 in one commit. */
#include <stdlib.h>

#include "asked.h"
#include "clock.h"
#include "workloads.h"

#define LISTS 200

static void time_sizes(struct pass *pass, const struct data *data) {
    uint64_t sets = share(data, SETS);
    double start = now();
    set_sizes(pass, data, sets);
    say_each("set-indexed", start, sets);
}

static void set_kinds(struct pass *pass, const struct data *data) {
    uint64_t state = data->random, sets = share(data, SETS);
    double start = now();
    for (uint64_t i = 0; i < sets; i++) {
        struct value value = text_value(kind_text(below(&state, 8)));
        must(set(pass, 1 + below(&state, data->nodes), KIND, &value));
    }
    say_each("set-unindexed", start, sets);
}

static void set_lists(struct pass *pass, const struct data *data) {
    uint64_t state = data->random, lists = share(data, LISTS);
    double start = now();
    for (uint64_t i = 0; i < lists; i++) {
        must(begin(pass));
        for (int j = 0; j < 64; j++) must(set_random_size(pass, data->nodes, &state));
        must(commit(pass));
    }
    say_each("list", start, 64 * lists);
}

/* Makes batches that set only new names, each on its own node. */
static void set_new_names(struct pass *pass, const struct data *data, const char *label, int names) {
    uint64_t nodes[LISTS], lists = share(data, LISTS);
    for (uint64_t i = 0; i < lists; i++) must(make_node(pass, &nodes[i]));
    double start = now();
    for (uint64_t i = 0; i < lists; i++) {
        must(begin(pass));
        for (int j = 0; j < names; j++) {
            char name[3] = {'n', '0' + j / 10, '0' + j % 10};
            struct value value = number_value(nodes[i]);
            must(set(pass, nodes[i], (struct text){name, 3}, &value));
        }
        must(commit(pass));
    }
    say_each(label, start, lists * names);
    for (uint64_t i = 0; i < lists; i++) must(drop_node(pass, nodes[i]));
}

/* Reads what the writes have made: each node's size, and the nodes by the index on size. */
static void look_at_all(struct pass *pass, const struct data *data) {
    uint64_t answers = NO_ANSWERS, *found = malloc(data->nodes * sizeof *found);
    struct query query;
    int64_t size;
    pin(pass);
    for (uint64_t node = 1; node <= data->nodes; node++) {
        if (!get_number(pass, node, SIZE, &size)) exit(1);
        take_answer(&answers, size);
    }
    uint64_t state = data->random;
    struct asked text = text_of(SIZE_FROM, data->nodes, data->nodes / 2, &state);
    parse(&query, asked_text(&text));
    size_t count = ask(pass, &query, found, data->nodes);
    for (size_t i = 0; i < count; i++) take_answer(&answers, found[i]);
    forget(&query);
    unpin(pass);
    free(found);
    say_answers(answers);
}

static void drop_nodes(struct pass *pass, const struct data *data) {
    double start = now();
    for (uint64_t i = 0; i < data->nodes; i++) must(drop_node(pass, 1 + data->names[i]));
    say_each("drop", start, data->nodes);
}

void run_writes(const struct data *data) {
    struct store *store = open_store(1);
    struct pass *pass = store_pass(store, 0);
    double start = now();
    fill(store, data);
    say_each("create", start, 4 * data->nodes);
    time_sizes(pass, data);
    set_kinds(pass, data);
    set_lists(pass, data);
    if (data->nodes <= 10000) {
        set_new_names(pass, data, "names-8", 8);
        set_new_names(pass, data, "names-64", 64);
    }
    look_at_all(pass, data);
    drop_nodes(pass, data);
    store_close(store);
}

void run_open(uint64_t pages) {
    double start = now();
    struct store *store = store_open(pages, 1);
    say_each("open", start, 1);
    store_close(store);
}
