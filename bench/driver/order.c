/* Pages of an answer in an index's order: by descending sizes, or names. */
#include <stdio.h>

#include "asking.h"
#include "clock.h"
#include "workloads.h"

#define SHOWN 50
#define TENTH TEXT("tenth")

/* Where a page is: at the beginning, anywhere, or at the end. */
enum where { NEWEST, ANYWHERE, OLDEST };

/* What a case runs: texts of a shape, each with about this many nodes, and a page of each. */
struct paging {
    enum shape shape;
    uint64_t width, hits;
    struct text by;
    enum where where;
};

/* Returns the place after which a page begins. The sizes are 0 to 10 * (nodes - 1), in steps of ten. */
static const struct place *place_of(const struct paging *it, uint64_t nodes, uint64_t *state, struct place *place) {
    if (it->where == NEWEST) return NULL;
    place->number = it->where == OLDEST ? 10 * SHOWN : (int64_t)below(state, 10 * nodes);
    place->node = 1 + below(state, nodes);
    return place;
}

/* Reads a page of each query. Mixes the nodes into `answers`, unless it is NULL. */
static void ask_block(struct pass *pass, const struct data *data, struct block *block, const struct paging *it, uint64_t *state, uint64_t *answers) {
    struct place place;
    for (int i = 0; i < block->count; i++) {
        const struct place *after = place_of(it, data->nodes, state, &place);
        size_t count = ask_page(pass, &block->queries[i], it->by, after, it->hits, nodes_found, SHOWN);
        for (size_t j = 0; answers && j < count; j++) take_answer(answers, nodes_found[j]);
    }
}

/* Measures the mean time of a page. The first block isn't timed, but its nodes go into `answers`. */
static void time_pages(struct pass *pass, const struct data *data, const char *name, struct paging it, uint64_t *answers) {
    static struct block block;
    const struct asking asking = {it.shape, it.width, 0, 16, 40, false};
    uint64_t state = data->random, rounds = share(data, asking.rounds);
    double spent = 0;
    if (!has_case(data, name)) return;
    make_block(&block, pass, data, &asking, &state);
    ask_block(pass, data, &block, &it, &state, answers);
    drop_block(&block);
    for (uint64_t i = 0; i < rounds; i++) {
        make_block(&block, pass, data, &asking, &state);
        double start = now();
        ask_block(pass, data, &block, &it, &state, NULL);
        spent += now() - start;
        drop_block(&block);
    }
    say_spent(name, spent, rounds * asking.texts);
}

/* Opens a store in which a second number divides the nodes into ten parts. */
static struct store *open_tenths(const struct data *data) {
    struct store *store = open_store(1);
    struct pass *pass = store_pass(store, 0);
    must(make_index(pass, TENTH, IS_NUMBER));
    fill(store, data);
    for (uint64_t i = 0; i < data->nodes; i++) {
        struct value value = number_value(data->names[i] % 10);
        must(set(pass, i + 1, TENTH, &value));
    }
    return store;
}

void run_order(const struct data *data) {
    uint64_t answers = NO_ANSWERS, all = data->nodes;
    struct store *store = open_tenths(data);
    struct pass *pass = store_pass(store, 0);
    pin(pass);
    time_pages(pass, data, "page-newest", (struct paging){ALL_SIZES, 0, all, SIZE, NEWEST}, &answers);
    time_pages(pass, data, "page-middle", (struct paging){ALL_SIZES, 0, all, SIZE, ANYWHERE}, &answers);
    time_pages(pass, data, "page-oldest", (struct paging){ALL_SIZES, 0, all, SIZE, OLDEST}, &answers);
    time_pages(pass, data, "page-tenth", (struct paging){ALL_TENTH, 0, all / 10, SIZE, NEWEST}, &answers);
    time_pages(pass, data, "page-tenth-middle", (struct paging){ALL_TENTH, 0, all / 10, SIZE, ANYWHERE}, &answers);
    time_pages(pass, data, "page-kind", (struct paging){ALL_KIND, 0, all / 8, SIZE, NEWEST}, &answers);
    time_pages(pass, data, "page-part", (struct paging){ONE_PART, 0, all / 10, SIZE, NEWEST}, &answers);
    time_pages(pass, data, "page-front-1000", (struct paging){NAME_TENTH, 0, all / 10, SIZE, NEWEST}, &answers);
    time_pages(pass, data, "page-front-100", (struct paging){NAME_FRONT, 0, 100, SIZE, NEWEST}, &answers);
    time_pages(pass, data, "page-end", (struct paging){ONE_END, 0, all / 10, NAME, NEWEST}, &answers);
    unpin(pass);
    say_answers(answers);
    store_close(store);
}
