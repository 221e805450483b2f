/* Queries and reads by one thread on one pin, and pins. */
#include <stdlib.h>

#include "asking.h"
#include "clock.h"
#include "workloads.h"

#define PARSED 4000
#define GETS 20000
#define PINS 100000

static void ask_parsed(struct pass *pass, const struct data *data) {
    static struct asked texts[PARSED];
    uint64_t state = data->random, count = share(data, PARSED);
    for (uint64_t i = 0; i < count; i++) texts[i] = text_of(ONE_NAME, data->nodes, 1, &state);
    double start = now();
    for (uint64_t i = 0; i < count; i++) {
        struct query query;
        parse(&query, asked_text(&texts[i]));
        count_found(pass, &query);
        forget(&query);
    }
    say_each("parsed", start, count);
}

static void get_sizes(struct pass *pass, const struct data *data, uint64_t *answers) {
    uint64_t state = data->random, sum = 0, gets = share(data, GETS);
    int64_t size;
    double start = now();
    for (uint64_t i = 0; i < gets; i++) {
        if (!get_number(pass, 1 + below(&state, data->nodes), SIZE, &size)) exit(1);
        sum += size;
    }
    say_each("get", start, gets);
    take_answer(answers, sum);
}

static void pin_often(struct pass *pass, uint64_t times) {
    double start = now();
    for (uint64_t i = 0; i < times; i++) {
        pin(pass);
        unpin(pass);
    }
    say_each("pin", start, times);
}

static void ask_all(struct pass *pass, const struct data *data, uint64_t *answers) {
    uint64_t thousand = data->nodes < 2000 ? 100 : 1000;
    ask_each(pass, data, "one-text", KEPT_ONES(ONE_NAME, 1), answers);
    ask_each(pass, data, "one-number", KEPT_ONES(SIZE_RANGE, 1), answers);
    ask_each(pass, data, "range-100", (struct asking){SIZE_RANGE, 100, 100, 64, 60, false}, answers);
    ask_each(pass, data, "from-1000", (struct asking){SIZE_FROM, thousand, 0, 16, 50, false}, answers);
    ask_each(pass, data, "front-100", (struct asking){NAME_FRONT, 100, 100, 64, 60, false}, answers);
    ask_each(pass, data, "filter", (struct asking){FRONT_SIZE, 0, 0, 16, 50, false}, answers);
}

void run_reads(const struct data *data) {
    struct store *store = open_store(1);
    struct pass *pass = store_pass(store, 0);
    uint64_t answers = NO_ANSWERS;
    fill(store, data);
    pin_often(pass, share(data, PINS));
    pin(pass);
    ask_all(pass, data, &answers);
    ask_parsed(pass, data);
    get_sizes(pass, data, &answers);
    unpin(pass);
    say_answers(answers);
    store_close(store);
}

/* Again one node by its text, with 32 indices in the store. */
void run_indices(const struct data *data) {
    struct store *store = open_store(1);
    struct pass *pass = store_pass(store, 0);
    uint64_t answers = NO_ANSWERS;
    make_more_indices(pass, 32);
    fill(store, data);
    pin(pass);
    ask_each(pass, data, "one-text-32", KEPT_ONES(ONE_NAME, 1), &answers);
    unpin(pass);
    say_answers(answers);
    store_close(store);
}
