#include "asking.h"

#include <stdlib.h>

#include "clock.h"

uint64_t nodes_found[FOUND_MOST];

void make_block(struct block *block, struct pass *pass, const struct data *data, const struct asking *asking, uint64_t *state) {
    block->count = asking->texts;
    for (int i = 0; i < block->count; i++) {
        block->texts[i] = text_of(asking->shape, data->nodes, asking->width, state);
        parse(&block->queries[i], asked_text(&block->texts[i]));
        prepare(pass, &block->queries[i]);
    }
}

void drop_block(struct block *block) {
    for (int i = 0; i < block->count; i++) forget(&block->queries[i]);
}

uint64_t count_found(struct pass *pass, struct query *query) { return ask(pass, query, nodes_found, FOUND_MOST); }

static void take_found(struct pass *pass, struct block *block, uint64_t *answers) {
    for (int i = 0; i < block->count; i++) {
        size_t count = count_found(pass, &block->queries[i]);
        for (size_t j = 0; j < count; j++) take_answer(answers, nodes_found[j]);
    }
}

static uint64_t use_all(struct pass *pass, struct block *block, use *use_it) {
    uint64_t sum = 0;
    for (int i = 0; i < block->count; i++) sum += use_it(pass, &block->queries[i]);
    return sum;
}

/* Makes the next block of queries. If the case says so, each is run once first. */
static void make_next(struct block *block, struct pass *pass, const struct data *data, const struct asking *asking, uint64_t *state) {
    make_block(block, pass, data, asking, state);
    if (asking->asked_before) use_all(pass, block, count_found);
}

/* Runs the blocks that are timed, after the first. Returns the sum of the results. */
static uint64_t time_blocks(struct pass *pass, const struct data *data, const char *name, const struct asking *asking, use *use_it, uint64_t state) {
    static struct block block;
    uint64_t rounds = share(data, asking->rounds), sum = 0;
    double spent = 0;
    for (uint64_t i = 0; i < rounds; i++) {
        make_next(&block, pass, data, asking, &state);
        double start = now();
        sum += use_all(pass, &block, use_it);
        spent += now() - start;
        drop_block(&block);
    }
    say_spent(name, spent, rounds * asking->texts);
    return sum;
}

void ask_each(struct pass *pass, const struct data *data, const char *name, struct asking asking, uint64_t *answers) {
    static struct block first;
    uint64_t state = data->random;
    if (!has_case(data, name)) return;
    make_block(&first, pass, data, &asking, &state);
    take_found(pass, &first, answers);
    drop_block(&first);
    uint64_t found = time_blocks(pass, data, name, &asking, count_found, state);
    if (!asking.hits || found == asking.hits * asking.texts * share(data, asking.rounds)) return;
    fprintf(stderr, "%s finds %llu nodes in all\n", name, (unsigned long long)found);
    exit(1);
}

void use_each(struct pass *pass, const struct data *data, const char *name, struct asking asking, use *use_it, uint64_t *answers) {
    static struct block first;
    uint64_t state = data->random;
    if (!has_case(data, name)) return;
    make_block(&first, pass, data, &asking, &state);
    take_answer(answers, use_all(pass, &first, use_it));
    drop_block(&first);
    time_blocks(pass, data, name, &asking, use_it, state);
}
