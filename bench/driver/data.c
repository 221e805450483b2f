#include "data.h"

#include <stdio.h>
#include <stdlib.h>
#include <string.h>

uint64_t next_random(uint64_t *state) {
    *state ^= *state << 13;
    *state ^= *state >> 7;
    *state ^= *state << 17;
    return *state;
}

uint64_t below(uint64_t *state, uint64_t bound) { return next_random(state) % bound; }

void take_answer(uint64_t *answers, uint64_t number) { *answers = (*answers ^ number) * 1099511628211u; }

/* Prints the upper bits, which every number has changed. They are few enough for a double. */
void say_answers(uint64_t answers) { printf("answers %llu\n", (unsigned long long)(answers >> 12)); }

static uint32_t *shuffled(uint64_t count, uint64_t *state) {
    uint32_t *list = malloc(count * sizeof *list);
    for (uint64_t i = 0; i < count; i++) list[i] = i;
    for (uint64_t i = count; i > 1; i--) {
        uint64_t j = below(state, i);
        uint32_t last = list[i - 1];
        list[i - 1] = list[j];
        list[j] = last;
    }
    return list;
}

struct data make_data(uint64_t nodes) {
    struct data data = {.nodes = nodes, .random = 88172645463325252u};
    data.names = shuffled(nodes, &data.random);
    data.sizes = shuffled(nodes, &data.random);
    return data;
}

uint64_t share(const struct data *data, uint64_t usual) {
    uint64_t part = data->parts ? usual / data->parts : usual;
    return part ? part : 1;
}

bool has_case(const struct data *data, const char *name) { return !data->only || !strcmp(data->only, name); }

struct text kind_text(uint64_t number) {
    static const struct text kinds[8] = {
        {"text/x-source-code", 18}, {"text/plain", 10},     {"image/png", 9}, {"audio/mpeg", 10},
        {"application/pdf", 15},    {"message/rfc822", 14}, {"text/html", 9}, {"application/x-person", 20},
    };
    return kinds[number % 8];
}

void must(enum outcome outcome) {
    if (outcome == DONE) return;
    fprintf(stderr, "a write was refused: %s\n", outcome == BUSY ? "busy" : "full");
    exit(1);
}

struct store *open_store(int passes) {
    struct store *store = store_open(PAGES, passes);
    must(make_index(store_pass(store, 0), NAME, IS_TEXT));
    must(make_index(store_pass(store, 0), SIZE, IS_NUMBER));
    return store;
}

void make_more_indices(struct pass *pass, uint64_t indices) {
    for (uint64_t i = 2; i < indices; i++) {
        char name[3] = {'i', '0' + i / 10, '0' + i % 10};
        must(make_index(pass, (struct text){name, 3}, IS_NUMBER));
    }
}

void fill(struct store *store, const struct data *data) {
    struct pass *pass = store_pass(store, 0);
    for (uint64_t i = 0; i < data->nodes; i++) {
        char name[32];
        size_t length = snprintf(name, sizeof name, "%05u-document.txt", data->names[i]);
        struct value values[3] = {
            text_value((struct text){name, length}),
            number_value(10 * (int64_t)data->sizes[i]),
            text_value(kind_text(data->names[i])),
        };
        uint64_t node;
        must(make_node(pass, &node));
        must(set(pass, node, NAME, &values[0]));
        must(set(pass, node, SIZE, &values[1]));
        must(set(pass, node, KIND, &values[2]));
    }
}

enum outcome set_random_size(struct pass *pass, uint64_t nodes, uint64_t *state) {
    uint64_t node = 1 + below(state, nodes);
    struct value value = number_value(below(state, 10 * nodes));
    return set(pass, node, SIZE, &value);
}

void set_sizes(struct pass *pass, const struct data *data, uint64_t sets) {
    uint64_t state = data->random;
    for (uint64_t i = 0; i < sets; i++) must(set_random_size(pass, data->nodes, &state));
}
