/* The stored data: nodes with a name and a size, which are indexed, and a kind, which isn't. */
#ifndef DATA_H
#define DATA_H
#include <stdint.h>

#include "peer.h"

#define PAGES 16384
#define NAME TEXT("name")
#define SIZE TEXT("size")
#define KIND TEXT("kind")

/* `names` and `sizes` are the numbers below `nodes`, shuffled; the sizes are ten times these. `parts`: do one part in this many
 * of what a case usually does, or all if it is 0. `only`: the only case to run, or NULL. */
struct data {
    uint64_t nodes, random, parts;
    const char *only;
    uint32_t *names, *sizes;
};

struct data make_data(uint64_t nodes);

/* Returns how many times to do something that is usually done `usual` times: at least once. */
uint64_t share(const struct data *data, uint64_t usual);
bool has_case(const struct data *data, const char *name);

uint64_t next_random(uint64_t *state);
uint64_t below(uint64_t *state, uint64_t bound);

/* All answers as one number: it starts with NO_ANSWERS, mixes in each number in turn, and is printed as the case `answers`. */
#define NO_ANSWERS 14695981039346656037u
void take_answer(uint64_t *answers, uint64_t number);
void say_answers(uint64_t answers);

struct text kind_text(uint64_t number);

/* Ends the process if a write was refused. */
void must(enum outcome outcome);

/* Opens a store with both indices. */
struct store *open_store(int passes);

/* Makes indices for names that no node has, so that there are this many in total. */
void make_more_indices(struct pass *pass, uint64_t indices);

/* Makes the nodes 1 to data->nodes through the store's first pass. */
void fill(struct store *store, const struct data *data);

/* Sets a random node to a random size. */
enum outcome set_random_size(struct pass *pass, uint64_t nodes, uint64_t *state);

/* Sets this many random sizes. */
#define SETS 20000
void set_sizes(struct pass *pass, const struct data *data, uint64_t sets);
#endif
