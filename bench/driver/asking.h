/* Cases that run queries. The texts are new each time, and are prepared in blocks beforehand. */
#ifndef ASKING_H
#define ASKING_H
#include "asked.h"

#define BLOCK 1024
#define FOUND_MOST 32768

/* What a case runs: in each of `rounds`, this many texts of a shape, up to BLOCK. If `hits` isn't 0, each has to find that many
 * nodes. If `asked_before` is set, each query runs once before the clock starts, like a query that is kept. */
struct asking {
    enum shape shape;
    uint64_t width, hits;
    int texts;
    uint64_t rounds;
    bool asked_before;
};

/* Kept queries that find one node. There are so many that what the previous run left in the caches is gone. */
#define KEPT_ONES(shape, width) ((struct asking){shape, width, 1, BLOCK, 20, true})

struct block {
    int count;
    struct asked texts[BLOCK];
    struct query queries[BLOCK];
};

/* Makes new texts, parses them, and makes what each peer prepares for a text beforehand. drop_block releases all this. */
void make_block(struct block *block, struct pass *pass, const struct data *data, const struct asking *asking, uint64_t *state);
void drop_block(struct block *block);

/* What a case does with one query. Returns a result: in most cases, how many nodes it found. */
typedef uint64_t use(struct pass *pass, struct query *query);

/* The nodes that `count_found` found last. */
extern uint64_t nodes_found[FOUND_MOST];
uint64_t count_found(struct pass *pass, struct query *query);

/* Measures the mean time of a query. The first block isn't timed, but its results go into `answers`. If a text doesn't find
 * `hits` nodes, the process ends. */
void ask_each(struct pass *pass, const struct data *data, const char *name, struct asking asking, uint64_t *answers);

/* Does the same for queries that are put to a further use. The first block's results go into `answers`. */
void use_each(struct pass *pass, const struct data *data, const char *name, struct asking asking, use *use_it, uint64_t *answers);
#endif
