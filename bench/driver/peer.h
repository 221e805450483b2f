/* What a peer offers the driver: a store of nodes with attributes, indices, snapshots and queries. If a peer is out of memory, or
 * its library refuses something, it ends the process. */
#ifndef PEER_H
#define PEER_H
#include <stdbool.h>

#include "query.h"
#include "text.h"

struct store;
struct pass; /* one thread's handle on a store */

/* BUSY: another pass is writing. FULL: pins hold the pages that are needed. */
enum outcome { DONE, BUSY, FULL };

/* Opens a store; its passes have numbers below `passes`. Closing the store takes the passes back. */
struct store *store_open(uint64_t pages, int passes);
struct pass *store_pass(struct store *store, int number);
void store_close(struct store *store);

/* Returns how many bytes the store's pages have, except for free ones. */
uint64_t bytes_used(struct store *store);

/* Each write is a separate commit. Between begin and commit, up to 64 operations are one commit, or any number if
 * `has_long_lists` is set. A node that is made there gets the next number, and `node` may stay unset. */
extern const bool has_long_lists;
enum outcome begin(struct pass *pass);
enum outcome commit(struct pass *pass);
enum outcome make_index(struct pass *pass, struct text name, enum kind kind);
enum outcome make_node(struct pass *pass, uint64_t *node);
enum outcome drop_node(struct pass *pass, uint64_t node);
enum outcome set(struct pass *pass, uint64_t node, struct text name, const struct value *value);

/* Pins a snapshot, which the pass then reads. */
void pin(struct pass *pass);
void unpin(struct pass *pass);

/* Prepares once what a query needs, for the pass that then runs it. */
void prepare(struct pass *pass, struct query *query);

/* Writes a query's nodes in ascending order, up to `most` of them. Returns how many there are. */
size_t ask(struct pass *pass, struct query *query, uint64_t *nodes, size_t most);

/* Writes any `most` of a query's nodes, in any order, or all if there are fewer. Returns how many. */
size_t ask_some(struct pass *pass, struct query *query, uint64_t *nodes, size_t most);

/* A place in an order: a number, or none in an order of texts, and a node. */
struct place {
    int64_t number;
    uint64_t node;
};

/* Reads a page: a query's first `most` nodes by descending numbers, or texts, of an indexed name, and then by descending nodes.
 * If there is a place, only the nodes after it count. `hits` is about how many nodes the query has, so that a peer can choose its
 * method. */
size_t ask_page(struct pass *pass, struct query *query, struct text by, const struct place *after, uint64_t hits, uint64_t *nodes, size_t most);

/* Reads all attributes of each of these nodes, or of those that a query finds if that is faster for a peer. Returns the sum of
 * the numbers and the lengths of the texts. */
extern const bool has_attributes, has_joined_reads;
uint64_t read_each(struct pass *pass, const uint64_t *nodes, size_t count);
uint64_t ask_joined(struct pass *pass, struct query *query);

bool get_number(struct pass *pass, uint64_t node, struct text name, int64_t *number);

/* Releases what `ask` has prepared for a query. */
void forget(struct query *query);
#endif
