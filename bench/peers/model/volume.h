/* A volume in pages: a version page with the next node, the catalog's root, and the indices with their roots. */
#ifndef VOLUME_H
#define VOLUME_H
#include "../../driver/peer.h"
#include "tree.h"

#define INDICES 32
#define VALUE_MOST 264

struct index {
    char name[64];
    size_t length;
    enum kind kind;
    uint64_t root;
};

struct version {
    uint64_t next, catalog, count;
    struct index indices[INDICES];
};

enum order { MAKE_NODE, DROP_NODE, SET, MAKE_INDEX };

/* One write as it is passed in, and as the journal keeps it. */
struct operation {
    enum order order;
    enum kind kind;
    uint64_t node;
    uint32_t name_length, value_length;
    char name[64];
    uint8_t value[256];
};

void load_version(struct version *version, const struct pool *pool, uint64_t page);
uint32_t write_version(struct write *write, const struct version *version);

/* Applies the operation to the volume. Returns the node that it made. */
uint64_t work(struct write *write, struct version *version, const struct operation *operation);

const struct index *index_of(const struct version *version, struct text name);

/* Reads a node's attribute: its kind and then its bytes. Up to 7 more bytes are written. */
bool attribute(const struct pool *pool, uint64_t catalog, uint64_t node, struct text name, uint8_t *stored, uint32_t *length);

/* Encodes an index key: the value's bytes, in the order of values, and then the node's. */
uint32_t index_bytes(uint8_t *to, enum kind kind, const uint8_t *value, uint32_t length, uint64_t node);
#endif
