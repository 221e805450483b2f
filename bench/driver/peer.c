/* Defaults for what a peer doesn't implement itself. */
#include "peer.h"

#define WEAK __attribute__((weak))

WEAK const bool has_long_lists = false, has_attributes = true, has_joined_reads = false;

WEAK void prepare(struct pass *pass, struct query *query) {
    (void)pass;
    (void)query;
}

WEAK size_t ask_some(struct pass *pass, struct query *query, uint64_t *nodes, size_t most) {
    size_t count = ask(pass, query, nodes, most);
    return count < most ? count : most;
}

WEAK uint64_t ask_joined(struct pass *pass, struct query *query) {
    (void)pass;
    (void)query;
    return 0;
}
