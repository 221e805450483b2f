/* What a journal costs: the memory that commits leave, and how long the slowest of many commits takes. */
#include <stdio.h>
#include <stdlib.h>

#include "clock.h"
#include "workloads.h"

#define FEW_PAGES 512
#define RUNS 2
#define LONG_TIME 1e9

/* Returns how many bytes of memory the process has, or 0 if the system doesn't say. */
static uint64_t memory(void) {
    unsigned long long kilobytes = 0;
    char line[128];
    FILE *file = fopen("/proc/self/smaps_rollup", "r");
    if (!file) return 0;
    while (fgets(line, sizeof line, file) && sscanf(line, "Rss: %llu", &kilobytes) != 1) continue;
    fclose(file);
    return kilobytes * 1024;
}

/* Sets a node's size to 5 again and again, in this many batches of this many operations. */
static void set_often(struct pass *pass, uint64_t node, uint64_t lists, uint64_t operations) {
    struct value value = number_value(5);
    for (uint64_t i = 0; i < lists; i++) {
        must(begin(pass));
        for (uint64_t j = 0; j < operations; j++) must(set(pass, node, SIZE, &value));
        must(commit(pass));
    }
}

void run_journal(uint64_t lists, uint64_t operations) {
    struct store *store = store_open(FEW_PAGES, 1);
    struct pass *pass = store_pass(store, 0);
    uint64_t node;
    must(make_node(pass, &node));
    set_often(pass, node, lists, operations);
    uint64_t before = memory();
    set_often(pass, node, lists, operations);
    printf("journal %.3f\n", ((double)memory() - before) / (lists * operations));
    store_close(store);
}

/* Sets random sizes in a new store. Records how long each commit took if that is less than the recorded time. */
static void time_each(const struct data *data, double *least, uint64_t commits) {
    struct store *store = open_store(1);
    struct pass *pass = store_pass(store, 0);
    uint64_t state = data->random;
    fill(store, data);
    for (uint64_t i = 0; i < commits; i++) {
        double start = now();
        must(set_random_size(pass, data->nodes, &state));
        double spent = now() - start;
        if (spent < least[i]) least[i] = spent;
    }
    store_close(store);
}

void run_pauses(const struct data *data, uint64_t commits) {
    double *least = malloc(commits * sizeof *least);
    for (uint64_t i = 0; i < commits; i++) least[i] = LONG_TIME;
    for (int run = 0; run < RUNS; run++) time_each(data, least, commits);
    sort_times(least, commits);
    printf("median %.3f\n", least[commits / 2] * 1e9);
    printf("worst %.3f\n", least[commits - 1] * 1e9);
    free(least);
}
