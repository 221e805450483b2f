/* Importing files, the space that they take, and sets in situations that make them slower. */
#include "clock.h"
#include "files.h"
#include "workloads.h"

#define FILES_IN_LIST 10
#define HELD_SETS 500

static void time_singles(const struct data *data) {
    struct store *store = open_files(1);
    double start = now();
    import_singly(store_pass(store, 0), data);
    say_each("import-single", start, data->nodes);
    store_close(store);
}

/* Imports with this many files per commit, or all in one. */
static void time_lists(const struct data *data, const char *name, uint64_t files) {
    struct store *store = open_files(1);
    double start = now();
    import_in_lists(store_pass(store, 0), data, files);
    say_each(name, start, data->nodes);
    if (files) say_value("bytes-file", (double)bytes_used(store) / data->nodes);
    store_close(store);
}

void run_import(const struct data *data) {
    time_singles(data);
    time_lists(data, "import-lists", FILES_IN_LIST);
    if (has_long_lists) time_lists(data, "import-one", 0);
}

static void time_sets(struct pass *pass, const struct data *data, uint64_t sets) {
    double start = now();
    set_sizes(pass, data, sets);
    say_each("set", start, sets);
}

void run_sets(const struct data *data, uint64_t indices) {
    struct store *store = open_store(1);
    make_more_indices(store_pass(store, 0), indices);
    fill(store, data);
    time_sets(store_pass(store, 0), data, share(data, SETS));
    store_close(store);
}

/* Sets sizes while another pass stays pinned. There are so few sets that the pages suffice, since no page given up meanwhile
 * becomes free. */
void run_held(const struct data *data) {
    struct store *store = open_store(2);
    fill(store, data);
    pin(store_pass(store, 1));
    time_sets(store_pass(store, 0), data, HELD_SETS);
    unpin(store_pass(store, 1));
    store_close(store);
}
