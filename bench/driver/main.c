/* The driver: `PEER writes|reads|indices|patterns|order|shared|held|mixed|writers NODES`, `PEER import FILES`, `PEER sets NODES INDICES`,
 * `PEER threads NODES MILLISECONDS`, `PEER open PAGES`, `PEER journal LISTS OPERATIONS`, `PEER pauses NODES COMMITS`.
 *
 * A fourth word, after a second number that may be 0, says how small a part of each case to run: 20 for a twentieth. A fifth word
 * names the only case to run. */
#include <stdio.h>
#include <stdlib.h>
#include <string.h>

#include "workloads.h"

static uint64_t number_of(int count, char **words, int at) { return count > at ? strtoull(words[at], NULL, 10) : 0; }

static int run(const char *workload, const struct data *data, uint64_t other) {
    if (!strcmp(workload, "writes")) run_writes(data);
    else if (!strcmp(workload, "reads")) run_reads(data);
    else if (!strcmp(workload, "indices")) run_indices(data);
    else if (!strcmp(workload, "patterns")) run_patterns(data);
    else if (!strcmp(workload, "order")) run_order(data);
    else if (!strcmp(workload, "shared")) run_shared(data);
    else if (!strcmp(workload, "import")) run_import(data);
    else if (!strcmp(workload, "sets")) run_sets(data, other);
    else if (!strcmp(workload, "held")) run_held(data);
    else if (!strcmp(workload, "mixed")) run_mixed(data);
    else if (!strcmp(workload, "writers")) run_writers(data);
    else if (!strcmp(workload, "threads")) run_threads(data, other / 1000.0);
    else if (!strcmp(workload, "pauses")) run_pauses(data, other);
    else return 2;
    return 0;
}

int main(int count, char **words) {
    if (count < 3) return 2;
    setvbuf(stdout, NULL, _IOLBF, 0);
    uint64_t number = number_of(count, words, 2), other = number_of(count, words, 3);
    if (!strcmp(words[1], "open")) {
        run_open(number);
        return 0;
    }
    if (!strcmp(words[1], "journal")) {
        run_journal(number, other);
        return 0;
    }
    struct data data = make_data(number);
    data.parts = number_of(count, words, 4);
    data.only = count > 5 ? words[5] : NULL;
    return run(words[1], &data, other);
}
