/* Four threads that read and write, with 19 reads per write: how long each read and write took. */
#include <pthread.h>
#include <sched.h>
#include <stdlib.h>

#include "asking.h"
#include "clock.h"
#include "workloads.h"

#define THREADS 4
#define BLOCKS 400
#define TEXTS 64

/* What a thread did: the nanoseconds of each read and of each write. */
struct worker {
    _Alignas(64) struct pass *pass;
    const struct data *data;
    uint64_t random, blocks, read_count, write_count;
    double *reads, *writes;
};

static void set_at_last(struct worker *worker) {
    while (set_random_size(worker->pass, worker->data->nodes, &worker->random) != DONE) sched_yield();
}

static void read_one(struct worker *worker, struct query *query) {
    uint64_t nodes[4];
    pin(worker->pass);
    if (ask(worker->pass, query, nodes, 4) != 1) exit(1);
    unpin(worker->pass);
}

/* Runs each query of a block, but for one in 20 sets a size instead. */
static void work_on(struct worker *worker, struct block *block) {
    for (int i = 0; i < block->count; i++) {
        bool is_write = below(&worker->random, 20) == 0;
        double start = now();
        if (is_write) set_at_last(worker);
        else read_one(worker, &block->queries[i]);
        double spent = (now() - start) * 1e9;
        if (is_write) worker->writes[worker->write_count++] = spent;
        else worker->reads[worker->read_count++] = spent;
    }
}

static void *work(void *argument) {
    struct worker *worker = argument;
    struct asking asking = {ONE_NAME, 1, 1, TEXTS, 1, false};
    struct block *block = malloc(sizeof *block);
    for (uint64_t i = 0; i < worker->blocks; i++) {
        make_block(block, worker->pass, worker->data, &asking, &worker->random);
        work_on(worker, block);
        drop_block(block);
    }
    free(block);
    return NULL;
}

static void start_worker(struct worker *worker, struct pass *pass, const struct data *data, uint64_t random) {
    uint64_t blocks = share(data, BLOCKS);
    size_t room = blocks * TEXTS * sizeof(double);
    *worker = (struct worker){pass, data, random, blocks, 0, 0, malloc(room), malloc(room)};
}

static void say_all(struct worker *workers) {
    size_t room = THREADS * workers[0].blocks * TEXTS * sizeof(double), reads = 0, writes = 0;
    double *all_reads = malloc(room), *all_writes = malloc(room);
    for (int i = 0; i < THREADS; i++) {
        for (uint64_t j = 0; j < workers[i].read_count; j++) all_reads[reads++] = workers[i].reads[j];
        for (uint64_t j = 0; j < workers[i].write_count; j++) all_writes[writes++] = workers[i].writes[j];
        free(workers[i].reads);
        free(workers[i].writes);
    }
    say_spread("mixed-read", all_reads, reads);
    say_spread("mixed-write", all_writes, writes);
    free(all_reads);
    free(all_writes);
}

void run_mixed(const struct data *data) {
    struct store *store = open_store(THREADS + 1);
    struct worker workers[THREADS];
    pthread_t threads[THREADS];
    fill(store, data);
    for (int i = 0; i < THREADS; i++) start_worker(&workers[i], store_pass(store, i + 1), data, data->random + i);
    double start = now();
    for (int i = 0; i < THREADS; i++) pthread_create(&threads[i], NULL, work, &workers[i]);
    for (int i = 0; i < THREADS; i++) pthread_join(threads[i], NULL);
    say_rate("mixed-rate", THREADS * TEXTS * workers[0].blocks, now() - start);
    say_all(workers);
    store_close(store);
}
