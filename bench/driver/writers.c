/* Four threads that do nothing but write: how long each write took. */
#include <pthread.h>
#include <sched.h>
#include <stdlib.h>

#include "clock.h"
#include "workloads.h"

#define THREADS 4
#define WRITES 40000

/* A thread's pass, and the nanoseconds of each of its writes. */
struct writer {
    _Alignas(64) struct pass *pass;
    const struct data *data;
    uint64_t random, count;
    double *times;
};

static void *write_all(void *argument) {
    struct writer *writer = argument;
    for (uint64_t i = 0; i < writer->count; i++) {
        double start = now();
        while (set_random_size(writer->pass, writer->data->nodes, &writer->random) != DONE) sched_yield();
        writer->times[i] = (now() - start) * 1e9;
    }
    return NULL;
}

void run_writers(const struct data *data) {
    struct store *store = open_store(THREADS + 1);
    struct writer writers[THREADS];
    pthread_t threads[THREADS];
    uint64_t count = share(data, WRITES);
    double *times = malloc(THREADS * count * sizeof *times);
    fill(store, data);
    for (int i = 0; i < THREADS; i++)
        writers[i] = (struct writer){store_pass(store, i + 1), data, data->random + i, count, times + i * count};
    double start = now();
    for (int i = 0; i < THREADS; i++) pthread_create(&threads[i], NULL, write_all, &writers[i]);
    for (int i = 0; i < THREADS; i++) pthread_join(threads[i], NULL);
    say_rate("writers-4-rate", THREADS * count, now() - start);
    say_spread("writers-4", times, THREADS * count);
    free(times);
    store_close(store);
}
