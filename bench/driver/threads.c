/* Readers and writers at the same time, each in its own thread, for a number of seconds. */
#include <pthread.h>
#include <sched.h>
#include <stdio.h>
#include <stdlib.h>

#include "asked.h"
#include "clock.h"
#include "workloads.h"

#define READERS 4
#define TEXTS 1024
#define MOST 4096

/* What a thread does until `end`, and how many times it did it. Each job has its own cache line. */
struct job {
    _Alignas(64) struct pass *pass;
    const struct data *data;
    double end;
    uint64_t random, count;
};

/* Sets a size, retrying until it is accepted or the time is over. Returns whether it was. */
static bool set_at_last(struct job *job) {
    do {
        switch (set_random_size(job->pass, job->data->nodes, &job->random)) {
        case DONE: return true;
        case BUSY:
        case FULL: sched_yield(); break;
        }
    } while (now() < job->end);
    return false;
}

static void *write_on(void *argument) {
    struct job *job = argument;
    while (now() < job->end)
        for (int i = 0; i < 16; i++) job->count += set_at_last(job);
    return NULL;
}

/* Repeatedly pins, runs a query for a hundred nodes, and unpins. */
static void *ask_on(void *argument) {
    struct job *job = argument;
    struct asked *texts = malloc(TEXTS * sizeof *texts);
    struct query *queries = malloc(TEXTS * sizeof *queries);
    uint64_t *nodes = malloc(MOST * sizeof *nodes);
    for (int i = 0; i < TEXTS; i++) {
        texts[i] = text_of(NAME_FRONT, job->data->nodes, 100, &job->random);
        parse(&queries[i], asked_text(&texts[i]));
        prepare(job->pass, &queries[i]);
    }
    for (; now() < job->end; job->count += TEXTS)
        for (int i = 0; i < TEXTS; i++) {
            pin(job->pass);
            if (ask(job->pass, &queries[i], nodes, MOST) != 100) exit(1);
            unpin(job->pass);
        }
    for (int i = 0; i < TEXTS; i++) forget(&queries[i]);
    free(nodes);
    free(queries);
    free(texts);
    return NULL;
}

static void *pin_on(void *argument) {
    struct job *job = argument;
    for (; now() < job->end; job->count += 1000)
        for (int i = 0; i < 1000; i++) {
            pin(job->pass);
            unpin(job->pass);
        }
    return NULL;
}

typedef void *work(void *argument);

/* Runs this many readers and writers at once; the writers have the first passes. Counts the reads and the commits. */
static void play(struct store *store, const struct data *data, double seconds, work *reading, int readers, int writers, uint64_t counts[2]) {
    pthread_t threads[READERS + 2];
    struct job jobs[READERS + 2];
    double end = now() + seconds;
    for (int i = 0; i < readers + writers; i++) {
        jobs[i] = (struct job){store_pass(store, i), data, end, data->random + i, 0};
        pthread_create(&threads[i], NULL, i < writers ? write_on : reading, &jobs[i]);
    }
    counts[0] = counts[1] = 0;
    for (int i = 0; i < readers + writers; i++) {
        pthread_join(threads[i], NULL);
        counts[i < writers] += jobs[i].count;
    }
}

static void ask_beside(struct store *store, const struct data *data, double seconds, int readers, int writers) {
    uint64_t counts[2];
    char name[32];
    play(store, data, seconds, ask_on, readers, writers, counts);
    if (readers) {
        snprintf(name, sizeof name, "readers-%d%s", readers, writers ? "-beside" : "");
        say_rate(name, counts[0], seconds);
    }
    if (writers) {
        snprintf(name, sizeof name, writers == 1 ? "commits-%d" : "writers-2", readers);
        say_rate(name, counts[1], seconds);
    }
}

void run_threads(const struct data *data, double seconds) {
    struct store *store = open_store(READERS + 2);
    uint64_t counts[2];
    fill(store, data);
    play(store, data, seconds, pin_on, 1, 1, counts);
    printf("pin-beside %.3f\n", seconds * 1e9 / counts[0]);
    ask_beside(store, data, seconds, 0, 1);
    for (int readers = 1; readers <= READERS; readers *= 2) {
        ask_beside(store, data, seconds, readers, 0);
        ask_beside(store, data, seconds, readers, 1);
    }
    ask_beside(store, data, seconds, 0, 2);
    store_close(store);
}
