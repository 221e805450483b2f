/* A long-running process: two threads write more letters than the journal of one store can hold. When a store is full, its state is
 * copied to a new store, in which the threads continue. A snapshot of the first store remains readable. */
#include "bestore.h"
#include <pthread.h>
#include <stdio.h>
#include <stdlib.h>

enum { WRITERS = 2, LETTERS = 500, COMMITS = 500 };

/* The writers' passes, and the condition on which writers wait for a new store. */
typedef struct office {
    bes_pass passes[WRITERS];
    bes_pass first; /* a pass of the first store, pinned to that store's last snapshot */
    pthread_mutex_t lock;
    pthread_cond_t moved;
    int at_work; /* the number of writers with letters left */
    int waiting; /* how many of these are waiting for a new store */
    int stores;  /* the number of stores so far */
} office;

typedef struct writer {
    office *office;
    bes_pass *pass;
    char *name;
} writer;

static void stop_at(const char *what, uint32_t error)
{
    if (error != BES_OK) {
        fprintf(stderr, "%s: %s\n", what, bes_strerror(error));
        exit(1);
    }
}

/* Gives the writers passes of a new store. No writer may be writing. */
static void move(office *it)
{
    bes_pass next = BES_PASS_INIT;
    uint64_t number = 0;
    stop_at("pin", bes_pin(&it->passes[0], &number));
    stop_at("carry on", bes_carry_on(&it->passes[0], 1024, WRITERS, COMMITS, &next));
    stop_at("keep", it->stores == 1 ? bes_move(&it->passes[0], &it->first) : bes_close(&it->passes[0]));
    for (int i = 1; i < WRITERS; i++) {
        stop_at("close", bes_close(&it->passes[i]));
        stop_at("another", bes_another(&next, &it->passes[i]));
    }
    stop_at("move", bes_move(&next, &it->passes[0]));
    it->stores++;
    it->waiting = 0;
    pthread_cond_broadcast(&it->moved);
}

/* Waits for a new store, along with the other writers. The last writer to arrive opens it. */
static void wait_for_store(office *it)
{
    pthread_mutex_lock(&it->lock);
    int store = it->stores;
    if (++it->waiting == it->at_work)
        move(it);
    while (it->stores == store)
        pthread_cond_wait(&it->moved, &it->lock);
    pthread_mutex_unlock(&it->lock);
}

/* Ends a writer that has no letters left. If all other writers are waiting, this one must open the new store for them. */
static void go_home(office *it)
{
    pthread_mutex_lock(&it->lock);
    if (--it->at_work == it->waiting && it->waiting > 0)
        move(it);
    pthread_mutex_unlock(&it->lock);
}

/* Creates a letter with its sender. */
static uint32_t letter_from(bes_pass *pass, bes_batch *batch, uint64_t next, void *name)
{
    uint32_t error = bes_batch_new_node(batch);
    (void)pass;
    return error != BES_OK ? error : bes_batch_set_text(batch, next, "MAIL:from", name);
}

/* Writes each letter in its own change. If the store is full, writes the letter again to the next one. */
static void *write_letters(void *arg)
{
    writer *it = arg;
    for (int i = 0; i < LETTERS; i++) {
        uint64_t number = 0;
        uint32_t error;
        while ((error = bes_change(it->pass, BES_TRIES, letter_from, it->name, &number)) == BES_COMMITS_SPENT)
            wait_for_store(it->office);
        stop_at("letter", error);
    }
    go_home(it->office);
    return NULL;
}

/* Returns how many letters in the pinned snapshot match the query. */
static unsigned long long letters(bes_pass *pass, const char *query)
{
    uint64_t count = 0;
    stop_at(query, bes_count(pass, query, &count));
    return count;
}

int main(void)
{
    static office it = {{BES_PASS_INIT}, BES_PASS_INIT, PTHREAD_MUTEX_INITIALIZER, PTHREAD_COND_INITIALIZER, WRITERS, 0, 1};
    writer writers[WRITERS] = {{&it, &it.passes[0], "ann"}, {&it, &it.passes[1], "bob"}};
    pthread_t running[WRITERS];
    uint64_t number = 0;
    stop_at("open", bes_open(1024, WRITERS, COMMITS, &it.passes[0]));
    stop_at("another", bes_another(&it.passes[0], &it.passes[1]));
    stop_at("index", bes_make_index(&it.passes[0], "MAIL:from", BES_STRING_TYPE));
    for (int i = 0; i < WRITERS; i++)
        if (pthread_create(&running[i], NULL, write_letters, &writers[i]) != 0)
            return 1;
    for (int i = 0; i < WRITERS; i++)
        pthread_join(running[i], NULL);
    stop_at("pin", bes_pin(&it.passes[0], &number));
    printf("%d stores\n", it.stores);
    printf("ann %llu\n", letters(&it.passes[0], "MAIL:from==ann"));
    printf("bob %llu\n", letters(&it.passes[0], "MAIL:from==bob"));
    printf("in the first store %llu\n", letters(&it.first, "MAIL:from==*"));
    for (int i = 0; i < WRITERS; i++)
        stop_at("close", bes_close(&it.passes[i]));
    stop_at("close", bes_close(&it.first));
    return 0;
}
