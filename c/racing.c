/* Four threads create nodes with attributes, and count them in one shared attribute. When they guess node numbers and use plain
 * writes, nodes get other nodes' attributes and counts are lost, even though every write is accepted. With bes_change, neither
 * happens. */
#include "tests.h"
#include <pthread.h>

enum { THREADS = 4 };

typedef struct racer {
    bes_pass pass;
    uint64_t number, rounds, mixed;
} racer;

/* Adds a node that names its creator, and adds 1 to node 1's count. */
static uint32_t add_node(bes_pass *pass, bes_batch *batch, uint64_t next, void *with)
{
    racer *it = with;
    bes_attribute count = {0, 0, 0};
    uint8_t none = 0;
    CHECK(bes_read(pass, 1, "count", &count, &none, 0) == BES_OK);
    CHECK(bes_batch_new_node(batch) == BES_OK && bes_batch_set_uint64(batch, next, "maker", it->number) == BES_OK);
    CHECK(bes_batch_set_int64(batch, 1, "count", (int64_t)count.number + 1) == BES_OK);
    return BES_OK;
}

/* Does what a program without conditional writes does: guesses which node it will get, and writes even if others have committed
 * in between. */
static void guess(racer *it)
{
    bes_batch batch;
    uint64_t snapshot = 0, next = 0, made = 0, number = 0;
    bes_batch_clear(&batch);
    CHECK(bes_pin(&it->pass, &snapshot) == BES_OK && bes_next(&it->pass, &next) == BES_OK);
    CHECK(add_node(&it->pass, &batch, next, it) == BES_OK && bes_unpin(&it->pass) == BES_OK);
    CHECK(bes_batch_apply(&it->pass, &batch, BES_TRIES, &made, 1, &number) == BES_OK);
    it->mixed += made != next;
}

static void *guesser(void *with)
{
    racer *it = with;
    for (uint64_t i = 0; i < it->rounds; i++)
        guess(it);
    return NULL;
}

static void *changer(void *with)
{
    racer *it = with;
    uint64_t number = 0;
    for (uint64_t i = 0; i < it->rounds; i++)
        CHECK(bes_change(&it->pass, UINT32_MAX, add_node, it, &number) == BES_OK);
    return NULL;
}

/* Returns whether each entry from this index on created a node that names the entry's pass as its creator. */
static bool are_own(bes_pass *pass, uint64_t from)
{
    bes_batch batch;
    uint64_t by = 0, length = 0;
    for (;; from++) {
        CHECK(bes_batch_entry(pass, from, &batch, &by, &length) == BES_OK);
        if (batch.count == 0)
            return true;
        CHECK(batch.count == 3 && batch.operations[0].kind == BES_NEW_NODE);
        if (batch.operations[1].node != batch.operations[0].node || batch.operations[1].number != by)
            return false;
    }
}

/* Runs four threads. Returns how many of their nodes were mixed up, and how many counts were lost. */
static void race(void *(*run)(void *), uint64_t rounds, uint64_t *mixed, uint64_t *lost)
{
    static racer racers[THREADS];
    pthread_t running[THREADS];
    bes_attribute count = {0, 0, 0};
    uint64_t node = 0, number = 0;
    uint8_t none = 0;
    *mixed = 0;
    memset(racers, 0, sizeof racers);
    CHECK(bes_open(4096, THREADS, 1000000, &racers[0].pass) == BES_OK);
    CHECK(bes_new_node(&racers[0].pass, &node) == BES_OK && bes_set_int64(&racers[0].pass, 1, "count", 0) == BES_OK);
    for (int i = 0; i < THREADS; i++) {
        CHECK(i == 0 || bes_another(&racers[0].pass, &racers[i].pass) == BES_OK);
        CHECK(bes_number(&racers[i].pass, &racers[i].number) == BES_OK);
        racers[i].rounds = rounds;
    }
    for (int i = 0; i < THREADS; i++)
        CHECK(pthread_create(&running[i], NULL, run, &racers[i]) == 0);
    for (int i = 0; i < THREADS; i++) {
        CHECK(pthread_join(running[i], NULL) == 0);
        *mixed += racers[i].mixed;
    }
    CHECK(bes_pin(&racers[0].pass, &number) == BES_OK && number == 2 + THREADS * rounds);
    CHECK(bes_read(&racers[0].pass, 1, "count", &count, &none, 0) == BES_OK && count.number <= THREADS * rounds);
    *lost = THREADS * rounds - count.number;
    CHECK(are_own(&racers[0].pass, 2) == (*mixed == 0));
    for (int i = 0; i < THREADS; i++)
        CHECK(bes_close(&racers[i].pass) == BES_OK);
}

int main(int argc, char **argv)
{
    uint64_t rounds = argc > 1 && strcmp(argv[1], "short") == 0 ? 200 : 2000, mixed = 0, lost = 0;
    race(guesser, rounds, &mixed, &lost);
    if (mixed + lost == 0)
        printf("the race didn't happen this time; ");
    else
        printf("by a guess %llu of %llu nodes mixed up and %llu counts lost; ", (unsigned long long)mixed,
               (unsigned long long)(THREADS * rounds), (unsigned long long)lost);
    race(changer, rounds, &mixed, &lost);
    CHECK(mixed == 0 && lost == 0);
    printf("by bes_change none\n");
    return 0;
}
