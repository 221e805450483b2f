/* Checks three promises of the library while threads are writing:
 *
 * - a new handle sees everything that the handle that created it had written before;
 * - a pinned handle reads one prefix of the journal until it is unpinned;
 * - everything that a handle wrote is in the journal that bes_finish returns, at its commit number, provided that the last handle
 *   has joined the writer's witness.
 *
 * Each round opens a store, checks all three promises, and closes the store. The argument is the number of rounds; `short` means just a
 * few. */
#include "tests.h"
#include <pthread.h>

enum { WRITERS = 3, WRITES = 8, TEXT = 1 << 16 };

typedef struct writer {
    bes_pass pass;
    bes_witness seen;
    uint64_t made, number;          /* the commit number of its creator's last write before its creation; the number of its own pass */
    uint64_t written[WRITES];       /* the commit number of each of its writes */
} writer;

/* Counts the pinned snapshot's nodes in three ways: with a query, by listing them page by page, and from the next node number. */
static uint64_t nodes_counted(bes_pass *pass)
{
    uint64_t nodes[8 * WRITERS * WRITES], found = 0, listed = 0, next = 0;
    CHECK(bes_find(pass, "by>=0", nodes, sizeof nodes / sizeof *nodes, &found) == BES_OK);
    CHECK(bes_nodes(pass, 0, nodes, sizeof nodes / sizeof *nodes, &listed) == BES_OK);
    CHECK(bes_next(pass, &next) == BES_OK && listed == found && next == found + 1);
    return found;
}

/* Reads one snapshot several times while others are writing. Entry 1 creates an index, and each later entry creates a node. */
static void read_one_prefix(bes_pass *pass, uint64_t least)
{
    uint64_t pinned = 0;
    CHECK(bes_pin(pass, &pinned) == BES_OK && pinned >= least);
    for (int i = 0; i < 3; i++)
        CHECK(nodes_counted(pass) == pinned - 1);
    CHECK(bes_unpin(pass) == BES_OK);
}

/* Creates a node that holds the writer's number, and returns the commit number. */
static uint64_t write_node(writer *it)
{
    bes_batch batch;
    uint64_t made = 0, next = 0, number = 0;
    uint32_t answer;
    do {
        CHECK(bes_pin(&it->pass, &number) == BES_OK && bes_next(&it->pass, &next) == BES_OK);
        CHECK(bes_unpin(&it->pass) == BES_OK);
        bes_batch_clear(&batch);
        CHECK(bes_batch_new_node(&batch) == BES_OK && bes_batch_set_int64(&batch, next, "by", (int64_t)it->number) == BES_OK);
        answer = bes_batch_apply_if(&it->pass, number, &batch, BES_TRIES, &made, 1, &number);
    } while (answer == BES_CONFLICT);
    CHECK(answer == BES_OK && made == next);
    return number;
}

/* Looks for the last write of the pass that created this one, then writes and reads, and leaves a witness to all of this. */
static void *run(void *arg)
{
    writer *it = arg;
    read_one_prefix(&it->pass, it->made);
    for (int i = 0; i < WRITES; i++) {
        it->written[i] = write_node(it);
        read_one_prefix(&it->pass, it->written[i]);
    }
    CHECK(bes_witness_of(&it->pass, &it->seen) == BES_OK && bes_close(&it->pass) == BES_OK);
    return NULL;
}

/* Returns whether the pass with this number wrote the entry with this commit number. */
static bool is_by(const char *journal, uint64_t commit, uint64_t number)
{
    char line[64];
    snprintf(line, sizeof line, "\n%llu by %llu new; ", (unsigned long long)commit, (unsigned long long)number);
    return strstr(journal, line) != NULL;
}

/* Closes the store, and looks for every write in its journal. */
static void find_writes(bes_pass *last, writer *writers)
{
    static char journal[TEXT];
    uint64_t seen = 0, length = 0;
    journal[0] = '\n';
    for (int i = 0; i < WRITERS; i++)
        CHECK(bes_join(last, &writers[i].seen, &seen) == BES_OK && bes_dismiss(&writers[i].seen) == BES_OK);
    CHECK(bes_finish(last, (uint8_t *)journal + 1, TEXT - 2, &length) == BES_OK && length < TEXT - 2);
    journal[length + 1] = 0;
    for (int i = 0; i < WRITERS; i++)
        for (int j = 0; j < WRITES; j++)
            CHECK(is_by(journal, writers[i].written[j], writers[i].number));
}

/* Runs one round. Each handle is created after another write by its creator, while the earlier threads are already writing. */
static void play(void)
{
    static writer writers[WRITERS];
    pthread_t running[WRITERS];
    writer own = {.number = WRITERS};
    memset(writers, 0, sizeof writers);
    CHECK(bes_open(256, WRITERS + 1, 1000, &own.pass) == BES_OK);
    CHECK(bes_make_index(&own.pass, "by", BES_INT64_TYPE) == BES_OK);
    for (int i = 0; i < WRITERS; i++) {
        writers[i].made = write_node(&own);
        CHECK(bes_another(&own.pass, &writers[i].pass) == BES_OK && bes_number(&writers[i].pass, &writers[i].number) == BES_OK);
        CHECK(pthread_create(&running[i], NULL, run, &writers[i]) == 0);
    }
    for (int i = 0; i < WRITERS; i++)
        CHECK(pthread_join(running[i], NULL) == 0);
    find_writes(&own.pass, writers);
}

int main(int argc, char **argv)
{
    const bool is_short = argc > 1 && strcmp(argv[1], "short") == 0;
    const unsigned long rounds = is_short ? 5 : argc > 1 ? strtoul(argv[1], NULL, 10) : 300;
    for (unsigned long round = 0; round < rounds; round++)
        play();
    return 0;
}
