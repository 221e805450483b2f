/* Two threads report their writes to each other through pipes, sending a commit number and a witness for each. The receiver joins
 * the witness, and must find the sender's write in its next snapshot. Its next write must have a later number. A third thread
 * writes in the meantime. */
#define _POSIX_C_SOURCE 200112L
#include "tests.h"
#include <pthread.h>
#include <sched.h>
#include <unistd.h>

/* The message sent through a pipe. It hands over the witness's memory. */
typedef struct message {
    uint64_t number, node;
    bes_witness *witness;
} message;

typedef struct user {
    bes_pass pass;
    int from, to;
} user;

static unsigned rounds = 2000; /* fewer with the argument `short` */

/* Creates a node of this size, and returns the commit number. */
static uint64_t write_node(bes_pass *pass, uint64_t size, uint64_t *node)
{
    bes_batch batch;
    uint64_t made[2] = {0, 0}, next = 0, number = 0;
    uint32_t answer;
    do {
        CHECK(bes_pin(pass, &number) == BES_OK && bes_next(pass, &next) == BES_OK && bes_unpin(pass) == BES_OK);
        bes_batch_clear(&batch);
        CHECK(bes_batch_new_node(&batch) == BES_OK && bes_batch_set_int64(&batch, next, "size", (int64_t)size) == BES_OK);
        answer = bes_batch_apply_if(pass, number, &batch, BES_TRIES, made, 2, &number);
    } while (answer == BES_CONFLICT && sched_yield() == 0);
    CHECK(answer == BES_OK && made[0] == next);
    *node = next;
    return number;
}

/* Makes a write, and sends its commit number with a witness. Returns the number. */
static uint64_t send_write(user *it, unsigned round)
{
    message sent = {0, 0, malloc(sizeof *sent.witness)};
    const bes_witness none = BES_WITNESS_INIT;
    CHECK(sent.witness != NULL);
    *sent.witness = none;
    sent.number = write_node(&it->pass, round, &sent.node);
    CHECK(bes_witness_of(&it->pass, sent.witness) == BES_OK);
    CHECK(write(it->to, &sent, sizeof sent) == (ssize_t)sizeof sent);
    return sent.number;
}

/* Receives the other thread's message, joins its witness, and looks for its write. Returns the write's commit number. */
static uint64_t receive(user *it, unsigned round)
{
    message got;
    bes_attribute size;
    uint64_t seen = 0, number = 0;
    uint8_t none = 0;
    CHECK(read(it->from, &got, sizeof got) == (ssize_t)sizeof got);
    CHECK(bes_join(&it->pass, got.witness, &seen) == BES_OK && seen >= got.number);
    CHECK(bes_dismiss(got.witness) == BES_OK);
    free(got.witness);
    CHECK(bes_pin(&it->pass, &number) == BES_OK && number >= seen);
    CHECK(bes_read(&it->pass, got.node, "size", &size, &none, 0) == BES_OK && size.number == round);
    CHECK(bes_unpin(&it->pass) == BES_OK);
    return got.number;
}

static void *first(void *arg)
{
    for (unsigned round = 0; round < rounds; round++) {
        const uint64_t mine = send_write(arg, round);
        CHECK(receive(arg, round) > mine);
    }
    return NULL;
}

static void *second(void *arg)
{
    for (unsigned round = 0; round < rounds; round++) {
        const uint64_t theirs = receive(arg, round);
        CHECK(send_write(arg, round) > theirs);
    }
    return NULL;
}

static void *third(void *arg)
{
    uint64_t node = 0;
    for (unsigned round = 0; round < rounds; round++)
        write_node(&((user *)arg)->pass, round, &node);
    return NULL;
}

int main(int argc, char **argv)
{
    void *(*const calls[])(void *) = {first, second, third};
    static user users[3];
    pthread_t running[3];
    int there[2], back[2];
    if (argc > 1 && strcmp(argv[1], "short") == 0)
        rounds = 100;
    CHECK(pipe(there) == 0 && pipe(back) == 0);
    CHECK(bes_open(4096, 3, 100000, &users[0].pass) == BES_OK);
    CHECK(bes_another(&users[0].pass, &users[1].pass) == BES_OK && bes_another(&users[0].pass, &users[2].pass) == BES_OK);
    users[0].from = back[0], users[0].to = there[1];
    users[1].from = there[0], users[1].to = back[1];
    for (int i = 0; i < 3; i++)
        CHECK(pthread_create(&running[i], NULL, calls[i], &users[i]) == 0);
    for (int i = 0; i < 3; i++)
        CHECK(pthread_join(running[i], NULL) == 0 && bes_close(&users[i].pass) == BES_OK);
    for (int i = 0; i < 2; i++)
        CHECK(close(there[i]) == 0 && close(back[i]) == 0);
    return 0;
}
