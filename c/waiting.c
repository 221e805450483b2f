/* Tests that the helpers give up in time, even beside 30 processes that compute. Linked with -Wl,--wrap=malloc, so that a write can be
 * tried in the middle of another call. */
#define _GNU_SOURCE
#define BES_WITHIN 300 /* milliseconds */
#define BES_CHANGE_WITHIN 300
#include "computing.h"
#include "tests.h"
#include <pthread.h>

void *__real_malloc(size_t size);
void *__wrap_malloc(size_t size);

static void (*between)(void); /* called once, at the next request for memory */

void *__wrap_malloc(size_t size)
{
    void (*call)(void) = between;
    between = NULL;
    if (call != NULL)
        call();
    return __real_malloc(size);
}

static bes_pass mine, theirs;

static void open_both(uint64_t pages)
{
    uint64_t node = 0;
    OK(bes_open(pages, 2, UINT32_MAX, &mine));
    OK(bes_another(&mine, &theirs));
    OK(bes_new_node(&mine, &node));
}

static void close_both(void)
{
    OK(bes_close(&mine));
    OK(bes_close(&theirs));
}

/* Sets an attribute, but lets the other pass write first. */
static uint32_t disturbed(bes_pass *pass, bes_batch *batch, uint64_t next, void *with)
{
    (void)pass, (void)next;
    ++*(unsigned *)with;
    OK(bes_set_int64(&theirs, 1, "a", 1));
    return bes_batch_set_int64(batch, 1, "a", 2);
}

static void conflicts(void)
{
    unsigned runs = 0;
    uint64_t number = 0;
    double begin;
    open_both(64);
    begin = seconds();
    CHECK(bes_change(&mine, UINT32_MAX, disturbed, &runs, &number) == BES_CONFLICT && is_in_time(begin));
    CHECK(runs > 3 && bes_pin(&mine, &number) == BES_OK);
    close_both();
}

static void is_full(void)
{
    uint64_t number = 0;
    uint32_t error;
    double begin;
    open_both(16);
    OK(bes_pin(&theirs, &number));
    do {
        begin = seconds();
        error = bes_set_int64(&mine, 1, "a", 1);
    } while (error == BES_OK);
    CHECK(error == BES_FULL && is_in_time(begin));
    close_both();
}

static void write_meanwhile(void)
{
    const double begin = seconds();
    CHECK(bes_set_int64(&theirs, 1, "a", 1) == BES_BUSY && is_in_time(begin));
}

static void is_busy(void)
{
    uint64_t length = 0;
    uint8_t text = 0;
    open_both(64);
    /* While one pass makes the journal's text, no other pass can write. */
    between = write_meanwhile;
    CHECK(bes_journal(&mine, &text, 0, &length) == BES_OK && between == NULL);
    close_both();
}

static bes_turn turn = BES_TURN_INIT;
static unsigned counted;

/* Counts what it takes the turn for. Every other time it waits for a millisecond only, so it may not get the turn. */
static void *count_in_turn(void *with)
{
    unsigned *taken = with;
    for (unsigned i = 0; i < 5000; i++) {
        bes_retry retry = {1, 1, 0, i % 2 == 0 ? 1 : 20000, &turn};
        if (!bes_take_turn(&retry))
            continue;
        ++*taken;
        counted++;
        if (i % 64 == 0)
            bes_stand_back(1024);
        bes_end_turn(&turn);
    }
    return NULL;
}

/* Only one thread has the turn at a time, and whoever waits for it gets it. */
static void takes_turns(void)
{
    pthread_t threads[4];
    unsigned taken[4] = {0, 0, 0, 0};
    for (int i = 0; i < 4; i++)
        CHECK(pthread_create(&threads[i], NULL, count_in_turn, &taken[i]) == 0);
    for (int i = 0; i < 4; i++)
        CHECK(pthread_join(threads[i], NULL) == 0 && taken[i] >= 2500);
    CHECK(counted == taken[0] + taken[1] + taken[2] + taken[3] && turn.state == 0 && turn.urgent == 0);
}

/* A thread that keeps the turn delays a write only until its time is up. */
static void turn_is_kept(void)
{
    const bes_operation operation = {BES_NEW_NODE, 0, 0, 0, 0, 0, 0, 0};
    bes_turn kept = {1, 0};
    bes_retry retry = {UINT32_MAX, 1, 0, BES_WITHIN, &kept};
    uint64_t made = 0, number = 0;
    uint8_t none = 0;
    double begin;
    open_both(64);
    begin = seconds();
    CHECK(bes_apply_retrying(&mine, &retry, &operation, 1, &none, 0, &made, 1, &number) == BES_OK && is_in_time(begin));
    close_both();
}

int main(void)
{
    takes_turns();
    start_computing();
    turn_is_kept();
    conflicts();
    is_full();
    is_busy();
    stop_computing();
    return 0;
}
