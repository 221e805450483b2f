/* Tests what calls from several threads return, and what other threads read in the meantime. */
#define _POSIX_C_SOURCE 199309L
#include "tests.h"
#include <pthread.h>
#include <time.h>

/* Four threads with one pass each: two write, and two run queries. Each writer has its own pairs of nodes, one from ann and one
 * from bob, and swaps the nodes of a pair in one write. Every snapshot therefore has the same number of nodes from ann and from
 * bob. */
enum { PAIRS = 100, NODES = 4 * PAIRS };

static double seconds = 3; /* fewer with the argument `short` */

static struct timespec end;

static bool is_over(void)
{
    struct timespec now;
    CHECK(clock_gettime(CLOCK_MONOTONIC, &now) == 0);
    return now.tv_sec > end.tv_sec || (now.tv_sec == end.tv_sec && now.tv_nsec >= end.tv_nsec);
}

typedef struct user {
    bes_pass pass;
    uint64_t first;  /* the first of a writer's nodes */
    uint64_t rounds; /* accepted writes, or queried snapshots */
} user;

/* Writes a pair whose first node is from ann if `ann` is true, and from bob otherwise. Another thread's pin may hold all free
 * pages for a while. */
static uint64_t write_pair(bes_pass *pass, uint64_t node, bool is_new, bool ann)
{
    bes_batch batch;
    uint64_t made[4] = {0, 0, 0, 0}, number = 0;
    uint32_t answer;
    bes_batch_clear(&batch);
    if (is_new)
        CHECK(bes_batch_new_node(&batch) == BES_OK && bes_batch_new_node(&batch) == BES_OK);
    CHECK(bes_batch_set_text(&batch, node, "MAIL:from", ann ? "ann" : "bob") == BES_OK);
    CHECK(bes_batch_set_text(&batch, node + 1, "MAIL:from", ann ? "bob" : "ann") == BES_OK);
    do
        answer = bes_batch_apply(pass, &batch, BES_TRIES, made, 4, &number);
    while (answer == BES_FULL && sched_yield() == 0);
    CHECK(answer == BES_OK && (!is_new || (made[0] == node && made[1] == node + 1)));
    return number;
}

static void *writer(void *arg)
{
    static const struct timespec rest = {0, 1000000};
    user *it = arg;
    bool ann[PAIRS];
    uint64_t written, number = 0;
    bes_attribute told;
    uint8_t from[3];
    memset(ann, true, sizeof ann);
    do {
        uint64_t pair = it->rounds++ * 37 % PAIRS, node = it->first + 2 * pair;
        ann[pair] = !ann[pair];
        written = write_pair(&it->pass, node, false, ann[pair]);
        if (it->rounds % 16 != 0)
            continue;
        /* The pinned snapshot includes everything that its pass has written. Then rest, because the journal keeps every write. */
        CHECK(bes_pin(&it->pass, &number) == BES_OK && number >= written);
        CHECK(bes_read(&it->pass, node + 1, "MAIL:from", &told, from, 3) == BES_OK && told.length == 3);
        CHECK(memcmp(from, ann[pair] ? "bob" : "ann", 3) == 0);
        CHECK(bes_unpin(&it->pass) == BES_OK);
        nanosleep(&rest, NULL);
    } while (!is_over());
    return NULL;
}

/* While others are writing, bes_refresh_changed gives the same result as bes_refresh. */
static void refresh_as(user *it, bes_prepared *whole, const bes_updates *updates, bes_prepared *changed)
{
    bes_updates others = {0, 0};
    uint64_t came[2][NODES], went[2][NODES];
    CHECK(bes_refresh_changed(&it->pass, changed, &others) == BES_OK);
    CHECK(others.created == updates->created && others.removed == updates->removed);
    CHECK(bes_changes(whole, came[0], NODES, went[0], NODES) == BES_OK);
    CHECK(bes_changes(changed, came[1], NODES, went[1], NODES) == BES_OK);
    CHECK(memcmp(came[0], came[1], updates->created * sizeof **came) == 0);
    CHECK(memcmp(went[0], went[1], updates->removed * sizeof **went) == 0);
}

static void *reader(void *arg)
{
    user *it = arg;
    bes_prepared prepared = BES_PREPARED_INIT, changed = BES_PREPARED_INIT;
    bes_updates updates = {0, 0};
    uint64_t seen = 0, number = 0, count = 0, again = 0, place = 0, nodes[NODES], same[NODES];
    CHECK(bes_prepare_text("MAIL:from==\"ann\"", &prepared, &place) == BES_OK);
    CHECK(bes_prepare_text("MAIL:from==\"ann\"", &changed, &place) == BES_OK);
    do {
        CHECK(bes_pin(&it->pass, &number) == BES_OK && number >= seen);
        seen = number;
        CHECK(bes_find(&it->pass, "MAIL:from==\"ann\"", nodes, NODES, &count) == BES_OK && count == NODES / 2);
        for (uint64_t i = 0; i < count; i++)
            CHECK((nodes[i] - 1) / 2 == i);
        CHECK(bes_refresh(&it->pass, &prepared, &updates) == BES_OK);
        CHECK(updates.created == updates.removed + (it->rounds == 0 ? count : 0));
        refresh_as(it, &prepared, &updates, &changed);
        CHECK(bes_query_prepared(&it->pass, &prepared, same, NODES, &again) == BES_OK && again == count);
        CHECK(memcmp(nodes, same, count * sizeof *nodes) == 0);
        CHECK(bes_unpin(&it->pass) == BES_OK);
        it->rounds++;
    } while (!is_over());
    CHECK(bes_release(&prepared) == BES_OK && bes_release(&changed) == BES_OK);
    return NULL;
}

static void threads(void)
{
    static user users[4];
    pthread_t running[4];
    uint64_t number = 0, count = 0, length = 0, lines = 0;
    uint8_t *text;
    CHECK(bes_open(4096, 4, 10000000, &users[0].pass) == BES_OK);
    for (int i = 1; i < 4; i++)
        CHECK(bes_another(&users[0].pass, &users[i].pass) == BES_OK);
    CHECK(bes_make_index(&users[0].pass, "MAIL:from", BES_STRING_TYPE) == BES_OK);
    for (uint64_t node = 1; node <= NODES; node += 2)
        CHECK(write_pair(&users[0].pass, node, true, true) == 1 + (node + 1) / 2);
    users[0].first = 1;
    users[1].first = 1 + NODES / 2;
    CHECK(clock_gettime(CLOCK_MONOTONIC, &end) == 0);
    end.tv_sec += (time_t)seconds;
    end.tv_nsec += (long)((seconds - (double)(time_t)seconds) * 1e9);
    if (end.tv_nsec >= 1000000000)
        end.tv_sec++, end.tv_nsec -= 1000000000;
    for (int i = 0; i < 4; i++)
        CHECK(pthread_create(&running[i], NULL, i < 2 ? writer : reader, &users[i]) == 0);
    for (int i = 0; i < 4; i++)
        CHECK(pthread_join(running[i], NULL) == 0);
    CHECK(bes_close(&users[0].pass) == BES_OK && bes_close(&users[1].pass) == BES_OK && bes_close(&users[2].pass) == BES_OK);
    CHECK(bes_pin(&users[3].pass, &number) == BES_OK);
    CHECK(number == 1 + NODES / 2 + users[0].rounds + users[1].rounds);
    /* The journal has a line for each write. */
    CHECK(bes_journal(&users[3].pass, (uint8_t *)"", 0, &length) == BES_OK && (text = malloc(length)) != NULL);
    CHECK(bes_journal(&users[3].pass, text, length, &count) == BES_OK && count == length);
    for (uint64_t i = 0; i < length; i++)
        lines += text[i] == '\n';
    CHECK(lines == number);
    free(text);
    CHECK(bes_close(&users[3].pass) == BES_OK);
    printf("%llu writes and %llu snapshots in %g seconds\n", (unsigned long long)(users[0].rounds + users[1].rounds),
           (unsigned long long)(users[2].rounds + users[3].rounds), seconds);
}

/* Repeatedly takes a pass that no thread has, writes through it, and returns it. Counts the writes. */
static void *taker(void *arg)
{
    user *it = arg;
    bes_pass taken = BES_PASS_INIT;
    uint64_t seen = 0;
    for (int64_t i = 0; i < 5000; i++) {
        uint32_t answer = bes_another(&it->pass, &taken);
        if (answer == BES_NO_PASS)
            continue;
        CHECK(answer == BES_OK);
        CHECK(bes_set_int64(&taken, 1, "n", i) == BES_OK && bes_close(&taken) == BES_OK);
        answer = bes_meet(&it->pass, &seen);
        CHECK(answer == BES_OK || answer == BES_NO_PASS);
        it->rounds++;
    }
    return NULL;
}

/* Four threads take `count` passes in turn, each after another thread has returned it. In the end, no pass has been lost. */
static void takers(int count)
{
    static user users[4];
    static bes_pass taken[65];
    pthread_t running[4];
    uint64_t number = 0, node = 0;
    memset(users, 0, sizeof users);
    CHECK(bes_open(64, 4 + (uint64_t)count, 100000, &users[0].pass) == BES_OK && bes_new_node(&users[0].pass, &node) == BES_OK);
    for (int i = 1; i < 4; i++)
        CHECK(bes_another(&users[0].pass, &users[i].pass) == BES_OK);
    CHECK(take_passes(&users[0].pass, taken) == count);
    close_passes(taken, count);
    for (int i = 0; i < 4; i++)
        CHECK(pthread_create(&running[i], NULL, taker, &users[i]) == 0);
    for (int i = 0; i < 4; i++)
        CHECK(pthread_join(running[i], NULL) == 0);
    CHECK(bes_pin(&users[0].pass, &number) == BES_OK);
    CHECK(number == 1 + users[0].rounds + users[1].rounds + users[2].rounds + users[3].rounds);
    CHECK(take_passes(&users[3].pass, taken) == count);
    close_passes(taken, count);
    for (int i = 0; i < 4; i++)
        CHECK(bes_close(&users[i].pass) == BES_OK);
}

/* Repeatedly takes a pass and returns it. There are many more passes than threads, so one is always free. If another thread is
 * using a pass, tries the next place. */
static void *hander(void *arg)
{
    user *it = arg;
    bes_pass taken = BES_PASS_INIT;
    for (int i = 0; i < (seconds < 1 ? 20000 : 200000); i++)
        CHECK(bes_another(&it->pass, &taken) == BES_OK && bes_close(&taken) == BES_OK);
    return NULL;
}

static void always_one_waits(void)
{
    static user users[4];
    static bes_pass taken[65];
    pthread_t running[4];
    CHECK(bes_open(64, 64, 1, &users[0].pass) == BES_OK);
    for (int i = 1; i < 4; i++)
        CHECK(bes_another(&users[0].pass, &users[i].pass) == BES_OK);
    close_passes(taken, take_passes(&users[0].pass, taken));
    for (int i = 0; i < 4; i++)
        CHECK(pthread_create(&running[i], NULL, hander, &users[i]) == 0);
    for (int i = 0; i < 4; i++)
        CHECK(pthread_join(running[i], NULL) == 0 && bes_close(&users[i].pass) == BES_OK);
}

/* Repeatedly sets its node's number and creates a node, in one write. Another thread's pin may hold all free pages for a
 * while. */
static void *grower(void *arg)
{
    user *it = arg;
    bes_batch batch;
    uint64_t made[2] = {0, 0}, number = 0;
    for (int64_t i = 0; i < 400; i++) {
        uint32_t answer;
        bes_batch_clear(&batch);
        CHECK(bes_batch_set_int64(&batch, it->first, "n", i) == BES_OK && bes_batch_new_node(&batch) == BES_OK);
        do
            answer = bes_batch_apply(&it->pass, &batch, BES_TRIES, made, 2, &number);
        while (answer == BES_FULL && sched_yield() == 0);
        CHECK(answer == BES_OK && made[1] > 2);
    }
    return NULL;
}

/* Opens a store, and copies the pinned snapshot's state into it. */
static void carry_on(bes_pass *pass, bes_pass *next)
{
    bes_batch batch;
    bes_place place = BES_PLACE_INIT;
    uint64_t made[64], number = 0;
    CHECK(bes_open(4096, 1, 100000, next) == BES_OK);
    for (;;) {
        CHECK(bes_batch_state(pass, &place, &batch) == BES_OK);
        if (batch.count == 0)
            break;
        CHECK(bes_batch_apply(next, &batch, 1, made, 64, &number) == BES_OK);
    }
    CHECK(bes_leave(&place) == BES_OK);
}

/* Returns whether both pinned snapshots are recreated by the same operations. */
static bool are_alike(bes_pass *mine, bes_pass *theirs)
{
    bes_batch one, other;
    bes_place here = BES_PLACE_INIT, there = BES_PLACE_INIT;
    bool alike;
    do {
        CHECK(bes_batch_state(mine, &here, &one) == BES_OK && bes_batch_state(theirs, &there, &other) == BES_OK);
        alike = one.count == other.count && one.used == other.used && memcmp(one.bytes, other.bytes, one.used) == 0 &&
                memcmp(one.operations, other.operations, one.count * sizeof *one.operations) == 0;
    } while (alike && one.count > 0);
    CHECK(bes_leave(&here) == BES_OK && bes_leave(&there) == BES_OK);
    return alike;
}

/* Copies the state to a new store and closes that store, while a pinned pass still reads the old store as before. */
static void carry_and_compare(bes_pass *pass)
{
    bes_pass next = BES_PASS_INIT;
    uint64_t number = 0, count = 0, nodes[4] = {0, 0, 0, 0};
    CHECK(bes_pin(pass, &number) == BES_OK);
    carry_on(pass, &next);
    CHECK(bes_pin(&next, &number) == BES_OK && are_alike(pass, &next));
    CHECK(bes_find(pass, "n>=0", nodes, 2, &count) == BES_OK && count == 2 && nodes[0] == 1 && nodes[1] == 2);
    CHECK(bes_find(&next, "n>=0", nodes + 2, 2, &count) == BES_OK && count == 2 && nodes[2] == 1 && nodes[3] == 2);
    CHECK(bes_unpin(pass) == BES_OK && bes_close(&next) == BES_OK);
}

/* Two threads write while a third copies the state to new stores. At the end, a live query continues in the new store. */
static void carrying(void)
{
    static user users[3];
    bes_pass next = BES_PASS_INIT;
    bes_prepared live = BES_PREPARED_INIT;
    bes_updates updates = {7, 7};
    pthread_t running[2];
    uint64_t number = 0, count = 0, node = 0, place = 0, nodes[1] = {7};
    CHECK(bes_open(4096, 3, 100000, &users[0].pass) == BES_OK && bes_make_index(&users[0].pass, "n", BES_INT64_TYPE) == BES_OK);
    for (int i = 1; i < 3; i++) {
        CHECK(bes_another(&users[0].pass, &users[i].pass) == BES_OK && bes_new_node(&users[0].pass, &users[i].first) == BES_OK);
        CHECK(bes_set_int64(&users[0].pass, users[i].first, "n", 0) == BES_OK);
    }
    for (int i = 0; i < 2; i++)
        CHECK(pthread_create(&running[i], NULL, grower, &users[i + 1]) == 0);
    for (int i = 0; i < 4; i++)
        carry_and_compare(&users[0].pass);
    for (int i = 0; i < 2; i++)
        CHECK(pthread_join(running[i], NULL) == 0);
    carry_and_compare(&users[0].pass);
    CHECK(bes_pin(&users[0].pass, &number) == BES_OK && bes_prepare_text("n>=0", &live, &place) == BES_OK);
    CHECK(bes_refresh(&users[0].pass, &live, &updates) == BES_OK && updates.created == 2);
    carry_on(&users[0].pass, &next);
    CHECK(bes_remove_node(&next, 1) == BES_OK && bes_new_node(&next, &node) == BES_OK && node == 2 + 2 * 400 + 1);
    CHECK(bes_pin(&next, &number) == BES_OK && bes_refresh(&next, &live, &updates) == BES_OK);
    CHECK(updates.created == 0 && updates.removed == 1 && bes_changes(&live, &count, 0, nodes, 1) == BES_OK && nodes[0] == 1);
    CHECK(bes_query_prepared(&users[0].pass, &live, nodes, 1, &count) == BES_OK && count == 2);
    CHECK(bes_release(&live) == BES_OK && bes_close(&next) == BES_OK);
    for (int i = 0; i < 3; i++)
        CHECK(bes_close(&users[i].pass) == BES_OK);
}

/* A prepared query that moves from thread to thread. Each thread has its own pass. */
typedef struct handed {
    bes_pass pass;
    bes_prepared prepared;
} handed;

static void *refresher(void *arg)
{
    handed *it = arg;
    bes_updates updates = {0, 0};
    uint64_t number = 0, count = 0, nodes[4] = {0, 0, 0, 0};
    CHECK(bes_pin(&it->pass, &number) == BES_OK && bes_refresh(&it->pass, &it->prepared, &updates) == BES_OK);
    CHECK(updates.created == 3 && updates.removed == 0);
    CHECK(bes_query_prepared(&it->pass, &it->prepared, nodes, 4, &count) == BES_OK && count == 3 && nodes[2] == 3);
    CHECK(bes_unpin(&it->pass) == BES_OK);
    return NULL;
}

static void *releaser(void *arg)
{
    handed *it = arg;
    uint64_t came[4] = {0, 0, 0, 0}, went[1] = {7};
    CHECK(bes_changes(&it->prepared, came, 4, went, 1) == BES_OK && came[2] == 3 && came[3] == 0 && went[0] == 7);
    CHECK(bes_release(&it->prepared) == BES_OK && bes_close(&it->pass) == BES_OK);
    return NULL;
}

/* Prepares a query here, refreshes it in a second thread, and releases it in a third. */
static void handed_on(void)
{
    static handed it;
    bes_pass mine = BES_PASS_INIT;
    void *(*const calls[])(void *) = {refresher, releaser};
    uint64_t node = 0, place = 0;
    CHECK(bes_open(64, 2, 100, &mine) == BES_OK && bes_another(&mine, &it.pass) == BES_OK);
    CHECK(bes_make_index(&mine, "size", BES_INT64_TYPE) == BES_OK);
    for (int64_t i = 1; i <= 3; i++)
        CHECK(bes_new_node(&mine, &node) == BES_OK && bes_set_int64(&mine, node, "size", i) == BES_OK);
    CHECK(bes_prepare_text("size>0", &it.prepared, &place) == BES_OK);
    for (int i = 0; i < 2; i++) {
        pthread_t running;
        CHECK(pthread_create(&running, NULL, calls[i], &it) == 0 && pthread_join(running, NULL) == 0);
    }
    CHECK(bes_release(&it.prepared) == BES_CLOSED && bes_close(&it.pass) == BES_CLOSED && bes_close(&mine) == BES_OK);
}

int main(int argc, char **argv)
{
    if (argc > 1 && strcmp(argv[1], "short") == 0)
        seconds = 0.5;
    threads();
    takers(1);
    takers(60);
    always_one_waits();
    carrying();
    handed_on();
    return 0;
}
