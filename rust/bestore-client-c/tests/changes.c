/* Tests changes: what their functions may do, what they return, and that none is lost when several threads write. */
#include "tests.h"
#include <pthread.h>

enum { TRIES = 1000 };

static server own;
static bec_client *client, *other;

/* What a changer does, and what it has seen. */
typedef struct job {
    uint64_t node, next;
    int runs;
    int disturbed;  /* in how many runs another client writes */
    uint32_t error; /* what it returns */
} job;

static uint32_t add_one(bec_client *it, bes_batch *batch, uint64_t next, void *with)
{
    job *of = with;
    bes_attribute count = {0, 0, 0};
    const uint32_t error = bec_read(it, of->node, "count", &count, NULL, 0);
    CHECK(batch->count == 0 && batch->used == 0);
    of->next = next;
    if (of->runs++ < of->disturbed)
        OK(bec_new_node(other, NULL));
    if (error != BES_OK && error != BES_NO_ATTRIBUTE)
        return error;
    OK(bes_batch_set_int64(batch, of->node, "count", (int64_t)count.number + 1));
    return of->error;
}

static int64_t count_of(uint64_t node)
{
    bes_attribute count = {0, 0, 0};
    OK(bec_read(client, node, "count", &count, NULL, 0));
    return (int64_t)count.number;
}

static void outcomes(void)
{
    job it = {0, 0, 0, 0, BES_OK};
    uint64_t number = 0, before = 0;
    OK(bec_new_node(client, &it.node));
    OK(bec_change(client, TRIES, add_one, &it, &number));
    CHECK(it.runs == 1 && it.next == it.node + 1 && count_of(it.node) == 1);
    /* Another client writes in between, so the function runs again. */
    it.runs = 0;
    it.disturbed = 3;
    before = number;
    OK(bec_change(client, TRIES, add_one, &it, &number));
    CHECK(it.runs == 4 && number == before + 4 && count_of(it.node) == 2);
    it.runs = 0;
    GIVES(bec_change(client, 3, add_one, &it, &number), BES_CONFLICT);
    CHECK(it.runs == 3 && number == before + 4 + 3 && count_of(it.node) == 2);
    says(client, BES_CONFLICT, number, "read again");
    it.runs = 0;
    GIVES(bec_change(client, 0, add_one, &it, &number), BES_CONFLICT);
    CHECK(it.runs == 1);
    /* The time for further attempts is up. */
    it.runs = 0;
    it.disturbed = INT32_MAX;
    OK(bec_set_timeout(client, 1000));
    const uint64_t begin = now();
    GIVES(bec_change(client, UINT32_MAX, add_one, &it, &number), BES_CONFLICT);
    CHECK(now() - begin >= 1000 && it.runs > 1);
    OK(bec_set_timeout(client, PATIENCE));
    /* The function's error ends the change, even if it is one after which a change starts over. */
    it = (job){it.node, 0, 0, 0, BES_CONFLICT};
    GIVES(bec_change(client, TRIES, add_one, &it, &number), BES_CONFLICT);
    CHECK(it.runs == 1 && number == 0);
    it.error = 12345;
    GIVES(bec_change(client, TRIES, add_one, &it, &number), 12345);
    CHECK(count_of(it.node) == 2 && bec_is_open(client));
    GIVES(bec_change(client, TRIES, NULL, &it, &number), BES_BAD_PART);
    GIVES(bec_change(NULL, TRIES, add_one, &it, &number), BES_CLOSED);
    OK(bec_pin(client, &number));
    GIVES(bec_change(client, TRIES, add_one, &it, &number), BES_PINNED);
    OK(bec_unpin(client));
}

static uint32_t nothing(bec_client *it, bes_batch *batch, uint64_t next, void *with)
{
    (void)it, (void)batch, (void)next, (void)with;
    return BES_OK;
}

/* Creates a node that has a name and refers to itself. */
static uint32_t make(bec_client *it, bes_batch *batch, uint64_t next, void *with)
{
    (void)it;
    *(uint64_t *)with = next;
    OK(bes_batch_new_node(batch));
    OK(bes_batch_set_text(batch, next, "name", "Ada"));
    return bes_batch_set_uint64(batch, next, "self", next);
}

static void new_nodes(void)
{
    bes_attribute value;
    uint64_t number = 0, node = 0, after = 0, next = 0;
    OK(bec_change(client, TRIES, make, &node, &number));
    OK(bec_read(client, node, "self", &value, NULL, 0));
    CHECK(value.number == node && value.code == BES_UINT64_TYPE);
    OK(bec_next(client, &next));
    CHECK(next == node + 1);
    OK(bec_change(client, TRIES, nothing, NULL, &after));
    CHECK(after == number);
}

/* Makes every call that a changer must not make, and some that it may. */
static uint32_t nested(bec_client *it, bes_batch *batch, uint64_t next, void *with)
{
    uint64_t number = 7;
    (void)batch, (void)next;
    GIVES(bec_set_text(it, 1, "name", "a"), BES_NESTED);
    GIVES(bec_new_node(it, NULL), BES_NESTED);
    GIVES(bec_change(it, TRIES, nothing, NULL, &number), BES_NESTED);
    GIVES(bec_unpin(it), BES_NESTED);
    GIVES(bec_pin(it, &number), BES_PINNED);
    GIVES(bec_reconnect(it), BES_NESTED);
    GIVES(bec_close(it), BES_NESTED);
    says(it, BES_NESTED, 0, bec_strerror(BES_NESTED));
    CHECK(bec_is_open(it));
    OK(bec_next(it, &number));
    OK(bec_find(it, "label==a", NULL, 0, &number));
    *(bool *)with = true;
    return bes_batch_new_node(batch);
}

static void *call_meanwhile(void *with)
{
    uint64_t number = 0;
    GIVES(bec_next(with, &number), BEC_IN_CALL);
    GIVES(bec_close(with), BEC_IN_CALL);
    CHECK(!bec_is_open(with) && strcmp(bec_message(with), bec_strerror(BEC_IN_CALL)) == 0);
    return NULL;
}

static uint32_t of_another_thread(bec_client *it, bes_batch *batch, uint64_t next, void *with)
{
    pthread_t calling;
    (void)batch, (void)next, (void)with;
    CHECK(pthread_create(&calling, NULL, call_meanwhile, it) == 0 && pthread_join(calling, NULL) == 0);
    return BES_OK;
}

static void *wait_long(void *with)
{
    bec_update update;
    OK(bec_wait(with, 1000, &update));
    return NULL;
}

static void in_between(void)
{
    bool has_run = false;
    uint64_t number = 0, node = 0;
    pthread_t waiting;
    OK(bec_next(client, &node));
    OK(bec_change(client, TRIES, nested, &has_run, &number));
    CHECK(has_run);
    OK(bec_set_text(client, node, "name", "Ada"));
    OK(bec_change(client, TRIES, of_another_thread, NULL, &number));
    GIVES(bec_change_any_kind(client), BES_NESTED);
    /* A call in progress keeps out other threads' calls. */
    CHECK(pthread_create(&waiting, NULL, wait_long, client) == 0);
    usleep(200000);
    GIVES(bec_next(client, &number), BEC_IN_CALL);
    CHECK(pthread_join(waiting, NULL) == 0);
    OK(bec_next(client, &number));
}

/* Sets a text and then a number under the name of an index that holds numbers. */
static uint32_t of_two_kinds(bec_client *it, bes_batch *batch, uint64_t next, void *with)
{
    (void)next;
    if (*(bool *)with)
        OK(bec_change_any_kind(it));
    OK(bes_batch_set_int32(batch, 1, "size", 5));
    return bes_batch_set_text(batch, 1, "size", "large");
}

/* Makes an index of another kind in the same batch. */
static uint32_t with_index(bec_client *it, bes_batch *batch, uint64_t next, void *with)
{
    (void)it, (void)next, (void)with;
    OK(bes_batch_set_int64(batch, 1, "made", 5));
    OK(bes_batch_make_index(batch, "made", BES_INT32_TYPE));
    return bes_batch_set_int64(batch, 1, "made", 6);
}

static uint32_t invalid(bec_client *it, bes_batch *batch, uint64_t next, void *with)
{
    (void)it, (void)next, (void)with;
    OK(bes_batch_new_node(batch));
    OK(bes_batch_set_text(batch, 1, "name", "a"));
    return bes_batch_set_text(batch, 1, "", "a");
}

static void kinds(void)
{
    bool any_kind = false;
    bec_fault fault;
    uint64_t number = 0;
    OK(bec_make_index(client, "size", BES_INT32_TYPE));
    GIVES(bec_change(client, TRIES, of_two_kinds, &any_kind, &number), BES_WRONG_KIND);
    CHECK(number == 1);
    says(client, BES_WRONG_KIND, 1, "the index \"size\" takes values of kind i32, and this one is text");
    OK(bec_last_fault(client, &fault));
    CHECK(fault.kind == BES_INT32_TYPE && fault.error_class == BES_CLASS_MINE);
    GIVES(bec_read(client, 1, "size", NULL, NULL, 0), BES_NO_ATTRIBUTE);
    any_kind = true;
    OK(bec_change(client, TRIES, of_two_kinds, &any_kind, &number));
    OK(bec_read(client, 1, "size", NULL, NULL, 0));
    GIVES(bec_change(client, TRIES, with_index, NULL, &number), BES_WRONG_KIND);
    CHECK(number == 2);
    GIVES(bec_change(client, TRIES, invalid, NULL, &number), BES_NAME_LENGTH);
    CHECK(number == 2);
}

static void *counting(void *with)
{
    job *it = with;
    bec_client *mine = connected(&own);
    uint64_t number = 0;
    for (int i = 0; i < 50; i++)
        OK(bec_change(mine, UINT32_MAX, add_one, it, &number));
    OK(bec_close(mine));
    return NULL;
}

/* No count is lost when several threads write. */
static void at_once(void)
{
    enum { THREADS = 4 };
    job jobs[THREADS];
    pthread_t threads[THREADS];
    uint64_t node = 0;
    OK(bec_new_node(client, &node));
    for (int i = 0; i < THREADS; i++) {
        jobs[i] = (job){node, 0, 0, 0, BES_OK};
        CHECK(pthread_create(&threads[i], NULL, counting, &jobs[i]) == 0);
    }
    for (int i = 0; i < THREADS; i++)
        CHECK(pthread_join(threads[i], NULL) == 0);
    CHECK(count_of(node) == 50 * THREADS);
}

int main(void)
{
    start(&own, NULL);
    client = connected(&own);
    other = connected(&own);
    OK(bec_new_node(client, NULL));
    OK(bec_make_index(client, "label", BES_STRING_TYPE));
    outcomes();
    new_nodes();
    in_between();
    kinds();
    at_once();
    OK(bec_close(other));
    OK(bec_close(client));
    return 0;
}
