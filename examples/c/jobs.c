/* A queue: threads claim one job at a time, each in a change, until no jobs are left. No two threads claim the same job. */
#include "bestore.h"
#include <pthread.h>
#include <stdio.h>

enum { JOBS = 200, WORKERS = 4 };

/* A thread's handle, and the jobs that the thread has claimed. */
typedef struct worker {
    bes_pass pass;
    bes_prepared waiting;
    pthread_t thread;
    uint32_t error;
    uint64_t job; /* the job that the thread claimed last, or 0 */
    uint64_t claimed[JOBS];
    size_t count;
} worker;

/* Claims any one of the waiting jobs. */
static uint32_t claim(bes_pass *pass, bes_batch *batch, uint64_t next, void *with)
{
    worker *it = with;
    uint64_t count = 0;
    uint32_t error = bes_any(pass, &it->waiting, &it->job, 1, &count);
    (void)next;
    if (error != BES_OK || count == 0) {
        it->job = 0;
        return error;
    }
    return bes_batch_set_text(batch, it->job, "job:state", "claimed");
}

static void *work(void *with)
{
    worker *it = with;
    uint64_t number = 0;
    do {
        it->error = bes_change(&it->pass, BES_TRIES, claim, it, &number);
        if (it->error == BES_OK && it->job != 0)
            it->claimed[it->count++] = it->job;
    } while (it->error == BES_OK && it->job != 0);
    return NULL;
}

static uint32_t add_jobs(bes_pass *pass)
{
    uint64_t job = 0;
    uint32_t error = bes_make_index(pass, "job:state", BES_STRING_TYPE);
    for (int i = 0; error == BES_OK && i < JOBS; i++) {
        error = bes_new_node(pass, &job);
        if (error == BES_OK)
            error = bes_set_text(pass, job, "job:state", "waiting");
    }
    return error;
}

/* Gives a worker its own handle and query. */
static uint32_t equip(bes_pass *pass, worker *it)
{
    uint64_t place = 0;
    uint32_t error = bes_another(pass, &it->pass);
    return error != BES_OK ? error : bes_prepare_text("job:state==waiting", &it->waiting, &place);
}

/* Runs the workers, and waits until they have finished. */
static uint32_t run_workers(worker *workers)
{
    uint32_t error = BES_OK;
    int begun = 0;
    while (begun < WORKERS && pthread_create(&workers[begun].thread, NULL, work, &workers[begun]) == 0)
        begun++;
    for (int i = 0; i < begun; i++) {
        pthread_join(workers[i].thread, NULL);
        if (workers[i].error != BES_OK)
            error = workers[i].error;
    }
    return begun < WORKERS ? BES_NO_MEMORY : error;
}

/* Returns how many different jobs were claimed. The jobs are nodes 1 to JOBS. */
static int count_claimed(const worker *workers)
{
    bool is_claimed[JOBS + 1] = { false };
    int different = 0;
    for (int i = 0; i < WORKERS; i++)
        for (size_t at = 0; at < workers[i].count; at++) {
            bool *claimed = &is_claimed[workers[i].claimed[at]];
            different += *claimed ? 0 : 1;
            *claimed = true;
        }
    return different;
}

static uint32_t run(bes_pass *pass, worker *workers)
{
    uint32_t error = bes_open(256, WORKERS + 1, 10000, pass);
    if (error == BES_OK)
        error = add_jobs(pass);
    for (int i = 0; error == BES_OK && i < WORKERS; i++)
        error = equip(pass, &workers[i]);
    if (error == BES_OK)
        error = run_workers(workers);
    printf("%d jobs were claimed\n", count_claimed(workers));
    return error;
}

int main(void)
{
    static worker workers[WORKERS];
    bes_pass pass = BES_PASS_INIT;
    uint32_t error = run(&pass, workers);
    if (error != BES_OK)
        fprintf(stderr, "%s\n", bes_strerror(error));
    for (int i = 0; i < WORKERS; i++) {
        bes_release(&workers[i].waiting);
        bes_close(&workers[i].pass);
    }
    bes_close(&pass);
    return error == BES_OK ? 0 : 1;
}
