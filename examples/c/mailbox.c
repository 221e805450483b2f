/* Reads an mbox file into a store, using the attribute names of BeOS mail, and answers queries.
 *
 *     mailbox FILE QUERY..      e.g. mailbox letters.mbox 'MAIL:from=="*ann*"'
 *
 * One thread writes a node for each mail. Meanwhile, a second thread follows the first query from snapshot to snapshot. The other queries
 * run once all mails have been written. If a mail doesn't fit into the store, reading stops: the queries find only the mails before it,
 * and the program returns 1. */
#include "bestore.h"
#include "mails.h"
#include <pthread.h>
#include <stdlib.h>

enum { MOST = 1000 };

static void stop_at(const char *what, uint32_t error)
{
    if (error != BES_OK) {
        fprintf(stderr, "%s: %s\n", what, bes_strerror(error));
        exit(1);
    }
}

typedef struct watch {
    bes_pass pass;
    const char *query;
    uint64_t last; /* 0 while the writer is working, then the number of its last write */
    pthread_mutex_t lock;
    size_t found;
} watch;

/* Refreshes the query until it has seen the last write, and counts the mails that have appeared. */
static void *watcher(void *arg)
{
    watch *it = arg;
    bes_prepared query = BES_PREPARED_INIT;
    bes_updates updates = {0, 0};
    uint64_t number = 0, until = 0, place = 0;
    stop_at(it->query, bes_prepare_text(it->query, &query, &place));
    do {
        pthread_mutex_lock(&it->lock);
        until = it->last;
        pthread_mutex_unlock(&it->lock);
        stop_at("pin", bes_pin(&it->pass, &number));
        stop_at(it->query, bes_refresh(&it->pass, &query, &updates));
        stop_at("unpin", bes_unpin(&it->pass));
        if (updates.removed > 0) {
            fprintf(stderr, "a mail went away\n");
            exit(1);
        }
        it->found += updates.created;
    } while (until == 0 || number < until);
    stop_at("release", bes_release(&query));
    return NULL;
}

/* What writes mails. */
typedef struct clerk {
    bes_pass pass;
    const mail *mail;
    uint64_t number; /* the number of the last write */
} clerk;

/* Creates the node for a mail, whose number will be `next`. */
static uint32_t make_mail(bes_pass *pass, bes_batch *batch, uint64_t next, void *with)
{
    const mail *it = ((const clerk *)with)->mail;
    uint32_t error = bes_batch_new_node(batch);
    (void)pass;
    if (error == BES_OK)
        error = bes_batch_set_mime(batch, next, "BEOS:TYPE", "text/x-email");
    for (size_t i = 0; i < TEXTS && error == BES_OK; i++)
        if (it->has_text[i])
            error = bes_batch_set_text(batch, next, headers[i][1], it->texts[i]);
    if (error == BES_OK && it->when >= 0)
        error = bes_batch_set_int64(batch, next, "MAIL:when", it->when);
    return error;
}

static uint32_t write_mail(const mail *it, void *with)
{
    clerk *by = with;
    uint64_t written = 0;
    by->mail = it;
    uint32_t error = bes_change(&by->pass, BES_TRIES, make_mail, by, &written);
    by->number = error == BES_OK ? written : by->number;
    return error;
}

static void print(bes_pass *pass, const char *query)
{
    uint64_t count = 0, nodes[MOST];
    bes_attribute read;
    uint8_t subject[255];
    stop_at(query, bes_find(pass, query, nodes, MOST, &count));
    printf("%s: %llu\n", query, (unsigned long long)count);
    for (uint64_t i = 0; i < count && i < MOST; i++)
        if (bes_read(pass, nodes[i], "MAIL:subject", &read, subject, sizeof subject) == BES_OK)
            printf("  %llu %.*s\n", (unsigned long long)nodes[i], (int)read.length, (const char *)subject);
}

/* Opens a store, creates the indices, and opens a pass for the watcher. */
static void open_store(bes_pass *pass, bes_pass *other)
{
    stop_at("open", bes_open(4096, 2, 1000000, pass));
    stop_at("another", bes_another(pass, other));
    for (size_t i = 0; i < TEXTS; i++)
        stop_at(headers[i][1], bes_make_index(pass, headers[i][1], BES_STRING_TYPE));
    stop_at("MAIL:when", bes_make_index(pass, "MAIL:when", BES_INT64_TYPE));
}

int main(int argc, char **argv)
{
    clerk clerk = {BES_PASS_INIT, NULL, TEXTS + 1};
    watch watch = {BES_PASS_INIT, argv[argc > 2 ? 2 : 0], 0, PTHREAD_MUTEX_INITIALIZER, 0};
    pthread_t running;
    uint64_t mails = 0, number = 0;
    uint32_t error;
    FILE *file = argc > 2 ? fopen(argv[1], "r") : NULL;
    if (argc <= 2) {
        fprintf(stderr, "mailbox FILE QUERY..\n");
        return 2;
    }
    if (!file) {
        perror(argv[1]);
        return 1;
    }
    open_store(&clerk.pass, &watch.pass);
    if (pthread_create(&running, NULL, watcher, &watch) != 0)
        return 1;
    error = read_mails(file, bes_to_utf8, write_mail, &clerk, &mails);
    fclose(file);
    if (error != BES_OK)
        fprintf(stderr, "the store takes no more after %llu mails: %s\n", (unsigned long long)mails, bes_strerror(error));
    pthread_mutex_lock(&watch.lock);
    watch.last = clerk.number;
    pthread_mutex_unlock(&watch.lock);
    pthread_join(running, NULL);
    printf("watched %s: %zu\n", watch.query, watch.found);
    stop_at("pin", bes_pin(&clerk.pass, &number));
    for (int i = 2; i < argc; i++)
        print(&clerk.pass, argv[i]);
    stop_at("close", bes_close(&watch.pass));
    stop_at("close", bes_close(&clerk.pass));
    return error == BES_OK ? 0 : 1;
}
