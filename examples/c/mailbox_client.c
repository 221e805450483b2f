/* Does what mailbox.c does, with the store of a server: reads an mbox file into it, and answers queries.
 *
 *     mailbox_client FILE QUERY..      e.g. mailbox_client letters.mbox 'MAIL:from=="*ann*"'
 *
 * One thread writes a node for each mail. Meanwhile, a second thread follows the first query from snapshot to snapshot. The other queries
 * run once all mails have been written. If a mail doesn't fit into the store, reading stops: the queries find only the mails before it,
 * and the program returns 1. */
#include "bestore_client.h"
#include "mails.h"
#include <pthread.h>
#include <stdlib.h>

enum { MOST = 1000, TRIES = 1000 };

/* Ends the program after an error, with the client's message. */
static void stop_at(const char *what, bec_client *client, uint32_t error)
{
    if (error != BES_OK) {
        fprintf(stderr, "%s: %s\n", what, bec_message(client));
        exit(1);
    }
}

typedef struct watch {
    bec_client *client;
    const char *query;
    uint64_t last; /* 0 while the writer is working, then the number of its last write */
    pthread_mutex_t lock;
    size_t found;
} watch;

/* Refreshes the query until it has seen the last write, and counts the mails that have appeared. */
static void *watcher(void *arg)
{
    watch *it = arg;
    bec_update update;
    uint64_t number = 0, until = 0;
    stop_at(it->query, it->client, bec_watch_text(it->client, it->query, &update));
    it->found = update.created;
    do {
        pthread_mutex_lock(&it->lock);
        until = it->last;
        pthread_mutex_unlock(&it->lock);
        stop_at("pin", it->client, bec_pin(it->client, &number));
        stop_at(it->query, it->client, bec_refresh(it->client, update.watch, &update));
        stop_at("unpin", it->client, bec_unpin(it->client));
        if (update.removed > 0) {
            fprintf(stderr, "a mail went away\n");
            exit(1);
        }
        it->found += update.created;
    } while (until == 0 || number < until);
    stop_at("unwatch", it->client, bec_unwatch(it->client, update.watch));
    return NULL;
}

/* What writes mails. */
typedef struct clerk {
    bec_client *client;
    const mail *mail;
    uint64_t number; /* the number of the last write */
} clerk;

/* Creates the node for a mail, whose number will be `next`. */
static uint32_t make_mail(bec_client *client, bes_batch *batch, uint64_t next, void *with)
{
    const mail *it = ((const clerk *)with)->mail;
    uint32_t error = bes_batch_new_node(batch);
    (void)client;
    if (error == BES_OK)
        error = bes_batch_set_mime(batch, next, "BEOS:TYPE", "text/x-email");
    for (size_t i = 0; i < TEXTS && error == BES_OK; i++)
        if (it->has_text[i])
            error = bes_batch_set_text(batch, next, headers[i][1], it->texts[i]);
    if (error == BES_OK && it->when >= 0)
        error = bes_batch_set_int64(batch, next, "MAIL:when", it->when);
    return error;
}

static uint32_t write_mail(const mail *it, void *with)
{
    clerk *by = with;
    uint64_t written = 0;
    by->mail = it;
    uint32_t error = bec_change(by->client, TRIES, make_mail, by, &written);
    by->number = error == BES_OK ? written : by->number;
    return error;
}

static void print(bec_client *client, const char *query)
{
    uint64_t count = 0, nodes[MOST];
    bes_attribute read;
    uint8_t subject[255];
    stop_at(query, client, bec_find(client, query, nodes, MOST, &count));
    printf("%s: %llu\n", query, (unsigned long long)count);
    for (uint64_t i = 0; i < count && i < MOST; i++)
        if (bec_read(client, nodes[i], "MAIL:subject", &read, subject, sizeof subject) == BES_OK)
            printf("  %llu %.*s\n", (unsigned long long)nodes[i], (int)read.length, (const char *)subject);
}

/* Connects to the server that BESTORE_SOCKET names, or to the one that listens by default. It may take 5 seconds to start. */
static bec_client *connected(void)
{
    const bec_options options = {.size = sizeof options, .wait_ms = 5000};
    bec_client *client = NULL;
    const uint32_t error = bec_connect(NULL, 0, &options, &client);
    stop_at("connect", client, error);
    return client;
}

/* Creates the indices, unless an earlier run has. */
static void make_indices(bec_client *client)
{
    for (size_t i = 0; i <= TEXTS; i++) {
        const char *name = i < TEXTS ? headers[i][1] : "MAIL:when";
        const uint32_t error = bec_make_index(client, name, i < TEXTS ? BES_STRING_TYPE : BES_INT64_TYPE);
        stop_at(name, client, error == BES_INDEX_EXISTS ? BES_OK : error);
    }
}

int main(int argc, char **argv)
{
    clerk clerk = {NULL, NULL, TEXTS + 1};
    watch watch = {NULL, argv[argc > 2 ? 2 : 0], 0, PTHREAD_MUTEX_INITIALIZER, 0};
    pthread_t running;
    uint64_t mails = 0, number = 0;
    uint32_t error;
    FILE *file = argc > 2 ? fopen(argv[1], "r") : NULL;
    if (argc <= 2) {
        fprintf(stderr, "mailbox_client FILE QUERY..\n");
        return 2;
    }
    if (!file) {
        perror(argv[1]);
        return 1;
    }
    clerk.client = connected();
    watch.client = connected();
    make_indices(clerk.client);
    if (pthread_create(&running, NULL, watcher, &watch) != 0)
        return 1;
    error = read_mails(file, bec_to_utf8, write_mail, &clerk, &mails);
    fclose(file);
    if (error != BES_OK)
        fprintf(stderr, "the store takes no more after %llu mails: %s\n", (unsigned long long)mails, bec_message(clerk.client));
    pthread_mutex_lock(&watch.lock);
    watch.last = clerk.number;
    pthread_mutex_unlock(&watch.lock);
    pthread_join(running, NULL);
    printf("watched %s: %zu\n", watch.query, watch.found);
    stop_at("pin", clerk.client, bec_pin(clerk.client, &number));
    for (int i = 2; i < argc; i++)
        print(clerk.client, argv[i]);
    bec_close(watch.client);
    bec_close(clerk.client);
    return error == BES_OK ? 0 : 1;
}
