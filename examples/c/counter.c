/* Atomic reading and writing: two threads file letters, each a node with its sender, and count them in one attribute of node 1. No letter
 * gets another letter's sender, and no count is lost. */
#include "bestore.h"
#include <pthread.h>
#include <stdio.h>
#include <stdlib.h>

enum { LETTERS = 1000 };

typedef struct clerk {
    bes_pass pass;
    const char *name;
} clerk;

static void stop_at(const char *what, uint32_t error)
{
    if (error != BES_OK) {
        fprintf(stderr, "%s: %s\n", what, bes_strerror(error));
        exit(1);
    }
}

/* Creates a letter, whose number will be `next`, and adds one to the snapshot's count. If another write comes in between, bes_change calls
 * this function again with the next snapshot. */
static uint32_t file_letter(bes_pass *pass, bes_batch *batch, uint64_t next, void *with)
{
    const clerk *it = with;
    bes_attribute count = {0, 0, 0};
    uint8_t none = 0;
    uint32_t error = bes_read(pass, 1, "letters", &count, &none, 0);
    if (error == BES_OK)
        error = bes_batch_new_node(batch);
    if (error == BES_OK)
        error = bes_batch_set_text(batch, next, "MAIL:from", it->name);
    if (error == BES_OK)
        error = bes_batch_set_int64(batch, 1, "letters", (int64_t)count.number + 1);
    return error;
}

static void *file_letters(void *with)
{
    clerk *it = with;
    uint64_t number = 0;
    for (int i = 0; i < LETTERS; i++)
        stop_at(it->name, bes_change(&it->pass, BES_TRIES, file_letter, it, &number));
    return NULL;
}

/* Prints how many letters a clerk has filed. */
static void print(bes_pass *pass, const char *query)
{
    uint64_t count = 0;
    stop_at(query, bes_count(pass, query, &count));
    printf("%s %llu\n", query, (unsigned long long)count);
}

int main(void)
{
    clerk ann = {BES_PASS_INIT, "ann"}, bob = {BES_PASS_INIT, "bob"};
    pthread_t running;
    uint64_t node = 0, number = 0;
    stop_at("open", bes_open(4096, 2, 1000000, &ann.pass));
    stop_at("another", bes_another(&ann.pass, &bob.pass));
    stop_at("index", bes_make_index(&ann.pass, "MAIL:from", BES_STRING_TYPE));
    stop_at("index", bes_make_index(&ann.pass, "letters", BES_INT64_TYPE));
    stop_at("count", bes_new_node(&ann.pass, &node));
    stop_at("count", bes_set_int64(&ann.pass, node, "letters", 0));
    if (pthread_create(&running, NULL, file_letters, &bob) != 0)
        return 1;
    file_letters(&ann);
    pthread_join(running, NULL);
    stop_at("pin", bes_pin(&ann.pass, &number));
    print(&ann.pass, "MAIL:from==ann");
    print(&ann.pass, "MAIL:from==bob");
    print(&ann.pass, "letters==2000");
    stop_at("close", bes_close(&bob.pass));
    stop_at("close", bes_close(&ann.pass));
    return 0;
}
