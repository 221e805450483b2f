/* A live query: prints which letters enter its result and which leave it, snapshot by snapshot. */
#include "bestore.h"
#include <stdio.h>

/* Refreshes the query with the current snapshot, and prints what has changed since the last time. */
static uint32_t print_changes(bes_pass *pass, bes_prepared *query)
{
    uint64_t number = 0, created[100], removed[100];
    bes_updates updates = {0, 0};
    uint32_t error = bes_pin(pass, &number);
    if (error != BES_OK)
        return error;
    error = bes_refresh(pass, query, &updates);
    bes_unpin(pass);
    if (error != BES_OK)
        return error;
    bes_changes(query, created, 100, removed, 100);
    for (uint64_t i = 0; i < updates.removed && i < 100; i++)
        printf("went %llu\n", (unsigned long long)removed[i]);
    for (uint64_t i = 0; i < updates.created && i < 100; i++)
        printf("came %llu\n", (unsigned long long)created[i]);
    return BES_OK;
}

/* Creates an unread letter, and saves its number. */
static uint32_t unread_letter(bes_pass *pass, bes_batch *batch, uint64_t next, void *letter)
{
    uint32_t error = bes_batch_new_node(batch);
    (void)pass;
    *(uint64_t *)letter = next;
    return error != BES_OK ? error : bes_batch_set_text(batch, next, "MAIL:status", "New");
}

static uint32_t write_letter(bes_pass *pass, uint64_t *letter)
{
    uint64_t number = 0;
    return bes_change(pass, BES_TRIES, unread_letter, letter, &number);
}

static uint32_t run(bes_pass *pass, bes_prepared *unread)
{
    uint64_t place = 0, first = 0, letter = 0;
    uint32_t error = bes_open(64, 1, 100, pass);
    if (error == BES_OK)
        error = bes_make_index(pass, "MAIL:status", BES_STRING_TYPE);
    if (error == BES_OK)
        error = bes_prepare_text("MAIL:status==New", unread, &place);
    if (error == BES_OK)
        error = write_letter(pass, &first);
    if (error == BES_OK)
        error = write_letter(pass, &letter);
    if (error == BES_OK)
        error = print_changes(pass, unread);
    if (error == BES_OK)
        error = bes_set_text(pass, first, "MAIL:status", "Read");
    if (error == BES_OK)
        error = write_letter(pass, &letter);
    return error != BES_OK ? error : print_changes(pass, unread);
}

int main(void)
{
    bes_pass pass = BES_PASS_INIT;
    bes_prepared unread = BES_PREPARED_INIT;
    uint32_t error = run(&pass, &unread);
    if (error != BES_OK)
        fprintf(stderr, "%s\n", bes_strerror(error));
    bes_release(&unread);
    bes_close(&pass);
    return error == BES_OK ? 0 : 1;
}
