/* Prints the newest 20 letters of a mailbox, and then the next 20. A letter that arrives in between doesn't move others to another
 * page. */
#include "bestore.h"
#include <stdio.h>

enum { PAGE = 20 };

/* Files a letter with this subject, dated one minute after the previous letter. */
static uint32_t file_letter(bes_pass *pass, bes_batch *batch, uint64_t next, void *minute_of)
{
    int64_t minute = *(int64_t *)minute_of;
    char subject[32];
    uint32_t error = bes_batch_new_node(batch);
    (void)pass;
    snprintf(subject, sizeof subject, "Letter %lld", (long long)minute);
    if (error == BES_OK)
        error = bes_batch_set_text(batch, next, "MAIL:to", minute % 2 == 0 ? "ann" : "bob");
    if (error == BES_OK)
        error = bes_batch_set_int64(batch, next, "MAIL:when", 1700000000 + 60 * minute);
    return error != BES_OK ? error : bes_batch_set_text(batch, next, "MAIL:subject", subject);
}

static uint32_t file_letters(bes_pass *pass, int64_t first, int64_t end)
{
    uint32_t error = BES_OK;
    uint64_t number = 0;
    for (int64_t minute = first; error == BES_OK && minute < end; minute++)
        error = bes_change(pass, BES_TRIES, file_letter, &minute, &number);
    return error;
}

static void print_subject(bes_pass *pass, uint64_t letter)
{
    bes_attribute subject;
    uint8_t text[255];
    if (bes_read(pass, letter, "MAIL:subject", &subject, text, sizeof text) == BES_OK)
        printf("%.*s", (int)subject.length, (const char *)text);
}

/* Prints a page from the pinned snapshot, and moves the cursor to where the next page begins. */
static uint32_t print_page(bes_pass *pass, bes_prepared *letters, bes_cursor *cursor)
{
    bes_name when;
    uint64_t nodes[PAGE], count = 0;
    uint32_t more = 0, error = bes_check_name_text("MAIL:when", &when);
    if (error == BES_OK)
        error = bes_ordered(pass, letters, &when, 1, cursor, nodes, PAGE, &count, &more);
    if (error != BES_OK || count == 0)
        return error;
    printf("%llu letters, ", (unsigned long long)count);
    print_subject(pass, nodes[0]);
    printf(" to ");
    print_subject(pass, nodes[count - 1]);
    printf("%s\n", more != 0 ? ", and more" : "");
    return BES_OK;
}

static uint32_t show_page(bes_pass *pass, bes_prepared *letters, bes_cursor *cursor)
{
    uint64_t number = 0;
    uint32_t error = bes_pin(pass, &number);
    if (error == BES_OK) {
        error = print_page(pass, letters, cursor);
        bes_unpin(pass);
    }
    return error;
}

static uint32_t run(bes_pass *pass, bes_prepared *letters)
{
    bes_cursor cursor = { 0, 0, { 0 } }, beginning = cursor;
    uint64_t place = 0;
    uint32_t error = bes_open(256, 1, 1000, pass);
    if (error == BES_OK)
        error = bes_make_index(pass, "MAIL:to", BES_STRING_TYPE);
    if (error == BES_OK)
        error = bes_make_index(pass, "MAIL:when", BES_INT64_TYPE);
    if (error == BES_OK)
        error = bes_prepare_text("MAIL:to==ann", letters, &place);
    if (error == BES_OK)
        error = file_letters(pass, 0, 100);
    if (error == BES_OK)
        error = show_page(pass, letters, &cursor);
    if (error == BES_OK)
        error = file_letters(pass, 100, 101);
    if (error == BES_OK)
        error = show_page(pass, letters, &cursor);
    return error != BES_OK ? error : show_page(pass, letters, &beginning);
}

int main(void)
{
    bes_pass pass = BES_PASS_INIT;
    bes_prepared letters = BES_PREPARED_INIT;
    uint32_t error = run(&pass, &letters);
    if (error != BES_OK)
        fprintf(stderr, "%s\n", bes_strerror(error));
    bes_release(&letters);
    bes_close(&pass);
    return error == BES_OK ? 0 : 1;
}
