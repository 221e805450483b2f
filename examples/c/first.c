/* A first program that uses the C library: files a letter, queries letters by sender, and prints the nodes that match. */
#include "bestore.h"
#include <stdio.h>

/* Creates a letter from Ann, whose number will be `next`. */
static uint32_t letter_from_ann(bes_pass *pass, bes_batch *batch, uint64_t next, void *with)
{
    uint32_t error = bes_batch_new_node(batch);
    (void)pass, (void)with;
    return error != BES_OK ? error : bes_batch_set_text(batch, next, "MAIL:from", "ann");
}

/* Opens a store, files a letter from Ann, and pins the snapshot that contains the letter. */
static uint32_t file_letter(bes_pass *pass)
{
    uint64_t number = 0;
    uint32_t error = bes_open(4096, 8, 1000000, pass);
    if (error == BES_OK)
        error = bes_make_index(pass, "MAIL:from", BES_STRING_TYPE);
    if (error == BES_OK)
        error = bes_change(pass, BES_TRIES, letter_from_ann, NULL, &number);
    if (error == BES_OK)
        error = bes_pin(pass, &number);
    return error;
}

int main(void)
{
    bes_pass pass = BES_PASS_INIT;
    uint64_t count = 0, nodes[10];
    uint32_t error = file_letter(&pass);
    if (error == BES_OK)
        error = bes_find(&pass, "MAIL:from==ann", nodes, 10, &count);
    for (uint64_t i = 0; i < count && i < 10; i++)
        printf("node %llu\n", (unsigned long long)nodes[i]);
    if (error != BES_OK)
        fprintf(stderr, "%s\n", bes_strerror(error));
    bes_close(&pass);
    return error == BES_OK ? 0 : 1;
}
