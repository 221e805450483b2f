/* Builds a store from a list of files that is already in order, and prints the files that are larger than 1,000 bytes. */
#include "bestore.h"
#include <stdio.h>

static const struct file {
    uint64_t node;
    const char *name;
    int64_t size;
} files[] = {{3, "letter", 500}, {7, "photo", 2000000}, {20, "song", 4000000}};

/* Gives the builder an attribute of its last node, which the index of its name has. */
static uint32_t give(bes_builder *builder, const char *name, uint32_t code, uint64_t number, const char *text)
{
    return bes_build_attribute(builder, (const uint8_t *)name, strlen(name), code, number, (const uint8_t *)text, strlen(text), 1);
}

/* Gives the builder the indices, and each file with its attributes, in order. */
static uint32_t give_files(bes_builder *builder)
{
    uint32_t error = bes_build_index(builder, (const uint8_t *)"name", 4, BES_STRING_TYPE);
    if (error == BES_OK)
        error = bes_build_index(builder, (const uint8_t *)"size", 4, BES_INT64_TYPE);
    for (size_t i = 0; i < sizeof files / sizeof *files && error == BES_OK; i++) {
        error = bes_build_node(builder, files[i].node);
        if (error == BES_OK)
            error = give(builder, "name", BES_STRING_TYPE, 0, files[i].name);
        if (error == BES_OK)
            error = give(builder, "size", BES_INT64_TYPE, (uint64_t)files[i].size, "");
    }
    return error;
}

/* Opens a store that begins with the files. */
static uint32_t open_files(bes_pass *pass)
{
    bes_builder builder = BES_BUILDER_INIT;
    uint32_t error = bes_build(4096, 8, 1000000, &builder);
    if (error == BES_OK)
        error = give_files(&builder);
    if (error == BES_OK)
        error = bes_build_finish(&builder, 21, pass);
    bes_build_close(&builder); /* if it is still open */
    return error;
}

int main(void)
{
    bes_pass pass = BES_PASS_INIT;
    uint64_t number = 0, count = 0, nodes[10];
    uint32_t error = open_files(&pass);
    if (error == BES_OK)
        error = bes_pin(&pass, &number);
    if (error == BES_OK)
        error = bes_find(&pass, "size>1000", nodes, 10, &count);
    for (uint64_t i = 0; i < count && i < 10; i++)
        printf("node %llu\n", (unsigned long long)nodes[i]);
    if (error != BES_OK)
        fprintf(stderr, "%s\n", bes_strerror(error));
    bes_close(&pass);
    return error == BES_OK ? 0 : 1;
}
