/* Opens a store that begins with what another store's snapshot contains. */
#include "bestore.h"

static uint32_t give_indices(bes_pass *pass, bes_builder *builder)
{
    bes_index_list list;
    uint32_t error = bes_list_indices(pass, &list);
    for (uint64_t i = 0; i < list.counts.operations && error == BES_OK; i++) {
        const bes_operation *it = &list.operations[i];
        error = bes_build_index(builder, list.bytes + it->name_at, it->name_length, it->code);
    }
    return error;
}

/* Gives the builder one of a node's attributes. */
static uint32_t give_attribute(bes_pass *pass, bes_builder *builder, const bes_operation *it, const uint8_t *bytes)
{
    const uint8_t *name = bytes + it->name_at;
    uint32_t held = 0;
    uint32_t error = bes_is_held(pass, it->node, name, it->name_length, &held);
    if (error != BES_OK)
        return error;
    return bes_build_attribute(builder, name, it->name_length, it->code, it->number, bytes + it->value_at, it->value_length, held);
}

static uint32_t give_node(bes_pass *pass, bes_builder *builder, uint64_t node)
{
    bes_batch batch;
    bes_counts counts = {0, 0};
    uint32_t error = bes_build_node(builder, node);
    if (error == BES_OK)
        error = bes_attributes(pass, node, &counts, batch.operations, 64, batch.bytes, sizeof batch.bytes);
    for (uint64_t i = 0; i < counts.operations && error == BES_OK; i++)
        error = give_attribute(pass, builder, &batch.operations[i], batch.bytes);
    return error;
}

/* Gives the builder the first nodes from a number on. Writes the number to continue from, or 0 after the last node. */
static uint32_t give_nodes(bes_pass *pass, bes_builder *builder, uint64_t *from)
{
    uint64_t nodes[256], count = 0;
    uint32_t error = bes_nodes(pass, *from, nodes, 256, &count);
    *from = count == 256 ? nodes[255] + 1 : 0;
    for (uint64_t i = 0; i < count && error == BES_OK; i++)
        error = give_node(pass, builder, nodes[i]);
    return error;
}

uint32_t bes_carry_on(bes_pass *pass, uint64_t pages, uint64_t passes, uint64_t commits, bes_pass *next)
{
    bes_builder builder = BES_BUILDER_INIT;
    uint64_t number = 0, from = 1;
    uint32_t error = bes_next(pass, &number);
    if (error == BES_OK)
        error = bes_build(pages, passes, commits, &builder);
    if (error != BES_OK)
        return error;
    error = give_indices(pass, &builder);
    while (error == BES_OK && from != 0)
        error = give_nodes(pass, &builder, &from);
    if (error == BES_OK)
        error = bes_build_finish(&builder, number, next);
    bes_build_close(&builder);
    return error;
}
