/* Counts an index's pairs, and indexes attributes that were set before their index was created. */
#include "kinds.h"

#include <string.h>

bool bes_is_number_code(uint32_t code)
{
    return bits_of(code) > 0;
}

/* Fills the list with the indices of the pinned snapshot, and finds an index in it. */
static uint32_t find_index(bes_pass *pass, const char *name, bes_index_list *list, const bes_operation **index)
{
    uint32_t error = bes_list_indices(pass, list);
    if (error != BES_OK)
        return error;
    *index = bes_index_named(list, name, strlen(name));
    return *index == NULL ? BES_NO_INDEX : BES_OK;
}

uint32_t bes_pairs(bes_pass *pass, const char *name, uint64_t *count)
{
    bes_item items[3] = {{BES_ITEM_ATTRIBUTE, 0, 0, 0}, {BES_ITEM_TEXT, 0, 1, 0}, {BES_ITEM_EQ, 0, 0, 0}};
    uint8_t bytes[1 + 63] = "*";
    bes_index_list list;
    const bes_operation *index = NULL;
    uint64_t none = 0;
    uint32_t error = find_index(pass, name, &list, &index);
    *count = 0;
    if (error != BES_OK)
        return error;
    items[0].at = 1;
    items[0].length = index->name_length;
    memcpy(bytes + 1, name, index->name_length);
    if (bes_is_number_code(index->code)) {
        bool has_sign = is_signed(index->code);
        items[1].kind = has_sign ? BES_ITEM_INT64 : BES_ITEM_UINT64;
        items[1].number = has_sign ? (uint64_t)1 << 63 : 0;
        items[2].kind = BES_ITEM_GE;
    }
    return bes_query_items(pass, items, 3, bytes, 1 + index->name_length, &none, 0, count);
}

/* State for reindex_some: the index, and the node to start at. */
typedef struct reindexing {
    const char *name;
    uint32_t code;
    uint64_t from;
    uint64_t after; /* the node to continue after, or 0 after the last node */
    uint64_t count;
} reindexing;

/* Sets the index's attribute to its present value on up to 64 nodes. */
static uint32_t reindex_some(bes_pass *pass, bes_batch *batch, uint64_t next, void *with)
{
    reindexing *it = (reindexing *)with;
    uint64_t nodes[64], count = 0;
    uint32_t error = bes_nodes(pass, it->from, nodes, 64, &count);
    (void)next;
    it->after = count == 64 ? nodes[63] + 1 : 0;
    for (uint64_t i = 0; i < count && error == BES_OK; i++) {
        bes_attribute value = {0, 0, 0};
        uint8_t bytes[255];
        error = bes_read(pass, nodes[i], it->name, &value, bytes, sizeof bytes);
        if (error == BES_NO_ATTRIBUTE)
            error = BES_OK;
        else if (error == BES_OK && value.code == it->code)
            error = bes_batch_add_bytes(batch, BES_SET, nodes[i], it->name, strlen(it->name), value.code, value.number, bytes,
                                        (size_t)value.length);
    }
    it->count = batch->count;
    return error;
}

uint32_t bes_reindex(bes_pass *pass, const char *name, uint32_t attempts, uint64_t *count)
{
    reindexing it = {name, 0, 0, 0, 0};
    bes_index_list list;
    const bes_operation *index = NULL;
    uint64_t number = 0;
    uint32_t error = bes_pin(pass, &number);
    *count = 0;
    if (error == BES_OK) {
        error = find_index(pass, name, &list, &index);
        bes_unpin(pass);
    }
    if (error != BES_OK)
        return error;
    it.code = index->code;
    do {
        it.from = it.after;
        error = bes_change(pass, attempts, reindex_some, &it, &number);
        *count += error == BES_OK ? it.count : 0;
    } while (error == BES_OK && it.after != 0);
    return error;
}
