/* Helpers built on the calls in bestore_client.h, as inline functions. Include bestore_client.h, which includes this file. A helper whose
 * comment lists no errors returns the errors of the call that it makes, and costs the same. Names and texts end with a zero byte. */
#ifndef BESTORE_CLIENT_HELPERS_H
#define BESTORE_CLIENT_HELPERS_H

#include "bestore_batch.h"
#include "bestore_client.h"

#ifdef __cplusplus
extern "C" {
#endif

/* Applies a batch as bec_apply does. */
static inline uint32_t bec_batch_apply(bec_client *client, const bes_batch *batch, uint64_t *made, size_t made_room, uint64_t *number)
{
    return bec_apply(client, batch->operations, batch->count, batch->bytes, batch->used, made, made_room, number);
}

/* Applies a batch as bec_apply_if does. */
static inline uint32_t bec_batch_apply_if(bec_client *client, uint64_t expected, const bes_batch *batch, uint64_t *made,
                                          size_t made_room, uint64_t *number)
{
    return bec_apply_if(client, expected, batch->operations, batch->count, batch->bytes, batch->used, made, made_room, number);
}

/* Sets an attribute to a value as bec_get writes it. The name has name_length bytes, and may contain any. */
static inline uint32_t bec_set(bec_client *client, uint64_t node, const uint8_t *name, size_t name_length, const bes_attribute *value,
                               const uint8_t *bytes)
{
    bes_operation operation;
    uint8_t parts[63 + 255];
    uint64_t number = 0;
    size_t used = 0;
    uint32_t error = bes_put_operation_(&operation, parts, &used, BES_SET, node, name, name_length, value->code, value->number, bytes,
                                        (size_t)value->length);
    return error != BES_OK ? error : bec_apply(client, &operation, 1, parts, used, NULL, 0, &number);
}

/* Creates 1 to 64 nodes in one transaction, and writes their numbers. No other client gets the same numbers. */
static inline uint32_t bec_new_nodes(bec_client *client, size_t count, uint64_t *nodes)
{
    bes_operation operations[64];
    uint64_t number = 0;
    if (count > 64)
        return BES_BAD_COUNT;
    memset(operations, 0, sizeof operations);
    return bec_apply(client, operations, count, NULL, 0, nodes, count, &number);
}

/* Each helper below writes one operation as a transaction. They don't return the number reported with an error, which bec_last_fault
 * does. made may be NULL. */
static inline uint32_t bec_apply_one(bec_client *client, uint32_t kind, uint64_t node, const char *name, uint32_t code,
                                     uint64_t number, const void *value, size_t value_length, uint64_t *made)
{
    bes_operation operation;
    uint8_t bytes[63 + 255];
    uint64_t commit = 0;
    size_t used = 0;
    uint32_t error = bes_put_operation_(&operation, bytes, &used, kind, node, name, strlen(name), code, number, value, value_length);
    return error != BES_OK ? error : bec_apply(client, &operation, 1, bytes, used, made, made != NULL, &commit);
}

/* Creates a node, and writes its number. */
static inline uint32_t bec_new_node(bec_client *client, uint64_t *node)
{
    return bec_apply_one(client, BES_NEW_NODE, 0, "", 0, 0, NULL, 0, node);
}

static inline uint32_t bec_remove_node(bec_client *client, uint64_t node)
{
    return bec_apply_one(client, BES_REMOVE_NODE, node, "", 0, 0, NULL, 0, NULL);
}

static inline uint32_t bec_set_text(bec_client *client, uint64_t node, const char *name, const char *text)
{
    return bec_apply_one(client, BES_SET, node, name, BES_STRING_TYPE, 0, text, strlen(text), NULL);
}

static inline uint32_t bec_set_mime(bec_client *client, uint64_t node, const char *name, const char *text)
{
    return bec_apply_one(client, BES_SET, node, name, BES_MIME_STRING_TYPE, 0, text, strlen(text), NULL);
}

static inline uint32_t bec_set_raw(bec_client *client, uint64_t node, const char *name, const void *value, size_t length)
{
    return bec_apply_one(client, BES_SET, node, name, BES_RAW_TYPE, 0, value, length, NULL);
}

/* surface.toml: setters */
static inline uint32_t bec_set_int32(bec_client *client, uint64_t node, const char *name, int32_t value)
{
    return bec_apply_one(client, BES_SET, node, name, BES_INT32_TYPE, (uint64_t)(int64_t)value, NULL, 0, NULL);
}

static inline uint32_t bec_set_int64(bec_client *client, uint64_t node, const char *name, int64_t value)
{
    return bec_apply_one(client, BES_SET, node, name, BES_INT64_TYPE, (uint64_t)value, NULL, 0, NULL);
}

static inline uint32_t bec_set_uint32(bec_client *client, uint64_t node, const char *name, uint32_t value)
{
    return bec_apply_one(client, BES_SET, node, name, BES_UINT32_TYPE, value, NULL, 0, NULL);
}

static inline uint32_t bec_set_uint64(bec_client *client, uint64_t node, const char *name, uint64_t value)
{
    return bec_apply_one(client, BES_SET, node, name, BES_UINT64_TYPE, value, NULL, 0, NULL);
}
/* surface.toml: end */

static inline uint32_t bec_unset(bec_client *client, uint64_t node, const char *name)
{
    return bec_apply_one(client, BES_UNSET, node, name, 0, 0, NULL, 0, NULL);
}

static inline uint32_t bec_make_index(bec_client *client, const char *name, uint32_t code)
{
    return bec_apply_one(client, BES_MAKE_INDEX, 0, name, code, 0, NULL, 0, NULL);
}

static inline uint32_t bec_remove_index(bec_client *client, const char *name)
{
    return bec_apply_one(client, BES_REMOVE_INDEX, 0, name, 0, 0, NULL, 0, NULL);
}

/* Like bec_query. */
static inline uint32_t bec_find(bec_client *client, const char *query, uint64_t *nodes, size_t nodes_room, uint64_t *count)
{
    return bec_query(client, (const uint8_t *)query, strlen(query), nodes, nodes_room, count);
}

/* Counts the nodes that match the query. They aren't sent. Errors are as for bec_query. Cost: one round trip. */
static inline uint32_t bec_count(bec_client *client, const char *query, uint64_t *count)
{
    return bec_find(client, query, NULL, 0, count);
}

/* Like bec_query, but takes the items of a predicate, as bes_query_items does. After an error in an item, count is the index of the item.
 * Returns the errors of bec_items_text and of bec_query. */
static inline uint32_t bec_query_items(bec_client *client, const bes_item *items, size_t items_count, const uint8_t *bytes,
                                       size_t bytes_count, uint64_t *nodes, size_t nodes_room, uint64_t *count)
{
    uint8_t query[4096];
    uint64_t length = 0;
    uint32_t error = bec_items_text(items, items_count, bytes, bytes_count, query, sizeof query, &length);
    *count = error == BES_OK ? 0 : length;
    if (error == BES_OK && length > sizeof query)
        error = BES_TOO_LONG;
    return error != BES_OK ? error : bec_query(client, query, (size_t)length, nodes, nodes_room, count);
}

/* Like bec_watch. */
static inline uint32_t bec_watch_text(bec_client *client, const char *query, bec_update *update)
{
    return bec_watch(client, (const uint8_t *)query, strlen(query), update);
}

/* Like bec_check_name. */
static inline uint32_t bec_check_name_text(const char *name, bes_name *checked)
{
    return bec_check_name((const uint8_t *)name, strlen(name), checked);
}

/* Escapes a string as bec_escape_bytes does.
 * [out] out      the result and a zero byte, truncated to `room` bytes; twice the string's length plus 1 is enough
 * Returns how many bytes the whole result has, not counting the zero byte, or 0 if the string isn't valid UTF-8. */
static inline size_t bec_escape(const char *text, char *out, size_t room)
{
    uint64_t count = 0;
    const size_t most = room > 0 ? room - 1 : 0;
    bec_escape_bytes((const uint8_t *)text, strlen(text), (uint8_t *)out, most, &count);
    if (room > 0)
        out[count < most ? count : most] = 0;
    return (size_t)count;
}

/* Like bec_get. */
static inline uint32_t bec_read(bec_client *client, uint64_t node, const char *name, bes_attribute *attribute, uint8_t *bytes,
                                size_t bytes_room)
{
    return bec_get(client, node, (const uint8_t *)name, strlen(name), attribute, bytes, bytes_room);
}

#ifdef __cplusplus
}
#endif
#endif
