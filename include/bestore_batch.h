/* Batches: lists of operations, which are filled here and written by another call. Include bestore.h or bestore_client.h, which include
 * this file. Nothing here calls the library, so a program can link either of the two, or both. Names that end with _ are internal to these
 * headers. */
#ifndef BESTORE_BATCH_H
#define BESTORE_BATCH_H

#include "bestore_types.h"
#include <string.h>

#ifdef __cplusplus
extern "C" {
#endif

/* A batch with room for any 64 operations. Initialise it with BES_BATCH_INIT, which sets all 23 KB of it to zero, or with bes_batch_clear,
 * which sets only two words. Fill it with the helpers below, apply it, and clear it before you reuse it.
 * BES_BAD_COUNT: the batch already has 64 operations. BES_NAME_LENGTH: the name has more than 63 bytes. BES_DATA_LENGTH: the value has
 * more than 255 bytes. After an error, the batch is unchanged. All other errors are reported when the batch is applied. */
typedef struct bes_batch {
    size_t count;
    size_t used;
    bes_operation operations[64];
    uint8_t bytes[64 * (63 + 255)];
} bes_batch;

#define BES_BATCH_INIT { 0, 0, { { 0, 0, 0, 0, 0, 0, 0, 0 } }, { 0 } }

static inline void bes_batch_clear(bes_batch *batch)
{
    batch->count = 0;
    batch->used = 0;
}

/* Fills in an operation, and appends the bytes of its name and value to those already used. */
static inline uint32_t bes_put_operation_(bes_operation *operation, uint8_t *bytes, size_t *used, uint32_t kind, uint64_t node,
                                          const void *name, size_t name_length, uint32_t code, uint64_t number,
                                          const void *value, size_t value_length)
{
    if (name_length > 63)
        return BES_NAME_LENGTH;
    if (value_length > 255)
        return BES_DATA_LENGTH;
    operation->kind = kind;
    operation->code = code;
    operation->node = node;
    operation->number = number;
    operation->name_at = (uint32_t)*used;
    operation->name_length = (uint32_t)name_length;
    operation->value_at = (uint32_t)(*used + name_length);
    operation->value_length = (uint32_t)value_length;
    if (name_length > 0)
        memcpy(bytes + *used, name, name_length);
    if (value_length > 0)
        memcpy(bytes + *used + name_length, value, value_length);
    *used += name_length + value_length;
    return BES_OK;
}

/* Adds an operation. Its name may contain any bytes. */
static inline uint32_t bes_batch_add_bytes(bes_batch *batch, uint32_t kind, uint64_t node, const void *name, size_t name_length,
                                           uint32_t code, uint64_t number, const void *value, size_t value_length)
{
    uint32_t error;
    if (batch->count >= 64)
        return BES_BAD_COUNT;
    error = bes_put_operation_(&batch->operations[batch->count], batch->bytes, &batch->used, kind, node, name, name_length, code,
                               number, value, value_length);
    batch->count += error == BES_OK;
    return error;
}

static inline uint32_t bes_batch_add(bes_batch *batch, uint32_t kind, uint64_t node, const char *name, uint32_t code,
                                     uint64_t number, const void *value, size_t value_length)
{
    return bes_batch_add_bytes(batch, kind, node, name, strlen(name), code, number, value, value_length);
}

static inline uint32_t bes_batch_new_node(bes_batch *batch)
{
    return bes_batch_add(batch, BES_NEW_NODE, 0, "", 0, 0, NULL, 0);
}

static inline uint32_t bes_batch_remove_node(bes_batch *batch, uint64_t node)
{
    return bes_batch_add(batch, BES_REMOVE_NODE, node, "", 0, 0, NULL, 0);
}

static inline uint32_t bes_batch_set_text(bes_batch *batch, uint64_t node, const char *name, const char *text)
{
    return bes_batch_add(batch, BES_SET, node, name, BES_STRING_TYPE, 0, text, strlen(text));
}

static inline uint32_t bes_batch_set_mime(bes_batch *batch, uint64_t node, const char *name, const char *text)
{
    return bes_batch_add(batch, BES_SET, node, name, BES_MIME_STRING_TYPE, 0, text, strlen(text));
}

static inline uint32_t bes_batch_set_raw(bes_batch *batch, uint64_t node, const char *name, const void *value, size_t length)
{
    return bes_batch_add(batch, BES_SET, node, name, BES_RAW_TYPE, 0, value, length);
}

/* surface.toml: setters of a batch */
static inline uint32_t bes_batch_set_int32(bes_batch *batch, uint64_t node, const char *name, int32_t value)
{
    return bes_batch_add(batch, BES_SET, node, name, BES_INT32_TYPE, (uint64_t)(int64_t)value, NULL, 0);
}

static inline uint32_t bes_batch_set_int64(bes_batch *batch, uint64_t node, const char *name, int64_t value)
{
    return bes_batch_add(batch, BES_SET, node, name, BES_INT64_TYPE, (uint64_t)value, NULL, 0);
}

static inline uint32_t bes_batch_set_uint32(bes_batch *batch, uint64_t node, const char *name, uint32_t value)
{
    return bes_batch_add(batch, BES_SET, node, name, BES_UINT32_TYPE, value, NULL, 0);
}

static inline uint32_t bes_batch_set_uint64(bes_batch *batch, uint64_t node, const char *name, uint64_t value)
{
    return bes_batch_add(batch, BES_SET, node, name, BES_UINT64_TYPE, value, NULL, 0);
}
/* surface.toml: end */

static inline uint32_t bes_batch_unset(bes_batch *batch, uint64_t node, const char *name)
{
    return bes_batch_add(batch, BES_UNSET, node, name, 0, 0, NULL, 0);
}

static inline uint32_t bes_batch_make_index(bes_batch *batch, const char *name, uint32_t code)
{
    return bes_batch_add(batch, BES_MAKE_INDEX, 0, name, code, 0, NULL, 0);
}

static inline uint32_t bes_batch_remove_index(bes_batch *batch, const char *name)
{
    return bes_batch_add(batch, BES_REMOVE_INDEX, 0, name, 0, 0, NULL, 0);
}

#ifdef __cplusplus
}
#endif
#endif
