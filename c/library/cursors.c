/* Converts a value and a node to a position in an index's order, and back. */
#include "kinds.h"

#include <string.h>

/* Returns how many bytes a number with this type code takes in an index's key, or 0 if the code's values aren't numbers. */
static size_t key_size(uint32_t code)
{
    return bits_of(code) / 8;
}

/* Writes the low `length` bytes of a number, highest first. */
static void put_high_first(uint8_t *bytes, uint64_t number, size_t length)
{
    for (size_t at = length; at > 0; number >>= 8)
        bytes[--at] = (uint8_t)number;
}

static uint64_t take_high_first(const uint8_t *bytes, size_t length)
{
    uint64_t number = 0;
    for (size_t at = 0; at < length; at++)
        number = number << 8 | bytes[at];
    return number;
}

/* Returns BES_OK if an index key can have this value, and the error otherwise. */
static uint32_t unkeyable(const bes_attribute *value, const void *bytes)
{
    if (value->code == BES_STRING_TYPE)
        return value->length > 255 ? BES_DATA_LENGTH : memchr(bytes, 0, value->length) != NULL ? BES_HAS_NUL : BES_OK;
    if (key_size(value->code) == 0)
        return BES_NOT_INDEXABLE;
    return fits(value->code, value->number) ? BES_OK : BES_NO_VALUE;
}

uint32_t bes_cursor_at(const bes_attribute *value, const void *bytes, uint64_t node, bes_cursor *cursor)
{
    uint32_t error = unkeyable(value, bytes);
    size_t size = value->code == BES_STRING_TYPE ? value->length + 1 : key_size(value->code);
    if (error != BES_OK)
        return error;
    memset(cursor, 0, sizeof *cursor);
    if (value->code == BES_STRING_TYPE)
        memcpy(cursor->key, bytes, value->length);
    else
        put_high_first(cursor->key, value->number + key_shift(value->code), size);
    put_high_first(cursor->key + size, node, 8);
    cursor->kind = value->code;
    cursor->length = (uint32_t)size + 8;
    return BES_OK;
}

uint32_t bes_cursor_value(const bes_cursor *cursor, bes_attribute *value, uint8_t *bytes, size_t bytes_room, uint64_t *node)
{
    size_t size = cursor->length < 8 || cursor->length > sizeof cursor->key ? 0 : cursor->length - 8;
    uint32_t code = cursor->kind;
    bool is_text = code == BES_STRING_TYPE && size > 0 && memchr(cursor->key, 0, size) == cursor->key + size - 1;
    if (!is_text && (size == 0 || size != key_size(code)))
        return BES_BAD_CURSOR;
    value->code = code;
    value->length = is_text ? size - 1 : 0;
    value->number = is_text ? 0 : take_high_first(cursor->key, size) - key_shift(code);
    if (bytes != NULL && value->length > 0 && value->length <= bytes_room)
        memcpy(bytes, cursor->key, value->length);
    *node = take_high_first(cursor->key + size, 8);
    return BES_OK;
}
