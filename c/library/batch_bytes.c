/* Encodes batches as bytes and decodes them, in the format described in bestore's KEPT.md. */
#include "characters.h"
#include "kinds.h"

/* The array for the written bytes, and the number of bytes so far. Bytes that don't fit are counted but not written. */
typedef struct sink {
    uint8_t *bytes;
    size_t room;
    uint64_t count;
} sink;

static void put_bytes(sink *to, const uint8_t *bytes, size_t length)
{
    for (size_t i = 0; i < length; i++, to->count++)
        if (to->count < to->room)
            to->bytes[to->count] = bytes[i];
}

/* Writes the low `length` bytes of a number, lowest first. */
static void put_number(sink *to, uint64_t number, size_t length)
{
    for (size_t i = 0; i < length; i++, number >>= 8) {
        uint8_t byte = (uint8_t)(number & 0xff);
        put_bytes(to, &byte, 1);
    }
}

static bool has_code(uint64_t kind)
{
    return kind == BES_SET || kind == BES_MAKE_INDEX;
}

/* Returns whether a part lies within the given bytes. */
static bool has_part(size_t count, uint32_t at, uint32_t length)
{
    return at <= count && length <= count - at;
}

/* Returns whether an operation of this kind has a name, and the name's length is one that no name has. */
static bool has_wrong_length(uint32_t kind, uint32_t name_length)
{
    return kind >= BES_SET && (name_length < 1 || name_length > 63);
}

/* Returns BES_OK if a name or a text can have these bytes; otherwise the error, with the offset of the first wrong byte. */
static uint32_t text_error(const uint8_t *bytes, size_t length, size_t *place)
{
    *place = length == 0 ? 0 : valid_length((const char *)bytes, length);
    if (*place == length)
        return BES_OK;
    return bytes[*place] == 0 ? BES_HAS_NUL : BES_NOT_UTF8;
}

/* Returns BES_OK if a store accepts an operation's value, and the error otherwise. */
static uint32_t value_error(const bes_operation *it, const uint8_t *value)
{
    size_t place = 0;
    if (bes_is_number_code(it->code))
        return fits(it->code, it->number) ? BES_OK : BES_NO_VALUE;
    if (it->value_length > 255)
        return BES_DATA_LENGTH;
    return it->code == BES_RAW_TYPE ? BES_OK : text_error(value, it->value_length, &place);
}

/* Returns BES_OK if some store accepts an operation, and otherwise the error that none does. */
static uint32_t operation_error(const bes_operation *it, const uint8_t *parts, size_t parts_count)
{
    size_t place = 0;
    uint32_t error = BES_OK;
    if (!has_part(parts_count, it->name_at, it->name_length) || !has_part(parts_count, it->value_at, it->value_length))
        return BES_BAD_PART;
    if (it->kind > BES_REMOVE_INDEX)
        return BES_NO_OPERATION;
    if (has_wrong_length(it->kind, it->name_length))
        return BES_NAME_LENGTH;
    if (it->kind >= BES_SET)
        error = text_error(parts + it->name_at, it->name_length, &place);
    if (error != BES_OK)
        return error;
    if (has_code(it->kind) && !is_code(it->code))
        return BES_NO_KIND;
    return it->kind == BES_SET ? value_error(it, parts + it->value_at) : BES_OK;
}

static void put_operation(sink *to, const bes_operation *it, const uint8_t *parts)
{
    put_number(to, it->kind, 1);
    if (it->kind <= BES_UNSET)
        put_number(to, it->node, 8);
    if (it->kind >= BES_SET) {
        put_number(to, it->name_length, 1);
        put_bytes(to, parts + it->name_at, it->name_length);
    }
    if (has_code(it->kind))
        put_number(to, it->code, 4);
    if (it->kind == BES_SET && bes_is_number_code(it->code)) {
        put_number(to, it->number, 8);
    } else if (it->kind == BES_SET) {
        put_number(to, it->value_length, 1);
        put_bytes(to, parts + it->value_at, it->value_length);
    }
}

uint32_t bes_operations_to_bytes(const bes_operation *operations, size_t operations_count, const uint8_t *parts,
                                 size_t parts_count, uint8_t *bytes, size_t bytes_room, uint64_t *count)
{
    sink to = {bytes, bytes_room, 0};
    *count = 0;
    if (operations_count < 1 || operations_count > 64)
        return BES_BAD_COUNT;
    for (size_t i = 0; i < operations_count; i++) {
        uint32_t error = operation_error(&operations[i], parts, parts_count);
        if (error != BES_OK) {
            *count = i;
            return error;
        }
    }
    put_bytes(&to, (const uint8_t *)"BEB\1", 4);
    put_number(&to, operations_count, 1);
    for (size_t i = 0; i < operations_count; i++)
        put_operation(&to, &operations[i], parts);
    *count = to.count;
    return BES_OK;
}

/* The bytes to read, and how many of them have been read. */
typedef struct source {
    const uint8_t *bytes;
    size_t length;
    size_t at;
} source;

/* Reads a number of `length` bytes, stored lowest byte first. Returns false if the number is cut off. */
static bool take_number(source *from, size_t length, uint64_t *number)
{
    if (from->length - from->at < length)
        return false;
    *number = 0;
    for (size_t i = length; i > 0; i--)
        *number = *number << 8 | from->bytes[from->at + i - 1];
    from->at += length;
    return true;
}

/* Reads a one-byte length, and copies that many bytes to the parts. Returns false if they are cut off. */
static bool take_part(source *from, sink *parts, uint32_t *at, uint32_t *length)
{
    uint64_t count = 0;
    size_t begin = from->at;
    if (!take_number(from, 1, &count) || from->length - from->at < count) {
        from->at = begin;
        return false;
    }
    *at = (uint32_t)parts->count;
    *length = (uint32_t)count;
    put_bytes(parts, from->bytes + from->at, (size_t)count);
    from->at += (size_t)count;
    return true;
}

/* Moves back to the beginning of the invalid part, and returns the error. */
static uint32_t wrong_at(source *from, size_t begin, uint32_t error)
{
    from->at = begin;
    return error;
}

/* Reads an operation's kind and its node. After an error, the source is at the invalid part. */
static uint32_t take_head(source *from, bes_operation *it)
{
    uint64_t kind = 0;
    size_t begin = from->at;
    if (!take_number(from, 1, &kind))
        return BES_BAD_PART;
    if (kind > BES_REMOVE_INDEX)
        return wrong_at(from, begin, BES_NO_OPERATION);
    it->kind = (uint32_t)kind;
    return kind <= BES_UNSET && !take_number(from, 8, &it->node) ? BES_BAD_PART : BES_OK;
}

/* Checks the text of this length that has just been read. After an error, the source is at the first wrong byte. */
static uint32_t check_text(source *from, uint32_t length)
{
    size_t begin = from->at - length, place = 0;
    uint32_t error = text_error(from->bytes + begin, length, &place);
    return error == BES_OK ? BES_OK : wrong_at(from, begin + place, error);
}

/* Reads an operation's name. After an error, the source is at the invalid part. */
static uint32_t take_name(source *from, bes_operation *it, sink *parts)
{
    size_t begin = from->at;
    if (!take_part(from, parts, &it->name_at, &it->name_length))
        return BES_BAD_PART;
    return has_wrong_length(it->kind, it->name_length) ? wrong_at(from, begin, BES_NAME_LENGTH) : check_text(from, it->name_length);
}

/* Reads a type code. After an error, the source is at the code. */
static uint32_t take_code(source *from, bes_operation *it)
{
    uint64_t code = 0;
    size_t begin = from->at;
    if (!take_number(from, 4, &code))
        return BES_BAD_PART;
    it->code = (uint32_t)code;
    return is_code(it->code) ? BES_OK : wrong_at(from, begin, BES_NO_KIND);
}

/* Reads the value of a BES_SET operation. After an error, the source is at the invalid part. */
static uint32_t take_value(source *from, bes_operation *it, sink *parts)
{
    size_t begin = from->at;
    if (bes_is_number_code(it->code)) {
        if (!take_number(from, 8, &it->number))
            return BES_BAD_PART;
        return fits(it->code, it->number) ? BES_OK : wrong_at(from, begin, BES_NO_VALUE);
    }
    if (!take_part(from, parts, &it->value_at, &it->value_length))
        return BES_BAD_PART;
    return it->code == BES_RAW_TYPE ? BES_OK : check_text(from, it->value_length);
}

/* Reads an operation. After an error, the source is at the invalid part. */
static uint32_t take_operation(source *from, bes_operation *it, sink *parts)
{
    uint32_t error = take_head(from, it);
    it->name_at = (uint32_t)parts->count;
    if (error == BES_OK && it->kind >= BES_SET)
        error = take_name(from, it, parts);
    it->value_at = (uint32_t)parts->count;
    if (error == BES_OK && has_code(it->kind))
        error = take_code(from, it);
    return error == BES_OK && it->kind == BES_SET ? take_value(from, it, parts) : error;
}

/* Reads the format's first bytes and the number of operations. After an error, the source is at the invalid byte. */
static uint32_t take_beginning(source *from, uint64_t *count)
{
    for (; from->at < 4; from->at++)
        if (from->at == from->length || from->bytes[from->at] != (uint8_t)"BEB\1"[from->at])
            return BES_BAD_PART;
    if (!take_number(from, 1, count))
        return BES_BAD_PART;
    return *count < 1 || *count > 64 ? wrong_at(from, 4, BES_BAD_COUNT) : BES_OK;
}

uint32_t bes_operations_from_bytes(const uint8_t *bytes, size_t length, bes_counts *counts, bes_operation *operations,
                                   size_t operations_room, uint8_t *parts, size_t parts_room, uint64_t *place)
{
    source from = {bytes, length, 0};
    sink to = {parts, parts_room, 0};
    uint64_t count = 0;
    uint32_t error = take_beginning(&from, &count);
    for (uint64_t i = 0; error == BES_OK && i < count; i++) {
        bes_operation read = {0, 0, 0, 0, 0, 0, 0, 0};
        error = take_operation(&from, &read, &to);
        if (error == BES_OK && i < operations_room)
            operations[i] = read;
    }
    if (error == BES_OK && from.at < length)
        error = BES_BAD_PART;
    *place = error == BES_OK ? 0 : from.at;
    counts->operations = error == BES_OK ? count : 0;
    counts->bytes = error == BES_OK ? to.count : 0;
    return error;
}
