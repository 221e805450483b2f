/* Reads the parts of batches from bytes: of batches of operations, and of a listing's batches. docs/KEPT.md describes both. */
#include "native.h"

static bool fail(Bytes *it, size_t at, const char *fault)
{
    it->fault = fault;
    it->fault_at = at;
    return false;
}

bool take_number(Bytes *it, size_t count, uint64_t *number)
{
    if (it->length - it->at < count)
        return fail(it, it->at, "a part is cut off");
    *number = 0;
    for (size_t place = 0; place < count; place++)
        *number |= (uint64_t)it->all[it->at + place] << 8 * place;
    it->at += count;
    return true;
}

void take_beginning(Bytes *it, const char *beginning)
{
    for (size_t at = 0; it->fault == NULL && at < BEGINNING; at++) {
        uint64_t byte;
        if (take_number(it, 1, &byte) && byte != (uint8_t)beginning[at])
            fail(it, at, at < BEGINNING - 1 ? "they have another beginning" : "the format has a version other than 1");
    }
}

bool take_kind(Bytes *it, unsigned first, unsigned last, uint64_t *kind)
{
    return take_number(it, 1, kind) && ((*kind >= first && *kind <= last) || fail(it, it->at - 1, "there is nothing with this number"));
}

/* Reads a length in one byte, and as many bytes. */
static bool take_counted(Bytes *it, const uint8_t **bytes, size_t *length)
{
    size_t begin = it->at;
    uint64_t count;
    if (!take_number(it, 1, &count))
        return false;
    if (it->length - it->at < count)
        return fail(it, begin, "a name or a value is cut off");
    *bytes = it->all + it->at;
    *length = (size_t)count;
    it->at += *length;
    return true;
}

/* Returns the length of the first character of a text in UTF-8, or 0 if its bytes aren't valid or are a zero. */
static size_t length_of_character(const uint8_t *text, size_t left)
{
    uint8_t first = text[0];
    size_t length = first < 0x80 ? 1 : first < 0xc2 ? 0 : first < 0xe0 ? 2 : first < 0xf0 ? 3 : first < 0xf5 ? 4 : 0;
    if (first == 0 || length > left)
        return 0;
    for (size_t at = 1; at < length; at++)
        if ((text[at] & 0xc0) != 0x80)
            return 0;
    if ((first == 0xe0 && text[1] < 0xa0) || (first == 0xed && text[1] > 0x9f) || (first == 0xf0 && text[1] < 0x90) ||
        (first == 0xf4 && text[1] > 0x8f))
        return 0; /* too long, half of a surrogate pair, or above the last character */
    return length;
}

/* Checks the text that was read last. */
static bool check_text(Bytes *it, const uint8_t *text, size_t length)
{
    size_t at = 0, character = 1;
    while (at < length && character != 0) {
        character = length_of_character(text + at, length - at);
        at += character;
    }
    return at == length || fail(it, it->at - length + at, "a name or a text isn't valid UTF-8, or has a zero byte");
}

bool take_name(Bytes *it, Field *field)
{
    size_t begin = it->at;
    if (!take_counted(it, &field->name, &field->name_length))
        return false;
    if (field->name_length == 0 || field->name_length > MOST_OF_A_NAME)
        return fail(it, begin, "a name has 1 to 63 bytes");
    return check_text(it, field->name, field->name_length);
}

bool take_code(Bytes *it, Field *field)
{
    uint64_t code;
    if (!take_number(it, 4, &code))
        return false;
    field->code = (uint32_t)code;
    return is_kind(field->code) || fail(it, it->at - 4, "no kind has this type code");
}

static bool take_integer(Bytes *it, Field *field)
{
    if (!take_number(it, 8, &field->number))
        return false;
    if ((field->code == BES_INT32_TYPE && (int64_t)field->number != (int32_t)field->number) ||
        (field->code == BES_UINT32_TYPE && field->number > UINT32_MAX))
        return fail(it, it->at - 8, "the number doesn't fit its kind");
    return true;
}

bool take_value(Bytes *it, Field *field)
{
    if (is_number(field->code))
        return take_integer(it, field);
    if (!take_counted(it, &field->value, &field->value_length))
        return false;
    return field->code == BES_RAW_TYPE || check_text(it, field->value, field->value_length);
}
