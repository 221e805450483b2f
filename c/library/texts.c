/* Prepares strings for use in a query or a value, and prints a caret below an error. */
#include "bestore.h"
#include "characters.h"

#include <string.h>

/* A library call that converts one text to another. */
typedef uint32_t made_text(const uint8_t *text, size_t length, uint8_t *bytes, size_t room, uint64_t *count);

/* Writes the text to which a call converts this one, truncated to `room` bytes including a zero byte at the end. */
static size_t put_text(made_text *call, const char *text, char *out, size_t room)
{
    uint64_t count = 0;
    uint8_t none = 0;
    size_t most = room > 0 ? room - 1 : 0;
    call((const uint8_t *)text, strlen(text), room > 0 ? (uint8_t *)out : &none, most, &count);
    if (room > 0)
        out[count < most ? count : most] = 0;
    return (size_t)count;
}

size_t bes_escape(const char *text, char *out, size_t room)
{
    return put_text(bes_escape_bytes, text, out, room);
}

size_t bes_any_case(const char *text, char *out, size_t room)
{
    return put_text(bes_any_case_bytes, text, out, room);
}

size_t bes_to_utf8(const char *text, size_t length, char *out, size_t room)
{
    size_t at = 0, count;
    for (size_t i = 0; i < length; i += count > 0 ? count : 1) {
        count = character(text + i, length - i);
        if (at + (count > 0 ? count : 1) >= room)
            break;
        if (count == 0)
            out[at++] = '?';
        for (size_t j = 0; j < count; j++)
            out[at++] = text[i + j];
    }
    if (room > 0)
        out[at] = 0;
    return at;
}

/* Returns how many columns the text before a byte offset takes, counting one column for each UTF-8 character. */
static size_t columns_of(const char *text, size_t bytes)
{
    size_t columns = 0;
    for (size_t i = 0; i < bytes; i++)
        columns += ((unsigned char)text[i] & 0xc0) != 0x80;
    return columns;
}

int bes_print_caret(FILE *file, const char *text, uint64_t byte)
{
    size_t length = strlen(text), at = byte < length ? (size_t)byte : length, begin = at, end = at;
    while (begin > 0 && text[begin - 1] != '\n')
        begin--;
    while (end < length && text[end] != '\n')
        end++;
    for (size_t i = begin; i < end; i++)
        fputc((unsigned char)text[i] < ' ' || text[i] == 0x7f ? ' ' : text[i], file);
    fprintf(file, "\n%*s^\n", (int)columns_of(text + begin, at - begin), "");
    return ferror(file);
}
