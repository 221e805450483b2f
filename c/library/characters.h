/* The characters that texts consist of, used only by the helpers in this folder. */
#ifndef BESTORE_LIBRARY_CHARACTERS_H
#define BESTORE_LIBRARY_CHARACTERS_H

#include <stddef.h>

/* Returns the length in bytes of the UTF-8 character at the start of a text, or 0 if no character begins there. A zero byte isn't a
 * character. */
static inline size_t character(const char *text, size_t length)
{
    unsigned char first = length > 0 ? (unsigned char)text[0] : 0, second = length > 1 ? (unsigned char)text[1] : 0;
    unsigned char least = first == 0xe0 ? 0xa0 : first == 0xf0 ? 0x90 : 0x80, most = first == 0xed ? 0x9f : first == 0xf4 ? 0x8f : 0xbf;
    size_t count = first >= 0xf0 ? 4 : first >= 0xe0 ? 3 : 2;
    if (first < 0x80)
        return first != 0;
    if (first < 0xc2 || first > 0xf4 || count > length || second < least || second > most)
        return 0;
    for (size_t i = 2; i < count; i++)
        if (((unsigned char)text[i] & 0xc0) != 0x80)
            return 0;
    return count;
}

/* Returns how many bytes of a text precede the first byte that begins no character: all of them, if there is no such byte. */
static inline size_t valid_length(const char *text, size_t length)
{
    size_t at = 0, count = 0;
    while (at < length && (count = character(text + at, length - at)) > 0)
        at += count;
    return at;
}

#endif
