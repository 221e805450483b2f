/* Properties of type codes, used only by the helpers in this folder. */
#ifndef BESTORE_LIBRARY_KINDS_H
#define BESTORE_LIBRARY_KINDS_H

#include "bestore.h"

/* Returns whether this is the type code of a kind. */
static inline bool is_code(uint32_t code)
{
    switch (code) {
    /* surface.toml: kinds */
    case BES_STRING_TYPE:
    case BES_INT32_TYPE:
    case BES_INT64_TYPE:
    case BES_MIME_STRING_TYPE:
    case BES_RAW_TYPE:
    case BES_UINT32_TYPE:
    case BES_UINT64_TYPE:
    /* surface.toml: end */
        return true;
    default:
        return false;
    }
}

/* Returns whether the values of this type code are signed integers. */
static inline bool is_signed(uint32_t code)
{
    switch (code) {
    /* surface.toml: kinds with a sign */
    case BES_INT32_TYPE:
    case BES_INT64_TYPE:
    /* surface.toml: end */
        return true;
    default:
        return false;
    }
}

/* Returns how many bits the integers of this type code have, or 0 if its values aren't integers. */
static inline unsigned bits_of(uint32_t code)
{
    switch (code) {
    /* surface.toml: bits */
    case BES_INT32_TYPE:
        return 32;
    case BES_INT64_TYPE:
        return 64;
    case BES_UINT32_TYPE:
        return 32;
    case BES_UINT64_TYPE:
        return 64;
    /* surface.toml: end */
    default:
        return 0;
    }
}

/* Returns the amount to add to an integer of this type code so that the smallest one becomes 0. */
static inline uint64_t key_shift(uint32_t code)
{
    return is_signed(code) ? (uint64_t)1 << (bits_of(code) - 1) : 0;
}

/* Returns whether an integer of this type code can have this value. */
static inline bool fits(uint32_t code, uint64_t number)
{
    return bits_of(code) == 64 || (number + key_shift(code)) >> bits_of(code) == 0;
}

#endif
