/* Texts and values as the driver passes them to a peer. */
#ifndef TEXT_H
#define TEXT_H
#include <stddef.h>
#include <stdint.h>

struct text {
    const char *bytes;
    size_t length;
};
#define TEXT(literal) ((struct text){(literal), sizeof(literal) - 1})

enum kind { IS_TEXT = 1, IS_NUMBER = 2 };

struct value {
    enum kind kind;
    int64_t number;
    struct text text;
};

static inline struct value number_value(int64_t number) { return (struct value){IS_NUMBER, number, {"", 0}}; }
static inline struct value text_value(struct text text) { return (struct value){IS_TEXT, 0, text}; }
#endif
