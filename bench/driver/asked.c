#include "asked.h"

#include <stdarg.h>
#include <stdio.h>
#include <stdlib.h>

#include "files.h"

typedef unsigned long long number;

__attribute__((format(printf, 1, 2))) static struct asked told(const char *form, ...) {
    struct asked it;
    va_list words;
    va_start(words, form);
    it.length = vsnprintf(it.bytes, sizeof it.bytes, form, words);
    va_end(words);
    if (it.length >= sizeof it.bytes) exit(1);
    return it;
}

static struct asked size_range(number from, number width) { return told("size>=%llu && size<%llu", 10 * from, 10 * (from + width)); }

static struct asked front_size(uint64_t nodes, uint64_t *state) {
    number hundred = below(state, nodes / 100), from = below(state, nodes);
    return told("name==\"%03llu*\" && size>=%llu", hundred, 10 * from);
}

static struct asked unequal(uint64_t number) {
    char name[NAME_MOST];
    file_name(name, number);
    return told("name!=\"%s\"", name);
}

static struct asked any_three(uint64_t nodes, uint64_t *state) {
    char names[3][NAME_MOST];
    for (int i = 0; i < 3; i++) file_name(names[i], below(state, nodes));
    return told("name==\"%s\" || name==\"%s\" || name==\"%s\"", names[0], names[1], names[2]);
}

static struct asked contains_from(uint64_t nodes, uint64_t *state) {
    const char *word = word_of(below(state, 10));
    return told("name==\"*%s*\" && size>=%llu", word, 10 * (number)below(state, nodes / 2));
}

static struct asked all_tenth(uint64_t *state) {
    number from = below(state, 1000), tenth = below(state, 10);
    return told("size>=-%llu && tenth==%llu", from, tenth);
}

static struct asked all_kind(uint64_t *state) {
    number from = below(state, 1000);
    struct text kind = kind_text(below(state, 8));
    return told("size>=-%llu && kind==\"%.*s\"", from, (int)kind.length, kind.bytes);
}

struct asked text_of(enum shape shape, uint64_t nodes, uint64_t width, uint64_t *state) {
    switch (shape) {
    case ONE_NAME: return told("name==\"%05llu-document.txt\"", (number)below(state, nodes));
    case SIZE_RANGE: return size_range(below(state, nodes - width), width);
    case SIZE_FROM: return told("size>=%llu", 10 * (number)(nodes - width - width / 20 + below(state, width / 10)));
    case NAME_FRONT: return told("name==\"%03llu*\"", (number)below(state, nodes / 100));
    case FRONT_SIZE: return front_size(nodes, state);
    case SHARED: return told("name%llu==\"%s%05llu\"", (number)width, front_text(width), (number)below(state, nodes));
    case CONTAINS: return told("name==\"*%s*\"", word_of(below(state, 10)));
    case ENDS: return told("name==\"*.%s\"", end_of(below(state, 6)));
    case UNEQUAL: return unequal(below(state, nodes));
    case ANY_THREE: return any_three(nodes, state);
    case CONTAINS_FROM: return contains_from(nodes, state);
    case NAME_TENTH: return told("name==\"0%llu*\"", (number)below(state, 10));
    case ONE_END: return told("name==\"*%llu-document.txt\"", (number)below(state, 10));
    case ONE_PART: return told("name==\"*%llu-doc*\"", (number)below(state, 10));
    case ALL_TENTH: return all_tenth(state);
    case ALL_KIND: return all_kind(state);
    case ALL_SIZES: return told("size>=-%llu", (number)below(state, 1000));
    }
    exit(1);
}
