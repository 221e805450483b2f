/* The texts of the queries. */
#ifndef ASKED_H
#define ASKED_H
#include "data.h"

enum shape {
    ONE_NAME,      /* a name: one node */
    SIZE_RANGE,    /* sizes from one bound up to another */
    SIZE_FROM,     /* the largest sizes, of `width` nodes give or take a twentieth */
    NAME_FRONT,    /* the names of a hundred nodes, by a prefix */
    FRONT_SIZE,    /* such names, and sizes from a random one on */
    SHARED,        /* a name that shares a prefix of `width` bytes with all others */
    CONTAINS,      /* the names of files that contain a word */
    ENDS,          /* the names of files with a suffix */
    UNEQUAL,       /* all file names except one */
    ANY_THREE,     /* three file names, joined by `||` */
    CONTAINS_FROM, /* the names of files that contain a word, and sizes from one in the smaller half on */
    ALL_SIZES,     /* all sizes */
    NAME_TENTH,    /* the names of a tenth of all nodes, by a prefix */
    ONE_END,       /* the names of a tenth of all nodes, by a suffix */
    ONE_PART,      /* the names of a tenth of all nodes, by what they contain */
    ALL_TENTH,     /* all sizes, and a tenth of all nodes by a second number */
    ALL_KIND,      /* all sizes, and an eighth of all nodes by an attribute without an index */
};

struct asked {
    char bytes[160];
    size_t length;
};

/* Makes a random text of this shape. If the shape allows it, `width` is its number of nodes or bytes. */
struct asked text_of(enum shape shape, uint64_t nodes, uint64_t width, uint64_t *state);

static inline struct text asked_text(const struct asked *asked) { return (struct text){asked->bytes, asked->length}; }
#endif
