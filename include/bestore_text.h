/* Helpers for indices and text. They list the comparisons in a query and the indices that these need, escape strings, convert bytes to
 * UTF-8, print a caret under an error, and convert positions in an index. Include bestore.h, which includes this file.
 *
 * The text of a query is parsed by the library itself, through bes_query_comparisons. */
#include "bestore.h" /* bestore.h includes this file again, and the second inclusion is skipped */

#ifndef BESTORE_TEXT_H
#define BESTORE_TEXT_H

#include <stdio.h>

#ifdef __cplusplus
extern "C" {
#endif

/* A comparison in a query's text. The ranges of its name and value exclude quotes but include backslashes. */
typedef struct bes_comparison {
    size_t at;           /* the offset of the range's first byte */
    size_t length;       /* its length in bytes */
    size_t name_at;
    size_t name_length;
    uint32_t kind;       /* BES_ITEM_EQ .. BES_ITEM_GE */
    size_t value_at;
    size_t value_length;
} bes_comparison;

/* The maximum number of comparisons in a query, and the maximum total size of their plain names and values, in bytes. */
enum { BES_COMPARISONS = 256, BES_COMPARISONS_BYTES = 64 * 256 + 4 * 4096 };

/* The comparisons in a query, from left to right. The list takes 55 KB. */
typedef struct bes_comparison_list {
    bes_counts counts; /* operations: how many comparisons there are */
    bes_compared comparisons[BES_COMPARISONS];
    uint8_t bytes[BES_COMPARISONS_BYTES];
} bes_comparison_list;

/* Fills a list by calling bes_query_comparisons. After an error, the list is empty. */
static inline uint32_t bes_list_comparisons(const char *text, size_t length, bes_comparison_list *list, uint64_t *place)
{
    list->counts.operations = list->counts.bytes = 0;
    return bes_query_comparisons((const uint8_t *)text, length, &list->counts, list->comparisons, BES_COMPARISONS, list->bytes,
                                 sizeof list->bytes, place);
}

/* Finds the next comparison in a query. Each call parses the whole text; bes_list_comparisons lists all comparisons in one call.
 * [in,out] at    the offset to start from, which is 0 in the first call; on return, the offset just past the comparison
 * Returns whether there is another comparison. If the text isn't a query, or memory runs out, the result is false. */
bool bes_next_comparison(const char *text, size_t length, size_t *at, bes_comparison *found);

/* A snapshot's indices, in ascending order of their names. */
typedef struct bes_index_list {
    bes_counts counts;
    bes_operation operations[32];
    uint8_t bytes[32 * 63];
} bes_index_list;

/* Fills a list by calling bes_indices. After an error, the list is empty. */
static inline uint32_t bes_list_indices(bes_pass *pass, bes_index_list *list)
{
    list->counts.operations = list->counts.bytes = 0;
    return bes_indices(pass, &list->counts, list->operations, 32, list->bytes, sizeof list->bytes);
}

/* Returns the index with this name, or NULL. */
static inline const bes_operation *bes_index_named(const bes_index_list *list, const char *name, size_t name_length)
{
    for (uint64_t i = 0; i < list->counts.operations; i++) {
        const bes_operation *it = &list->operations[i];
        if (it->name_length == name_length && memcmp(list->bytes + it->name_at, name, name_length) == 0)
            return it;
    }
    return NULL;
}

/* Returns the index on the name in a listed comparison, or NULL. */
static inline const bes_operation *bes_index_of(const bes_index_list *list, const bes_comparison_list *comparisons,
                                                const bes_compared *comparison)
{
    return bes_index_named(list, (const char *)comparisons->bytes + comparison->plain_name_at,
                           (size_t)(comparison->plain_value_at - comparison->plain_name_at));
}

/* Finds the first comparison whose name has no index in the pinned snapshot, for a message after BES_NOT_COVERED. An index on that name
 * isn't necessarily what the query lacks: an || needs an index on each side, but an && needs an index on only one side.
 * [out] at       the byte offset of the comparison, or the text's length if each name has an index or an error is returned
 * Returns the errors of bes_indices and bes_query_comparisons, and costs the same as the two together. */
uint32_t bes_uncovered(bes_pass *pass, const char *text, size_t length, size_t *at);

/* Returns whether no node can match a listed comparison because of the kind of the index on its name. For size>1.5, this is so with an
 * index of any integer kind; for size<0, with an index of any unsigned kind. */
static inline bool bes_is_never_true(const bes_index_list *list, const bes_comparison_list *comparisons, const bes_compared *comparison)
{
    const bes_operation *index = bes_index_of(list, comparisons, comparison);
    switch (index == NULL ? 0 : index->code) {
    /* surface.toml: never true */
    case BES_INT32_TYPE:
        return comparison->is_never_int32;
    case BES_INT64_TYPE:
        return comparison->is_never_int64;
    case BES_UINT32_TYPE:
        return comparison->is_never_uint32;
    case BES_UINT64_TYPE:
        return comparison->is_never_uint64;
    /* surface.toml: end */
    default:
        return false;
    }
}

/* Finds the next comparison for which bes_is_never_true returns true. Use it like bes_next_comparison. */
bool bes_next_never_true(const bes_index_list *list, const char *text, size_t length, size_t *at, bes_comparison *found);

/* Counts an index's entries in the pinned snapshot: the nodes that have an attribute of this name that the index holds.
 * BES_NO_INDEX, and the errors of bes_query_items.
 * Cost: that of bes_query_items, which here is a walk over the whole index, and memory for the nodes in the index. */
uint32_t bes_pairs(bes_pass *pass, const char *name, uint64_t *count);

/* Sets again every attribute of this name whose value is of the index's kind. The index then also holds the attributes that were set before
 * it was created. The work is done through bes_change, up to 64 nodes at a time, so no newer value is lost.
 * [in] pass      a pass that isn't pinned
 * [in] attempts  how many attempts each bes_change may make
 * [out] count    how many attributes were set again, even if an error is returned
 * BES_NO_INDEX, and the errors of bes_pin, bes_indices and bes_change. */
uint32_t bes_reindex(bes_pass *pass, const char *name, uint32_t attempts, uint64_t *count);

/* Escapes a string so that a query reads it literally: as a name, as a value or as part of a pattern. Any string may be put in quotes, but
 * only an empty one needs them. For example, [draft].txt becomes \[draft].txt.
 * [out] out      the result and a zero byte, truncated to `room` bytes; twice the string's length plus 1 is enough
 * Returns how many bytes the whole result has, not counting the zero byte, or 0 if the string isn't valid UTF-8 or memory runs out. */
size_t bes_escape(const char *text, char *out, size_t room);

/* Like bes_escape, but each letter matches in either case, as in a BQuery: draft becomes [dD][rR][aA][fF][tT]. The result is a pattern for
 * use with == and !=.
 * [out] out      as for bes_escape; 12 times the string's length plus 1 is enough */
size_t bes_any_case(const char *text, char *out, size_t room);

/* Turns arbitrary bytes, such as a file name or a mail header, into text that the library accepts: each byte that isn't part of a UTF-8
 * character becomes a ?, and text that is too long is truncated after a whole character.
 * [out] out      the result and a zero byte, in at most `room` bytes: 256 for a value, 64 for a name
 * Returns how many bytes the result has, not counting the zero byte. */
size_t bes_to_utf8(const char *text, size_t length, char *out, size_t room);

/* Prints a query's text and, on the next line, a caret under the character at a byte offset. If the text has several lines, only the line
 * with that byte is printed. Control characters are printed as spaces. Returns the result of ferror. */
int bes_print_caret(FILE *file, const char *text, uint64_t byte);

/* Sets a cursor to the position of a value and a node in an index's order; bes_ordered then continues after that position. With node 0, the
 * position is before all nodes that have the value; in the reverse order, it is after them.
 * [in] value     the value, as bes_get writes it
 * [in] bytes     the bytes of a text value
 * BES_NOT_INDEXABLE, BES_DATA_LENGTH, BES_HAS_NUL, BES_NO_VALUE (the number doesn't fit its type). After an error, the cursor is
 * unchanged. */
uint32_t bes_cursor_at(const bes_attribute *value, const void *bytes, uint64_t node, bes_cursor *cursor);

/* Reads the value and the node from a cursor that bes_ordered has set on returning a page that isn't empty.
 * [out] value    the value, as bes_get writes it
 * [out] bytes    the bytes of a text value, if all of them fit
 * [out] node     the node
 * BES_BAD_CURSOR: the cursor is at the beginning, or isn't a position in any index. */
uint32_t bes_cursor_value(const bes_cursor *cursor, bes_attribute *value, uint8_t *bytes, size_t bytes_room, uint64_t *node);

#ifdef __cplusplus
}
#endif
#endif
