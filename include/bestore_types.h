/* The handles, numbers and structs that the calls of bestore.h take and return; bestore_client.h uses some of them. Include bestore.h or
 * bestore_client.h, which include this file. */
#ifndef BESTORE_TYPES_H
#define BESTORE_TYPES_H

#include <stdbool.h>
#include <stddef.h>
#include <stdint.h>

/* Both fields are private to the library. */
typedef struct bes_pass {
    bool live;
    void *at;
} bes_pass;

#define BES_PASS_INIT { false, NULL }

/* Both fields are private to the library. */
typedef struct bes_prepared {
    bool live;
    void *at;
} bes_prepared;

#define BES_PREPARED_INIT { false, NULL }

/* Both fields are private to the library. */
typedef struct bes_place {
    bool live;
    void *at;
} bes_place;

#define BES_PLACE_INIT { false, NULL }

/* Both fields are private to the library. */
typedef struct bes_witness {
    bool live;
    void *at;
} bes_witness;

#define BES_WITNESS_INIT { false, NULL }

/* Both fields are private to the library. */
typedef struct bes_draft {
    bool live;
    void *at;
} bes_draft;

#define BES_DRAFT_INIT { false, NULL }

/* Both fields are private to the library. */
typedef struct bes_builder {
    bool live;
    void *at;
} bes_builder;

#define BES_BUILDER_INIT { false, NULL }

/* What calls return. */
enum {
    /* surface.toml: errors */
    BES_OK = 0,
    BES_BUSY = 1,             /* another pass is writing; call again once it has finished */
    BES_NO_NODE = 2,          /* there is no such node */
    BES_NO_ATTRIBUTE = 3,     /* the node has no attribute of this name */
    BES_TOO_MANY_ATTRS = 4,   /* the node has 64 attributes, the most it can have; remove one
                               * first */
    BES_INDEX_EXISTS = 5,     /* there is already an index of this name */
    BES_NO_INDEX = 6,         /* there is no index of this name */
    BES_TOO_MANY_INDICES = 7, /* the store has 32 indices, the most it can have; remove one first */
    BES_NOT_INDEXABLE = 8,    /* an index can't have this kind; indices hold text or integers,
                               * but not MIME types or raw bytes */
    BES_COMMITS_SPENT = 9,    /* the journal has reached the limit that the store was opened
                               * with; copy the state into a new store */
    BES_NO_MEMORY = 10,       /* out of memory; free some and call again */
    BES_FULL = 11,            /* no page is free; unpin old snapshots, remove nodes, or open a
                               * store with more pages */
    BES_SYNTAX = 12,          /* this query isn't valid here; it needs comparisons such as
                               * size>=5, joined by && or || */
    BES_BAD_PATTERN = 13,     /* this pattern isn't valid here; a set such as [a-d] must be
                               * closed by ], must not be empty, and its ranges must ascend */
    BES_TOO_LONG = 14,        /* the query has more than 4,096 bytes */
    BES_TOO_DEEP = 15,        /* the query nests parentheses and ! more than 64 levels deep */
    BES_TOO_MANY = 16,        /* the query has more than 256 comparisons */
    BES_NOT_COVERED = 17,     /* no index can answer the query; compare a name that has an index,
                               * on both sides of each || */
    BES_NAME_LENGTH = 18,     /* a name is empty or has more than 63 bytes */
    BES_DATA_LENGTH = 19,     /* a value has more than 255 bytes */
    BES_HAS_NUL = 20,         /* a name or a text has a zero byte; only a raw value may have one */
    BES_BAD_LIMITS = 21,      /* a limit of the store is out of range; a store has 8 to
                               * 16,777,216 pages, 1 to 64 passes and 1 to 4,294,967,295 commits */
    BES_BAD_RPN = 22,         /* the items don't form a query; each operator takes the items
                               * before it, and exactly one query must remain at the end */
    BES_CLOSED = 64,          /* the handle is closed; use an open one */
    BES_OPEN = 65,            /* the handle is already open; close it first, or use another one */
    BES_NOT_PINNED = 66,      /* no snapshot is pinned; pin one before you read */
    BES_PINNED = 67,          /* a snapshot is already pinned; unpin it first */
    BES_NO_PASS = 68,         /* every pass of the store is in use; close one, or open the store
                               * with more */
    BES_BAD_COUNT = 69,       /* a batch has 1 to 64 operations, and a call reads up to
                               * 4,294,967,296 values */
    BES_NOT_UTF8 = 70,        /* the text isn't valid UTF-8 */
    BES_NO_OPERATION = 71,    /* there is no operation with this number; operations are numbered
                               * 0 to 5 */
    BES_NO_KIND = 72,         /* no kind has this type code */
    BES_NO_VALUE = 73,        /* the number doesn't fit its kind; use a kind that holds it */
    BES_BAD_PART = 74,        /* a name or value lies outside the bytes that were passed with the
                               * list */
    BES_NO_ITEM = 75,         /* there is no item with this number; items are numbered 0 to 15 */
    BES_CONFLICT = 76,        /* the journal's length isn't what the write expects; read again,
                               * and base the write on that */
    BES_IN_USE = 77,          /* another handle of the store is open; close it first */
    BES_BAD_CURSOR = 78,      /* the cursor doesn't belong to this index; start without a cursor,
                               * or use one from a page in this index's order */
    BES_NO_ROOM = 79,         /* a page has at least one node; ask for one or more */
    BES_WRONG_KIND = 80,      /* the index of this name takes values of another kind; set a value
                               * of the index's kind */
    BES_NESTED = 81           /* a change's function wrote through the change's own pass, or
                               * unpinned it; add the operation to the change, or use another
                               * pass */
    /* surface.toml: end */
};

/* The kinds of values, identified by BeOS type codes. */
enum {
    /* surface.toml: kinds */
    BES_STRING_TYPE = 0x43535452,      /* 'CSTR': up to 255 bytes of UTF-8 */
    BES_INT32_TYPE = 0x4c4f4e47,       /* 'LONG' */
    BES_INT64_TYPE = 0x4c4c4e47,       /* 'LLNG' */
    BES_MIME_STRING_TYPE = 0x4d494d53, /* 'MIMS': a string that can't be indexed */
    BES_RAW_TYPE = 0x52415754,         /* 'RAWT': up to 255 bytes, which can't be indexed */
    BES_UINT32_TYPE = 0x554c4e47,      /* 'ULNG' */
    BES_UINT64_TYPE = 0x554c4c47       /* 'ULLG' */
    /* surface.toml: end */
};

/* What a program can do about an error, as returned by bes_class. */
enum {
    /* surface.toml: classes */
    BES_CLASS_NONE = 0,  /* of BES_OK */
    BES_CLASS_RETRY = 1, /* another pass, client or write interfered: call again, and after a
                          * conflict read again first */
    BES_CLASS_MINE = 2,  /* the call isn't valid here: it will keep failing until the program or
                          * its input changes */
    BES_CLASS_FULL = 3,  /* there is no space left: free some, or open a larger store */
    BES_CLASS_GONE = 4   /* the handle, snapshot, connection or file that the call used is lost:
                          * open it again */
    /* surface.toml: end */
};

/* What an operation does. An index holds an attribute only if the attribute was set after the index was created and is of the index's
 * kind. */
enum {
    /* surface.toml: operations */
    BES_NEW_NODE = 0,     /* makes a node with the next number; the first is 1, and no number is
                           * reused */
    BES_REMOVE_NODE = 1,  /* removes the node and all its attributes */
    BES_SET = 2,          /* sets the node's attribute with this name */
    BES_UNSET = 3,        /* removes the node's attribute with this name */
    BES_MAKE_INDEX = 4,   /* makes an index with this name, for values of this type code's kind */
    BES_REMOVE_INDEX = 5  /* removes the index with this name */
    /* surface.toml: end */
};

/* An operation. All operations in a batch share one byte array, which contains each operation's name and the bytes of its value. A field
 * that an operation doesn't use may have any value, but the name and the value must lie within the array even if they are unused: leave
 * their fields 0. */
typedef struct bes_operation {
    uint32_t kind;         /* BES_NEW_NODE .. BES_REMOVE_INDEX */
    uint32_t code;         /* the type code of the value or the index */
    uint64_t node;
    uint64_t number;       /* the value, if it is a number; (uint64_t)(int64_t)n if it is signed */
    uint32_t name_at;      /* the offset in the array at which the name begins */
    uint32_t name_length;
    uint32_t value_at;     /* the offset at which the bytes of a text or raw value begin */
    uint32_t value_length;
} bes_operation;

/* What an item of a predicate does. A predicate is a list of items in reverse Polish order. */
enum {
    /* surface.toml: items */
    BES_ITEM_ATTRIBUTE = 0, /* an attribute, by the bytes of its name */
    BES_ITEM_TEXT = 1,      /* a string */
    BES_ITEM_INT64 = 2,     /* a number; (uint64_t)n */
    BES_ITEM_UINT64 = 3,
    BES_ITEM_EQ = 4,        /* 4 to 12 take an attribute and the value after it, and make a
                             * comparison */
    BES_ITEM_NE = 5,
    BES_ITEM_LT = 6,
    BES_ITEM_LE = 7,
    BES_ITEM_GT = 8,
    BES_ITEM_GE = 9,
    BES_ITEM_CONTAINS = 10,
    BES_ITEM_BEGINS_WITH = 11,
    BES_ITEM_ENDS_WITH = 12,
    BES_ITEM_AND = 13,      /* 13 and 14 take two queries, and 15 takes one */
    BES_ITEM_OR = 14,
    BES_ITEM_NOT = 15
    /* surface.toml: end */
};

/* An item of a predicate. Its bytes lie within an array that all items share. Unused fields follow the same rule as in an operation. */
typedef struct bes_item {
    uint32_t kind;
    uint32_t at;
    uint32_t length;
    uint64_t number;
} bes_item;

/* A value, as written by bes_get. */
typedef struct bes_attribute {
    uint32_t code;    /* the type code */
    uint64_t length;  /* for a text or raw value: the length of the value in bytes */
    uint64_t number;  /* for a number: the value; (int64_t)number if it is signed */
} bes_attribute;

/* A name that has been checked once, for repeated use. bes_check_name fills it in. You may copy a bes_name, and any thread may use it with
 * any store. A struct with any other contents is harmless: its bytes name no attribute, so a read finds no value. */
typedef struct bes_name {
    uint64_t length;   /* the length of the name in bytes */
    uint8_t bytes[64];
} bes_name;

/* A node's attribute, as written by bes_columns. If the node has no such attribute, every field except error and offset is 0. */
typedef struct bes_cell {
    uint32_t error;   /* BES_OK, BES_NO_ATTRIBUTE, or BES_NO_NODE */
    uint32_t code;    /* the type code */
    uint64_t number;  /* for a number: the value; (int64_t)number if it is signed */
    uint64_t offset;  /* for a text or raw value: the offset of the value in the bytes */
    uint64_t length;  /* and its length in bytes */
} bes_cell;

/* How full a store is, and which pass holds its oldest version. */
typedef struct bes_usage {
    uint64_t pages;    /* the total number of pages */
    uint64_t free;     /* pages available to writes */
    uint64_t retired;  /* pages of older versions, kept until no pass can read them any more */
    uint64_t entries;  /* how many transactions the journal has */
    uint64_t commits;  /* how many transactions the journal can have */
    bool is_held;      /* whether a pass has published a version: that pass is, or soon will be, pinned to that version or a later one */
    uint64_t oldest;   /* the oldest published version, or 0 */
    uint64_t holder;   /* the lowest-numbered pass that has published this version, or 0 */
} bes_usage;

/* How many nodes a refresh added to the result and how many it removed. */
typedef struct bes_updates {
    uint64_t created;
    uint64_t removed;
} bes_updates;

/* A position in an index's order, as set by bes_ordered: the position of a page's last node. A cursor of all zeros is the beginning. A
 * cursor contains no pointers, so you may copy and store it. */
typedef struct bes_cursor {
    uint32_t kind;     /* the type code of the index's kind; 0 at the beginning */
    uint32_t length;   /* the length of the key in bytes; 0 at the beginning */
    uint8_t key[264];  /* the value's bytes in the form that the index orders, then the node in 8 bytes, highest byte first
                        * (bestore's ARCHITECTURE.md, Keys of an index) */
} bes_cursor;

/* The length of a list. */
typedef struct bes_counts {
    uint64_t operations;
    uint64_t bytes;
} bes_counts;

/* A comparison in a query's text. Offsets count bytes, either in the text or in the bytes that bes_query_comparisons writes. */
typedef struct bes_compared {
    uint64_t at;             /* the comparison in the text: where its name begins */
    uint64_t end;            /* the byte after its value */
    uint64_t name_at;        /* the name in the text, without its quotes but with its backslashes */
    uint64_t name_end;
    uint64_t value_at;       /* the value in the text, likewise */
    uint64_t value_end;
    uint64_t plain_name_at;  /* the name in the bytes, without backslashes; it ends where the plain value begins */
    uint64_t plain_value_at; /* the value in the bytes, without backslashes; for a pattern, its canonical text */
    uint64_t plain_end;
    uint32_t kind;           /* BES_ITEM_EQ .. BES_ITEM_GE, after applying every ! around the comparison */
    uint32_t kind_in_text;   /* the operator as written in the text; inside an odd number of ! it differs from kind */
    uint32_t form;           /* a bes_form */
    bool is_never_int32;     /* whether the comparison is false for every value in an index of this kind */
    bool is_never_int64;
    bool is_never_uint32;
    bool is_never_uint64;
} bes_compared;

/* The form of a comparison's value. */
enum bes_form {
    /* surface.toml: forms */
    BES_FORM_TEXT = 0,
    BES_FORM_NUMBER = 1,  /* text that is a whole number from -2^63 to 2^64 - 1 */
    BES_FORM_PATTERN = 2  /* a pattern with a wildcard */
    /* surface.toml: end */
};

#endif
