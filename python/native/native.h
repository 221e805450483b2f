/* Declarations shared by the parts of bestore._native. The module uses the calls in bestore.h, from the library that
 * bestore._library has loaded.
 *
 * Its state is shared by the whole process and guarded by the GIL. Code that releases the GIL touches no object until it holds
 * the GIL again. */
#ifndef BESTORE_NATIVE_H
#define BESTORE_NATIVE_H

#define PY_SSIZE_T_CLEAN
#define Py_LIMITED_API 0x030a0000
#include <Python.h>
#include <stdbool.h>
#include <stddef.h>
#include <stdint.h>
#include <stdlib.h>

#include "bestore.h"

enum {
    MOST_OPERATIONS = 64,
    MOST_OF_A_NAME = 63,
    BYTES_OF_A_BATCH = MOST_OPERATIONS * (MOST_OF_A_NAME + 255),
    BYTES_OF_A_VALUE = 255,
    /* A write of up to this many operations keeps the GIL, because it takes microseconds. Getting the GIL back from a thread
     * that is computing takes milliseconds. */
    SHORT_OPERATIONS = 8,
    SHORT_BYTES = 2048,
};

/* The loaded library's calls. */
typedef struct Library {
    uint32_t (*pin)(bes_pass *, uint64_t *);
    uint32_t (*unpin)(bes_pass *);
    uint32_t (*close)(bes_pass *);
    uint32_t (*release)(bes_prepared *);
    uint32_t (*build_close)(bes_builder *);
    uint32_t (*dismiss)(bes_witness *);
    uint32_t (*next)(bes_pass *, uint64_t *);
    uint32_t (*apply)(bes_pass *, const bes_operation *, size_t, const uint8_t *, size_t, uint64_t *, size_t, uint64_t *);
    uint32_t (*apply_if)(
        bes_pass *, uint64_t, const bes_operation *, size_t, const uint8_t *, size_t, uint64_t *, size_t, uint64_t *);
    uint32_t (*query)(bes_pass *, const uint8_t *, size_t, uint64_t *, size_t, uint64_t *);
    uint32_t (*query_items)(bes_pass *, const bes_item *, size_t, const uint8_t *, size_t, uint64_t *, size_t, uint64_t *);
    uint32_t (*query_prepared)(bes_pass *, bes_prepared *, uint64_t *, size_t, uint64_t *);
    uint32_t (*ordered)(
        bes_pass *, bes_prepared *, const bes_name *, uint32_t, bes_cursor *, uint64_t *, size_t, uint64_t *, uint32_t *);
    uint32_t (*first)(bes_pass *, bes_prepared *, uint64_t, uint64_t *, size_t, uint64_t *);
    uint32_t (*any)(bes_pass *, bes_prepared *, uint64_t *, size_t, uint64_t *);
    uint32_t (*found)(bes_prepared *, uint64_t, uint64_t *, size_t, uint64_t *);
    uint32_t (*refresh)(bes_pass *, bes_prepared *, bes_updates *);
    uint32_t (*refresh_changed)(bes_pass *, bes_prepared *, bes_updates *);
    uint32_t (*changes)(bes_prepared *, uint64_t *, size_t, uint64_t *, size_t);
    uint32_t (*nodes)(bes_pass *, uint64_t, uint64_t *, size_t, uint64_t *);
    uint32_t (*get)(bes_pass *, uint64_t, const uint8_t *, size_t, bes_attribute *, uint8_t *, size_t);
    uint32_t (*check_name)(const uint8_t *, size_t, bes_name *);
    uint32_t (*columns)(
        bes_pass *, const uint64_t *, size_t, const bes_name *, size_t, bes_cell *, size_t, uint8_t *, size_t, uint64_t *);
    uint32_t (*attributes)(bes_pass *, uint64_t, bes_counts *, bes_operation *, size_t, uint8_t *, size_t);
    uint32_t (*indices)(bes_pass *, bes_counts *, bes_operation *, size_t, uint8_t *, size_t);
    uint32_t (*is_held)(bes_pass *, uint64_t, const uint8_t *, size_t, uint32_t *);
    uint32_t (*build_index)(bes_builder *, const uint8_t *, size_t, uint32_t);
    uint32_t (*build_node)(bes_builder *, uint64_t);
    uint32_t (*build_attribute)(
        bes_builder *, const uint8_t *, size_t, uint32_t, uint64_t, const uint8_t *, size_t, uint32_t);
    uint32_t (*journal_from)(
        bes_pass *, uint64_t, uint64_t *, bes_counts *, bes_operation *, size_t, uint8_t *, size_t, uint64_t *);
    uint32_t (*begin_change)(bes_pass *, bes_draft *, uint64_t *, uint64_t *);
    uint32_t (*change_any_kind)(bes_draft *);
    uint32_t (*change_add)(bes_draft *, const bes_operation *, const uint8_t *, size_t, uint64_t *);
    uint32_t (*change_get)(bes_pass *, bes_draft *, uint64_t, const uint8_t *, size_t, bes_attribute *, uint8_t *, size_t);
    uint32_t (*change_batch)(bes_draft *, bes_counts *, bes_operation *, size_t, uint8_t *, size_t);
    uint32_t (*end_change)(bes_pass *, bes_draft *, uint64_t *);
    uint32_t (*abandon_change)(bes_pass *, bes_draft *);
} Library;

extern Library library;

/* surface.toml: kinds */
enum { KINDS = 7 };
/* surface.toml: end */

/* The package's objects that the module needs. The package passes each of them once, to `know`. */
typedef struct Known {
    PyObject *refusal;       /* makes the error for an error number */
    PyObject *forked;        /* the class of the error in a forked child */
    PyObject *encoded_query; /* raises the error for a query that isn't a str in valid UTF-8 */
    PyObject *encode_value;  /* encodes values of less common types */
    PyObject *typed;         /* the class of pairs of a value and its kind */
    PyObject *batch;         /* the class of batches */
    PyObject *page;          /* the class of pages, which is a list */
    PyObject *user;          /* the class of passes whose writes need nothing more */
    PyObject *wrong_kind;    /* makes the error for a value whose kind isn't its index's kind */
    PyObject *bad_bytes;     /* makes the error for a batch of a listing that can't be read */
    PyObject *kinds[KINDS];  /* in the order of kind_index */
} Known;

extern Known known;

typedef struct Waiter Waiter;
typedef struct Reader Reader;

/* The sorts of library handles. */
enum Sort { NO_SORT, OF_PASS, OF_PREPARED, OF_BUILDER, OF_WITNESS };

/* One of the library's handles and its guard. One thread uses the handle at a time, and that thread may enter again. */
typedef struct Handle {
    PyObject_HEAD
    union {
        bes_pass pass;
        bes_prepared prepared;
        bes_builder builder;
        bes_witness witness;
    } held;
    enum Sort sort;
    unsigned long forks; /* how many forks there had been when the handle was created */
    unsigned long owner; /* the thread that is using the handle, if depth isn't 0 */
    unsigned depth;
    Waiter *first;     /* the first waiting thread */
    bool is_given;     /* whether a thread was given the turn and hasn't run since */
    bool is_pinned;    /* for a pass: whether it is pinned */
    Reader *reader;    /* the version that pins it, or NULL if that is gone, so that the thread using the pass has to unpin */
    uint64_t snapshot; /* the snapshot's commit number, if pinned */
    uint64_t committed;     /* for a pass: the commit number of its last write, or 0 */
    unsigned long changing; /* the thread that is running a change's function, or 0 */
    uint64_t *nodes;   /* for a pass: the buffer that queries write into, or NULL */
    size_t room;
    bool is_long;   /* for a prepared query: whether the GIL is released while the query runs */
    unsigned asked; /* how many times the query has run with the GIL held */
} Handle;

extern PyTypeObject *handle_type;
extern PyTypeObject *batch_type;

/* Operations, and the bytes of their names and values. */
typedef struct Batch {
    PyObject_HEAD
    bes_operation *operations;
    size_t count, room;
    uint8_t *bytes;
    size_t length, bytes_room;
} Batch;

/* What bes_get found. */
typedef struct Found {
    uint32_t answer;
    bes_attribute attribute;
    uint8_t bytes[BYTES_OF_A_VALUE];
} Found;

/* A list of operations that a call writes. */
typedef struct Listed {
    bes_counts counts;
    bes_operation operations[MOST_OPERATIONS];
    uint8_t bytes[BYTES_OF_A_BATCH];
} Listed;

/* Guards: handle.c. `enter` waits until no other thread is using the handle. If the handle is dead or the wait is interrupted,
 * it raises an exception and returns false. */
bool enter(Handle *handle);
void leave(Handle *handle);
bool is_dead(const Handle *handle);
bool is_changing(const Handle *handle);
void unpin(Handle *handle);
PyObject *call_guarded(Handle *handle, PyObject *const *arguments, Py_ssize_t count);
Handle *handle_of(PyObject *object, enum Sort sort);

/* The beginnings of batches, and the numbers of a listing's records. */
#define OPERATIONS_BEGINNING "BEB\1"
#define LISTED_BEGINNING "BEV\1"
enum { BEGINNING = 4, LISTED_INDEX = 1, LISTED_NODE, LISTED_ATTRIBUTE, LISTED_HELD };

/* A batch that is being read. */
typedef struct Bytes {
    const uint8_t *all;
    size_t length, at;
    const char *fault; /* why it can't be read any further, or NULL */
    size_t fault_at;
} Bytes;

/* A name, and the kind and the value that belong to it. The bytes are those of the batch. */
typedef struct Field {
    const uint8_t *name, *value;
    size_t name_length, value_length;
    uint32_t code;
    uint64_t number;
} Field;

/* Reading: bytes.c. These functions read what comes next: a number of some bytes with the lowest first, the beginning of a batch, the number
 * of a record or an operation, and the parts of one. They return false, and say so in `fault`, if it isn't valid. */
bool take_number(Bytes *it, size_t count, uint64_t *number);
void take_beginning(Bytes *it, const char *beginning);
bool take_kind(Bytes *it, unsigned first, unsigned last, uint64_t *kind);
bool take_name(Bytes *it, Field *field);
bool take_code(Bytes *it, Field *field);
bool take_value(Bytes *it, Field *field);

bool is_kind(uint32_t code);
bool is_number(uint32_t code);

/* Values: values.c. If one of these functions fails, it raises an exception and returns NULL or false. */
PyObject *refused(uint32_t answer);
PyObject *refused_at(uint32_t answer, uint64_t carried, const char *listed);
PyObject *refused_kind(PyObject *name, uint32_t kind, uint32_t index_kind);
bool read_in_range(PyObject *object, uint64_t *number);
bool read_number(PyObject *object, uint64_t *number);
bool read_node_in_range(PyObject *object, uint64_t *node);
bool read_node(PyObject *object, uint64_t *node);
bool read_code(PyObject *object, uint32_t *code);
bool read_text(PyObject *object, const uint8_t **bytes, size_t *length);
PyObject *value_object(uint32_t code, uint64_t number, const uint8_t *bytes, size_t length);
PyObject *kind_object(uint32_t code);
PyObject *typed_object(uint32_t code, uint64_t number, const uint8_t *bytes, size_t length);
PyObject *list_of(const uint64_t *numbers, size_t count);

/* A function's parameters: their names, how many there are, and how many are required. */
typedef struct Signature {
    const char *function;
    const char *names[6];
    int count, least;
} Signature;

bool read_arguments(const Signature *signature, PyObject *const *given, Py_ssize_t count, PyObject *names, PyObject **read);
bool has_arguments(Py_ssize_t given, Py_ssize_t wanted);

/* A value in the library's form. Its bytes belong to `keeper`, which must be released unless it is NULL. */
typedef struct Encoded {
    uint32_t code;
    uint64_t number;
    const uint8_t *bytes;
    size_t length;
    PyObject *keeper;
} Encoded;

/* Batches: batch.c. */
bool encode(PyObject *value, PyObject *kind, Encoded *encoded);
bool add_operation(Batch *batch, bes_operation operation, const uint8_t *name, size_t name_length, const uint8_t *value,
                   size_t value_length);
PyObject *batch_of(const Listed *listed);

/* The types' methods: handle.c, batch.c, reader.c, queries.c, drafts.c, writes.c, builder.c, listing.c. */
extern PyType_Spec handle_spec, batch_spec, reader_spec;
PyObject *after_fork(PyObject *module, PyObject *nothing);
PyObject *handle_apply(PyObject *self, PyObject *const *given, Py_ssize_t count);
PyObject *handle_journal_entry(PyObject *self, PyObject *number);
PyObject *handle_expect(PyObject *self, PyObject *text);
PyObject *handle_set(PyObject *self, PyObject *const *given, Py_ssize_t count);
PyObject *handle_unpin(PyObject *self, PyObject *nothing);
PyObject *handle_build_index(PyObject *self, PyObject *const *given, Py_ssize_t count);
PyObject *handle_build_node(PyObject *self, PyObject *number);
PyObject *handle_build_attribute(PyObject *self, PyObject *const *given, Py_ssize_t count);
PyObject *handle_build_batch(PyObject *self, PyObject *batch);

#endif
