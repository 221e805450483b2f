/* Readers: snapshots of a pinned pass. */
#ifndef BESTORE_READER_H
#define BESTORE_READER_H

#include "native.h"

struct Reader {
    PyObject_HEAD
    Handle *user;    /* the pass */
    uint64_t number; /* the commit number of the last write that the reader includes */
    uint64_t most;   /* how many nodes a query can find: all numbers below the next node's number */
    bool takes_any_kind; /* whether the draft takes values of any kind */
    bes_draft draft;     /* the operations of the change on this snapshot, if there is one */
    Batch *batch;        /* the same operations, with the numbers of new nodes, or NULL */
};

/* Waits until no other thread is using the pass, and checks that it still has this pin and not a later one. If it doesn't,
 * raises an exception and returns NULL. */
Handle *enter_pinned(Reader *reader);

/* Unpins the reader's pass, and abandons its draft. The caller must have the pass, and the reader must be pinned. */
void unpin_reader(Reader *reader);

PyObject *reader_query(PyObject *self, PyObject *const *given, Py_ssize_t count, PyObject *names);
PyObject *reader_query_items(PyObject *self, PyObject *arguments);
PyObject *reader_query_prepared(PyObject *self, PyObject *const *given, Py_ssize_t count, PyObject *names);
PyObject *reader_page(PyObject *self, PyObject *const *given, Py_ssize_t count);
PyObject *reader_first(PyObject *self, PyObject *const *given, Py_ssize_t count);
PyObject *reader_any(PyObject *self, PyObject *const *given, Py_ssize_t count);
PyObject *reader_count(PyObject *self, PyObject *const *given, Py_ssize_t count, PyObject *names);
PyObject *reader_count_items(PyObject *self, PyObject *arguments);
PyObject *reader_refresh(PyObject *self, PyObject *const *given, Py_ssize_t count, PyObject *names);
PyObject *reader_refresh_changed(PyObject *self, PyObject *prepared);
PyObject *reader_nodes_from(PyObject *self, PyObject *arguments);
PyObject *reader_listed(PyObject *self, PyObject *const *given, Py_ssize_t count);

/* The operations that a change collects: drafts.c. */
void abandon_draft(Reader *reader);
PyObject *reader_take_any_kind(PyObject *self, PyObject *nothing);
PyObject *reader_new_node(PyObject *self, PyObject *nothing);
PyObject *reader_remove_node(PyObject *self, PyObject *node);
PyObject *reader_set_attribute(PyObject *self, PyObject *const *given, Py_ssize_t count);
PyObject *reader_unset(PyObject *self, PyObject *const *given, Py_ssize_t count);
PyObject *reader_make_index(PyObject *self, PyObject *const *given, Py_ssize_t count);
PyObject *reader_remove_index(PyObject *self, PyObject *name);
PyObject *reader_collected(PyObject *self, PyObject *nothing);
PyObject *reader_end_change(PyObject *self, PyObject *nothing);

PyObject *reader_column(PyObject *self, PyObject *const *given, Py_ssize_t count, PyObject *names);
PyObject *reader_columns(PyObject *self, PyObject *const *given, Py_ssize_t count, PyObject *names);

/* Returns these nodes with their values for a list of names: pairs of a node and a list. */
PyObject *rows_of(Reader *reader, const uint64_t *nodes, size_t count, PyObject *names);

#endif
