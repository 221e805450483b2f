/* Handles: which thread's turn it is, what happens to handles in a forked child, and unpinning for destroyed versions. */
#include "native.h"

#include <pythread.h>

static unsigned long forks; /* how many forks lie between the first process and this one */
PyTypeObject *handle_type;

bool is_dead(const Handle *handle) { return handle->forks != forks; }

PyObject *after_fork(PyObject *module, PyObject *nothing)
{
    (void)module, (void)nothing;
    forks++;
    Py_RETURN_NONE;
}

/* A thread that is waiting for its turn. */
struct Waiter {
    PyThread_type_lock lock; /* held until the thread gets its turn */
    bool has_turn;
    struct Waiter *next;
};

/* Returns whether this thread may use the handle now. Waiting threads go first, so a thread that calls repeatedly can't starve
 * them. */
static bool may_enter(const Handle *handle, unsigned long self)
{
    if (handle->depth != 0)
        return handle->owner == self;
    return handle->first == NULL && !handle->is_given;
}

static void line_up(Handle *handle, Waiter *waiter)
{
    Waiter **last = &handle->first;
    while (*last != NULL)
        last = &(*last)->next;
    waiter->next = NULL;
    *last = waiter;
}

static void step_out(Handle *handle, const Waiter *waiter)
{
    Waiter **at = &handle->first;
    while (*at != waiter)
        at = &(*at)->next;
    *at = waiter->next;
}

/* Gives the turn to the first waiting thread. */
static void give_turn(Handle *handle)
{
    Waiter *waiter = handle->first;
    if (waiter == NULL)
        return;
    handle->first = waiter->next;
    handle->is_given = waiter->has_turn = true;
    PyThread_release_lock(waiter->lock);
}

/* Waits in the queue for a turn or a signal. */
static void wait_in_line(Handle *handle, Waiter *waiter)
{
    line_up(handle, waiter);
    Py_BEGIN_ALLOW_THREADS
    PyThread_acquire_lock_timed(waiter->lock, -1, 1);
    Py_END_ALLOW_THREADS
    if (waiter->has_turn)
        handle->is_given = false;
    else
        step_out(handle, waiter); /* the signal's handler may make calls on the same handle */
}

static bool wait_for_turn(Handle *handle, unsigned long self)
{
    Waiter waiter = { .lock = PyThread_allocate_lock() };
    bool goes_on = true;
    if (waiter.lock == NULL) {
        PyErr_NoMemory();
        return false;
    }
    PyThread_acquire_lock(waiter.lock, WAIT_LOCK);
    while (goes_on && !waiter.has_turn && !may_enter(handle, self)) {
        wait_in_line(handle, &waiter);
        goes_on = waiter.has_turn || PyErr_CheckSignals() == 0;
    }
    PyThread_free_lock(waiter.lock);
    return goes_on;
}

bool enter(Handle *handle)
{
    unsigned long self = PyThread_get_thread_ident();
    if (is_dead(handle)) {
        PyErr_SetNone(known.forked);
        return false;
    }
    if (!may_enter(handle, self) && !wait_for_turn(handle, self))
        return false;
    handle->owner = self;
    handle->depth++;
    return true;
}

void unpin(Handle *handle)
{
    handle->is_pinned = false;
    library.unpin(&handle->held.pass);
}

void leave(Handle *handle)
{
    if (--handle->depth != 0 || is_dead(handle))
        return;
    if (handle->is_pinned && handle->reader == NULL)
        unpin(handle);
    give_turn(handle);
}

/* Returns the object as a handle if it is of this sort. */
Handle *handle_of(PyObject *object, enum Sort sort)
{
    static const char *const names[] = { "handle", "pass", "prepared query", "builder", "witness" };
    if (PyObject_TypeCheck(object, handle_type) && ((Handle *)object)->sort == sort)
        return (Handle *)object;
    PyErr_Format(PyExc_TypeError, "%R isn't a %s", object, names[sort]);
    return NULL;
}

/* Calls arguments[0] with the handle, in the form that ctypes expects, and the other arguments. The caller must have the handle. */
PyObject *call_guarded(Handle *handle, PyObject *const *arguments, Py_ssize_t count)
{
    PyObject *pointer, *taken, *result = NULL;
    if (count < 1) {
        PyErr_SetString(PyExc_TypeError, "_call takes a call of the library");
        return NULL;
    }
    pointer = PyObject_GetAttrString((PyObject *)handle, "_pointer");
    if (pointer == NULL)
        return NULL;
    taken = PyTuple_New(count);
    if (taken == NULL) {
        Py_DECREF(pointer);
        return NULL;
    }
    PyTuple_SetItem(taken, 0, pointer);
    for (Py_ssize_t at = 1; at < count; at++)
        PyTuple_SetItem(taken, at, Py_NewRef(arguments[at]));
    result = PyObject_CallObject(arguments[0], taken);
    Py_DECREF(taken);
    return result;
}

static PyObject *handle_call(PyObject *self, PyObject *const *arguments, Py_ssize_t count)
{
    Handle *handle = (Handle *)self;
    PyObject *result;
    if (!enter(handle))
        return NULL;
    result = call_guarded(handle, arguments, count);
    leave(handle);
    return result;
}

static PyObject *handle_check_process(PyObject *self, PyObject *nothing)
{
    (void)nothing;
    if (is_dead((Handle *)self)) {
        PyErr_SetNone(known.forked);
        return NULL;
    }
    Py_RETURN_NONE;
}

static PyObject *handle_new(PyTypeObject *type, PyObject *arguments, PyObject *names)
{
    allocfunc allocate = (allocfunc)PyType_GetSlot(type, Py_tp_alloc);
    Handle *handle = (Handle *)allocate(type, 0);
    (void)arguments, (void)names;
    if (handle != NULL) {
        handle->forks = forks;
        handle->is_long = true;
    }
    return (PyObject *)handle;
}

static int handle_init(PyObject *self, PyObject *arguments, PyObject *names)
{
    static char *parameters[] = { "sort", NULL };
    Handle *handle = (Handle *)self;
    int sort;
    if (!PyArg_ParseTupleAndKeywords(arguments, names, "i:Handle", parameters, &sort))
        return -1;
    if (sort < OF_PASS || sort > OF_WITNESS || (handle->sort != NO_SORT && (int)handle->sort != sort)) {
        PyErr_SetString(PyExc_ValueError, "a handle is a pass, a prepared query, a builder or a witness, and stays that");
        return -1;
    }
    handle->sort = (enum Sort)sort;
    return 0;
}

/* Closes the handle, unless its owner has already closed it. */
static void end_handle(Handle *handle)
{
    if (is_dead(handle))
        return;
    if (handle->sort == OF_PASS)
        library.close(&handle->held.pass);
    else if (handle->sort == OF_PREPARED)
        library.release(&handle->held.prepared);
    else if (handle->sort == OF_BUILDER)
        library.build_close(&handle->held.builder);
    else if (handle->sort == OF_WITNESS)
        library.dismiss(&handle->held.witness);
}

static void handle_dealloc(PyObject *self)
{
    Handle *handle = (Handle *)self;
    PyTypeObject *type = Py_TYPE(self);
    end_handle(handle);
    free(handle->nodes);
    ((freefunc)PyType_GetSlot(type, Py_tp_free))(self);
    Py_DECREF(type);
}

static PyObject *get_address(PyObject *self, void *nothing)
{
    (void)nothing;
    return PyLong_FromVoidPtr(&((Handle *)self)->held);
}

static PyObject *get_is_dead(PyObject *self, void *nothing)
{
    (void)nothing;
    return PyBool_FromLong(is_dead((Handle *)self));
}

static PyObject *get_pinned(PyObject *self, void *nothing)
{
    Handle *handle = (Handle *)self;
    (void)nothing;
    if (handle->is_pinned)
        return PyLong_FromUnsignedLongLong(handle->snapshot);
    Py_RETURN_NONE;
}

bool is_changing(const Handle *handle) { return handle->changing != 0 && handle->changing == PyThread_get_thread_ident(); }

static PyObject *get_is_changing(PyObject *self, void *nothing)
{
    (void)nothing;
    return PyBool_FromLong(is_changing((Handle *)self));
}

static int set_is_changing(PyObject *self, PyObject *value, void *nothing)
{
    int is_changing = value == NULL ? 0 : PyObject_IsTrue(value);
    (void)nothing;
    if (is_changing >= 0)
        ((Handle *)self)->changing = is_changing ? PyThread_get_thread_ident() : 0;
    return is_changing < 0 ? -1 : 0;
}

static PyObject *get_committed(PyObject *self, void *nothing)
{
    (void)nothing;
    return PyLong_FromUnsignedLongLong(((Handle *)self)->committed);
}

static int set_committed(PyObject *self, PyObject *value, void *nothing)
{
    (void)nothing;
    return value != NULL && read_number(value, &((Handle *)self)->committed) ? 0 : -1;
}

static PyMethodDef methods[] = {
    { "_call", (PyCFunction)(void (*)(void))handle_call, METH_FASTCALL,
      "Makes a call on the handle, when no other thread is using it. Raises Forked if the handle is dead." },
    { "_unpin", handle_unpin, METH_NOARGS, "Unpins the pass if it is pinned, whichever version pins it." },
    { "_check_process", handle_check_process, METH_NOARGS, "Raises Forked if the handle is dead." },
    { "_apply", (PyCFunction)(void (*)(void))handle_apply, METH_FASTCALL,
      "Writes a batch; if a number is expected, only on a journal of that length. Returns the library's result, the commit\n"
      "number or what goes with the error, and the nodes that were made." },
    { "_set", (PyCFunction)(void (*)(void))handle_set, METH_FASTCALL,
      "Tries once to set an attribute: a node, a name, a value, and a kind or None. False if nothing is written, because the\n"
      "library refuses it, or the pass has more to do at a write." },
    { "_expect", handle_expect, METH_O, "Remembers whether a prepared query may take long, judging by its text, until it is asked." },
    { "_journal_entry", handle_journal_entry, METH_O,
      "Reads an entry of the journal: the library's result, what goes with the error or the journal's length, the pass\n"
      "that wrote it, and its batch, or None if there is none." },
    { "_build_index", (PyCFunction)(void (*)(void))handle_build_index, METH_FASTCALL,
      "Gives a builder an index, with a name and a kind." },
    { "_build_node", handle_build_node, METH_O, "Gives a builder a node." },
    { "_build_attribute", (PyCFunction)(void (*)(void))handle_build_attribute, METH_FASTCALL,
      "Gives a builder an attribute of its last node: a name, a value, a kind or None, and whether its index has it, or None if\n"
      "an index of its kind does." },
    { "_build_batch", handle_build_batch, METH_O, "Gives a builder the records of a batch of a listing." },
    { NULL, NULL, 0, NULL },
};

static PyGetSetDef fields[] = {
    { "_address", get_address, NULL, "Where the library's handle is.", NULL },
    { "_is_dead", get_is_dead, NULL, "Whether this process was forked since the handle was made.", NULL },
    { "_pinned", get_pinned, NULL, "The commit number of the snapshot, while there is one.", NULL },
    { "_committed", get_committed, set_committed, "The commit number of the last write, or 0.", NULL },
    { "_is_changing", get_is_changing, set_is_changing, "Whether this thread is running the function of a change.", NULL },
    { NULL, NULL, NULL, NULL, NULL },
};

static PyType_Slot slots[] = {
    { Py_tp_doc, "A handle of the library. One thread at a time uses it, and others wait. In a forked child it is dead." },
    { Py_tp_new, (void *)handle_new },
    { Py_tp_init, (void *)handle_init },
    { Py_tp_dealloc, (void *)handle_dealloc },
    { Py_tp_methods, methods },
    { Py_tp_getset, fields },
    { 0, NULL },
};

PyType_Spec handle_spec = {
    .name = "bestore._native.Handle",
    .basicsize = sizeof(Handle),
    .flags = Py_TPFLAGS_DEFAULT | Py_TPFLAGS_BASETYPE,
    .slots = slots,
};
