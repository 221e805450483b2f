/* Listings: what a snapshot contains, in batches that a builder takes. docs/KEPT.md describes these batches. */
#include "reader.h"

#include <string.h>

enum {
    FULL = 1 << 16,                        /* a batch of this many bytes isn't continued */
    LONGEST = 1 + (1 + 63) + 4 + (1 + 255), /* bytes of a record */
    NODES = 256,                           /* how many nodes are read at a time */
};

/* A batch, and where the next one begins: at a node, of which this many records are in this batch or an earlier one. */
typedef struct Listing {
    bes_pass *pass;
    uint64_t node, records;
    size_t length;
    Listed indices, attributes;
    uint8_t bytes[FULL + LONGEST];
} Listing;

static void put(Listing *it, const void *bytes, size_t length)
{
    if (length != 0)
        memcpy(it->bytes + it->length, bytes, length);
    it->length += length;
}

/* Puts a number in this many bytes, the lowest byte first. */
static void put_number(Listing *it, uint64_t number, size_t count)
{
    for (size_t place = 0; place < count; place++)
        it->bytes[it->length++] = (uint8_t)(number >> 8 * place);
}

/* Puts a record's number, and a name and a kind. */
static void put_name(Listing *it, unsigned record, const Listed *listed, const bes_operation *part)
{
    put_number(it, record, 1);
    put_number(it, part->name_length, 1);
    put(it, listed->bytes + part->name_at, part->name_length);
    put_number(it, part->code, 4);
}

static void put_value(Listing *it, const bes_operation *part)
{
    if (is_number(part->code)) {
        put_number(it, part->number, 8);
    } else {
        put_number(it, part->value_length, 1);
        put(it, it->attributes.bytes + part->value_at, part->value_length);
    }
}

/* Lists the indices. A snapshot's indices always fit in one batch. */
static void list_indices(Listing *it)
{
    for (size_t at = 0; at < it->indices.counts.operations; at++)
        put_name(it, LISTED_INDEX, &it->indices, &it->indices.operations[at]);
}

/* Returns whether there is an index for an attribute: one of its name and its kind. */
static bool is_indexed(const Listing *it, const uint8_t *name, const bes_operation *attribute)
{
    const Listed *listed = &it->indices;
    for (size_t at = 0; at < listed->counts.operations; at++) {
        const bes_operation *index = &listed->operations[at];
        if (index->code == attribute->code && index->name_length == attribute->name_length &&
            memcmp(listed->bytes + index->name_at, name, index->name_length) == 0)
            return true;
    }
    return false;
}

static uint32_t list_attribute(Listing *it, const bes_operation *attribute)
{
    const uint8_t *name = it->attributes.bytes + attribute->name_at;
    uint32_t held = 0, answer = BES_OK;
    if (is_indexed(it, name, attribute))
        answer = library.is_held(it->pass, it->node, name, attribute->name_length, &held);
    if (answer != BES_OK)
        return answer;
    put_name(it, held ? LISTED_HELD : LISTED_ATTRIBUTE, &it->attributes, attribute);
    put_value(it, attribute);
    return BES_OK;
}

/* Lists those records of a node that aren't listed yet, until the batch is full. */
static uint32_t list_node(Listing *it, uint64_t node)
{
    Listed *listed = &it->attributes;
    uint32_t answer = library.attributes(it->pass, node, &listed->counts, listed->operations, MOST_OPERATIONS, listed->bytes,
                                         BYTES_OF_A_BATCH);
    if (node != it->node)
        it->records = 0;
    it->node = node;
    if (answer == BES_OK && it->records == 0) {
        put_number(it, LISTED_NODE, 1);
        put_number(it, node, 8);
        it->records = 1;
    }
    for (; answer == BES_OK && it->length < FULL && it->records <= listed->counts.operations; it->records++)
        answer = list_attribute(it, &listed->operations[it->records - 1]);
    if (answer == BES_OK && it->records > listed->counts.operations) {
        it->node++;
        it->records = 0;
    }
    return answer;
}

/* Lists the next nodes, until the batch is full. After the last one, `node` is 0. */
static uint32_t list_nodes(Listing *it)
{
    uint64_t nodes[NODES], count = 0;
    uint32_t answer = library.nodes(it->pass, it->node, nodes, NODES, &count);
    for (size_t at = 0; answer == BES_OK && it->length < FULL && at < count; at++)
        answer = list_node(it, nodes[at]);
    if (answer == BES_OK && it->length < FULL && count < NODES)
        it->node = 0;
    return answer;
}

/* Lists the next batch. */
static uint32_t list_batch(Listing *it)
{
    uint32_t answer = library.indices(it->pass, &it->indices.counts, it->indices.operations, MOST_OPERATIONS, it->indices.bytes,
                                      BYTES_OF_A_BATCH);
    put(it, LISTED_BEGINNING, BEGINNING);
    if (answer == BES_OK && it->node == 0) {
        list_indices(it);
        it->node = 1;
    }
    while (answer == BES_OK && it->length < FULL && it->node != 0)
        answer = list_nodes(it);
    return answer;
}

/* Returns the next batch, with where the one after it begins. */
static PyObject *listed_by(Reader *reader, Listing *it)
{
    Handle *user = enter_pinned(reader);
    uint32_t answer;
    if (user == NULL)
        return NULL;
    it->pass = &user->held.pass;
    it->length = 0;
    Py_BEGIN_ALLOW_THREADS
    answer = list_batch(it);
    Py_END_ALLOW_THREADS
    leave(user);
    if (answer != BES_OK)
        return refused(answer);
    return Py_BuildValue("(y#KK)", (const char *)it->bytes, (Py_ssize_t)it->length, (unsigned long long)it->node,
                         (unsigned long long)it->records);
}

PyObject *reader_listed(PyObject *self, PyObject *const *given, Py_ssize_t count)
{
    Listing *it;
    PyObject *batch = NULL;
    if (!has_arguments(count, 2))
        return NULL;
    it = malloc(sizeof *it);
    if (it == NULL)
        return PyErr_NoMemory();
    if (read_number(given[0], &it->node) && read_number(given[1], &it->records))
        batch = listed_by((Reader *)self, it);
    free(it);
    return batch;
}
