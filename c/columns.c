/* Reads attributes of many nodes in one call, and uses names that are checked only once. Each cell is compared with the result of
 * bes_get. */
#include "tests.h"

enum { NODES = 40, NAMES = 6 };

static bes_batch batch;
static const char *const names[NAMES] = {"flag", "mime", "name", "none", "raw", "size"};

/* Returns whether the node with this number has an attribute with this name. Each node lacks a different attribute, and none has
 * "none". */
static bool has(uint64_t node, size_t name)
{
    return name != 3 && (node % 8 >= NAMES || node % 8 != name);
}

static void set_attribute(uint64_t node, size_t name)
{
    char text[256];
    memset(text, 'a' + (int)(node % 26), sizeof text);
    switch (name) {
    case 0: CHECK(bes_batch_set_uint32(&batch, node, names[name], UINT32_MAX - (uint32_t)node) == BES_OK); break;
    case 1: CHECK(bes_batch_set_mime(&batch, node, names[name], "text/plain") == BES_OK); break;
    case 2: text[node * 6 % 256] = 0; CHECK(bes_batch_set_text(&batch, node, names[name], text) == BES_OK); break;
    case 4: CHECK(bes_batch_set_raw(&batch, node, names[name], "\0\xff\0", node % 4) == BES_OK); break;
    default: CHECK(bes_batch_set_int32(&batch, node, names[name], -(int32_t)node) == BES_OK);
    }
}

/* Creates nodes 1 to NODES, then removes every fifth of them. */
static void fill(bes_pass *pass)
{
    uint64_t made[64], number = 0;
    for (uint64_t node = 1; node <= NODES; node++) {
        bes_batch_clear(&batch);
        CHECK(bes_batch_new_node(&batch) == BES_OK);
        for (size_t name = 0; name < NAMES; name++)
            if (has(node, name))
                set_attribute(node, name);
        CHECK(bes_batch_apply(pass, &batch, 1, made, 64, &number) == BES_OK);
    }
    for (uint64_t node = 5; node <= NODES; node += 5)
        CHECK(bes_remove_node(pass, node) == BES_OK);
}

static void hold(bes_name *held, const char *name)
{
    bes_name again = {0, {0}};
    CHECK(bes_check_name((const uint8_t *)name, strlen(name), &again) == BES_OK && bes_check_name_text(name, held) == BES_OK);
    CHECK(held->length == again.length && memcmp(held->bytes, again.bytes, again.length) == 0);
}

/* Checks that a cell contains what bes_get reads, and that bes_get_named reads the same. */
static void compare(bes_pass *pass, uint64_t node, const char *name, const bes_name *held, const bes_cell *cell, const uint8_t *bytes)
{
    bes_attribute told = {0, 0, 0}, again = {0, 0, 0};
    uint8_t read[255], other[255];
    uint32_t error = bes_read(pass, node, name, &told, read, sizeof read);
    CHECK(bes_get_named(pass, node, held, &again, other, sizeof other) == error);
    CHECK(again.code == told.code && again.length == told.length && again.number == told.number);
    CHECK(memcmp(read, other, told.length) == 0);
    if (error == BES_OK) {
        CHECK(cell->error == BES_OK && cell->code == told.code && cell->length == told.length && cell->number == told.number);
        CHECK(memcmp(bytes + cell->offset, read, told.length) == 0);
    } else {
        CHECK(error == BES_NO_ATTRIBUTE && cell->code == 0 && cell->length == 0 && cell->number == 0);
        CHECK(cell->error == (node % 5 == 0 || node > NODES ? BES_NO_NODE : BES_NO_ATTRIBUTE));
    }
}

/* Reads all nodes, along with some that don't exist, with the names in this order. */
static void read_all(bes_pass *pass, const size_t *order, size_t width)
{
    static uint64_t nodes[NODES + 3];
    static bes_cell cells[(NODES + 3) * NAMES];
    static uint8_t bytes[(NODES + 3) * NAMES * 255];
    bes_name held[NAMES] = { { 0 } };
    uint64_t count = 0, end = 0;
    for (size_t at = 0; at < NODES + 3; at++)
        nodes[at] = (at * 7) % (NODES + 3);
    for (size_t at = 0; at < width; at++)
        hold(&held[at], names[order[at]]);
    CHECK(bes_columns(pass, nodes, NODES + 3, held, width, cells, (NODES + 3) * width, bytes, sizeof bytes, &count) == BES_OK);
    for (size_t at = 0; at < (NODES + 3) * width; at++) {
        CHECK(cells[at].offset == end);
        end += cells[at].length;
        compare(pass, nodes[at / width], names[order[at % width]], &held[at % width], &cells[at], bytes);
    }
    CHECK(count == end);
}

/* The call writes as many cells and bytes as fit. Its count includes the bytes that don't. */
static void too_little_room(bes_pass *pass)
{
    static const uint64_t nodes[] = {1, 2, 5};
    bes_cell cells[6], few[6];
    bes_name held[2];
    uint8_t bytes[64], less[64];
    uint64_t count = 0, all = 0;
    hold(&held[0], "mime");
    hold(&held[1], "name");
    CHECK(bes_columns(pass, nodes, 3, held, 2, cells, 6, bytes, sizeof bytes, &all) == BES_OK && all == 10 + 6 + 0);
    for (size_t room = 0; room <= 6; room++) {
        memset(few, 7, sizeof few);
        CHECK(bes_columns(pass, nodes, 3, held, 2, few, room, bytes, sizeof bytes, &count) == BES_OK && count == all);
        CHECK(memcmp(few, cells, room * sizeof *few) == 0 && (room == 6 || few[room].error == 0x07070707));
    }
    for (size_t room = 0; room <= all; room++) {
        memset(less, 7, sizeof less);
        CHECK(bes_columns(pass, nodes, 3, held, 2, few, 6, less, room, &count) == BES_OK && count == all);
        CHECK(memcmp(less, bytes, room) == 0 && less[room] == 7 && memcmp(few, cells, sizeof few) == 0);
    }
    CHECK(bes_columns(pass, nodes, 0, held, 2, cells, 6, bytes, 64, &count) == BES_OK && count == 0);
    CHECK(bes_columns(pass, nodes, 3, held, 0, cells, 6, bytes, 64, &count) == BES_OK && count == 0);
}

/* How many values there are is checked before the nodes and names are read. */
static void too_many_values(bes_pass *pass)
{
    static const uint64_t nodes[] = {1};
    const size_t many[][2] = {{((size_t)1 << 32) + 1, 1}, {(size_t)1 << 20, (size_t)1 << 20}, {(size_t)1 << 40, (size_t)1 << 40}};
    bes_name held;
    bes_cell cell = {7, 7, 7, 7, 7};
    uint8_t bytes[2] = {7, 7};
    hold(&held, "size");
    for (size_t at = 0; at < sizeof many / sizeof *many; at++) {
        uint64_t count = 7;
        CHECK(bes_columns(pass, nodes, many[at][0], &held, many[at][1], &cell, 1, bytes, 2, &count) == BES_BAD_COUNT && count == 0);
        CHECK(cell.error == 7 && bytes[0] == 7);
    }
    CHECK(strcmp(bes_strerror(BES_BAD_COUNT), "a batch has 1 to 64 operations, and a call reads up to 4,294,967,296 values") == 0);
}

/* An unchecked name matches no attribute. */
static void unchecked_names(bes_pass *pass)
{
    static const uint64_t nodes[] = {1, 5};
    bes_name held = {0, {0}}, good;
    bes_attribute told = {7, 7, 7};
    bes_cell cells[2];
    uint8_t bytes[64] = {7};
    uint64_t count = 0;
    hold(&good, "mime");
    for (uint64_t length = 0; length <= 80; length++) {
        held.length = length == 80 ? UINT64_MAX : length;
        CHECK(bes_get_named(pass, 1, &held, &told, bytes, 64) == BES_NO_ATTRIBUTE && told.code == 7 && bytes[0] == 7);
        CHECK(bes_columns(pass, nodes, 2, &held, 1, cells, 2, bytes, 64, &count) == BES_OK && count == 0);
        CHECK(cells[0].error == BES_NO_ATTRIBUTE && cells[1].error == BES_NO_NODE);
    }
    good.bytes[60] = 9; /* past the name */
    CHECK(bes_get_named(pass, 2, &good, &told, bytes, 64) == BES_OK && told.length == 10);
    CHECK(bes_check_name((const uint8_t *)"", 0, &good) == BES_NAME_LENGTH && bes_check_name((const uint8_t *)"\xff", 1, &good) == BES_NOT_UTF8);
    CHECK(bes_check_name_text("", &good) == BES_NAME_LENGTH && bes_check_name_text("\xff", &good) == BES_NOT_UTF8);
    CHECK(bes_check_name((const uint8_t *)"a\0", 2, &good) == BES_HAS_NUL && good.length == 4 && good.bytes[60] == 9);
}

static void errors(void)
{
    static const uint64_t nodes[] = {1};
    bes_pass pass = BES_PASS_INIT;
    bes_name held;
    bes_attribute told = {7, 7, 7};
    bes_cell cell = {7, 7, 7, 7, 7};
    uint8_t bytes[2] = {7, 7};
    uint64_t count = 7;
    hold(&held, "size");
    CHECK(bes_columns(&pass, nodes, 1, &held, 1, &cell, 1, bytes, 2, &count) == BES_CLOSED && count == 0 && cell.error == 7);
    CHECK(bes_get_named(&pass, 1, &held, &told, bytes, 2) == BES_CLOSED && told.code == 7 && bytes[0] == 7);
    CHECK(bes_open(64, 1, 100, &pass) == BES_OK);
    count = 7;
    CHECK(bes_columns(&pass, nodes, 1, &held, 1, &cell, 1, bytes, 2, &count) == BES_NOT_PINNED && count == 0 && cell.error == 7);
    CHECK(bes_get_named(&pass, 1, &held, &told, bytes, 2) == BES_NOT_PINNED && told.code == 7 && bytes[0] == 7);
    CHECK(bes_close(&pass) == BES_OK);
}

int main(void)
{
    static const size_t ascending[] = {0, 1, 2, 3, 4, 5}, mixed[] = {5, 2, 2, 0, 4, 1}, one[] = {2};
    bes_pass pass = BES_PASS_INIT;
    uint64_t number = 0;
    errors();
    CHECK(bes_open(1024, 1, 1000, &pass) == BES_OK);
    fill(&pass);
    CHECK(bes_pin(&pass, &number) == BES_OK);
    read_all(&pass, ascending, 6);
    read_all(&pass, mixed, 6);
    read_all(&pass, one, 1);
    too_little_room(&pass);
    too_many_values(&pass);
    unchecked_names(&pass);
    CHECK(bes_close(&pass) == BES_OK);
    return 0;
}
