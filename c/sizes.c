/* Tests each list, text and number that a call takes or writes, at the sizes given by tests/sizes. The arguments are the name of
 * what grows, followed by ascending sizes or ranges, such as `sizes nodes 1-255 256 511-513`. malloc never fails here, so no call
 * has a reason to return BES_NO_MEMORY. */
#include "sizes.h"

/* Opens a store in which node i has the number i as `k`, so that `k<=n` finds n nodes, and the first node has 1 as `j`. If
 * `has_d`, there is no `j`; instead, node i has -i as `d` in a second index. */
static void open_numbered(bes_pass *pass, bool has_d)
{
    OK(bes_open(16384, 1, 2000, pass) || bes_make_index(pass, "k", BES_INT32_TYPE));
    OK(has_d ? bes_make_index(pass, "d", BES_INT32_TYPE) : BES_OK);
    bes_batch_clear(&batch);
    for (uint64_t node = 1; node <= MOST_NODES; node++) {
        OK(bes_batch_new_node(&batch) || bes_batch_set_int32(&batch, node, "k", (int32_t)node));
        OK(has_d ? bes_batch_set_int32(&batch, node, "d", -(int32_t)node) : bes_batch_set_uint64(&batch, node, node == 1 ? "j" : "i", 1));
        if (batch.count > LONGEST_BATCH - 3 || node == MOST_NODES)
            write_list(pass);
    }
}

/* Checks the nodes that a prepared query finds, those that its first refresh finds, and those that it loses in an empty store. */
static void came_and_went(bes_pass *pass, bes_pass *empty, const char *query, uint64_t count)
{
    bes_prepared live = BES_PREPARED_INIT;
    bes_updates updates = {7, 7};
    uint64_t told_count = 7;
    OK(bes_prepare_text(query, &live, &place) || bes_query_prepared(pass, &live, nodes, MOST_NODES, &told_count));
    CHECK(told_count == count && are_from_one(nodes, count));
    OK(bes_refresh(pass, &live, &updates));
    CHECK(updates.created == count && updates.removed == 0);
    OK(bes_changes(&live, nodes, MOST_NODES, others, 0) || bes_refresh(empty, &live, &updates));
    CHECK(are_from_one(nodes, count) && updates.created == 0 && updates.removed == count);
    OK(bes_changes(&live, nodes, 0, others, MOST_NODES) || bes_release(&live));
    CHECK(are_from_one(others, count));
}

/* Sizes: the nodes in a result, and the nodes that a live query gains and loses. */
static void many_nodes(void)
{
    bes_pass pass = BES_PASS_INIT, empty = BES_PASS_INIT;
    uint64_t number = 0, count = 0;
    open_numbered(&pass, false);
    OK(bes_open(64, 1, 1, &empty) || bes_make_index(&empty, "k", BES_INT32_TYPE));
    OK(bes_pin(&pass, &number) || bes_pin(&empty, &number));
    AT_EACH_SIZE {
        const bes_item items[] = {K, {BES_ITEM_INT64, 0, 0, size}, {BES_ITEM_LE, 0, 0, 0}};
        snprintf(text, sizeof text, "k<=%d", (int)size);
        OK(bes_find(&pass, text, nodes, MOST_NODES, &count));
        CHECK(count == size && are_from_one(nodes, count));
        OK(bes_query_items(&pass, items, 3, (const uint8_t *)"k", 1, nodes, MOST_NODES, &count));
        CHECK(count == size && are_from_one(nodes, count));
        came_and_went(&pass, &empty, text, size);
    }
    OK(bes_close(&pass) || bes_close(&empty));
}

/* Sizes: the nodes from which a store is built, each with a number that its index has. */
static void built_nodes(void)
{
    const uint8_t *k = (const uint8_t *)"k";
    AT_EACH_SIZE {
        bes_builder builder = BES_BUILDER_INIT;
        bes_pass pass = BES_PASS_INIT;
        uint64_t number = 0, count = 7;
        OK(bes_build(512, 1, 1, &builder) || bes_build_index(&builder, k, 1, BES_INT32_TYPE));
        for (uint64_t node = 1; node <= size; node++)
            OK(bes_build_node(&builder, node) || bes_build_attribute(&builder, k, 1, BES_INT32_TYPE, node, k, 0, 1));
        OK(bes_build_finish(&builder, size + 1, &pass) || bes_pin(&pass, &number));
        OK(bes_find(&pass, "k>0", nodes, MOST_NODES, &count) || bes_close(&pass));
        CHECK(count == size && are_from_one(nodes, count));
    }
}

/* Checks a prepared query's nodes in an index's order, both in one page and in two. */
static void paged(bes_pass *pass, bes_prepared *prepared, const char *index, uint32_t descending, uint64_t size)
{
    bes_name by = {0, {0}};
    bes_cursor cursor = {0, 0, {0}};
    uint64_t front = 0, count = 0;
    uint32_t more = 7;
    OK(bes_check_name_text(index, &by));
    OK(bes_ordered(pass, prepared, &by, descending, &cursor, nodes, size, &count, &more));
    CHECK(count == size && more == 0 && are_from_one(nodes, count));
    memset(&cursor, 0, sizeof cursor);
    OK(bes_ordered(pass, prepared, &by, descending, &cursor, nodes, (size + 1) / 2, &front, &more));
    CHECK(front == (size + 1) / 2 && more == (size > 1));
    OK(bes_ordered(pass, prepared, &by, descending, &cursor, nodes + front, MOST_NODES - front, &count, &more));
    CHECK(front + count == size && more == 0 && are_from_one(nodes, size));
}

/* Sizes: the same nodes in the order of the index that finds them and in another index's order, as the first nodes, as any few
 * nodes, and as the nodes that bes_refresh_changed adds. */
static void nodes_in_parts(void)
{
    bes_pass pass = BES_PASS_INIT;
    uint64_t number = 0, count = 0;
    open_numbered(&pass, true);
    OK(bes_pin(&pass, &number));
    AT_EACH_SIZE {
        bes_prepared prepared = BES_PREPARED_INIT;
        bes_updates updates = {7, 7};
        snprintf(text, sizeof text, "k<=%d", (int)size);
        OK(bes_prepare_text(text, &prepared, &place));
        paged(&pass, &prepared, "k", 0, size);
        paged(&pass, &prepared, "d", 1, size);
        OK(bes_first(&pass, &prepared, 0, nodes, size, &count));
        CHECK(count == size && are_from_one(nodes, count));
        OK(bes_any(&pass, &prepared, nodes, size, &count) || bes_refresh_changed(&pass, &prepared, &updates));
        CHECK(count == size && updates.created == size && updates.removed == 0);
        OK(bes_release(&prepared));
    }
    OK(bes_close(&pass));
}

/* Returns whether a size is at most one away from a power of two, where lists grow. */
static bool is_by_power(uint64_t size)
{
    return ((size - 1) & size) == 0 || (size & (size + 1)) == 0 || (size > 1 && ((size - 2) & (size - 1)) == 0);
}

/* Sizes: the nodes that two picks find, and the candidates when checking another attribute leaves only one or none of them.
 * Beyond the first sizes, only the last of these is tested, except where lists grow. */
static void many_candidates(void)
{
    bes_pass pass = BES_PASS_INIT;
    uint64_t count = 0, number = 0;
    open_numbered(&pass, false);
    AT_EACH_SIZE {
        if (size <= 400 || size == MOST_NODES || is_by_power(size)) {
            snprintf(text, sizeof text, "k<=%d||k>0&&k<=%d", (int)size, (int)size);
            found(&pass, text, NULL, 0, size);
            snprintf(text, sizeof text, "k<=%d&&j==1", (int)size);
            found(&pass, text, NULL, 0, 1);
        }
        snprintf(text, sizeof text, "k<=%d&&j==2", (int)size);
        OK(bes_pin(&pass, &number) || bes_find(&pass, text, nodes, MOST_NODES, &count) || bes_unpin(&pass));
        CHECK(count == 0);
    }
    OK(bes_close(&pass));
}

/* Sizes: the last nodes of a store in a list, and the first nodes. */
static void listed_nodes(void)
{
    bes_pass pass = BES_PASS_INIT;
    uint64_t number = 0, count = 0;
    OK(bes_open(16384, 1, MOST_NODES, &pass));
    for (uint64_t node = 1; node <= MOST_NODES; node++)
        OK(bes_new_node(&pass, &number));
    OK(bes_pin(&pass, &number));
    AT_EACH_SIZE {
        /* Both lists have the same length, so beyond the first sizes, one of them is enough. */
        uint64_t first = size > 1024 && size % 2 == 0 ? 1 : MOST_NODES + 1 - size;
        OK(bes_nodes(&pass, first, nodes, size, &count));
        CHECK(count == size && nodes[0] == first && nodes[count - 1] == first + size - 1);
        if (size <= 1024) {
            OK(bes_nodes(&pass, 0, nodes, size, &count));
            CHECK(count == size && are_from_one(nodes, count));
        }
    }
    OK(bes_close(&pass));
}

/* Sets this many attributes of node 1 again, through a change on a pinned pass. */
static void set_by_change(bes_pass *pass, uint64_t size)
{
    bes_draft draft = BES_DRAFT_INIT;
    bes_counts counts = {7, 7};
    uint64_t number = 0, next = 0;
    OK(bes_unpin(pass) || bes_begin_change(pass, &draft, &number, &next));
    for (uint64_t i = 0; i < size; i++) {
        bes_batch_clear(&batch);
        OK(bes_batch_set_uint64(&batch, 1, name_of('a', i), i));
        OK(bes_change_add(&draft, batch.operations, batch.bytes, batch.used, &number));
    }
    OK(bes_change_batch(&draft, &counts, listed, 64, told, sizeof told));
    are_listed(&counts, BES_SET, 'a', size);
    OK(bes_end_change(pass, &draft, &number));
    CHECK(number == 3);
}

/* Sets these attributes once more, through a change in one call. */
static void set_at_once(bes_pass *pass, uint64_t size)
{
    uint64_t number = 0;
    bes_batch_clear(&batch);
    for (uint64_t i = 0; i < size; i++)
        OK(bes_batch_set_uint64(&batch, 1, name_of('a', i), i));
    OK(bes_pin(pass, &number) || bes_apply_change(pass, batch.operations, batch.count, batch.bytes, batch.used, &number));
    CHECK(number == 4);
}

/* Sizes: the operations in a list, and the attributes of a node. */
static void many_operations(void)
{
    AT_EACH_SIZE {
        bes_pass pass = BES_PASS_INIT;
        bes_counts counts = {7, 7};
        uint64_t number = 0, by = 7, made[64];
        OK(bes_open(256, 1, 1000, &pass));
        bes_batch_clear(&batch);
        for (uint64_t i = 0; i < size; i++)
            OK(bes_batch_new_node(&batch));
        OK(bes_batch_apply(&pass, &batch, 1, made, 64, &number));
        CHECK(number == 1 && are_from_one(made, size));
        bes_batch_clear(&batch);
        for (uint64_t i = 0; i < size; i++)
            OK(bes_batch_set_uint64(&batch, 1, name_of('a', i), i));
        CHECK(write_list(&pass) == 2);
        OK(bes_pin(&pass, &number) || bes_attributes(&pass, 1, &counts, listed, 64, told, sizeof told));
        are_listed(&counts, BES_SET, 'a', size);
        for (uint64_t i = 0; i < size; i++)
            CHECK(listed[i].number == i);
        OK(bes_journal_from(&pass, 1, &by, &counts, listed, 64, told, sizeof told, &number));
        CHECK(by == 0 && number == 2);
        are_listed(&counts, BES_SET, 'a', size);
        set_by_change(&pass, size);
        set_at_once(&pass, size);
        OK(bes_close(&pass));
    }
}

/* Checks the comparisons in a text `k==1||k==2..` and the position of each. */
static void compared(uint64_t size)
{
    static bes_compared found[256];
    bes_counts counts = {7, 7};
    size_t at = 0;
    OK(bes_query_comparisons((const uint8_t *)text, strlen(text), &counts, found, 256, told, sizeof told, &place));
    CHECK(counts.operations == size && place == 0);
    for (uint64_t i = 0; i < size; at = found[i++].end) {
        CHECK(found[i].at == (i > 0 ? at + 2 : 0) && found[i].kind == BES_ITEM_EQ && found[i].form == BES_FORM_NUMBER);
        CHECK(found[i].plain_value_at == found[i].plain_name_at + 1 && told[found[i].plain_name_at] == 'k');
    }
    CHECK(at == strlen(text) && counts.bytes == found[size - 1].plain_end);
}

/* Sizes: the comparisons in a query, all of which are picked. */
static void many_comparisons(void)
{
    static bes_item items[4 * 256];
    AT_EACH_SIZE {
        bes_pass pass = BES_PASS_INIT;
        uint64_t node = 0;
        size_t items_count = 0;
        OK(bes_open(64, 1, 1000, &pass) || bes_make_index(&pass, "k", BES_INT32_TYPE) || bes_new_node(&pass, &node));
        OK(bes_set_int32(&pass, node, "k", (int32_t)size));
        text[0] = expected[0] = 0;
        for (uint64_t i = 1; i <= size; i++) {
            add_comparison("k", i);
            items[items_count++] = K;
            items[items_count++] = (bes_item){BES_ITEM_UINT64, 0, 0, i};
            items[items_count++] = EQ;
            if (i > 1)
                items[items_count++] = OR;
        }
        found(&pass, text, items, items_count, 1);
        explained(&pass, size);
        walked(&pass, size);
        compared(size);
        OK(bes_close(&pass));
    }
}

/* Sizes: the bytes of a text that is escaped, or converted to a pattern that ignores case. */
static void long_made_texts(void)
{
    AT_EACH_SIZE {
        uint64_t count = 7;
        memset(text, '*', size);
        OK(bes_escape_bytes((const uint8_t *)text, size, told, sizeof told, &count));
        CHECK(count == 2 * size && (size == 0 || (told[0] == '\\' && told[count - 1] == '*')));
        memset(text, 'a', size);
        OK(bes_any_case_bytes((const uint8_t *)text, size, told, sizeof told, &count));
        CHECK(count == 4 * size && (size == 0 || memcmp(told + count - 4, "[aA]", 4) == 0));
    }
}

/* Sizes: the bytes of a query. */
static void long_queries(void)
{
    AT_EACH_SIZE {
        bes_pass pass = BES_PASS_INIT;
        uint64_t node = 0;
        OK(bes_open(64, 1, 1000, &pass) || bes_make_index(&pass, "k", BES_STRING_TYPE) || bes_new_node(&pass, &node));
        OK(bes_set_text(&pass, node, "k", "x"));
        memset(text, '*', size);
        memcpy(text, "k==", 3);
        text[size] = 0;
        found(&pass, text, NULL, 0, 1);
        compares_with(BES_FORM_PATTERN, size - 3);
        for (size_t i = 4; i < size; i += 2)
            text[i] = 'x';
        found(&pass, text, NULL, 0, size <= 6);
        compares_with(BES_FORM_PATTERN, size - 3);
        memset(text + 3, 'x', size - 3);
        found(&pass, text, NULL, 0, size == 4);
        compares_with(BES_FORM_TEXT, size - 3);
        memcpy(expected, "\"k\"==\"", 6);
        memset(expected + 6, 'x', size - 3);
        memcpy(expected + 6 + size - 3, "\"", 2);
        explained(&pass, 1);
        memset(text, ' ', size);
        memcpy(text + size - 4, "k==x", 4);
        found(&pass, text, NULL, 0, 1);
        OK(bes_close(&pass));
    }
}

/* Sizes: the bytes of a text in a predicate's item. The text is a pattern, or is what an attribute contains, begins with or ends
 * with. */
static void long_items(void)
{
    const uint32_t kinds[] = {BES_ITEM_CONTAINS, BES_ITEM_BEGINS_WITH, BES_ITEM_ENDS_WITH, BES_ITEM_EQ};
    bes_pass pass = BES_PASS_INIT;
    uint64_t node = 0, number = 0, count = 7;
    OK(bes_open(64, 1, 1000, &pass) || bes_make_index(&pass, "k", BES_STRING_TYPE) || bes_new_node(&pass, &node));
    OK(bes_set_text(&pass, node, "k", "*") || bes_pin(&pass, &number));
    memset(text, '*', sizeof text);
    text[0] = 'k';
    AT_EACH_SIZE {
        for (size_t i = 0; i < sizeof kinds / sizeof *kinds; i++) {
            const bes_item items[] = {K, {BES_ITEM_TEXT, 1, (uint32_t)size, 0}, {kinds[i], 0, 0, 0}};
            bes_prepared prepared = BES_PREPARED_INIT;
            OK(bes_query_items(&pass, items, 3, (const uint8_t *)text, sizeof text, nodes, MOST_NODES, &count));
            OK(bes_prepare_items(items, 3, (const uint8_t *)text, sizeof text, &prepared, &place) || bes_release(&prepared));
        }
    }
    OK(bes_close(&pass));
}

/* Sizes: the bytes of a name. */
static void long_names(void)
{
    AT_EACH_SIZE {
        bes_pass pass = BES_PASS_INIT;
        bes_attribute attribute = {7, 7, 7};
        bes_counts counts = {7, 7};
        uint8_t bytes[63];
        uint64_t node = 0, number = 0;
        memset(name, 'n', size);
        name[size] = 0;
        OK(bes_open(64, 1, 1000, &pass) || bes_make_index(&pass, name, BES_INT64_TYPE) || bes_new_node(&pass, &node));
        OK(bes_set_int64(&pass, node, name, -5));
        snprintf(text, sizeof text, "%s==-5", name);
        found(&pass, text, NULL, 0, 1);
        compares_with(BES_FORM_NUMBER, 2);
        OK(bes_pin(&pass, &number) || bes_read(&pass, node, name, &attribute, bytes, 0));
        CHECK(attribute.code == BES_INT64_TYPE && (int64_t)attribute.number == -5);
        OK(bes_attributes(&pass, node, &counts, listed, 1, bytes, sizeof bytes));
        CHECK(counts.operations == 1 && counts.bytes == size && listed->name_length == size && memcmp(bytes, name, size) == 0);
        OK(bes_indices(&pass, &counts, listed, 1, bytes, sizeof bytes));
        CHECK(counts.operations == 1 && counts.bytes == size && listed->code == BES_INT64_TYPE && memcmp(bytes, name, size) == 0);
        OK(bes_unpin(&pass) || bes_unset(&pass, node, name) || bes_remove_index(&pass, name) || bes_close(&pass));
    }
}

/* Sizes: the bytes of a value, for each kind whose values consist of bytes. */
static void long_values(void)
{
    AT_EACH_SIZE {
        bes_pass pass = BES_PASS_INIT;
        bes_attribute attribute = {7, 7, 7};
        bes_counts counts = {7, 7};
        uint8_t bytes[3 + 3 * 255];
        uint64_t node = 0, number = 0;
        memset(text, 'x', size);
        text[size] = 0;
        OK(bes_open(64, 1, 1000, &pass) || bes_make_index(&pass, "t", BES_STRING_TYPE) || bes_new_node(&pass, &node));
        OK(bes_set_text(&pass, node, "t", text) || bes_set_mime(&pass, node, "m", text) || bes_set_raw(&pass, node, "r", text, size));
        OK(bes_pin(&pass, &number));
        for (int i = 0; i < 3; i++) {
            const char *const names[] = {"m", "r", "t"};
            const uint32_t codes[] = {BES_MIME_STRING_TYPE, BES_RAW_TYPE, BES_STRING_TYPE};
            OK(bes_read(&pass, node, names[i], &attribute, bytes, 255));
            CHECK(attribute.code == codes[i] && attribute.length == size && memcmp(bytes, text, size) == 0);
        }
        OK(bes_attributes(&pass, node, &counts, listed, 3, bytes, sizeof bytes));
        CHECK(counts.operations == 3 && counts.bytes == 3 + 3 * size && listed[2].value_length == size);
        CHECK(memcmp(bytes + listed[2].value_at, text, size) == 0);
        OK(bes_unpin(&pass));
        memmove(text + 4, text, size);
        memcpy(text, "t==\"", 4);
        memcpy(text + 4 + size, "\"", 2);
        found(&pass, text, NULL, 0, 1);
        compares_with(BES_FORM_TEXT, size);
        OK(bes_close(&pass));
    }
}

/* A change finds the index with this name, so it refuses values of another kind. */
static void refuse_by_index(bes_pass *pass)
{
    bes_draft draft = BES_DRAFT_INIT;
    uint64_t number = 0, next = 0;
    bes_batch_clear(&batch);
    OK(bes_batch_set_uint64(&batch, 1, name, 1) || bes_begin_change(pass, &draft, &number, &next));
    CHECK(bes_change_add(&draft, batch.operations, batch.bytes, batch.used, &number) == BES_WRONG_KIND);
    CHECK(number == BES_UINT32_TYPE);
    OK(bes_abandon_change(pass, &draft));
}

/* Sizes: the indices of a store, all of which a query picks. */
static void many_indices(void)
{
    AT_EACH_SIZE {
        bes_pass pass = BES_PASS_INIT;
        bes_counts counts = {7, 7};
        uint64_t node = 0, number = 0;
        OK(bes_open(256, 1, 1000, &pass) || bes_new_node(&pass, &node));
        bes_batch_clear(&batch);
        text[0] = expected[0] = 0;
        for (uint64_t i = 0; i < size; i++) {
            name_of('i', i);
            OK(i < size / 2 ? bes_make_index(&pass, name, BES_UINT32_TYPE) : bes_batch_make_index(&batch, name, BES_UINT32_TYPE));
            add_comparison(name, 1);
        }
        write_list(&pass);
        OK(bes_set_uint32(&pass, node, name, 1));
        found(&pass, text, NULL, 0, 1);
        explained(&pass, size);
        OK(bes_pin(&pass, &number) || bes_indices(&pass, &counts, listed, 32, told, sizeof told));
        are_listed(&counts, BES_MAKE_INDEX, 'i', size);
        refuse_by_index(&pass);
        OK(bes_close(&pass));
    }
}

/* Takes all other passes of a store, and writes and reads through each. Taking one more is refused. Unused passes are held by the
 * first handle; the others can be taken through any handle. */
static void take_all(bes_pass *passes, uint64_t size, bool are_unused, uint64_t node, uint64_t *written)
{
    bes_pass none = BES_PASS_INIT;
    bes_attribute attribute = {7, 7, 7};
    uint8_t bytes[1];
    uint64_t number = 0;
    for (uint64_t i = 1; i < size; i++) {
        OK(bes_another(&passes[are_unused ? 0 : (i - 1) / 2], &passes[i]));
        OK(bes_set_uint64(&passes[i], node, "n", i) || bes_pin(&passes[i], &number));
        CHECK(number == ++*written);
        OK(bes_read(&passes[i], node, "n", &attribute, bytes, 0));
        CHECK(attribute.number == i);
    }
    CHECK(bes_another(&passes[0], &none) == BES_NO_PASS);
}

/* Sizes: the passes of a store. They are taken, returned in another order, met and taken again. Closing the last pass frees the
 * store; closing any other pass doesn't. */
static void many_passes(void)
{
    static bes_pass passes[64];
    AT_EACH_SIZE {
        bes_witness witness = BES_WITNESS_INIT;
        uint64_t node = 0, written = 1, seen = 0, count = 7;
        OK(bes_open(512, size, 10000, &passes[0]) || bes_new_node(&passes[0], &node));
        for (int round = 0; round < 3; round++) {
            take_all(passes, size, round == 0, node, &written);
            for (uint64_t i = 1; i < size; i++)
                OK(bes_close(&passes[round == 1 ? size - i : i]));
            CHECK(bes_meet(&passes[0], &seen) == (size > 1 ? BES_OK : BES_NO_PASS));
            CHECK(size == 1 || (seen > 0 && seen <= written));
            OK(bes_witness_of(&passes[0], &witness) || bes_join(&passes[0], &witness, &seen) || bes_dismiss(&witness));
        }
        take_all(passes, size, false, node, &written);
        for (uint64_t i = 1; i < size; i++) {
            CHECK(bes_finish(&passes[0], NULL, 0, &count) == BES_IN_USE && count == 0);
            OK(bes_close(&passes[i]));
        }
        OK(bes_finish(&passes[0], told, sizeof told, &count));
        CHECK(count <= sizeof told && count > 0 && told[count - 1] == '\n');
    }
}

/* Checks that this value in `told` has this length and consists of this letter. */
static void are_all(const bes_operation *part, uint8_t letter, uint64_t length)
{
    CHECK(part->value_length == length);
    for (uint64_t i = 0; i < length; i++)
        CHECK(told[part->value_at + i] == letter);
}

/* Fills the batch with this many values of 255 bytes, each with a name of 63 bytes. */
static void fill_batch(uint64_t size, uint8_t letter)
{
    uint8_t value[LONGEST_VALUE];
    memset(value, letter, sizeof value);
    bes_batch_clear(&batch);
    for (uint64_t i = 0; i < size; i++) {
        snprintf(name, sizeof name, "%063d", (int)i);
        OK(bes_batch_set_raw(&batch, 1, name, value, sizeof value));
    }
}

/* Checks that a call has written the values from fill_batch to `listed` and `told`. */
static void are_filled(const bes_counts *counts, uint64_t size, uint8_t letter)
{
    CHECK(counts->operations == size && counts->bytes == size * (LONGEST_NAME + LONGEST_VALUE));
    for (uint64_t i = 0; i < size; i++)
        are_all(&listed[i], letter, LONGEST_VALUE);
}

/* Checks the state of a pinned pass, which is one node with `size` long values. */
static void state_is_filled(bes_pass *pass, uint64_t size)
{
    bes_place reading = BES_PLACE_INIT;
    bes_counts counts = {7, 7};
    uint64_t operations = 0, bytes = 0;
    do {
        OK(bes_state(pass, &reading, &counts, listed, LONGEST_BATCH, told, sizeof told));
        operations += counts.operations;
        bytes += counts.bytes;
    } while (counts.operations > 0);
    CHECK(operations == 1 + size && bytes == size * (LONGEST_NAME + LONGEST_VALUE));
    OK(bes_leave(&reading));
}

/* Sizes: a list with names and values of maximum length, in each call that takes or writes such lists: bes_apply, bes_apply_if,
 * bes_attributes, bes_state, bes_journal_from and bes_journal. The journal's lines are up to 38 KB long. */
static void long_batches(void)
{
    AT_EACH_SIZE {
        bes_pass pass = BES_PASS_INIT;
        bes_counts counts = {7, 7};
        uint64_t node = 0, number = 0, by = 7, count = 0, line = 0;
        OK(bes_open(512, 1, 1000, &pass) || bes_new_node(&pass, &node));
        fill_batch(size, 'x');
        OK(bes_batch_apply(&pass, &batch, 1, nodes, 0, &number));
        fill_batch(size, 'y');
        OK(bes_batch_apply_if(&pass, 2, &batch, 1, nodes, 0, &number));
        OK(bes_pin(&pass, &number) || bes_attributes(&pass, 1, &counts, listed, LONGEST_BATCH, told, sizeof told));
        are_filled(&counts, size, 'y');
        state_is_filled(&pass, size);
        OK(bes_journal_from(&pass, 1, &by, &counts, listed, LONGEST_BATCH, told, sizeof told, &number));
        CHECK(by == 0 && number == 3);
        are_filled(&counts, size, 'x');
        OK(bes_journal(&pass, told, sizeof told, &count));
        /* The first line is `1 by 0 new -> node 1`. Two lines follow, each with `n by 0 `, `set 1 "NAME" RAWT "HEX"` for each
         * value, ` -> `, and an `ok` for each value. Both lists are separated by `; `. */
        line = 7 + size * (6 + 65 + 6 + 2 + 2 * LONGEST_VALUE) + 2 * (size - 1) + 4 + 2 * size + 2 * (size - 1) + 1;
        CHECK(count == 21 + 2 * line);
        OK(bes_close(&pass));
    }
}

/* Sizes: the names of indices, with 63 bytes each. */
static void long_index_names(void)
{
    AT_EACH_SIZE {
        bes_pass pass = BES_PASS_INIT;
        bes_counts counts = {7, 7};
        uint64_t number = 0;
        OK(bes_open(64, 1, 1000, &pass));
        bes_batch_clear(&batch);
        for (uint64_t i = 0; i < size; i++) {
            snprintf(name, sizeof name, "%063d", (int)i);
            OK(bes_batch_make_index(&batch, name, BES_STRING_TYPE));
        }
        write_list(&pass);
        OK(bes_pin(&pass, &number) || bes_indices(&pass, &counts, listed, LONGEST_BATCH, told, sizeof told));
        CHECK(counts.operations == size && counts.bytes == LONGEST_NAME * size);
        OK(bes_close(&pass));
    }
}

/* Sizes: the pages of a store with one pass, and of a store with 64. */
static void many_pages(void)
{
    AT_EACH_SIZE {
        const uint64_t passes[] = {1, 64};
        for (int i = 0; i < 2; i++) {
            bes_pass pass = BES_PASS_INIT;
            bes_usage usage;
            uint64_t node = 0, number = 0;
            OK(bes_open(size, passes[i], 1000, &pass) || bes_new_node(&pass, &node) || bes_status(&pass, &usage, &number));
            CHECK(usage.pages == size && node == 1);
            OK(bes_close(&pass));
        }
    }
}

/* Checks that an operation's unused fields are 0, so that everyone who reads a state gets the same bytes. */
static void has_no_more(const bes_operation *it)
{
    const bool is_set = it->kind == BES_SET, has_name = is_set || it->kind == BES_MAKE_INDEX;
    CHECK(is_set || has_name || it->kind == BES_NEW_NODE || it->kind == BES_REMOVE_NODE);
    CHECK((it->node == 0) == (it->kind == BES_NEW_NODE || it->kind == BES_MAKE_INDEX));
    CHECK((it->code == 0) == !has_name && (it->name_length == 0) == !has_name);
    CHECK(is_set || (it->number == 0 && it->value_length == 0));
}

/* Sizes: the attributes of each node in a state, which is read whole. */
static void many_states(void)
{
    AT_EACH_SIZE {
        bes_pass pass = BES_PASS_INIT;
        bes_place reading = BES_PLACE_INIT;
        uint64_t node = 0, number = 0, operations = 0;
        OK(bes_open(512, 1, 1000, &pass));
        OK(bes_make_index(&pass, "a00", BES_UINT64_TYPE));
        for (uint64_t i = 0; i < 70; i++) {
            OK(bes_new_node(&pass, &node));
            bes_batch_clear(&batch);
            for (uint64_t attribute = 0; attribute < size; attribute++)
                OK(bes_batch_set_uint64(&batch, node, name_of('a', attribute), attribute));
            write_list(&pass);
        }
        OK(bes_pin(&pass, &number));
        do {
            OK(bes_batch_state(&pass, &reading, &batch));
            for (size_t i = 0; i < batch.count; i++)
                has_no_more(&batch.operations[i]);
            operations += batch.count;
        } while (batch.count > 0);
        CHECK(operations == 1 + 70 * (1 + size));
        OK(bes_leave(&reading) || bes_close(&pass));
    }
}

/* Takes the store's other pass, returns it, and meets it. */
static void met(bes_pass *pass, uint64_t written)
{
    bes_pass other = BES_PASS_INIT;
    uint64_t seen = 0;
    OK(bes_another(pass, &other) || bes_close(&other) || bes_meet(pass, &seen));
    CHECK(seen == written);
}

/* Sizes: the entries of the journal. Reads its text and each entry during many writes, and meets a pass then. */
static void many_entries(void)
{
    bes_pass pass = BES_PASS_INIT;
    uint64_t node = 0, written = 0, count = 0, by = 7, own = 7;
    size_t length = 0;
    OK(bes_open(64, 2, MOST_ENTRIES, &pass) || bes_number(&pass, &own));
    AT_EACH_SIZE {
        for (; written < size; written++) {
            char *end = expected + length;
            size_t room = sizeof expected - length;
            if (written == 0) {
                OK(bes_new_node(&pass, &node));
                length += (size_t)snprintf(end, room, "1 by %d new -> node 1\n", (int)own);
            } else {
                OK(bes_set_uint64(&pass, node, "n", written));
                length += (size_t)snprintf(end, room, "%d by %d set 1 \"n\" ULLG %d -> ok\n", (int)written + 1, (int)own, (int)written);
            }
            OK(bes_batch_entry(&pass, written, &batch, &by, &count));
            CHECK(count == written + 1 && by == own && batch.count == 1);
            CHECK(written == 0 || (batch.operations[0].node == 1 && batch.operations[0].number == written));
        }
        memset(told, 7, length + 1);
        OK(bes_journal(&pass, told, sizeof told, &count));
        CHECK(count == length && memcmp(told, expected, length) == 0 && told[length] == 7);
        met(&pass, size);
    }
    CHECK(written < MOST_ENTRIES || bes_new_node(&pass, &node) == BES_COMMITS_SPENT);
    OK(bes_finish(&pass, told, sizeof told, &count));
    CHECK(count == length && memcmp(told, expected, length) == 0);
}

/* The names of what grows, as used in tests/growth.txt, with their tests. */
static const struct row {
    const char *name;
    void (*run)(void);
} rows[] = {
    {"nodes", many_nodes}, {"built-nodes", built_nodes}, {"nodes-in-parts", nodes_in_parts}, {"candidates", many_candidates}, {"listed-nodes", listed_nodes},
    {"operations", many_operations}, {"comparisons", many_comparisons}, {"query-bytes", long_queries}, {"item-bytes", long_items},
    {"made-text-bytes", long_made_texts}, {"name-bytes", long_names}, {"value-bytes", long_values},
    {"indices", many_indices}, {"index-names", long_index_names}, {"passes", many_passes}, {"pages", many_pages},
    {"batches", long_batches}, {"state", many_states}, {"entries", many_entries}
};

/* Appends a size to `sizes`, or a range of sizes such as 3-7. */
static void add_sizes(const char *word)
{
    char *end = NULL;
    uint64_t first = strtoull(word, &end, 10), last = *end == '-' ? strtoull(end + 1, &end, 10) : first;
    CHECK(*end == 0 && first <= last);
    for (; first <= last; first++) {
        CHECK(sizes_count < sizeof sizes / sizeof *sizes);
        sizes[sizes_count++] = first;
    }
}

int main(int count, char **words)
{
    for (int i = 2; i < count; i++)
        add_sizes(words[i]);
    atexit(print_size);
    for (size_t i = 0; count > 2 && i < sizeof rows / sizeof *rows; i++)
        if (strcmp(rows[i].name, words[1]) == 0) {
            rows[i].run();
            tried = 0;
            return 0;
        }
    fprintf(stderr, "usage: %s ROW SIZE...\n", words[0]);
    return 2;
}
