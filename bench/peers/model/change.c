/* Insertions and removals. A page to be changed is first loaded as a list of items. The level above it then writes it. */
#include <string.h>

#include "item.h"

/* An item of an existing page, or one with its own words. */
struct item {
    uint64_t page;
    int place;
    const uint64_t *words;
};

/* The items of the page `source`, with a change. `is_last`: the new item is the last one in the tree. */
struct items {
    int level, count;
    bool is_last;
    uint64_t source;
    struct item list[2 * ITEMS_MOST + 2];
    uint64_t made[2][ITEM_WORDS];
};

static void load(struct items *items, const struct pool *pool, uint64_t page) {
    items->level = word_at(pool, page, 0);
    items->count = word_at(pool, page, 1);
    items->is_last = false;
    items->source = page;
    for (int i = 0; i < items->count; i++) items->list[i] = (struct item){page, i, NULL};
}

static void put(struct items *items, int at, struct item item) {
    memmove(&items->list[at + 1], &items->list[at], (items->count - at) * sizeof item);
    items->list[at] = item;
    items->count++;
}

static void cut(struct items *items, int at) {
    items->count--;
    memmove(&items->list[at], &items->list[at + 1], (items->count - at) * sizeof items->list[0]);
}

/* Appends the right items to the left ones. */
static void join(struct items *left, const struct items *right) {
    memcpy(&left->list[left->count], right->list, right->count * sizeof right->list[0]);
    left->count += right->count;
}

static uint32_t write_page(struct write *write, int level, const struct item *items, int count) {
    struct pool *pool = write->pool;
    uint32_t page = take(write);
    fill_word(pool, page, 0, level);
    fill_word(pool, page, 1, count);
    for (int i = 0; i < count; i++) {
        const struct item *item = &items[i];
        int to = item_start(i), from = item_start(item->place);
        uint64_t head = item->words ? item->words[0] : word_at(pool, item->page, from);
        fill_word(pool, page, to, head);
        for (int j = 1; j < words_used(head); j++) fill_word(pool, page, to + j, item->words ? item->words[j] : word_at(pool, item->page, from + j));
    }
    return page;
}

/* Writes the first `left` items as one page, and any others as a second. */
static int write_pages(struct write *write, const struct items *items, int left, uint32_t pages[2]) {
    pages[0] = write_page(write, items->level, items->list, left);
    if (left == items->count) return 1;
    pages[1] = write_page(write, items->level, items->list + left, items->count - left);
    return 2;
}

/* Writes the items as one page, or as two halves. */
static int write_items(struct write *write, const struct items *items, uint32_t pages[2]) {
    return write_pages(write, items, items->count <= ITEMS_MOST ? items->count : (items->count + 1) / 2, pages);
}

static struct item inner(struct items *items, int which, const struct pool *pool, uint32_t page) {
    make_inner(items->made[which], pool, page);
    return (struct item){.words = items->made[which]};
}

/* Replaces a page by the page or pages that its changed items make. */
static void replace(struct write *write, struct items *items, int at, const struct items *below) {
    uint32_t pages[2];
    int count = write_items(write, below, pages);
    items->list[at] = inner(items, 0, write->pool, pages[0]);
    if (count == 2) put(items, at + 1, inner(items, 1, write->pool, pages[1]));
}

/* If a page is too full and the one to its left has room, moves items there. */
static bool share(struct write *write, struct items *items, int at, const struct items *below) {
    struct items left;
    uint32_t pages[2] = {0, 0};
    if (below->count <= ITEMS_MOST || at == 0) return false;
    load(&left, write->pool, child_at(write->pool, items->source, at - 1));
    if (left.count > ITEMS_MOST - 3) return false;
    join(&left, below);
    write_pages(write, &left, below->is_last ? ITEMS_MOST : (left.count + 1) / 2, pages);
    give_up(write, left.source);
    items->list[at - 1] = inner(items, 0, write->pool, pages[0]);
    items->list[at] = inner(items, 1, write->pool, pages[1]);
    return true;
}

static void insert_below(struct write *write, uint64_t page, const struct key *key, const uint64_t *words, struct items *items) {
    bool same;
    load(items, write->pool, page);
    int at = place_of(write->pool, page, items->count, key, &same);
    if (items->level == 0) {
        items->is_last = at == items->count;
        if (same) cut(items, at);
        put(items, at, (struct item){.words = words});
        return;
    }
    struct items below;
    if (!same && at > 0) at--;
    insert_below(write, child_at(write->pool, page, at), key, words, &below);
    items->is_last = below.is_last && at == items->count - 1;
    if (!share(write, items, at, &below)) replace(write, items, at, &below);
    give_up(write, below.source);
}

uint64_t tree_insert(struct write *write, uint64_t root, const struct key *key, const uint8_t *payload, uint32_t length) {
    uint64_t words[ITEM_WORDS];
    uint32_t pages[2];
    struct items items, top = {.count = 2};
    make_item(words, key, payload, length);
    if (!root) return 1 + write_page(write, 0, &(struct item){.words = words}, 1);
    insert_below(write, root - 1, key, words, &items);
    int count = write_items(write, &items, pages);
    give_up(write, items.source);
    if (count == 1) return 1 + pages[0];
    for (int i = 0; i < 2; i++) top.list[i] = inner(&top, i, write->pool, pages[i]);
    return 1 + write_page(write, items.level + 1, top.list, 2);
}

/* Joins a page that has too few items with a page next to it. The result is one page, or two halves. */
static void merge(struct write *write, struct items *items, int at, struct items *below) {
    struct items beside, *joined = at > 0 ? &beside : below;
    uint32_t pages[2];
    int first = at > 0 ? at - 1 : 0;
    load(&beside, write->pool, child_at(write->pool, items->source, at > 0 ? at - 1 : 1));
    join(joined, at > 0 ? below : &beside);
    int count = write_items(write, joined, pages);
    give_up(write, beside.source);
    items->list[first] = inner(items, 0, write->pool, pages[0]);
    if (count == 2) items->list[first + 1] = inner(items, 1, write->pool, pages[1]);
    else cut(items, first + 1);
}

static bool remove_below(struct write *write, uint64_t page, const struct key *key, struct items *items) {
    bool same;
    load(items, write->pool, page);
    int at = place_of(write->pool, page, items->count, key, &same);
    if (items->level == 0) {
        if (same) cut(items, at);
        return same;
    }
    struct items below;
    if (!same && at-- == 0) return false;
    if (!remove_below(write, child_at(write->pool, page, at), key, &below)) return false;
    if (below.count >= ITEMS_LEAST) replace(write, items, at, &below);
    else merge(write, items, at, &below);
    give_up(write, below.source);
    return true;
}

static uint64_t only_child(const struct pool *pool, const struct item *item) {
    return item->words ? child_of(item->words) : child_at(pool, item->page, item->place);
}

uint64_t tree_remove(struct write *write, uint64_t root, const struct key *key) {
    struct items items;
    uint32_t pages[2];
    if (!root || !remove_below(write, root - 1, key, &items)) return root;
    if (items.count == 0) root = 0;
    else if (items.level && items.count == 1) root = 1 + only_child(write->pool, &items.list[0]);
    else {
        write_items(write, &items, pages);
        root = 1 + pages[0];
    }
    give_up(write, items.source);
    return root;
}
