// Compares pages in an index's order, in C++, with the whole answer after sorting and cutting it.
#include "tests.hpp"
#include <algorithm>
#include <atomic>
#include <random>
#include <string>
#include <thread>
#include <tuple>

using bestore::Cursor;
using bestore::Kind;
using bestore::Node;
using bestore::Order;

namespace {

// A value in the form that an index compares: a number with its sign, or a string.
using Rank = std::tuple<bool, std::uint64_t, std::string>;
using Keys = std::vector<std::pair<Rank, Node>>;

Rank rank(const bestore::Value &value)
{
    if (const auto *text = std::get_if<std::string>(&value))
        return {false, 0, *text};
    if (const auto *number = std::get_if<std::int32_t>(&value))
        return {*number >= 0, std::uint64_t(std::int64_t(*number)), ""};
    if (const auto *number = std::get_if<std::int64_t>(&value))
        return {*number >= 0, std::uint64_t(*number), ""};
    if (const auto *number = std::get_if<std::uint32_t>(&value))
        return {false, *number, ""};
    return {false, std::get<std::uint64_t>(value), ""};
}

// Returns a value of this kind. Several nodes have the same values.
bestore::Value value_of(Kind kind, unsigned at)
{
    static const char *const texts[] = {"", "a", "ab", "b", "\xc3\xa4"};
    switch (kind) {
    case Kind::int32:
        return std::int32_t(at == 0 ? INT32_MIN : at == 1 ? -1 : INT32_MAX - 4 + std::int32_t(at));
    case Kind::int64:
        return std::int64_t(at == 0 ? INT64_MIN : at == 1 ? -1 : INT64_MAX - 4 + std::int64_t(at));
    case Kind::uint32:
        return std::uint32_t(at < 3 ? at : UINT32_MAX - 4 + at);
    case Kind::uint64:
        return std::uint64_t(at < 3 ? at : UINT64_MAX - 4 + at);
    default:
        return std::string(texts[at]);
    }
}

const std::pair<const char *, Kind> kinds[] = {
    {"text", Kind::string}, {"i32", Kind::int32}, {"i64", Kind::int64}, {"u32", Kind::uint32}, {"u64", Kind::uint64}};

void set(bestore::Batch &batch, Node node, const char *name, const bestore::Value &value)
{
    std::visit([&](const auto &held) { batch.set(node, name, held); }, value);
}

// A store, the generator for its values, and its nodes.
struct Written {
    bestore::Store pass;
    std::mt19937 chance{5};
    std::vector<Node> nodes;
};

// Creates a node with some values, changes a node's values, or removes a node.
void write(Written &store)
{
    auto &[pass, chance, nodes] = store;
    bestore::Batch batch;
    const std::size_t at = chance() % 200;
    const bool is_new = at >= nodes.size();
    const Node node = is_new ? pass.new_node() : nodes[at];
    if (is_new)
        nodes.push_back(node);
    else if (chance() % 8 == 0) {
        nodes.erase(nodes.begin() + std::ptrdiff_t(at));
        pass.remove_node(node);
        return;
    }
    for (const auto &[name, kind] : kinds)
        if (chance() % 3 > 0)
            set(batch, node, name, value_of(kind, chance() % 5));
    batch.set(node, "other", std::int64_t(chance() % 3));
    pass.apply(batch);
}

// Returns the whole answer in an order.
Keys plain(bestore::Snapshot &snapshot, bestore::Prepared &query, const Order &order)
{
    Keys keys;
    for (Node node : snapshot.query(query))
        if (auto value = snapshot.get(node, order.name()))
            keys.emplace_back(rank(*value), node);
    std::sort(keys.begin(), keys.end());
    if (order.is_descending())
        std::reverse(keys.begin(), keys.end());
    return keys;
}

// Returns the page after a cursor, cut from the whole answer, and whether more nodes follow.
std::pair<std::vector<Node>, bool> cut(const Keys &keys, const Cursor &after, std::size_t most)
{
    std::vector<Node> nodes;
    for (const auto &key : keys) {
        if (after.node()) {
            const Keys::value_type last{rank(*after.value()), *after.node()};
            if (after.order().is_descending() ? key >= last : key <= last)
                continue;
        }
        nodes.push_back(key.second);
    }
    const bool more = nodes.size() > most;
    nodes.resize(std::min(nodes.size(), most));
    return {nodes, more};
}

// Reads all pages of a query in an order, writing in between.
void page_on(Written &store, bestore::Prepared &query, const Order &order)
{
    Cursor after(query, order);
    for (bool more = true; more;) {
        const std::size_t most = std::size_t{1} << store.chance() % 7;
        auto pin = store.pass.pin();
        const auto page = pin.page(query, after, most);
        const auto keys = plain(pin, query, order);
        CHECK(std::pair(page.nodes, page.more) == cut(keys, after, most));
        CHECK(page.cursor.node() == (page.nodes.empty() ? after.node() : Carried(page.nodes.back())));
        std::vector<Node> all;
        for (Node node : pin.ordered(query, after))
            all.push_back(node);
        CHECK(all == cut(keys, after, SIZE_MAX).first);
        after = page.cursor;
        more = page.more;
        pin.unpin();
        write(store);
    }
}

void pages()
{
    Written store;
    for (const auto &[name, kind] : kinds)
        store.pass.make_index(name, kind);
    store.pass.make_index("other", Kind::int64);
    for (int i = 0; i < 100; i++)
        write(store);
    for (const char *text : {"other>=0", "other==1", "text==\"*a*\" || u64<2", "i32<0 && text!=b", "u32==3"}) {
        bestore::Prepared query(text);
        for (const auto &[name, kind] : kinds) {
            page_on(store, query, Order(name));
            page_on(store, query, Order(name).descending());
        }
    }
}

// Reads the first nodes by number, and any nodes.
void parts()
{
    bestore::Store pass;
    pass.make_index("size", Kind::int64);
    for (std::int64_t size = 0; size < 300; size++)
        pass.set(pass.new_node(), "size", size % 3);
    auto pin = pass.pin();
    bestore::Prepared query("size==1");
    const auto all = pin.query(query);
    for (std::size_t most : {std::size_t{1}, std::size_t{7}, std::size_t{100}, std::size_t{101}, SIZE_MAX}) {
        const auto count = static_cast<std::ptrdiff_t>(std::min<std::size_t>(most, 100));
        const auto first = pin.first(query, 0, most);
        CHECK(first == std::vector<Node>(all.begin(), all.begin() + count) && first.capacity() <= 200);
        CHECK(pin.first(query, all[99], most) == std::vector<Node>(1, all[99]) && pin.first(query, all[99] + 1, most).empty());
        auto any = pin.any(query, most);
        std::sort(any.begin(), any.end());
        CHECK(any.size() == static_cast<std::size_t>(count) && std::unique(any.begin(), any.end()) == any.end());
        CHECK(std::includes(all.begin(), all.end(), any.begin(), any.end()));
    }
}

// A cursor at a value and a node continues after this position, whether or not a node is there.
void positions()
{
    bestore::Store pass;
    for (const auto &[name, kind] : kinds)
        pass.make_index(name, kind);
    for (unsigned at = 0; at < 30; at++) {
        bestore::Batch batch;
        batch.new_node();
        for (const auto &[name, kind] : kinds)
            set(batch, at + 1, name, value_of(kind, at % 5));
        pass.apply(batch);
    }
    pass.remove_node(8);
    auto pin = pass.pin();
    bestore::Prepared query("u64>=0"), other("u64>0");
    for (const auto &[name, kind] : kinds)
        for (const Order &order : {Order(name), Order(name).descending()}) {
            const Keys keys = plain(pin, query, order);
            for (unsigned at = 0; at < 5; at++)
                for (Node node : {Node{0}, Node{8}, Node{11}, UINT64_MAX}) {
                    const Cursor after(query, order, value_of(kind, at), node);
                    CHECK(after.node() == Carried(node) && after.value() == value_of(kind, at));
                    const auto page = pin.page(query, after, 7);
                    CHECK(std::pair(page.nodes, page.more) == cut(keys, after, 7));
                }
        }
    CHECK(pin.page(query, Cursor(query, Order("text"), "aa"), 1).nodes == pin.page(query, Cursor(query, Order("text"), "ab"), 1).nodes);
    refused(BES_BAD_CURSOR, [&] { pin.page(query, Cursor(query, Order("i64"), std::int32_t{1}), 1); });
    refused(BES_BAD_CURSOR, [&] { pin.page(other, Cursor(query, Order("i64"), std::int64_t{1}), 1); });
    refused(BES_NOT_INDEXABLE, [&] { Cursor(query, Order("i64"), bestore::Raw{1}); });
    refused(BES_NOT_INDEXABLE, [&] { Cursor(query, Order("i64"), bestore::Mime{"a/b"}); });
    refused(BES_DATA_LENGTH, [&] { Cursor(query, Order("text"), std::string(256, 'x')); });
    refused(BES_HAS_NUL, [&] { Cursor(query, Order("text"), std::string(1, 0)); });
    refused(BES_NO_VALUE, [&] { Cursor(query, Order("i32"), bestore::Input(Kind::int32, INT64_MAX)); });
}

void refusals()
{
    bestore::Store pass;
    pass.make_index("size", Kind::int64);
    pass.set(pass.new_node(), "size", std::int64_t{5});
    bestore::Prepared query("size>0"), same("\"size\" > \"0\""), other("size>1"), uncovered("when>0");
    auto pin = pass.pin();
    const auto cursor = pin.page(query, Order("size"), 1).cursor;
    CHECK(std::get<std::int64_t>(*cursor.value()) == 5 && cursor.node() == Carried(1) && cursor.order().name() == "size");
    CHECK(pin.page(same, cursor, 1).nodes.empty());
    refused(BES_BAD_CURSOR, [&] { pin.page(other, cursor, 1); });
    refused(BES_NO_INDEX, [&] { pin.page(query, Order("when"), 1); });
    refused(BES_NOT_COVERED, [&] { pin.page(uncovered, Order("size"), 1); });
    refused(BES_NO_ROOM, [&] { pin.page(query, Order("size"), 0); });
    refused(BES_NO_ROOM, [&] { pin.first(query, 0, 0); });
    refused(BES_NO_ROOM, [&] { pin.any(query, 0); });
    refused(BES_NAME_LENGTH, [&] { Order("").descending(); });
    pin.unpin();
    refused(BES_NOT_PINNED, [&] { pin.page(query, Order("size"), 1); });
    pass.remove_index("size");
    pass.make_index("size", Kind::string);
    auto later = pass.pin();
    refused(BES_BAD_CURSOR, [&] { later.page(query, cursor, 1); });
}

// The size of a store in which size>=0 finds at least 96 nodes, the minimum for refreshing only what has changed, and a write to
// such a store.
constexpr unsigned sized = 300;

void resize(bestore::Pass &pass, std::mt19937 &chance)
{
    const Node node = 1 + chance() % sized;
    if (chance() % 4 == 0)
        pass.apply(bestore::Batch().set(pass.new_node(), "size", std::int64_t(chance() % 10) - 2));
    else
        pass.set(node, "size", std::int64_t(chance() % 10) - 2);
}

void fill(bestore::Pass &pass, std::mt19937 &chance)
{
    pass.make_index("size", Kind::int64);
    for (unsigned node = 0; node < sized; node += 50)
        pass.new_nodes(50);
    for (unsigned write = 0; write < 2 * sized; write++)
        resize(pass, chance);
}

void compare(bestore::Live &whole, bestore::Live &changed, bestore::Snapshot &snapshot)
{
    const auto one = whole.refresh(snapshot), other = changed.refresh_changed(snapshot);
    CHECK(one.created == other.created && one.removed == other.removed);
}

// Refreshing only what has changed gives the same result as running the whole query, even in another store and while another
// thread is writing.
void refreshes()
{
    std::mt19937 chance(0x11fe);
    bestore::Store here({2048, 2, 1000000}), there({2048, 2, 1000000});
    bestore::Live whole("size>=0"), changed("size>=0");
    fill(here, chance);
    fill(there, chance);
    for (unsigned round = 0; round < 60; round++) {
        bestore::Pass &pass = chance() % 4 == 0 ? static_cast<bestore::Pass &>(there) : here;
        for (auto writes = chance() % 12; writes > 0; writes--)
            resize(pass, chance);
        auto pin = pass.pin();
        compare(whole, changed, pin);
    }
    std::atomic<bool> is_over{false};
    std::thread writer([&is_over, pass = here.another()]() mutable {
        std::mt19937 other(7);
        while (!is_over)
            resize(pass, other);
    });
    for (unsigned round = 0; round < 100; round++) {
        auto pin = here.pin();
        compare(whole, changed, pin);
    }
    is_over = true;
    writer.join();
    auto pin = here.pin();
    pin.unpin();
    refused(BES_NOT_PINNED, [&] { changed.refresh_changed(pin); });
}

} // namespace

int main()
{
    pages();
    parts();
    positions();
    refusals();
    refreshes();
}
