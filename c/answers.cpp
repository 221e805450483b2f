// Reads answers around the size of the first room that Snapshot makes for them, and checks how often the query runs and how much room it
// gets. Filling a store for each size would take too long (large.cpp fills one), so here the calls that answer a query answer for a store
// with this many nodes, each of which the query finds. Linked with -Wl,--wrap for each of these calls.
#include "tests.hpp"

using bestore::Node;
using Nodes = std::vector<Node>;

namespace {

Node nodes_count = 0;     // the store's nodes are 1 to nodes_count
Node next = 0;            // the number of the next new node
std::uint64_t runs = 0;   // how often the query has run
std::uint64_t widest = 0; // the largest room in a call

// Writes the nodes from this one on, as many as fit.
std::uint32_t answer(Node from, Node *nodes, std::size_t room, std::uint64_t *count)
{
    runs++;
    widest = std::max<std::uint64_t>(widest, room);
    *count = 0;
    for (Node node = from; node <= nodes_count && *count < room; node++)
        nodes[(*count)++] = node;
    return room == 0 ? BES_NO_ROOM : BES_OK;
}

} // namespace

extern "C" {

std::uint32_t __wrap_bes_next(bes_pass *, std::uint64_t *node);
std::uint32_t __wrap_bes_query_prepared(bes_pass *, bes_prepared *, std::uint64_t *, std::size_t, std::uint64_t *count);
std::uint32_t __wrap_bes_first(bes_pass *, bes_prepared *, std::uint64_t from, std::uint64_t *nodes, std::size_t room,
                               std::uint64_t *count);
std::uint32_t __wrap_bes_any(bes_pass *, bes_prepared *, std::uint64_t *nodes, std::size_t room, std::uint64_t *count);
std::uint32_t __wrap_bes_ordered(bes_pass *, bes_prepared *, const bes_name *, std::uint32_t, bes_cursor *cursor, std::uint64_t *nodes,
                                 std::size_t room, std::uint64_t *count, std::uint32_t *more);

std::uint32_t __wrap_bes_next(bes_pass *, std::uint64_t *node)
{
    *node = next;
    return BES_OK;
}

std::uint32_t __wrap_bes_query_prepared(bes_pass *, bes_prepared *, std::uint64_t *, std::size_t, std::uint64_t *count)
{
    runs++;
    *count = nodes_count;
    return BES_OK;
}

std::uint32_t __wrap_bes_first(bes_pass *, bes_prepared *, std::uint64_t from, std::uint64_t *nodes, std::size_t room,
                               std::uint64_t *count)
{
    return answer(std::max<std::uint64_t>(from, 1), nodes, room, count);
}

std::uint32_t __wrap_bes_any(bes_pass *, bes_prepared *, std::uint64_t *nodes, std::size_t room, std::uint64_t *count)
{
    return answer(1, nodes, room, count);
}

// Here a cursor's length is the node where its page ended.
std::uint32_t __wrap_bes_ordered(bes_pass *, bes_prepared *, const bes_name *, std::uint32_t, bes_cursor *cursor, std::uint64_t *nodes,
                                 std::size_t room, std::uint64_t *count, std::uint32_t *more)
{
    const auto error = answer(Node{cursor->length} + 1, nodes, room, count);
    cursor->length += static_cast<std::uint32_t>(*count);
    *more = cursor->length < nodes_count ? 1 : 0;
    return error;
}

} // extern "C"

namespace {

Nodes from_to(Node from, Node to)
{
    Nodes nodes;
    while (from <= to)
        nodes.push_back(from++);
    return nodes;
}

// Reads up to `most` nodes of a store that has this many, and has had this many.
void read(Node count, Node ever, std::size_t most)
{
    bestore::Store store({64, 1, 100});
    auto pin = store.pin();
    bestore::Prepared query("size>0");
    const bestore::Cursor begin(query, bestore::Order("size"));
    nodes_count = count;
    next = ever + 1;
    const auto all = from_to(1, std::min<Node>(count, most));
    runs = widest = 0;
    CHECK(pin.first(query, 0, most) == all && pin.any(query, most) == all);
    const auto page = pin.page(query, begin, most), rest = pin.page(query, page.cursor, most);
    CHECK(page.nodes == all && page.more == (most < count));
    CHECK(rest.nodes == from_to(all.size() + 1, std::min<Node>(count, all.size() + all.size())));
    CHECK(pin.first(query, count, most) == Nodes{count} && pin.first(query, count + 1, most).empty());
    // The room isn't larger than it has to be, and the query runs at most three times for an answer.
    CHECK(widest <= std::max<std::uint64_t>(std::min<std::uint64_t>(most, count + 1), 1 << 18) && runs <= 3 * 6);
}

} // namespace

int main()
{
    constexpr Node past = 16384 * 12, first = 1 << 18;
    for (const Node count : {Node{1}, Node{300}, past, past + 1, first - 1, first, first + 1, Node{700000}})
        for (const std::size_t most : {std::size_t{1}, std::size_t{300}, std::size_t{past}, std::size_t{first}, std::size_t{600000}, SIZE_MAX})
            for (const Node ever : {count, UINT64_MAX - 1})
                read(count, ever, most);
}
