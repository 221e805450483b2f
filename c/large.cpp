// Checks that nothing is cut in a store of 300,000 nodes, which is more than the first room that Snapshot makes for an answer: a query's
// nodes as a whole, in order and in part, a live query's changes, and the list of all nodes. With an argument, the store is smaller,
// because the test then runs under a tool that makes it slow.
#include "tests.hpp"
#include <algorithm>
#include <string>

using bestore::Node;
using bestore::Order;
using Nodes = std::vector<Node>;

namespace {

constexpr std::size_t list = 64;

// Creates this many nodes. The attribute `k` of each is its number below zero, so `k` orders the nodes backwards.
void fill(bestore::Store &store, Node count)
{
    store.make_index("k", bestore::Kind::int32);
    bestore::Batch batch;
    for (Node node = 1; node <= count; node++) {
        batch.new_node().set(node, "k", -static_cast<std::int32_t>(node));
        if (batch.size() == list || node == count) {
            store.apply(batch);
            batch.clear();
        }
    }
}

Nodes sorted(Nodes nodes)
{
    std::sort(nodes.begin(), nodes.end());
    return nodes;
}

// The answer in all forms of a query, from first to last.
void whole(bestore::Pin &pin, const Nodes &all)
{
    bestore::Prepared query("k<0");
    const auto predicate = bestore::Predicate().PushAttr("k").PushInt32(0).PushOp(bestore::B_LT);
    CHECK(pin.nodes() == all && pin.query("k<0") == all && pin.query(predicate) == all && pin.query(query) == all);
    CHECK(pin.count(query) == all.size() && pin.pairs("k") == all.size());
    CHECK(pin.first(query, 0, SIZE_MAX) == all && sorted(pin.any(query, SIZE_MAX)) == all);
    bestore::Live live("k<0");
    CHECK(live.refresh(pin).created == all);
    const auto values = pin.column(all, "k");
    for (std::size_t at = 0; at < all.size(); at++)
        CHECK(values[at] == bestore::Value(-static_cast<std::int32_t>(all[at])));
}

// Pages of this many nodes and, at the end, of the rest.
void paged(bestore::Pin &pin, const Order &order, const Nodes &all, std::size_t most)
{
    bestore::Prepared query("k<0");
    Nodes read;
    for (bestore::Page page{{}, true, bestore::Cursor(query, order)}; page.more;) {
        page = pin.page(query, page.cursor, most);
        CHECK(page.nodes.size() == std::min(most, all.size() - read.size()));
        read.insert(read.end(), page.nodes.begin(), page.nodes.end());
    }
    CHECK(read == all);
}

// The answer in both directions of the index, as one page, as pages, and node by node.
void ordered(bestore::Pin &pin, const Nodes &all)
{
    const Nodes backwards(all.rbegin(), all.rend());
    for (const std::size_t most : {SIZE_MAX, all.size(), all.size() - 1, all.size() / 3}) {
        paged(pin, Order("k"), backwards, most);
        paged(pin, Order("k").descending(), all, most);
    }
    bestore::Prepared query("k<0");
    Nodes read;
    for (const Node node : pin.ordered(query, Order("k")))
        read.push_back(node);
    CHECK(read == backwards);
}

// Parts that begin and end within the answer.
void parts(bestore::Pin &pin, const Nodes &all)
{
    bestore::Prepared query("k<0");
    const std::size_t most = all.size() - 7;
    CHECK(pin.first(query, 5, SIZE_MAX) == Nodes(all.begin() + 4, all.end()));
    CHECK(pin.first(query, 5, most) == Nodes(all.begin() + 4, all.end() - 3));
    CHECK(pin.nodes(5, most) == Nodes(all.begin() + 4, all.end() - 3));
    Nodes any = sorted(pin.any(query, most));
    CHECK(any.size() == most && std::unique(any.begin(), any.end()) == any.end());
    CHECK(std::includes(all.begin(), all.end(), any.begin(), any.end()));
}

} // namespace

int main(int argc, char **)
{
    const Node count = argc > 1 ? 3000 : 300000;
    bestore::Store store({count / 2, 1, UINT32_MAX});
    fill(store, count);
    Nodes all(count);
    std::iota(all.begin(), all.end(), Node{1});
    auto pin = store.pin();
    whole(pin, all);
    ordered(pin, all);
    parts(pin, all);
}
