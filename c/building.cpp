// Tests Builder, which builds a store from a volume that is given in order, and is_held.
#include "tests.hpp"

using bestore::Builder;
using bestore::Kind;
using bestore::Store;

// A store with gaps in its numbers, and with attributes that no index has.
static Store built()
{
    const bestore::Attribute<std::string> from{"from"};
    Builder builder({512, 2, UINT32_MAX});
    builder.index(from).index("size", Kind::int32);
    builder.node(3).attribute(from, "ann", true).attribute("size", bestore::Input(Kind::int32, 5), false);
    Builder moved = std::move(builder);
    refused(BES_CLOSED, [&] { builder.node(4); });
    moved.node(9).attribute("from", bestore::Mime{"text/plain"}, false).attribute("size", std::int32_t{7}, true);
    refused(BES_NO_NODE, [&] { moved.node(9); });
    refused(BES_NO_ATTRIBUTE, [&] { moved.attribute("a", 1, false); });
    refused(BES_NOT_INDEXABLE, [&] { moved.node(10).attribute("size", "text", true); });
    return moved.finish(20);
}

static void begins_with_its_volume()
{
    Store store = built();
    bestore::Pin pin = store.pin();
    CHECK(pin.number() == 0);
    CHECK(pin.is_held(3, "from") && !pin.is_held(3, "size") && !pin.is_held(9, "from") && pin.is_held(9, "size"));
    CHECK(!pin.is_held(4, "size") && !pin.is_held(9, "none"));
    CHECK(pin.query("size>0") == std::vector<bestore::Node>{9} && pin.get<std::int32_t>(3, "size") == 5);
    Store next = pin.carry_on({64, 1, 1});
    CHECK(next.pin().is_held(9, "size"));
    pin.unpin();
    CHECK(store.new_node() == 20 && store.another().number() == 0);
}

static void ends()
{
    Builder builder;
    builder.node(5);
    refused(BES_NO_NODE, [&] { builder.finish(5); });
    refused(BES_CLOSED, [&] { builder.finish(6); });
    refused(BES_BAD_LIMITS, [] { Builder({7, 1, 1}); });
    builder = Builder();
    builder.close();
    refused(BES_CLOSED, [&] { builder.node(1); });
}

int main()
{
    static_assert(!std::is_copy_constructible_v<Builder> && std::is_nothrow_move_constructible_v<Builder>);
    begins_with_its_volume();
    ends();
}
