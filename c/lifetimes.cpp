// Uses objects whose store, pass, pin or query has ended first. Each call has to throw the error that bestore.hpp names, and nothing may be
// read or freed twice, which the sanitizers and valgrind check.
#include "bestore.hpp"
#include "tests.hpp"
#include <thread>

using namespace bestore;
using Nodes = std::vector<Node>;

static const Order by_size("size");

// Opens a store with a hundred nodes that have an indexed size.
static Store filled()
{
    Store store({256, 3, 1000});
    store.make_index("size", Kind::int64);
    for (int batch = 0; batch < 2; batch++)
        for (const Node node : store.new_nodes(50))
            store.set(node, "size", static_cast<std::int64_t>(node));
    return store;
}

// Checks that all calls on a pin throw this error.
static void is_over(Pin &pin, std::uint32_t error)
{
    Prepared query("size>0");
    Live live("size>0");
    refused(error, [&] { pin.query("size>0"); });
    refused(error, [&] { pin.query(query); });
    refused(error, [&] { pin.page(query, by_size, 10); });
    refused(error, [&] { pin.first(query, 0, 10); });
    refused(error, [&] { pin.any(query, 10); });
    refused(error, [&] { pin.get(1, "size"); });
    refused(error, [&] { pin.columns({1}, {"size"}); });
    refused(error, [&] { pin.nodes(); });
    refused(error, [&] { pin.indices(); });
    refused(error, [&] { pin.uncovered("size>0"); });
    refused(error, [&] { live.refresh(pin); });
    refused(error, [&] { live.refresh_changed(pin); });
}

// The store is closed while a pin and what came from it exist.
static void closed_store()
{
    Store store = filled();
    Prepared query("size>0");
    auto pin = store.pin();
    auto state = pin.state(), unread = pin.state();
    auto ordered = pin.ordered(query, by_size), unstarted = pin.ordered(query, by_size);
    auto entries = store.journal_from();
    CHECK(*ordered.begin() == 1 && !state.begin()->empty() && entries.begin()->number == 1);
    store.close();
    is_over(pin, BES_CLOSED);
    refused(BES_CLOSED, [&] { state.begin(); });
    refused(BES_CLOSED, [&] { unread.begin(); });
    refused(BES_CLOSED, [&] { unstarted.begin(); });
    refused(BES_CLOSED, [&] { entries.begin(); });
    refused(BES_CLOSED, [&] { (void)store.pin(); });
    pin.unpin();
    is_over(pin, BES_NOT_PINNED);
}

// The members of a class end in the reverse order, so here the store ends before the pin, and the pin before what came from it.
struct Reversed {
    std::optional<Ordered> ordered;
    std::optional<State> state;
    std::optional<Entries> entries;
    std::optional<Pin> pin;
    Prepared query{"size>0"};
    Store store = filled();

    Reversed()
    {
        pin = store.pin();
        state = pin->state();
        ordered = pin->ordered(query, by_size);
        entries = store.journal_from();
        CHECK(!state->begin()->empty() && *ordered->begin() == 1);
    }
};

// A store is replaced by another one under a pin. The pin's store is closed, and the new one isn't affected.
static void replaced_store()
{
    Store store = filled();
    auto pin = store.pin();
    store = Store({64, 1, 100});
    is_over(pin, BES_CLOSED);
    auto next = store.pin();
    pin.unpin();
    CHECK(next.nodes().empty() && store.new_node() == 1);
    refused(BES_PINNED, [&] { (void)store.pin(); });
}

// The objects of a query end before a range that was made with them.
static void ended_query()
{
    Store store = filled();
    auto pin = store.pin();
    std::optional<Prepared> query("size>0");
    auto ordered = pin.ordered(*query, by_size), same = pin.ordered(*query, by_size);
    CHECK(*ordered.begin() == 1);
    auto moved = std::move(*query);
    CHECK(*same.begin() == 1);
    moved = Prepared("size<0");
    refused(BES_CLOSED, [&] { pin.ordered(*query, by_size); });
    query.reset();
    for (int node = 2; node <= 64; node++)
        CHECK(*ordered.begin() == static_cast<Node>(node)); // the rest of the first page
    refused(BES_CLOSED, [&] { ordered.begin(); });
}

// What came from a pin doesn't read through the pass's next pin.
static void next_pin()
{
    Store store = filled();
    Prepared query("size>0");
    auto pin = store.pin();
    auto state = pin.state();
    auto ordered = pin.ordered(query, by_size);
    refused(BES_PINNED, [&] { pin = store.pin(); });
    CHECK(pin.count(query) == 100);
    pin.unpin();
    pin = store.pin();
    refused(BES_NOT_PINNED, [&] { state.begin(); });
    refused(BES_NOT_PINNED, [&] { ordered.begin(); });
    Pin moved = std::move(pin);
    auto later = moved.ordered(query, by_size);
    Pin again = std::move(moved);
    CHECK(*later.begin() == 1 && again.count(query) == 100);
    refused(BES_NOT_PINNED, [&] { moved.ordered(query, by_size); });
}

// A change whose function closes its store ends with an error, whether or not it has operations.
static void closed_in_a_change()
{
    for (const bool has_operation : {false, true}) {
        Store store = filled();
        refused(BES_CLOSED, [&] {
            store.change([&](Change &change) {
                if (has_operation)
                    change.create();
                store.close();
                refused(BES_CLOSED, [&] { change.get(1, "size"); });
            });
        });
        Store other = filled();
        refused(BES_CLOSED, [&] {
            other.change([&](Change &change) {
                if (has_operation)
                    change.create();
                other = Store({64, 1, 100});
                throw Refusal(BES_CLOSED);
            });
        });
        CHECK(other.new_node() == 1);
    }
}

// A change's function moves or destroys the object that runs it.
static void moved_in_a_change()
{
    Store store = filled();
    std::optional<Store> moved;
    int runs = 0;
    store.change([&](Change &change) {
        if (runs++ == 0) {
            moved = std::move(store);
            moved->another().new_node(); // so the change runs again
        }
        refused(BES_NESTED, [&] { moved->new_node(); });
        change.create();
    });
    CHECK(runs == 2 && moved->new_node() == 103);
    refused(BES_CLOSED, [&] { store.new_node(); });
    refused(BES_CLOSED, [&] {
        moved->change([&](Change &change) {
            change.create();
            moved.reset();
        });
    });
}

// Live queries, witnesses and cursors outlive their store, and aren't taken for those of a store that may have its place in memory.
static void outlived_store()
{
    Live live("size>0");
    std::optional<Witness> witness;
    std::optional<Cursor> cursor;
    {
        Store store = filled();
        auto pin = store.pin();
        CHECK(live.refresh(pin).created.size() == 100);
        Prepared query("size>0");
        cursor = pin.page(query, by_size, 10).cursor;
        witness = store.witness();
    }
    Prepared query("size>0");
    for (int i = 0; i < 20; i++) {
        Store store({64, 1, 100});
        try {
            store.join(*witness);
            CHECK(!"refused");
        } catch (const std::invalid_argument &) {
        }
        store.make_index("size", Kind::int64);
        auto pin = store.pin();
        CHECK(live.refresh_changed(pin).removed.size() == (i == 0 ? 100 : 0) && pin.page(query, *cursor, 1).nodes.empty());
    }
}

// Another thread closes the pass of a pin.
static void closed_in_another_thread()
{
    Store store = filled();
    Pass other = store.another();
    auto pin = other.pin();
    std::thread([ended = std::move(other)] {}).join();
    is_over(pin, BES_CLOSED);
    CHECK(!store.status().oldest);
}

int main()
{
    closed_store();
    { Reversed reversed; }
    replaced_store();
    ended_query();
    next_pin();
    closed_in_a_change();
    moved_in_a_change();
    outlived_store();
    closed_in_another_thread();
}
