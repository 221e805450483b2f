// Tests the objects of bestore.hpp: what they return, what they throw, and whether they close themselves.
#include "bestore.hpp"
#include "tests.hpp"
#include <limits>
#include <thread>

using namespace bestore;
using Nodes = std::vector<Node>;

template <class T> constexpr bool moves_only = std::is_nothrow_move_constructible_v<T> && std::is_nothrow_move_assignable_v<T> &&
                                               !std::is_copy_constructible_v<T> && !std::is_copy_assignable_v<T>;
static_assert(moves_only<Store> && moves_only<Pass> && moves_only<Pin> && moves_only<State> && moves_only<Prepared> && moves_only<Live> &&
              moves_only<Witness>);

static void c_header()
{
    bes_batch batch = BES_BATCH_INIT;
    bes_pass pass = BES_PASS_INIT;
    std::uint64_t made[64] = {7}, number = 7;
    CHECK(bes_open(64, 1, 1, &pass) == BES_OK && bes_batch_new_node(&batch) == BES_OK);
    CHECK(bes_batch_apply(&pass, &batch, 1, made, 64, &number) == BES_OK && made[0] == 1 && number == 1);
    CHECK(bes_close(&pass) == BES_OK && bes_version() == BES_VERSION_NUMBER);
}

// Checks that a value is read back unchanged.
template <class T> void comes_back(Pass &pass, const Input &value, const T &expected)
{
    pass.set(1, "k", value);
    auto pin = pass.pin();
    CHECK(pin.get<T>(1, "k") == expected && std::get<T>(*pin.get(1, "k")) == expected);
    CHECK(pin.attributes(1).size() == 1 && std::get<T>(pin.attributes(1)[0].value) == expected);
    CHECK(!pin.get(2, "k") && !pin.get(1, "none"));
}

static void values()
{
    Store store({64, 1, 100});
    CHECK(store.new_node() == 1);
    comes_back<std::string>(store, "h\xc3\xa9", "h\xc3\xa9");
    comes_back<std::string>(store, std::string_view(), "");
    comes_back<std::string>(store, std::string(255, 'x'), std::string(255, 'x'));
    comes_back<Mime>(store, Mime{"text/plain"}, {"text/plain"});
    comes_back<Raw>(store, Raw{0, 255}, {0, 255});
    comes_back<Raw>(store, Raw(), {});
    comes_back<std::int32_t>(store, std::numeric_limits<std::int32_t>::min(), std::numeric_limits<std::int32_t>::min());
    comes_back<std::int64_t>(store, std::numeric_limits<std::int64_t>::min(), std::numeric_limits<std::int64_t>::min());
    comes_back<std::uint32_t>(store, std::numeric_limits<std::uint32_t>::max(), std::numeric_limits<std::uint32_t>::max());
    comes_back<std::uint64_t>(store, std::numeric_limits<std::uint64_t>::max(), std::numeric_limits<std::uint64_t>::max());
    comes_back<std::int64_t>(store, -1LL, -1);
    comes_back<std::uint64_t>(store, 1ULL, 1);
    comes_back<std::int32_t>(store, static_cast<short>(-1), -1);
    comes_back<std::string>(store, Value("ann"), "ann");
    comes_back<std::int32_t>(store, Value(-5), -5);
    auto pin = store.pin();
    CHECK(!pin.get<std::string>(1, "k"));
}

// Columns of several names have the values that get reads, even in a change, which sees what it has set.
static void columns()
{
    Store store({64, 1, 100});
    store.apply(Batch().new_node().new_node().new_node(), 0);
    store.apply(Batch().set(1, "name", "ann").set(1, "size", 1).set(3, "size", 3).set(3, "tag", Raw{0, 255}).remove_node(2), 0);
    const Nodes nodes{3, 1, 2, 9, 1};
    const std::vector<std::string_view> names{"size", "none", "name", "size", "tag"};
    const auto same = [&](auto &snapshot) {
        const auto columns = snapshot.columns(nodes, names);
        CHECK(columns.size() == names.size());
        for (std::size_t name = 0; name < names.size(); name++) {
            CHECK(columns[name].size() == nodes.size() && columns[name] == snapshot.column(nodes, names[name]));
            for (std::size_t node = 0; node < nodes.size(); node++)
                CHECK(columns[name][node] == snapshot.get(nodes[node], names[name]));
        }
    };
    store.change([&](Change &change) {
        change.set(1, "none", 5).set(3, "size", 4);
        same(change);
    });
    auto pin = store.pin();
    same(pin);
    CHECK(pin.columns({}, names).front().empty() && pin.columns(nodes, {}).empty() && pin.columns({1}, {}).empty());
    refused(BES_NAME_LENGTH, [&] { pin.columns(nodes, {"size", ""}); });
}

static void writes()
{
    Store store({64, 1, 8});
    Batch batch;
    CHECK(batch.empty());
    batch.make_index("size", Kind::int32).new_node().set(1, "size", -1).set(1, "name", "ann").new_node();
    const auto written = store.apply(batch, 0);
    CHECK(batch.size() == 5 && written.number == 1 && written.made == Nodes{0, 1, 0, 0, 2});
    batch.clear();
    refused(BES_BAD_COUNT, [&] { store.apply(batch); });
    store.apply(batch.unset(1, "size").remove_node(1).remove_index("size"), 1);
    store.make_index("name", Kind::string);
    store.remove_index("name");
    store.unset((store.set(2, "name", "bob"), 2), "name");
    refused(BES_NO_NODE, [&] { store.remove_node(1); });
    refused(BES_NAME_LENGTH, at_operation(0), [&] { store.set(2, "", 1); });
    refused(BES_DATA_LENGTH, at_operation(0), [&] { store.set(2, "k", std::string(256, 'x')); });
    refused(BES_NOT_INDEXABLE, [&] { store.make_index("k", Kind::raw); });
    refused(BES_NO_KIND, at_operation(0), [&] { store.make_index("k", static_cast<Kind>(1)); });
    refused(BES_NOT_UTF8, at_operation(1), [&] { store.apply(Batch().new_node().set(2, "k", "\xff").unset(2, "\xff")); });
    refused(BES_HAS_NUL, at_operation(2), [&] {
        store.apply(Batch().new_node().new_node().set(2, "k", std::string_view("a\0b", 3)));
    });
    store.remove_node(2);
    CHECK(store.new_node() == 3);
    refused(BES_COMMITS_SPENT, [&] { store.new_node(); });
    refused(BES_BAD_LIMITS, [] { Store({7, 1, 1}); });
    const auto journal = store.journal();
    CHECK(journal.rfind("1 by 0 mkindex \"size\" LONG; new; set 1 \"size\" LONG -1;", 0) == 0);
    CHECK(journal.substr(journal.rfind('\n', journal.size() - 2) + 1) == "8 by 0 new -> node 3\n");
}

// Creates three hundred nodes with the numbers 1 to 300.
static Store numbered()
{
    Store store({1024, 2, 1000});
    store.make_index("n", Kind::int64);
    store.make_index("name", Kind::string);
    for (Node node = 1; node <= 300; node++)
        store.apply(Batch().new_node().set(node, "n", static_cast<std::int64_t>(node)).set(node, "name", std::to_string(node)));
    return store;
}

static void queries()
{
    Store store = numbered();
    auto pin = store.pin();
    Nodes all(300);
    for (Node node = 1; node <= 300; node++)
        all[node - 1] = node;
    CHECK(pin.number() == 302 && pin.query("n>0") == all && pin.query("n<0").empty());
    CHECK(pin.explain("n<5") == "\"n\"<\"5\" score 3");
    std::string many = "n==1";
    for (int n = 2; n <= 100; n++)
        many += "||n==" + std::to_string(n);
    CHECK(pin.query(many).size() == 100 && pin.explain(many).size() > 256);
    CHECK(pin.ways("n<5") == "\"n\"  .. <5  about 4 keys, 4 walked\n" && pin.ways(many).size() > 256);
    CHECK(pin.indices().size() == 2 && pin.indices()[0].name == "n" && pin.indices()[0].kind == Kind::int64);
    CHECK(pin.attributes(7).size() == 2 && pin.attributes(7)[1].name == "name");
    CHECK(std::get<std::string>(pin.attributes(7)[1].value) == "7");
    refused(BES_NO_NODE, [&] { pin.attributes(301); });
    refused(BES_SYNTAX, at_byte(2), [&] { pin.query("n<"); });
    refused(BES_SYNTAX, at_byte(0), [&] { pin.query(std::string_view()); });
    refused(BES_SYNTAX, at_byte(9), [&] { pin.query("name==h\xc3\xa9)"); });
    refused(BES_BAD_PATTERN, at_byte(7), [&] { pin.explain("name==\"[a\""); });
    refused(BES_NOT_COVERED, at_byte(8), [&] { pin.query("n==1 || size==1"); });
    Prepared prepared("n>=299");
    CHECK(pin.query(prepared) == Nodes{299, 300});
    Prepared other = std::move(prepared);
    CHECK(pin.query(other) == Nodes{299, 300});
    refused(BES_CLOSED, [&] { pin.query(prepared); });
    Prepared positive("n>0");
    CHECK(pin.query(positive) == all && pin.count(positive) == 300 && pin.query(positive) == all);
    refused(BES_SYNTAX, at_byte(3), [] { Prepared("n>="); });
}

static void predicates()
{
    Store store = numbered();
    auto pin = store.pin();
    Predicate predicate;
    predicate.PushAttr("n").PushInt32(3).PushOp(B_LT);
    CHECK(pin.query(predicate) == Nodes{1, 2});
    predicate.PushAttr("name").PushString("30").PushOp(B_BEGINS_WITH).PushOp(B_OR);
    CHECK(pin.query(predicate) == Nodes{1, 2, 30, 300});
    predicate.PushAttr("n").PushUInt32(30).PushOp(B_NE).PushOp(B_AND);
    CHECK(pin.query(predicate) == Nodes{1, 2, 300});
    Prepared prepared(predicate);
    predicate.Clear();
    CHECK(pin.query(prepared) == Nodes{1, 2, 300});
    refused(BES_BAD_RPN, at_item(0), [&] { pin.query(predicate); });
    CHECK(pin.query(predicate.PushAttr("n").PushUInt64(2).PushOp(B_LE).PushOp(B_NOT)).size() == 298);
    CHECK(pin.query(Predicate().PushAttr("n").PushInt64(300).PushOp(B_GE)) == Nodes{300});
    CHECK(pin.query(Predicate().PushAttr("n").PushInt64(299).PushOp(B_GT)) == Nodes{300});
    CHECK(pin.query(Predicate().PushAttr("n").PushInt64(-1).PushOp(B_EQ)).empty());
    CHECK(pin.query(Predicate().PushAttr("name").PushString("99").PushOp(B_ENDS_WITH)) == Nodes{99, 199, 299});
    CHECK(pin.query(Predicate().PushAttr("name").PushString("00").PushOp(B_CONTAINS)) == Nodes{100, 200, 300});
    refused(BES_BAD_RPN, at_item(1), [] { Prepared(Predicate().PushAttr("n")); });
    refused(BES_NAME_LENGTH, at_item(0), [] { Prepared(Predicate().PushAttr("").PushInt32(1).PushOp(B_EQ)); });
    refused(BES_BAD_PATTERN, at_item(2), [] { Prepared(Predicate().PushAttr("n").PushString("[").PushOp(B_EQ)); });
}

static void live_queries()
{
    Store store({64, 1, 100});
    store.make_index("status", Kind::string);
    Live unread("status==New"), all(Predicate().PushAttr("status").PushString("").PushOp(B_GE));
    for (Node node = 1; node <= 3; node++)
        store.apply(Batch().new_node().set(node, "status", "New"));
    {
        auto pin = store.pin();
        const auto first = unread.refresh(pin);
        CHECK(first.created == Nodes{1, 2, 3} && first.removed.empty() && all.refresh(pin).created.size() == 3);
        CHECK(pin.query(unread).size() == 3);
    }
    store.set(2, "status", "Read");
    Live moved = std::move(unread);
    auto pin = store.pin();
    const auto next = moved.refresh(pin);
    CHECK(next.created.empty() && next.removed == Nodes{2});
    CHECK(all.refresh(pin).created.empty() && all.refresh(pin).removed.empty());
    refused(BES_CLOSED, [&] { unread.refresh(pin); });
    pin.unpin();
    refused(BES_NOT_PINNED, [&] { moved.refresh(pin); });
}

// A pin ends with its scope, and can still be read after its pass is moved.
static void pins()
{
    Store store({64, 2, 100});
    Pass other = store.another();
    refused(BES_NO_PASS, [&] { store.another(); });
    refused(BES_NO_PASS, [&] { store.meet(); });
    store.make_index("k", Kind::string);
    store.apply(Batch().new_node().set(1, "k", "v"));
    auto pin = other.pin();
    refused(BES_PINNED, [&] { (void)other.pin(); });
    Pass moved = std::move(other);
    refused(BES_CLOSED, [&] { other.new_node(); });
    store.set(1, "k", "w");
    CHECK(pin.number() == 2 && pin.query("k==v") == Nodes{1});
    Pin last = std::move(pin);
    refused(BES_NOT_PINNED, [&] { pin.query("k==v"); });
    CHECK(last.query("k==v") == Nodes{1});
    last.unpin();
    last.unpin();
    { CHECK(moved.pin().query("k==w") == Nodes{1}); }
    moved.close();
    CHECK(store.meet() == 3);
    Pass again = store.another();
    CHECK(again.pin().number() == 3);
    Store roomy;
    std::vector<Pass> others;
    while (others.size() < 62)
        others.push_back(roomy.another());
    refused(BES_NO_PASS, [&] { roomy.another(); });
}

// The last pass closes its store.
static void finishing()
{
    Store store({64, 2, 100});
    Pass other = store.another();
    store.new_node();
    refused(BES_IN_USE, [&] { store.finish(); });
    other.new_node();
    store.close();
    CHECK(other.finish() == "1 by 1 new -> node 1\n2 by 0 new -> node 2\n");
    refused(BES_CLOSED, [&] { other.finish(); });
    other.close();
}

// With a witness, a pass sees what another pass has seen, even in another thread. The witness outlives its store, and no other
// store accepts it.
static void witnesses()
{
    Store next({64, 1, 100});
    std::optional<Witness> kept;
    {
        Store store({64, 2, 100});
        Pass other = store.another();
        store.new_node();
        Witness witness = store.witness();
        std::thread([other = std::move(other), moved = std::move(witness)]() mutable {
            CHECK(other.join(moved) == 1 && other.join(moved) == 1 && other.pin().number() == 1);
            CHECK(other.apply(Batch().new_node()).number == 2 && other.join(moved) == 2);
        }).join();
        refused(BES_CLOSED, [&] { store.join(witness); });
        refused(BES_CLOSED, [&] { other.witness(); });
        kept = store.witness();
        CHECK(store.join(*kept) == 1 && store.pin().number() == 2);
    }
    bool is_thrown = false;
    try {
        next.join(*kept);
    } catch (const std::invalid_argument &) {
        is_thrown = true;
    }
    CHECK(is_thrown && next.pin().number() == 0);
}

static void nodes_and_status()
{
    Store store = numbered();
    CHECK(!store.status().oldest && store.status().pages == 1024 && store.status().entries == 302);
    for (int i = 0; i < 1100; i += 50) {
        Batch batch;
        while (batch.size() < 50)
            batch.new_node();
        if (store.status().entries < 1000)
            store.apply(batch);
    }
    auto pin = store.pin();
    CHECK(pin.nodes().size() == 1400 && pin.nodes().back() == 1400 && pin.nodes(1399) == Nodes{1399, 1400});
    CHECK(pin.nodes(7, 2) == Nodes{7, 8} && pin.nodes(0, 0).empty() && pin.nodes(1401).empty() && pin.nodes(UINT64_MAX).empty());
    store.new_node();
    const auto status = store.status();
    CHECK(status.oldest && status.oldest->version == pin.number() && status.oldest->pass_number == 1 && status.retired > 0);
    pin.unpin();
    refused(BES_NOT_PINNED, [&] { pin.nodes(); });
}

// A store's state is copied to another store in batches, which then has the same nodes, attributes and indices, and the same next
// node number.
static void states()
{
    Store store({256, 1, 1000}), next({256, 1, 1000});
    store.apply(Batch().new_node().new_node().set(1, "n", "outside").set(1, "r", Raw{0, 255}).remove_node(2).make_index("n", Kind::int64));
    for (Node node = 3; node <= 200; node++)
        store.apply(Batch().new_node().set(node, "n", static_cast<std::int64_t>(node)));
    Live live("n>0");
    auto pin = store.pin();
    CHECK(live.refresh(pin).created.size() == 198);
    std::size_t batches = 0, operations = 0;
    for (const Batch &batch : pin.state()) {
        CHECK(!batch.empty() && batch.size() <= 64);
        next.apply(batch, 1);
        batches++;
        operations += batch.size();
    }
    CHECK(operations == 200 + 1 + 2 + 1 + 198 && batches == (operations + 63) / 64);
    CHECK(next.new_node() == 201);
    next.remove_node(201);
    auto again = next.pin();
    CHECK(again.nodes() == pin.nodes() && again.query("n>0") == pin.query("n>0") && again.indices().size() == 1);
    CHECK(again.get<std::string>(1, "n") == "outside" && again.get<Raw>(1, "r") == Raw{0, 255});
    CHECK(live.refresh(again).created.empty() && live.refresh(again).removed.empty());
    State state = pin.state();
    auto at = state.begin();
    CHECK(at->size() == 64 && ++at != state.end());
    State moved = std::move(state);
    CHECK(moved.begin()->size() == 64);
    refused(BES_CLOSED, [&] { state.begin(); });
    pin.unpin();
    refused(BES_NOT_PINNED, [&] { moved.begin(); });
    refused(BES_NOT_PINNED, [&] { (void)pin.state(); });
}

// With BES_FULL, the number of the pinned snapshot is returned.
static void full()
{
    Store store({8, 1, 1000});
    const auto pin = store.pin();
    With with;
    with.least = 0;
    refused(BES_FULL, with, [&] {
        for (int i = 0; i < 100; i++)
            store.new_node();
    });
}

// The store closes with its last pass, which need not be the first one opened.
static void last_pass()
{
    Pass other = Store({64, 2, 100}).another();
    CHECK(other.new_node() == 1 && other.pin().number() == 1);
}

static void threads()
{
    constexpr int writes = 200;
    Store store({1024, 3, 1000});
    auto write = [](Pass pass) {
        for (int i = 0; i < writes; i++)
            pass.new_node();
    };
    std::thread first(write, store.another()), second(write, store.another());
    first.join();
    second.join();
    CHECK(store.pin().number() == 2 * writes);
}

// A query is parsed here and run in another thread through that thread's pass. A live query is moved there and back.
static void threads_hand_on_queries()
{
    Store store({64, 2, 100});
    store.make_index("n", Kind::int64);
    store.apply(Batch().new_node().set(1, "n", std::int64_t{5}));
    Live live("n>0");
    {
        auto pin = store.pin();
        CHECK(live.refresh(pin).created == Nodes{1});
    }
    std::thread asker([pass = store.another(), prepared = Prepared("n==5"), &live]() mutable {
        auto pin = pass.pin();
        CHECK(pin.query(prepared) == Nodes{1} && live.refresh(pin).created.empty());
    });
    asker.join();
    store.remove_node(1);
    auto pin = store.pin();
    CHECK(live.refresh(pin).removed == Nodes{1});
}

int main()
{
    c_header();
    values();
    columns();
    writes();
    queries();
    predicates();
    live_queries();
    pins();
    finishing();
    witnesses();
    nodes_and_status();
    states();
    full();
    last_pass();
    threads();
    threads_hand_on_queries();
}
