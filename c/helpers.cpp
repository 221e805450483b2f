// Tests the objects of bestore.hpp: changes, typed attributes, the journal's entries, batches as bytes, query texts, and objects
// in a forked child.
#define BES_WITHIN 60000 // milliseconds, so that another thread has time to unpin even on a loaded machine
#define BES_CHANGE_WITHIN 60000
#include "bestore.hpp"
#include "tests.hpp"
#include <chrono>
#include <sys/wait.h>
#include <thread>
#include <unistd.h>

using namespace bestore;
using Nodes = std::vector<Node>;

// How many requests for memory succeed before the one that is refused. If negative, none is refused. Valgrind puts its own operator in
// the place of this one, which then counts no request.
static long granted = -1, requests;
static std::size_t largest; // the bytes of the largest request

void *operator new(std::size_t size)
{
    requests++;
    largest = std::max(largest, size);
    void *memory = granted >= 0 && granted-- == 0 ? nullptr : std::malloc(size > 0 ? size : 1);
    if (memory == nullptr)
        throw std::bad_alloc();
    return memory;
}

// If these were inlined, the compiler would warn that memory from new goes to free.
[[gnu::noinline]] void operator delete(void *memory) noexcept { std::free(memory); }
[[gnu::noinline]] void operator delete(void *memory, std::size_t) noexcept { std::free(memory); }

static void change_writes_on_what_it_read()
{
    Store store({256, 2, 1000});
    store.make_index("count", Kind::int64);
    const auto first = store.change([](Change &change) {
        const Node node = change.create();
        change.set(node, "count", std::int64_t{0}).set(node, "name", "ann");
        CHECK(change.create() == node + 1 && change.batch().size() == 4);
        return node;
    });
    CHECK(first.number == 2 && first.value == 1);
    const std::uint64_t second = store.change([](Change &change) {
        CHECK(change.number() == 2 && change.query("count>=0") == Nodes{1} && change.count("count<0") == 0);
        for (int i = 0; i < 3; i++)
            change.set(1, "count", change.get<std::int64_t>(1, "count").value() + 1);
        CHECK(change.get<std::int64_t>(1, "count") == 3 && change.query("count==3").empty());
        CHECK(!change.unset(1, "name").get(1, "name") && change.remove_node(1).get(1, "count") == std::nullopt);
        CHECK(change.create() == 3 && !change.get(3, "count"));
    });
    CHECK(second == 3);
    auto pin = store.pin();
    CHECK(pin.nodes() == Nodes{2, 3});
    pin.unpin();
    CHECK(store.change([](Change &) {}) == 3);
    store.apply_if(3, Batch().remove_node(2));
    refused(BES_CONFLICT, [&] { store.apply_if(3, Batch().remove_node(3)); });
}

// During each of the first runs, another pass writes in between.
static void change_begins_again()
{
    Store store({256, 2, 1000});
    Pass other = store.another();
    store.new_node();
    int runs = 0;
    const auto add = [&](Change &change) {
        const auto count = change.get<std::int64_t>(1, "count").value_or(0);
        if (runs++ < 3)
            other.set(1, "count", count + 10);
        change.set(1, "count", count + 1);
        return count;
    };
    const auto [number, found] = store.change(add);
    CHECK(runs == 4 && number == 5 && found == 30 && other.pin().get<std::int64_t>(1, "count") == 31);
    runs = 1;
    With with;
    with.length = 7;
    refused(BES_CONFLICT, with, [&] { store.change(add, 2); });
    CHECK(other.pin().get<std::int64_t>(1, "count") == 51);
    // If the function throws an exception, the change ends and the pass is unpinned.
    try {
        store.change([](Change &change) -> int { throw std::runtime_error(std::to_string(change.create())); });
        CHECK(!"thrown");
    } catch (const std::runtime_error &error) {
        CHECK(std::string(error.what()) == "2");
    }
    refused(BES_NO_NODE, [&] { store.change([](Change &change) { change.remove_node(9); }); });
    refused(BES_BAD_COUNT, [&] {
        store.change([](Change &change) {
            for (int i = 0; i < 65; i++)
                change.create();
        });
    });
    auto pin = store.pin();
    refused(BES_PINNED, [&] { store.change([](Change &) {}); });
    CHECK(pin.number() == 7);
}

template <class Call> std::string mismatch(Pass &pass, Call call)
{
    try {
        pass.change(call);
    } catch (const KindMismatch &error) {
        return error.what();
    }
    return "";
}

static void own_pass_does_not_write_in_its_change()
{
    Store store({64, 2, 100});
    const Node node = store.new_node();
    auto other = store.another();
    int runs = 0;
    const auto in_change = [&](auto write) {
        refused(BES_NESTED, [&] {
            store.change([&](Change &change) {
                runs++;
                change.set(node, "a", 1);
                write();
            });
        });
    };
    in_change([&] { store.set(node, "a", 2); });
    in_change([&] { store.apply_if(1, Batch().new_node()); });
    in_change([&] { store.change([](Change &change) { change.create(); }); });
    CHECK(runs == 3 && store.status().entries == 1);
    CHECK(store.change([&](Change &change) { change.set(node, "a", 3); }) == 2 && other.new_node() == 2);
}

static void kinds_are_checked()
{
    Store store({256, 1, 1000});
    store.make_index("size", Kind::int64);
    store.make_index("text", Kind::string);
    store.new_node();
    const auto refused_as = [&](std::string_view name, const char *index, const char *value, auto set) {
        const auto expected = "the index \"" + std::string(name) + "\" takes values of kind " + index + ", and this one is " + value;
        CHECK(mismatch(store, set) == expected);
    };
    refused_as("size", "int64", "int32", [](Change &change) { change.set(1, "size", 5); });
    refused_as("size", "int64", "uint64", [](Change &change) { change.set(1, "size", 5ull); });
    refused_as("size", "int64", "string", [](Change &change) { change.set(1, "size", "5"); });
    refused_as("size", "int64", "raw", [](Change &change) { change.set(1, "size", Raw{5}); });
    refused_as("size", "int64", "mime", [](Change &change) { change.set(1, "size", Mime{"a/b"}); });
    refused_as("text", "string", "int32", [](Change &change) { change.set(1, "text", 5); });
    refused_as("text", "string", "mime", [](Change &change) { change.set(1, "text", Mime{"a/b"}); });
    refused_as("n", "uint32", "int32", [](Change &change) { change.make_index("n", Kind::uint32).set(1, "n", 5); });
    CHECK(mismatch(store, [](Change &change) { change.remove_index("size").set(1, "size", 5).make_index("size", Kind::int32); }).empty());
    CHECK(mismatch(store, [](Change &change) { change.set(1, "text", "ann").set(1, "other", 5); }).empty());
    CHECK(mismatch(store, [](Change &change) { change.any_kind().set(1, "size", "text").set(1, "text", 5); }).empty());
    CHECK(mismatch(store, [](Change &change) { change.any_kind().set(1, "size", 5ull); }).empty());
    CHECK(mismatch(store, [](Change &change) { change.set(1, "size", Kind::int32, 5ull); }).empty());
    CHECK(store.pin().query("size==5") == Nodes{1});
    refused(BES_NO_VALUE, [&] { store.set(1, "size", Kind::int32, std::int64_t{1} << 31); });
    refused(BES_NO_VALUE, [&] { store.set(1, "size", Kind::uint64, -1); });
    refused(BES_NO_VALUE, [&] { store.set(1, "size", Kind::string, 1); });
}

static void attributes_have_types()
{
    const Attribute<std::int64_t> size{"size"};
    const Attribute<std::uint32_t> mode{"mode"};
    const Attribute<std::string> name{"name"};
    const Attribute<Mime> type{"type"};
    const Attribute<Raw> icon{"icon"};
    Store store({256, 1, 1000});
    store.make_index(size);
    store.apply(Batch().make_index(name).make_index(mode).new_node());
    store.change([&](Change &change) {
        change.set(1, size, 5).set(1, name, "ann").set(1, type, Mime{"a/b"}).set(1, icon, Raw{0, 1}).set(1, mode, 7ull);
        CHECK(change.get(1, size) == 5);
    });
    auto pin = store.pin();
    CHECK(pin.query("size==5 && name==ann && mode==7") == Nodes{1} && pin.get(1, size) == 5 && pin.get(1, mode) == 7u);
    CHECK(pin.get(1, name) == "ann" && pin.get(1, type) == Mime{"a/b"} && pin.get(1, icon) == Raw{0, 1});
    CHECK(!pin.get(1, Attribute<std::int32_t>("size")) && pin.indices()[1].kind == Kind::string);
    pin.unpin();
    store.set(1, size, std::uint8_t{9});
    store.unset(1, mode);
    pin = store.pin();
    CHECK(pin.get(1, size) == 9 && !pin.get(1, mode));
    refused(BES_NO_VALUE, [&] { store.set(1, mode, -1); });
    refused(BES_NO_VALUE, [&] { store.set(1, size, UINT64_MAX); });
}

static void nodes_are_reserved()
{
    Store store({256, 2, 1000});
    Pass other = store.another();
    const auto nodes = store.new_nodes(3);
    CHECK(nodes == Nodes{1, 2, 3} && other.new_nodes(64).back() == 67 && store.number() == 1 && other.number() == 0);
    refused(BES_BAD_COUNT, [&] { store.new_nodes(0); });
    refused(BES_BAD_COUNT, [&] { store.new_nodes(65); });
}

// An index that is created late has all values of its kind once they are set again. Values of other kinds are left out.
static void reindexed()
{
    Store store({2048, 2, 10000});
    const std::pair<const char *, Value> all[] = {{"a", std::int32_t{-1}}, {"b", std::int64_t{-1}}, {"c", std::uint32_t{1}},
                                                  {"d", std::uint64_t{1}}, {"e", std::string("x")}};
    for (int i = 0; i < 300; i++)
        store.change([&](Change &change) {
            const Node node = change.create();
            for (const auto &[name, value] : all)
                change.set(node, name, value);
        });
    store.set(7, "a", "text");
    store.set(8, "e", 5);
    for (const auto &[name, value] : all) {
        store.make_index(name, Input(value).kind());
        store.set(100, name, value);
        CHECK(store.pin().pairs(name) == 1);
        const bool has_other = *name == 'a' || *name == 'e';
        CHECK(store.reindex(name) == (has_other ? 299 : 300) && store.pin().pairs(name) == (has_other ? 299 : 300));
    }
    refused(BES_NO_INDEX, [&] { store.reindex("none"); });
    // A name with a zero byte isn't taken for the name before it.
    refused(BES_NO_INDEX, [&] { store.reindex(std::string_view("a\0", 2)); });
    auto pin = store.pin();
    refused(BES_NO_INDEX, [&] { pin.pairs(std::string_view("a\0", 2)); });
    CHECK(pin.query("a<0").size() == 299 && pin.get<std::string>(7, "a") == "text");
    refused(BES_NO_INDEX, [&] { pin.pairs("none"); });
}

static void journal_is_read()
{
    Store store({256, 2, 1000});
    Pass other = store.another();
    store.make_index("n", Kind::int64);
    store.apply(Batch().new_node().set(1, "n", std::int64_t{-5}).new_node());
    other.apply(Batch().set(1, "r", Raw{0, 255}).unset(1, "n").remove_node(2).remove_index("n"));
    std::vector<Entry> entries;
    for (const Entry &entry : store.journal_from())
        entries.push_back(entry);
    CHECK(entries.size() == 3 && entries[0].number == 1 && entries[2].number == 3 && entries[0].pass == 1 && entries[2].pass == 0);
    const auto made = entries[0].batch.operations(), first = entries[1].batch.operations(), second = entries[2].batch.operations();
    CHECK(made[0].action == Action::make_index && made[0].kind == Kind::int64 && made[0].name == "n" && !made[0].value);
    CHECK(first[0].action == Action::new_node && first[0].node == 1 && first[2].node == 2 && first[1].action == Action::set);
    CHECK(first[1].value == Value(std::int64_t{-5}) && first[1].kind == Kind::int64 && first[1].node == 1);
    CHECK(second.size() == 4 && second[0].value == Value(Raw{0, 255}) && second[1].action == Action::unset && !second[1].kind);
    CHECK(second[2].action == Action::remove_node && second[2].node == 2 && second[3].action == Action::remove_index);
    // Read from a number on, and then continue with the entries added since.
    auto rest = store.journal_from(2);
    CHECK(rest.begin()->number == 3 && rest.begin() == rest.end());
    other.new_node();
    CHECK(rest.begin()->number == 4 && rest.begin() == rest.end() && store.journal_from(99).begin() == rest.end());
    // Replaying the entries one by one creates the same store.
    Store next({256, 1, 1000});
    for (const Entry &entry : store.journal_from())
        CHECK(next.apply(Batch::from_bytes(entry.batch.to_bytes())).number == entry.number);
    auto mine = store.pin(), theirs = next.pin();
    CHECK(theirs.nodes() == mine.nodes() && theirs.get(1, "r") == mine.get(1, "r"));
}

static void batches_as_bytes()
{
    const Batch batch = Batch().new_node().set(1, "n", "x").make_index("n", Kind::string);
    Raw bytes = batch.to_bytes();
    CHECK(bytes.size() == 5 + 9 + 17 + 7 && Batch::from_bytes(bytes).to_bytes() == bytes);
    CHECK(Batch::from_bytes(bytes).operations()[1].value == Value("x"));
    for (std::size_t length = 0; length < bytes.size(); length++) {
        try {
            Batch::from_bytes(Raw(bytes.begin(), bytes.begin() + static_cast<std::ptrdiff_t>(length)));
            CHECK(!"refused");
        } catch (const Refusal &refusal) {
            CHECK(refusal.number() == BES_BAD_PART && refusal.offset() <= length);
        }
    }
    bytes[5] = 9;
    refused(BES_NO_OPERATION, at_byte(5), [&] { Batch::from_bytes(bytes); });
    refused(BES_BAD_COUNT, [] { Batch().to_bytes(); });
    refused(BES_NAME_LENGTH, at_operation(1), [] { Batch().new_node().unset(1, std::string(64, 'x')).to_bytes(); });
    refused(BES_NAME_LENGTH, at_operation(1), [] { Batch().new_node().make_index("", Kind::int64).to_bytes(); });
    refused(BES_DATA_LENGTH, at_operation(0), [] { Batch().set(1, "k", std::string(256, 'x')).to_bytes(); });
}

static void texts()
{
    const Prepared prepared("!(a=1 && 'b c'<2) || a==\"[x]\"");
    CHECK(prepared.text() == "\"a\"!=\"1\" || \"b c\">=\"2\" || \"a\"==\"[x]\"");
    CHECK(prepared.names() == std::vector<std::string>{"a", "b c"});
    const auto comparisons = comparisons_of("!(a=1 && b\\ c<2)");
    CHECK(comparisons.size() == 2 && comparisons[1].name == "b c" && comparisons[1].op == B_LT && comparisons[1].value == "2");
    CHECK(comparisons[1].offset == 9 && comparisons[1].length == 6);
    refused(BES_SYNTAX, at_byte(2), [] { comparisons_of("a<"); });
    CHECK(escape("[draft].txt") == "\\[draft].txt" && escape("").empty() && escape("a b") == "a\\ b");
    CHECK(any_case("dR.[") == "[dD][rR].\\[" && any_case("\xc3\x89z\xe4\xb8\xad") == "[\xc3\xa9\xc3\x89][zZ]\xe4\xb8\xad");
    CHECK(any_case("\xc3\x97\xc3\xb7") == "\xc3\x97\xc3\xb7" && any_case("").empty());
    refused(BES_NOT_UTF8, [] { any_case("\xc3"); });
    refused(BES_NOT_UTF8, [] { escape("\xff"); });
    CHECK(caret("gr\xc3\xb6\xc3\x9f""e==[", 9) == "gr\xc3\xb6\xc3\x9f""e==[\n       ^" && caret("a\nb<", 4) == "b<\n  ^" && caret("", 3) == "\n^");
    CHECK(to_utf8("a\xff") == "a?" && to_utf8("\xc3\xa9\xc3\xa9", 3) == "\xc3\xa9" && to_utf8("").empty());
    CHECK(to_utf8("a\xff", std::string::npos) == "a?" && to_utf8("ab", 0).empty() && to_utf8(std::string_view()).empty());
    CHECK(to_utf8(std::string(300, 'x')).size() == 255 && to_utf8(std::string(300, 'x'), 299).size() == 299);
    CHECK(std::string(Refusal(BES_BUSY).name()) == "BES_BUSY");
    CHECK(Refusal(BES_BUSY).error_class() == ErrorClass::retry && Refusal(BES_CLOSED).error_class() == ErrorClass::gone);
    CHECK(Refusal(BES_FULL).error_class() == ErrorClass::full && Refusal(63).error_class() == ErrorClass::mine);
}

// A text finds all texts that differ only in case, whatever letters they have.
static void any_case_finds()
{
    Store store({512, 1, 100000});
    store.make_index("name", Kind::string);
    store.new_nodes(2);
    const std::pair<const char *, const char *> equal[] = {
        {"G\xc3\x9cNTHER", "G\xc3\xbcnther"}, {"\xce\xa3\xce\x91", "\xcf\x83\xce\xb1"}, {"\xd0\x96*", "\xd0\xb6*"},
        {"\xc4\x8d[", "\xc4\x8c["}, {"\xe1\xba\x9e", "\xc3\x9f"}
    };
    for (const auto &[one, other] : equal) {
        store.apply(Batch().set(1, "name", one).set(2, "name", other));
        CHECK(store.pin().query("name==" + any_case(one)) == (Nodes{1, 2}));
        CHECK(store.pin().query("name==\"" + any_case(other) + "\"") == (Nodes{1, 2}));
        CHECK(store.pin().query("name==\"" + escape(one) + "\"") == Nodes{1});
    }
}

static void questions()
{
    Store store({256, 1, 1000});
    store.make_index("size", Kind::int64);
    store.make_index("name", Kind::string);
    store.change([](Change &change) {
        for (std::int64_t i = 0; i < 5; i++)
            change.set(change.create(), "size", i);
    });
    auto pin = store.pin();
    Prepared small("size<2"), odd("size>1.5 || name==1.5 || !(size=='2024-01-01') || size=='-7'");
    CHECK(pin.count("size<2") == 2 && pin.count(small) == 2 && pin.count(Predicate().PushAttr("size").PushInt32(0).PushOp(B_GE)) == 5);
    refused(BES_NOT_COVERED, at_byte(12), [&] { pin.count("(size<2) || none==1"); });
    refused(BES_NOT_COVERED, at_byte(0), [&] { (void)pin.explain("none==1 && 'x'==2"); });
    refused(BES_SYNTAX, at_byte(5), [&] { pin.count("size<"); });
    refused(BES_SYNTAX, [&] { pin.uncovered(std::string_view()); });
    CHECK(pin.uncovered("size<2 && x==1") == 10 && !pin.uncovered("size<2") && pin.pairs("size") == 5 && pin.pairs("name") == 0);
    Prepared nowhere("(size<2) || none==1");
    Live unseen("none==1");
    refused(BES_NOT_COVERED, [&] { pin.count(nowhere); });
    refused(BES_NOT_COVERED, [&] { unseen.refresh(pin); });
    CHECK(pin.uncovered(nowhere.text()) == nowhere.text().find("\"none\""));
    const auto never = pin.never_true(odd);
    CHECK(never.size() == 2 && never[0].name == "size" && never[0].value == "1.5" && never[0].op == B_GT && never[0].offset == 0);
    CHECK(never[1].value == "2024-01-01" && never[1].op == B_NE && pin.never_true(small).empty());
}

// If memory runs out while a refresh returns what has changed, the next refresh returns it.
static void refused_memory_loses_no_change()
{
    Store store({256, 1, 10000});
    store.make_index("n", Kind::int64);
    store.new_nodes(4);
    const auto answer_is = [&](const Nodes &nodes) {
        for (Node node = 1; node <= 4; node++)
            store.set(node, "n", Kind::int64, std::find(nodes.begin(), nodes.end(), node) == nodes.end() ? 0 : 1);
    };
    int refusals = 0;
    for (long request = 0; request < 10; request++) {
        Live live("n>0");
        answer_is({1, 2});
        auto pin = store.pin();
        CHECK(live.refresh(pin).created == (Nodes{1, 2}));
        pin.unpin();
        answer_is({2, 3});
        pin = store.pin();
        bool is_refused = false;
        granted = request;
        try {
            const auto updates = live.refresh(pin);
            granted = -1;
            CHECK(updates.created == Nodes{3} && updates.removed == Nodes{1});
        } catch (const std::bad_alloc &) {
            is_refused = true;
        }
        granted = -1;
        pin.unpin();
        answer_is({2, 4});
        refused(BES_NOT_PINNED, [&] { live.refresh(pin); });
        pin = store.pin();
        const auto updates = live.refresh_changed(pin);
        CHECK(updates.created == Nodes{4} && updates.removed == Nodes{is_refused ? Node{1} : Node{3}});
        refusals += is_refused;
    }
    CHECK(refusals >= 2 || requests == 0);
}

// A string of 4 GiB or more is refused, and isn't cut off. It is refused before it is read.
static void huge_strings_are_refused()
{
    const std::string_view huge("x", std::size_t{UINT32_MAX} + 2);
    const auto is_refused = [](auto call) {
        try {
            call();
        } catch (const std::length_error &) {
            return true;
        }
        return false;
    };
    Store store({64, 1, 100});
    store.change([&](Change &change) {
        change.create();
        CHECK(is_refused([&] { change.set(1, "n", huge); }) && is_refused([&] { change.set(1, huge, 5); }));
        CHECK(is_refused([&] { Batch().set(1, "n", huge); }) && is_refused([&] { Predicate().PushString(huge); }));
        CHECK(change.batch().size() == 1);
    });
}

// A part of an answer takes the memory of its nodes, and its call requests no more than the first room needs, however many nodes there have
// been, and however many are asked for.
static void parts_take_little_memory()
{
    constexpr Node room = detail::first_room;
    Store store({256, 1, 100000});
    Batch removes;
    store.make_index("n", Kind::int64);
    store.set(store.new_node(), "n", Kind::int64, 7);
    for (Node last = 1; last <= room; last += 64) {
        const auto made = store.new_nodes(64);
        removes.clear();
        for (Node node : made)
            removes.remove_node(node);
        store.apply(removes);
    }
    auto pin = store.pin();
    Prepared query("n==7");
    largest = 0;
    const auto first = pin.first(query, 0, SIZE_MAX), any = pin.any(query, SIZE_MAX), page = pin.page(query, Order("n"), SIZE_MAX).nodes;
    CHECK(first == Nodes{1} && any == first && page == first && largest <= room * sizeof(Node));
    CHECK(first.capacity() < 64 && any.capacity() < 64 && page.capacity() < 64);
}

// After BES_FULL, a write waits for another pass to unpin, but not for its own.
static void full_store_waits()
{
    Store store({16, 2, 10000});
    Pass other = store.another();
    store.new_node();
    const auto fill = [&] {
        try {
            for (;;)
                store.apply(Batch().new_node(), 1);
        } catch (const Refusal &refusal) {
            CHECK(refusal.number() == BES_FULL);
        }
    };
    for (int i = 0; i < 2; i++) {
        auto pin = other.pin();
        fill();
        std::thread later([&] {
            std::this_thread::sleep_for(std::chrono::milliseconds(50));
            pin.unpin();
        });
        if (i == 0)
            store.new_node();
        else
            store.change([](Change &change) { change.create(); });
        later.join();
    }
    auto own = store.pin();
    fill();
    const auto begin = std::chrono::steady_clock::now();
    With with;
    with.least = own.number();
    refused(BES_FULL, with, [&] { store.new_node(); });
    CHECK(std::chrono::steady_clock::now() - begin < std::chrono::milliseconds(BES_WITHIN));
}

// In a forked child, using the parent's objects throws an exception, and their destructors do nothing. The child's own store
// works as usual.
static void forked()
{
    Store store({64, 3, 100});
    Pass other = store.another();
    Prepared prepared("n==1");
    auto pin = other.pin();
    auto state = pin.state();
    auto entries = store.journal_from();
    Witness witness = store.witness();
    std::fflush(nullptr);
    const pid_t child = fork();
    CHECK(child >= 0);
    if (child == 0) {
        refused(BES_CLOSED, [&] { store.new_node(); });
        refused(BES_CLOSED, [&] { (void)store.another(); });
        refused(BES_CLOSED, [&] { pin.nodes(); });
        refused(BES_CLOSED, [&] { (void)prepared.text(); });
        refused(BES_CLOSED, [&] { store.change([](Change &) {}); });
        refused(BES_CLOSED, [&] { state.begin(); });
        refused(BES_CLOSED, [&] { entries.begin(); });
        refused(BES_CLOSED, [&] { (void)store.witness(); });
        refused(BES_CLOSED, [&] { store.join(witness); });
        { Witness ends = std::move(witness); }
        pin.unpin();
        store.close();
        Store own({64, 1, 100});
        CHECK(own.new_node() == 1 && own.pin().nodes() == Nodes{1});
        { Pass ends = std::move(other); }
        execlp("true", "true", static_cast<char *>(nullptr)); // exits without a leak report
        _exit(1);
    }
    int status = 0;
    CHECK(waitpid(child, &status, 0) == child && WIFEXITED(status) && WEXITSTATUS(status) == 0);
    CHECK(store.new_node() == 1 && pin.nodes().empty() && store.status().oldest->pass_number == 1);
    CHECK(store.join(witness) == 1);
}

// A child that is forked in the function of a change can't use the change.
static void forked_in_a_change()
{
    Store store({64, 1, 100});
    pid_t child = 0;
    store.change([&](Change &change) {
        change.create();
        std::fflush(nullptr);
        child = fork();
        CHECK(child >= 0);
        if (child > 0)
            return;
        refused(BES_CLOSED, [&] { change.create(); });
        refused(BES_CLOSED, [&] { change.get(1, "a"); });
        refused(BES_CLOSED, [&] { (void)change.batch(); });
        refused(BES_CLOSED, [&] { change.any_kind(); });
        execlp("true", "true", static_cast<char *>(nullptr)); // exits without a leak report
        _exit(1);
    });
    int status = 0;
    CHECK(waitpid(child, &status, 0) == child && WIFEXITED(status) && WEXITSTATUS(status) == 0);
    CHECK(store.pin().nodes() == Nodes{1});
}

// `short` skips the test that writes many nodes.
int main(int argc, char **argv)
{
    change_writes_on_what_it_read();
    change_begins_again();
    own_pass_does_not_write_in_its_change();
    kinds_are_checked();
    attributes_have_types();
    nodes_are_reserved();
    reindexed();
    journal_is_read();
    batches_as_bytes();
    texts();
    any_case_finds();
    questions();
    full_store_waits();
    refused_memory_loses_no_change();
    huge_strings_are_refused();
    if (argc < 2 || std::string(argv[1]) != "short")
        parts_take_little_memory();
    forked();
    forked_in_a_change();
}
