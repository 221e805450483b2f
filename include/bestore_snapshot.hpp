// Prepared queries and snapshots of bestore for C++17. Include bestore.hpp, which includes this file.
#ifndef BESTORE_SNAPSHOT_HPP
#define BESTORE_SNAPSHOT_HPP

#include "bestore_handles.hpp"
#include "bestore_results.hpp"
#include "bestore_text.hpp"
#include "bestore_values.hpp"

#include <algorithm>
#include <chrono>
#include <iterator>
#include <memory>

namespace bestore {

namespace detail {

// The calls of libbestore that bestore_results.hpp makes.
struct StoreCalls {
    using Position = bes_cursor;
    static constexpr auto *attributes = bes_attributes;
    static constexpr auto *check_name = bes_check_name;
    static constexpr auto *columns = bes_columns;
    static constexpr auto *cursor_value = bes_cursor_value;
    static constexpr auto *indices = bes_indices;
    static constexpr std::size_t room_of_a_cell = 32;
    static void check(std::uint32_t error) { detail::check(error); }
};

// Like whole() of bestore_results.hpp, for a call that returns its error. With an error, the count is what it carries.
template <class List, class Call> List whole(std::size_t room, Place place, Call call)
{
    return whole<List>(room, [&](auto *items, std::size_t items_room, std::uint64_t *count) {
        const std::uint32_t error = call(items, items_room, count);
        check(error, *count, place);
    });
}

// How long after its first failed try a call gives up, and how long a change does.
inline constexpr std::chrono::milliseconds time_to_write{BES_WITHIN}, time_to_change{BES_CHANGE_WITHIN};

// Returns the state of a helper that makes up to `tries` tries, and gives up this long after the first failed one.
inline bes_retry retry_of(std::uint32_t tries, std::chrono::milliseconds within, bes_turn *turn)
{
    const auto most = std::clamp<std::chrono::milliseconds::rep>(within.count(), 1, UINT32_MAX);
    return {tries > 0 ? tries - 1 : 0, 1, 0, static_cast<std::uint32_t>(most), turn};
}

// Takes the turn to write to a store, if it is free in time, and gives it back at the end.
class Turn {
public:
    explicit Turn(bes_retry &retry) : turn_(bes_take_turn(&retry) ? retry.turn : nullptr) {}
    Turn(const Turn &) = delete;
    Turn &operator=(const Turn &) = delete;
    ~Turn()
    {
        if (turn_ != nullptr)
            bes_end_turn(turn_);
    }

private:
    bes_turn *turn_;
};

// Repeats a call, at its turn, for as long as bes_again returns true. Returns the call's error. The call writes the number reported with
// the error to `number`.
template <class Call> std::uint32_t tried(bes_pass *pass, bes_retry retry, const std::uint64_t &number, Call call)
{
    std::uint32_t error = BES_OK;
    do {
        const Turn turn(retry);
        error = call();
    } while (bes_again(pass, error, number, &retry));
    return error;
}

} // namespace detail

// A query that is parsed once. It isn't tied to a store, and can be run in any snapshot.
class Prepared {
public:
    explicit Prepared(std::string_view text)
    {
        std::uint64_t at = 0;
        const auto error = bes_prepare(detail::bytes_of(text), text.size(), handle(), &at);
        detail::check(error, at, detail::Place::byte);
    }

    explicit Prepared(const Predicate &predicate)
    {
        std::uint64_t at = 0;
        const auto error = bes_prepare_items(detail::begin_of(predicate.items_), predicate.items_.size(),
                                             detail::bytes_of(predicate.bytes_), predicate.bytes_.size(), handle(), &at);
        detail::check(error, at, detail::Place::item);
    }

    // Returns the canonical text.
    std::string text() const
    {
        return detail::whole<std::string>(256, detail::Place::none, [&](char *text, std::size_t room, std::uint64_t *count) {
            return bes_prepared_text(handle(), reinterpret_cast<std::uint8_t *>(text), room, count);
        });
    }

    // Returns the names of the query's attributes, in order and without duplicates. Throws BES_TOO_LONG if the canonical text has more than
    // 4,096 bytes.
    std::vector<std::string> names() const { return names_of(text()); }

protected:
    friend class Snapshot;

    bes_prepared *handle() const { return detail::opened(handle_.shared()); }

private:
    detail::Handle<bes_prepared, bes_release> handle_;
};

// A record of what a pass has seen of its store, which a pass of the same store in another thread can join. Pass::witness creates a
// witness, and Pass::join joins it.
class Witness {
private:
    friend class Pass;

    explicit Witness(detail::Identity store) : store_(std::move(store)) {}

    bes_witness *handle() const { return detail::opened(handle_.shared()); }

    detail::Handle<bes_witness, bes_dismiss> handle_;
    detail::Identity store_;
};

namespace detail {

// Returns the sum of two successive changes. A node that came and then left, or that left and then came, is in neither list.
inline Updates combined(const Updates &first, Updates then)
{
    using Nodes = std::vector<Node>;
    if (first.created.empty() && first.removed.empty())
        return then;
    Nodes came, went, created, removed;
    std::set_union(first.created.begin(), first.created.end(), then.created.begin(), then.created.end(), std::back_inserter(came));
    std::set_union(first.removed.begin(), first.removed.end(), then.removed.begin(), then.removed.end(), std::back_inserter(went));
    std::set_difference(came.begin(), came.end(), went.begin(), went.end(), std::back_inserter(created));
    std::set_difference(went.begin(), went.end(), came.begin(), came.end(), std::back_inserter(removed));
    return {std::move(created), std::move(removed)};
}

// The largest room that is made for some of a query's nodes, before it is known how many the query finds.
inline constexpr Node first_room = 1 << 18;

// Returns an index's name as a string that ends at its first zero byte. Throws BES_NO_INDEX for a name that contains one, because no index
// has such a name.
inline std::string index_name(std::string_view name)
{
    if (name.find('\0') != std::string_view::npos)
        throw Refusal(BES_NO_INDEX);
    return std::string(name);
}

} // namespace detail

class Store;
struct Limits;

using Order = detail::OrderOf<detail::StoreCalls>;

// A position in a query's ordered result: that of a page's last node, or of a value and a node. The next page begins just after it, even in
// a later snapshot, whatever was written in between.
class Cursor : public detail::CursorOf<detail::StoreCalls> {
public:
    // Creates a cursor at the beginning of the query's result.
    Cursor(const Prepared &query, const Order &order) : CursorOf(order), query_(query.text()) {}

    // Creates a cursor at the position of a value and a node, whether or not the node has this value. With node 0, the position is before all
    // nodes that have the value; in the descending order, it is after them. Throws BES_NOT_INDEXABLE, BES_DATA_LENGTH or BES_HAS_NUL for a
    // value that no index has. If the index is of another kind than the value, reading a page throws BES_BAD_CURSOR.
    //
    //     pin.page(query, bestore::Cursor(query, bestore::Order("name"), "ann"), 10) // the first names from "ann" on
    Cursor(const Prepared &query, const Order &order, const Input &value, Node node = 0) : Cursor(query, order)
    {
        const bes_attribute raw{static_cast<std::uint32_t>(value.kind()), value.bytes().size(), value.number()};
        detail::check(bes_cursor_at(&raw, detail::bytes_of(value.bytes()), node, &raw_));
    }

private:
    friend class Snapshot;

    std::string query_; // its canonical text
};

using Page = detail::PageOf<Cursor>;

// A range of the nodes that a query finds, in a given order, as returned by Snapshot::ordered. It is read page by page, and can be iterated
// over only once, while the query and the snapshot exist: after that, begin() throws BES_CLOSED or BES_NOT_PINNED.
//
//     for (bestore::Node node : pin.ordered(query, bestore::Order("MAIL:when").descending()))
class Ordered : public detail::Paged<Ordered, Cursor, 64, 4096> {
private:
    friend class detail::Paged<Ordered, Cursor, 64, 4096>;
    friend class Snapshot;

    Ordered(detail::Pinned pin, std::shared_ptr<detail::Opened<bes_prepared>> query, const Cursor &after)
        : Paged(after), pin_(std::move(pin)), query_(std::move(query))
    {
    }

    Page read(const Cursor &after, std::size_t most);

    detail::Pinned pin_;
    std::shared_ptr<detail::Opened<bes_prepared>> query_;
};

// A query whose refresh returns how its result has changed since the last refresh. The first refresh returns all nodes in the result.
class Live : public Prepared {
public:
    using Prepared::Prepared;

    // Runs the query in the snapshot, and returns what has changed. Always use snapshots of the same store, or of another store into which
    // the first store's state was copied. This call runs the whole query and takes no lock, so it never makes another pass's write return
    // BES_BUSY.
    Updates refresh(Snapshot &snapshot);

    // Returns the same as refresh(), but calls bes_refresh_changed, which reads what has been written since the last refresh, and checks
    // only the nodes that were written. If the result has 96 nodes or more and few nodes have been written, this takes less time, but
    // writes by other passes return BES_BUSY while it runs. Otherwise, or if the last refresh was in another store, the call runs the whole
    // query.
    Updates refresh_changed(Snapshot &snapshot);

private:
    Updates refreshed(Snapshot &snapshot, decltype(bes_refresh) *call);

    // Reads the changes that the library found in the last refresh, unless they have been read. If memory runs out, nothing is changed.
    void read_changes();

    detail::Identity store_;            // the store of the last refresh
    std::optional<bes_updates> unread_; // how many nodes the last refresh added and removed, until they are read
    Updates read_;                      // the changes that have been read but not returned, because an exception was thrown
};

// The operations that rebuild a snapshot in an empty store, as batches of 1 to 64 operations. Each batch is written in one transaction. The
// batches can be iterated over only once.
//
//     for (const bestore::Batch &batch : pin.state())
//         other.apply(batch);
class State {
public:
    using Iterator = detail::Iterator<State, Batch>;

    // Starts at the next batch.
    Iterator begin()
    {
        auto *const place = detail::opened(place_.shared());
        detail::check(item_.read([&](auto... room) { return bes_state(pin_.get(), place, room...); }));
        return Iterator(item_.empty() ? nullptr : this);
    }
    Iterator end() { return Iterator(nullptr); }

private:
    friend Iterator;
    friend class Pin;

    explicit State(detail::Pinned pin) : pin_(std::move(pin)) {}

    detail::Pinned pin_;
    detail::Handle<bes_place, bes_leave> place_;
    Batch item_;
};

// What a pass reads: the store as it was when the pass was pinned, whatever is written in the meantime. Either a Pin or a Change.
class Snapshot : public detail::Reads<Snapshot, detail::StoreCalls> {
public:
    // Returns the snapshot's number: how many transactions it includes.
    std::uint64_t number() const noexcept { return number_; }

    // Returns the nodes that match the query, in ascending order.
    std::vector<Node> query(std::string_view text)
    {
        return found([&](auto... room) { return asked(text, room...); }, detail::Place::byte);
    }
    std::vector<Node> query(const Predicate &predicate)
    {
        return found([&](auto... room) { return asked(predicate, room...); }, detail::Place::item);
    }
    std::vector<Node> query(Prepared &prepared)
    {
        std::vector<Node> nodes(256);
        std::uint64_t count = 0;
        const auto room = nodes.size();
        detail::check(bes_query_prepared(handle(), prepared.handle(), nodes.data(), room, &count));
        nodes.resize(count);
        if (count > room)
            detail::check(bes_found(prepared.handle(), room, nodes.data() + room, count - room, &count));
        return nodes;
    }

    // Returns the first `most` nodes, in this order, among those that match the query and have a value in the order's index. Throws
    // BES_NO_INDEX, and BES_NO_ROOM if `most` is 0.
    Page page(Prepared &query, const Order &order, std::size_t most) { return page(query, Cursor(query, order), most); }

    // Returns the next page: the nodes after a cursor, in the cursor's order. Also throws BES_BAD_CURSOR if the cursor belongs to another
    // query.
    Page page(Prepared &query, const Cursor &after, std::size_t most)
    {
        check_cursor(query, after);
        return read_page(handle(), query.handle(), after, most);
    }

    // Returns all these nodes in order, read page by page. The second call also throws BES_BAD_CURSOR if the cursor belongs to another
    // query.
    Ordered ordered(Prepared &query, const Order &order) & { return ordered(query, Cursor(query, order)); }
    Ordered ordered(Prepared &query, const Cursor &after) &
    {
        check_cursor(query, after);
        return Ordered(pinned(), query.handle_.shared(), after);
    }
    template <class After> Ordered ordered(Prepared &query, const After &after) && = delete; // the pin would end before the loop begins

    // Returns the first `most` nodes that match the query, in ascending order, starting from a given number. Throws BES_NO_ROOM if `most`
    // is 0.
    std::vector<Node> first(Prepared &query, Node from, std::size_t most)
    {
        auto *const pass = handle();
        auto *const prepared = query.handle();
        return part(pass, prepared, most, [&](auto... nodes) { return bes_first(pass, prepared, from, nodes...); });
    }

    // Returns any `most` nodes that match the query, or all of them if there are fewer, in no particular order. Throws BES_NO_ROOM if
    // `most` is 0.
    std::vector<Node> any(Prepared &query, std::size_t most)
    {
        auto *const pass = handle();
        auto *const prepared = query.handle();
        return part(pass, prepared, most, [&](auto... nodes) { return bes_any(pass, prepared, nodes...); });
    }

    // Returns how many nodes match the query, without listing them.
    std::uint64_t count(std::string_view text) { return counted(text, detail::Place::byte); }
    std::uint64_t count(const Predicate &predicate) { return counted(predicate, detail::Place::item); }
    std::uint64_t count(Prepared &prepared) { return counted(prepared, detail::Place::none); }

    // Returns up to `most` nodes in ascending order, starting from a given number. Nodes without attributes are included.
    std::vector<Node> nodes(Node from = 0, std::size_t most = SIZE_MAX)
    {
        return detail::nodes_from(from, most, 1024, [&](Node next, Node *nodes, std::size_t room, std::uint64_t *count) {
            detail::check(bes_nodes(handle(), next, nodes, room, count));
        });
    }

    // Explains a query: returns comparisons whose indices cover it, and a score that depends only on the operators.
    std::string explain(std::string_view text) { return said(bes_explain, text); }

    // Runs a query, and returns a line for each range of index keys that the answer walked, with its estimated and its real number of
    // keys, as bes_ways does.
    std::string ways(std::string_view text) { return said(bes_ways, text); }

    // Returns the byte offset of the first comparison whose name has no index in this snapshot. This parses the text.
    std::optional<std::size_t> uncovered(std::string_view text)
    {
        std::size_t at = 0;
        detail::check(bes_uncovered(handle(), reinterpret_cast<const char *>(detail::bytes_of(text)), text.size(), &at));
        return at < text.size() ? std::optional<std::size_t>(at) : std::nullopt;
    }

    // Returns the comparisons that no node can match because in this snapshot their name has an index of an integer kind. Either the value
    // isn't a whole number, as in size>1.5, or no integer of that kind is in the range. The offsets are those in the canonical text. Throws
    // BES_TOO_LONG if the canonical text has more than 4,096 bytes.
    std::vector<Comparison> never_true(const Prepared &prepared)
    {
        const std::string text = prepared.text();
        const auto comparisons = detail::listed_comparisons(text);
        bes_index_list list;
        std::vector<Comparison> never;
        detail::check(bes_list_indices(handle(), &list));
        for (std::size_t at = 0; at < comparisons->counts.operations; at++)
            if (const bes_compared &it = comparisons->comparisons[at]; bes_is_never_true(&list, comparisons.get(), &it))
                never.push_back(detail::comparison_of(text, *comparisons, it));
        return never;
    }

    // Returns whether the index with this name has the node's attribute. A query on that name finds only such nodes.
    bool is_held(Node node, std::string_view name)
    {
        std::uint32_t held = 0;
        detail::check(bes_is_held(handle(), node, detail::bytes_of(name), name.size(), &held));
        return held != 0;
    }
    template <class T> bool is_held(Node node, const Attribute<T> &attribute) { return is_held(node, attribute.name()); }

    // Opens a store that begins with this snapshot: with its next node number, and with the same nodes, attributes and indices. Its journal is
    // empty. Error(BES_FULL): no store with as many pages has room for the snapshot.
    Store carry_on(const Limits &limits);

    // In a change, reads each value with get().
    std::vector<std::vector<std::optional<Value>>> columns(const std::vector<Node> &nodes, const std::vector<std::string_view> &names)
    {
        if (draft_ == nullptr)
            return Reads::columns(nodes, names);
        std::vector<std::vector<std::optional<Value>>> columns(names.size(), std::vector<std::optional<Value>>(nodes.size()));
        for (std::size_t node = 0; node < nodes.size(); node++)
            for (std::size_t name = 0; name < names.size(); name++)
                columns[name][node] = get(nodes[node], names[name]);
        return columns;
    }

    // Returns how many nodes have an attribute of this name that the index holds.
    std::uint64_t pairs(std::string_view name)
    {
        return detail::number_from(bes_pairs, handle(), detail::index_name(name).c_str());
    }

protected:
    friend class Live;
    friend class Ordered;

    explicit Snapshot(const std::shared_ptr<detail::Session> &pass) : pin_(pinned(pass, &number_)) {}

    detail::Session *handle() const { return detail::opened(pin_.shared(), BES_NOT_PINNED); }

    // Returns the pin, for an object that reads through it.
    detail::Pinned pinned() const
    {
        handle(); // throws if there is none
        return detail::Pinned(pin_.shared());
    }

    void release() noexcept { pin_.reset(); }

    // Returns whether the snapshot is pinned and was created in this process.
    bool is_ours() const noexcept { return pin_.is_ours(); }

    // From now on, get() sees this draft's operations.
    void reads(bes_draft *draft) noexcept { draft_ = draft; }

private:
    friend class detail::Reads<Snapshot, detail::StoreCalls>;

    static void check(std::uint32_t error) { detail::check(error); }

    std::uint32_t read(Node node, std::string_view name, bes_attribute *attribute, std::uint8_t *bytes, std::size_t room) const
    {
        const auto *text = detail::bytes_of(name);
        return draft_ != nullptr ? bes_change_get(handle(), draft_, node, text, name.size(), attribute, bytes, room)
                                 : bes_get(handle(), node, text, name.size(), attribute, bytes, room);
    }

    // Pins the pass, and returns it.
    static std::shared_ptr<detail::Session> pinned(const std::shared_ptr<detail::Session> &pass, std::uint64_t *number)
    {
        detail::check(bes_pin(pass.get(), number));
        return pass;
    }

    std::uint32_t asked(std::string_view text, Node *nodes, std::size_t room, std::uint64_t *count)
    {
        return located(bes_query(handle(), detail::bytes_of(text), text.size(), nodes, room, count), text, count);
    }

    std::uint32_t asked(const Predicate &predicate, Node *nodes, std::size_t room, std::uint64_t *count)
    {
        return bes_query_items(handle(), detail::begin_of(predicate.items_), predicate.items_.size(), detail::bytes_of(predicate.bytes_),
                               predicate.bytes_.size(), nodes, room, count);
    }

    std::uint32_t asked(Prepared &prepared, Node *nodes, std::size_t room, std::uint64_t *count)
    {
        return bes_query_prepared(handle(), prepared.handle(), nodes, room, count);
    }

    static void check_cursor(const Prepared &query, const Cursor &after)
    {
        if (after.query_ != query.text())
            throw Refusal(BES_BAD_CURSOR);
    }

    static Page read_page(bes_pass *pass, bes_prepared *query, const Cursor &after, std::size_t most)
    {
        Page page{{}, false, after};
        const bes_name &by = after.order_.name_;
        const std::uint32_t descending = after.order_.is_descending_ ? 1 : 0;
        std::uint32_t more = 0;
        page.nodes = part(pass, query, most, [&](auto... nodes) {
            page.cursor.raw_ = after.raw_;
            return bes_ordered(pass, query, &by, descending, &page.cursor.raw_, nodes..., &more);
        });
        page.more = more != 0;
        return page;
    }

    // Returns the nodes that a call writes, up to `most`. The room that it doesn't need is never touched, so it takes no memory. If the first
    // room is filled, the call is repeated with room for all nodes that the query finds.
    template <class Call> static std::vector<Node> part(bes_pass *pass, bes_prepared *query, std::size_t most, Call call)
    {
        Node next = 0, none = 0;
        detail::check(bes_next(pass, &next));
        for (std::uint64_t room = std::min<std::uint64_t>(most, std::clamp<Node>(next, 1, detail::first_room));;) {
            const std::unique_ptr<Node[]> nodes(new Node[room]); // not cleared
            std::uint64_t count = 0, all = 0;
            detail::check(call(nodes.get(), room, &count));
            if (count == room && room < most)
                detail::check(bes_query_prepared(pass, query, &none, 0, &all));
            if (count >= all)
                return std::vector<Node>(nodes.get(), nodes.get() + count);
            room = std::min<std::uint64_t>(most, all + 1);
        }
    }

    template <class Call> std::vector<Node> found(Call call, detail::Place place)
    {
        return detail::whole<std::vector<Node>>(256, place, call);
    }

    template <class Query> std::uint64_t counted(Query &&query, detail::Place place)
    {
        std::uint64_t count = 0;
        Node none = 0;
        const auto error = asked(query, &none, 0, &count);
        detail::check(error, count, place);
        return count;
    }

    // Returns what a call says about a query.
    std::string said(decltype(bes_explain) *call, std::string_view text)
    {
        return detail::whole<std::string>(256, detail::Place::byte, [&](char *said, std::size_t room, std::uint64_t *count) {
            const auto *asked = detail::bytes_of(text);
            return located(call(handle(), asked, text.size(), reinterpret_cast<std::uint8_t *>(said), room, count), text, count);
        });
    }

    // Returns the error. For BES_NOT_COVERED, sets `place` to the offset of the comparison that has no index.
    std::uint32_t located(std::uint32_t error, std::string_view text, std::uint64_t *place)
    {
        if (error == BES_NOT_COVERED)
            *place = uncovered(text).value_or(0);
        return error;
    }

    std::uint64_t number_ = 0;
    detail::Owner<detail::Session, detail::unpin> pin_;
    bes_draft *draft_ = nullptr; // in a Change
};

inline Page Ordered::read(const Cursor &after, std::size_t most)
{
    return Snapshot::read_page(pin_.get(), detail::opened(query_), after, most);
}

// A snapshot that stays pinned for as long as the object lives.
class Pin : public Snapshot {
public:
    // Unpins, as the destructor does.
    void unpin() noexcept { release(); }

    // Returns the operations that rebuild the snapshot in an empty store.
    [[nodiscard]] State state() & { return State(pinned()); }
    State state() && = delete; // the pin would end before the loop begins

private:
    friend class Pass;

    using Snapshot::Snapshot;
};

} // namespace bestore
#endif
