// What the calls of bestore for C++17 have in common on a store and on a server's. Include bestore.hpp or bestore_client.hpp, which include
// this file.
#ifndef BESTORE_RESULTS_HPP
#define BESTORE_RESULTS_HPP

#include "bestore_values.hpp"

#include <algorithm>
#include <iterator>
#include <memory>
#include <numeric>

namespace bestore {

// The nodes that a live query's result has gained, and those that it has lost, both in ascending order.
struct Updates {
    std::vector<Node> created;
    std::vector<Node> removed;
};

// The return value of a change whose function has a result: the commit number and the result.
template <class T> struct Changed {
    std::uint64_t number;
    T value;
};

// An entry of the journal: its commit number, the pass that wrote it, and its operations. Each new_node operation contains the node that it
// created.
struct Entry {
    std::uint64_t number;
    std::uint64_t pass;
    Batch batch;
};

// A store's usage.
struct Status {
    // The oldest version that any pass has published, and the lowest-numbered pass that has published it. That pass is, or soon will be,
    // pinned to that version or a later one.
    struct Held {
        std::uint64_t version;
        std::uint64_t pass_number;
    };

    std::uint64_t pages;        // the total number of pages
    std::uint64_t free;         // pages available to writes
    std::uint64_t retired;      // pages of older versions, kept until no pass can read them any more
    std::uint64_t entries;      // how many transactions the journal has
    std::uint64_t commits;      // how many it can have
    std::optional<Held> oldest; // empty if no pass has published a version
};

template <class Self> class ClientReads;
class Snapshot;

namespace detail {

// Returns how full a store is, and which pass holds its oldest version.
inline Status status_of(const bes_usage &usage)
{
    Status status{usage.pages, usage.free, usage.retired, usage.entries, usage.commits, {}};
    if (usage.is_held)
        status.oldest = Status::Held{usage.oldest, usage.holder};
    return status;
}

// Reads and fills batches and predicates, for the client and for what follows.
class Access {
public:
    static const std::vector<bes_operation> &operations(const Batch &batch) { return batch.operations_; }
    static const std::string &bytes(const Batch &batch) { return batch.bytes_; }
    static const std::vector<bes_item> &items(const Predicate &predicate) { return predicate.items_; }
    static const std::string &bytes(const Predicate &predicate) { return predicate.bytes_; }
    static std::string_view name(const Batch &batch, const bes_operation &it) { return batch.part(it.name_at, it.name_length); }
    static Value value(const Batch &batch, const bes_operation &it) { return batch.value_of(it); }
    static void write(Batch &batch, const Edit &edit) { batch.write(edit); }

    // Lets a call fill a batch, which then has as many operations as the call reports. Returns the call's error.
    template <class Call> static std::uint32_t read(Batch &batch, Call call) { return batch.read(call); }
};

// Iterates once over a source's items, one at a time.
template <class Source, class Item> class Iterator {
public:
    using iterator_category = std::input_iterator_tag;
    using value_type = Item;
    using difference_type = std::ptrdiff_t;
    using pointer = const Item *;
    using reference = const Item &;

    // Starts at the source's current item. Without a source, starts past the last item.
    explicit Iterator(Source *source) : source_(source) {}

    reference operator*() const { return source_->item_; }
    pointer operator->() const { return &source_->item_; }
    Iterator &operator++()
    {
        *this = source_->begin();
        return *this;
    }
    void operator++(int) { ++*this; }
    bool operator==(const Iterator &other) const { return source_ == other.source_; }
    bool operator!=(const Iterator &other) const { return !(*this == other); }

private:
    Source *source_;
};

// Returns the whole output of a call that counts the items, writes as many of them as fit, and throws its errors. If some don't fit,
// repeats the call with a larger list.
template <class List, class Call> List whole(std::size_t room, Call call)
{
    for (;;) {
        List list(room, typename List::value_type{});
        std::uint64_t count = 0;
        call(list.data(), room, &count);
        if (count <= room) {
            list.resize(count);
            return list;
        }
        room = 2 * count;
    }
}

// Returns up to `most` nodes that a call writes in ascending order, starting from a given number. Each call gets room for `largest` nodes,
// and throws its errors.
template <class Call> std::vector<Node> nodes_from(Node from, std::size_t most, std::size_t largest, Call call)
{
    std::vector<Node> found;
    for (;;) {
        const std::size_t room = std::min(most - found.size(), largest);
        const std::unique_ptr<Node[]> nodes(new Node[room + 1]); // not cleared
        std::uint64_t count = 0;
        call(from, nodes.get(), room, &count);
        found.insert(found.end(), nodes.get(), nodes.get() + count);
        if (count < room || found.size() == most || found.back() == UINT64_MAX)
            return found;
        from = found.back() + 1;
    }
}

// What follows makes the calls of libbestore or of its client: Calls has their functions, a check() that throws their errors, and how much
// room columns() first makes for the bytes of a cell.

template <class Calls> bes_name name_of(std::string_view name)
{
    bes_name checked{};
    Calls::check(Calls::check_name(bytes_of(name), name.size(), &checked));
    return checked;
}

// An order of nodes: by their values in an index, then by node number among equal values. Nodes without a value in the index are left out.
template <class Calls> class OrderOf {
public:
    // Creates the ascending order by the index of this name.
    explicit OrderOf(std::string_view name) : name_(name_of<Calls>(name)) {}

    // Returns the exact reverse of the ascending order.
    OrderOf descending() const
    {
        OrderOf reverse = *this;
        reverse.is_descending_ = true;
        return reverse;
    }

    std::string name() const { return std::string(reinterpret_cast<const char *>(name_.bytes), name_.length); }
    bool is_descending() const noexcept { return is_descending_; }

private:
    template <class Self> friend class bestore::ClientReads;
    friend class bestore::Snapshot;

    bes_name name_;
    bool is_descending_ = false;
};

// A position in a query's ordered result: that of a page's last node. The next page begins just after it, even in a later snapshot,
// whatever was written in between, and after a server has restarted.
template <class Calls> class CursorOf {
public:
    // Creates a cursor at the beginning of a result.
    explicit CursorOf(const OrderOf<Calls> &order) : order_(order) {}

    const OrderOf<Calls> &order() const noexcept { return order_; }

    // Return the page's last node and that node's value in the index. At the beginning both are empty.
    std::optional<Node> node() const { return raw_.length == 0 ? std::nullopt : std::optional<Node>(read().first); }
    std::optional<Value> value() const { return raw_.length == 0 ? std::nullopt : std::optional<Value>(read().second); }

protected:
    template <class Self> friend class bestore::ClientReads;
    friend class bestore::Snapshot;

    std::pair<Node, Value> read() const
    {
        bes_attribute value{};
        std::uint8_t bytes[255];
        Node node = 0;
        Calls::check(Calls::cursor_value(&raw_, &value, bytes, sizeof bytes, &node));
        return {node, value_of(value.code, value.number, {reinterpret_cast<const char *>(bytes), value.length})};
    }

    OrderOf<Calls> order_;
    typename Calls::Position raw_{};
};

// Some of the nodes that a query finds, in a given order.
template <class Cursor> struct PageOf {
    std::vector<Node> nodes;
    bool more;     // whether more nodes follow
    Cursor cursor; // the position of the last node; if the page is empty, the position where it began
};

// Nodes in a given order, which Self's read() reads page by page. The first page has `first` nodes, and later ones up to `largest`.
template <class Self, class Cursor, std::size_t first, std::size_t largest> class Paged {
public:
    using Iterator = detail::Iterator<Paged, Node>;

    // Starts at the next node.
    Iterator begin()
    {
        if (at_ == page_.nodes.size() && page_.more) {
            page_ = static_cast<Self *>(this)->read(page_.cursor, most_);
            most_ = std::min(2 * most_, largest);
            at_ = 0;
        }
        if (at_ == page_.nodes.size())
            return end();
        item_ = page_.nodes[at_++];
        return Iterator(this);
    }
    Iterator end() { return Iterator(nullptr); }

protected:
    explicit Paged(const Cursor &after) : page_{{}, true, after} {}

private:
    friend Iterator;

    PageOf<Cursor> page_;
    std::size_t at_ = 0, most_ = first;
    Node item_ = 0;
};

// The reads of attributes that a store's snapshots, a client and its snapshots have in common. Self has a handle(), through which it reads,
// a check() for the errors, and a read() that calls the function for one attribute.
template <class Self, class Calls> class Reads {
public:
    // Returns an attribute's value if the node exists and has the attribute. In a change, this may be a value that the change has set.
    std::optional<Value> get(Node node, std::string_view name)
    {
        bes_attribute read{};
        std::uint8_t bytes[255];
        const auto error = self().read(node, name, &read, bytes, sizeof bytes);
        if (error == BES_NO_ATTRIBUTE)
            return std::nullopt;
        self().check(error);
        const auto length = static_cast<std::size_t>(std::min<std::uint64_t>(read.length, sizeof bytes));
        return value_of(read.code, read.number, {reinterpret_cast<const char *>(bytes), length});
    }

    // Returns an attribute's value if the node has the attribute and the value is a T. T is one of the types that a Value can hold.
    template <class T> std::optional<T> get(Node node, std::string_view name)
    {
        auto value = self().get(node, name);
        auto *held = value ? std::get_if<T>(&*value) : nullptr;
        return held ? std::optional<T>(std::move(*held)) : std::nullopt;
    }
    template <class T> std::optional<T> get(Node node, const Attribute<T> &attribute) { return get<T>(node, attribute.name()); }

    // Returns several attributes of many nodes: for each name, a list with each node's value, which is empty if the node has no such
    // attribute. A node takes one tree search if few of its other attributes lie between. In a change, each value takes one search.
    std::vector<std::vector<std::optional<Value>>> columns(const std::vector<Node> &nodes, const std::vector<std::string_view> &names)
    {
        std::vector<std::size_t> order(names.size());
        std::iota(order.begin(), order.end(), std::size_t{0});
        std::sort(order.begin(), order.end(), [&](std::size_t one, std::size_t other) { return names[one] < names[other]; });
        std::vector<bes_name> checked(names.size() + 1); // the last one isn't used, and neither is the last cell
        std::transform(order.begin(), order.end(), checked.begin(), [&](std::size_t at) { return name_of<Calls>(names[at]); });
        std::vector<bes_cell> cells(nodes.size() * names.size() + 1);
        const std::size_t first_room = Calls::room_of_a_cell * cells.size();
        const auto bytes = whole<std::string>(first_room, [&](char *text, std::size_t room, std::uint64_t *count) {
            self().check(Calls::columns(self().handle(), begin_of(nodes), nodes.size(), checked.data(), names.size(), cells.data(),
                                        cells.size() - 1, reinterpret_cast<std::uint8_t *>(text), room, count));
        });
        std::vector<std::vector<std::optional<Value>>> columns(names.size(), std::vector<std::optional<Value>>(nodes.size()));
        for (std::size_t at = 0; at + 1 < cells.size(); at++)
            if (const bes_cell &cell = cells[at]; cell.error == BES_OK)
                columns[order[at % names.size()]][at / names.size()] =
                    value_of(cell.code, cell.number, std::string_view(bytes).substr(cell.offset, cell.length));
        return columns;
    }

    // Returns one attribute of many nodes, as columns() does for several.
    std::vector<std::optional<Value>> column(const std::vector<Node> &nodes, std::string_view name)
    {
        return std::move(self().columns(nodes, {name}).front());
    }

    // Returns a node's attributes, in ascending order of their names.
    std::vector<NamedValue> attributes(Node node)
    {
        Batch sets;
        self().check(Access::read(sets, [&](auto... room) { return Calls::attributes(self().handle(), node, room...); }));
        std::vector<NamedValue> attributes;
        for (const auto &it : Access::operations(sets))
            attributes.push_back({std::string(Access::name(sets, it)), Access::value(sets, it)});
        return attributes;
    }

    // Returns the indices, in ascending order of their names.
    std::vector<Index> indices()
    {
        Batch makes;
        self().check(Access::read(makes, [&](auto... room) { return Calls::indices(self().handle(), room...); }));
        std::vector<Index> indices;
        for (const auto &it : Access::operations(makes))
            indices.push_back({std::string(Access::name(makes, it)), static_cast<Kind>(it.code)});
        return indices;
    }

protected:
    Reads() = default;

    Self &self() { return static_cast<Self &>(*this); }
};

// The writes that a pass and a client have in common. Each is a transaction, which Self's apply() writes.
template <class Self> class Transactions : public Writes<Self> {
public:
    // Makes a node.
    Node new_node() { return self().apply(Batch().new_node()).made.front(); }

    // Creates 1 to 64 nodes in one write. No other pass gets the same numbers, so later batches may refer to these nodes.
    std::vector<Node> new_nodes(std::size_t count)
    {
        Batch batch;
        while (batch.size() < std::min<std::size_t>(count, 65))
            batch.new_node();
        return self().apply(batch).made;
    }

private:
    friend class Writes<Self>;

    Self &self() { return static_cast<Self &>(*this); }

    void write(const Edit &edit)
    {
        Batch batch;
        Access::write(batch, edit);
        self().apply(batch);
    }
};

} // namespace detail

} // namespace bestore
#endif
