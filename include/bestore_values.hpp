// bestore for C++17: errors, values, batches and predicates. Include bestore.hpp, which includes this file.
#ifndef BESTORE_VALUES_HPP
#define BESTORE_VALUES_HPP

#include "bestore.h"

#include <cstddef>
#include <cstdint>
#include <limits>
#include <optional>
#include <stdexcept>
#include <string>
#include <string_view>
#include <type_traits>
#include <utility>
#include <variant>
#include <vector>

namespace bestore {

// A node's number: the first is 1, and no number is reused.
using Node = std::uint64_t;

namespace detail {

// What the number reported with an error counts: bytes of a query's text, bytes of a batch, items or operations.
enum class Place { none, byte, batch_byte, item, operation };

// Returns whether this error is reported with a place, if the call reports places of this kind.
inline bool has_place(std::uint32_t error, Place place)
{
    switch (error) {
    case BES_SYNTAX:
    case BES_NOT_COVERED:
        return place == Place::byte;
    case BES_BAD_PATTERN:
        return place == Place::byte || place == Place::item;
    case BES_BAD_RPN:
    case BES_NO_ITEM:
        return place == Place::item;
    case BES_NAME_LENGTH:
    case BES_HAS_NUL:
    case BES_NOT_UTF8:
    case BES_BAD_PART:
        return place == Place::item || place == Place::operation;
    case BES_DATA_LENGTH:
    case BES_NO_OPERATION:
    case BES_NO_KIND:
    case BES_NO_VALUE:
        return place == Place::operation;
    default:
        return false;
    }
}

} // namespace detail

// What a program can do about an error, as in bestore.h.
enum class ErrorClass : std::uint32_t {
    none = BES_CLASS_NONE,
    retry = BES_CLASS_RETRY,
    mine = BES_CLASS_MINE,
    full = BES_CLASS_FULL,
    gone = BES_CLASS_GONE
};

namespace detail {

// What an error's number means, according to the library that has returned it.
struct Meaning {
    std::uint32_t number;
    const char *name;
    std::uint32_t error_class;
};

} // namespace detail

// The error of a failed call. A failed call has changed nothing.
class Refusal : public std::runtime_error {
public:
    explicit Refusal(std::uint32_t number, std::uint64_t carried = 0, detail::Place place = detail::Place::none)
        : Refusal({number, bes_error_name(number), bes_class(number)}, bes_strerror(number), carried, place)
    {
    }

    Refusal(const detail::Meaning &meaning, const std::string &text, std::uint64_t carried = 0, detail::Place place = detail::Place::none)
        : std::runtime_error(text), meaning_(meaning), carried_(carried), place_(place)
    {
    }

    // Returns the error's number, as in bestore.h or bestore_client.h.
    std::uint32_t number() const noexcept { return meaning_.number; }

    // Returns the error's name there, such as "BES_BUSY".
    const char *name() const noexcept { return meaning_.name; }

    // Returns what a program can do about the error.
    ErrorClass error_class() const noexcept { return static_cast<ErrorClass>(meaning_.error_class); }

    // For BES_BUSY, returns the pass that is writing.
    std::optional<std::uint64_t> pass_number() const noexcept { return carried_if(number() == BES_BUSY); }

    // For BES_FULL, returns the oldest version that a pass can still read.
    std::optional<std::uint64_t> least() const noexcept { return carried_if(number() == BES_FULL); }

    // For BES_CONFLICT, returns the journal's length.
    std::optional<std::uint64_t> length() const noexcept { return carried_if(number() == BES_CONFLICT); }

    // Returns the offset of the first invalid byte in a query's text or a batch's bytes. For BES_NOT_COVERED, returns the offset of the
    // first comparison whose name has no index.
    std::optional<std::uint64_t> offset() const noexcept
    {
        return carried_if(is_at(detail::Place::byte) || place_ == detail::Place::batch_byte);
    }

    // Returns the index, counting from 0, of the Predicate's first item that is invalid or makes the list invalid.
    std::optional<std::uint64_t> item() const noexcept { return carried_if(is_at(detail::Place::item)); }

    // Returns the index, counting from 0, of the Batch's invalid operation.
    std::optional<std::uint64_t> operation() const noexcept { return carried_if(is_at(detail::Place::operation)); }

private:
    bool is_at(detail::Place place) const noexcept { return place_ == place && detail::has_place(number(), place); }

    std::optional<std::uint64_t> carried_if(bool carries) const noexcept
    {
        return carries ? std::optional<std::uint64_t>(carried_) : std::nullopt;
    }

    detail::Meaning meaning_;
    std::uint64_t carried_;
    detail::Place place_;
};

// The kinds of values.
enum class Kind : std::uint32_t {
    // surface.toml: kinds
    string = BES_STRING_TYPE,
    int32 = BES_INT32_TYPE,
    int64 = BES_INT64_TYPE,
    mime = BES_MIME_STRING_TYPE,
    raw = BES_RAW_TYPE,
    uint32 = BES_UINT32_TYPE,
    uint64 = BES_UINT64_TYPE
    // surface.toml: end
};

// Returns the name of a kind, such as "int64".
inline const char *kind_name(Kind kind)
{
    switch (kind) {
    // surface.toml: names of kinds
    case Kind::string:
        return "string";
    case Kind::int32:
        return "int32";
    case Kind::int64:
        return "int64";
    case Kind::mime:
        return "mime";
    case Kind::raw:
        return "raw";
    case Kind::uint32:
        return "uint32";
    case Kind::uint64:
        return "uint64";
    // surface.toml: end
    }
    return "?";
}

// Thrown if a change sets a value of one kind under a name whose index is of another kind. The index would never hold the value.
class KindMismatch : public std::invalid_argument {
public:
    KindMismatch(std::string_view name, Kind of_index, Kind of_value)
        : std::invalid_argument("the index \"" + std::string(name) + "\" takes values of kind " + kind_name(of_index) +
                                ", and this one is " + kind_name(of_value)),
          of_index_(of_index), of_value_(of_value)
    {
    }

    Kind of_index() const noexcept { return of_index_; }
    Kind of_value() const noexcept { return of_value_; }

private:
    Kind of_index_;
    Kind of_value_;
};

// A MIME type: a string that can't be indexed.
struct Mime {
    std::string text;
};

inline bool operator==(const Mime &a, const Mime &b) { return a.text == b.text; }
inline bool operator!=(const Mime &a, const Mime &b) { return !(a == b); }

// Bytes that can't be indexed.
using Raw = std::vector<std::uint8_t>;

// An attribute's value.
using Value = std::variant<std::string, std::int32_t, std::int64_t, std::uint32_t, std::uint64_t, Mime, Raw>;

// A node's attribute, in a list.
struct NamedValue {
    std::string name;
    Value value;
};

struct Index {
    std::string name;
    Kind kind;
};

namespace detail {

// Throws a call's error, with the number that the call wrote and what that number counts.
inline void check(std::uint32_t error, std::uint64_t carried = 0, Place place = Place::none)
{
    if (error != BES_OK)
        throw Refusal(error, carried, place);
}

// Calls a function that writes one number, and returns that number.
template <class Call, class... Arguments> std::uint64_t number_from(Call call, Arguments... arguments)
{
    std::uint64_t number = 0;
    check(call(arguments..., &number));
    return number;
}

// Returns a pointer to the text's bytes. The library requires a non-null pointer, even if there are no bytes.
inline const std::uint8_t *bytes_of(std::string_view text)
{
    return reinterpret_cast<const std::uint8_t *>(text.empty() ? "" : text.data());
}

template <class T> const T *begin_of(const std::vector<T> &list)
{
    static const T none{};
    return list.empty() ? &none : list.data();
}

// Appends a string to the bytes, and returns its offset.
inline std::uint32_t append(std::string &bytes, std::string_view text)
{
    if (text.size() > UINT32_MAX - bytes.size())
        throw std::length_error("bestore: the strings have more than 4 GiB in total");
    const auto at = static_cast<std::uint32_t>(bytes.size());
    bytes.append(text);
    return at;
}

template <class T>
inline constexpr bool is_integer =
    std::is_integral_v<T> && sizeof(T) <= sizeof(std::uint64_t) && !std::is_same_v<T, bool> && !std::is_same_v<T, char>;

template <class T> constexpr Kind kind_of_integer()
{
    if (sizeof(T) > 4)
        return std::is_signed_v<T> ? Kind::int64 : Kind::uint64;
    return std::is_signed_v<T> ? Kind::int32 : Kind::uint32;
}

// Returns the kind that corresponds to one of a Value's types.
template <class T> constexpr Kind kind_of()
{
    if constexpr (std::is_same_v<T, std::string>)
        return Kind::string;
    else if constexpr (std::is_same_v<T, Mime>)
        return Kind::mime;
    else if constexpr (std::is_same_v<T, Raw>)
        return Kind::raw;
    else
        return kind_of_integer<T>();
}

// Returns whether the number fits T.
template <class T, class U> constexpr bool fits(U number)
{
    if constexpr (std::is_signed_v<U>) {
        if (number < 0)
            return std::is_signed_v<T> && static_cast<std::int64_t>(number) >= static_cast<std::int64_t>(std::numeric_limits<T>::min());
    }
    return static_cast<std::uint64_t>(number) <= static_cast<std::uint64_t>(std::numeric_limits<T>::max());
}

// Throws the error for a number that doesn't fit its kind. No library is called, since a program may link either of the two.
[[noreturn]] inline void refuse_value()
{
    // surface.toml: error of a number
    throw Refusal({BES_NO_VALUE, "BES_NO_VALUE", BES_CLASS_MINE}, "the number doesn't fit its kind; use a kind that holds it");
    // surface.toml: end
}

// Returns a number as it is stored in a bes_operation. Throws BES_NO_VALUE if the number doesn't fit the kind.
template <class U> std::uint64_t number_of(Kind kind, U number)
{
    const bool is_held = (kind == Kind::int32 && fits<std::int32_t>(number)) || (kind == Kind::int64 && fits<std::int64_t>(number)) ||
                         (kind == Kind::uint32 && fits<std::uint32_t>(number)) || (kind == Kind::uint64 && fits<std::uint64_t>(number));
    if (!is_held)
        refuse_value();
    return static_cast<std::uint64_t>(number);
}

inline Value value_of(std::uint32_t code, std::uint64_t number, std::string_view bytes)
{
    switch (static_cast<Kind>(code)) {
    case Kind::int32:
        return static_cast<std::int32_t>(static_cast<std::int64_t>(number));
    case Kind::int64:
        return static_cast<std::int64_t>(number);
    case Kind::uint32:
        return static_cast<std::uint32_t>(number);
    case Kind::uint64:
        return number;
    case Kind::mime:
        return Mime{std::string(bytes)};
    case Kind::raw:
        return Raw(bytes.begin(), bytes.end());
    case Kind::string:
        break;
    }
    return std::string(bytes);
}

} // namespace detail

// A value passed as an argument: a string, a Mime, a Raw, a Value or an integer. It refers to the caller's data. An integer's type
// determines whether the value has 32 or 64 bits, and whether it is signed. If a kind is given, the value has that kind. BES_NO_VALUE is
// thrown for an integer that doesn't fit the kind.
class Input {
public:
    Input(std::string_view text) : Input(Kind::string, 0, text) {}
    Input(const char *text) : Input(std::string_view(text)) {}
    Input(const std::string &text) : Input(std::string_view(text)) {}
    Input(const Mime &mime) : Input(Kind::mime, 0, mime.text) {}
    Input(const Raw &raw) : Input(Kind::raw, 0, {reinterpret_cast<const char *>(raw.data()), raw.size()}) {}
    Input(const Value &value) : Input(std::visit([](const auto &held) { return Input(held); }, value)) {}

    template <class T, std::enable_if_t<detail::is_integer<T>, int> = 0>
    Input(T number) : Input(detail::kind_of_integer<T>(), static_cast<std::uint64_t>(number), {})
    {
    }

    template <class T, std::enable_if_t<detail::is_integer<T>, int> = 0>
    Input(Kind kind, T number) : Input(kind, detail::number_of(kind, number), {})
    {
    }

    Kind kind() const noexcept { return kind_; }
    std::uint64_t number() const noexcept { return number_; }
    std::string_view bytes() const noexcept { return bytes_; }

private:
    Input(Kind kind, std::uint64_t number, std::string_view bytes) : kind_(kind), number_(number), bytes_(bytes) {}

    Kind kind_;
    std::uint64_t number_;
    std::string_view bytes_;
};

// A name together with the type of its values, so that an index and the values under its name are of the same kind:
//
//     const bestore::Attribute<std::int64_t> size{"size"};
//     store.make_index(size);
//     store.set(node, size, 5);
template <class T> class Attribute {
public:
    static constexpr Kind kind = detail::kind_of<T>();

    explicit Attribute(std::string name) : name_(std::move(name)) {}

    const std::string &name() const noexcept { return name_; }

    // Returns the value as a T. Throws BES_NO_VALUE for an integer that doesn't fit T.
    template <class U> static Input input(const U &value)
    {
        if constexpr (detail::is_integer<T>) {
            static_assert(detail::is_integer<U>, "the attribute is an integer");
            return Input(kind, value);
        } else if constexpr (kind == Kind::string) {
            return Input(std::string_view(value));
        } else {
            static_assert(std::is_same_v<T, U>, "the attribute has another type");
            return Input(value);
        }
    }

private:
    std::string name_;
};

namespace detail {

// Reads batches and predicates, for the client.
class Access;

// An operation to be added to a batch.
struct Edit {
    std::uint32_t kind;
    Node node = 0;
    std::string_view name = {};
    std::uint32_t code = 0;
    std::uint64_t number = 0;
    std::string_view value = {};
};

// The writes that Batch, Pass and Change have in common. Each write passes an operation to Self's write(Edit), and returns what write(Edit)
// returns.
template <class Self> class Writes {
public:
    decltype(auto) remove_node(Node node) { return write({BES_REMOVE_NODE, node}); }

    decltype(auto) set(Node node, std::string_view name, const Input &value)
    {
        return write({BES_SET, node, name, static_cast<std::uint32_t>(value.kind()), value.number(), value.bytes()});
    }

    // Sets an integer of this kind. Throws BES_NO_VALUE if the integer doesn't fit.
    template <class T> decltype(auto) set(Node node, std::string_view name, Kind kind, T number)
    {
        return set(node, name, Input(kind, number));
    }

    template <class T, class U> decltype(auto) set(Node node, const Attribute<T> &attribute, const U &value)
    {
        return set(node, attribute.name(), Attribute<T>::input(value));
    }

    decltype(auto) unset(Node node, std::string_view name) { return write({BES_UNSET, node, name}); }
    template <class T> decltype(auto) unset(Node node, const Attribute<T> &attribute) { return unset(node, attribute.name()); }

    decltype(auto) make_index(std::string_view name, Kind kind)
    {
        return write({BES_MAKE_INDEX, 0, name, static_cast<std::uint32_t>(kind)});
    }
    template <class T> decltype(auto) make_index(const Attribute<T> &attribute)
    {
        return make_index(attribute.name(), Attribute<T>::kind);
    }

    decltype(auto) remove_index(std::string_view name) { return write({BES_REMOVE_INDEX, 0, name}); }

private:
    decltype(auto) write(const Edit &edit) { return static_cast<Self *>(this)->write(edit); }
};

} // namespace detail

// What an operation does.
enum class Action : std::uint32_t {
    new_node = BES_NEW_NODE,
    remove_node = BES_REMOVE_NODE,
    set = BES_SET,
    unset = BES_UNSET,
    make_index = BES_MAKE_INDEX,
    remove_index = BES_REMOVE_INDEX
};

// An operation read back from a batch.
struct Operation {
    Action action;
    Node node;                  // for new_node: the node that it created, if the batch comes from the journal or from a Change
    std::string name;           // empty if the operation has none
    std::optional<Kind> kind;   // the kind of the value or the index
    std::optional<Value> value; // the value that set gives the attribute
};

// A list of 1 to 64 operations. A pass applies either all of the operations or none of them.
class Batch : public detail::Writes<Batch> {
public:
    Batch &new_node() { return write({BES_NEW_NODE}); }

    std::size_t size() const noexcept { return operations_.size(); }
    bool empty() const noexcept { return operations_.empty(); }
    void clear() noexcept
    {
        operations_.clear();
        bytes_.clear();
    }

    // Reads the operations back from the batch.
    std::vector<Operation> operations() const
    {
        std::vector<Operation> operations;
        for (const auto &it : operations_) {
            const bool is_set = it.kind == BES_SET, has_kind = is_set || it.kind == BES_MAKE_INDEX;
            operations.push_back({static_cast<Action>(it.kind), it.node, std::string(part(it.name_at, it.name_length)),
                                  has_kind ? std::optional<Kind>(static_cast<Kind>(it.code)) : std::nullopt,
                                  is_set ? std::optional<Value>(value_of(it)) : std::nullopt});
        }
        return operations;
    }

    // Encodes the batch as bytes that can be stored or sent, as bes_batch_to_bytes does.
    Raw to_bytes() const
    {
        Raw bytes(BES_BATCH_BYTES);
        std::uint64_t count = 0;
        const auto error = bes_operations_to_bytes(detail::begin_of(operations_), operations_.size(), detail::bytes_of(bytes_),
                                                   bytes_.size(), bytes.data(), bytes.size(), &count);
        detail::check(error, count, detail::Place::operation);
        bytes.resize(count);
        return bytes;
    }

    // Returns the batch that to_bytes encoded as these bytes. If the bytes are invalid, the exception's offset() is the first invalid byte.
    static Batch from_bytes(const Raw &bytes)
    {
        bes_batch read;
        std::uint64_t place = 0;
        const auto error = bes_batch_from_bytes(&read, detail::begin_of(bytes), bytes.size(), &place);
        detail::check(error, place, detail::Place::batch_byte);
        Batch batch;
        batch.operations_.assign(read.operations, read.operations + read.count);
        batch.bytes_.assign(reinterpret_cast<const char *>(read.bytes), read.used);
        return batch;
    }

private:
    friend class detail::Writes<Batch>;
    friend class detail::Access;
    friend class Change;
    friend class Entries;
    friend class Pass;
    friend class Snapshot;
    friend class State;

    Batch &write(const detail::Edit &edit)
    {
        const auto name_at = detail::append(bytes_, edit.name), value_at = detail::append(bytes_, edit.value);
        operations_.push_back({edit.kind, edit.code, edit.node, edit.number, name_at, static_cast<std::uint32_t>(edit.name.size()),
                               value_at, static_cast<std::uint32_t>(edit.value.size())});
        return *this;
    }

    std::string_view part(std::size_t at, std::size_t length) const { return std::string_view(bytes_).substr(at, length); }

    Value value_of(const bes_operation &it) const
    {
        return detail::value_of(it.code, it.number, part(it.value_at, it.value_length));
    }

    // Makes room for any 64 operations, lets the call fill the batch, and keeps as many operations as the call reports. Returns the call's
    // error.
    template <class Call> std::uint32_t read(Call call)
    {
        bes_counts counts{0, 0};
        operations_.resize(64);
        bytes_.resize(64 * (63 + 255));
        const std::uint32_t error =
            call(&counts, operations_.data(), operations_.size(), reinterpret_cast<std::uint8_t *>(bytes_.data()), bytes_.size());
        operations_.resize(counts.operations);
        bytes_.resize(counts.bytes);
        return error;
    }

    // Numbers the nodes that the operations create, starting from `next`.
    void number_new_nodes(Node next)
    {
        for (auto &it : operations_)
            if (it.kind == BES_NEW_NODE)
                it.node = next++;
    }

    std::vector<bes_operation> operations_;
    std::string bytes_;
};

// A batch that was committed: its commit number and, for each operation, the node that it created, or 0.
struct Written {
    std::uint64_t number;
    std::vector<Node> made;
};

// What an item of a predicate does, under its BeOS name.
enum query_op : std::uint32_t {
    B_EQ = BES_ITEM_EQ, B_NE = BES_ITEM_NE, B_LT = BES_ITEM_LT, B_LE = BES_ITEM_LE, B_GT = BES_ITEM_GT, B_GE = BES_ITEM_GE,
    B_CONTAINS = BES_ITEM_CONTAINS, B_BEGINS_WITH = BES_ITEM_BEGINS_WITH, B_ENDS_WITH = BES_ITEM_ENDS_WITH,
    B_AND = BES_ITEM_AND, B_OR = BES_ITEM_OR, B_NOT = BES_ITEM_NOT
};

// A query as a list of items in reverse Polish order. They are pushed as on a BQuery: an attribute and a value, then the operator.
//
//     Predicate().PushAttr("size").PushUInt64(1000).PushOp(B_GT)
class Predicate {
public:
    Predicate &PushAttr(std::string_view name) { return push_text(BES_ITEM_ATTRIBUTE, name); }
    Predicate &PushString(std::string_view text) { return push_text(BES_ITEM_TEXT, text); }
    Predicate &PushInt32(std::int32_t number) { return PushInt64(number); }
    Predicate &PushInt64(std::int64_t number) { return push({BES_ITEM_INT64, 0, 0, static_cast<std::uint64_t>(number)}); }
    Predicate &PushUInt32(std::uint32_t number) { return PushUInt64(number); }
    Predicate &PushUInt64(std::uint64_t number) { return push({BES_ITEM_UINT64, 0, 0, number}); }
    Predicate &PushOp(query_op op) { return push({op, 0, 0, 0}); }

    void Clear() noexcept
    {
        items_.clear();
        bytes_.clear();
    }

private:
    friend class detail::Access;
    friend class Prepared;
    friend class Snapshot;

    Predicate &push(const bes_item &item)
    {
        items_.push_back(item);
        return *this;
    }

    Predicate &push_text(std::uint32_t kind, std::string_view text)
    {
        const auto at = detail::append(bytes_, text);
        return push({kind, at, static_cast<std::uint32_t>(text.size()), 0});
    }

    std::vector<bes_item> items_;
    std::string bytes_;
};

} // namespace bestore
#endif
