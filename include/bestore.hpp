// bestore for C++17: the calls of bestore.h as objects that close themselves. Link as described in bestore.h, with -lpthread.
//
//     bestore::Store store;
//     store.make_index("MAIL:from", bestore::Kind::string);
//     store.change([](bestore::Change &change) {
//         change.set(change.create(), "MAIL:from", "ann");
//     });
//     bestore::Pin pin = store.pin();
//     for (bestore::Node found : pin.query("MAIL:from==ann"))
//         std::cout << found << '\n';
//
// What bestore.h says about a call's errors, cost and threading rules applies here too. If a C function returns an error, the C++ call
// throws a Refusal, which carries the number reported with the error. A call that throws has changed nothing. Store, Builder, Pass, Pin,
// State, Prepared, Live and Witness are movable but not copyable. You may destroy objects in any order. Once a pass is closed or destroyed,
// calls on what came from it throw BES_CLOSED: its Pin, State, Ordered and Entries. Once a Pin has ended, calls on its State and Ordered
// throw BES_NOT_PINNED. Moving an object doesn't affect the others. Give each thread its own Pass, and make only one call at a time on an
// object. In a forked child the parent's objects are dead: their calls throw BES_CLOSED, and their destructors do nothing.
#ifndef BESTORE_HPP
#define BESTORE_HPP

#include "bestore_snapshot.hpp"

#include <stdexcept>

namespace bestore {

// The argument that Pass::change passes to its function: a pinned snapshot, and up to 64 operations for the next transaction. get() sees
// what the change has set and removed so far; all other calls read only the snapshot. A call that throws adds no operation.
class Change : public Snapshot, public detail::Writes<Change> {
public:
    Change(const Change &) = delete;
    Change &operator=(const Change &) = delete;

    ~Change()
    {
        if (draft_.live && is_ours())
            bes_abandon_change(handle(), &draft_);
    }

    // Creates a node and returns its number.
    Node create() { return add({BES_NEW_NODE}); }

    // Makes the change accept values of any kind from now on. Before this call, setting a value throws KindMismatch if its name has an
    // index of another kind.
    Change &any_kind()
    {
        handle(); // throws in a forked child
        bes_change_any_kind(&draft_);
        return *this;
    }

    // Returns the operations added so far. Call it again to see operations added later.
    const Batch &batch() const
    {
        handle(); // throws in a forked child
        detail::check(batch_.read([&](auto... room) { return bes_change_batch(&draft_, room...); }));
        batch_.number_new_nodes(next_);
        return batch_;
    }

private:
    friend class Pass;
    friend class detail::Writes<Change>;

    explicit Change(const std::shared_ptr<detail::Session> &pass) : Snapshot(pass)
    {
        std::uint64_t number = 0;
        detail::check(bes_begin_change(pass.get(), &draft_, &number, &next_));
        reads(&draft_);
    }

    Change &write(const detail::Edit &edit)
    {
        add(edit);
        return *this;
    }

    // Adds an operation. Returns the node that the operation creates, or 0.
    Node add(const detail::Edit &edit)
    {
        std::uint64_t made = 0;
        handle(); // throws in a forked child
        parts_.clear();
        const auto name_at = detail::append(parts_, edit.name), value_at = detail::append(parts_, edit.value);
        const bes_operation operation{edit.kind, edit.code, edit.node, edit.number, name_at, static_cast<std::uint32_t>(edit.name.size()),
                                      value_at, static_cast<std::uint32_t>(edit.value.size())};
        const auto error = bes_change_add(&draft_, &operation, detail::bytes_of(parts_), parts_.size(), &made);
        if (error == BES_WRONG_KIND)
            throw KindMismatch(edit.name, static_cast<Kind>(made), static_cast<Kind>(edit.code));
        detail::check(error, size_, detail::Place::operation);
        size_++;
        return made;
    }

    // Writes the operations if no other transaction has been committed since the snapshot, and unpins. Returns the error, together with the
    // commit number or the number reported with the error.
    std::uint32_t commit(std::uint64_t *number)
    {
        const auto error = bes_end_change(handle(), &draft_, number);
        release();
        return error;
    }

    mutable bes_draft draft_ = BES_DRAFT_INIT;
    mutable Batch batch_; // the operations that batch() last returned
    std::string parts_;   // an operation's name and value
    Node next_ = 0;       // the number of the first new node
    std::uint64_t size_ = 0;
};

// The entries of the journal, from a given index to the journal's end at the time when the loop reaches it. Once the pass is closed, begin()
// throws BES_CLOSED. Each entry is returned once: a later loop continues with the entries written since the previous loop.
class Entries {
public:
    using Iterator = detail::Iterator<Entries, Entry>;

    // Starts at the next entry.
    Iterator begin()
    {
        std::uint64_t length = 0;
        auto *const pass = detail::opened(pass_);
        const auto error = item_.batch.read([&](bes_counts *counts, auto... room) {
            return detail::tried(pass, detail::retry_of(BES_TRIES, detail::time_to_write, pass_->store.get()), length, [&] {
                return bes_journal_from(pass, item_.number, &item_.pass, counts, room..., &length);
            });
        });
        detail::check(error, length);
        if (item_.batch.empty())
            return end();
        item_.number++;
        return Iterator(this);
    }
    Iterator end() { return Iterator(nullptr); }

private:
    friend Iterator;
    friend class Pass;

    Entries(std::shared_ptr<detail::Session> pass, std::uint64_t from) : pass_(std::move(pass)), item_{from, 0, {}} {}

    std::shared_ptr<detail::Session> pass_;
    Entry item_;
};

// A session: one thread's handle to a store.
class Pass : public detail::Transactions<Pass> {
public:
    // Returns the pass's number, by which the journal and errors refer to it.
    std::uint64_t number() const { return detail::number_from(bes_number, handle()); }

    // Returns a pass of the same store, for another thread. Only the Store hands out passes that have never been used; any pass can hand
    // out one that was closed.
    Pass another()
    {
        Pass other(session()->store);
        detail::check(bes_another(handle(), other.handle()));
        return other;
    }

    // Meets a pass that was closed: afterwards both have seen what either had seen. Returns how many transactions both have now seen.
    std::uint64_t meet() { return detail::number_from(bes_meet, handle()); }

    // Returns a witness that records all transactions that the pass has seen so far, including its own. Move the witness to another
    // thread, whose pass joins it.
    Witness witness()
    {
        Witness witness(session()->store);
        detail::check(bes_witness_of(handle(), witness.handle()));
        return witness;
    }

    // Joins a witness: afterwards the pass and the witness have both seen what either had seen. So each later snapshot of the pass includes
    // everything that the witness had seen. Each transaction that the pass commits later has a higher number than any that the witness had
    // seen. Returns how many transactions both have now seen. Throws std::invalid_argument if the witness is from another store.
    std::uint64_t join(Witness &witness)
    {
        auto *const joined = witness.handle();
        if (witness.store_ != session()->store)
            throw std::invalid_argument("the witness belongs to another store");
        return detail::number_from(bes_join, handle(), joined);
    }

    // Reads and writes atomically. Pins the current snapshot, runs f on a Change, and writes the Change's operations as one transaction if
    // no other transaction has been committed in the meantime. If another transaction has been committed, if the store is busy, or if it is
    // full and bes_again still waits for room, the call unpins and runs f again on a new snapshot. It gives up `within` after the first failed
    // attempt, or after `attempts` attempts. So f may run several times, and its only effects must be on its Change and its result.
    //
    //     const auto [number, letter] = store.change([](bestore::Change &change) {
    //         const auto letter = change.create();
    //         change.set(letter, "MAIL:from", "ann").set(1, "letters", change.get<std::int64_t>(1, "letters").value_or(0) + 1);
    //         return letter;
    //     });
    //
    // Returns the commit number, or a Changed with the commit number and f's result. If there are no operations, nothing is written, and
    // the number is the snapshot's. Throws BES_CONFLICT if another transaction committed first on the last attempt. An exception from f
    // ends the change. If f writes through this pass instead of its Change, that write throws BES_NESTED.
    template <class F>
    auto change(F &&f, std::uint32_t attempts = BES_TRIES, std::chrono::milliseconds within = detail::time_to_change)
    {
        using Result = std::invoke_result_t<F &, Change &>;
        const auto pass = session(); // f may close, move or destroy this object
        auto retry = detail::retry_of(attempts, within, pass->store.get());
        check_not_changing();
        if constexpr (std::is_void_v<Result>) {
            for (;;) {
                Change change(pass);
                run(f, change, *pass);
                if (const auto number = committed(change, *pass, retry))
                    return *number;
            }
        } else {
            for (;;) {
                Change change(pass);
                std::decay_t<Result> result = run(f, change, *pass);
                if (const auto number = committed(change, *pass, retry))
                    return Changed<std::decay_t<Result>>{*number, std::move(result)};
            }
        }
    }

    // Writes either all operations or none. Like bes_apply_or_retry, it makes up to `tries` tries, and at least one. It gives up `within`
    // after the first failed try.
    Written apply(const Batch &batch, std::uint32_t tries = BES_TRIES, std::chrono::milliseconds within = detail::time_to_write)
    {
        return written(batch, tries, within, [&](auto... list) { return bes_apply(handle(), list...); });
    }

    // Like apply, but throws BES_CONFLICT unless the journal has exactly `expected` entries.
    Written apply_if(std::uint64_t expected, const Batch &batch, std::uint32_t tries = BES_TRIES,
                     std::chrono::milliseconds within = detail::time_to_write)
    {
        return written(batch, tries, within, [&](auto... list) { return bes_apply_if(handle(), expected, list...); });
    }

    // Sets every attribute of this name again if its value is of the index's kind, as bes_reindex does. The index then also holds the
    // attributes that were set before it was created. Returns how many attributes were set.
    std::uint64_t reindex(std::string_view name, std::uint32_t attempts = BES_TRIES)
    {
        return detail::number_from(bes_reindex, handle(), detail::index_name(name).c_str(), attempts);
    }
    template <class T> std::uint64_t reindex(const Attribute<T> &attribute, std::uint32_t attempts = BES_TRIES)
    {
        return reindex(attribute.name(), attempts);
    }

    // Returns the journal so far, one line per transaction.
    std::string journal(std::uint32_t tries = BES_TRIES, std::chrono::milliseconds within = detail::time_to_write)
    {
        return detail::whole<std::string>(1 << 16, detail::Place::none, [&](char *text, std::size_t room, std::uint64_t *count) {
            return detail::tried(handle(), detail::retry_of(tries, within, session()->store.get()), *count, [&] {
                return bes_journal(handle(), reinterpret_cast<std::uint8_t *>(text), room, count);
            });
        });
    }

    // Closes this pass and the store, and returns the whole journal as text. This pass must be the store's last: if another pass is open,
    // the call throws BES_IN_USE and leaves this pass unchanged.
    std::string finish()
    {
        return detail::whole<std::string>(1 << 16, detail::Place::none, [&](char *text, std::size_t room, std::uint64_t *count) {
            return bes_finish(handle(), reinterpret_cast<std::uint8_t *>(text), room, count);
        });
    }

    // Returns the entries of the journal, starting from a given index. The entry with commit number 1 is at index 0.
    //
    //     for (const bestore::Entry &entry : pass.journal_from(seen))
    //         for (const bestore::Operation &operation : entry.batch.operations())
    [[nodiscard]] Entries journal_from(std::uint64_t from = 0) & { return Entries(session(), from); }
    Entries journal_from(std::uint64_t from = 0) && = delete; // the pass would be closed before the loop begins

    // Returns how full the store is and which pass holds its oldest version.
    Status status(std::uint32_t tries = BES_TRIES, std::chrono::milliseconds within = detail::time_to_write)
    {
        bes_usage usage{};
        std::uint64_t number = 0;
        const auto error = detail::tried(handle(), detail::retry_of(tries, within, session()->store.get()), number, [&] {
            return bes_status(handle(), &usage, &number);
        });
        detail::check(error, number);
        return detail::status_of(usage);
    }

    // Pins the current snapshot. A pass has at most one pin, so call unpin() on that pin before you replace it by another.
    [[nodiscard]] Pin pin() & { return Pin(session()); }

    // Closes the pass, as the destructor does: the pass goes back to the store, and `another` may hand it out again.
    void close() noexcept { handle_.reset(); }

protected:
    explicit Pass(detail::Identity store) : handle_(std::make_shared<detail::Session>(std::move(store))) {}

    bes_pass *handle() const { return detail::opened(handle_.shared()); }

private:
    // Returns the handle, for an object that reads through it.
    const std::shared_ptr<detail::Session> &session() const
    {
        handle(); // throws if it is closed
        return handle_.shared();
    }

    template <class Call> Written written(const Batch &batch, std::uint32_t tries, std::chrono::milliseconds within, Call call)
    {
        check_not_changing();
        Written written{0, std::vector<Node>(batch.size() + 1)};
        const auto error = detail::tried(handle(), detail::retry_of(tries, within, session()->store.get()), written.number, [&] {
            return call(detail::begin_of(batch.operations_), batch.size(), detail::bytes_of(batch.bytes_), batch.bytes_.size(),
                        written.made.data(), batch.size(), &written.number);
        });
        detail::check(error, written.number, detail::Place::operation);
        written.made.resize(batch.size());
        return written;
    }

    // Returns the commit number if the change was written. Returns nothing if the change must be run again, after a pause that this call
    // has made.
    static std::optional<std::uint64_t> committed(Change &change, detail::Session &pass, bes_retry &retry)
    {
        std::uint64_t number = 0;
        const auto error = ended(change, retry, &number);
        if (error == BES_OK)
            return number;
        if (!(error == BES_CONFLICT ? bes_pause(&retry) : bes_again(&pass, error, number, &retry)))
            throw Refusal(error, number, detail::Place::operation);
        return std::nullopt;
    }

    // Runs a change's function. Meanwhile, the pass doesn't write.
    template <class F> static decltype(auto) run(F &f, Change &change, detail::Session &pass)
    {
        struct Ends {
            bool &is_changing;
            ~Ends() { is_changing = false; }
        };
        const Ends ends{pass.is_changing = true};
        return f(change);
    }

    void check_not_changing() const
    {
        if (session()->is_changing)
            throw Refusal(BES_NESTED);
    }

    static std::uint32_t ended(Change &change, bes_retry &retry, std::uint64_t *number)
    {
        const detail::Turn turn(retry);
        return change.commit(number);
    }

    detail::Owner<detail::Session, bes_close> handle_;
};

// A store's limits.
struct Limits {
    std::uint64_t pages = 16384;        // 8 to 16,777,216 pages of 4 KiB, which take memory once they are used
    std::uint64_t passes = 63;          // 1 to 64. Each takes about 90 bytes, and adds 13 instructions to a write
    std::uint64_t commits = UINT32_MAX; // 1 to 2^32 - 1 transactions
};

// A new store, which is also its first pass. Closing the last pass frees the store.
class Store : public Pass {
public:
    explicit Store(const Limits &limits = {}) : Pass(std::make_shared<bes_turn>())
    {
        detail::check(bes_open(limits.pages, limits.passes, limits.commits, handle()));
    }

private:
    friend class Builder;
    friend class Snapshot;

    Store(bes_builder *builder, Node next) : Pass(std::make_shared<bes_turn>())
    {
        detail::check(bes_build_finish(builder, next, handle()));
    }

    Store(bes_pass *old, const Limits &limits) : Pass(std::make_shared<bes_turn>())
    {
        detail::check(bes_carry_on(old, limits.pages, limits.passes, limits.commits, handle()));
    }
};

inline Store Snapshot::carry_on(const Limits &limits) { return Store(handle(), limits); }

// A store that is being built from a volume that you already have, such as a saved one. A built store takes fewer pages and much less time
// than the same volume written in transactions, and its journal begins empty. Give the indices first, in ascending order of the bytes of
// their names; then each node, in ascending order of their numbers, which may have gaps; and after each node its attributes, in ascending
// order of the bytes of their names.
//
//     bestore::Builder builder;
//     builder.index("size", bestore::Kind::int32).node(3).attribute("size", std::int32_t{5}, true);
//     bestore::Store store = builder.finish(4);
class Builder {
public:
    explicit Builder(const Limits &limits = {})
    {
        detail::check(bes_build(limits.pages, limits.passes, limits.commits, handle()));
    }

    // Adds an index. Its entries are the attributes that are held.
    Builder &index(std::string_view name, Kind kind)
    {
        return take(bes_build_index(handle(), detail::bytes_of(name), name.size(), static_cast<std::uint32_t>(kind)));
    }
    template <class T> Builder &index(const Attribute<T> &attribute) { return index(attribute.name(), Attribute<T>::kind); }

    // Adds a node.
    Builder &node(Node node) { return take(bes_build_node(handle(), node)); }

    // Adds an attribute of the last node. If it is held, the index of its name has it.
    Builder &attribute(std::string_view name, const Input &value, bool is_held)
    {
        const auto bytes = value.bytes();
        return take(bes_build_attribute(handle(), detail::bytes_of(name), name.size(), static_cast<std::uint32_t>(value.kind()),
                                        value.number(), detail::bytes_of(bytes), bytes.size(), is_held));
    }
    template <class T, class U> Builder &attribute(const Attribute<T> &attribute, const U &value, bool is_held)
    {
        return this->attribute(attribute.name(), Attribute<T>::input(value), is_held);
    }

    // Returns the store, in which the next new node gets the number `next`. Even if the call throws, the builder is then closed.
    Store finish(Node next) { return Store(handle(), next); }

    // Closes the builder, as the destructor does.
    void close() noexcept { handle_.reset(); }

private:
    bes_builder *handle() const { return detail::opened(handle_.shared()); }

    Builder &take(std::uint32_t error)
    {
        detail::check(error);
        return *this;
    }

    detail::Handle<bes_builder, bes_build_close> handle_;
};

inline Updates Live::refresh(Snapshot &snapshot) { return refreshed(snapshot, bes_refresh); }

inline Updates Live::refresh_changed(Snapshot &snapshot)
{
    // The last refresh must have been in this store; the library can't check this.
    return refreshed(snapshot, store_ == snapshot.handle()->store ? bes_refresh_changed : bes_refresh);
}

inline Updates Live::refreshed(Snapshot &snapshot, decltype(bes_refresh) *call)
{
    bes_updates counts{};
    read_changes();
    auto *const pass = snapshot.handle();
    detail::check(call(pass, handle(), &counts));
    store_ = pass->store;
    unread_ = counts;
    read_changes();
    return std::exchange(read_, {});
}

inline void Live::read_changes()
{
    if (!unread_)
        return;
    Updates updates{std::vector<Node>(unread_->created + 1), std::vector<Node>(unread_->removed + 1)};
    detail::check(bes_changes(handle(), updates.created.data(), unread_->created, updates.removed.data(), unread_->removed));
    updates.created.resize(unread_->created);
    updates.removed.resize(unread_->removed);
    read_ = detail::combined(read_, std::move(updates));
    unread_.reset();
}

} // namespace bestore
#endif
