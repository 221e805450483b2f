// Owners of library handles for C++17. Include bestore.hpp, which includes this file.
#ifndef BESTORE_HANDLES_HPP
#define BESTORE_HANDLES_HPP

#include "bestore_values.hpp"

#include <atomic>
#include <memory>
#include <new>
#include <pthread.h>

namespace bestore {

namespace detail {

// The number of forks between the first process that used this library and this process. Shared objects may each have their own.
inline std::atomic<unsigned> forks{0};

// Returns the number of forks. Counting starts with the first call.
inline unsigned generation()
{
    static const bool is_counted = [] {
        if (pthread_atfork(nullptr, nullptr, [] { forks++; }) != 0)
            throw std::bad_alloc();
        return true;
    }();
    (void)is_counted;
    return forks;
}

// The process in which an object was created. Wherever the object is used, it is compared with the number of forks of the shared object
// that created it.
class Process {
public:
    bool is_this() const noexcept { return generation_ == forks_->load(std::memory_order_relaxed); }

private:
    const std::atomic<unsigned> *forks_ = &forks;
    unsigned generation_ = generation();
};

// A library handle, and the process that it belongs to.
template <class T> struct Opened : T {
    Opened() : T() {}

    Process process;
};

// Identifies a store, and says whose turn it is to write to it. The store's objects share this memory, so as long as one of them exists, no
// other store has the same address. A number would have to be counted somewhere, and shared objects that contain these headers may count
// separately.
using Identity = std::shared_ptr<bes_turn>;

// A pass's handle, its store, how often the pass has been unpinned, and whether a change's function is running.
struct Session : Opened<bes_pass> {
    explicit Session(Identity of) : store(std::move(of)) {}

    Identity store;
    std::uint64_t unpins = 0;
    bool is_changing = false;
};

inline void unpin(Session *session) noexcept
{
    bes_unpin(session);
    session->unpins++;
}

[[noreturn]] inline void refuse(std::uint32_t error) { throw Refusal(error); }

// Returns the handle. Throws an error if there is none, or if it belongs to a process that forked this one.
template <class T> T *opened(const std::shared_ptr<T> &handle, std::uint32_t none = BES_CLOSED)
{
    if (!handle || !handle->process.is_this())
        refuse(handle ? std::uint32_t{BES_CLOSED} : none);
    return handle.get();
}

// Owns a handle or a pin, and calls `end` on it at its own end. Other objects may share the handle: its memory is freed after the last of
// them, so a call on them finds it closed.
template <class T, auto end> class Owner {
public:
    Owner() : handle_(std::make_shared<T>()) {}
    explicit Owner(std::shared_ptr<T> handle) noexcept : handle_(std::move(handle)) {}
    Owner(Owner &&) noexcept = default;
    ~Owner() { reset(); }

    Owner &operator=(Owner &&other) noexcept
    {
        if (this != &other) {
            reset();
            handle_ = std::move(other.handle_);
        }
        return *this;
    }

    void reset() noexcept
    {
        if (is_ours())
            end(handle_.get());
        handle_.reset();
    }

    // Returns whether there is a handle, and it belongs to this process.
    bool is_ours() const noexcept { return handle_ && handle_->process.is_this(); }

    const std::shared_ptr<T> &shared() const noexcept { return handle_; }

private:
    std::shared_ptr<T> handle_;
};

template <class T, std::uint32_t (*close)(T *)> using Handle = Owner<Opened<T>, close>;

// A pin that something reads through but doesn't own.
class Pinned {
public:
    explicit Pinned(const std::shared_ptr<Session> &pass) : pass_(pass), unpins_(pass->unpins) {}

    // Returns the pass. Throws BES_NOT_PINNED if the pin has ended.
    bes_pass *get() const
    {
        auto *const pass = opened(pass_);
        if (pass->unpins != unpins_)
            throw Refusal(BES_NOT_PINNED);
        return pass;
    }

private:
    std::shared_ptr<Session> pass_;
    std::uint64_t unpins_;
};

} // namespace detail

} // namespace bestore
#endif
