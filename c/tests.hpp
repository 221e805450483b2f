// Definitions shared by the C++ tests.
#ifndef TESTS_HPP
#define TESTS_HPP

// On a loaded machine, and under valgrind, another thread may be in the middle of a write for longer than the helpers usually wait.
#ifndef BES_WITHIN
#define BES_WITHIN 60000 // milliseconds
#define BES_CHANGE_WITHIN 60000
#define BES_TRIES 10000000u
#endif

#include "bestore.hpp"
#include <cstdio>
#include <cstdlib>

#define CHECK(...) \
    do { \
        if (!(__VA_ARGS__)) { \
            std::fprintf(stderr, "%s:%d: %s\n", __FILE__, __LINE__, #__VA_ARGS__); \
            std::exit(1); \
        } \
    } while (0)

using Carried = std::optional<std::uint64_t>;

// The details of an error.
struct With {
    Carried offset = {}, item = {}, operation = {}, least = {}, pass_number = {}, length = {};
};

// Checks that the call fails with this error number and these details.
template <class Call> void refused(std::uint32_t number, const With &with, Call call)
{
    try {
        call();
    } catch (const bestore::Refusal &refusal) {
        CHECK(refusal.number() == number && std::string(refusal.what()) == bes_strerror(number));
        CHECK(refusal.offset() == with.offset && refusal.item() == with.item && refusal.operation() == with.operation);
        CHECK(refusal.least() == with.least && refusal.pass_number() == with.pass_number);
        CHECK(!with.length || refusal.length() == with.length);
        return;
    }
    CHECK(!"refused");
}

template <class Call> void refused(std::uint32_t number, Call call)
{
    refused(number, With(), call);
}

inline With at_byte(std::uint64_t offset)
{
    With with;
    with.offset = offset;
    return with;
}

inline With at_item(std::uint64_t item)
{
    With with;
    with.item = item;
    return with;
}

inline With at_operation(std::uint64_t operation)
{
    With with;
    with.operation = operation;
    return with;
}

#endif
