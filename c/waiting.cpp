// Tests that writes and changes give up in time, even beside 30 processes that compute. Linked with -Wl,--wrap=malloc, so that a write can
// be tried in the middle of another call.
#include "computing.h"
#include "tests.hpp"
#include <chrono>

using namespace bestore;

static constexpr std::chrono::milliseconds within{300};

extern "C" void *__real_malloc(std::size_t size);
extern "C" void *__wrap_malloc(std::size_t size);

static void (*between)(); // called once, at the next request for memory

void *__wrap_malloc(std::size_t size)
{
    const auto call = std::exchange(between, nullptr);
    if (call != nullptr)
        call();
    return __real_malloc(size);
}

static void conflicts()
{
    Store store({64, 2, UINT32_MAX});
    auto other = store.another();
    unsigned runs = 0;
    const double begin = seconds();
    refused(BES_CONFLICT, [&] {
        store.change([&](Change &change) {
            runs++;
            other.new_node();
            change.create();
            other.apply(Batch().remove_node(runs));
        }, UINT32_MAX, within);
    });
    CHECK(is_in_time(begin) && runs > 3);
}

static void is_full()
{
    Store store({16, 2, UINT32_MAX});
    auto other = store.another();
    store.new_node();
    const auto pin = other.pin();
    double begin = 0;
    try {
        for (;;) {
            begin = seconds();
            store.apply(Batch().set(1, "a", 1), UINT32_MAX, within);
        }
    } catch (const Refusal &refusal) {
        CHECK(refusal.number() == BES_FULL && is_in_time(begin));
    }
}

// A pass that writes while another pass of its store makes the journal's text.
static Pass *writer;

static void is_busy()
{
    Store store({64, 2, 100});
    auto other = store.another();
    writer = &other;
    store.new_node();
    between = [] {
        const double begin = seconds();
        With with;
        with.pass_number = 1;
        refused(BES_BUSY, with, [] { writer->apply(Batch().new_node(), UINT32_MAX, within); });
        CHECK(is_in_time(begin));
    };
    CHECK(!store.journal().empty() && between == nullptr);
}

int main()
{
    start_computing();
    conflicts();
    is_full();
    is_busy();
    stop_computing();
}
