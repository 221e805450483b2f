// Like racing.c: four threads create nodes and count them, once with guessed node numbers and once with Pass::change. Also fills
// an index while another thread is writing.
#include "bestore.hpp"
#include "tests.hpp"
#include <atomic>
#include <cstring>
#include <thread>

using namespace bestore;

static const Attribute<std::int64_t> total{"count"};
static const Attribute<std::uint64_t> maker{"maker"};

// Returns whether the node got a different number from the guessed one.
static bool guess(Pass &pass)
{
    Batch batch;
    Node next = 0;
    {
        auto pin = pass.pin();
        next = pin.nodes().back() + 1;
        batch.new_node().set(next, maker, pass.number()).set(1, total, pin.get(1, total).value() + 1);
    }
    return pass.apply(batch).made.front() != next;
}

static bool change(Pass &pass)
{
    pass.change(
        [&](Change &it) {
            it.set(it.create(), maker, pass.number()).set(1, total, it.get(1, total).value() + 1);
        },
        UINT32_MAX);
    return false;
}

static bool are_own(Pass &pass)
{
    for (const Entry &entry : pass.journal_from(1)) {
        const auto operations = entry.batch.operations();
        if (operations[1].node != operations[0].node || operations[1].value != Value(entry.pass))
            return false;
    }
    return true;
}

struct Damage {
    std::uint64_t mixed, lost;
};

template <class Write> Damage race(Write write, std::uint64_t rounds)
{
    Store store({4096, 5, 1000000});
    store.apply(Batch().new_node().set(1, total, 0));
    std::atomic<std::uint64_t> mixed{0};
    std::vector<std::thread> threads;
    for (int i = 0; i < 4; i++)
        threads.emplace_back([&mixed, write, rounds, pass = store.another()]() mutable {
            for (std::uint64_t round = 0; round < rounds; round++)
                mixed += write(pass);
        });
    for (auto &thread : threads)
        thread.join();
    CHECK(are_own(store) == (mixed == 0));
    auto pin = store.pin();
    CHECK(pin.number() == 1 + 4 * rounds && pin.nodes().size() == 1 + 4 * rounds);
    return {mixed, 4 * rounds - static_cast<std::uint64_t>(pin.get(1, total).value())};
}

// Creates and fills an index while another thread sets the attributes. No value is lost, and the index gets them all.
static void reindex_beside_writer()
{
    constexpr Node nodes = 200;
    const Attribute<std::int64_t> value{"n"};
    Store store({2048, 2, 1000000});
    for (Node node = 1; node <= nodes; node += 50)
        store.new_nodes(50);
    for (Node node = 1; node <= nodes; node++)
        store.set(node, value, 0);
    std::thread writer([&, pass = store.another()]() mutable {
        for (std::int64_t round = 1; round <= 5; round++)
            for (Node node = 1; node <= nodes; node++)
                pass.set(node, value, round);
    });
    store.make_index(value);
    store.reindex(value, UINT32_MAX);
    writer.join();
    auto pin = store.pin();
    CHECK(pin.pairs("n") == nodes && pin.count("n==5") == nodes);
}

int main(int argc, char **argv)
{
    const std::uint64_t rounds = argc > 1 && std::strcmp(argv[1], "short") == 0 ? 100 : 500;
    const auto guessed = race(guess, rounds), changed = race(change, rounds);
    reindex_beside_writer();
    CHECK(changed.mixed == 0 && changed.lost == 0);
    if (guessed.mixed + guessed.lost == 0)
        std::printf("the race didn't happen this time; ");
    else
        std::printf("by a guess %llu of %llu nodes mixed up and %llu counts lost; ", static_cast<unsigned long long>(guessed.mixed),
                    static_cast<unsigned long long>(4 * rounds), static_cast<unsigned long long>(guessed.lost));
    std::puts("by change none");
}
