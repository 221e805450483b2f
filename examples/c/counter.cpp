// Atomic reading and writing: two threads file letters, each a node with its sender, and count them in one attribute of node 1. No letter
// gets another letter's sender, and no count is lost.
#include "bestore.hpp"
#include <iostream>
#include <thread>

namespace {

constexpr int letters = 1000;
const bestore::Attribute<std::string> from{"MAIL:from"};
const bestore::Attribute<std::int64_t> count{"letters"};

// Returns the letter's node. If another write comes in between, the function runs again with the next snapshot.
bestore::Node file_letter(bestore::Pass &pass, const char *name)
{
    const auto [number, letter] = pass.change([&](bestore::Change &change) {
        const bestore::Node node = change.create();
        change.set(node, from, name).set(1, count, change.get(1, count).value_or(0) + 1);
        return node;
    });
    return letter;
}

void file_letters(bestore::Pass &pass, const char *name)
{
    for (int i = 0; i < letters; i++)
        file_letter(pass, name);
}

} // namespace

int main()
{
    try {
        bestore::Store store;
        bestore::Pass other = store.another();
        store.apply(bestore::Batch().make_index(from).make_index(count).new_node());
        std::thread bob([&] { file_letters(other, "bob"); });
        file_letters(store, "ann");
        bob.join();
        auto pin = store.pin();
        std::cout << "ann " << pin.count("MAIL:from==ann") << ", bob " << pin.count("MAIL:from==bob") << ", counted "
                  << pin.get(1, count).value() << '\n';
    } catch (const bestore::Refusal &refusal) {
        std::cerr << refusal.what() << '\n';
        return 1;
    }
}
