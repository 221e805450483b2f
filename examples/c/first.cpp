// The same program as first.c, with the objects of bestore.hpp.
#include "bestore.hpp"
#include <iostream>

int main()
{
    try {
        bestore::Store store;
        store.make_index("MAIL:from", bestore::Kind::string);
        store.change([](bestore::Change &change) { change.set(change.create(), "MAIL:from", "ann"); });

        bestore::Pin pin = store.pin();
        for (const bestore::Node node : pin.query("MAIL:from==ann"))
            std::cout << "node " << node << ", from " << pin.get<std::string>(node, "MAIL:from").value() << '\n';
    } catch (const bestore::Refusal &refusal) {
        std::cerr << refusal.what() << '\n';
        return 1;
    }
}
