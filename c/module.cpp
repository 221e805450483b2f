// A shared object of modules.cpp.
#include "modules.hpp"

using namespace bestore;

// Opens a store with 200 nodes that have an indexed size.
static Store filled()
{
    Store store({256, 2, 1000});
    store.make_index("size", Kind::int64);
    for (int batch = 0; batch < 4; batch++)
        for (const Node node : store.new_nodes(50))
            store.set(node, "size", static_cast<std::int64_t>(node));
    return store;
}

const Module MODULE = {
    filled,
    [](Live &live, Pin &pin) { return live.refresh(pin); },
    [](Live &live, Pin &pin) { return live.refresh_changed(pin); },
    [](Pass &pass) { return pass.witness(); },
    [](Pass &pass, Witness &witness) { return pass.join(witness); },
    [](Pass &pass) { return pass.new_node(); },
};
