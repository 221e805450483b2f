// What each shared object of modules.cpp exports. A shared object is compiled with MODULE as its name, and with hidden symbols, so it has
// its own copy of everything that bestore.hpp defines.
#ifndef MODULES_HPP
#define MODULES_HPP

#include "bestore.hpp"

struct Module {
    bestore::Store (*open)();
    bestore::Updates (*refresh)(bestore::Live &, bestore::Pin &);
    bestore::Updates (*refresh_changed)(bestore::Live &, bestore::Pin &);
    bestore::Witness (*witness)(bestore::Pass &);
    std::uint64_t (*join)(bestore::Pass &, bestore::Witness &);
    bestore::Node (*new_node)(bestore::Pass &);
};

extern "C" const Module one __attribute__((visibility("default")));
extern "C" const Module two __attribute__((visibility("default")));

#endif
