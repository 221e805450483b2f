// A program and two shared objects hand each other stores and what came from them. None may take another's store for its own, or a parent's
// object for one of a forked child.
#include "modules.hpp"
#include "tests.hpp"
#include <sys/wait.h>
#include <unistd.h>

using namespace bestore;

static bool joins(const Module &module, Pass &pass, Witness &witness)
{
    try {
        module.join(pass, witness);
    } catch (const std::invalid_argument &) {
        return false;
    }
    return true;
}

// A witness is joined by passes of its store alone, wherever they are from.
static void witnesses(const Module &module, const Module &other)
{
    Store store = module.open(), same = other.open(), own({64, 1, 100});
    Pass pass = store.another();
    Witness witness = module.witness(store);
    CHECK(joins(other, pass, witness) && joins(module, pass, witness));
    CHECK(!joins(other, same, witness) && !joins(module, same, witness) && !joins(other, own, witness));
}

// A live query runs as a whole in another object's store, and says what that changes.
static void refreshes(const Module &module, const Module &other)
{
    Store store = module.open(), next = other.open();
    Live live("size>0 && size<=150");
    {
        auto pin = store.pin();
        CHECK(module.refresh(live, pin).created.size() == 150);
    }
    for (Node node = 1; node <= 150; node++)
        next.unset(node, "size");
    auto pin = next.pin();
    const auto updates = other.refresh_changed(live, pin);
    CHECK(updates.created.empty() && updates.removed.size() == 150);
}

// In a forked child, each shared object refuses the parent's objects, even if its first call is in the child.
static void forked(const Module &module, const Module &other)
{
    Store store = module.open();
    std::fflush(nullptr);
    const pid_t child = fork();
    CHECK(child >= 0);
    if (child == 0) {
        refused(BES_CLOSED, [&] { other.new_node(store); });
        refused(BES_CLOSED, [&] { module.new_node(store); });
        Store own = module.open();
        CHECK(other.new_node(own) == 201);
        execlp("true", "true", static_cast<char *>(nullptr)); // exits without a leak report
        _exit(1);
    }
    int status = 0;
    CHECK(waitpid(child, &status, 0) == child && WIFEXITED(status) && WEXITSTATUS(status) == 0);
    CHECK(other.new_node(store) == 201);
}

int main()
{
    forked(one, two);
    witnesses(one, two);
    refreshes(one, two);
    refreshes(two, one);
}
