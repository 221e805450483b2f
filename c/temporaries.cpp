// Loops over what a temporary object returns. With REFUSED undefined this compiles; with REFUSED at 1 to 4 the loop would begin after the
// object's end, so it must not compile.
#include "bestore.hpp"

using namespace bestore;

int main()
{
    Store store({64, 2, 100});
    Prepared query("size>0");
    store.make_index("size", Kind::int64);
    Pass other = store.another();
    Pin pin = store.pin();
    std::uint64_t count = 0;
#ifndef REFUSED
    for (const Node node : pin.ordered(query, Order("size")))
        count += node;
    for (const Node node : pin.ordered(query, Cursor(query, Order("size"))))
        count += node;
    for (const Batch &batch : pin.state())
        count += batch.size();
    for (const Entry &entry : other.journal_from())
        count += entry.number;
    for (const Node node : other.pin().nodes())
        count += node;
#elif REFUSED == 1
    for (const Node node : other.pin().ordered(query, Order("size")))
        count += node;
#elif REFUSED == 2
    for (const Node node : other.pin().ordered(query, Cursor(query, Order("size"))))
        count += node;
#elif REFUSED == 3
    for (const Batch &batch : other.pin().state())
        count += batch.size();
#elif REFUSED == 4
    for (const Entry &entry : store.another().journal_from())
        count += entry.number;
#endif
    return count > 0 ? 0 : 1;
}
