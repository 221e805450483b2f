// Does what mailbox_client.c does, in C++: reads an mbox file into the store of a server, and answers queries.
//
//     mailbox_client FILE QUERY..      e.g. mailbox_client letters.mbox 'MAIL:from=="*ann*"'
//
// One thread writes a node for each mail. Meanwhile, a second thread follows the first query from snapshot to snapshot. The other queries
// run once all mails have been written. If a mail doesn't fit into the store, reading stops: the queries find only the mails before it,
// and the program returns 1.
#include "bestore_client.hpp"
#include "mails.h"
#include <atomic>
#include <cstring>
#include <future>
#include <iostream>

namespace {

using bestore::Client;

// What writes mails.
struct Clerk {
    Client client;
    std::uint64_t number; // the number of the last write
};

// Connects to the server that BESTORE_SOCKET names, or to the one that listens by default. It may take 5 seconds to start.
Client connected()
{
    bestore::ClientOptions options;
    options.wait = std::chrono::seconds(5);
    return Client(options);
}

// Creates an index, unless an earlier run has.
void make_index(Client &client, const char *name, bestore::Kind kind)
{
    try {
        client.make_index(name, kind);
    } catch (const bestore::Refusal &refusal) {
        if (refusal.number() != BES_INDEX_EXISTS)
            throw;
    }
}

// Creates the node for a mail.
std::uint32_t write_mail(const mail *it, void *with)
{
    auto &clerk = *static_cast<Clerk *>(with);
    clerk.number = clerk.client.change([&](Client::Change &change) {
        const bestore::Node node = change.create();
        change.set(node, "BEOS:TYPE", bestore::Mime{"text/x-email"});
        for (int i = 0; i < TEXTS; i++)
            if (it->has_text[i])
                change.set(node, headers[i][1], it->texts[i]);
        if (it->when >= 0)
            change.set(node, "MAIL:when", it->when);
    });
    return BES_OK;
}

// Follows a query until it has seen the last write, whose number is 0 while the writer is working. Returns how many mails have appeared.
std::size_t watch(const std::string &query, const std::atomic<std::uint64_t> &last)
{
    Client client = connected();
    Client::Live live(query);
    std::size_t found = 0;
    for (;;) {
        const std::uint64_t until = last;
        Client::Pin pin = client.pin();
        const bestore::Updates updates = live.refresh(pin);
        if (!updates.removed.empty())
            throw std::runtime_error("a mail went away");
        found += updates.created.size();
        if (until != 0 && pin.number() >= until)
            return found;
    }
}

void print(Client::Pin &pin, const std::string &query)
{
    const std::vector<bestore::Node> nodes = pin.query(query);
    std::cout << query << ": " << nodes.size() << '\n';
    for (const bestore::Node node : nodes)
        if (const auto subject = pin.get<std::string>(node, "MAIL:subject"))
            std::cout << "  " << node << ' ' << *subject << '\n';
}

// Reads the file's mails, and answers the queries. Returns whether all mails were written.
bool run(FILE *file, const std::vector<std::string> &queries)
{
    Clerk clerk{connected(), 0};
    for (const auto &header : headers)
        make_index(clerk.client, header[1], bestore::Kind::string);
    make_index(clerk.client, "MAIL:when", bestore::Kind::int64);
    clerk.number = clerk.client.pin().number();

    std::atomic<std::uint64_t> last{0};
    auto found = std::async(std::launch::async, watch, queries.front(), std::cref(last));
    std::uint64_t mails = 0;
    bool is_whole = true;
    try {
        read_mails(file, bec_to_utf8, write_mail, &clerk, &mails);
    } catch (const std::exception &error) {
        std::cerr << "the store takes no more after " << mails << " mails: " << error.what() << '\n';
        is_whole = false;
    }
    last = clerk.number;
    std::cout << "watched " << queries.front() << ": " << found.get() << '\n';

    Client::Pin pin = clerk.client.pin();
    for (const auto &query : queries)
        print(pin, query);
    return is_whole;
}

} // namespace

int main(int argc, char **argv)
{
    if (argc <= 2) {
        std::cerr << "mailbox_client FILE QUERY..\n";
        return 2;
    }
    const std::unique_ptr<FILE, int (*)(FILE *)> file(fopen(argv[1], "r"), fclose);
    if (!file) {
        std::cerr << argv[1] << ": " << std::strerror(errno) << '\n';
        return 1;
    }
    try {
        return run(file.get(), {argv + 2, argv + argc}) ? 0 : 1;
    } catch (const std::exception &error) {
        std::cerr << error.what() << '\n';
        return 1;
    }
}
