// A catalogue of files: walks a folder, writes a node for each file with its name, size, modification time and kind, and answers queries.
//
//     catalogue FOLDER QUERY..      e.g. catalogue ~/music 'size>1000000 && kind==audio'
//
// Files that can't be read are skipped. Files that don't fit into the store are counted, and the program then returns 1. If a query has an
// error, it is printed with a caret below the error.
#include "bestore.hpp"
#include <cstdio>
#include <exception>
#include <filesystem>
#include <map>
#include <string>
#include <sys/stat.h>

namespace fs = std::filesystem;

namespace {

const bestore::Attribute<std::string> name{"name"}, kind{"kind"};
const bestore::Attribute<std::uint64_t> size{"size"};
const bestore::Attribute<std::int64_t> last_modified{"last_modified"};

std::string kind_of(const fs::path &path)
{
    static const std::map<std::string, std::string> kinds = {
        {".c", "source"}, {".cpp", "source"}, {".h", "source"}, {".hpp", "source"}, {".rt", "source"}, {".antt", "proof"},
        {".md", "text"}, {".txt", "text"}, {".mp3", "audio"}, {".flac", "audio"}, {".jpg", "picture"}, {".png", "picture"}
    };
    const auto found = kinds.find(path.extension().string());
    return found == kinds.end() ? "other" : found->second;
}

// Adds a node with its attributes in one write. A file name can contain any bytes, but a string must be UTF-8.
void write_file(bestore::Pass &pass, const fs::path &path)
{
    struct stat about;
    if (lstat(path.c_str(), &about) != 0)
        return;
    pass.change([&](bestore::Change &change) {
        const bestore::Node file = change.create();
        change.set(file, name, bestore::to_utf8(path.filename().string()))
            .set(file, size, static_cast<std::uint64_t>(about.st_size))
            .set(file, last_modified, static_cast<std::int64_t>(about.st_mtime))
            .set(file, kind, kind_of(path));
    });
}

// Returns how many files there are, and how many of them don't fit into the store.
std::pair<std::size_t, std::size_t> write_folder(bestore::Pass &pass, const fs::path &folder)
{
    std::size_t files = 0, left = 0;
    std::error_code error;
    fs::recursive_directory_iterator entry(folder, fs::directory_options::skip_permission_denied);
    for (; entry != fs::recursive_directory_iterator(); entry.increment(error)) {
        if (!entry->is_regular_file(error) || entry->is_symlink(error))
            continue;
        files++;
        try {
            if (left == 0)
                write_file(pass, entry->path());
            else
                left++;
        } catch (const bestore::Refusal &refusal) {
            if (refusal.number() != BES_FULL && refusal.number() != BES_COMMITS_SPENT)
                throw;
            left++;
        }
    }
    return {files, left};
}

// Prints the nodes that a query finds. The user has typed the query, so its errors are printed, not thrown. Returns whether there was no
// error.
bool print(bestore::Pin &pin, const char *query)
{
    try {
        const auto nodes = pin.query(query);
        std::printf("%s: %zu\n", query, nodes.size());
        for (const auto node : nodes)
            std::printf("  %s %llu\n", pin.get(node, name).value_or("?").c_str(),
                        static_cast<unsigned long long>(pin.get(node, size).value_or(0)));
    } catch (const bestore::Refusal &refusal) {
        std::fprintf(stderr, "%s\n%s\n", bestore::caret(query, refusal.offset().value_or(0)).c_str(), refusal.what());
        return false;
    }
    for (const auto &comparison : pin.never_true(bestore::Prepared(query)))
        std::fprintf(stderr, "%s is a whole number in every file, and %s isn't one, so the comparison is never true\n",
                     comparison.name.c_str(), comparison.value.c_str());
    return true;
}

int run(const char *folder, char **queries)
{
    bestore::Store store({16384, 1, 1000000});
    store.apply(bestore::Batch().make_index(name).make_index(kind).make_index(size).make_index(last_modified));
    const auto [files, left] = write_folder(store, folder);
    std::printf("%zu files\n", files);
    if (left > 0)
        std::fprintf(stderr, "the store has no room for %zu of them\n", left);
    auto pin = store.pin();
    bool is_good = left == 0;
    for (; *queries; queries++)
        is_good = print(pin, *queries) && is_good;
    return is_good ? 0 : 1;
}

} // namespace

int main(int argc, char **argv)
{
    if (argc < 2) {
        std::fprintf(stderr, "catalogue FOLDER QUERY..\n");
        return 2;
    }
    try {
        return run(argv[1], argv + 2);
    } catch (const std::exception &error) {
        std::fprintf(stderr, "catalogue: %s\n", error.what());
        return 1;
    }
}
