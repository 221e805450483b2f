// Runs the cases in ../tests/changes.txt, which specify how changes behave in all languages.
#include "bestore.hpp"
#include "tests.hpp"
#include <fstream>
#include <sstream>

using namespace bestore;
using Words = std::vector<std::string>;
using Lines = std::vector<Words>;

static Words words_of(const std::string &line)
{
    std::istringstream read(line);
    Words words;
    for (std::string word; read >> word;)
        words.push_back(word);
    return words;
}

static const std::pair<const char *, Kind> kinds[] = {
    {"STRING", Kind::string}, {"INT32", Kind::int32}, {"INT64", Kind::int64}, {"MIME", Kind::mime},
    {"RAW", Kind::raw}, {"UINT32", Kind::uint32}, {"UINT64", Kind::uint64}
};

static Kind kind_named(const std::string &name)
{
    for (const auto &[known, kind] : kinds)
        if (name == known)
            return kind;
    throw std::invalid_argument(name);
}

// LONG64 stands for a string of 64 bytes.
static std::string text_of(const std::string &word)
{
    return word.compare(0, 4, "LONG") == 0 ? std::string(std::stoul(word.substr(4)), 'x') : word;
}

static Value value_of(Kind kind, const std::string &word)
{
    const std::string text = text_of(word);
    switch (kind) {
    case Kind::int32:
        return std::int32_t{std::stoi(text)};
    case Kind::int64:
        return std::int64_t{std::stoll(text)};
    case Kind::uint32:
        return static_cast<std::uint32_t>(std::stoul(text));
    case Kind::uint64:
        return std::uint64_t{std::stoull(text)};
    case Kind::mime:
        return Mime{text};
    case Kind::raw:
        return Raw(text.begin(), text.end());
    case Kind::string:
        break;
    }
    return text;
}

static Node make(Change &change) { return change.create(); }
static Node make(Pass &pass) { return pass.new_node(); }

// Adds an operation to a change, or writes it directly through a pass.
template <class Target> static void collect(Target &target, const Words &words)
{
    const std::string &what = words[0];
    if (what == "new")
        CHECK(make(target) == std::stoull(words[1]));
    else if (what == "remove")
        target.remove_node(std::stoull(words[1]));
    else if (what == "set")
        target.set(std::stoull(words[1]), text_of(words[2]), value_of(kind_named(words[3]), words[4]));
    else if (what == "unset")
        target.unset(std::stoull(words[1]), words[2]);
    else if (what == "index")
        target.make_index(words[1], kind_named(words[2]));
    else if (what == "unindex")
        target.remove_index(words[1]);
    else
        throw std::invalid_argument(what);
}

// Checks that the operation is refused with the error after the !, and isn't added.
static void refused(Change &change, const Words &words, std::size_t mark)
{
    const auto size = change.batch().size();
    try {
        collect(change, Words(words.begin(), words.begin() + static_cast<std::ptrdiff_t>(mark)));
        CHECK(!"refused");
    } catch (const KindMismatch &error) {
        CHECK(words[mark + 1] == "WRONG_KIND" && error.of_index() == kind_named(words[mark + 2]));
        CHECK(error.of_value() == kind_named(words[3]));
    } catch (const Refusal &error) {
        CHECK(error.name() == "BES_" + words[mark + 1]);
    }
    CHECK(change.batch().size() == size);
}

// Runs one line inside a change.
static void step(Change &change, Pass &other, const Words &words)
{
    const auto mark = std::find(words.begin(), words.end(), "!");
    if (words[0] == "write") {
        collect(other, Words(words.begin() + 1, words.end()));
    } else if (words[0] == "any_kind") {
        change.any_kind();
    } else if (words[0] == "fill") {
        while (change.batch().size() < std::stoul(words[1]))
            change.create();
    } else if (words[0] == "get") {
        const auto found = change.get(std::stoull(words[1]), words[2]);
        if (words[3] == "none")
            CHECK(!found);
        else
            CHECK(found == value_of(kind_named(words[3]), words[4]));
    } else if (mark != words.end()) {
        refused(change, words, static_cast<std::size_t>(mark - words.begin()));
    } else {
        collect(change, words);
    }
}

// Runs the lines up to `end` in a change with one attempt, and checks that the change ends as that
// line says. Returns the index of the line after it.
static std::size_t change_by(Pass &pass, Pass &other, const Lines &lines, std::size_t at)
{
    std::size_t end = at;
    while (lines[end][0] != "end")
        end++;
    try {
        const std::uint64_t number = pass.change(
            [&](Change &change) {
                for (std::size_t line = at; line < end; line++)
                    step(change, other, lines[line]);
            },
            1);
        CHECK(lines[end][1] == std::to_string(number));
    } catch (const Refusal &error) {
        CHECK(lines[end][1] == "!" && error.name() == "BES_" + lines[end][2]);
    }
    return end + 1;
}

static void run(const Lines &lines)
{
    Store store({256, 2, 1000});
    Pass other = store.another();
    for (std::size_t at = 0; at < lines.size();) {
        const Words &words = lines[at++];
        if (words[0] == "begin") {
            at = change_by(store, other, lines, at);
        } else if (words[0] == "write") {
            collect(other, Words(words.begin() + 1, words.end()));
        } else if (words[0] == "entries") {
            CHECK(store.status().entries == std::stoull(words[1]));
        } else {
            std::vector<Node> nodes;
            for (std::size_t word = 2; word < words.size(); word++)
                nodes.push_back(std::stoull(words[word]));
            CHECK(words[0] == "found" && store.pin().query(words[1]) == nodes);
        }
    }
}

int main()
{
    std::ifstream file("../tests/changes.txt");
    Lines lines;
    unsigned cases = 0;
    for (std::string line; std::getline(file, line);) {
        const Words words = words_of(line);
        if (words.empty() || words[0] == "#")
            continue;
        if (words[0] != "case") {
            lines.push_back(words);
            continue;
        }
        run(lines);
        lines.clear();
        cases++;
    }
    run(lines);
    CHECK(cases == 13);
    return 0;
}
