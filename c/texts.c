/* Tests the helpers for indices and query texts with random texts, comparing them with what the library parses and finds. */
#include "tests.h"

static uint64_t seed = 7;

static uint64_t below(uint64_t most)
{
    seed = seed * 6364136223846793005u + 1442695040888963407u;
    return (seed >> 33) % most;
}

/* Appends one of these choices, which are separated by spaces. */
static void append_one(char *text, size_t room, const char *choices)
{
    size_t count = 1, length;
    for (const char *c = choices; *c != 0; c++)
        count += *c == ' ';
    for (size_t skip = below(count); skip > 0; skip--)
        choices = strchr(choices, ' ') + 1;
    length = strcspn(choices, " ");
    if (strlen(text) + length < room)
        strncat(text, choices, length);
}

static void append_blanks(char *text, size_t room)
{
    static const char *const blanks[] = {"", "", "", " ", "\t", "\n", "\r ", "  "};
    const char *chosen = blanks[below(8)];
    if (strlen(text) + strlen(chosen) < room)
        strcat(text, chosen);
}

static void append_comparison(char *text, size_t room)
{
    append_one(text, room, "a size MAIL:from \"x\\\"y\" 'it\"s' h\xc3\xa9 \\(x \"=\" a\\ b \"\xe4\xb8\xad!\"");
    append_blanks(text, room);
    append_one(text, room, "== = != < <= > >=");
    append_blanks(text, room);
    append_one(text, room, "1 -5 abc \"a*\" '&&' \"\" [a-d] \"[^\\\"]\" \\* \"x\\\\\" 'a\"b' \xc3\xa9? \"||\" \\>\\= 12x");
}

/* Produces a random text that is a query, or nearly one. */
static void random_query(char *text, size_t room)
{
    size_t count = 1 + below(6), open = 0;
    text[0] = 0;
    for (size_t i = 0; i < count; i++) {
        append_blanks(text, room);
        for (; below(4) == 0; append_blanks(text, room)) {
            bool is_not = below(2) == 0;
            append_one(text, room, is_not ? "!" : "(");
            open += !is_not;
        }
        append_comparison(text, room);
        append_blanks(text, room);
        for (; open > 0 && (i + 1 == count || below(3) == 0); open--)
            append_one(text, room, ")");
        append_blanks(text, room);
        if (i + 1 < count)
            append_one(text, room, "&& ||");
    }
    if (below(3) == 0 && text[0] != 0)
        text[below(strlen(text))] = "()!=<>&|\"'\\ a"[below(13)];
}

/* Writes the canonical text of a query. Returns its length, or 0 if the text isn't a query. */
static size_t canonical_of(const char *text, size_t length, char *canonical, size_t room)
{
    bes_prepared prepared = BES_PREPARED_INIT;
    uint64_t count = 0, place = 0;
    if (bes_prepare((const uint8_t *)text, length, &prepared, &place) != BES_OK)
        return 0;
    CHECK(bes_prepared_text(&prepared, (uint8_t *)canonical, room, &count) == BES_OK && count <= room && count > 0);
    CHECK(bes_release(&prepared) == BES_OK);
    return (size_t)count;
}

static uint32_t opposite(uint32_t kind)
{
    static const uint32_t kinds[] = {BES_ITEM_NE, BES_ITEM_EQ, BES_ITEM_GE, BES_ITEM_GT, BES_ITEM_LE, BES_ITEM_LT};
    return kinds[kind - BES_ITEM_EQ];
}

/* Checks that a comparison in the user's text means the same as the one in the canonical text, except for a ! before the
 * former. */
static void is_same_comparison(const char *text, const bes_comparison *mine, const char *canonical, const bes_comparison *theirs)
{
    static char alone[4096];
    bes_comparison only;
    size_t at = 0, length = canonical_of(text + mine->at, mine->length, alone, sizeof alone);
    CHECK(length > 0 && bes_next_comparison(alone, length, &at, &only) && only.at == 0 && only.length == length && at == length);
    CHECK(only.kind == mine->kind && (theirs->kind == mine->kind || theirs->kind == opposite(mine->kind)));
    CHECK(only.name_length == theirs->name_length && only.value_length == theirs->value_length);
    CHECK(memcmp(alone + only.name_at, canonical + theirs->name_at, only.name_length) == 0);
    CHECK(memcmp(alone + only.value_at, canonical + theirs->value_at, only.value_length) == 0);
}

/* The helper finds the comparisons that the library parses, in the same order. */
static void comparisons(void)
{
    static char text[512], canonical[1 << 14];
    unsigned accepted = 0;
    for (int round = 0; round < 20000; round++) {
        size_t at = 0, other_at = 0, length;
        bes_comparison mine, theirs;
        random_query(text, sizeof text);
        length = canonical_of(text, strlen(text), canonical, sizeof canonical);
        if (length == 0)
            continue;
        accepted++;
        while (bes_next_comparison(text, strlen(text), &at, &mine)) {
            CHECK(mine.at + mine.length == at && bes_next_comparison(canonical, length, &other_at, &theirs));
            is_same_comparison(text, &mine, canonical, &theirs);
        }
        CHECK(!bes_next_comparison(canonical, length, &other_at, &theirs));
    }
    CHECK(accepted > 5000);
}

/* A text that isn't a query is read up to its end but not beyond. */
static void any_bytes(void)
{
    for (int round = 0; round < 20000; round++) {
        size_t length = below(20), at = 0, steps = 0;
        char *text = malloc(length + 1);
        bes_comparison found;
        CHECK(text != NULL);
        for (size_t i = 0; i < length; i++)
            text[i] = "ab=!<>&|()\"'\\ \n\xc3\xa9\0"[below(19)];
        while (bes_next_comparison(text, length, &at, &found) && steps++ < 40)
            CHECK(at <= length && found.name_at + found.name_length <= length && found.value_at + found.value_length <= length);
        CHECK(steps < 40);
        free(text);
    }
}

static void prepared_text(void)
{
    bes_prepared prepared = BES_PREPARED_INIT;
    uint8_t text[16];
    uint64_t count = 7;
    memset(text, 7, sizeof text);
    CHECK(bes_prepared_text(&prepared, text, 16, &count) == BES_CLOSED && count == 0 && text[0] == 7);
    CHECK(bes_prepare_text("!a=1", &prepared, &count) == BES_OK);
    CHECK(bes_prepared_text(&prepared, text, 3, &count) == BES_OK && count == 8 && memcmp(text, "\"a\"\7", 4) == 0);
    CHECK(bes_prepared_text(&prepared, text, 16, &count) == BES_OK && count == 8 && memcmp(text, "\"a\"!=\"1\"\7", 9) == 0);
    CHECK(bes_release(&prepared) == BES_OK);
}

/* Opens and pins a store with an index of each possible kind, and a node with 0 or "zero" in each. */
static void open_store(bes_pass *pass)
{
    uint64_t number = 0, node = 0;
    CHECK(bes_open(1024, 1, 100000, pass) == BES_OK);
    CHECK(bes_make_index(pass, "int32", BES_INT32_TYPE) == BES_OK && bes_make_index(pass, "int64", BES_INT64_TYPE) == BES_OK);
    CHECK(bes_make_index(pass, "uint32", BES_UINT32_TYPE) == BES_OK && bes_make_index(pass, "uint64", BES_UINT64_TYPE) == BES_OK);
    CHECK(bes_make_index(pass, "text", BES_STRING_TYPE) == BES_OK && bes_new_node(pass, &node) == BES_OK && node == 1);
    CHECK(bes_set_int32(pass, 1, "int32", 0) == BES_OK && bes_set_int64(pass, 1, "int64", 0) == BES_OK);
    CHECK(bes_set_uint32(pass, 1, "uint32", 0) == BES_OK && bes_set_uint64(pass, 1, "uint64", 0) == BES_OK);
    CHECK(bes_set_text(pass, 1, "text", "zero") == BES_OK && bes_pin(pass, &number) == BES_OK);
}

static uint64_t found(bes_pass *pass, const char *text)
{
    uint64_t count = 0;
    CHECK(bes_count(pass, text, &count) == BES_OK);
    return count;
}

static void uncovered_at(bes_pass *pass, const char *text, size_t byte)
{
    uint64_t count = 0;
    size_t at = 99;
    uint32_t error = bes_find(pass, text, &count, 0, &count);
    CHECK(error == BES_OK || (error == BES_NOT_COVERED && byte < strlen(text)));
    CHECK(bes_uncovered(pass, text, strlen(text), &at) == BES_OK && at == byte);
}

static void uncovered(void)
{
    bes_pass pass = BES_PASS_INIT;
    size_t at = 99;
    CHECK(bes_uncovered(&pass, "a==1", 4, &at) == BES_CLOSED && at == 4);
    open_store(&pass);
    uncovered_at(&pass, "a==1", 0);
    uncovered_at(&pass, " !( \"h\xc3\xa9\" == 1)", 4);
    uncovered_at(&pass, "int32==1 || name=='x'", 12);
    uncovered_at(&pass, "int32==1 && name=='x'", 12);
    uncovered_at(&pass, "int32==1 && \"in\\t32\"<1", 22);
    uncovered_at(&pass, "text==\"name==1\"", 15);
    uncovered_at(&pass, "TEXT==1||'text '==2", 0);
    at = 99;
    CHECK(bes_unpin(&pass) == BES_OK && bes_uncovered(&pass, "a==1", 4, &at) == BES_NOT_PINNED && at == 4);
    CHECK(bes_close(&pass) == BES_OK);
}

/* A whole number from -2^63 to 2^64 - 1. */
typedef struct whole {
    bool is_negative;
    uint64_t magnitude;
} whole;

/* Parses a number with an optional - and 1 to 20 digits. Backslashes are skipped. */
static bool spells_number(const char *text, whole *number)
{
    size_t digits = 0;
    number->magnitude = 0;
    text += *text == '\\';
    number->is_negative = *text == '-';
    text += number->is_negative;
    for (; *text != 0; text++, digits++) {
        text += *text == '\\';
        if (*text < '0' || *text > '9' || number->magnitude > (UINT64_MAX - (uint64_t)(*text - '0')) / 10)
            return false;
        number->magnitude = 10 * number->magnitude + (uint64_t)(*text - '0');
    }
    return digits > 0 && digits <= 20 && (!number->is_negative || number->magnitude <= (uint64_t)1 << 63);
}

/* Returns whether all integers of a kind with this many bits are above the number, or all are below it. */
static bool is_out_of_range(whole number, unsigned bits, bool is_signed)
{
    uint64_t greatest = UINT64_MAX >> (64 - bits + is_signed);
    if (number.is_negative)
        return number.magnitude > (is_signed ? greatest + 1 : 0);
    return number.magnitude > greatest;
}

/* If a comparison's value isn't a number, it is false for every integer. If it is a number, either <= or >= is true. The helper
 * finds comparisons that are false for every integer of the index's kind. */
static void never_true(void)
{
    static const char *const by_hand[] = {
        "0", "-0", "1.5", "", "-", "--1", "5*", "\\5", "18446744073709551615", "18446744073709551616", "-9223372036854775808",
        "-9223372036854775809", "00000000000000000001", "000000000000000000001", "2024-01-01", "\\-7", "abc"
    };
    bes_pass pass = BES_PASS_INIT;
    bes_index_list list;
    bes_comparison comparison;
    char value[32], text[256];
    open_store(&pass);
    CHECK(bes_list_indices(&pass, &list) == BES_OK && list.counts.operations == 5);
    for (size_t round = 0; round < 3000; round++) {
        static const char *const names[] = {"int32", "int64", "uint32", "uint64"};
        const char *name = names[round % 4];
        size_t at = 0, length = below(24);
        whole number;
        bool spells, is_never;
        for (size_t i = 0; i < length; i++)
            value[i] = below(30) == 0 ? ".-\\x*"[below(5)] : (char)('0' + below(10));
        value[length] = 0;
        if (round < 4 * (sizeof by_hand / sizeof *by_hand))
            strcpy(value, by_hand[round / 4]);
        if (strlen(value) > 0 && value[strlen(value) - 1] == '\\')
            continue;
        spells = spells_number(value, &number);
        is_never = !spells || is_out_of_range(number, round % 2 == 0 ? 32 : 64, round % 4 < 2);
        snprintf(text, sizeof text, "%s<=\"%s\" || %s>=\"%s\"", name, value, name, value);
        CHECK(found(&pass, text) == (spells ? 1 : 0));
        CHECK(bes_next_never_true(&list, text, strlen(text), &at, &comparison) == is_never);
        snprintf(text, sizeof text, "%s==\"%s\" || %s!=\"%s\"", name, value, name, value);
        CHECK(found(&pass, text) == (spells ? 1 : 0));
    }
    strcpy(text, "text==1.5 && int64<3 && int32>1.5 || none=='x'");
    for (size_t at = 0, count = 0; bes_next_never_true(&list, text, strlen(text), &at, &comparison); count++)
        CHECK(count == 0 && comparison.at == 24 && comparison.length == 9 && comparison.kind == BES_ITEM_GT);
    CHECK(bes_close(&pass) == BES_OK);
}

static void pairs(void)
{
    static const char *const names[] = {"int32", "int64", "uint32", "uint64", "text"};
    bes_pass pass = BES_PASS_INIT;
    uint64_t count = 7, node = 0, number = 0;
    CHECK(bes_pairs(&pass, "text", &count) == BES_CLOSED && count == 0);
    open_store(&pass);
    CHECK(bes_unpin(&pass) == BES_OK && bes_pairs(&pass, "text", &count) == BES_NOT_PINNED);
    CHECK(bes_new_node(&pass, &node) == BES_OK && bes_set_int32(&pass, node, "int32", INT32_MIN) == BES_OK);
    CHECK(bes_set_int64(&pass, node, "int64", INT64_MIN) == BES_OK && bes_set_uint32(&pass, node, "uint32", UINT32_MAX) == BES_OK);
    CHECK(bes_set_uint64(&pass, node, "uint64", UINT64_MAX) == BES_OK && bes_set_text(&pass, node, "text", "") == BES_OK);
    CHECK(bes_new_node(&pass, &node) == BES_OK && bes_set_text(&pass, node, "int32", "5") == BES_OK && bes_pin(&pass, &number) == BES_OK);
    for (size_t i = 0; i < 5; i++)
        CHECK(bes_pairs(&pass, names[i], &count) == BES_OK && count == 2);
    CHECK(bes_pairs(&pass, "none", &count) == BES_NO_INDEX && count == 0 && bes_pairs(&pass, "", &count) == BES_NO_INDEX);
    CHECK(bes_close(&pass) == BES_OK);
}

/* An index that is created late has all values of its kind after bes_reindex. */
static void reindexed(void)
{
    static const char *const names[] = {"a", "b"};
    bes_pass pass = BES_PASS_INIT;
    uint64_t count = 7, made[64], number = 0;
    bes_attribute read;
    uint8_t bytes[255];
    CHECK(bes_reindex(&pass, "a", 1, &count) == BES_CLOSED && count == 0);
    CHECK(bes_open(1024, 1, 10000, &pass) == BES_OK && bes_reindex(&pass, "a", 1, &count) == BES_NO_INDEX);
    for (uint64_t i = 0; i < 3; i++)
        CHECK(bes_new_nodes(&pass, 64, made) == BES_OK);
    for (uint64_t node = 1; node <= 150; node++)
        CHECK(bes_set_int64(&pass, node, "a", -(int64_t)node) == BES_OK && bes_set_text(&pass, node, "b", "text") == BES_OK);
    CHECK(bes_set_int32(&pass, 7, "a", 7) == BES_OK);
    CHECK(bes_make_index(&pass, "a", BES_INT64_TYPE) == BES_OK && bes_make_index(&pass, "b", BES_STRING_TYPE) == BES_OK);
    for (uint64_t i = 0; i < 2; i++) {
        CHECK(bes_reindex(&pass, names[i], 1, &count) == BES_OK && count == 149 + i);
        CHECK(bes_pin(&pass, &number) == BES_OK && bes_pairs(&pass, names[i], &count) == BES_OK && count == 149 + i);
        CHECK(bes_reindex(&pass, names[i], 1, &count) == BES_PINNED && bes_unpin(&pass) == BES_OK);
    }
    CHECK(bes_pin(&pass, &number) == BES_OK && bes_count(&pass, "a==-150 && b==text", &count) == BES_OK && count == 1);
    CHECK(bes_read(&pass, 7, "a", &read, bytes, 0) == BES_OK && read.code == BES_INT32_TYPE && bes_close(&pass) == BES_OK);
}

/* Produces a text of up to 12 characters, including those with a special meaning in queries. */
static void random_text(char *text)
{
    size_t length = 1 + below(12);
    text[0] = 0;
    for (size_t i = 0; i < length; i++) {
        static const char *const characters[] = {"a", "B", "z", "*", "?", "[", "]", "^", "-", "\\", "\"", "'", " ", "\t", "\n", "\r", "=",
                                                 "!", "<", ">", "&", "|", "(", ")", "1", "\x01", "\x7f", "\xc3\xa9", "\xe4\xb8\xad", "."};
        strcat(text, characters[below(sizeof characters / sizeof *characters)]);
    }
}

static void escapes(void)
{
    static char value[64], other[64], escaped[130], query[400];
    static const char *const forms[] = {"text==%s", "text==\"%s\"", "text=='%s'", "text>=\"%s\" && text<=%s"};
    bes_pass pass = BES_PASS_INIT;
    uint64_t number = 0;
    open_store(&pass);
    CHECK(bes_escape("[draft].txt", escaped, sizeof escaped) == 12 && strcmp(escaped, "\\[draft].txt") == 0);
    CHECK(bes_escape("[draft].txt", escaped, 4) == 12 && strcmp(escaped, "\\[d") == 0 && bes_escape("x", NULL, 0) == 1);
    for (int round = 0; round < 2000; round++) {
        size_t length;
        random_text(value);
        random_text(other);
        length = bes_escape(value, escaped, sizeof escaped);
        CHECK(length == strlen(escaped) && length <= 2 * strlen(value));
        CHECK(bes_unpin(&pass) == BES_OK && bes_set_text(&pass, 1, "text", value) == BES_OK && bes_pin(&pass, &number) == BES_OK);
        for (size_t i = 0; i < 4; i++) {
            snprintf(query, sizeof query, forms[i], escaped, escaped);
            CHECK(found(&pass, query) == 1);
        }
        bes_escape(other, escaped, sizeof escaped);
        snprintf(query, sizeof query, "text==\"%s\"", escaped);
        CHECK(found(&pass, query) == (strcmp(value, other) == 0));
        /* Use the text as a name. The query is parsed, but the name has no index. */
        snprintf(query, sizeof query, "%s==1", escaped);
        uncovered_at(&pass, query, 0);
    }
    CHECK(bes_close(&pass) == BES_OK);
}

static void any_case(void)
{
    static char value[64], pattern[260], query[400];
    bes_pass pass = BES_PASS_INIT;
    uint64_t number = 0;
    open_store(&pass);
    CHECK(bes_any_case("dR.", pattern, sizeof pattern) == 9 && strcmp(pattern, "[dD][rR].") == 0);
    CHECK(bes_any_case("\xff", pattern, sizeof pattern) == 0 && pattern[0] == 0);
    CHECK(bes_unpin(&pass) == BES_OK && bes_set_text(&pass, 1, "text", "G\xc3\xbcnther") == BES_OK && bes_pin(&pass, &number) == BES_OK);
    bes_any_case("G\xc3\x9cNTHER", pattern, sizeof pattern);
    snprintf(query, sizeof query, "text==\"%s\"", pattern);
    CHECK(found(&pass, query) == 1);
    CHECK(bes_any_case("dR.", pattern, 6) == 9 && strcmp(pattern, "[dD][") == 0);
    for (int round = 0; round < 1000; round++) {
        random_text(value);
        CHECK(bes_any_case(value, pattern, sizeof pattern) == strlen(pattern) && strlen(pattern) <= 4 * strlen(value));
        for (char *c = value; *c != 0; c++)
            if ((*c | 0x20) >= 'a' && (*c | 0x20) <= 'z' && (*c & 0x80) == 0)
                *c ^= (char)(below(2) << 5);
        CHECK(bes_unpin(&pass) == BES_OK && bes_set_text(&pass, 1, "text", value) == BES_OK && bes_pin(&pass, &number) == BES_OK);
        snprintf(query, sizeof query, below(2) == 0 ? "text==%s" : "text==\"%s\"", pattern);
        CHECK(found(&pass, query) == 1);
    }
    CHECK(bes_close(&pass) == BES_OK);
}

/* Any bytes become a text that the library accepts. A text that it already accepts is left unchanged. */
static void valid_texts(void)
{
    static char bytes[400 + 1], valid[256], again[256];
    bes_pass pass = BES_PASS_INIT;
    open_store(&pass);
    CHECK(bes_unpin(&pass) == BES_OK);
    CHECK(bes_to_utf8("a\xff\xc3\xa9\xc3", 5, valid, 256) == 5 && strcmp(valid, "a?\xc3\xa9?") == 0);
    CHECK(bes_to_utf8("ab\xc3\xa9", 4, valid, 4) == 2 && strcmp(valid, "ab") == 0 && bes_to_utf8("\xed\xa0\x80", 3, valid, 9) == 3);
    CHECK(strcmp(valid, "???") == 0 && bes_to_utf8("", 0, valid, 1) == 0 && bes_to_utf8("a\0b", 3, valid, 9) == 3);
    for (int round = 0; round < 2000; round++) {
        size_t length = below(round % 2 == 0 ? 8 : 400), count;
        uint32_t error;
        for (size_t i = 0; i < length; i++)
            bytes[i] = (char)(below(3) == 0 ? below(128) : 128 + below(128));
        count = bes_to_utf8(bytes, length, valid, sizeof valid);
        error = bes_set_text(&pass, 1, "t", valid);
        CHECK(count == strlen(valid) && error == BES_OK && bes_to_utf8(valid, count, again, sizeof again) == count);
        CHECK(strcmp(valid, again) == 0);
        bytes[length] = 0;
        if (strlen(bytes) == length && bes_set_text(&pass, 1, "t", bytes) == BES_OK)
            CHECK(strcmp(valid, bytes) == 0);
    }
    CHECK(bes_close(&pass) == BES_OK);
}

static void caret_is(const char *text, uint64_t byte, const char *expected)
{
    char printed[256] = "";
    FILE *file = tmpfile();
    CHECK(file != NULL && bes_print_caret(file, text, byte) == 0);
    rewind(file);
    CHECK(fread(printed, 1, sizeof printed - 1, file) == strlen(expected) && strcmp(printed, expected) == 0);
    CHECK(fclose(file) == 0);
}

static void carets(void)
{
    caret_is("size<", 5, "size<\n     ^\n");
    caret_is("size<5 || gr\xc3\xb6\xc3\x9f""e==[", 19, "size<5 || gr\xc3\xb6\xc3\x9f""e==[\n                 ^\n");
    caret_is("a==1 &&\n\tb==[ ||\nc==1", 12, " b==[ ||\n    ^\n");
    caret_is("\x1b[31m==", 7, " [31m==\n       ^\n");
    caret_is("", 9, "\n^\n");
}

int main(void)
{
    prepared_text();
    comparisons();
    any_bytes();
    uncovered();
    never_true();
    pairs();
    reindexed();
    escapes();
    any_case();
    valid_texts();
    carets();
    return 0;
}
