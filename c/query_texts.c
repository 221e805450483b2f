/* Tests the comparisons in a query's text, and the escaping of texts for queries. */
#include "tests.h"

static bes_compared found[256];
static uint8_t bytes[1 << 16];
static bes_counts counts;
static uint64_t place;

static uint32_t compare(const char *text)
{
    return bes_query_comparisons((const uint8_t *)text, strlen(text), &counts, found, 256, bytes, sizeof bytes, &place);
}

/* Returns whether the bytes from `from` to `to` are this word. */
static bool is_at(const void *text, uint64_t from, uint64_t to, const char *word)
{
    return to - from == strlen(word) && memcmp((const char *)text + from, word, to - from) == 0;
}

static void places(void)
{
    const char *text = "a=1||!(\"b c\" <= 'x*'&&\\(d!=\"e\\\"f\")";
    OK(compare(text));
    CHECK(counts.operations == 3 && place == 0);
    CHECK(is_at(text, found[0].at, found[0].end, "a=1") && is_at(text, found[1].at, found[1].end, "\"b c\" <= 'x*'"));
    CHECK(is_at(text, found[2].at, found[2].end, "\\(d!=\"e\\\"f\""));
    CHECK(is_at(text, found[1].name_at, found[1].name_end, "b c") && is_at(text, found[1].value_at, found[1].value_end, "x*"));
    CHECK(is_at(text, found[2].name_at, found[2].name_end, "\\(d") && is_at(text, found[2].value_at, found[2].value_end, "e\\\"f"));
    CHECK(is_at(bytes, found[2].plain_name_at, found[2].plain_value_at, "(d"));
    CHECK(is_at(bytes, found[2].plain_value_at, found[2].plain_end, "e\"f"));
    CHECK(found[2].plain_end == counts.bytes);
}

static void kinds(void)
{
    OK(compare("a==1&&!(b!=2*)&&!!c<3&&d<=x&&!e>5&&f>=6"));
    const uint32_t kind[] = {BES_ITEM_EQ, BES_ITEM_EQ, BES_ITEM_LT, BES_ITEM_LE, BES_ITEM_LE, BES_ITEM_GE};
    const uint32_t in_text[] = {BES_ITEM_EQ, BES_ITEM_NE, BES_ITEM_LT, BES_ITEM_LE, BES_ITEM_GT, BES_ITEM_GE};
    const uint32_t form[] = {BES_FORM_NUMBER, BES_FORM_PATTERN, BES_FORM_NUMBER, BES_FORM_TEXT, BES_FORM_NUMBER, BES_FORM_NUMBER};
    for (size_t i = 0; i < 6; i++)
        CHECK(found[i].kind == kind[i] && found[i].kind_in_text == in_text[i] && found[i].form == form[i]);
}

/* Returns the kinds for which a comparison is never true, as a bit for each of the four kinds, beginning with int32. */
static unsigned never(const char *text)
{
    OK(compare(text));
    return found[0].is_never_int32 | found[0].is_never_int64 << 1 | found[0].is_never_uint32 << 2 | found[0].is_never_uint64 << 3;
}

static void ranges(void)
{
    CHECK(never("n==2147483647") == 0 && never("n==2147483648") == 1 && never("n>2147483647") == 1 && never("n>=2147483647") == 0);
    CHECK(never("n<-2147483648") == 13 && never("n<=-2147483648") == 12 && never("n<0") == 12 && never("!(n>=0)") == 12);
    CHECK(never("n<=0") == 0 && never("n!=-1") == 0 && never("n>4294967295") == 5 && never("n>=4294967295") == 1);
    CHECK(never("n>9223372036854775807") == 7 && never("n>18446744073709551615") == 15 && never("n==18446744073709551615") == 7);
    CHECK(never("n==1.5") == 15 && never("n!=5*") == 15 && never("n<\\5") == 0 && never("n==''") == 15);
}

static void errors(void)
{
    static const struct wrong {
        const char *text;
        uint32_t error;
        uint64_t place;
    } wrong[] = {{"a=", BES_SYNTAX, 2}, {"a=1 & b=2", BES_SYNTAX, 4}, {"a=[", BES_BAD_PATTERN, 2}, {"\xff=1", BES_NOT_UTF8, 0}, {"", BES_SYNTAX, 0}};
    for (size_t i = 0; i < sizeof wrong / sizeof *wrong; i++) {
        counts.operations = counts.bytes = 7;
        found[0].at = 7;
        bytes[0] = 7;
        CHECK(compare(wrong[i].text) == wrong[i].error && place == wrong[i].place);
        CHECK(counts.operations == 7 && counts.bytes == 7 && found[0].at == 7 && bytes[0] == 7);
    }
}

/* If the arrays are too small, the first comparisons and bytes are written, and the counts include the rest. */
static void little_room(void)
{
    const char *text = "ab=1||cd=2";
    found[1].at = 7;
    memset(bytes, 7, 8);
    OK(bes_query_comparisons((const uint8_t *)text, strlen(text), &counts, found, 1, bytes, 2, &place));
    CHECK(counts.operations == 2 && counts.bytes == 6 && found[0].at == 0 && found[1].at == 7 && bytes[1] == 'b' && bytes[2] == 7);
    OK(bes_query_comparisons((const uint8_t *)text, strlen(text), &counts, NULL, 0, NULL, 0, &place));
    CHECK(counts.operations == 2 && counts.bytes == 6);
}

typedef uint32_t make(const uint8_t *, size_t, uint8_t *, size_t, uint64_t *);

static bool makes(make *call, const char *text, const char *expected)
{
    uint64_t count = 7;
    OK(call((const uint8_t *)text, strlen(text), bytes, sizeof bytes, &count));
    return is_at(bytes, 0, count, expected);
}

static void made(void)
{
    uint64_t count = 7;
    CHECK(makes(bes_escape_bytes, "[draft].txt", "\\[draft].txt") && makes(bes_escape_bytes, "", ""));
    CHECK(makes(bes_escape_bytes, "a*?\\\"' =!<>&|()b", "a\\*\\?\\\\\\\"\\'\\ \\=\\!\\<\\>\\&\\|\\(\\)b"));
    CHECK(makes(bes_any_case_bytes, "dR. 1", "[dD][rR].\\ 1") && makes(bes_any_case_bytes, "\u6f22", "\u6f22"));
    CHECK(makes(bes_any_case_bytes, "G\u00dcn", "[gG][\u00fc\u00dc][nN]") && makes(bes_any_case_bytes, "g\u00fcN", "[gG][\u00fc\u00dc][nN]"));
    memset(bytes, 7, 4);
    OK(bes_escape_bytes((const uint8_t *)"**", 2, bytes, 3, &count));
    CHECK(count == 4 && bytes[2] == '\\' && bytes[3] == 7);
    CHECK(bes_escape_bytes((const uint8_t *)"\xff", 1, bytes, 8, &count) == BES_NOT_UTF8 && count == 0);
    CHECK(bes_any_case_bytes((const uint8_t *)"a\xc3", 2, bytes, 8, &count) == BES_NOT_UTF8 && count == 0);
}

/* A text that is matched in any case finds itself. */
static void finds(void)
{
    const char *names[] = {"G\u00fcnther", "G\u00dcNTHER", "g\u00fcnther.txt", "Gunther"};
    uint64_t node, number = 0, nodes[8], count = 0;
    bes_pass pass = BES_PASS_INIT;
    char query[512] = "name==\"";
    OK(bes_open(64, 1, 100, &pass) || bes_make_index(&pass, "name", BES_STRING_TYPE));
    for (size_t i = 0; i < 4; i++)
        OK(bes_new_node(&pass, &node) || bes_set_text(&pass, node, "name", names[i]));
    OK(bes_any_case_bytes((const uint8_t *)"G\u00dcNTHER", 8, (uint8_t *)query + 7, sizeof query - 9, &count));
    memcpy(query + 7 + count, "\"", 2);
    OK(bes_pin(&pass, &number) || bes_find(&pass, query, nodes, 8, &count));
    CHECK(count == 2 && nodes[0] == 1 && nodes[1] == 2);
    OK(bes_close(&pass));
}

int main(void)
{
    places();
    kinds();
    ranges();
    errors();
    little_room();
    made();
    finds();
    puts("query_texts: ok");
    return 0;
}
