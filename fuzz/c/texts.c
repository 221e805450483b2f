/* Uses arbitrary bytes as a name and as a value in a query. The library must accept the texts that the helpers make of them, and read
 * the same bytes from them. The helpers must write nothing past their buffers. The first two bytes give a buffer's length. */
#include "fuzz.h"

enum { CHARACTERS, NUMBER, PATTERN };

/* Copies the value in a query's only comparison, without its backslashes, and returns its length. */
static size_t plain_value(const char *query, size_t length, char *plain, size_t room)
{
    static bes_comparison_list list;
    const bes_compared *found = &list.comparisons[0];
    uint64_t place = 7;
    size_t count;
    CHECK(bes_list_comparisons(query, length, &list, &place) == BES_OK && list.counts.operations == 1);
    count = (size_t)(found->plain_end - found->plain_value_at);
    CHECK(found->at == 0 && found->end == length && found->kind == BES_ITEM_GE && count <= room);
    memcpy(plain, list.bytes + found->plain_value_at, count);
    return count;
}

/* Checks that an escaped text stands for itself in each form in which it can be written. */
static void stands_for_itself(const char *text, const char *escaped)
{
    static const char *const forms[] = {"a>=\"%s\"", "a>='%s'", "a>=%s"};
    char query[1024], plain[512];
    for (size_t i = *text == 0 ? 1 : 3; i > 0; i--) {
        int length = snprintf(query, sizeof query, forms[i - 1], escaped);
        CHECK(length > 0 && (size_t)length < sizeof query);
        CHECK(plain_value(query, (size_t)length, plain, sizeof plain) == strlen(text));
        CHECK(memcmp(plain, text, strlen(text)) == 0);
    }
}

/* Checks that a helper whose buffer is too small writes the beginning of the text, a zero byte, and nothing more. */
static void is_cut(size_t (*helper)(const char *, char *, size_t), const char *text, size_t room)
{
    char whole[3100], cut[3101];
    size_t length = helper(text, whole, sizeof whole);
    CHECK(length < sizeof whole && strlen(whole) == length);
    memset(cut, 0x5a, sizeof cut);
    CHECK(helper(text, cut, room) == length && cut[room] == 0x5a);
    if (room > 0) {
        size_t kept = length < room ? length : room - 1;
        CHECK(cut[kept] == 0 && memcmp(cut, whole, kept) == 0);
    }
}

/* Checks that the library accepts the pattern that bes_any_case makes of a text. */
static void is_pattern(const char *text)
{
    bes_prepared prepared = BES_PREPARED_INIT;
    char pattern[3100], query[3200];
    uint64_t place = 7;
    bes_any_case(text, pattern, sizeof pattern);
    snprintf(query, sizeof query, "a==\"%s\"", pattern);
    CHECK(bes_prepare_text(query, &prepared, &place) == BES_OK && bes_release(&prepared) == BES_OK);
    saw(PATTERN, size_of(strlen(pattern)));
}

static bool is_digit(char c)
{
    return c >= '0' && c <= '9';
}

/* Checks that exactly those texts are read as numbers that have an optional - and up to 20 digits, and that the C library also reads
 * as numbers of 64 bits. */
static void spells(const char *text, const char *escaped)
{
    static bes_comparison_list list;
    char query[1024], *end;
    uint64_t place = 7;
    bool is_number;
    const char *digits = text + (text[0] == '-');
    int length = snprintf(query, sizeof query, "a>=\"%s\"", escaped);
    CHECK(bes_list_comparisons(query, (size_t)length, &list, &place) == BES_OK);
    is_number = list.comparisons[0].form == BES_FORM_NUMBER;
    saw(NUMBER, is_number);
    if (!is_digit(digits[0]) || strspn(digits, "0123456789") != strlen(digits) || strlen(digits) > 20) {
        CHECK(!is_number);
        return;
    }
    errno = 0;
    if (text[0] == '-')
        (void)strtoll(text, &end, 10);
    else
        (void)strtoull(text, &end, 10);
    CHECK(*end == 0 && is_number == (errno == 0));
}

int LLVMFuzzerTestOneInput(const uint8_t *bytes, size_t length)
{
    fuzz_input input = {bytes, length};
    size_t room = (size_t)take(&input, 2) % 3100, count;
    char *text = copy_of(input.bytes, input.length), valid[256], again[256], escaped[520];
    count = bes_to_utf8(text, input.length, valid, sizeof valid);
    CHECK(count == strlen(valid) && bes_to_utf8(valid, count, again, sizeof again) == count && strcmp(valid, again) == 0);
    saw(CHARACTERS, size_of(count));
    CHECK(bes_escape(valid, escaped, sizeof escaped) == strlen(escaped));
    stands_for_itself(valid, escaped);
    is_cut(bes_escape, valid, room);
    is_cut(bes_any_case, valid, room);
    is_pattern(valid);
    spells(valid, escaped);
    free(text);
    return 0;
}
