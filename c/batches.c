/* Tests the encoding of batches as bytes against tests/batches.txt, which has the cases for the encoders in all languages. */
#include "tests.h"

enum { LINE = 2000, BYTES = 1000 };

/* Decodes a word of hexadecimal digits, or a byte with a repeat count, such as "61*63". Returns how many bytes it wrote. */
static size_t put_word(const char *word, uint8_t *bytes)
{
    size_t count = 0;
    unsigned byte = 0, times = 1;
    if (sscanf(word, "%2x*%u", &byte, &times) == 2) {
        memset(bytes, (int)byte, times);
        return times;
    }
    for (; word[2 * count] != '\0'; count++) {
        CHECK(sscanf(word + 2 * count, "%2x", &byte) == 1);
        bytes[count] = (uint8_t)byte;
    }
    return count;
}

/* Decodes words separated by spaces, where "-" stands for no bytes. Changes the text. Returns how many bytes it wrote. */
static size_t read_bytes(char *words, uint8_t *bytes)
{
    size_t count = 0;
    for (char *word = strtok(words, " "); word != NULL; word = strtok(NULL, " "))
        count += strcmp(word, "-") == 0 ? 0 : put_word(word, bytes + count);
    return count;
}

/* Returns the type code with these four letters, or 0 for "-". */
static uint32_t code_of(const char *letters)
{
    uint32_t code = 0;
    for (size_t i = 0; letters[i] != '\0' && strcmp(letters, "-") != 0; i++)
        code = code << 8 | (uint8_t)letters[i];
    return code;
}

/* Adds the operation that the words describe to the batch. */
static void add_operation(bes_batch *batch, const char *words)
{
    char name_word[LINE], letters[8], number[32], value_word[LINE];
    uint8_t name[BYTES], value[BYTES];
    unsigned kind = 0;
    unsigned long long node = 0;
    size_t name_length, value_length;
    CHECK(sscanf(words, "%u %llu %s %7s %31s %s", &kind, &node, name_word, letters, number, value_word) == 6);
    name_length = read_bytes(name_word, name);
    value_length = read_bytes(value_word, value);
    CHECK(bes_batch_add_bytes(batch, kind, node, name, name_length, code_of(letters), strtoull(number, NULL, 10), value, value_length) ==
          BES_OK);
}

/* Checks that the batch encodes to the format's first bytes followed by these operations, and that the result decodes to the same
 * batch. */
static void is_written(const bes_batch *batch, const uint8_t *operations, size_t length)
{
    static uint8_t expected[5 + 64 * BYTES], bytes[BES_BATCH_BYTES];
    static bes_batch read;
    uint64_t count = 0, place = 7;
    memcpy(expected, "BEB\1", 4);
    expected[4] = (uint8_t)batch->count;
    memcpy(expected + 5, operations, length);
    CHECK(bes_batch_to_bytes(batch, bytes, sizeof bytes, &count) == BES_OK);
    CHECK(count == 5 + length && memcmp(bytes, expected, 5 + length) == 0);
    CHECK(bes_batch_from_bytes(&read, bytes, count, &place) == BES_OK && place == 0 && read.count == batch->count);
    CHECK(memcmp(read.operations, batch->operations, read.count * sizeof *read.operations) == 0);
    CHECK(read.used == batch->used && memcmp(read.bytes, batch->bytes, read.used) == 0);
    for (uint64_t cut = 0; cut < count; cut++)
        CHECK(bes_batch_from_bytes(&read, bytes, cut, &place) == BES_BAD_PART && place <= cut && read.count == 0);
}

/* Returns the error for this part of a batch. */
static uint32_t error_of(const char *part)
{
    if (strcmp(part, "count") == 0)
        return BES_BAD_COUNT;
    if (strcmp(part, "operation") == 0)
        return BES_NO_OPERATION;
    if (strcmp(part, "name") == 0)
        return BES_NAME_LENGTH;
    if (strcmp(part, "utf8") == 0)
        return BES_NOT_UTF8;
    if (strcmp(part, "nul") == 0)
        return BES_HAS_NUL;
    if (strcmp(part, "number") == 0)
        return BES_NO_VALUE;
    return strcmp(part, "kind") == 0 ? BES_NO_KIND : BES_BAD_PART;
}

/* Checks that these bytes aren't accepted as a batch. The words give the error, and the offset of the invalid part. */
static void is_refused(const uint8_t *bytes, size_t length, const char *words)
{
    static bes_batch read;
    char part[16];
    unsigned long long offset = 0;
    uint64_t place = 7;
    CHECK(sscanf(words, "%llu %15s", &offset, part) == 2);
    CHECK(bes_batch_from_bytes(&read, bytes, length, &place) == error_of(part) && place == offset && read.count == 0);
}

/* The operations of all valid lines of the table so far, their bytes, and the number of lines with errors. */
static bes_batch together;
static uint8_t all[64 * BYTES];
static size_t used, refused;

static void try_line(char *line)
{
    static uint8_t bytes[BYTES];
    static bes_batch one;
    const size_t words = strcspn(line, "=!");
    const char mark = line[words];
    size_t length;
    if (line[0] == '#' || mark == '\0')
        return;
    line[words] = '\0';
    length = read_bytes(line, bytes);
    if (mark == '!') {
        is_refused(bytes, length, line + words + 1);
        refused++;
        return;
    }
    bes_batch_clear(&one);
    add_operation(&one, line + words + 1);
    add_operation(&together, line + words + 1);
    is_written(&one, bytes, length);
    memcpy(all + used, bytes, length);
    used += length;
}

int main(void)
{
    static char line[LINE];
    FILE *table = fopen("../tests/batches.txt", "r");
    CHECK(table != NULL);
    while (fgets(line, sizeof line, table) != NULL)
        try_line(line);
    CHECK(fclose(table) == 0 && together.count > 30 && refused > 12);
    is_written(&together, all, used);
    return 0;
}
