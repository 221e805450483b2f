/* The code that the C fuzz targets share: it takes inputs apart, and ends a run that finds a fault.
 *
 * The library isn't instrumented for coverage, so a target uses `saw` to report to libFuzzer what a call returned. libFuzzer keeps
 * an input that produces a new result, just as it keeps one that takes a new branch in the helpers. */
#ifndef FUZZ_H
#define FUZZ_H

#include "bestore.h"
#include <errno.h>
#include <stdio.h>
#include <stdlib.h>
#include <string.h>

/* If the condition doesn't hold, prints where it is and ends the run. */
#define CHECK(condition)                                                          \
    do {                                                                          \
        if (!(condition)) {                                                       \
            fprintf(stderr, "%s:%d: %s doesn't hold\n", __FILE__, __LINE__, #condition); \
            abort();                                                              \
        }                                                                         \
    } while (0)

int LLVMFuzzerTestOneInput(const uint8_t *input, size_t length);

/* libFuzzer treats these counters like those of branches, and clears them before each input. */
__attribute__((used, section("__libfuzzer_extra_counters"))) static uint8_t seen[1 << 12];

/* Reports which call was made, and a number that stands for its result. */
static inline void saw(unsigned call, uint64_t what)
{
    seen[(call * 128u + (unsigned)(what % 128u)) % sizeof seen] = 1;
}

/* Returns how many bits a number has, as a coarse size for `saw`. */
static inline uint64_t size_of(uint64_t number)
{
    uint64_t bits = 0;
    for (; number != 0; number >>= 1)
        bits++;
    return bits;
}

/* The rest of an input. Once the input is used up, everything taken from it is 0. */
typedef struct fuzz_input {
    const uint8_t *bytes;
    size_t length;
} fuzz_input;

static inline uint64_t take(fuzz_input *input, size_t length)
{
    uint64_t number = 0;
    for (size_t i = 0; i < length && input->length > 0; i++, input->bytes++, input->length--)
        number |= (uint64_t)input->bytes[0] << 8 * i;
    return number;
}

/* Makes a copy of exactly this size, so that a read past its end is detected. */
static inline char *copy_of(const void *bytes, size_t length)
{
    char *copy = malloc(length > 0 ? length : 1);
    CHECK(copy != NULL);
    memcpy(copy, bytes, length);
    return copy;
}

/* Opens a store with an index "a" of strings, an index of numbers, and nodes 1 to 20, which have the numbers -5 to 14. */
static inline void open_indexed(bes_pass *pass, const char *numbers)
{
    uint64_t node = 0;
    CHECK(bes_open(256, 1, 1000, pass) == BES_OK);
    CHECK(bes_make_index(pass, "a", BES_STRING_TYPE) == BES_OK && bes_make_index(pass, numbers, BES_INT64_TYPE) == BES_OK);
    for (int64_t number = -5; number < 15; number++)
        CHECK(bes_new_node(pass, &node) == BES_OK && bes_set_int64(pass, node, numbers, number) == BES_OK);
}

#endif
