/* Opens or builds a store, whose unused pages then take no memory. */
#include "heap.h"

#include "bestore.h"

/* The proved calls, which c/Makefile renames. In `bes_open` and `bes_build`, the words of all pages are among the large blocks that
 * are requested, and none of these is freed before all have been requested, unless the call fails: then it requests no more. In
 * `bes_open` and `bes_build_finish`, the words are the last large block that is requested. */
uint32_t bes_open_proved(uint64_t pages, uint64_t passes, uint64_t commits, bes_pass *pass);
uint32_t bes_build_proved(uint64_t pages, uint64_t passes, uint64_t commits, bes_builder *builder);
uint32_t bes_build_finish_proved(bes_builder *builder, uint64_t next, bes_pass *pass);

uint32_t bes_open(uint64_t pages, uint64_t passes, uint64_t commits, bes_pass *pass)
{
    uint32_t error;
    bes_begin_opening(true);
    error = bes_open_proved(pages, passes, commits, pass);
    bes_end_opening(error == BES_OK);
    return error;
}

uint32_t bes_build(uint64_t pages, uint64_t passes, uint64_t commits, bes_builder *builder)
{
    uint32_t error;
    bes_begin_opening(true);
    error = bes_build_proved(pages, passes, commits, builder);
    bes_end_opening(error == BES_OK);
    return error;
}

/* Sorting the keys of an index may free a large block. */
uint32_t bes_build_finish(bes_builder *builder, uint64_t next, bes_pass *pass)
{
    uint32_t error;
    bes_begin_opening(false);
    error = bes_build_finish_proved(builder, next, pass);
    bes_end_opening(error == BES_OK);
    return error;
}
