/* Requests memory for the proved code. */
#ifndef _DEFAULT_SOURCE
#define _DEFAULT_SOURCE
#endif

#include "heap.h"

#include <errno.h>
#include <stdint.h>
#include <stdlib.h>
#include <string.h>
#ifdef __linux__
#include <sys/mman.h>
#endif

enum {
    PAGE = 4096,
    LARGE = 1 << 20, /* the zeros in a block of at least this many bytes are returned */
    HUGE = 4 << 20,  /* a block of at least this many bytes gets huge pages */
};

/* Whether this thread is opening or building a store, whether all large blocks are kept meanwhile, and the large block that it
 * requested last, or NULL. */
static _Thread_local struct {
    bool is_begun;
    bool are_kept;
    unsigned char *block;
    size_t size;
} opening;

#ifdef __linux__
/* Advises the kernel about the whole pages between two addresses. The kernel may refuse. That changes only how fast the memory is,
 * or how much of it is used. */
static void advise(const unsigned char *from, const unsigned char *to, int advice)
{
    uintptr_t begin = ((uintptr_t)from + PAGE - 1) / PAGE * PAGE, end = (uintptr_t)to / PAGE * PAGE;
    int error = errno;
    if (begin < end)
        madvise((void *)begin, end - begin, advice);
    errno = error;
}
#else
enum { MADV_HUGEPAGE, MADV_DONTNEED };

static void advise(const unsigned char *from, const unsigned char *to, int advice)
{
    (void)from;
    (void)to;
    (void)advice;
}
#endif

/* Returns the memory of a page or more of zeros to the system. */
static void return_zeros(unsigned char *block, size_t size)
{
    static const unsigned char zeros[PAGE];
    unsigned char *from = block + (PAGE - (uintptr_t)block % PAGE) % PAGE, *end = block + size, *to;
    for (; end - from >= PAGE; from = to + PAGE) {
        for (to = from; end - to >= PAGE && memcmp(to, zeros, PAGE) == 0;)
            to += PAGE;
        advise(from, to, MADV_DONTNEED);
    }
}

/* Returns the memory of the zeros in the last block. */
static void return_last(void)
{
    if (opening.block != NULL)
        return_zeros(opening.block, opening.size);
    opening.block = NULL;
}

/* Makes this block the last one. The zeros of the one before have been written. */
static void follow(unsigned char *block, size_t size)
{
    if (opening.are_kept)
        return_last();
    opening.block = block;
    opening.size = size;
}

/* A store's block starts as zeros, so `return_zeros` may also read what the proved code hasn't written. */
static void *request_large(size_t size)
{
    unsigned char *block = opening.is_begun ? calloc(1, size) : malloc(size);
    if (block != NULL && size >= HUGE)
        advise(block, block + size, MADV_HUGEPAGE);
    if (opening.is_begun)
        follow(block, size);
    return block;
}

void *bes_request_memory(size_t size)
{
    return size < LARGE ? malloc(size) : request_large(size);
}

void bes_begin_opening(bool are_kept)
{
    opening.is_begun = true;
    opening.are_kept = are_kept;
}

void bes_end_opening(bool is_open)
{
    if (is_open)
        return_last();
    opening.block = NULL;
    opening.is_begun = false;
}
