// An allocator that refuses one request for memory. When preloaded into a program (LD_PRELOAD), it numbers the requests,
// starting at 1, in the order in which they arrive. It returns a null pointer for one of them, and passes all others to the C
// library.
//
//   REFUSE_REQUEST  the number of the request to refuse; 0, or no number, refuses none
//   REFUSE_COUNT    a file of two 64-bit words: the number of requests so far, which is there however the program ends, and 1
//                   once this allocator runs

#define _GNU_SOURCE
#include <errno.h>
#include <fcntl.h>
#include <stdatomic.h>
#include <stddef.h>
#include <stdint.h>
#include <stdlib.h>
#include <sys/mman.h>
#include <unistd.h>

void *__libc_malloc(size_t size);
void *__libc_calloc(size_t count, size_t size);
void *__libc_realloc(void *old, size_t size);
void *__libc_memalign(size_t alignment, size_t size);

// Requests before `begin` come from the loader. They are counted here and never refused.
static _Atomic uint64_t of_loader;
static _Atomic uint64_t *requests = &of_loader;
static uint64_t refused;

__attribute__((constructor)) static void begin(void) {
    const char *number = getenv("REFUSE_REQUEST");
    const char *path = getenv("REFUSE_COUNT");
    int file = path ? open(path, O_RDWR | O_CLOEXEC) : -1;
    void *words = file < 0 ? MAP_FAILED : mmap(NULL, 16, PROT_READ | PROT_WRITE, MAP_SHARED, file, 0);
    if (words == MAP_FAILED) {
        return;
    }
    close(file);
    refused = number ? strtoull(number, NULL, 10) : 0;
    requests = words;
    requests[1] = 1;
}

static int is_refused(void) {
    if (atomic_fetch_add(requests, 1) + 1 != refused) {
        return 0;
    }
    errno = ENOMEM;
    return 1;
}

void *malloc(size_t size) {
    return is_refused() ? NULL : __libc_malloc(size);
}

void *calloc(size_t count, size_t size) {
    return is_refused() ? NULL : __libc_calloc(count, size);
}

void *realloc(void *old, size_t size) {
    return is_refused() ? NULL : __libc_realloc(old, size);
}

void *aligned_alloc(size_t alignment, size_t size) {
    return is_refused() ? NULL : __libc_memalign(alignment, size);
}

int posix_memalign(void **made, size_t alignment, size_t size) {
    void *block = is_refused() ? NULL : __libc_memalign(alignment, size);
    if (!block) {
        return ENOMEM;
    }
    *made = block;
    return 0;
}
