// Counts how many times a program yields to other threads (LD_PRELOAD). A request for memory by any thread but the first takes
// 2 ms longer, so if a thread makes one while it holds a lock, others find the lock held. YIELD_COUNT names a file with a
// 64-bit word, which contains the count however the program ends.

#define _GNU_SOURCE
#include <fcntl.h>
#include <sched.h>
#include <stdatomic.h>
#include <stdint.h>
#include <stdlib.h>
#include <sys/mman.h>
#include <sys/syscall.h>
#include <time.h>
#include <unistd.h>

void *__libc_malloc(size_t size);
void *__libc_realloc(void *old, size_t size);

static _Atomic uint64_t early;
static _Atomic uint64_t *yields = &early;

__attribute__((constructor)) static void begin(void) {
    const char *path = getenv("YIELD_COUNT");
    int file = path ? open(path, O_RDWR | O_CLOEXEC) : -1;
    void *word = file < 0 ? MAP_FAILED : mmap(NULL, 8, PROT_READ | PROT_WRITE, MAP_SHARED, file, 0);
    if (word != MAP_FAILED) {
        yields = word;
    }
}

static void take_time(void) {
    const struct timespec some = {0, 2000000};
    if (gettid() != getpid()) {
        nanosleep(&some, NULL);
    }
}

void *malloc(size_t size) {
    take_time();
    return __libc_malloc(size);
}

void *realloc(void *old, size_t size) {
    take_time();
    return __libc_realloc(old, size);
}

int sched_yield(void) {
    atomic_fetch_add(yields, 1);
    return (int)syscall(SYS_sched_yield);
}
