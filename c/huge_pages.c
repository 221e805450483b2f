/* Tests that the kernel was asked for huge pages for the pages of a large store, and not for those of a small one. Linux shows this
 * in /proc/self/smaps, as the flag `hg` of a mapping. */
#ifndef _DEFAULT_SOURCE
#define _DEFAULT_SOURCE
#endif
#include "tests.h"
#include <errno.h>
#include <unistd.h>

enum { SMALL = 512, LARGE = 4096, PAGE = 4096 };

/* Returns how many bytes of the process's memory have the flag. */
static uint64_t advised(void)
{
    FILE *file = fopen("/proc/self/smaps", "r");
    char line[512];
    unsigned long long kilobytes = 0;
    uint64_t bytes = 0;
    CHECK(file != NULL);
    while (fgets(line, sizeof line, file) != NULL) {
        if (strncmp(line, "Size:", 5) == 0)
            CHECK(sscanf(line + 5, "%llu", &kilobytes) == 1);
        else if (strncmp(line, "VmFlags:", 8) == 0 && strstr(line, " hg") != NULL)
            bytes += kilobytes * 1024;
    }
    fclose(file);
    return bytes;
}

/* Opens a store with this many pages, and returns how much more memory then has the flag. */
static uint64_t advised_when_open(uint64_t pages)
{
    bes_pass pass = BES_PASS_INIT;
    uint64_t before = advised(), during;
    errno = EDOM;
    CHECK(bes_open(pages, 1, UINT32_MAX, &pass) == BES_OK && errno == EDOM);
    during = advised();
    CHECK(bes_close(&pass) == BES_OK);
    return during - before;
}

int main(void)
{
    if (access("/sys/kernel/mm/transparent_hugepage", F_OK) != 0) {
        puts("skipped, the kernel has no huge pages to ask for");
        return 0;
    }
    CHECK(advised_when_open(SMALL) == 0);
    CHECK(advised_when_open(LARGE) >= (uint64_t)(LARGE - 1) * PAGE);
    return 0;
}
