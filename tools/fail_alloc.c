/* Lets one allocation of a program fail: the one whose number stands in FAIL_ALLOC, counted from 1.
   It is loaded before the C library, and writes to FAIL_ALLOC_TOLD, where that is set, how many there were. */
#include <errno.h>
#include <stdio.h>
#include <stdlib.h>

extern void *__libc_malloc(size_t size);
extern void *__libc_calloc(size_t count, size_t size);
extern void *__libc_realloc(void *old, size_t size);
extern void *__libc_memalign(size_t align, size_t size);

static unsigned long failing;
static unsigned long calls;

static int fails(void)
{
    calls += 1;
    return calls == failing;
}

__attribute__((constructor)) static void begin(void)
{
    const char *number = getenv("FAIL_ALLOC");

    failing = number ? strtoul(number, NULL, 10) : 0;
    calls = 0;
}

__attribute__((destructor)) static void end(void)
{
    const char *name = getenv("FAIL_ALLOC_TOLD");
    unsigned long count = calls;
    FILE *file = name ? fopen(name, "w") : NULL;

    if (file) {
        fprintf(file, "%lu\n", count);
        fclose(file);
    }
}

void *malloc(size_t size)
{
    return fails() ? NULL : __libc_malloc(size);
}

void *calloc(size_t count, size_t size)
{
    return fails() ? NULL : __libc_calloc(count, size);
}

void *realloc(void *old, size_t size)
{
    return fails() ? NULL : __libc_realloc(old, size);
}

void *aligned_alloc(size_t align, size_t size)
{
    return fails() ? NULL : __libc_memalign(align, size);
}

int posix_memalign(void **made, size_t align, size_t size)
{
    void *found = fails() ? NULL : __libc_memalign(align, size);

    if (!found)
        return ENOMEM;
    *made = found;
    return 0;
}
