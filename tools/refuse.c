/* Loaded before the C library (LD_PRELOAD): refuses one request for memory, the one whose number is in REFUSE, counted
   from 1; with REFUSE_ON also all that come after it. Where REFUSE_COUNT is set, the number of requests is written to
   descriptor 3 at the end. For the GNU C library. */
#include <errno.h>
#include <stddef.h>
#include <stdio.h>
#include <stdlib.h>

extern void *__libc_malloc(size_t size);
extern void *__libc_calloc(size_t count, size_t size);
extern void *__libc_realloc(void *old, size_t size);
extern void *__libc_memalign(size_t align, size_t size);

static unsigned long seen, refused;
static int goes_on, is_read;

static int is_refused(void)
{
    if (!is_read) {
        const char *number = getenv("REFUSE");
        refused = number ? strtoul(number, NULL, 10) : 0;
        goes_on = getenv("REFUSE_ON") != NULL;
        is_read = 1;
    }
    seen++;
    if (refused == 0 || seen < refused || (seen > refused && !goes_on))
        return 0;
    errno = ENOMEM;
    return 1;
}

void *malloc(size_t size)
{
    return is_refused() ? NULL : __libc_malloc(size);
}

void *calloc(size_t count, size_t size)
{
    return is_refused() ? NULL : __libc_calloc(count, size);
}

void *realloc(void *old, size_t size)
{
    return is_refused() ? NULL : __libc_realloc(old, size);
}

void *memalign(size_t align, size_t size)
{
    return is_refused() ? NULL : __libc_memalign(align, size);
}

void *aligned_alloc(size_t align, size_t size)
{
    return is_refused() ? NULL : __libc_memalign(align, size);
}

int posix_memalign(void **made, size_t align, size_t size)
{
    if (is_refused())
        return ENOMEM;
    *made = __libc_memalign(align, size);
    return *made ? 0 : ENOMEM;
}

__attribute__((destructor)) static void tell(void)
{
    if (getenv("REFUSE_COUNT"))
        dprintf(3, "%lu\n", seen);
}
