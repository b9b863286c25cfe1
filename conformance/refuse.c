/* Makes one allocation of a program fail, the one whose number REFUSE gives, from 1 on; loaded before the C library.
   The allocations of all threads are counted together, each once, and none is refused but that one.
   Where it was asked for, one byte goes to the descriptor that REFUSE_FD gives. Where the number is 0, none is refused, and each gives a byte. */
#define _GNU_SOURCE
#include <dlfcn.h>
#include <errno.h>
#include <stdatomic.h>
#include <stddef.h>
#include <stdlib.h>
#include <unistd.h>

static atomic_long wanted = -1, asked;
static void *(*_Atomic real_malloc)(size_t), *(*_Atomic real_realloc)(void *, size_t);

static long number_of(const char *name)
{
    const char *text = getenv(name);
    return text ? atol(text) : 0;
}

/* (two threads may read the environment at once, and find the same) */
static int is_refused(void)
{
    if (wanted < 0)
        wanted = number_of("REFUSE");
    if (atomic_fetch_add(&asked, 1) + 1 != wanted && wanted)
        return 0;
    if (getenv("REFUSE_FD") && write((int)number_of("REFUSE_FD"), "x", 1) < 0)
        abort();
    if (!wanted)
        return 0;
    errno = ENOMEM;
    return 1;
}

void *malloc(size_t size)
{
    if (!real_malloc)
        real_malloc = (void *(*)(size_t))dlsym(RTLD_NEXT, "malloc");
    return is_refused() ? NULL : real_malloc(size);
}

void *realloc(void *old, size_t size)
{
    if (!real_realloc)
        real_realloc = (void *(*)(void *, size_t))dlsym(RTLD_NEXT, "realloc");
    return is_refused() ? NULL : real_realloc(old, size);
}
