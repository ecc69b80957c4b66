/* Preloaded, it refuses the allocation whose number, counted from 1, is FAIL_AT (none where that is 0 or missing), and
   at the end appends how many were asked for to the file that ALLOCATIONS names. It counts those that the program's
   functions at GROWTHS ask for (START:SIZE in the program's file, parted by spaces). What the C library, and the part in
   C that starts processes, ask for themselves isn't counted: that it is refused is told by a number of the system's, as
   a fault of the device. What the program starts runs without this library. */
#define _GNU_SOURCE
#include <dlfcn.h>
#include <errno.h>
#include <fcntl.h>
#include <link.h>
#include <stdatomic.h>
#include <stdint.h>
#include <stdio.h>
#include <stdlib.h>
#include <unistd.h>

static atomic_long asked;
static long fail_at;
static const char *counts;

/* the functions whose allocations count */
static struct {
    uintptr_t start;
    uintptr_t size;
} growths[4];

static void *(*next_malloc)(size_t);
static void *(*next_calloc)(size_t, size_t);
static void *(*next_realloc)(void *, size_t);
static void *(*next_aligned_alloc)(size_t, size_t);
static int (*next_posix_memalign)(void **, size_t, size_t);

static void *next(const char *name)
{
    void *found = dlsym(RTLD_NEXT, name);
    if (!found)
        abort();
    return found;
}

#define FIND(name) if (!next_##name) next_##name = next(#name)

/* The program is the first object. */
static int find_growths(struct dl_phdr_info *info, size_t size, void *text)
{
    char *at = text;
    (void)size;
    for (int i = 0; i < 4 && *at; i++) {
        growths[i].start = info->dlpi_addr + strtoul(at, &at, 16);
        growths[i].size = *at == ':' ? strtoul(at + 1, &at, 16) : 0;
    }
    return 1;
}

__attribute__((constructor)) static void start(void)
{
    const char *text = getenv("FAIL_AT");
    fail_at = text ? atol(text) : 0;
    counts = getenv("ALLOCATIONS");
    text = getenv("GROWTHS");
    if (!text)
        _exit(3);
    dl_iterate_phdr(find_growths, (void *)text);
    unsetenv("GROWTHS");
    unsetenv("LD_PRELOAD");
    unsetenv("ALLOCATIONS");
    asked = 0;
}

__attribute__((destructor)) static void tell(void)
{
    char text[32];
    int length, file;
    if (!counts)
        return;
    length = snprintf(text, sizeof text, "%ld\n", (long)asked);
    file = open(counts, O_WRONLY | O_CREAT | O_APPEND, 0600);
    if (file < 0 || write(file, text, length) != length)
        _exit(3);
    close(file);
}

static int refused(const void *caller)
{
    for (int i = 0; i < 4; i++)
        if ((uintptr_t)caller - growths[i].start < growths[i].size)
            return ++asked == fail_at;
    return 0;
}

#define REFUSED() refused(__builtin_return_address(0))

void *malloc(size_t size)
{
    if (REFUSED()) {
        errno = ENOMEM;
        return NULL;
    }
    FIND(malloc);
    return next_malloc(size);
}

void *calloc(size_t count, size_t size)
{
    if (REFUSED()) {
        errno = ENOMEM;
        return NULL;
    }
    FIND(calloc);
    return next_calloc(count, size);
}

void *realloc(void *old, size_t size)
{
    if (REFUSED()) {
        errno = ENOMEM;
        return NULL;
    }
    FIND(realloc);
    return next_realloc(old, size);
}

void *aligned_alloc(size_t alignment, size_t size)
{
    if (REFUSED()) {
        errno = ENOMEM;
        return NULL;
    }
    FIND(aligned_alloc);
    return next_aligned_alloc(alignment, size);
}

int posix_memalign(void **place, size_t alignment, size_t size)
{
    if (REFUSED())
        return ENOMEM;
    FIND(posix_memalign);
    return next_posix_memalign(place, alignment, size);
}
