/* Makes one allocation of a program fail: the one whose number, counted from 1, is in REFUSE. It stands before the C library
   (LD_PRELOAD). When it refuses, it makes the file whose name is in REFUSE_NOTE. */
#define _GNU_SOURCE
#include <dlfcn.h>
#include <errno.h>
#include <fcntl.h>
#include <stdatomic.h>
#include <stdlib.h>
#include <unistd.h>

static atomic_ulong calls;
static unsigned long refused;
static const char *note;

static void *(*next_malloc)(size_t);
static void *(*next_realloc)(void *, size_t);
static void *(*next_calloc)(size_t, size_t);
static int (*next_memalign)(void **, size_t, size_t);
static void *(*next_aligned)(size_t, size_t);

__attribute__((constructor)) static void start(void) {
    next_malloc = dlsym(RTLD_NEXT, "malloc");
    next_realloc = dlsym(RTLD_NEXT, "realloc");
    next_calloc = dlsym(RTLD_NEXT, "calloc");
    next_memalign = dlsym(RTLD_NEXT, "posix_memalign");
    next_aligned = dlsym(RTLD_NEXT, "aligned_alloc");
    const char *number = getenv("REFUSE");
    refused = number ? strtoul(number, NULL, 10) : 0;
    note = getenv("REFUSE_NOTE");
    atomic_store(&calls, 0);
}

static int is_refused(void) {
    if (atomic_fetch_add(&calls, 1) + 1 != refused) return 0;
    int file = note ? open(note, O_WRONLY | O_CREAT, 0600) : -1;
    if (file >= 0) close(file);
    errno = ENOMEM;
    return 1;
}

void *malloc(size_t size) {
    if (!next_malloc) next_malloc = dlsym(RTLD_NEXT, "malloc");
    return is_refused() ? NULL : next_malloc(size);
}

void *realloc(void *old, size_t size) { return is_refused() ? NULL : next_realloc(old, size); }

void *calloc(size_t count, size_t size) {
    return !next_calloc || is_refused() ? NULL : next_calloc(count, size);
}

int posix_memalign(void **result, size_t align, size_t size) {
    return is_refused() ? ENOMEM : next_memalign(result, align, size);
}

void *aligned_alloc(size_t align, size_t size) { return is_refused() ? NULL : next_aligned(align, size); }
