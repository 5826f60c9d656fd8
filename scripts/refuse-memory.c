/* Preloaded into a program: counts its allocations, and refuses the one of the number REFUSE_AT,
   counted from 1; none where that is 0. The count is in the file REFUSE_SEEN, eight bytes that are
   0 at first, so that it is there however the program ends. */
#define _GNU_SOURCE
#include <dlfcn.h>
#include <errno.h>
#include <fcntl.h>
#include <stdlib.h>
#include <sys/mman.h>
#include <unistd.h>

static unsigned long *seen, refused;

__attribute__((constructor)) static void begin(void) {
    const char *path = getenv("REFUSE_SEEN"), *number = getenv("REFUSE_AT");
    int file = path ? open(path, O_RDWR) : -1;
    void *place;
    if (file < 0) abort();
    place = mmap(0, sizeof *seen, PROT_READ | PROT_WRITE, MAP_SHARED, file, 0);
    close(file);
    if (place == MAP_FAILED) abort();
    refused = number ? strtoul(number, 0, 10) : 0;
    seen = place;
}

/* Counts an allocation, and tells whether it is refused. */
static int is_refused(void) {
    if (!seen || __atomic_add_fetch(seen, 1, __ATOMIC_RELAXED) != refused) return 0;
    errno = ENOMEM;
    return 1;
}

void *malloc(size_t size) {
    static void *(*real)(size_t);
    if (!real) real = dlsym(RTLD_NEXT, "malloc");
    return is_refused() ? 0 : real(size);
}

void *calloc(size_t count, size_t size) {
    static void *(*real)(size_t, size_t);
    if (!real) real = dlsym(RTLD_NEXT, "calloc");
    return is_refused() ? 0 : real(count, size);
}

void *realloc(void *old, size_t size) {
    static void *(*real)(void *, size_t);
    if (!real) real = dlsym(RTLD_NEXT, "realloc");
    return is_refused() ? 0 : real(old, size);
}

void *aligned_alloc(size_t align, size_t size) {
    static void *(*real)(size_t, size_t);
    if (!real) real = dlsym(RTLD_NEXT, "aligned_alloc");
    return is_refused() ? 0 : real(align, size);
}
