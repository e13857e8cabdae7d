// Loaded before the C library, this counts the calls that get memory from it, and tells their number on standard error at the end.
// `malloc` and `realloc` are all that crates/pace is linked to.
#define _GNU_SOURCE
#include <dlfcn.h>
#include <stdio.h>

static unsigned long calls;

void *malloc(size_t size) {
    calls++;
    return ((void *(*)(size_t))dlsym(RTLD_NEXT, "malloc"))(size);
}

void *realloc(void *old, size_t size) {
    calls++;
    return ((void *(*)(void *, size_t))dlsym(RTLD_NEXT, "realloc"))(old, size);
}

__attribute__((destructor)) static void tell(void) { fprintf(stderr, "allocations %lu\n", calls); }
