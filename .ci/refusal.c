/* A library for LD_PRELOAD. It makes the allocation with the number REFUSED fail, and REFUSED_MANY in all from that one on (by default one),
   and creates the file REFUSED_TOLD then. Only the program's own allocations are numbered, not those of the C library, for example for a
   thread. Number 1 is the first, or the first of REFUSED_FROM bytes: ga_bench allocates one byte where the numbers shall begin. Nothing else
   changes. */
#define _GNU_SOURCE
#include <dlfcn.h>
#include <fcntl.h>
#include <stddef.h>
#include <stdlib.h>
#include <string.h>
#include <unistd.h>

static int is_counting;
static unsigned allocations;

/* Whether the caller is in the program, and not in a library. */
static int is_own(void *caller) {
    Dl_info from;
    return dladdr(caller, &from) && !strstr(from.dli_fname, ".so");
}

static unsigned number(const char *name) {
    const char *value = getenv(name);
    return value ? (unsigned)strtoul(value, NULL, 10) : 0;
}

/* Whether this allocation must fail. Counts it. */
static int is_refused(void *caller, size_t size) {
    unsigned from = number("REFUSED_FROM");
    if (!is_own(caller)) return 0;
    if (!from || size == from) __atomic_store_n(&is_counting, 1, __ATOMIC_SEQ_CST);
    if (!__atomic_load_n(&is_counting, __ATOMIC_SEQ_CST)) return 0;
    unsigned many = number("REFUSED_MANY"), at = __atomic_add_fetch(&allocations, 1, __ATOMIC_SEQ_CST), first = number("REFUSED");
    if (at < first || at >= first + (many ? many : 1)) return 0;
    if (getenv("REFUSED_TOLD")) close(open(getenv("REFUSED_TOLD"), O_CREAT | O_WRONLY, 0600));
    return 1;
}

void *malloc(size_t size) {
    static void *(*next)(size_t);
    if (!next) next = (void *(*)(size_t))dlsym(RTLD_NEXT, "malloc");
    return is_refused(__builtin_return_address(0), size) ? NULL : next(size);
}

void *realloc(void *old, size_t size) {
    static void *(*next)(void *, size_t);
    if (!next) next = (void *(*)(void *, size_t))dlsym(RTLD_NEXT, "realloc");
    return is_refused(__builtin_return_address(0), size) ? NULL : next(old, size);
}
