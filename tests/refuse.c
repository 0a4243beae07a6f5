/* Makes allocations of the program fail that it is loaded into: REFUSE is the number of the allocation that fails, from 1 on, and
   with REFUSE_REST set all after it fail too. Each failure writes one byte to the descriptor REFUSE_TELL: `s` if a block was
   only to shrink, so that the program can go on, and otherwise `r`. With REFUSE_RANDOM the system gives no random bytes. */
#define _GNU_SOURCE
#include <dlfcn.h>
#include <errno.h>
#include <malloc.h>
#include <stdlib.h>
#include <unistd.h>

static unsigned long asked, refused_at, refuses_rest, tell;

static unsigned long number(const char *name) {
    const char *text = getenv(name);
    return text ? strtoul(text, NULL, 10) : 0;
}

__attribute__((constructor)) static void begin(void) {
    refused_at = number("REFUSE");
    refuses_rest = number("REFUSE_REST");
    tell = number("REFUSE_TELL");
    asked = 0;
}

/* Whether this allocation fails. */
static int refuses(const char *kind) {
    asked += 1;
    if (!refused_at || asked < refused_at || (asked > refused_at && !refuses_rest)) return 0;
    if (write((int)tell, kind, 1) != 1) _exit(99);
    errno = ENOMEM;
    return 1;
}

#define REAL(name) \
    static __typeof__(&name) real; \
    if (!real) real = (__typeof__(&name))dlsym(RTLD_NEXT, #name)

int getentropy(void *to, size_t size) {
    REAL(getentropy);
    if (!getenv("REFUSE_RANDOM")) return real(to, size);
    errno = ENOSYS;
    return -1;
}

void *malloc(size_t size) {
    REAL(malloc);
    return refuses("r") ? NULL : real(size);
}

void *calloc(size_t count, size_t size) {
    REAL(calloc);
    return refuses("r") ? NULL : real(count, size);
}

void *realloc(void *old, size_t size) {
    REAL(realloc);
    return refuses(old && size <= malloc_usable_size(old) ? "s" : "r") ? NULL : real(old, size);
}

void *aligned_alloc(size_t align, size_t size) {
    REAL(aligned_alloc);
    return refuses("r") ? NULL : real(align, size);
}

void *memalign(size_t align, size_t size) {
    REAL(memalign);
    return refuses("r") ? NULL : real(align, size);
}

int posix_memalign(void **to, size_t align, size_t size) {
    REAL(posix_memalign);
    return refuses("r") ? ENOMEM : real(to, align, size);
}
