/* Refuses requests for memory. By LD_PRELOAD it stands before malloc, calloc, realloc, aligned_alloc, posix_memalign and memalign of the C
 * library.
 *
 *     cc -shared -fPIC -O2 -fno-builtin -nostdlib -o refuse_nth.so tests/refuse_nth.c
 *     REFUSE_NTH=7 LD_PRELOAD=./refuse_nth.so PROGRAM                the 7th request is refused
 *     REFUSE_NTH=7 REFUSE_ALL=1 LD_PRELOAD=./refuse_nth.so PROGRAM   so is each one behind it
 *
 * Requests are counted from the start of the program. A realloc is one, also if it makes a block smaller. At the end one line stands on
 * standard error: `refuse_nth: R requests, F refused`. Without REFUSE_NTH, or with 0, none is refused. */

#include "shim.h"

#define ENOMEM 12

static size requests, refused, nth;
static int is_all, is_looking;

static void *(*next_malloc)(size);
static void *(*next_calloc)(size, size);
static void *(*next_realloc)(void *, size);
static void *(*next_aligned_alloc)(size, size);
static int (*next_posix_memalign)(void **, size, size);
static void *(*next_memalign)(size, size);
static void (*next_free)(void *);
static void (*next_exit)(int);

/* dlsym may ask for memory before it has found the C library's own. It gets this, and none of it is given back. */
static char early[1 << 14] __attribute__((aligned(16)));
static size early_used;

static int is_early(const void *block) {
    return (const char *)block >= early && (const char *)block < early + sizeof early;
}

static void *take_early(size bytes) {
    size whole = (bytes + 15) & ~(size)15;
    if (whole < bytes || whole > sizeof early - early_used)
        return 0;
    void *block = early + early_used;
    early_used += whole;
    return block;
}

/* Finds the C library's own functions, before the first request is counted. */
static void find(void) {
    if (next_malloc || is_looking)
        return;
    is_looking = 1;
    nth = number_of(getenv("REFUSE_NTH"));
    is_all = getenv("REFUSE_ALL") != 0;
    next_calloc = dlsym(NEXT, "calloc");
    next_realloc = dlsym(NEXT, "realloc");
    next_aligned_alloc = dlsym(NEXT, "aligned_alloc");
    next_posix_memalign = dlsym(NEXT, "posix_memalign");
    next_memalign = dlsym(NEXT, "memalign");
    next_free = dlsym(NEXT, "free");
    next_exit = dlsym(NEXT, "_exit");
    next_malloc = dlsym(NEXT, "malloc");
    is_looking = 0;
}

/* Counts a request, and says whether it is refused. */
static int is_refused(void) {
    size at = COUNTED(requests);
    if (!nth || (is_all ? at < nth : at != nth))
        return 0;
    COUNTED(refused);
    *__errno_location() = ENOMEM;
    return 1;
}

void *malloc(size bytes) {
    find();
    if (!next_malloc)
        return take_early(bytes);
    return is_refused() ? 0 : next_malloc(bytes);
}

void *calloc(size count, size bytes) {
    find();
    if (!next_malloc)
        return bytes && count > sizeof early / bytes ? 0 : take_early(count * bytes);
    return is_refused() ? 0 : next_calloc(count, bytes);
}

void *realloc(void *block, size bytes) {
    find();
    if (next_malloc && !is_early(block))
        return is_refused() ? 0 : next_realloc(block, bytes);
    char *other = next_malloc ? next_malloc(bytes) : take_early(bytes);
    /* How long the block was is not known. What lies behind it in `early` may be read. */
    for (size at = 0; other && block && at < bytes && (char *)block + at < early + sizeof early; at++)
        other[at] = ((char *)block)[at];
    return other;
}

void *aligned_alloc(size alignment, size bytes) {
    find();
    return is_refused() ? 0 : next_aligned_alloc(alignment, bytes);
}

int posix_memalign(void **block, size alignment, size bytes) {
    find();
    return is_refused() ? ENOMEM : next_posix_memalign(block, alignment, bytes);
}

void *memalign(size alignment, size bytes) {
    find();
    return is_refused() ? 0 : next_memalign(alignment, bytes);
}

void free(void *block) {
    find();
    if (block && !is_early(block))
        next_free(block);
}

static void tell_of_it(void) {
    tell("refuse_nth: ", &requests, " requests, ", &refused, " refused\n");
}

/* A program that ends so runs no destructor. */
void _exit(int status) {
    find();
    tell_of_it();
    next_exit(status);
    __builtin_unreachable();
}

__attribute__((destructor)) static void at_end(void) {
    tell_of_it();
}
