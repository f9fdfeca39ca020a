// The heap of the page's module, in the place of the C library's: rattle_alloc, rattle_realloc and rattle_dealloc, which the toolchain's
// libc has over malloc. Nothing proves it, as nothing proves malloc.
//
// A block has a header of 16 bytes with its class, and four classes lie between two powers of two. A block that is given back goes on the
// list of its class. If a list is empty the memory grows. All of it is taken back at once before each call of the page, since nothing stays
// from one call to the next.
typedef unsigned long u64;
typedef struct {
    u64 ok;
    void *at;
} Tried;
typedef struct {
    u64 number, size;
} Class;

#define HEAD 16
#define CLASSES 256
#define PAGE_BITS 16
// A memory of 32 bits has no more bytes, and a request for more is refused.
#define MOST (1ul << 32)
// The memory grows by so many pages at least, of 64 KiB each.
#define LEAST_PAGES 16

extern unsigned char __heap_base;
static u64 top, end;
static void *freed[CLASSES];
// Where there is no block the pointer leads here, as it must not be null.
static unsigned char nothing;

// The class of a block of so many bytes with its header: sizes that are 4 to 7 times a power of two, from 32 on.
static Class class_of(u64 bytes) {
    u64 last = bytes < 32 ? 31 : bytes - 1;
    int high = 63 - __builtin_clzl(last);
    u64 quarter = last >> (high - 2);
    return (Class){4 * (u64)high + (quarter & 3), (quarter + 1) << (high - 2)};
}

// Whether there are so many bytes behind the last block, for which the memory may grow.
static _Bool has_room(u64 size) {
    if (!top) {
        top = ((u64)&__heap_base + HEAD - 1) & ~(u64)(HEAD - 1);
        end = __builtin_wasm_memory_size(0) << PAGE_BITS;
    }
    if (end - top >= size) return 1;
    u64 pages = (size - (end - top) + (1ul << PAGE_BITS) - 1) >> PAGE_BITS;
    if (pages < LEAST_PAGES) pages = LEAST_PAGES;
    if (__builtin_wasm_memory_grow(0, pages) == ~0ul) return 0;
    end += pages << PAGE_BITS;
    return 1;
}

static void *taken(u64 n) {
    if (n >= MOST) return 0;
    Class class = class_of(n + HEAD);
    unsigned char *block = freed[class.number];
    if (block) {
        freed[class.number] = *(void **)(block + HEAD);
        return block + HEAD;
    }
    u64 size = (class.size + HEAD - 1) & ~(u64)(HEAD - 1);
    if (!has_room(size)) return 0;
    block = (unsigned char *)top;
    top += size;
    *(Class *)block = class;
    return block + HEAD;
}

static void given(void *at) {
    u64 class = ((Class *)((unsigned char *)at - HEAD))->number;
    *(void **)at = freed[class];
    freed[class] = (unsigned char *)at - HEAD;
}

Tried rattle_alloc(u64 n, u64 align) {
    void *at = taken(n);
    return at ? (Tried){1, at} : (Tried){0, &nothing};
}

Tried rattle_realloc(void *was, u64 kept, u64 n, u64 align) {
    Class class = *(Class *)((unsigned char *)was - HEAD);
    if (n < MOST && n + HEAD <= class.size) return (Tried){1, was};
    void *at = taken(n);
    if (!at) return (Tried){0, &nothing};
    __builtin_memcpy(at, was, kept);
    given(was);
    return (Tried){1, at};
}

void rattle_dealloc(void *at) { given(at); }

// For the page: room for bytes, null if there is none, and the end of all that was given.
__attribute__((export_name("page_room"))) void *page_room(u64 n) { return taken(n); }

__attribute__((export_name("page_reset"))) void page_reset(void) {
    top = 0;
    for (int k = 0; k < CLASSES; k++) freed[k] = 0;
}

// The export, behind what the toolchain gives each export of a module: a host can catch a trap and call again over half-written memory,
// and is refused then.
_Bool __rattle_enter(void);
void __rattle_leave(void);
void __rattle_trap(void);
void bfq_page_run(void *dials, void *script, u64 length, void *room, u64 size, void *ended);

__attribute__((export_name("bfq_page_run"))) void run(void *dials, void *script, u64 length, void *room, u64 size, void *ended) {
    if (__rattle_enter()) __rattle_trap();
    bfq_page_run(dials, script, length, room, size, ended);
    __rattle_leave();
}
