/* What the shims of this folder share: words of the environment as numbers, and the line that each tells at the end of its program.
 *
 * No header of the C library is needed, so that a compiler without one can make a shim. It is for Linux on x86-64 with glibc. */

typedef unsigned long size;

extern void *dlsym(void *, const char *);
extern char *getenv(const char *);
extern int *__errno_location(void);
extern long write(int, const void *, size);

#define NEXT ((void *)-1l)
#define COUNTED(number) __atomic_add_fetch(&(number), 1, __ATOMIC_SEQ_CST)

static size number_of(const char *digits) {
    size number = 0;
    for (; digits && *digits >= '0' && *digits <= '9'; digits++)
        number = 10 * number + (size)(*digits - '0');
    return number;
}

static char *put_text(char *to, const char *text) {
    while (*text)
        *to++ = *text++;
    return to;
}

static char *put_number(char *to, size number) {
    char digits[20];
    int count = 0;
    do
        digits[count++] = (char)('0' + number % 10);
    while (number /= 10);
    while (count)
        *to++ = digits[--count];
    return to;
}

/* Tells on standard error, once: `NAME: A WHAT, B HOW`. It asks for no memory. */
static void tell(const char *name, const size *all, const char *what, const size *some, const char *how) {
    static int is_told;
    if (__atomic_exchange_n(&is_told, 1, __ATOMIC_SEQ_CST))
        return;
    char line[96];
    char *end = put_number(put_text(line, name), __atomic_load_n(all, __ATOMIC_SEQ_CST));
    end = put_number(put_text(end, what), __atomic_load_n(some, __ATOMIC_SEQ_CST));
    end = put_text(end, how);
    if (write(2, line, (size)(end - line)) < 0)
        return;
}
