/* Lets a read of a file fail. By LD_PRELOAD it stands before pread and pread64 of the C library.
 *
 *     cc -shared -fPIC -O2 -fno-builtin -nostdlib -o fail_read.so tests/fail_read.c
 *     FAIL_FILE=/tmp/image FAIL_NTH=7 FAIL_ERRNO=11 LD_PRELOAD=./fail_read.so PROGRAM
 *
 * The 7th read of that file fails with error 11, and takes nothing. The file is named as the system names it, with no link in the name, and
 * reads of others are as ever. With FAIL_COUNT=3 so do the two behind it, and with FAIL_ALONE=1 all later ones of the same descriptor, and no
 * others. With READ_AT_MOST=200 no read of it gives more than 200 bytes. Reads are counted from the start of the
 * program, over all that it has open of the file. At the end one line stands on standard error: `fail_read: R reads, F failed`. Without
 * FAIL_NTH, or with 0, none fails. */

#include "shim.h"

extern long readlink(const char *, char *, size);

#define NAME_BYTES 4096

static size reads, failed, nth, count, most;
static int error, is_alone, alone = -1;
static const char *file;

static long (*next_pread)(int, void *, size, long);
static long (*next_pread64)(int, void *, size, long);
static void (*next_exit)(int);

__attribute__((constructor)) static void find(void) {
    nth = number_of(getenv("FAIL_NTH"));
    error = (int)number_of(getenv("FAIL_ERRNO"));
    count = getenv("FAIL_COUNT") ? number_of(getenv("FAIL_COUNT")) : 1;
    most = number_of(getenv("READ_AT_MOST"));
    is_alone = !!getenv("FAIL_ALONE");
    file = getenv("FAIL_FILE");
    next_pread = dlsym(NEXT, "pread");
    next_pread64 = dlsym(NEXT, "pread64");
    next_exit = dlsym(NEXT, "_exit");
}

/* Whether a descriptor is one of the file. */
static int is_of_file(int descriptor) {
    char place[40], name[NAME_BYTES];
    *put_number(put_text(place, "/proc/self/fd/"), (size)descriptor) = 0;
    long length = readlink(place, name, sizeof name);
    for (long at = 0; file && at < length; at++)
        if (name[at] != file[at])
            return 0;
    return file && length > 0 && !file[length];
}

/* Whether the read of this number is to fail. */
static int is_due(size number, int descriptor) {
    if (!nth || !is_alone)
        return nth && number >= nth && number - nth < count;
    if (number == nth)
        alone = descriptor;
    return descriptor == alone;
}

/* Counts a read, and says whether it fails. */
static int fails(int descriptor) {
    if (!is_due(COUNTED(reads), descriptor))
        return 0;
    COUNTED(failed);
    *__errno_location() = error;
    return 1;
}

static long read_by(long (*next)(int, void *, size, long), int descriptor, void *to, size bytes, long offset) {
    if (!is_of_file(descriptor))
        return next(descriptor, to, bytes, offset);
    if (fails(descriptor))
        return -1;
    return next(descriptor, to, most && bytes > most ? most : bytes, offset);
}

long pread(int descriptor, void *to, size bytes, long offset) {
    return read_by(next_pread, descriptor, to, bytes, offset);
}

long pread64(int descriptor, void *to, size bytes, long offset) {
    return read_by(next_pread64, descriptor, to, bytes, offset);
}

static void tell_of_it(void) {
    tell("fail_read: ", &reads, " reads, ", &failed, " failed\n");
}

/* A program that ends so runs no destructor. */
void _exit(int status) {
    tell_of_it();
    next_exit(status);
    __builtin_unreachable();
}

__attribute__((destructor)) static void at_end(void) {
    tell_of_it();
}
