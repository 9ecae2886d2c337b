// Refuses the calls of the C library that a program makes, one or all from one on, so that each place where it asks for memory, reads
// or writes is seen to fail. Built and preloaded by bench/faults.
//
//   FAULT_KIND   alloc, open, read or write
//   FAULT_AT     the number of the call to refuse, counted from 0; none is refused where it is not there
//   FAULT_FROM   if it is there, the later calls are refused too
//   FAULT_COUNT  a file that gets the number of calls of that kind, where the program ends by exit
//   FAULT_STACK  a file that gets what /proc/self/status says then, with the greatest stack (used by bench/stack)
//
// What is asked for before main and by the C library itself counts too.
#define _GNU_SOURCE
#include <dlfcn.h>
#include <errno.h>
#include <fcntl.h>
#include <stdarg.h>
#include <stddef.h>
#include <stdlib.h>
#include <string.h>
#include <sys/syscall.h>
#include <unistd.h>

enum kind { ALLOC, OPEN, READ, WRITE, NONE };

static long at = -1, seen = 0;
static int from = 0, ready = 0;
static enum kind refused = NONE;

extern void *__libc_malloc(size_t);
extern void *__libc_realloc(void *, size_t);

__attribute__((constructor)) static void begin(void) {
    const char *kind = getenv("FAULT_KIND"), *number = getenv("FAULT_AT");
    if (kind) {
        refused = !strcmp(kind, "alloc") ? ALLOC : !strcmp(kind, "open") ? OPEN : !strcmp(kind, "read") ? READ : WRITE;
    }
    at = number ? atol(number) : -1;
    from = getenv("FAULT_FROM") != NULL;
    ready = 1;
}

static int fails(enum kind kind) {
    if (!ready || kind != refused) {
        return 0;
    }
    long call = seen++;
    return at >= 0 && (call == at || (from && call > at));
}

void *malloc(size_t size) {
    if (fails(ALLOC)) {
        errno = ENOMEM;
        return NULL;
    }
    return __libc_malloc(size);
}

void *realloc(void *old, size_t size) {
    if (fails(ALLOC)) {
        errno = ENOMEM;
        return NULL;
    }
    return __libc_realloc(old, size);
}

int open(const char *name, int flags, ...) {
    va_list more;
    va_start(more, flags);
    int mode = va_arg(more, int);
    va_end(more);
    if (fails(OPEN)) {
        errno = EIO;
        return -1;
    }
    return (int)syscall(SYS_openat, AT_FDCWD, name, flags, mode);
}

ssize_t read(int file, void *buffer, size_t size) {
    if (fails(READ)) {
        errno = EIO;
        return -1;
    }
    return syscall(SYS_read, file, buffer, size);
}

ssize_t write(int file, const void *bytes, size_t size) {
    if (fails(WRITE)) {
        errno = EIO;
        return -1;
    }
    return syscall(SYS_write, file, bytes, size);
}

ssize_t __write(int file, const void *bytes, size_t size) {
    return write(file, bytes, size);
}

static void tell(const char *name, const char *bytes, size_t size) {
    if (name) {
        long file = syscall(SYS_openat, AT_FDCWD, name, O_WRONLY | O_CREAT | O_TRUNC, 0600);
        (void)!syscall(SYS_write, file, bytes, size);
    }
}

__attribute__((destructor)) static void end(void) {
    static char status[4096];
    long file = syscall(SYS_openat, AT_FDCWD, "/proc/self/status", O_RDONLY, 0);
    long size = syscall(SYS_read, file, status, sizeof status);
    tell(getenv("FAULT_STACK"), status, size < 0 ? 0 : (size_t)size);
    char digits[24];
    int first = sizeof digits;
    for (long left = seen; first == sizeof digits || left > 0; left /= 10) {
        digits[--first] = (char)('0' + left % 10);
    }
    tell(getenv("FAULT_COUNT"), digits + first, sizeof digits - first);
}
