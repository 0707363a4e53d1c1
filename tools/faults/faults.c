/* Makes calls of a program fail, into which it is loaded by LD_PRELOAD; sweep.py compiles it and says which, by the environment:

   FAULT_MEMORY=N  the N-th allocation gives nothing, and with FAULT_LASTING=1 none behind it does
   FAULT_READ=N    the N-th read, or opening of a file, fails
   FAULT_WRITE=N   the N-th write to standard output fails after FAULT_TAKEN bytes, or after all where these are below 0
   FAULT_CRUMBS=1  each read and each write takes one byte at most
   FAULT_COUNTS=1  at the end a line on standard error has the numbers of allocations, reads and writes

   Calls are counted from 1, those of the C library's own start and end aside. */
#define _GNU_SOURCE
#include <errno.h>
#include <fcntl.h>
#include <stdarg.h>
#include <stdio.h>
#include <stdlib.h>
#include <sys/syscall.h>
#include <unistd.h>

void *__libc_malloc(size_t);
void *__libc_calloc(size_t, size_t);
void *__libc_realloc(void *, size_t);
void *__libc_memalign(size_t, size_t);

enum { MEMORY, READ, WRITE };
static long calls[3], failing[3], taken, is_lasting, is_crumbs, is_counted, is_on;

static long number(const char *name) {
    const char *text = getenv(name);
    return text ? atol(text) : 0;
}

__attribute__((constructor)) static void begin(void) {
    failing[MEMORY] = number("FAULT_MEMORY");
    failing[READ] = number("FAULT_READ");
    failing[WRITE] = number("FAULT_WRITE");
    taken = number("FAULT_TAKEN");
    is_lasting = number("FAULT_LASTING");
    is_crumbs = number("FAULT_CRUMBS");
    is_counted = number("FAULT_COUNTS");
    is_on = 1;
}

__attribute__((destructor)) static void end(void) {
    is_on = 0;
    if (is_counted) dprintf(STDERR_FILENO, "%ld %ld %ld\n", calls[MEMORY], calls[READ], calls[WRITE]);
}

static int fails(int kind, int error) {
    if (!is_on) return 0;
    long call = ++calls[kind];
    if (!failing[kind] || call < failing[kind] || (call > failing[kind] && !(is_lasting && kind == MEMORY))) return 0;
    errno = error;
    return 1;
}

void *malloc(size_t size) { return fails(MEMORY, ENOMEM) ? NULL : __libc_malloc(size); }
void *calloc(size_t count, size_t size) { return fails(MEMORY, ENOMEM) ? NULL : __libc_calloc(count, size); }
void *realloc(void *old, size_t size) { return fails(MEMORY, ENOMEM) ? NULL : __libc_realloc(old, size); }
void *aligned_alloc(size_t alignment, size_t size) { return fails(MEMORY, ENOMEM) ? NULL : __libc_memalign(alignment, size); }

int posix_memalign(void **made, size_t alignment, size_t size) {
    void *it = fails(MEMORY, ENOMEM) ? NULL : __libc_memalign(alignment, size);
    if (!it) return ENOMEM;
    *made = it;
    return 0;
}

int open(const char *path, int how, ...) {
    if (fails(READ, EIO)) return -1;
    va_list rest;
    va_start(rest, how);
    int mode = how & O_CREAT ? va_arg(rest, int) : 0;
    va_end(rest);
    return syscall(SYS_openat, AT_FDCWD, path, how, mode);
}

ssize_t read(int from, void *into, size_t size) {
    if (fails(READ, EIO)) return -1;
    return syscall(SYS_read, from, into, is_crumbs && size ? 1 : size);
}

ssize_t write(int to, const void *bytes, size_t size) {
    if (to != STDOUT_FILENO || !is_on) return syscall(SYS_write, to, bytes, size);
    if (!fails(WRITE, EIO)) return syscall(SYS_write, to, bytes, is_crumbs && size ? 1 : size);
    size_t front = taken < 0 || (size_t)taken > size ? size : (size_t)taken;
    if (front && syscall(SYS_write, to, bytes, front) < 0) abort();
    errno = EIO;
    return -1;
}
