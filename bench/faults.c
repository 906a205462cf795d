/* Lets one call of the program fail, for bench/faults.sh, which loads it by LD_PRELOAD. The variable
   FAULT has the call's name (malloc, read, write, pwrite, fdatasync), its number from 1 on, and how
   it fails: `fail`, `short` (half of the bytes, one at least) or `interrupt`. Where there was such a
   call, a file is made of the name in FAULT_MARK. */
#define _GNU_SOURCE
#include <dlfcn.h>
#include <errno.h>
#include <fcntl.h>
#include <stdio.h>
#include <stdlib.h>
#include <string.h>
#include <sys/types.h>
#include <unistd.h>

extern void *__libc_malloc(size_t);
extern void *__libc_realloc(void *, size_t);
extern void *__libc_memalign(size_t, size_t);

static char call[16], kind[16];
static long left = -1;

/* This call of this name is to fail. */
static int fails(const char *name) {
    if (left == -1) {
        const char *fault = getenv("FAULT");
        left = 0;
        if (fault && sscanf(fault, "%15s %ld %15s", call, &left, kind) != 3) left = 0;
    }
    if (left <= 0 || strcmp(name, call) != 0 || --left > 0) return 0;
    const char *mark = getenv("FAULT_MARK");
    if (mark) close(open(mark, O_CREAT | O_WRONLY, 0600));
    return 1;
}

static int interrupts(void) { return strcmp(kind, "interrupt") == 0; }
static int is_short(void) { return strcmp(kind, "short") == 0; }
static size_t part(size_t n) { return n > 1 ? n / 2 : n; }
static long failed(int error) {
    errno = interrupts() ? EINTR : error;
    return -1;
}

void *malloc(size_t n) { return fails("malloc") ? NULL : __libc_malloc(n); }
void *realloc(void *p, size_t n) { return fails("malloc") ? NULL : __libc_realloc(p, n); }
void *aligned_alloc(size_t a, size_t n) { return fails("malloc") ? NULL : __libc_memalign(a, n); }
int posix_memalign(void **p, size_t a, size_t n) {
    *p = fails("malloc") ? NULL : __libc_memalign(a, n);
    return *p ? 0 : ENOMEM;
}

ssize_t read(int fd, void *to, size_t n) {
    static ssize_t (*own)(int, void *, size_t);
    if (!own) own = (ssize_t (*)(int, void *, size_t))dlsym(RTLD_NEXT, "read");
    if (fails("read")) return is_short() ? own(fd, to, part(n)) : failed(EIO);
    return own(fd, to, n);
}

ssize_t write(int fd, const void *from, size_t n) {
    static ssize_t (*own)(int, const void *, size_t);
    if (!own) own = (ssize_t (*)(int, const void *, size_t))dlsym(RTLD_NEXT, "write");
    if (fails("write")) return is_short() ? own(fd, from, part(n)) : failed(EIO);
    return own(fd, from, n);
}

static ssize_t put(const char *name, int fd, const void *from, size_t n, off_t at) {
    ssize_t (*own)(int, const void *, size_t, off_t) =
        (ssize_t (*)(int, const void *, size_t, off_t))dlsym(RTLD_NEXT, name);
    if (fails("pwrite")) return is_short() ? own(fd, from, part(n), at) : failed(EIO);
    return own(fd, from, n, at);
}

ssize_t pwrite(int fd, const void *from, size_t n, off_t at) {
    return put("pwrite", fd, from, n, at);
}
ssize_t pwrite64(int fd, const void *from, size_t n, off_t at) {
    return put("pwrite64", fd, from, n, at);
}

int fdatasync(int fd) {
    static int (*own)(int);
    if (!own) own = (int (*)(int))dlsym(RTLD_NEXT, "fdatasync");
    return fails("fdatasync") ? (int)failed(EIO) : own(fd);
}
