/* An outside that fails, for a program that is started with this library preloaded. Each variable of the environment is a number:
 *
 *   FAIL_ALLOC=N   the Nth call that asks for memory is refused, counting from 1, and no other
 *   FAIL_READ=N    the Nth read of standard input fails
 *   FAIL_WRITE=N   the Nth write to standard output fails
 *   SHORT_IO=N     a read and a write move at most N bytes
 *   COUNT_FILE=F   where the program ends, four counts are written to the file F: the calls that asked for memory, the reads, the
 *                  writes, and the calls that asked for memory before the first read
 *
 * Only what the program itself asks for is counted, not what the C library does for itself before `main`.
 */
#define _GNU_SOURCE
#include <errno.h>
#include <stddef.h>
#include <stdio.h>
#include <stdlib.h>
#include <sys/syscall.h>
#include <unistd.h>

extern void *__libc_malloc(size_t);
extern void *__libc_calloc(size_t, size_t);
extern void *__libc_realloc(void *, size_t);
extern void *__libc_memalign(size_t, size_t);

static long fail_alloc, fail_read, fail_write, short_io;
static long allocs, reads, writes, early;
static int started;

static long number(const char *name) {
    const char *text = getenv(name);
    return text ? atol(text) : 0;
}

__attribute__((constructor)) static void start(void) {
    fail_alloc = number("FAIL_ALLOC");
    fail_read = number("FAIL_READ");
    fail_write = number("FAIL_WRITE");
    short_io = number("SHORT_IO");
    started = 1;
}

__attribute__((destructor)) static void end(void) {
    const char *path = getenv("COUNT_FILE");
    started = 0;
    if (path) {
        FILE *file = fopen(path, "w");
        if (file) {
            fprintf(file, "%ld %ld %ld %ld\n", allocs, reads, writes, early);
            fclose(file);
        }
    }
}

static int refused(void) {
    if (!started || ++allocs != fail_alloc)
        return 0;
    errno = ENOMEM;
    return 1;
}

void *malloc(size_t size) { return refused() ? NULL : __libc_malloc(size); }

void *calloc(size_t count, size_t size) { return refused() ? NULL : __libc_calloc(count, size); }

void *realloc(void *old, size_t size) { return refused() ? NULL : __libc_realloc(old, size); }

void *memalign(size_t align, size_t size) { return refused() ? NULL : __libc_memalign(align, size); }

void *aligned_alloc(size_t align, size_t size) { return refused() ? NULL : __libc_memalign(align, size); }

int posix_memalign(void **out, size_t align, size_t size) {
    void *made = refused() ? NULL : __libc_memalign(align, size);
    if (!made)
        return ENOMEM;
    *out = made;
    return 0;
}

static size_t shortened(size_t size) { return short_io && size > (size_t)short_io ? (size_t)short_io : size; }

ssize_t read(int fd, void *buffer, size_t size) {
    if (fd == 0 && reads++ == 0)
        early = allocs;
    if (fd == 0 && reads == fail_read) {
        errno = EIO;
        return -1;
    }
    return syscall(SYS_read, fd, buffer, fd == 0 ? shortened(size) : size);
}

ssize_t write(int fd, const void *buffer, size_t size) {
    if (fd == 1 && ++writes == fail_write) {
        errno = EIO;
        return -1;
    }
    return syscall(SYS_write, fd, buffer, fd == 1 ? shortened(size) : size);
}
