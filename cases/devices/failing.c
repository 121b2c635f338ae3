// Stands before the C library: what a program does with files of relative paths, and with standard output, gives and takes at
// most CHUNK bytes a call, and the call of number AT among those of the kind FAIL fails with the error ERROR, or takes nothing
// where this is 0. The kinds are open, read, create, write, and sink, which is a write to standard output.
#define _GNU_SOURCE
#include <errno.h>
#include <fcntl.h>
#include <stdarg.h>
#include <stdlib.h>
#include <string.h>
#include <sys/syscall.h>
#include <unistd.h>

enum { MOST = 1024 };
static int is_known[MOST];
static int calls;

static long number(const char *name, long otherwise) { return getenv(name) ? strtol(getenv(name), NULL, 10) : otherwise; }

static int fails(const char *kind) {
    const char *failing = getenv("FAIL");
    if (!failing || strcmp(failing, kind) || ++calls != number("AT", 1)) return 0;
    errno = number("ERROR", EIO);
    return 1;
}

static size_t part(size_t count) {
    size_t chunk = number("CHUNK", 1 << 20);
    return count < chunk ? count : chunk;
}

int open(const char *path, int flags, ...) {
    va_list words;
    va_start(words, flags);
    int mode = flags & O_CREAT ? va_arg(words, int) : 0;
    va_end(words);
    if (path[0] != '/' && fails(flags & O_CREAT ? "create" : "open")) return -1;
    int file = syscall(SYS_openat, AT_FDCWD, path, flags, mode);
    if (file >= 0 && file < MOST) is_known[file] = path[0] != '/';
    return file;
}

static int knows(int file) { return file >= 0 && file < MOST && is_known[file]; }

ssize_t read(int file, void *bytes, size_t count) {
    if (knows(file)) {
        if (fails("read")) return -1;
        count = part(count);
    }
    return syscall(SYS_read, file, bytes, count);
}

ssize_t write(int file, const void *bytes, size_t count) {
    if (knows(file) || file == STDOUT_FILENO) {
        if (fails(knows(file) ? "write" : "sink")) return errno ? -1 : 0;
        count = part(count);
    }
    return syscall(SYS_write, file, bytes, count);
}
