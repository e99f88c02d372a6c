/* Faults on one file of a program, for LD_PRELOAD: short reads and writes, and reads, writes and closes that fail.
 *
 * FAULT_FILE   the file's name, as the program opens it
 * FAULT_PIECE  a read or a write moves at most so many bytes
 * FAULT_READ   after so many reads the next fails: EIO
 * FAULT_WRITE  after so many writes the next fails: ENOSPC
 * FAULT_CLOSE  after so many closes of the file, once written to, the next fails: EIO */
#define _GNU_SOURCE
#include <errno.h>
#include <fcntl.h>
#include <stdarg.h>
#include <stdlib.h>
#include <string.h>
#include <sys/syscall.h>
#include <unistd.h>

static int faulty = -1, written, reads, writes, closes;

static int reached(const char *name, int calls)
{
    const char *after = getenv(name);
    return after != NULL && calls >= atoi(after);
}

static size_t piece(size_t n)
{
    const char *most = getenv("FAULT_PIECE");
    return most != NULL && n > (size_t)atoi(most) ? (size_t)atoi(most) : n;
}

int open(const char *path, int flags, ...)
{
    va_list rest;
    va_start(rest, flags);
    int fd = (int)syscall(SYS_openat, AT_FDCWD, path, flags, flags & O_CREAT ? va_arg(rest, int) : 0);
    va_end(rest);
    const char *name = getenv("FAULT_FILE");
    if (fd >= 0 && name != NULL && strcmp(path, name) == 0) {
        faulty = fd;
        written = 0;
    }
    return fd;
}

ssize_t read(int fd, void *area, size_t n)
{
    if (fd != faulty) return syscall(SYS_read, fd, area, n);
    if (reached("FAULT_READ", reads++)) {
        errno = EIO;
        return -1;
    }
    return syscall(SYS_read, fd, area, piece(n));
}

ssize_t write(int fd, const void *area, size_t n)
{
    if (fd != faulty) return syscall(SYS_write, fd, area, n);
    written = 1;
    if (reached("FAULT_WRITE", writes++)) {
        errno = ENOSPC;
        return -1;
    }
    return syscall(SYS_write, fd, area, piece(n));
}

int close(int fd)
{
    int told = (int)syscall(SYS_close, fd);
    if (fd != faulty) return told;
    faulty = -1;
    if (!written || !reached("FAULT_CLOSE", closes++)) return told;
    errno = EIO;
    return -1;
}
