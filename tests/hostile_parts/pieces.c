/* Preloaded before the C library. A read returns at most PIECE bytes, and fails with EIO if PIECE is 0. */
#define _GNU_SOURCE
#include <errno.h>
#include <stdlib.h>
#include <sys/syscall.h>
#include <unistd.h>

ssize_t read(int file, void *bytes, size_t count)
{
    size_t piece = strtoul(getenv("PIECE"), NULL, 10);
    if (piece == 0) {
        errno = EIO;
        return -1;
    }
    return syscall(SYS_read, file, bytes, count < piece ? count : piece);
}
