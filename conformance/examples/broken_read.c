/* Stands in for read: 13 bytes come, and then a read fails. Preloaded by conformance/program. */
#define _GNU_SOURCE
#include <errno.h>
#include <sys/syscall.h>
#include <unistd.h>

ssize_t read(int fd, void *buffer, size_t count) {
    static int calls;
    if (calls++ == 0) return syscall(SYS_read, fd, buffer, count < 13 ? count : 13);
    errno = EIO;
    return -1;
}
