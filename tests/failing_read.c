// Put before the C library, it lets the read with the number FAIL_AT, counted from 1, fail once.
#include <errno.h>
#include <stdlib.h>
#include <sys/syscall.h>
#include <unistd.h>

ssize_t read(int fd, void *bytes, size_t n) {
    static int reads;
    const char *at = getenv("FAIL_AT");
    if (at && ++reads == atoi(at)) {
        errno = EIO;
        return -1;
    }
    return syscall(SYS_read, fd, bytes, n);
}
