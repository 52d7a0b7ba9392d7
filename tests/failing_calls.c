// Put before the C library, it lets each fsync, close or rename fail, whichever FAIL_CALL names.
#include <errno.h>
#include <stdlib.h>
#include <string.h>
#include <sys/syscall.h>
#include <unistd.h>

static int failed(void) {
    errno = EIO;
    return -1;
}

static int is_to_fail(const char *call) {
    const char *name = getenv("FAIL_CALL");
    return name && strcmp(name, call) == 0;
}

int fsync(int fd) { return is_to_fail("fsync") ? failed() : syscall(SYS_fsync, fd); }

int close(int fd) {
    int answer = syscall(SYS_close, fd);
    return is_to_fail("close") ? failed() : answer;
}

int rename(const char *from, const char *to) { return is_to_fail("rename") ? failed() : syscall(SYS_rename, from, to); }
