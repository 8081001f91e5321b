/* Put before the C library (LD_PRELOAD): the system call that FAIL names fails, and the file that CALLS names gets a
 * line for each step of replacing a file. Used by tests/cli.sh. */
#define _GNU_SOURCE
#include <errno.h>
#include <fcntl.h>
#include <stdarg.h>
#include <stdlib.h>
#include <string.h>
#include <sys/stat.h>
#include <sys/syscall.h>
#include <unistd.h>

static int fails(const char *call, int error) {
    const char *name = getenv("FAIL");
    if (name == NULL || strcmp(name, call) != 0) return 0;
    errno = error;
    return 1;
}

static void note(const char *call) {
    const char *name = getenv("CALLS");
    if (name == NULL) return;
    int fd = (int)syscall(SYS_openat, AT_FDCWD, name, O_WRONLY | O_CREAT | O_APPEND, 0666);
    syscall(SYS_write, fd, call, strlen(call));
    syscall(SYS_write, fd, "\n", (size_t)1);
    syscall(SYS_close, fd);
}

static int is_folder(int fd) {
    struct stat about;
    return fstat(fd, &about) == 0 && S_ISDIR(about.st_mode);
}

int open(const char *path, int flags, ...) {
    va_list more;
    va_start(more, flags);
    mode_t mode = flags & O_CREAT ? va_arg(more, mode_t) : 0;
    va_end(more);
    if (flags & O_EXCL && fails("create", EDQUOT)) return -1;
    if (flags & O_DIRECTORY && fails("open folder", EMFILE)) return -1;
    return (int)syscall(SYS_openat, AT_FDCWD, path, flags, mode);
}

/* "read short" and "write short" move one byte, after an interrupted call. */
static int turn;
ssize_t read(int fd, void *room, size_t n) {
    if (fails("read", EIO)) return -1;
    if (!fails("read short", EINTR)) return syscall(SYS_read, fd, room, n);
    return turn++ % 2 == 0 ? -1 : syscall(SYS_read, fd, room, n > 0 ? (size_t)1 : n);
}

ssize_t write(int fd, const void *bytes, size_t n) {
    if (fd > STDERR_FILENO && fails("write", ENOSPC)) return -1;
    if (fd > STDERR_FILENO && fails("write nothing", 0)) return 0;
    if (!fails("write short", EINTR)) return syscall(SYS_write, fd, bytes, n);
    return turn++ % 2 == 0 ? -1 : syscall(SYS_write, fd, bytes, n > 0 ? (size_t)1 : n);
}

int fchmod(int fd, mode_t mode) { return fails("fchmod", EPERM) ? -1 : (int)syscall(SYS_fchmod, fd, mode); }

int fsync(int fd) {
    const char *call = is_folder(fd) ? "sync folder" : "sync file";
    note(call);
    if (fails("sync no folder", EINVAL)) return is_folder(fd) ? -1 : (int)syscall(SYS_fsync, fd);
    return fails(call, EIO) ? -1 : (int)syscall(SYS_fsync, fd);
}

int close(int fd) {
    int is_output = (fcntl(fd, F_GETFL) & O_ACCMODE) == O_WRONLY, closed = (int)syscall(SYS_close, fd);
    return is_output && fails("close", EIO) ? -1 : closed;
}

int rename(const char *from, const char *to) {
    note("rename");
    return fails("rename", EXDEV) ? -1 : (int)syscall(SYS_renameat, AT_FDCWD, from, AT_FDCWD, to);
}

int getentropy(void *room, size_t n) {
    return fails("getentropy", ENOSYS) ? -1 : syscall(SYS_getrandom, room, n, 0) == (long)n ? 0 : -1;
}
