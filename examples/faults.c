/* A disk that fails, for examples/test.sh: linked into sale with --wrap, it stands between the program and the system's calls. FAULT says how:
 *
 *     write N     the N-th block is not written: EIO
 *     sync N      the N-th block is written, but its flush answers EIO
 *     read        nothing can be read: EIO
 *     image       a new image is not written whole: ENOSPC
 *     flush       a new image cannot be flushed: EIO
 *     slow        each call moves 100 bytes at most, and each second one is interrupted
 *     hold PIPE   the first block waits until PIPE has been read from, then written to
 */
#define _DEFAULT_SOURCE
#include <errno.h>
#include <fcntl.h>
#include <stdlib.h>
#include <string.h>
#include <unistd.h>

ssize_t __real_pread(int fd, void *bytes, size_t n, off_t at);
ssize_t __real_pwrite(int fd, const void *bytes, size_t n, off_t at);
int __real_fsync(int fd);
int __real_fdatasync(int fd);

/* The words behind such a fault, NULL where FAULT is another. */
static const char *fault(const char *which)
{
    const char *f = getenv("FAULT");
    size_t n = strlen(which);
    return f != NULL && strncmp(f, which, n) == 0 ? f + n : NULL;
}

/* Whether it is the turn of the fault. */
static int is_turn(const char *which, long turn)
{
    const char *n = fault(which);
    return n != NULL && strtol(n, NULL, 10) == turn;
}

/* Whether this call is interrupted. */
static int is_interrupted(void)
{
    static unsigned calls;
    return fault("slow") != NULL && calls++ % 2 == 0;
}

static int with(int error)
{
    errno = error;
    return -1;
}

static size_t part(size_t n)
{
    return fault("slow") != NULL && n > 100 ? 100 : n;
}

/* Until the pipe has been read from, then written to. */
static void hold(const char *path)
{
    char byte = '\n';
    int fd = open(path, O_WRONLY);
    if (fd < 0 || write(fd, &byte, 1) != 1 || close(fd) != 0)
        abort();
    fd = open(path, O_RDONLY);
    if (fd < 0 || read(fd, &byte, 1) != 1 || close(fd) != 0)
        abort();
}

ssize_t __wrap_pread(int fd, void *bytes, size_t n, off_t at)
{
    if (fault("read") != NULL)
        return with(EIO);
    if (is_interrupted())
        return with(EINTR);
    return __real_pread(fd, bytes, part(n), at);
}

ssize_t __wrap_pwrite(int fd, const void *bytes, size_t n, off_t at)
{
    static long blocks;
    if (n > 512 && fault("image") != NULL)
        return at == 0 ? __real_pwrite(fd, bytes, 1000, at) : with(ENOSPC);
    if (n == 512 && fault("slow") == NULL) {
        blocks++;
        if (blocks == 1 && fault("hold ") != NULL)
            hold(fault("hold "));
        if (is_turn("write ", blocks))
            return with(EIO);
    }
    if (is_interrupted())
        return with(EINTR);
    return __real_pwrite(fd, bytes, part(n), at);
}

int __wrap_fsync(int fd)
{
    if (fault("flush") != NULL)
        return with(EIO);
    return is_interrupted() ? with(EINTR) : __real_fsync(fd);
}

int __wrap_fdatasync(int fd)
{
    static long blocks;
    if (is_interrupted())
        return with(EINTR);
    return is_turn("sync ", ++blocks) ? with(EIO) : __real_fdatasync(fd);
}
