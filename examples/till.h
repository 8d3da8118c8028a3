/* What the examples share: a till box in an image file, which is locked, read, and stored block by block.
 *
 * Include it first: it asks the system's headers for flock and posix_fadvise.
 */
#ifndef TILL_H
#define TILL_H

#define _DEFAULT_SOURCE
#include <errno.h>
#include <fcntl.h>
#include <inttypes.h>
#include <limits.h>
#include <stdio.h>
#include <stdlib.h>
#include <string.h>
#include <sys/file.h>
#include <sys/stat.h>
#include <unistd.h>

#include "purse.h"

enum { FAILED = 1, WRONG_WORDS = 2, IN_USE = 3 };

static uint8_t image[PURSE_MOST_BLOCKS * PURSE_BLOCK];
static uint8_t work[PURSE_WORK];

typedef struct {
    const char *path;
    int fd;
    int made;         /* by this run */
    long stores_left; /* before the plug is pulled; below 0: it is not */
    int settled;      /* the disk has block 0 as it was read */
    uint8_t header[PURSE_BLOCK];
} till;

static inline void fail(const char *what)
{
    perror(what);
    exit(FAILED);
}

static inline void refuse(const char *path, const char *why)
{
    fprintf(stderr, "%s: %s\n", path, why);
    exit(FAILED);
}

/* All n bytes from byte `at` on: 0, else the system's error. The file must have them. */
static inline int read_at(int fd, uint8_t *bytes, size_t n, off_t at)
{
    while (n > 0) {
        ssize_t done = pread(fd, bytes, n, at);
        if (done < 0 && errno == EINTR)
            continue;
        if (done <= 0)
            return done < 0 ? errno : EIO;
        bytes += done;
        n -= (size_t)done;
        at += done;
    }
    return 0;
}

/* The same for writing. */
static inline int write_at(int fd, const uint8_t *bytes, size_t n, off_t at)
{
    while (n > 0) {
        ssize_t done = pwrite(fd, bytes, n, at);
        if (done < 0 && errno == EINTR)
            continue;
        if (done <= 0)
            return done < 0 ? errno : EIO;
        bytes += done;
        n -= (size_t)done;
        at += done;
    }
    return 0;
}

/* On to the disk: 0, else the system's error. */
static inline int flush(int fd, int (*sync)(int))
{
    while (sync(fd) != 0)
        if (errno != EINTR)
            return errno;
    return 0;
}

/* One block to the image file, and on to the disk. */
static inline int store_at(int fd, uint64_t block, const uint8_t *bytes)
{
    int error = write_at(fd, bytes, PURSE_BLOCK, (off_t)(block * PURSE_BLOCK));
    return error == 0 ? flush(fd, fdatasync) : error;
}

/* Before the first store block 0 is stored as it was read: a program that was killed, or whose flush failed, may have left the system
 * believing what the disk does not hold. */
static inline int settle(till *t)
{
    int error = t->settled ? 0 : store_at(t->fd, 0, t->header);
    if (error == 0)
        t->settled = 1;
    return error;
}

/* The purse_write_block of this program. */
static inline int write_block(void *context, uint64_t block, const uint8_t *bytes)
{
    till *t = context;
    int error = settle(t);
    if (error != 0)
        return error;
    if (t->stores_left == 0) {
        printf("the plug is pulled\n");
        exit(0);
    }
    if (t->stores_left > 0)
        t->stores_left--;
    error = store_at(t->fd, block, bytes);
    if (error == 0)
        printf("stored block %" PRIu64 "\n", block);
    return error;
}

/* For this run alone, as long as it runs; the size of the file. One that somebody has removed in between is in use as well. */
static inline off_t lock_file(const till *t)
{
    struct stat s;
    while (flock(t->fd, LOCK_EX | LOCK_NB) != 0) {
        if (errno == EWOULDBLOCK) {
            fprintf(stderr, "%s: in use\n", t->path);
            exit(IN_USE);
        }
        if (errno != EINTR)
            fail(t->path);
    }
    if (fstat(t->fd, &s) != 0)
        fail(t->path);
    if (!S_ISREG(s.st_mode))
        refuse(t->path, "not a file");
    if (s.st_nlink == 0) {
        fprintf(stderr, "%s: in use\n", t->path);
        exit(IN_USE);
    }
    return s.st_size;
}

/* The image from the disk: not from the system's memory, where a flush that failed may have left bytes that the disk does not have. */
static inline void read_image(const till *t, size_t len)
{
    posix_fadvise(t->fd, 0, 0, POSIX_FADV_DONTNEED);
    errno = read_at(t->fd, image, len, 0);
    if (errno != 0)
        fail(t->path);
}

/* An answer that ends this run; for an open the record or the block that is damaged besides. */
static inline void told(const char *what, uint32_t answer, uint64_t fault)
{
    char sentence[PURSE_SENTENCE];
    purse_refusal_sentence(answer, fault, sentence, sizeof sentence);
    fprintf(stderr, "%s: %" PRIu32 ", %s\n", what, answer, sentence);
    exit(FAILED);
}

/* A call that must be accepted here. */
static inline void must(const char *what, uint32_t answer)
{
    if (answer != PURSE_OK)
        told(what, answer, 0);
}

/* The same for a commit or an open: where a block did not reach the disk, whether `what` is in force. */
static inline void must_be_stored(const till *t, const char *what, purse_outcome o)
{
    static const char *const words[] = { "not in force", "in force, the next run finishes it", "in force or not, the next run tells" };
    /* A list that was read, and may not be on the disk. */
    uint32_t force = o.force == PURSE_IN_FORCE && !t->settled ? PURSE_FORCE_UNKNOWN : o.force;
    if (o.answer == PURSE_NOT_STORED) {
        fprintf(stderr, "store %" PRIu64 " of %" PRIu64 ", block %" PRIu64 ": %s\n", o.number, o.stores, o.block, strerror(o.error));
        fprintf(stderr, "%s is %s\n", what, words[force]);
    }
    if (o.answer != PURSE_OK)
        told(t->path, o.answer, o.fault);
}

/* The box that the file holds, lent. */
static inline void lend_held(purse_box *b, till *t, off_t size)
{
    if (size > (off_t)sizeof image)
        refuse(t->path, purse_refusal_text(PURSE_DEVICE_SIZE));
    read_image(t, (size_t)size);
    memcpy(t->header, image, sizeof t->header);
    purse_box_lend(b, image, (size_t)size, work, sizeof work);
}

/* The box opened. What a power cut left of `before` is finished first. */
static inline void open_lent(purse_box *b, till *t, const char *before)
{
    purse_outcome o = purse_box_open(b, write_block, t);
    must_be_stored(t, before, o);
    if (o.stores > 0)
        printf("recovered\n");
}

#endif
