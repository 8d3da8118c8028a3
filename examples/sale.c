/* A sale on a till box: the meal, the wash booked with it and the new balance, in one transaction over three files of a card holder.
 *
 *     tools/build capi purselist
 *     gcc -std=c11 -Wall -Wextra -pedantic -O2 -Iinclude examples/sale.c target/staticlib/libcapi.a -o sale
 *     ./sale box.img          makes the image if there is none, and books a sale
 *     ./sale box.img 5        the same, but the plug is pulled after five blocks: the next run recovers
 *     target/bin/purselist < box.img
 *
 * A file that is missing or empty is made a box. Any other is opened as one: what is no box is refused and left as it is. till.h has the file:
 * how it is locked, read and stored.
 * Exit status: 0 sold, or the balance does not cover it; 1 failed, and it says whether the sale is in force; 2 wrong words; 3 the box is in use.
 */
#include "till.h"

enum { NEW_BLOCKS = 64, MEAL = 420, WASH = 250, PAID_IN = 5000 };

/* A name is a letter and the card's number in 7 bytes. */
static const uint8_t balance_file[PURSE_NAME] = { 'B', 0x50, 0x10, 0x26, 0x00, 0x00, 0x04, 0x17 };
static const uint8_t meals_file[PURSE_NAME] = { 'M', 0x50, 0x10, 0x26, 0x00, 0x00, 0x04, 0x17 };
static const uint8_t washes_file[PURSE_NAME] = { 'W', 0x50, 0x10, 0x26, 0x00, 0x00, 0x04, 0x17 };

/* ---- The image file */

/* The file that stands there, else a new one; where somebody else has made it meanwhile, theirs. */
static void open_file(till *t)
{
    t->fd = -1;
    for (int k = 0; k < 2 && t->fd < 0; k++) {
        t->fd = open(t->path, O_RDWR | O_CLOEXEC);
        if (t->fd < 0 && errno == ENOENT) {
            t->fd = open(t->path, O_RDWR | O_CREAT | O_EXCL | O_CLOEXEC, 0644);
            t->made = t->fd >= 0;
        }
    }
    if (t->fd < 0)
        fail(t->path);
}

/* The folder on to the disk, so that a new file in it outlives a power cut. */
static int flush_folder(const char *path)
{
    char folder[PATH_MAX] = ".";
    const char *slash = strrchr(path, '/');
    size_t n = slash == NULL ? 1 : slash == path ? 1 : (size_t)(slash - path);
    int fd, error;
    if (n >= sizeof folder)
        return ENAMETOOLONG;
    if (slash != NULL)
        memcpy(folder, path, n);
    folder[n] = 0;
    fd = open(folder, O_RDONLY | O_DIRECTORY | O_CLOEXEC);
    if (fd < 0)
        return errno;
    error = flush(fd, fsync);
    close(fd);
    return error;
}

/* The formatted image, whole, on the disk before the first sale; if that fails, the file is gone again, or empty as it was. */
static void make_image(const till *t, size_t len)
{
    int error = write_at(t->fd, image, len, 0);
    if (error == 0)
        error = flush(t->fd, fsync);
    if (error == 0)
        error = flush_folder(t->path);
    if (error == 0)
        return;
    if ((t->made ? unlink(t->path) : ftruncate(t->fd, 0)) != 0)
        perror(t->path);
    errno = error;
    fail(t->path);
}

/* ---- The sale */

/* The box of the image file, new or from the disk, open. What a power cut left of a sale is finished first. */
static void open_box(purse_box *b, till *t)
{
    off_t size;
    open_file(t);
    size = lock_file(t);
    if (size == 0) {
        purse_box_lend(b, image, NEW_BLOCKS * PURSE_BLOCK, work, sizeof work);
        must("format", purse_box_format(b));
        make_image(t, b->len);
        t->settled = 1;
    } else {
        lend_held(b, t, size);
    }
    open_lent(b, t, "the sale before");
}

/* The size of a file of the holder, made in this transaction where there is none. */
static uint64_t file_of(purse_box *b, const uint8_t *name)
{
    uint64_t size;
    uint32_t answer = purse_box_size(b, name, &size);
    if (answer == PURSE_UNKNOWN)
        answer = purse_box_create(b, name);
    must("file", answer);
    return size;
}

/* An amount in cents, 8 bytes, at a place of a file. */
static void write_amount(purse_box *b, const uint8_t *name, uint64_t at, uint64_t cents)
{
    uint8_t bytes[8];
    for (int k = 0; k < 8; k++)
        bytes[k] = (uint8_t)(cents >> (8 * k));
    must("write", purse_box_write(b, name, at, bytes, sizeof bytes));
}

static uint64_t read_amount(const purse_box *b, const uint8_t *name)
{
    uint8_t bytes[8];
    uint64_t count, cents = 0;
    must("read", purse_box_read(b, name, 0, bytes, sizeof bytes, &count));
    if (count != sizeof bytes)
        refuse("read", "the amount is not 8 bytes");
    for (int k = 0; k < 8; k++)
        cents |= (uint64_t)bytes[k] << (8 * k);
    return cents;
}

/* What is on the card. A card that comes for the first time is paid in. */
static uint64_t balance_of(purse_box *b)
{
    uint64_t size;
    uint32_t answer = purse_box_size(b, balance_file, &size);
    if (answer == PURSE_UNKNOWN)
        return PAID_IN;
    must("balance", answer);
    return read_amount(b, balance_file);
}

/* The meal, the wash and the new balance count together, or not at all. */
static void sell(purse_box *b, till *t)
{
    uint64_t balance = balance_of(b);
    if (balance < MEAL + WASH) {
        printf("the balance of %" PRIu64 " does not cover it\n", balance);
        return;
    }
    file_of(b, balance_file);
    write_amount(b, meals_file, file_of(b, meals_file), MEAL);
    write_amount(b, washes_file, file_of(b, washes_file), WASH);
    write_amount(b, balance_file, 0, balance - MEAL - WASH);
    must_be_stored(t, "the sale", purse_box_commit(b, write_block, t));
}

int main(int argc, char **argv)
{
    purse_box b;
    till t = { .stores_left = -1 };
    char *end = "";
    if (argc == 3)
        t.stores_left = strtol(argv[2], &end, 10);
    if (argc < 2 || argc > 3 || *end != 0) {
        fprintf(stderr, "sale IMAGE [STORES]\n");
        return WRONG_WORDS;
    }
    t.path = argv[1];
    open_box(&b, &t);
    sell(&b, &t);
    printf("balance %" PRIu64 "\n", balance_of(&b));
    return 0;
}
