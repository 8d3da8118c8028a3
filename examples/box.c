/* The calls of a box on a device that fails: each store of a commit, of a recovery, of the recovery of a recovery and of a load, lost, torn, or
 * made but not told. Behind each failure the device is read and opened again, and must hold the files that the outcome told. Prints the first 20
 * differences, then the result. */
#include <inttypes.h>
#include <stdio.h>
#include <string.h>

#include "purse.h"

enum { LEN = 64 * PURSE_BLOCK, ERROR = 5 };

static uint8_t disk[LEN]; /* what the device holds */
static uint8_t image[LEN], work[PURSE_WORK];
static purse_box box;
static unsigned tests, failures;

static const uint8_t A[8] = { 1, 2, 3, 4, 5, 6, 7, 8 };
static const uint8_t B[8] = { 8, 7, 6, 5, 4, 3, 2, 1 };

static void same(const char *what, uint64_t got, uint64_t want)
{
    tests++;
    if (got != want && failures++ < 20)
        printf("%s: %" PRIu64 ", not %" PRIu64 "\n", what, got, want);
}

/* ---- The device */

typedef struct {
    uint64_t fails_at; /* the store that fails, 0: none does */
    size_t made;       /* bytes of it that are stored all the same */
    uint64_t stores;   /* so far */
    uint64_t blocks[80];
} faults;

static int write_block(void *context, uint64_t block, const uint8_t *bytes)
{
    faults *f = context;
    same("block in range", block < 64, 1);
    same("bytes of the image", (uint64_t)(bytes == image + block * PURSE_BLOCK), 1);
    f->blocks[f->stores++] = block;
    same("no store behind a failure", f->fails_at != 0 && f->stores > f->fails_at, 0);
    memcpy(disk + block * PURSE_BLOCK, bytes, f->stores == f->fails_at ? f->made : PURSE_BLOCK);
    return f->stores == f->fails_at ? ERROR : 0;
}

static faults faults_at(uint64_t store, size_t made)
{
    faults f = { store, made, 0, { 0 } };
    return f;
}

/* The image as the device has it, lent; the work space holds anything. */
static void reload(void)
{
    memcpy(image, disk, LEN);
    memset(work, 0xee, sizeof work);
    purse_box_lend(&box, image, LEN, work, sizeof work);
}

static purse_outcome open_box(faults f) { return purse_box_open(&box, write_block, &f); }

static purse_outcome commit(faults f) { return purse_box_commit(&box, write_block, &f); }

static const char monday[] = "04A1B2C3;H;1250\n69495546249912580;D;5\n80E91F04;H;99999999\n";

static purse_load_outcome load_text(const char *text, faults f, uint64_t *place)
{
    return purse_box_load(&box, (const uint8_t *)text, strlen(text), place, write_block, &f);
}

static purse_load_outcome load(faults f, uint64_t *place) { return load_text(monday, f, place); }

static void must_open(void)
{
    purse_outcome o = open_box(faults_at(0, 0));
    same("open", o.answer, PURSE_OK);
    same("ready", box.session.phase, PURSE_READY);
}

/* A box on the device with file A of 600 times byte 1, and the transaction that makes it byte 2 and adds B: six blocks staged. */
static void make(void)
{
    uint8_t bytes[600];
    memset(image, 0x5a, LEN);
    purse_box_lend(&box, image, LEN, work, sizeof work);
    same("format", purse_box_format(&box), PURSE_OK);
    memcpy(disk, image, LEN);
    must_open();
    same("create", purse_box_create(&box, A), PURSE_OK);
    memset(bytes, 1, sizeof bytes);
    same("write", purse_box_write(&box, A, 0, bytes, sizeof bytes), PURSE_OK);
    same("commit", commit(faults_at(0, 0)).answer, PURSE_OK);
    memset(bytes, 2, sizeof bytes);
    same("write", purse_box_write(&box, A, 0, bytes, sizeof bytes), PURSE_OK);
    same("create", purse_box_create(&box, B), PURSE_OK);
    same("write", purse_box_write(&box, B, 0, bytes, 513), PURSE_OK);
    same("staged", box.session.count, 6);
}

enum { K = 6, STORES = 2 * K + 2, LIST = K + 1 };
enum { LINES = 3, LINE_STORES = 8, LINE_LIST = 4 };

/* Where the lines of the text begin, and its end. */
static const uint64_t starts[LINES + 1] = { 0, 16, 38, 58 };

/* The device holds the files from before the transaction, or those from behind it, whole. */
static void holds(int in_force)
{
    uint8_t bytes[600], want[600];
    uint64_t n;
    memset(want, in_force ? 2 : 1, sizeof want);
    same("read A", purse_box_read(&box, A, 0, bytes, sizeof bytes, &n), PURSE_OK);
    same("bytes of A", n, 600);
    same("A", (uint64_t)(memcmp(bytes, want, 600) != 0), 0);
    same("B", purse_box_size(&box, B, &n), in_force ? PURSE_OK : PURSE_UNKNOWN);
    same("size of B", n, in_force ? 513 : 0);
    same("free", purse_box_free_count(&box, &n), PURSE_OK);
    same("free blocks", n, in_force ? 18 : 20);
    same("image and device", (uint64_t)(memcmp(image, disk, LEN) != 0), 0);
}

/* ---- The tests */

static void same_but_fault(const char *what, purse_outcome o, uint32_t answer, uint32_t force, uint64_t stores, uint64_t number)
{
    char text[80];
    snprintf(text, sizeof text, "%s %" PRIu64 ", answer", what, number);
    same(text, o.answer, answer);
    snprintf(text, sizeof text, "%s %" PRIu64 ", force", what, number);
    same(text, o.force, force);
    snprintf(text, sizeof text, "%s %" PRIu64 ", stores", what, number);
    same(text, o.stores, stores);
    snprintf(text, sizeof text, "%s %" PRIu64 ", number", what, number);
    same(text, o.number, number);
    same("error", (uint64_t)o.error, answer == PURSE_NOT_STORED ? ERROR : 0);
}

static void same_outcome(const char *what, purse_outcome o, uint32_t answer, uint32_t force, uint64_t stores, uint64_t number)
{
    same_but_fault(what, o, answer, force, stores, number);
    same("no fault", o.fault, 0);
}

/* A box that is refused as damaged, before a recovery or behind one of so many stores. It is not broken. */
static void same_damage(const char *what, purse_outcome o, uint32_t answer, uint64_t fault, uint64_t stores)
{
    same_but_fault(what, o, answer, PURSE_FORCE_UNKNOWN, stores, stores);
    same("fault", o.fault, fault);
    same("not broken", box.broken, 0);
}

/* No call goes on with a broken box, and none changes anything. */
static void is_broken(void)
{
    static uint8_t image_before[LEN], work_before[PURSE_WORK];
    purse_box before;
    uint8_t buffer[4] = { 9, 9, 9, 9 };
    purse_file f;
    purse_extent e = { 7, 7 };
    uint64_t n;
    memcpy(image_before, image, LEN);
    memcpy(work_before, work, PURSE_WORK);
    memcpy(&before, &box, sizeof box);
    memset(&f, 0x77, sizeof f);

    same("never opened", box.session.blocks + box.session.phase + box.session.place + box.session.count, 0);
    same_outcome("open of a broken box", open_box(faults_at(1, PURSE_BLOCK)), PURSE_BROKEN, PURSE_FORCE_UNKNOWN, 0, 0);
    same_outcome("commit of a broken box", commit(faults_at(1, PURSE_BLOCK)), PURSE_BROKEN, PURSE_FORCE_UNKNOWN, 0, 0);
    n = 5;
    same_outcome("load of a broken box", load(faults_at(1, PURSE_BLOCK), &n).outcome, PURSE_BROKEN, PURSE_FORCE_UNKNOWN, 0, 0);
    same("its place", n, 5);
    same("format", purse_box_format(&box), PURSE_BROKEN);
    same("abort", purse_box_abort(&box), PURSE_BROKEN);
    same("create", purse_box_create(&box, B), PURSE_BROKEN);
    same("remove", purse_box_remove(&box, A), PURSE_BROKEN);
    same("rename", purse_box_rename(&box, A, B), PURSE_BROKEN);
    same("write", purse_box_write(&box, A, 0, buffer, 4), PURSE_BROKEN);
    same("set size", purse_box_set_size(&box, A, 5), PURSE_BROKEN);
    n = 5;
    same("read", purse_box_read(&box, A, 0, buffer, 4, &n), PURSE_BROKEN);
    same("count", n + buffer[0], 9);
    n = 5;
    same("size", purse_box_size(&box, A, &n), PURSE_BROKEN);
    same("count", n, 0);
    n = 5;
    same("free count", purse_box_free_count(&box, &n), PURSE_BROKEN);
    same("count", n, 0);
    same("record", purse_box_record(&box, 0, &f), PURSE_BROKEN);
    same("used and size", f.used + f.size, 0);
    same("name", f.name[0], 0x77);
    same("n-th extent", purse_box_nth_extent(&box, A, 0, 9, 0, &e), PURSE_BROKEN);
    same("none", e.first + e.count, 0);
    n = 5;
    e.first = 7;
    same("run list", purse_box_run_list(&box, A, 0, 9, &e, 1, &n), PURSE_BROKEN);
    same("count", n + e.first, 7);

    same("image as before", (uint64_t)(memcmp(image, image_before, LEN) != 0), 0);
    same("work space as before", (uint64_t)(memcmp(work, work_before, PURSE_WORK) != 0), 0);
    same("session as before", (uint64_t)(memcmp(&box.session, &before.session, sizeof box.session) != 0), 0);
}

static uint32_t force_at(uint64_t store)
{
    if (store < LIST)
        return PURSE_NOT_IN_FORCE;
    return store == LIST ? PURSE_FORCE_UNKNOWN : PURSE_IN_FORCE;
}

/* Each store of a commit fails, lost or made; or torn, but for those of block 0. */
static void failed_commit(uint64_t store, size_t made)
{
    int in_force = store > LIST || (store == LIST && made == PURSE_BLOCK);
    int cleared = store == STORES && made == PURSE_BLOCK;
    purse_outcome o;
    make();
    o = commit(faults_at(store, made));
    same_outcome("commit, store", o, PURSE_NOT_STORED, force_at(store), STORES, store);
    same("block", o.block, store <= K ? store : store == LIST || store == STORES ? 0 : o.block);
    is_broken();
    reload();
    o = open_box(faults_at(0, 0));
    same_outcome("open behind it", o, PURSE_OK, in_force && !cleared ? PURSE_IN_FORCE : PURSE_NOT_IN_FORCE, in_force && !cleared ? K + 1 : 0,
        in_force && !cleared ? K + 1 : 0);
    holds(in_force);
    same("the next sale", purse_box_rename(&box, A, (const uint8_t *)"next one"), PURSE_OK);
    same("its commit", commit(faults_at(0, 0)).answer, PURSE_OK);
}

/* A store of the recovery fails, then one of its recovery, then it goes through. */
static void failed_recovery(uint64_t first, uint64_t second, size_t made)
{
    purse_outcome o;
    make();
    same("cut behind the list", commit(faults_at(LIST + 1, 0)).answer, PURSE_NOT_STORED);
    reload();
    o = open_box(faults_at(first, made));
    same_outcome("recovery, store", o, PURSE_NOT_STORED, PURSE_IN_FORCE, K + 1, first);
    is_broken();
    reload();
    o = open_box(faults_at(second, made));
    if (first == K + 1 && made == PURSE_BLOCK) {
        same_outcome("open of what is cleared", o, PURSE_OK, PURSE_NOT_IN_FORCE, 0, 0);
    } else {
        same_outcome("recovery of a recovery, store", o, PURSE_NOT_STORED, PURSE_IN_FORCE, K + 1, second);
        is_broken();
        reload();
        must_open();
    }
    holds(1);
}

/* Commits and opens without a failure: the order of the stores, nothing to commit, refusals. */
static void without_failure(void)
{
    static const uint64_t order[STORES] = { 1, 2, 3, 4, 5, 6, 0, 33, 34, 42, 43, 44, 45, 0 };
    faults f = faults_at(0, 0);
    purse_outcome o;
    purse_extent e[3] = { { 7, 7 }, { 7, 7 }, { 7, 7 } };
    purse_file file;
    uint64_t n;

    make();
    same_outcome("commit", purse_box_commit(&box, write_block, &f), PURSE_OK, PURSE_IN_FORCE, STORES, STORES);
    same("stores", f.stores, STORES);
    same("order", (uint64_t)(memcmp(f.blocks, order, sizeof order) != 0), 0);
    same("ready", box.session.phase, PURSE_READY);
    holds(1);
    same_outcome("commit of nothing", commit(faults_at(1, 0)), PURSE_OK, PURSE_IN_FORCE, 0, 0);
    same("set size", purse_box_set_size(&box, A, 100), PURSE_OK);
    same("abort", purse_box_abort(&box), PURSE_OK);
    holds(1);
    same("n-th extent", purse_box_nth_extent(&box, B, 0, 9, 0, &e[2]), PURSE_OK);
    same("extent", e[2].first * 10 + e[2].count, 442);
    same("run list", purse_box_run_list(&box, B, 1, 9, e, 3, &n), PURSE_OK);
    same("runs", n * 1000 + e[0].first * 10 + e[0].count, 1451);
    same("places behind", e[1].first, 7);
    same("record", purse_box_record(&box, 1, &file), PURSE_OK);
    same("file", file.size * 10 + file.used, 5131);
    same("remove", purse_box_remove(&box, B), PURSE_OK);
    o = open_box(faults_at(1, 0));
    same_outcome("open gives up a transaction", o, PURSE_OK, PURSE_NOT_IN_FORCE, 0, 0);
    holds(1);

    reload();
    same_outcome("commit when never opened", commit(faults_at(1, 0)), PURSE_DEVICE_SIZE, PURSE_NOT_IN_FORCE, 0, 0);
    same("create when never opened", purse_box_create(&box, A), PURSE_DEVICE_SIZE);
    same("format", purse_box_format(&box), PURSE_OK);
    same_outcome("commit when closed", commit(faults_at(1, 0)), PURSE_NOT_READY, PURSE_NOT_IN_FORCE, 0, 0);
    same("create when closed", purse_box_create(&box, A), PURSE_NOT_READY);
    same("not broken", box.broken, 0);
    purse_box_lend(&box, image, LEN, work, sizeof work - 1);
    same_outcome("open without a work space", open_box(faults_at(1, 0)), PURSE_WORK_SIZE, PURSE_FORCE_UNKNOWN, 0, 0);
    purse_box_lend(&box, NULL, 0, work, sizeof work);
    same_outcome("open without a device", open_box(faults_at(1, 0)), PURSE_DEVICE_SIZE, PURSE_FORCE_UNKNOWN, 0, 0);
    same("as lent", box.session.blocks + box.session.phase + box.broken, 0);
}

/* What an open tells of a damaged box: of its list, a record, a block, and of what a recovery leaves. */
static void damage(void)
{
    purse_box_lend(&box, image, LEN, work, sizeof work);
    same("format", purse_box_format(&box), PURSE_OK);
    memcpy(disk, image, LEN);
    image[33 * PURSE_BLOCK] = 0x7f;
    same_damage("block 7 is free", open_box(faults_at(1, 0)), PURSE_DAMAGED_BLOCK, 7, 0);
    image[34 * PURSE_BLOCK + 32 * 9 + 20] = 1;
    same_damage("record 9 is not empty", open_box(faults_at(1, 0)), PURSE_DAMAGED_RECORD, 9, 0);
    image[0] = 33;
    image[16] = 33;
    same_damage("a target twice", open_box(faults_at(1, 0)), PURSE_BAD_HEADER, 1, 0);

    /* a list of block 34 alone, whose image in the log is empty, then one of block 33, by whose image block 4,095 is free */
    reload();
    image[34 * PURSE_BLOCK + 32 * 9 + 20] = 1;
    image[33 * PURSE_BLOCK + 7] = 0x10;
    image[0] = 34;
    same_damage("a recovery that mends the record", open_box(faults_at(0, 0)), PURSE_DAMAGED_BLOCK, 60, 2);
    memcpy(image + PURSE_BLOCK, image + 33 * PURSE_BLOCK, PURSE_BLOCK);
    image[PURSE_BLOCK + 7] = 0;
    image[2 * PURSE_BLOCK - 1] = 0x7f;
    image[0] = 33;
    same_damage("a recovery that damages a block", open_box(faults_at(0, 0)), PURSE_DAMAGED_BLOCK, 4095, 2);
    memset(image + PURSE_BLOCK, 0, PURSE_BLOCK);
    image[PURSE_BLOCK + 8] = 1;
    image[0] = 35;
    same_damage("a recovery that damages a record", open_box(faults_at(0, 0)), PURSE_DAMAGED_RECORD, 16, 2);
}

/* A session that somebody else advanced in a commit is found out, and the box is broken. */
static int meddle(void *context, uint64_t block, const uint8_t *bytes)
{
    purse_store done;
    (void)context;
    memcpy(disk + block * PURSE_BLOCK, bytes, PURSE_BLOCK);
    same("advance", purse_advance(box.device, box.len, box.work, box.work_len, &box.session, &done), PURSE_OK);
    return 0;
}

static void meddled(void)
{
    uint64_t place = 0;
    make();
    same_outcome("meddled", purse_box_commit(&box, meddle, NULL), PURSE_BROKEN, PURSE_NOT_IN_FORCE, STORES, 2);
    is_broken();
    reload();
    must_open();
    holds(0);
    same_outcome("meddled load", purse_box_load(&box, (const uint8_t *)monday, strlen(monday), &place, meddle, NULL).outcome, PURSE_BROKEN,
        PURSE_NOT_IN_FORCE, LINE_STORES, 2);
    same("its place", place, 0);
    is_broken();
    reload();
    must_open();
    holds(0);
}

/* ---- Loads */

/* An empty box on the device, open. */
static void make_empty(void)
{
    purse_box_lend(&box, image, LEN, work, sizeof work);
    same("format", purse_box_format(&box), PURSE_OK);
    memcpy(disk, image, LEN);
    must_open();
}

/* The device holds the first n cards of the text, each whole, and no other file. */
static void holds_cards(uint64_t n)
{
    static const uint8_t names[LINES][8] = { { 4, 0x04, 0xa1, 0xb2, 0xc3 }, { 7, 0x04, 0xa1, 0xb2, 0xc3, 0xd4, 0xe5, 0xf6 },
        { 4, 0x80, 0xe9, 0x1f, 0x04 } };
    static const uint8_t amounts[LINES][8] = { { 0xe2, 0x04 }, { 5 }, { 0xff, 0xe0, 0xf5, 0x05 } };
    uint8_t bytes[9];
    uint64_t count;
    purse_file file;
    for (uint64_t k = 0; k < LINES; k++) {
        same("record", purse_box_record(&box, k, &file), PURSE_OK);
        same("card", file.used, k < n);
        same("amount", purse_box_read(&box, names[k], 0, bytes, sizeof bytes, &count), k < n ? PURSE_OK : PURSE_UNKNOWN);
        same("bytes", count, k < n ? 8 : 0);
        same("cents", k < n && memcmp(bytes, amounts[k], 8) != 0, 0);
    }
    same("no other", purse_box_record(&box, LINES, &file), PURSE_OK);
    same("used", file.used, 0);
    same("image and device", (uint64_t)(memcmp(image, disk, LEN) != 0), 0);
}

/* A store of a load fails: the lines before it are there, its own as the outcome tells, and the load goes on without a line lost or doubled. */
static void failed_load(uint64_t store, size_t made)
{
    uint64_t before = (store - 1) / LINE_STORES, number = (store - 1) % LINE_STORES + 1, place = 0;
    uint32_t force = number < LINE_LIST ? PURSE_NOT_IN_FORCE : number == LINE_LIST ? PURSE_FORCE_UNKNOWN : PURSE_IN_FORCE;
    uint64_t kept = before + (number > LINE_LIST || (number == LINE_LIST && made == PURSE_BLOCK));
    purse_load_outcome o;
    make_empty();
    o = load(faults_at(store, made), &place);
    same_outcome("load, store", o.outcome, PURSE_NOT_STORED, force, LINE_STORES, number);
    same("lines before", o.lines, before);
    same("line", o.line, before + 1);
    same("place", place, starts[before + (force == PURSE_IN_FORCE)]);
    same("behind", o.behind, starts[before + 1]);
    is_broken();
    reload();
    if (open_box(faults_at(0, 0)).force == PURSE_IN_FORCE && force == PURSE_FORCE_UNKNOWN)
        place = o.behind;
    holds_cards(kept);
    o = load(faults_at(0, 0), &place);
    same_outcome("going on", o.outcome, PURSE_OK, PURSE_IN_FORCE, 0, 0);
    same("lines", o.lines, LINES - kept);
    same("no line", o.line + o.behind, 0);
    holds_cards(LINES);
}

/* Loads without a failure: the order, refused lines, and what a load begins on. */
static void loads(void)
{
    static const uint64_t order[] = { 1, 2, 3, 0, 33, 34, 42, 0, 1, 2, 3, 0, 33, 34, 43, 0, 1, 2, 3, 0, 33, 34, 44, 0 };
    faults f = faults_at(0, 0);
    uint64_t place = 0, stores;
    purse_load_outcome o;
    make_empty();
    o = purse_box_load(&box, (const uint8_t *)monday, strlen(monday), &place, write_block, &f);
    same_outcome("load", o.outcome, PURSE_OK, PURSE_IN_FORCE, 0, 0);
    same("lines", o.lines * 1000 + place, LINES * 1000 + strlen(monday));
    same("order", f.stores * 10 + (memcmp(f.blocks, order, sizeof order) != 0), sizeof order / sizeof order[0] * 10);
    holds_cards(LINES);
    place = starts[1];
    o = load(faults_at(1, 0), &place);
    same_outcome("a card again", o.outcome, PURSE_TAKEN, PURSE_NOT_IN_FORCE, 0, 0);
    same("its line", o.line * 1000 + o.lines + place, 2000 + starts[1]);
    place = 0;
    o = load_text("0000000000;D;1\nx\n", faults_at(0, 0), &place);
    same_outcome("a bad line", o.outcome, PURSE_BAD_LINE, PURSE_NOT_IN_FORCE, 0, 0);
    same("its line", o.line * 1000 + o.lines + place, 2000 + 1 + 15);
    same("create", purse_box_create(&box, A), PURSE_OK);
    o = load(faults_at(1, 0), &place);
    same_outcome("load with something staged", o.outcome, PURSE_NOT_READY, PURSE_NOT_IN_FORCE, 0, 0);
    same("no line", o.line + o.lines, 0);
    same("not broken", box.broken, 0);
    same("commit by hand", purse_commit(image, LEN, work, sizeof work, &box.session, &stores), PURSE_OK);
    same_outcome("load in a commit", load(faults_at(1, 0), &place).outcome, PURSE_NOT_READY, PURSE_NOT_IN_FORCE, 0, 0);
    same("nothing of it is stored", box.session.place, 0);
    reload();
    same_outcome("load when never opened", load(faults_at(1, 0), &place).outcome, PURSE_DEVICE_SIZE, PURSE_NOT_IN_FORCE, 0, 0);
}

/* The sentence of an answer and a fault, in every room: cut off where it does not fit, and nothing behind its end is written. */
static void sentence(uint32_t answer, uint64_t fault)
{
    char want[200], text[200];
    int wrong = 0;
    const char *words = purse_refusal_text(answer);
    if (answer == 10 || answer == 22)
        snprintf(want, sizeof want, "%s, record %" PRIu64, words, fault);
    else if (answer == 23)
        snprintf(want, sizeof want, "%s, block %" PRIu64, words, fault);
    else
        snprintf(want, sizeof want, "%s", words);
    same("it is short enough", strlen(want) < PURSE_SENTENCE, 1);
    for (size_t room = 0; room <= PURSE_SENTENCE; room++) {
        size_t n = strlen(want) < room ? strlen(want) : room == 0 ? 0 : room - 1;
        memset(text, '#', sizeof text);
        wrong |= purse_refusal_sentence(answer, fault, text, room) != strlen(want);
        wrong |= memcmp(text, want, n) != 0 || (room != 0 && text[n] != 0);
        for (size_t k = n + (room != 0); k < sizeof text; k++)
            wrong |= text[k] != '#';
    }
    same("a sentence", (uint64_t)wrong, 0);
    same("no room", purse_refusal_sentence(answer, fault, NULL, 0), strlen(want));
}

/* Each answer has words of its own. */
static void texts(void)
{
    static const uint32_t answers[] = { 0, 1, 2, 3, 4, 10, 12, 13, 14, 15, 16, 17, 18, 19, 20, 21, 22, 23, 24, 25, PURSE_NOT_STORED,
        PURSE_BROKEN, 5 };
    for (size_t i = 0; i < sizeof answers / sizeof answers[0]; i++)
        for (size_t k = 0; k < i; k++)
            same("the same words", (uint64_t)(strcmp(purse_refusal_text(answers[i]), purse_refusal_text(answers[k])) == 0), 0);
    same("no answer", (uint64_t)strcmp(purse_refusal_text(5), purse_refusal_text(UINT32_MAX)), 0);
    same("11 is none", (uint64_t)strcmp(purse_refusal_text(11), purse_refusal_text(5)), 0);
    for (size_t i = 0; i < sizeof answers / sizeof answers[0]; i++) {
        sentence(answers[i], 0);
        sentence(answers[i], 127);
        sentence(answers[i], UINT64_MAX);
    }
}

/* Nothing wipes the bytes of a file that was removed: they are still on the device, in their block and in the log. */
static void removed_bytes_stay(void)
{
    uint8_t bytes[600];
    make();
    same("commit", commit(faults_at(0, 0)).answer, PURSE_OK);
    same("remove", purse_box_remove(&box, B), PURSE_OK);
    same("commit", commit(faults_at(0, 0)).answer, PURSE_OK);
    memset(bytes, 2, sizeof bytes);
    same("in its block", (uint64_t)(memcmp(disk + 44 * PURSE_BLOCK, bytes, PURSE_BLOCK) != 0), 0);
    same("in the log", (uint64_t)(memcmp(disk + 5 * PURSE_BLOCK, bytes, PURSE_BLOCK) != 0), 0);
}

int main(void)
{
    static const size_t made[] = { 0, PURSE_BLOCK, 1, 100, 300, 511 };
    without_failure();
    for (size_t i = 0; i < sizeof made / sizeof made[0]; i++) {
        int torn = made[i] % PURSE_BLOCK != 0;
        for (uint64_t store = 1; store <= STORES; store++)
            if (!torn || (store != LIST && store != STORES))
                failed_commit(store, made[i]);
        for (uint64_t first = 1; first <= K + !torn; first++)
            for (uint64_t second = 1; second <= K + !torn; second++)
                failed_recovery(first, second, made[i]);
        for (uint64_t store = 1; store <= LINES * LINE_STORES; store++)
            if (!torn || store % LINE_LIST != 0)
                failed_load(store, made[i]);
    }
    loads();
    damage();
    meddled();
    removed_bytes_stay();
    texts();
    printf("%u tests of the box, %u failed\n", tests, failures);
    return failures != 0;
}
