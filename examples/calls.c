/* Calls every function once or more, and compares with the worked examples of the paper (E1 to E13); opens damaged devices; loads lines of every
 * form, right and wrong; then with sessions that the store did not make, refused and accepted, all that is lent compared before and behind. Prints
 * the first 20 differences, then the result. */
#include <inttypes.h>
#include <stdio.h>
#include <string.h>

#include "purse.h"

static uint8_t device[128 * PURSE_BLOCK];
static uint8_t work[PURSE_WORK];
static size_t len;
static purse_session s = PURSE_NEVER_OPENED;
static unsigned tests, failures;

static const uint8_t A[8] = { 1, 2, 3, 4, 5, 6, 7, 8 };
static const uint8_t B[8] = { 8, 7, 6, 5, 4, 3, 2, 1 };

static void same(const char *what, uint64_t got, uint64_t want)
{
    tests++;
    if (got != want && failures++ < 20)
        printf("%s: %" PRIu64 ", not %" PRIu64 "\n", what, got, want);
}

#define LENT device, len, work, sizeof work

/* An empty store of so many blocks, opened. */
static void fresh(uint32_t blocks)
{
    uint64_t fault = 5;
    len = blocks * PURSE_BLOCK;
    memset(device, 0x5a, sizeof device);
    memset(work, 0x5a, sizeof work);
    same("format", purse_format(device, len, &s), 0);
    same("closed by format", s.phase, PURSE_CLOSED);
    same("blocks", s.blocks, blocks);
    same("open", purse_open(device, len, &s, &fault), 0);
    same("no fault", fault, 0);
    same("ready", s.phase, PURSE_READY);
}

static void create(const uint8_t *name) { same("create", purse_create(LENT, &s, name, 8), 0); }

static uint32_t set_size(const uint8_t *name, uint64_t size) { return purse_set_size(LENT, &s, name, 8, size); }

/* A commit that stores these blocks in this order. */
static void commit(const uint64_t *blocks, uint64_t n)
{
    uint64_t stores;
    same("commit", purse_commit(LENT, &s, &stores), 0);
    same("stores", stores, n);
    for (uint64_t k = 0; k < n; k++) {
        purse_store done;
        same("advance", purse_advance(LENT, &s, &done), 0);
        same("block stored", done.block, blocks[k]);
        same("last", done.last, k + 1 == n);
        same("number", done.number, k + 1);
    }
    same("ready after commit", s.phase, PURSE_READY);
}

/* The number of free blocks. */
static uint64_t free_blocks(void)
{
    uint64_t n;
    same("free count", purse_free_count(LENT, &s, &n), 0);
    return n;
}

/* E1 to E5 and E9: one file of 600 bytes, committed, read, cut to 100. */
static void one_file(void)
{
    static const uint64_t stores[] = { 1, 2, 3, 4, 0, 33, 34, 42, 43, 0 };
    static const uint32_t staged[] = { 33, 34, 42 };
    static uint8_t bytes[600], all[700];
    uint8_t buffer[20];
    uint64_t n;
    purse_file f;
    purse_extent e;
    purse_store done;
    purse_extent list[3] = { { 7, 7 }, { 7, 7 }, { 7, 7 } };

    fresh(64);
    same("bitmap", device[33 * PURSE_BLOCK + 5], 3);
    same("E1 free", free_blocks(), 22);
    create(A);
    for (size_t k = 0; k < sizeof bytes; k++)
        bytes[k] = (uint8_t)(k * 7 + 1);
    same("write", purse_write(LENT, &s, A, 8, 0, bytes, sizeof bytes), 0);
    commit(stores, 10);
    same("E3 bytes after the end", device[43 * PURSE_BLOCK + 88], 0);
    same("nothing under way", purse_advance(LENT, &s, &done), 0);
    same("idle", done.block + done.last + done.number, 0);

    same("size", purse_size(LENT, &s, A, 8, &n), 0);
    same("E5 size", n, 600);
    memset(buffer, 9, sizeof buffer);
    same("read", purse_read(LENT, &s, A, 8, 590, buffer, sizeof buffer, &n), 0);
    same("E5 bytes", n, 10);
    same("first byte", buffer[0], bytes[590]);
    same("last byte", buffer[9], bytes[599]);
    same("untouched", buffer[10], 9);
    same("read at the end", purse_read(LENT, &s, A, 8, 600, buffer, sizeof buffer, &n), 0);
    same("none", n, 0);
    same("read all", purse_read(LENT, &s, A, 8, 0, all, sizeof all, &n), 0);
    same("all", n, 600);
    same("the bytes written", (uint64_t)memcmp(all, bytes, 600), 0);

    same("record 0", purse_record(LENT, &s, 0, &f), 0);
    same("used", f.used, 1);
    same("size of record 0", f.size, 600);
    same("name of record 0", (uint64_t)memcmp(f.name, A, 8), 0);
    same("record 1", purse_record(LENT, &s, 1, &f), 0);
    same("empty", f.used + f.size + f.name[0], 0);
    same("record 128", purse_record(LENT, &s, 128, &f), 0);
    same("empty past 127", f.used, 0);

    same("extent 0", purse_nth_extent(LENT, &s, A, 8, 0, 9, 0, &e), 0);
    same("E3 first", e.first, 42);
    same("E3 count", e.count, 2);
    same("extent 1", purse_nth_extent(LENT, &s, A, 8, 0, 9, 1, &e), 0);
    same("no extent", e.first + e.count, 0);
    same("run list", purse_run_list(LENT, &s, A, 8, 0, 9, list, 3, &n), 0);
    same("runs", n, 1);
    same("run", list[0].first * 100 + list[0].count, 4202);
    same("places behind", list[1].first + list[1].count + list[2].first + list[2].count, 28);
    same("short list", purse_run_list(LENT, &s, A, 8, 0, 9, list, 0, &n), PURSE_LIST_SHORT);
    same("count of a refusal", n, 0);

    same("E9", set_size(A, 100), 0);
    same("E9 staged", s.count, 3);
    for (int k = 0; k < 3; k++)
        same("E9 staged block", s.staged[k], staged[k]);
    same("E9 free", free_blocks(), 21);
    same("abort", purse_abort(LENT, &s), 0);
    same("free after abort", free_blocks(), 20);
    same("nothing staged", s.count, 0);
}

/* E4: the commit of E3 cut after its fifth store. */
static void cut(void)
{
    static const uint64_t stores[] = { 33, 34, 42, 43, 0 };
    static uint8_t bytes[600];
    uint64_t n, fault;
    purse_store done;

    fresh(64);
    create(A);
    same("write", purse_write(LENT, &s, A, 8, 0, bytes, sizeof bytes), 0);
    same("commit", purse_commit(LENT, &s, &n), 0);
    for (int k = 0; k < 5; k++)
        same("advance", purse_advance(LENT, &s, &done), 0);
    same("place", s.place, 5);
    same("refused while committing", purse_create(LENT, &s, B, 8), PURSE_NOT_READY);
    same("as before", s.place + s.count, 9);

    memset(&s, 0, sizeof s);
    memset(work, 0xee, sizeof work);
    same("open after the cut", purse_open(device, len, &s, &fault), 0);
    same("recovering", s.phase, PURSE_RECOVERING);
    for (int k = 0; k < 5; k++) {
        same("advance", purse_advance(LENT, &s, &done), 0);
        same("E4 block", done.block, stores[k]);
        same("E4 last", done.last, k == 4);
    }
    same("closed", s.phase, PURSE_CLOSED);
    same("open again", purse_open(device, len, &s, &fault), 0);
    same("size", purse_size(LENT, &s, A, 8, &n), 0);
    same("E4 size", n, 600);
}

/* E7 and E8: as large as a device and a transaction take. */
static void limits(void)
{
    fresh(64);
    create(A);
    same("E7 refused", set_size(A, 11265), PURSE_NO_SPACE);
    same("E7", set_size(A, 11264), 0);
    fresh(128);
    create(A);
    same("E8 refused", set_size(A, 15361), PURSE_TOO_MANY_STAGED);
    same("E8", set_size(A, 15360), 0);
    same("E8 staged", s.count, 32);
    same("E12", set_size(A, 1048577), PURSE_TOO_LARGE);
}

/* E11: two files grown in turn lie in many pieces. */
static void pieces(void)
{
    uint64_t n;
    purse_extent e;
    purse_extent list[5];

    fresh(64);
    create(A);
    create(B);
    for (uint64_t k = 1; k <= 5; k++) {
        same("grow A", set_size(A, k * PURSE_BLOCK), 0);
        same("grow B", k < 5 ? set_size(B, k * PURSE_BLOCK) : 0, 0);
    }
    same("fifth piece", purse_nth_extent(LENT, &s, A, 8, 0, 5, 4, &e), 0);
    same("E11 fifth block", e.first, 50);
    same("free", free_blocks(), 22 - 10);
    same("run list", purse_run_list(LENT, &s, A, 8, 0, 5, list, 5, &n), 0);
    same("five pieces", n, 5);
    for (uint32_t k = 0; k < 5; k++) {
        same("first of a piece", list[k].first, 42 + 2 * k);
        same("count of a piece", list[k].count, 1);
    }
    same("run list too long", purse_run_list(LENT, &s, A, 8, 0, 5, list, 4, &n), PURSE_LIST_SHORT);
    same("middle", purse_run_list(LENT, &s, A, 8, 1, 2, list, 2, &n), 0);
    same("two pieces", n * 10000 + list[0].first * 100 + list[1].first, 24446);
    same("E11 cut", set_size(A, 2048), 0);
    same("E11 free", free_blocks(), 22 - 8);
}

/* Refusals, each of them with nothing changed; remove and rename. */
static void refusals(void)
{
    uint64_t n = 5, fault = 5;
    uint8_t buffer[1] = { 9 };
    purse_session before;

    fresh(64);
    before = s;
    same("unknown", purse_size(LENT, &s, A, 8, &n), PURSE_UNKNOWN);
    same("count 0", n, 0);
    n = 5;
    same("unknown", purse_read(LENT, &s, A, 8, 0, buffer, 1, &n), PURSE_UNKNOWN);
    same("count 0", n + buffer[0], 9);
    same("name too short", purse_create(LENT, &s, A, 7), PURSE_BAD_NAME);
    same("work space", purse_create(device, len, work, sizeof work - 1, &s, A, 8), PURSE_WORK_SIZE);
    same("device", purse_create(device, len - 1, work, sizeof work, &s, A, 8), PURSE_DEVICE_SIZE);
    same("device of open", purse_open(device, 100, &s, &fault), PURSE_DEVICE_SIZE);
    same("no fault", fault, 0);
    same("session as before", (uint64_t)memcmp(&s, &before, sizeof s), 0);

    create(A);
    same("taken", purse_create(LENT, &s, A, 8), PURSE_TAKEN);
    same("E13", purse_rename(LENT, &s, A, 8, A, 8), PURSE_TAKEN);
    same("rename", purse_rename(LENT, &s, A, 8, B, 8), 0);
    same("old name", purse_size(LENT, &s, A, 8, &n), PURSE_UNKNOWN);
    same("remove", purse_remove(LENT, &s, B, 8), 0);
    same("removed", purse_size(LENT, &s, B, 8, &n), PURSE_UNKNOWN);

    /* E10 */
    device[0] = 33;
    device[16] = 33;
    same("E10", purse_open(device, len, &s, &fault), PURSE_BAD_HEADER);
    same("E10 record", fault, 1);
    device[0] = 32;
    same("E10 below 33", purse_open(device, len, &s, &fault), PURSE_BAD_HEADER);
    same("E10 record", fault, 0);
}

/* ---- Damage: each a device with some bytes of a sound one changed, and what open tells of it */

typedef struct {
    uint32_t at; /* 0: no more */
    uint8_t value;
} changed;

typedef struct {
    const char *what;
    uint32_t refusal;
    uint64_t fault;
    changed bytes[20];
} damaged;

#define BITS (33u * PURSE_BLOCK)
#define RECORD(i) (34u * PURSE_BLOCK + 32u * (i))
#define NODE (54u * PURSE_BLOCK) /* the extent block of record 5 */
#define NAMED_A(i) { RECORD(i), 1 }, { RECORD(i) + 1, 2 }, { RECORD(i) + 2, 3 }, { RECORD(i) + 3, 4 }, { RECORD(i) + 4, 5 }, \
    { RECORD(i) + 5, 6 }, { RECORD(i) + 6, 7 }, { RECORD(i) + 7, 8 }

/* Record 2, named A, has 600 bytes in 42 and 43; record 5 blocks 44, 46, 48, 50 and 52 and the extent block 54; record 9 is empty. Bits 40 to 47
 * are then 5F, 48 to 55 are 55, 56 to 63 are 0. */
static const changed sound_bytes[] = {
    NAMED_A(2), { RECORD(2) + 8, 88 }, { RECORD(2) + 9, 2 }, { RECORD(2) + 16, 42 }, { RECORD(2) + 18, 2 },
    { RECORD(5), 0x42 }, { RECORD(5) + 1, 0x42 }, { RECORD(5) + 2, 0x42 }, { RECORD(5) + 3, 0x42 }, { RECORD(5) + 4, 0x42 },
    { RECORD(5) + 5, 0x42 }, { RECORD(5) + 6, 0x42 }, { RECORD(5) + 7, 0x42 }, { RECORD(5) + 9, 10 }, { RECORD(5) + 12, 1 },
    { RECORD(5) + 16, 54 }, { RECORD(5) + 18, 5 }, { NODE, 44 }, { NODE + 2, 1 }, { NODE + 4, 46 }, { NODE + 6, 1 }, { NODE + 8, 48 },
    { NODE + 10, 1 }, { NODE + 12, 50 }, { NODE + 14, 1 }, { NODE + 16, 52 }, { NODE + 18, 1 },
    { RECORD(9), 0x43 }, { RECORD(9) + 1, 0x43 }, { RECORD(9) + 2, 0x43 }, { RECORD(9) + 3, 0x43 }, { RECORD(9) + 4, 0x43 },
    { RECORD(9) + 5, 0x43 }, { RECORD(9) + 6, 0x43 }, { RECORD(9) + 7, 0x43 },
    { BITS + 5, 0x5f }, { BITS + 6, 0x55 }, { 42 * PURSE_BLOCK, 7 }, { 43 * PURSE_BLOCK, 7 }, { 43 * PURSE_BLOCK + 87, 7 },
};

static const damaged damages[] = {
    { "a sound device", 0, 0, { { 0, 0 } } },
    { "one name twice", 22, 5, { NAMED_A(5) } },
    { "one name three times", 22, 5, { NAMED_A(5), NAMED_A(9) } },
    { "one name twice, and a byte of an empty record", 22, 3, { NAMED_A(5), { RECORD(3) + 20, 1 } } },
    { "a byte of the last record", 22, 127, { { RECORD(127) + 31, 1 } } },
    { "an extent from block 41 on", 22, 2, { { RECORD(2) + 16, 41 } } },
    { "an extent past the end", 22, 5, { { NODE + 16, 64 } } },
    { "extents that touch", 22, 2, { { RECORD(2) + 18, 1 }, { RECORD(2) + 20, 43 }, { RECORD(2) + 22, 1 } } },
    { "a byte behind the size, and a bit", 22, 2, { { 43 * PURSE_BLOCK + 88, 1 }, { BITS, 0xfe } } },
    { "a block twice in a record", 23, 42, { { RECORD(2) + 16, 43 }, { RECORD(2) + 18, 1 }, { RECORD(2) + 20, 43 }, { RECORD(2) + 22, 1 } } },
    { "the same, and the other free", 23, 43,
        { { RECORD(2) + 16, 43 }, { RECORD(2) + 18, 1 }, { RECORD(2) + 20, 43 }, { RECORD(2) + 22, 1 }, { BITS + 5, 0x5b } } },
    { "the same, and bit 5", 23, 5,
        { { RECORD(2) + 16, 43 }, { RECORD(2) + 18, 1 }, { RECORD(2) + 20, 43 }, { RECORD(2) + 22, 1 }, { BITS + 5, 0x5b }, { BITS, 0xdf } } },
    { "an extent block that is data too", 23, 44, { { NODE, 54 } } },
    { "the same, and the block it had free", 23, 54, { { NODE, 54 }, { BITS + 5, 0x4f } } },
    { "a block of two records", 23, 43, { { NODE, 43 }, { BITS + 5, 0x4f } } },
    { "a block in use that no file has", 23, 60, { { BITS + 7, 0x10 } } },
    { "a block of a file that is free", 23, 43, { { BITS + 5, 0x57 } } },
    { "the last bit", 23, 4095, { { BITS + 511, 0x7f } } },
    { "bit 41", 23, 41, { { BITS + 5, 0x5d } } },
    { "bit 100", 23, 100, { { BITS + 12, 0xef } } },
};

static void put(const changed *bytes, size_t n)
{
    for (size_t k = 0; k < n && bytes[k].at != 0; k++)
        device[bytes[k].at] = bytes[k].value;
}

/* An open that is refused, or not, with its fault; refused it leaves device and session. */
static void opens_as(const char *what, uint32_t refusal, uint64_t fault)
{
    static uint8_t kept[sizeof device];
    char text[100];
    uint64_t told = 5;
    purse_session then = s;
    memcpy(kept, device, sizeof kept);
    same(what, purse_open(device, len, &s, &told), refusal);
    snprintf(text, sizeof text, "%s, fault", what);
    same(text, told, fault);
    same("device as before", (uint64_t)(memcmp(device, kept, sizeof kept) != 0), 0);
    if (refusal != 0)
        same("session as before", (uint64_t)(memcmp(&s, &then, sizeof s) != 0), 0);
    else
        same("session", s.blocks * 10 + s.phase, 64 * 10 + (uint64_t)(device[0] == 0 ? PURSE_READY : PURSE_RECOVERING));
}

/* The device as it is, then with a log of one block, 63: it opens recovering, and behind the recovery it is as without the log. */
static void opens_with_and_without_log(const char *what, uint32_t refusal, uint64_t fault)
{
    purse_store done;
    opens_as(what, refusal, fault);
    device[0] = 63;
    opens_as("with a log", 0, 0);
    for (uint64_t k = 0; k < 2; k++) {
        same("recovery", purse_advance(LENT, &s, &done), 0);
        same("its store", done.block * 10 + done.last, k == 0 ? 630 : 1);
    }
    opens_as(what, refusal, fault);
}

static void damage(void)
{
    for (size_t k = 0; k < sizeof damages / sizeof damages[0]; k++) {
        const damaged *d = &damages[k];
        fresh(64);
        put(sound_bytes, sizeof sound_bytes / sizeof sound_bytes[0]);
        put(d->bytes, sizeof d->bytes / sizeof d->bytes[0]);
        opens_with_and_without_log(d->what, d->refusal, d->fault);
    }
    fresh(64);
    memset(device, 0, len);
    opens_with_and_without_log("zeros", PURSE_DAMAGED_BLOCK, 0);
}

/* ---- Loading */

typedef struct {
    const char *line;
    uint8_t name[8];
    uint64_t cents;
} card;

static const card cards[] = {
    { "04A1B2C3;H;1250\n", { 4, 0x04, 0xa1, 0xb2, 0xc3 }, 1250 },
    { "3283263748;D;1250\n", { 4, 0x04, 0xa1, 0xb2, 0xc3 }, 1250 },
    { "04A1B2C3D4E5F6;H;0\n", { 7, 0x04, 0xa1, 0xb2, 0xc3, 0xd4, 0xe5, 0xf6 }, 0 },
    { "69495546249912580;D;0\n", { 7, 0x04, 0xa1, 0xb2, 0xc3, 0xd4, 0xe5, 0xf6 }, 0 },
    { "00000000;H;99999999\n", { 4 }, 99999999 },
    { "0000000000;D;1\n", { 4 }, 1 },
    { "4294967295;D;7\n", { 4, 0xff, 0xff, 0xff, 0xff }, 7 },
    { "72057594037927935;D;10000000\n", { 7, 0xff, 0xff, 0xff, 0xff, 0xff, 0xff, 0xff }, 10000000 },
};

/* Lines that are refused with 21, each with its feed behind it. */
static const char *const bad_lines[] = { "", ";H;", "04A1B2C3;H", "04A1B2C3;H;", "04A1B2C3;H;1;", ";04A1B2C3;H;1", "04a1b2c3;H;1", "04A1B2C;H;1",
    "04A1B2C3D;H;1", "04A1B2C3;h;1", "04A1B2C3;X;1", "04A1B2C3;;1", "04A1B2C3;H;01", "04A1B2C3;H;00", "04A1B2C3;H;123456789", "04A1B2C3;H;-1",
    "04A1B2C3;H;1 ", " 04A1B2C3;H;1", "04A1B2C3;H;1\r", "04A1B2C3,H,1", "4294967296;D;1", "9999999999;D;1", "328326374;D;1", "03283263748;D;1",
    "72057594037927936;D;1", "3283263748;H;1", "04A1B2C3;D;1", "04A1B2C3;H;1.5", "G4A1B2C3;H;1", "04A1B2C3D4E5F6A7B8C9;H;1", "04A1B2C3;H;+1",
    "04A1B2C3;H;\xB2", "99999999999999999;D;1", "04A1B2C3;HH;1", "04A1B2C3;H;1;2", ";;", "#", "serial;letter;amount" };

static uint64_t place;
static purse_load_answer step;

static uint32_t load_step(const void *text, size_t n) { return purse_load_step(LENT, &s, (const uint8_t *)text, n, &place, &step); }

static uint32_t load_begin(void) { return purse_load_begin(LENT, &s); }

/* The step that takes up the line at the place, and those that store it: in blocks 33, its record's and its own. */
static void load_line(const char *text, uint64_t record, uint64_t block)
{
    const uint64_t order[] = { 1, 2, 3, 0, 33, record, block, 0 };
    uint64_t next = place + (uint64_t)(strchr(text + place, '\n') + 1 - (text + place));
    same("load begins", load_begin(), 0);
    same("line", load_step(text, strlen(text)), 0);
    same("taken up", step.kind, PURSE_LOAD_TAKEN);
    same("stores of a line", step.stores, 8);
    same("nothing stored yet", step.line + step.store.block + step.store.last + step.store.number, 0);
    for (uint64_t k = 0; k < 8; k++) {
        same("place behind the line", place, next);
        same("load begins in a commit", load_begin(), PURSE_NOT_READY);
        same("step", load_step(text, strlen(text)), 0);
        same("stored", step.kind, PURSE_LOAD_STORED);
        same("block of a line", step.store.block, order[k]);
        same("last of a line", step.store.last, k == 7);
        same("number in a line", step.store.number, k + 1);
        same("neither line nor stores", step.line + step.stores, 0);
    }
    same("ready behind a line", s.phase * 100 + s.count, 100);
}

/* The file of a card holds its amount in 8 bytes. */
static void holds(const card *c)
{
    uint8_t bytes[9];
    uint64_t n, cents = 0;
    same("read of a card", purse_read(LENT, &s, c->name, 8, 0, bytes, sizeof bytes, &n), 0);
    same("bytes of a card", n, 8);
    for (int k = 0; k < 8; k++)
        cents |= (uint64_t)bytes[k] << (8 * k);
    same("amount", cents, c->cents);
}

/* A step that is refused, naming a line: everything is as before it, and so is the next one. */
static void refused_step(const char *what, const void *text, size_t n, uint32_t refusal, uint64_t line)
{
    static uint8_t device_before[sizeof device], work_before[sizeof work];
    const purse_session session_before = s;
    const uint64_t place_before = place;
    memcpy(device_before, device, sizeof device);
    memcpy(work_before, work, sizeof work);
    for (int k = 0; k < 2; k++) {
        memset(&step, 0x77, sizeof step);
        same(what, load_step(text, n), refusal);
        same("refused line", step.line, line);
        same("answer of a refused step", step.kind + step.stores + step.store.block + step.store.last + step.store.number, 0);
        same("place of a refused step", place, place_before);
        same("device of a refused step", (uint64_t)(memcmp(device, device_before, sizeof device) != 0), 0);
        same("work space of a refused step", (uint64_t)(memcmp(work, work_before, sizeof work) != 0), 0);
        same("session of a refused step", (uint64_t)(memcmp(&s, &session_before, sizeof s) != 0), 0);
    }
}

static void none_left(const void *text, size_t n)
{
    uint64_t was = place;
    same("no line", load_step(text, n), 0);
    same("none left", step.kind, PURSE_LOAD_NONE);
    same("answer of none", step.line + step.stores + step.store.block + step.store.last + step.store.number, 0);
    same("place of none", place, was);
}

/* Lines of the form: each makes its file. */
static void good_lines(void)
{
    for (size_t i = 0; i < sizeof cards / sizeof cards[0]; i++) {
        fresh(64);
        place = 0;
        load_line(cards[i].line, 34, 42);
        none_left(cards[i].line, strlen(cards[i].line));
        holds(&cards[i]);
        same("free behind a card", free_blocks(), 21);
        place = 0;
        refused_step("the card again", cards[i].line, strlen(cards[i].line), PURSE_TAKEN, 1);
    }
}

/* Lines that are not, alone and behind others; too long ones; and the ends of a text. */
static void wrong_lines(void)
{
    char text[200];
    fresh(64);
    for (size_t i = 0; i < sizeof bad_lines / sizeof bad_lines[0]; i++) {
        place = 0;
        snprintf(text, sizeof text, "%s\n", bad_lines[i]);
        refused_step(bad_lines[i], text, strlen(text), PURSE_BAD_LINE, 1);
        snprintf(text, sizeof text, "\n\nwords\n%s\n04A1B2C3;H;1\n", bad_lines[i]);
        place = 8;
        refused_step(bad_lines[i], text, strlen(text), PURSE_BAD_LINE, 4);
    }
    memset(text, '0', sizeof text);
    text[64] = '\n';
    place = 0;
    refused_step("64 bytes and a feed", text, 65, PURSE_BAD_LINE, 1);
    refused_step("64 bytes and no feed", text, 64, PURSE_BAD_LINE, 1);
    text[64] = '0';
    text[65] = '\n';
    refused_step("65 bytes and a feed", text, 66, PURSE_LINE_TOO_LONG, 1);
    refused_step("65 bytes and no feed", text, 65, PURSE_LINE_TOO_LONG, 1);
    text[65] = '0';
    refused_step("200 bytes", text, sizeof text, PURSE_LINE_TOO_LONG, 1);
    refused_step("no feed", "04A1B2C3;H;1", 12, PURSE_BAD_LINE, 1);
    place = 13;
    refused_step("no feed in line 2", "04A1B2C3;H;1\n04A1B2C4;H;1", 25, PURSE_BAD_LINE, 2);
    place = 0;
    none_left("", 0);
    none_left(NULL, 0);
    place = 13;
    none_left("04A1B2C3;H;1\n", 13);
    place = UINT64_MAX;
    none_left("04A1B2C3;H;1\n", 13);
}

/* Three lines, the third the first card again; a place that no step gave. */
static void three_lines(void)
{
    static const char text[] = "04A1B2C3;H;1250\n69495546249912580;D;5\n3283263748;D;9\n";
    static const card second = { NULL, { 7, 0x04, 0xa1, 0xb2, 0xc3, 0xd4, 0xe5, 0xf6 }, 5 };
    static const card odd = { NULL, { 7, 0xff, 0xff, 0xff, 0xff, 0xff, 0xff, 0xff }, 3 };
    fresh(64);
    place = 0;
    load_line(text, 34, 42);
    load_line(text, 34, 43);
    refused_step("a card again", text, strlen(text), PURSE_TAKEN, 3);
    holds(&cards[0]);
    holds(&second);
    place = 5;
    load_line("04A1;72057594037927935;D;3\n", 34, 44);
    holds(&odd);
}

/* 12 comes before every line, and where none is left: staged, closed, recovering. */
static void not_idle(void)
{
    uint64_t n;
    purse_store done;
    const char *text = cards[0].line;
    fresh(64);
    place = 0;
    create(A);
    same("begin with something staged", load_begin(), PURSE_NOT_READY);
    refused_step("step with something staged", text, strlen(text), PURSE_NOT_READY, 0);
    refused_step("a bad line with something staged", "x\n", 2, PURSE_NOT_READY, 0);
    refused_step("no line with something staged", "", 0, PURSE_NOT_READY, 0);
    same("commit", purse_commit(LENT, &s, &n), 0);
    for (int k = 0; k < 2; k++) /* a commit that no load began */
        same("step in a commit", load_step("x\n", 2) + step.kind, PURSE_LOAD_STORED);
    memset(&s, 0, sizeof s);
    same("open", purse_open(device, len, &s, &n), 0);
    same("begin in a recovery", load_begin(), PURSE_NOT_READY);
    refused_step("step in a recovery", text, strlen(text), PURSE_NOT_READY, 0);
    refused_step("no line in a recovery", "", 0, PURSE_NOT_READY, 0);
    for (int k = 0; k < 2; k++)
        same("advance", purse_advance(LENT, &s, &done), 0);
    same("begin when closed", load_begin(), PURSE_NOT_READY);
    refused_step("step when closed", text, strlen(text), PURSE_NOT_READY, 0);
    refused_step("no line when closed", "", 0, PURSE_NOT_READY, 0);
}

/* A box that is full: of blocks, and of records. */
static void full(void)
{
    char text[64 * 16];
    uint8_t name[8] = { 1 };
    uint64_t stores;
    purse_store done;
    fresh(64);
    place = 0;
    for (int k = 0; k < 23; k++)
        snprintf(text + 13 * k, sizeof text - 13 * (size_t)k, "%08X;H;1\n", (unsigned)k + 256);
    for (uint64_t k = 0; k < 22; k++)
        load_line(text, 34 + k / 16, 42 + k);
    refused_step("no block", text, strlen(text), PURSE_NO_SPACE, 23);
    fresh(128);
    for (name[1] = 0; name[1] < 128; name[1]++)
        create(name);
    same("commit", purse_commit(LENT, &s, &stores), 0);
    while (stores-- > 0)
        same("advance", purse_advance(LENT, &s, &done), 0);
    place = 0;
    refused_step("no record", text, strlen(text), PURSE_NO_RECORD, 1);
}

/* ---- Sessions that the store did not make: each call, refused and accepted */

/* All that the calls below are lent. */
typedef struct {
    purse_session s;
    uint8_t device[64 * PURSE_BLOCK];
    uint8_t work[PURSE_WORK];
    uint8_t name[8], new_name[8], record[8], buffer[20], bytes[20];
    uint32_t list[6];
    size_t len, work_len;
} lent;

static lent base, at, before;
static purse_advanced stored; /* the answer of the last advance */
static uint64_t answered;     /* the count, stores, size or fault of the last answer */

#define DEVICE at.device, at.len
#define WORK at.work, at.work_len
#define NUMBERS purse_numbers_in(&at.s)
#define NAME at.name, sizeof at.name

static uint32_t with_count(purse_counted r)
{
    answered = r.count;
    return r.refusal;
}

static uint32_t do_format(void) { return purse_format_v(DEVICE, NUMBERS, at.s.staged).refusal; }

static uint32_t do_open(void)
{
    purse_finished r = purse_open_v(DEVICE, NUMBERS, at.s.staged);
    answered = r.fault;
    return r.refusal;
}

static uint32_t do_advance(void)
{
    stored = purse_advance_v(DEVICE, WORK, NUMBERS, at.s.staged);
    return stored.refusal;
}

static uint32_t do_commit(void)
{
    purse_committed r = purse_commit_v(DEVICE, WORK, NUMBERS, at.s.staged);
    answered = r.stores;
    return r.refusal;
}

static uint32_t do_abort(void) { return purse_abort_v(DEVICE, WORK, NUMBERS, at.s.staged).refusal; }

static uint32_t do_create(void) { return purse_create_v(DEVICE, WORK, NUMBERS, at.s.staged, NAME).refusal; }

static uint32_t do_remove(void) { return purse_remove_v(DEVICE, WORK, NUMBERS, at.s.staged, NAME).refusal; }

static uint32_t do_rename(void) { return purse_rename_v(DEVICE, WORK, NUMBERS, at.s.staged, NAME, at.new_name, 8).refusal; }

static uint32_t do_write(void) { return purse_write_v(DEVICE, WORK, NUMBERS, at.s.staged, NAME, 590, at.bytes, sizeof at.bytes).refusal; }

static uint32_t do_write_far(void) { return purse_write_v(DEVICE, WORK, NUMBERS, at.s.staged, NAME, 1048570, at.bytes, sizeof at.bytes).refusal; }

static uint32_t do_set_size(void) { return purse_set_size_v(DEVICE, WORK, NUMBERS, at.s.staged, NAME, 100).refusal; }

static uint32_t do_set_large(void) { return purse_set_size_v(DEVICE, WORK, NUMBERS, at.s.staged, NAME, 20000).refusal; }

static uint32_t do_read(void) { return with_count(purse_read_v(DEVICE, WORK, NUMBERS, NAME, at.s.staged, 590, at.buffer, sizeof at.buffer)); }

static uint32_t do_size(void) { return with_count(purse_size_v(DEVICE, WORK, NUMBERS, NAME, at.s.staged)); }

static uint32_t do_free_count(void) { return with_count(purse_free_count_v(DEVICE, WORK, NUMBERS, at.s.staged)); }

static uint32_t record(uint64_t i)
{
    purse_recorded r = purse_record_v(DEVICE, WORK, NUMBERS, i, at.s.staged, at.record);
    answered = r.used * 10000 + r.size;
    return r.refusal;
}

static uint32_t do_record(void) { return record(0); }

static uint32_t do_empty_record(void) { return record(5); }

static uint32_t do_far_record(void) { return record(UINT64_MAX); }

static uint32_t do_nth_extent(void)
{
    purse_run r = purse_nth_extent_v(DEVICE, WORK, NUMBERS, NAME, at.s.staged, 0, 9, 0);
    answered = r.first * 10 + r.count;
    return r.refusal;
}

static uint32_t do_run_list(void) { return with_count(purse_run_list_v(DEVICE, WORK, NUMBERS, NAME, at.s.staged, 0, 9, at.list, 6)); }

static uint32_t do_load_begin(void) { return purse_load_begin_v(DEVICE, WORK, NUMBERS, at.s.staged).refusal; }

static uint32_t load_at(const char *text, uint64_t from)
{
    purse_loaded r = purse_load_step_v(DEVICE, WORK, NUMBERS, at.s.staged, (const uint8_t *)text, strlen(text), from);
    const purse_advanced advanced = { r.refusal, r.block, r.last, r.number };
    stored = advanced;
    answered = r.line * 100 + r.kind * 10 + r.stores + (r.kind == PURSE_LOAD_TAKEN ? 0 : r.next - from);
    return r.refusal;
}

static uint32_t do_load(void) { return load_at("04A1B2C3;H;1250\n", 0); }

static uint32_t do_load_bad(void) { return load_at("\n04A1B2C3;H;1250", 1); }

static uint32_t do_load_long(void) { return load_at("04A1B2C3;H;1250 04A1B2C3;H;1250 04A1B2C3;H;1250 04A1B2C3;H;1250 04", 0); }

static uint32_t do_load_none(void) { return load_at("04A1B2C3;H;1250\n", UINT64_MAX); }

static uint32_t do_short_list(void) { return with_count(purse_run_list_v(DEVICE, WORK, NUMBERS, NAME, at.s.staged, 0, 9, at.list, 1)); }

/* A call on the base: file A of 600 bytes, and file C made in this transaction. */
typedef struct {
    const char *what;
    uint32_t (*call)(void);
    const uint8_t *name, *new_name; /* NULL: it has none */
    uint32_t refusal;               /* where the session is ready */
    uint64_t count;                 /* staged behind it, where it is accepted and may change the session */
    uint64_t answer;                /* the number answered */
    int any_phase, no_work, reads;
} odd_call;

static const uint8_t C[8] = { 9, 9, 9, 9, 9, 9, 9, 9 };
static const uint8_t zero[8];

static const odd_call odd_calls[] = {
    { "format", do_format, NULL, NULL, 0, 0, 0, 1, 1, 0 },
    { "open", do_open, NULL, NULL, 0, 0, 0, 1, 1, 0 },
    { "advance", do_advance, NULL, NULL, 0, 1, 0, 1, 0, 0 },
    { "commit", do_commit, NULL, NULL, 0, 1, 4, 0, 0, 0 },
    { "abort", do_abort, NULL, NULL, 0, 0, 0, 0, 0, 0 },
    { "create", do_create, B, NULL, 0, 1, 0, 0, 0, 0 },
    { "create taken", do_create, A, NULL, 14, 0, 0, 0, 0, 0 },
    { "remove", do_remove, A, NULL, 0, 2, 0, 0, 0, 0 },
    { "remove unknown", do_remove, B, NULL, 13, 0, 0, 0, 0, 0 },
    { "rename", do_rename, A, B, 0, 1, 0, 0, 0, 0 },
    { "rename unknown", do_rename, B, C, 13, 0, 0, 0, 0, 0 },
    { "rename taken", do_rename, A, C, 14, 0, 0, 0, 0, 0 },
    { "rename to zero", do_rename, A, zero, 3, 0, 0, 0, 0, 0 },
    { "write", do_write, A, NULL, 0, 2, 0, 0, 0, 0 },
    { "write unknown", do_write, B, NULL, 13, 0, 0, 0, 0, 0 },
    { "write too far", do_write_far, A, NULL, 4, 0, 0, 0, 0, 0 },
    { "set size", do_set_size, A, NULL, 0, 3, 0, 0, 0, 0 },
    { "set size unknown", do_set_size, B, NULL, 13, 0, 0, 0, 0, 0 },
    { "set size too large", do_set_large, A, NULL, 16, 0, 0, 0, 0, 0 },
    { "read", do_read, A, NULL, 0, 0, 10, 0, 0, 1 },
    { "read unknown", do_read, B, NULL, 13, 0, 0, 0, 0, 1 },
    { "size", do_size, A, NULL, 0, 0, 600, 0, 0, 1 },
    { "size unknown", do_size, B, NULL, 13, 0, 0, 0, 0, 1 },
    { "free count", do_free_count, NULL, NULL, 0, 0, 20, 0, 0, 1 },
    { "record", do_record, NULL, NULL, 0, 0, 10600, 0, 0, 1 },
    { "empty record", do_empty_record, NULL, NULL, 0, 0, 0, 0, 0, 1 },
    { "far record", do_far_record, NULL, NULL, 0, 0, 0, 0, 0, 1 },
    { "n-th extent", do_nth_extent, A, NULL, 0, 0, 422, 0, 0, 1 },
    { "n-th extent unknown", do_nth_extent, B, NULL, 13, 0, 0, 0, 0, 1 },
    { "run list", do_run_list, A, NULL, 0, 0, 1, 0, 0, 1 },
    { "run list unknown", do_run_list, B, NULL, 13, 0, 0, 0, 0, 1 },
    { "run list too long", do_short_list, A, NULL, 19, 0, 0, 0, 0, 1 },
};

enum damage { NONE, SHORT_DEVICE, OTHER_DEVICE, SHORT_WORK, ZERO_NAME, DAMAGES };

static const uint64_t odd_phases[] = { 0, 1, 2, 3, 7, (UINT64_C(1) << 32) + 1, UINT64_MAX };
static const uint64_t odd_places[] = { 0, 5, 9, UINT64_MAX };
static const uint64_t odd_counts[] = { 1, 33, UINT64_MAX };

/* The lowest refusal that is due: tests go in the order of their numbers. */
static uint32_t due(const odd_call *c, enum damage d, uint64_t phase)
{
    int has_session = c->call != do_format && c->call != do_open;
    if (d == SHORT_DEVICE || (d == OTHER_DEVICE && has_session))
        return PURSE_DEVICE_SIZE;
    if (d == SHORT_WORK && !c->no_work)
        return PURSE_WORK_SIZE;
    if ((d == ZERO_NAME && c->name != NULL) || c->refusal == PURSE_BAD_NAME)
        return PURSE_BAD_NAME;
    if (c->refusal == PURSE_TOO_LARGE)
        return PURSE_TOO_LARGE;
    if (!c->any_phase && phase != PURSE_READY)
        return PURSE_NOT_READY;
    return c->refusal;
}

static void same_in(const odd_call *c, enum damage d, const char *what, uint64_t got, uint64_t want)
{
    char text[200];
    snprintf(text, sizeof text, "%s, damage %d, phase %" PRIu64 ", place %" PRIu64 ", count %" PRIu64 ": %s", c->what, (int)d, before.s.phase,
        before.s.place, before.s.count, what);
    same(text, got, want);
}

/* Nothing that was lent is another. Compared piece by piece, so that a failure names the piece. */
static void unchanged(const odd_call *c, enum damage d)
{
    same_in(c, d, "session changed", (uint64_t)(memcmp(&at.s, &before.s, 32) != 0), 0);
    same_in(c, d, "cells changed", (uint64_t)(memcmp(at.s.staged, before.s.staged, sizeof at.s.staged) != 0), 0);
    same_in(c, d, "device changed", (uint64_t)(memcmp(at.device, before.device, sizeof at.device) != 0), 0);
    same_in(c, d, "work space changed", (uint64_t)(memcmp(at.work, before.work, sizeof at.work) != 0), 0);
    same_in(c, d, "name of the record changed", (uint64_t)(memcmp(at.record, before.record, 8) != 0), 0);
    same_in(c, d, "buffer changed", (uint64_t)(memcmp(at.buffer, before.buffer, sizeof at.buffer) != 0), 0);
    same_in(c, d, "list changed", (uint64_t)(memcmp(at.list, before.list, sizeof at.list) != 0), 0);
    same_in(c, d, "names and bytes changed",
        (uint64_t)(memcmp(at.name, before.name, 8) != 0 || memcmp(at.new_name, before.new_name, 8) != 0
            || memcmp(at.bytes, before.bytes, sizeof at.bytes) != 0), 0);
}

/* The phase of the session behind an accepted call that may change it. */
static uint64_t phase_behind(const odd_call *c)
{
    if (c->call == do_format)
        return PURSE_CLOSED;
    if (c->call == do_advance)
        return before.s.phase == PURSE_READY ? PURSE_READY : PURSE_CLOSED;
    return c->call == do_commit || c->call == do_load ? PURSE_COMMITTING : PURSE_READY;
}

/* What an accepted call leaves. */
static void accepted(const odd_call *c, enum damage d)
{
    if (c->reads) {
        same_in(c, d, "session of a reading call", (uint64_t)(memcmp(&at.s, &before.s, sizeof at.s) != 0), 0);
        same_in(c, d, "device of a reading call", (uint64_t)(memcmp(at.device, before.device, sizeof at.device) != 0), 0);
        same_in(c, d, "work space of a reading call", (uint64_t)(memcmp(at.work, before.work, sizeof at.work) != 0), 0);
    } else {
        same_in(c, d, "blocks", at.s.blocks, 64);
        same_in(c, d, "phase left", at.s.phase, phase_behind(c));
        same_in(c, d, "place left", at.s.place, 0);
        same_in(c, d, "count left", at.s.count, c->count);
    }
    same_in(c, d, "answer", answered, c->answer);
    if (c->call == do_empty_record || c->call == do_far_record)
        same_in(c, d, "name of an empty record", (uint64_t)(memcmp(at.record, zero, 8) != 0), 0);
    if (c->call == do_record)
        same_in(c, d, "name of the record", (uint64_t)(memcmp(at.record, A, 8) != 0), 0);
}

/* An advance of a commit or a recovery that nobody began stores one block at most, and leaves the other pieces. */
static void odd_advance(const odd_call *c, enum damage d)
{
    unsigned stores = 0;
    for (unsigned b = 0; b < 64; b++)
        if (memcmp(at.device + b * PURSE_BLOCK, before.device + b * PURSE_BLOCK, PURSE_BLOCK) != 0)
            stores += b == stored.block && stored.number != 0 ? 1 : 2;
    same_in(c, d, "more than one block stored", stores > 1, 0);
    same_in(c, d, "work space changed", (uint64_t)(memcmp(at.work, before.work, sizeof at.work) != 0), 0);
    if (stored.number == 0)
        unchanged(c, d);
}

/* One call on one session. */
static void odd_case(const odd_call *c, enum damage d, uint64_t phase, uint64_t place, uint64_t count)
{
    uint32_t want = due(c, d, phase), got;
    int under_way = c->call == do_advance && (phase == PURSE_COMMITTING || phase == PURSE_RECOVERING);
    if (count != 1 && (want == 0 || want > PURSE_NOT_READY))
        return;
    at = base;
    at.s.phase = phase;
    at.s.place = place;
    at.s.count = count;
    if (c->name != NULL)
        memcpy(at.name, c->name, 8);
    if (c->new_name != NULL)
        memcpy(at.new_name, c->new_name, 8);
    if (d == SHORT_DEVICE)
        at.len--;
    if (d == OTHER_DEVICE)
        at.s.blocks = 65;
    if (d == SHORT_WORK)
        at.work_len--;
    if (d == ZERO_NAME)
        memset(at.name, 0, 8);
    if (want != 0) /* cells that no session has, to see that a refusal leaves them */
        memset(at.s.staged + 20, 0xab, 12 * sizeof at.s.staged[0]);
    before = at;
    answered = 0;
    got = c->call();
    same_in(c, d, "refusal", got, want);
    if (want != 0) {
        unchanged(c, d);
        same_in(c, d, "answer of a refusal", answered, 0);
    } else if (under_way) {
        odd_advance(c, d);
    } else {
        accepted(c, d);
    }
}

/* The base of all cases. */
static void make_base(void)
{
    static const uint64_t stores[] = { 1, 2, 3, 4, 0, 33, 34, 42, 43, 0 };
    static const uint8_t bytes[600];
    fresh(64);
    create(A);
    same("write", purse_write(LENT, &s, A, 8, 0, bytes, sizeof bytes), 0);
    commit(stores, 10);
    create(C);
    memset(&base, 0x77, sizeof base);
    base.s = s;
    base.len = sizeof base.device;
    base.work_len = sizeof base.work;
    memcpy(base.device, device, sizeof base.device);
    memcpy(base.work, work, sizeof base.work);
}

static void odd_sessions(void)
{
    make_base();
    for (size_t c = 0; c < sizeof odd_calls / sizeof odd_calls[0]; c++)
        for (int d = NONE; d < DAMAGES; d++)
            for (size_t p = 0; p < sizeof odd_phases / sizeof odd_phases[0]; p++)
                for (size_t k = 0; k < sizeof odd_places / sizeof odd_places[0]; k++)
                    for (size_t n = 0; n < sizeof odd_counts / sizeof odd_counts[0]; n++)
                        odd_case(&odd_calls[c], (enum damage)d, odd_phases[p], odd_places[k], odd_counts[n]);
}

/* A refused open, format and record, and a commit of nothing, on sessions that the store did not make. */
static void odd_others(void)
{
    static const odd_call open_call = { "open refused", do_open, NULL, NULL, 0, 0, 0, 1, 1, 0 };
    static const odd_call empty = { "commit of nothing", do_commit, NULL, NULL, 0, 0, 0, 0, 0, 0 };
    purse_file f;
    for (size_t p = 0; p < sizeof odd_phases / sizeof odd_phases[0]; p++) {
        at = base;
        at.s.phase = odd_phases[p];
        at.s.place = 9;
        at.device[0] = 33;
        at.device[16] = 33;
        before = at;
        same("E10 on an odd session", do_open() * 1000 + answered, PURSE_BAD_HEADER * 1000 + 1);
        unchanged(&open_call, NONE);
        at.device[0] = 0;
        at.device[16] = 0;
        at.device[33 * PURSE_BLOCK] = 0xf7;
        before = at;
        same("a damaged block on an odd session", do_open() * 1000 + answered, PURSE_DAMAGED_BLOCK * 1000 + 3);
        unchanged(&open_call, NONE);
        at.device[34 * PURSE_BLOCK + 32 * 7 + 31] = 1;
        before = at;
        same("a damaged record on an odd session", do_open() * 1000 + answered, PURSE_DAMAGED_RECORD * 1000 + 7);
        unchanged(&open_call, NONE);
    }
    at = base;
    at.s.place = 5;
    at.s.count = 0;
    before = at;
    same("commit of nothing", do_commit(), 0);
    answered = 0;
    same_in(&empty, NONE, "phase left", at.s.phase, PURSE_READY);
    same_in(&empty, NONE, "place left", at.s.place, 0);

    memset(&f, 0x77, sizeof f);
    at.s.phase = 7;
    same("record refused", purse_record(DEVICE, WORK, &at.s, 0, &f), PURSE_NOT_READY);
    same("used and size", f.used + f.size, 0);
    same("the name stays", f.name[0] * 256u + f.name[7], 0x7777);
}

/* Loads: refusal and answer of a ready session with nothing staged; the answer is line, kind and stores as load_at puts them together. */
static const odd_call odd_loads[] = {
    { "load begin", do_load_begin, NULL, NULL, 0, 0, 0, 0, 0, 1 },
    { "load", do_load, NULL, NULL, 0, 3, 18, 0, 0, 0 },
    { "load of a bad line", do_load_bad, NULL, NULL, 21, 0, 200, 0, 0, 0 },
    { "load of a long line", do_load_long, NULL, NULL, 20, 0, 100, 0, 0, 0 },
    { "load of no line", do_load_none, NULL, NULL, 0, 0, 30, 0, 0, 1 },
};

static uint32_t load_due(const odd_call *c, enum damage d, uint64_t phase, uint64_t count)
{
    if (d == SHORT_DEVICE || d == OTHER_DEVICE)
        return PURSE_DEVICE_SIZE;
    if (d == SHORT_WORK)
        return PURSE_WORK_SIZE;
    if (phase == PURSE_COMMITTING && c->call != do_load_begin)
        return 0;
    return phase != PURSE_READY || count != 0 ? PURSE_NOT_READY : c->refusal;
}

/* What a load leaves that is accepted. */
static void accepted_load(const odd_call *c, enum damage d)
{
    if (c->reads)
        unchanged(c, d);
    else
        accepted(c, d);
    same_in(c, d, "answer of a load", answered, c->answer);
}

/* One load on one session. */
static void odd_load(const odd_call *c, enum damage d, uint64_t phase, uint64_t odd_place, uint64_t count)
{
    uint32_t want = load_due(c, d, phase, count);
    at = base;
    at.s.phase = phase;
    at.s.place = odd_place;
    at.s.count = count;
    at.len -= d == SHORT_DEVICE;
    at.s.blocks += d == OTHER_DEVICE;
    at.work_len -= d == SHORT_WORK;
    if (want != 0)
        memset(at.s.staged + 20, 0xab, 12 * sizeof at.s.staged[0]);
    before = at;
    answered = 0;
    same_in(c, d, "refusal", c->call(), want);
    if (want != 0) {
        unchanged(c, d);
        same_in(c, d, "answer of a refusal", answered, want >= PURSE_LINE_TOO_LONG ? c->answer : 0);
    } else if (phase == PURSE_COMMITTING) {
        odd_advance(c, d);
        same_in(c, d, "answer of an advance", answered, 20);
    } else {
        accepted_load(c, d);
    }
}

static void odd_loading(void)
{
    static const uint64_t counts[] = { 0, 1, 33, UINT64_MAX };
    for (size_t c = 0; c < sizeof odd_loads / sizeof odd_loads[0]; c++)
        for (int d = NONE; d < ZERO_NAME; d++)
            for (size_t p = 0; p < sizeof odd_phases / sizeof odd_phases[0]; p++)
                for (size_t k = 0; k < sizeof odd_places / sizeof odd_places[0]; k++)
                    for (size_t n = 0; n < sizeof counts / sizeof counts[0]; n++)
                        odd_load(&odd_loads[c], (enum damage)d, odd_phases[p], odd_places[k], counts[n]);
}

/* NULL where the length is 0. */
static void nothing_lent(void)
{
    uint64_t n = 5;
    fresh(64);
    same("no device to format", purse_format(NULL, 0, &s), PURSE_DEVICE_SIZE);
    same("no device to open", purse_open(NULL, 0, &s, &n), PURSE_DEVICE_SIZE);
    same("no device", purse_create(NULL, 0, NULL, 0, &s, NULL, 0), PURSE_DEVICE_SIZE);
    same("no work space", purse_create(device, len, NULL, 0, &s, NULL, 0), PURSE_WORK_SIZE);
    same("no name", purse_create(LENT, &s, NULL, 0), PURSE_BAD_NAME);
    same("no device to load", purse_load_begin(NULL, 0, NULL, 0, &s), PURSE_DEVICE_SIZE);
    n = 5;
    same("no work space to load", purse_load_step(device, len, NULL, 0, &s, NULL, 0, &n, &step), PURSE_WORK_SIZE);
    same("the place stays", n, 5);
    same("no text", purse_load_step(LENT, &s, NULL, 0, &n, &step) + step.kind, PURSE_LOAD_NONE);
    create(A);
    same("no new name", purse_rename(LENT, &s, A, 8, NULL, 0), PURSE_BAD_NAME);
    same("no bytes", purse_write(LENT, &s, A, 8, 1000, NULL, 0), 0);
    same("no buffer", purse_read(LENT, &s, A, 8, 0, NULL, 0, &n), 0);
    same("none read", n, 0);
    same("no list", purse_run_list(LENT, &s, A, 8, 0, 9, NULL, 0, &n), PURSE_LIST_SHORT);
    same("no list of no blocks", purse_run_list(LENT, &s, A, 8, 0, 0, NULL, 0, &n), 0);
    same("E6 size", purse_size(LENT, &s, A, 8, &n), 0);
    same("E6", n, 1000);
}

int main(void)
{
    same("bytes of a session", sizeof s, 160);
    one_file();
    cut();
    limits();
    pieces();
    refusals();
    damage();
    good_lines();
    wrong_lines();
    three_lines();
    not_idle();
    full();
    odd_sessions();
    odd_others();
    odd_loading();
    nothing_lent();
    printf("%u tests, %u failed\n", tests, failures);
    return failures != 0;
}
