/* The purse store: a small file system in memory that the caller lends, which a power cut at any moment leaves whole.
 *
 * The caller lends two pieces of memory and keeps one struct:
 *   device   an image of the device, 512 bytes times 64 to 4,096 blocks;
 *   work     the work space, 16,384 bytes, in which changes wait for their commit;
 *   session  what the store knows from call to call. Start it as PURSE_NEVER_OPENED.
 * A purse_box holds all three. Its calls, at the end of this file, are the short ones, and its commit and its open write each block through to
 * the real device by a function of the caller. examples/sale.c is written with them.
 *
 * Format or open the device first. Changes then gather in a transaction: purse_commit starts to store it, and each purse_advance stores one
 * block of the image and tells which. Write that block through to the real device before the next call. Where the power is cut, read the
 * image back, open it with a session never opened, and advance as long as the session is recovering; then open it again.
 *
 * Every function answers 0 where the call is accepted, else the number of the refusal (enum purse_refusal). A refused call changes nothing:
 * device, work space, session, name, buffer and list are byte for byte as before, whatever they held. What is answered through a pointer
 * is then 0, but for purse_open's fault and the line of purse_load_step and of a conversion; the name of purse_record and the place of a load
 * stay.
 *
 * Every pointer must point to as many elements as its length says; NULL may stand where the length is 0, and nowhere else.
 * What a function writes must not overlap anything else that it is given.
 *
 * Any bytes and any numbers may be handed in: the worst that happens is a refusal, or an answer that is of no use. Nothing outside the lent
 * memory is touched. A session that the store did not make is never trusted: one whose phase is no purse_phase is taken as a closed one. A
 * call that is refused leaves such a session as it is, and so does a step of a load that finds no line. Any other that is accepted, and may
 * change the session, leaves it with regular numbers: phase 0 where the number given was no phase, place 0 where the phase has no place.
 *
 * Link with target/staticlib/libcapi.a (tools/build capi), and for the calls of a load with libloadapi.a besides (tools/build loadapi). A
 * conversion uses nothing of the store: a program that only converts links with libconvertapi.a alone (tools/build convertapi). Every
 * function of them is proved to do exactly what is specified of its call, for all arguments: crates/capi/src/lib.rt,
 * crates/loadapi/src/lib.rt and crates/convertapi/src/lib.rt have the promises. The functions of this header are not proved: those over a
 * session, and the conversions, only hand on to the library, those over a box call these. examples/calls.c and examples/convert.c test them,
 * docs/FIRMWARE.md has what a till box needs to know.
 */
#ifndef PURSE_H
#define PURSE_H

#include <stddef.h>
#include <stdint.h>

#ifdef __cplusplus
extern "C" {
#endif

#define PURSE_VERSION 0x000500u   /* 0.5.0, two hexadecimal digits each: of this file, and of the library it was written for */

#define PURSE_BLOCK 512u          /* bytes of a block */
#define PURSE_FEWEST_BLOCKS 64u   /* blocks of the smallest device */
#define PURSE_MOST_BLOCKS 4096u   /* blocks of the largest device */
#define PURSE_WORK 16384u         /* bytes of the work space */
#define PURSE_NAME 8u             /* bytes of a name, not all zero */
#define PURSE_RECORDS 128u        /* files of a device, at most */
#define PURSE_FILE_MAX 1048576u   /* bytes of a file, at most */
#define PURSE_EXTENTS_MAX 512u    /* extents of a file, at most */
#define PURSE_STAGED_MAX 32u      /* blocks that one transaction changes, at most */
#define PURSE_LINE_MAX 64u        /* bytes of a line that is loaded or converted, at most, without its feed */
#define PURSE_LOAD_ENOUGH 16384u  /* bytes of a text that are enough: behind 128 lines of 65 bytes the next one is refused */
#define PURSE_SENTENCE 128u       /* characters that are enough for every sentence of purse_refusal_sentence, its end included */

enum purse_refusal {
    PURSE_OK = 0,
    PURSE_DEVICE_SIZE = 1,       /* the device is not 64 to 4,096 whole blocks, or not the one the session was opened on */
    PURSE_WORK_SIZE = 2,         /* the work space is not 16,384 bytes */
    PURSE_BAD_NAME = 3,          /* a name is not 8 bytes, or all zero */
    PURSE_TOO_LARGE = 4,         /* the file would be longer than 1,048,576 bytes */
    PURSE_BAD_HEADER = 10,       /* open: the list of a commit in block 0 is damaged; the fault is its lowest damaged record */
    PURSE_NOT_READY = 12,        /* the session is closed, committing or recovering; load: or something is staged */
    PURSE_UNKNOWN = 13,          /* no file has that name */
    PURSE_TAKEN = 14,            /* a file has that name already */
    PURSE_NO_RECORD = 15,        /* there are 128 files already */
    PURSE_NO_SPACE = 16,         /* more blocks are wanted than are free */
    PURSE_TOO_MANY_EXTENTS = 17, /* the file would lie in more than 512 pieces */
    PURSE_TOO_MANY_STAGED = 18,  /* the transaction would change more than 32 blocks */
    PURSE_LIST_SHORT = 19,       /* run list: the list lent is too short */
    PURSE_LINE_TOO_LONG = 20,    /* load, convert: the line has more than 64 bytes before its feed, or to the end of the text */
    PURSE_BAD_LINE = 21,         /* load, convert: the line is not serial;letter;amount, or has no feed */
    PURSE_DAMAGED_RECORD = 22,   /* open: a file record is damaged; the fault is the lowest such, 0 to 127. Of equal names the later one counts */
    PURSE_DAMAGED_BLOCK = 23,    /* open: a block is marked wrong or used twice; the fault is the lowest such, 0 to 4,095, also past the end */
    PURSE_SAME_SPELLING = 24,    /* convert: the line is already in the wanted spelling */
    PURSE_OUTPUT_TOO_LONG = 25   /* convert: the output is longer than the buffer */
};

/* Answers of a box (purse_box) that are no refusals. */
enum purse_trouble {
    PURSE_NOT_STORED = 100, /* a block did not reach the device: the box is broken now */
    PURSE_BROKEN = 101      /* the box was broken before: read the device again, lend it and open it */
};

enum purse_phase {
    PURSE_CLOSED = 0,
    PURSE_READY = 1,
    PURSE_COMMITTING = 2,
    PURSE_RECOVERING = 3
};

/* What a step of a load did. */
enum purse_load_kind {
    PURSE_LOAD_REFUSED = 0, /* nothing: it was refused */
    PURSE_LOAD_TAKEN = 1,   /* it took up a line: the next steps store it */
    PURSE_LOAD_STORED = 2,  /* it made an advance */
    PURSE_LOAD_NONE = 3     /* no line is left */
};

/* Owned by the store: read it, do not write it. */
typedef struct {
    uint64_t blocks;     /* blocks of the device, 0 if never opened */
    uint64_t phase;      /* enum purse_phase */
    uint64_t place;      /* stores made so far of a commit or a recovery, else 0 */
    uint64_t count;      /* blocks changed in this transaction */
    uint32_t staged[32]; /* their numbers */
} purse_session;

#define PURSE_NEVER_OPENED { 0, 0, 0, 0, { 0 } }

/* What an advance did. All 0: nothing was under way, and nothing was stored. */
typedef struct {
    uint64_t block;  /* the block stored */
    uint64_t last;   /* 1 if it was the last of the commit or the recovery */
    uint64_t number; /* the stores of the commit or the recovery so far, this one included */
} purse_store;

/* A record of the table of files. All 0: the record is empty. */
typedef struct {
    uint64_t used; /* 1 if there is a file */
    uint64_t size; /* its size in bytes */
    uint8_t name[8];
} purse_file;

/* Blocks that follow each other. Count 0: there are none. */
typedef struct {
    uint32_t first;
    uint32_t count;
} purse_extent;

/* What a step of a load answered. */
typedef struct {
    uint32_t kind;     /* enum purse_load_kind */
    uint64_t line;     /* the line that was refused, counted from 1; 0 where none is named */
    uint64_t stores;   /* PURSE_LOAD_TAKEN: how many steps store it, 8 */
    purse_store store; /* PURSE_LOAD_STORED: the block stored; else all 0 */
} purse_load_answer;

/* ---- What the library exports: `numbers` points to the four numbers of the session, blocks, phase, place and count in this order, and `staged` to
 * its 32 cells. The functions further below are easier to use. */

typedef struct {
    uint32_t refusal;
    uint64_t fault; /* of open. Refusal 10: the record of block 0 that is damaged; 22: the file record; 23: the block; else 0 */
} purse_finished;

typedef struct {
    uint32_t refusal;
    uint64_t stores;
} purse_committed;

typedef struct {
    uint32_t refusal;
    uint64_t block, last, number;
} purse_advanced;

typedef struct {
    uint32_t refusal;
    uint64_t count;
} purse_counted;

typedef struct {
    uint32_t refusal;
    uint32_t used;
    uint64_t size;
} purse_recorded;

typedef struct {
    uint32_t refusal;
    uint32_t first, count;
} purse_run;

typedef struct {
    uint32_t refusal;
    uint32_t kind;
    uint64_t line, stores;
    uint64_t block, last, number;
    uint64_t next; /* the load's place behind the step; as given where it is refused */
} purse_loaded;

typedef struct {
    uint32_t refusal;
    uint64_t line; /* refusals 20, 21 and 24: the line, counted from 1; else 0 */
    uint64_t length;
} purse_converted;

purse_finished purse_format_v(uint8_t *device, size_t len, uint64_t *numbers, uint32_t *staged);
purse_finished purse_open_v(const uint8_t *device, size_t len, uint64_t *numbers, uint32_t *staged);
purse_advanced purse_advance_v(uint8_t *device, size_t len, const uint8_t *work, size_t work_len, uint64_t *numbers, uint32_t *staged);
purse_committed purse_commit_v(const uint8_t *device, size_t len, const uint8_t *work, size_t work_len, uint64_t *numbers, const uint32_t *staged);
purse_finished purse_abort_v(const uint8_t *device, size_t len, const uint8_t *work, size_t work_len, uint64_t *numbers, uint32_t *staged);
purse_finished purse_create_v(const uint8_t *device, size_t len, uint8_t *work, size_t work_len, uint64_t *numbers, uint32_t *staged,
    const uint8_t *name, size_t name_len);
purse_finished purse_remove_v(const uint8_t *device, size_t len, uint8_t *work, size_t work_len, uint64_t *numbers, uint32_t *staged,
    const uint8_t *name, size_t name_len);
purse_finished purse_rename_v(const uint8_t *device, size_t len, uint8_t *work, size_t work_len, uint64_t *numbers, uint32_t *staged,
    const uint8_t *name, size_t name_len, const uint8_t *new_name, size_t new_name_len);
purse_finished purse_write_v(const uint8_t *device, size_t len, uint8_t *work, size_t work_len, uint64_t *numbers, uint32_t *staged,
    const uint8_t *name, size_t name_len, uint64_t x, const uint8_t *bytes, size_t n);
purse_finished purse_set_size_v(const uint8_t *device, size_t len, uint8_t *work, size_t work_len, uint64_t *numbers, uint32_t *staged,
    const uint8_t *name, size_t name_len, uint64_t size);
purse_counted purse_read_v(const uint8_t *device, size_t len, const uint8_t *work, size_t work_len, const uint64_t *numbers,
    const uint8_t *name, size_t name_len, const uint32_t *staged, uint64_t x, uint8_t *buffer, size_t n);
purse_counted purse_size_v(const uint8_t *device, size_t len, const uint8_t *work, size_t work_len, const uint64_t *numbers,
    const uint8_t *name, size_t name_len, const uint32_t *staged);
purse_counted purse_free_count_v(const uint8_t *device, size_t len, const uint8_t *work, size_t work_len, const uint64_t *numbers, const uint32_t *staged);
purse_recorded purse_record_v(const uint8_t *device, size_t len, const uint8_t *work, size_t work_len, const uint64_t *numbers, uint64_t i,
    const uint32_t *staged, uint8_t *name);
purse_run purse_nth_extent_v(const uint8_t *device, size_t len, const uint8_t *work, size_t work_len, const uint64_t *numbers,
    const uint8_t *name, size_t name_len, const uint32_t *staged, uint64_t from, uint64_t n, uint64_t k);
purse_counted purse_run_list_v(const uint8_t *device, size_t len, const uint8_t *work, size_t work_len, const uint64_t *numbers,
    const uint8_t *name, size_t name_len, const uint32_t *staged, uint64_t from, uint64_t n, uint32_t *list, size_t cells);
purse_finished purse_load_begin_v(const uint8_t *device, size_t len, const uint8_t *work, size_t work_len, const uint64_t *numbers,
    const uint32_t *staged);
purse_loaded purse_load_step_v(uint8_t *device, size_t len, uint8_t *work, size_t work_len, uint64_t *numbers, uint32_t *staged,
    const uint8_t *text, size_t text_len, uint64_t at);
purse_converted purse_convert_h_v(const uint8_t *text, size_t text_len, uint8_t *out, size_t out_len);
purse_converted purse_convert_d_v(const uint8_t *text, size_t text_len, uint8_t *out, size_t out_len);

/* ---- The calls */

/* The library is lent the four numbers of a session as an array, and a list of extents as an array of cells: the layout must be theirs. */
typedef char purse_session_is_laid_out[sizeof(purse_session) == 160 && offsetof(purse_session, count) == 24 ? 1 : -1];
typedef char purse_extent_is_two_cells[sizeof(purse_extent) == 8 && offsetof(purse_extent, count) == 4 ? 1 : -1];

/* The four numbers stand first in the session. */
static inline uint64_t *purse_numbers_in(purse_session *s)
{
    return &s->blocks;
}

static inline const uint64_t *purse_numbers_of(const purse_session *s)
{
    return &s->blocks;
}

/* The library takes no NULL: bytes to be read, or another address where there are none. */
static inline const uint8_t *purse_bytes(const uint8_t *p, size_t n)
{
    static const uint8_t none = 0;
    return p == NULL && n == 0 ? &none : p;
}

/* The same for bytes to be written. The byte of this function never is. */
static inline uint8_t *purse_room(uint8_t *p, size_t n)
{
    static uint8_t none;
    return p == NULL && n == 0 ? &none : p;
}

/* The same for a list of extents, as cells. */
static inline uint32_t *purse_cells(purse_extent *p, size_t n)
{
    static purse_extent none;
    return p == NULL && n == 0 ? &none.first : &p->first;
}

#define PURSE_IN(p, n) purse_bytes(p, n), n
#define PURSE_OUT(p, n) purse_room(p, n), n

/* Makes an empty store of the device, whatever was on it; the session is then closed. Write the whole image through. */
static inline uint32_t purse_format(uint8_t *device, size_t len, purse_session *s)
{
    return purse_format_v(PURSE_OUT(device, len), purse_numbers_in(s), s->staged).refusal;
}

/* Opens the device, whatever the session was. It is then ready, or recovering if the power was cut in a commit: advance until the last store,
 * then open again. *fault: what is damaged. PURSE_BAD_HEADER: the record of block 0; PURSE_DAMAGED_RECORD: the file record; PURSE_DAMAGED_BLOCK:
 * the block, which may lie past the end of the device; else 0. Each is the lowest damaged one. */
static inline uint32_t purse_open(const uint8_t *device, size_t len, purse_session *s, uint64_t *fault)
{
    purse_finished r = purse_open_v(PURSE_IN(device, len), purse_numbers_in(s), s->staged);
    *fault = r.fault;
    return r.refusal;
}

/* Stores one block of a commit or a recovery in the device image, and tells which: bytes 512 * block on. Write it through before the next
 * call. After the last store of a commit the session is ready, after that of a recovery closed. */
static inline uint32_t purse_advance(uint8_t *device, size_t len, const uint8_t *work, size_t work_len, purse_session *s, purse_store *out)
{
    purse_advanced r = purse_advance_v(PURSE_OUT(device, len), PURSE_IN(work, work_len), purse_numbers_in(s), s->staged);
    out->block = r.block;
    out->last = r.last;
    out->number = r.number;
    return r.refusal;
}

/* Starts the commit of the transaction. *stores: how many advances it takes, 0 if nothing was changed. */
static inline uint32_t purse_commit(const uint8_t *device, size_t len, const uint8_t *work, size_t work_len, purse_session *s, uint64_t *stores)
{
    purse_committed r = purse_commit_v(PURSE_IN(device, len), PURSE_IN(work, work_len), purse_numbers_in(s), s->staged);
    *stores = r.stores;
    return r.refusal;
}

/* Gives up the changes of this transaction. */
static inline uint32_t purse_abort(const uint8_t *device, size_t len, const uint8_t *work, size_t work_len, purse_session *s)
{
    return purse_abort_v(PURSE_IN(device, len), PURSE_IN(work, work_len), purse_numbers_in(s), s->staged).refusal;
}

/* Makes an empty file. */
static inline uint32_t purse_create(const uint8_t *device, size_t len, uint8_t *work, size_t work_len, purse_session *s, const uint8_t *name,
    size_t name_len)
{
    return purse_create_v(PURSE_IN(device, len), PURSE_OUT(work, work_len), purse_numbers_in(s), s->staged, PURSE_IN(name, name_len)).refusal;
}

/* Removes a file; its blocks are free at once. */
static inline uint32_t purse_remove(const uint8_t *device, size_t len, uint8_t *work, size_t work_len, purse_session *s, const uint8_t *name,
    size_t name_len)
{
    return purse_remove_v(PURSE_IN(device, len), PURSE_OUT(work, work_len), purse_numbers_in(s), s->staged, PURSE_IN(name, name_len)).refusal;
}

/* Gives a file a name that no file has. */
static inline uint32_t purse_rename(const uint8_t *device, size_t len, uint8_t *work, size_t work_len, purse_session *s, const uint8_t *name,
    size_t name_len, const uint8_t *new_name, size_t new_name_len)
{
    return purse_rename_v(PURSE_IN(device, len), PURSE_OUT(work, work_len), purse_numbers_in(s), s->staged, PURSE_IN(name, name_len),
        PURSE_IN(new_name, new_name_len)).refusal;
}

/* Writes n bytes into a file from byte x on. The file grows where they end behind it; a gap before x is zeros. */
static inline uint32_t purse_write(const uint8_t *device, size_t len, uint8_t *work, size_t work_len, purse_session *s, const uint8_t *name,
    size_t name_len, uint64_t x, const uint8_t *bytes, size_t n)
{
    return purse_write_v(PURSE_IN(device, len), PURSE_OUT(work, work_len), purse_numbers_in(s), s->staged, PURSE_IN(name, name_len), x,
        PURSE_IN(bytes, n)).refusal;
}

/* Cuts a file to a size, or lengthens it by zeros. */
static inline uint32_t purse_set_size(const uint8_t *device, size_t len, uint8_t *work, size_t work_len, purse_session *s, const uint8_t *name,
    size_t name_len, uint64_t size)
{
    return purse_set_size_v(PURSE_IN(device, len), PURSE_OUT(work, work_len), purse_numbers_in(s), s->staged, PURSE_IN(name, name_len), size).refusal;
}

/* Reads up to n bytes of a file from byte x on, changes of this transaction included. *count: how many; the rest of the buffer stays. */
static inline uint32_t purse_read(const uint8_t *device, size_t len, const uint8_t *work, size_t work_len, const purse_session *s,
    const uint8_t *name, size_t name_len, uint64_t x, uint8_t *buffer, size_t n, uint64_t *count)
{
    purse_counted r = purse_read_v(PURSE_IN(device, len), PURSE_IN(work, work_len), purse_numbers_of(s), PURSE_IN(name, name_len), s->staged, x,
        PURSE_OUT(buffer, n));
    *count = r.count;
    return r.refusal;
}

/* The size of a file in bytes. */
static inline uint32_t purse_size(const uint8_t *device, size_t len, const uint8_t *work, size_t work_len, const purse_session *s,
    const uint8_t *name, size_t name_len, uint64_t *size)
{
    purse_counted r = purse_size_v(PURSE_IN(device, len), PURSE_IN(work, work_len), purse_numbers_of(s), PURSE_IN(name, name_len), s->staged);
    *size = r.count;
    return r.refusal;
}

/* How many blocks are free. */
static inline uint32_t purse_free_count(const uint8_t *device, size_t len, const uint8_t *work, size_t work_len, const purse_session *s,
    uint64_t *count)
{
    purse_counted r = purse_free_count_v(PURSE_IN(device, len), PURSE_IN(work, work_len), purse_numbers_of(s), s->staged);
    *count = r.count;
    return r.refusal;
}

/* Name and size of the file in record i, counted from 0. An empty record, and any from 128 on, is all 0, its name included. */
static inline uint32_t purse_record(const uint8_t *device, size_t len, const uint8_t *work, size_t work_len, const purse_session *s, uint64_t i,
    purse_file *out)
{
    purse_recorded r = purse_record_v(PURSE_IN(device, len), PURSE_IN(work, work_len), purse_numbers_of(s), i, s->staged, out->name);
    out->used = r.used;
    out->size = r.size;
    return r.refusal;
}

/* Where n blocks of a file lie from its block `from` on, cut at the end of the file: piece k of the fewest possible, counted from 0. */
static inline uint32_t purse_nth_extent(const uint8_t *device, size_t len, const uint8_t *work, size_t work_len, const purse_session *s,
    const uint8_t *name, size_t name_len, uint64_t from, uint64_t n, uint64_t k, purse_extent *out)
{
    purse_run r = purse_nth_extent_v(PURSE_IN(device, len), PURSE_IN(work, work_len), purse_numbers_of(s), PURSE_IN(name, name_len), s->staged,
        from, n, k);
    out->first = r.first;
    out->count = r.count;
    return r.refusal;
}

/* The same for all pieces, in turn, into a list that takes so many. *count: how many they are; the places behind them stay. */
static inline uint32_t purse_run_list(const uint8_t *device, size_t len, const uint8_t *work, size_t work_len, const purse_session *s,
    const uint8_t *name, size_t name_len, uint64_t from, uint64_t n, purse_extent *list, size_t places, uint64_t *count)
{
    purse_counted r = purse_run_list_v(PURSE_IN(device, len), PURSE_IN(work, work_len), purse_numbers_of(s), PURSE_IN(name, name_len), s->staged,
        from, n, purse_cells(list, places), 2 * places);
    *count = r.count;
    return r.refusal;
}

/* Whether a load may begin: the session is ready and nothing is staged. A load is a place in a text, which the caller keeps; its first is 0. */
static inline uint32_t purse_load_begin(const uint8_t *device, size_t len, const uint8_t *work, size_t work_len, const purse_session *s)
{
    return purse_load_begin_v(PURSE_IN(device, len), PURSE_IN(work, work_len), purse_numbers_of(s), s->staged).refusal;
}

/* A step of a load. On a ready session with nothing staged it takes up the line at *place, one transaction that makes a file, and moves *place
 * behind it; or it answers that no line is left. On a committing one it is an advance: write the block through before the next step. A refused
 * line leaves nothing, and the next step finds it again. Behind a cut begin anew at a line that was not kept: the place has passed the line
 * that was being stored. */
static inline uint32_t purse_load_step(uint8_t *device, size_t len, uint8_t *work, size_t work_len, purse_session *s, const uint8_t *text,
    size_t text_len, uint64_t *place, purse_load_answer *out)
{
    purse_loaded r = purse_load_step_v(PURSE_OUT(device, len), PURSE_OUT(work, work_len), purse_numbers_in(s), s->staged, PURSE_IN(text, text_len),
        *place);
    *place = r.next;
    out->kind = r.kind;
    out->line = r.line;
    out->stores = r.stores;
    out->store.block = r.block;
    out->store.last = r.last;
    out->store.number = r.number;
    return r.refusal;
}

/* Converts a text, all of whose lines are D lines, into H lines: each serial respelled, its letter changed, its amount copied. *length: the bytes
 * of the output, which is never longer than the text; those of `out` behind it stay. A refusal leaves every byte of `out`, and *length is 0.
 * *line: the lowest line that is refused, counted from 1; 0 where there is none, and with 25, which comes behind all lines. An output as long as
 * `out` fits. `text` and `out` must not overlap: no text is converted in its place. */
static inline uint32_t purse_convert_to_h(const uint8_t *text, size_t text_len, uint8_t *out, size_t out_len, uint64_t *length, uint64_t *line)
{
    purse_converted r = purse_convert_h_v(PURSE_IN(text, text_len), PURSE_OUT(out, out_len));
    *length = r.length;
    *line = r.line;
    return r.refusal;
}

/* The same from H lines into D lines. A line with a serial of four bytes, 13 bytes or more with its feed, grows by 2; one of seven, 19 or more, by
 * 3: an `out` of text_len + text_len / 6 bytes takes every output. */
static inline uint32_t purse_convert_to_d(const uint8_t *text, size_t text_len, uint8_t *out, size_t out_len, uint64_t *length, uint64_t *line)
{
    purse_converted r = purse_convert_d_v(PURSE_IN(text, text_len), PURSE_OUT(out, out_len));
    *length = r.length;
    *line = r.line;
    return r.refusal;
}

#undef PURSE_IN
#undef PURSE_OUT

/* What a refusal, or another answer of a call, says in words. */
static inline const char *purse_refusal_text(uint32_t answer)
{
    switch (answer) {
    case PURSE_OK: return "done";
    case PURSE_DEVICE_SIZE: return "the device is not 64 to 4096 blocks of 512 bytes, or not the one that was opened";
    case PURSE_WORK_SIZE: return "the work space is not 16384 bytes";
    case PURSE_BAD_NAME: return "the name is not 8 bytes, or all zero";
    case PURSE_TOO_LARGE: return "the file would be longer than 1048576 bytes";
    case PURSE_BAD_HEADER: return "the list of a commit in block 0 is damaged";
    case PURSE_NOT_READY: return "the session is not ready";
    case PURSE_UNKNOWN: return "no file has this name";
    case PURSE_TAKEN: return "a file has this name already";
    case PURSE_NO_RECORD: return "there are 128 files already";
    case PURSE_NO_SPACE: return "too few blocks are free";
    case PURSE_TOO_MANY_EXTENTS: return "the file would lie in more than 512 pieces";
    case PURSE_TOO_MANY_STAGED: return "the transaction would change more than 32 blocks";
    case PURSE_LIST_SHORT: return "the list lent is too short";
    case PURSE_LINE_TOO_LONG: return "the line is longer than 64 bytes";
    case PURSE_BAD_LINE: return "the line is not serial;letter;amount, or has no line feed";
    case PURSE_DAMAGED_RECORD: return "a file record is damaged";
    case PURSE_DAMAGED_BLOCK: return "a block is marked wrong in the bit table, or used twice";
    case PURSE_SAME_SPELLING: return "the line is already in the wanted spelling";
    case PURSE_OUTPUT_TOO_LONG: return "the output is longer than the buffer";
    case PURSE_NOT_STORED: return "a block did not reach the device";
    case PURSE_BROKEN: return "the box is broken: read the device again, lend it and open it";
    default: return "no answer of the store";
    }
}

/* What stands before the number of a fault, in a sentence; NULL: the answer has none. */
static inline const char *purse_fault_text(uint32_t answer)
{
    switch (answer) {
    case PURSE_BAD_HEADER:
    case PURSE_DAMAGED_RECORD: return ", record ";
    case PURSE_DAMAGED_BLOCK: return ", block ";
    default: return NULL;
    }
}

/* Some text behind the first n characters of a sentence, as much of it as there is room for; how long it then is, and would be with more room. */
static inline size_t purse_sentence_add(char *sentence, size_t room, size_t n, const char *text)
{
    for (; *text != 0; text++, n++)
        if (n + 1 < room)
            sentence[n] = *text;
    return n;
}

/* The words of an answer, and what is damaged where it tells that: "a file record is damaged, record 5". Written into `sentence`, cut off where
 * `room` characters do not take it and its ending zero: PURSE_SENTENCE are enough. How long the whole sentence is. With room 0 nothing is written. */
static inline size_t purse_refusal_sentence(uint32_t answer, uint64_t fault, char *sentence, size_t room)
{
    const char *before = purse_fault_text(answer);
    size_t n = purse_sentence_add(sentence, room, 0, purse_refusal_text(answer));
    char digits[21];
    size_t k = sizeof digits - 1;
    digits[k] = 0;
    do
        digits[--k] = "0123456789"[fault % 10];
    while ((fault /= 10) != 0);
    if (before != NULL)
        n = purse_sentence_add(sentence, room, purse_sentence_add(sentence, room, n, before), digits + k);
    if (room != 0)
        sentence[n < room ? n : room - 1] = 0;
    return n;
}

/* ---- A box: the store with the memory that it is lent, and a device behind it.
 *
 *     purse_box box;
 *     (read the device into the image)
 *     purse_box_lend(&box, image, sizeof image, work, sizeof work);
 *     outcome = purse_box_open(&box, write_block, context);
 *     purse_box_create(&box, name); purse_box_write(&box, name, 0, bytes, n); ...
 *     outcome = purse_box_commit(&box, write_block, context);
 *
 * A name is 8 bytes. The calls answer as those above do. Where a block did not reach the device, the image in memory is ahead of the device
 * and the box is broken: every call then answers PURSE_BROKEN and does nothing, until the caller has read the device again and lent the image
 * anew. Use a box through its own calls only: those above know nothing of a broken box. */

typedef struct {
    uint8_t *device; /* the image of the device */
    size_t len;
    uint8_t *work; /* the work space */
    size_t work_len;
    purse_session session;
    uint32_t broken; /* 1: a block did not reach the device */
} purse_box;

/* Puts the 512 bytes of a block on the device. It answers 0 where they are there and a power cut will not take them back, anything else where
 * that is not certain; the block may then hold the old bytes or these, but they must not arrive later. */
typedef int purse_write_block(void *context, uint64_t block, const uint8_t *bytes);

/* Whether the changes of a commit count. */
enum purse_force {
    PURSE_NOT_IN_FORCE = 0, /* no: the next open finds the files as they were before */
    PURSE_IN_FORCE = 1,     /* yes: they are stored, or the next open finds their list and stores them */
    PURSE_FORCE_UNKNOWN = 2 /* the store of the list itself failed: the next open tells */
};

/* What a commit or an open has done. */
typedef struct {
    uint32_t answer; /* PURSE_OK, a refusal, PURSE_NOT_STORED or PURSE_BROKEN */
    uint32_t force;  /* enum purse_force */
    uint64_t stores; /* how many stores there are in all */
    uint64_t number; /* the last one tried: the one that failed, else as many as there are */
    uint64_t block;  /* its block */
    uint64_t fault;  /* PURSE_BAD_HEADER, PURSE_DAMAGED_RECORD, PURSE_DAMAGED_BLOCK: what purse_open tells; else 0 */
    int error;       /* PURSE_NOT_STORED: what purse_write_block answered */
} purse_outcome;

/* Lends the box its memory. The image must be what the device holds, block for block: lend it when it has been read. */
static inline void purse_box_lend(purse_box *b, uint8_t *device, size_t len, uint8_t *work, size_t work_len)
{
    static const purse_session never = PURSE_NEVER_OPENED;
    b->device = device;
    b->len = len;
    b->work = work;
    b->work_len = work_len;
    b->session = never;
    b->broken = 0;
}

/* Makes an empty store of the image, whatever was on it. Write the whole image to the device before the box is opened. */
static inline uint32_t purse_box_format(purse_box *b)
{
    if (b->broken)
        return PURSE_BROKEN;
    return purse_format(b->device, b->len, &b->session);
}

/* Store o->number of a commit or a recovery, in the image and on the device. 1: it was the last; o->answer: whether it was made. */
static inline uint64_t purse_box_store(purse_box *b, purse_write_block *write_block, void *context, purse_outcome *o)
{
    purse_store done;
    o->answer = purse_advance(b->device, b->len, b->work, b->work_len, &b->session, &done);
    if (o->answer == PURSE_OK && done.number != o->number)
        o->answer = PURSE_BROKEN; /* somebody else has used the session */
    if (o->answer != PURSE_OK)
        return 0;
    o->block = done.block;
    o->error = write_block(context, done.block, b->device + done.block * PURSE_BLOCK);
    if (o->error != 0)
        o->answer = PURSE_NOT_STORED;
    return done.last;
}

/* All stores of a commit or a recovery, each on the device before the next. The first that fails breaks the box. `list`: which store is that of
 * the list, 0 in a recovery, where the device has it. */
static inline purse_outcome purse_box_store_all(purse_box *b, purse_write_block *write_block, void *context, uint64_t stores, uint64_t list)
{
    static const purse_session never = PURSE_NEVER_OPENED;
    purse_outcome o = { PURSE_OK, PURSE_IN_FORCE, stores, 1, 0, 0, 0 };
    while (purse_box_store(b, write_block, context, &o) == 0 && o.answer == PURSE_OK)
        o.number++;
    if (o.answer != PURSE_OK) {
        b->session = never;
        b->broken = 1;
        if (o.number < list)
            o.force = PURSE_NOT_IN_FORCE;
        else if (o.number == list)
            o.force = PURSE_FORCE_UNKNOWN;
    }
    return o;
}

/* How many blocks the log lists, in a block 0 that was opened as recovering. */
static inline uint64_t purse_box_listed(const purse_box *b)
{
    uint64_t k = 0;
    while (k < PURSE_STAGED_MAX && (b->device[16 * k] != 0 || b->device[16 * k + 1] != 0))
        k++;
    return k;
}

/* Opens the box, and gives up the changes of a transaction under way. Where the power was cut in a commit that is in force, its stores are
 * finished first, each by write_block. The outcome's force: PURSE_IN_FORCE where there was such a commit; PURSE_NOT_IN_FORCE where there was
 * none, so that a commit of unknown force did not count; PURSE_FORCE_UNKNOWN where the box is refused, before a recovery or behind it; `fault`
 * then tells what is damaged. A store that fails leaves the list on the device: read the device, lend it and open it again. A work space that is
 * not 16,384 bytes is refused here too. */
static inline purse_outcome purse_box_open(purse_box *b, purse_write_block *write_block, void *context)
{
    purse_outcome o = { PURSE_OK, PURSE_FORCE_UNKNOWN, 0, 0, 0, 0, 0 };
    if (b->broken)
        o.answer = PURSE_BROKEN;
    else if (b->work_len != PURSE_WORK)
        o.answer = PURSE_WORK_SIZE;
    else
        o.answer = purse_open(b->device, b->len, &b->session, &o.fault);
    if (o.answer != PURSE_OK)
        return o;
    if (b->session.phase == PURSE_READY) {
        o.force = PURSE_NOT_IN_FORCE;
        return o;
    }
    o = purse_box_store_all(b, write_block, context, purse_box_listed(b) + 1, 0);
    if (o.answer != PURSE_OK)
        return o;
    o.answer = purse_open(b->device, b->len, &b->session, &o.fault);
    if (o.answer != PURSE_OK)
        o.force = PURSE_FORCE_UNKNOWN;
    return o;
}

/* Commits the transaction and stores it, each block by write_block. PURSE_OK: it is in force and stored; else the outcome's force tells whether
 * it counts. No store at all where nothing was changed. A refused commit leaves the transaction as it is, a store that fails breaks the box. */
static inline purse_outcome purse_box_commit(purse_box *b, purse_write_block *write_block, void *context)
{
    purse_outcome o = { PURSE_BROKEN, PURSE_FORCE_UNKNOWN, 0, 0, 0, 0, 0 };
    if (b->broken)
        return o;
    o.answer = purse_commit(b->device, b->len, b->work, b->work_len, &b->session, &o.stores);
    o.force = o.answer == PURSE_OK ? PURSE_IN_FORCE : PURSE_NOT_IN_FORCE;
    if (o.stores == 0)
        return o;
    return purse_box_store_all(b, write_block, context, o.stores, o.stores / 2);
}

/* What a load has done. */
typedef struct {
    purse_outcome outcome; /* as of a commit, of the last line tried. PURSE_OK: no line is left */
    uint64_t lines;        /* lines that this call has stored: they count, whatever the answer is. The line below is not among them */
    uint64_t line;         /* the line that was refused, or that a store of failed, counted from 1; else 0 */
    uint64_t behind;       /* a store failed: the place behind that line */
} purse_load_outcome;

/* The number of the line at a place of a text: 1 and the feeds before it. */
static inline uint64_t purse_line_at(const uint8_t *text, size_t text_len, uint64_t place)
{
    uint64_t line = 1;
    for (size_t k = 0; k < text_len && k < place; k++)
        line += text[k] == 0x0a;
    return line;
}

/* Takes up the line at *place and stores it. 1: it is stored, and *place is behind it. Else *place is where to go on. */
static inline int purse_box_load_line(purse_box *b, const uint8_t *text, size_t text_len, uint64_t *place, purse_write_block *write_block,
    void *context, purse_load_outcome *o)
{
    static const purse_outcome nothing = { PURSE_OK, PURSE_IN_FORCE, 0, 0, 0, 0, 0 };
    purse_load_answer step;
    uint64_t at = *place;
    o->outcome = nothing;
    o->outcome.answer = purse_load_step(b->device, b->len, b->work, b->work_len, &b->session, text, text_len, &at, &step);
    o->line = step.line;
    if (o->outcome.answer != PURSE_OK)
        o->outcome.force = PURSE_NOT_IN_FORCE;
    if (step.kind != PURSE_LOAD_TAKEN)
        return 0;
    o->outcome = purse_box_store_all(b, write_block, context, step.stores, step.stores / 2);
    if (o->outcome.answer != PURSE_OK) {
        o->line = purse_line_at(text, text_len, *place);
        o->behind = at;
    }
    /* A line that may count is tried again: it is refused then with PURSE_TAKEN. One that was passed over would be lost. */
    if (o->outcome.force == PURSE_IN_FORCE)
        *place = at;
    return o->outcome.answer == PURSE_OK;
}

/* Loads a text from *place on, line by line, each a transaction whose blocks are stored by write_block, until no line is left (PURSE_OK). It stops
 * at the first line that is refused, which leaves nothing, and at the first store that fails, which breaks the box; the lines before stay. It
 * begins on an open box with nothing staged. *place is then where to go on: at the line named, or behind it where outcome.force is
 * PURSE_IN_FORCE. Where that is PURSE_FORCE_UNKNOWN, go on at *place: the line counts if it is refused with PURSE_TAKEN then, and `behind` is next. Of a
 * long text PURSE_LOAD_ENOUGH bytes from *place on are enough. */
static inline purse_load_outcome purse_box_load(purse_box *b, const uint8_t *text, size_t text_len, uint64_t *place, purse_write_block *write_block,
    void *context)
{
    purse_load_outcome o = { { PURSE_BROKEN, PURSE_FORCE_UNKNOWN, 0, 0, 0, 0, 0 }, 0, 0, 0 };
    if (b->broken)
        return o;
    o.outcome.answer = purse_load_begin(b->device, b->len, b->work, b->work_len, &b->session);
    o.outcome.force = PURSE_NOT_IN_FORCE;
    if (o.outcome.answer != PURSE_OK)
        return o;
    while (purse_box_load_line(b, text, text_len, place, write_block, context, &o))
        o.lines++;
    return o;
}

/* Gives up the changes of this transaction. */
static inline uint32_t purse_box_abort(purse_box *b)
{
    if (b->broken)
        return PURSE_BROKEN;
    return purse_abort(b->device, b->len, b->work, b->work_len, &b->session);
}

/* Makes an empty file. */
static inline uint32_t purse_box_create(purse_box *b, const uint8_t *name)
{
    if (b->broken)
        return PURSE_BROKEN;
    return purse_create(b->device, b->len, b->work, b->work_len, &b->session, name, PURSE_NAME);
}

/* Removes a file; its blocks are free at once. */
static inline uint32_t purse_box_remove(purse_box *b, const uint8_t *name)
{
    if (b->broken)
        return PURSE_BROKEN;
    return purse_remove(b->device, b->len, b->work, b->work_len, &b->session, name, PURSE_NAME);
}

/* Gives a file a name that no file has. */
static inline uint32_t purse_box_rename(purse_box *b, const uint8_t *name, const uint8_t *new_name)
{
    if (b->broken)
        return PURSE_BROKEN;
    return purse_rename(b->device, b->len, b->work, b->work_len, &b->session, name, PURSE_NAME, new_name, PURSE_NAME);
}

/* Writes n bytes into a file from byte x on. The file grows where they end behind it; a gap before x is zeros. */
static inline uint32_t purse_box_write(purse_box *b, const uint8_t *name, uint64_t x, const uint8_t *bytes, size_t n)
{
    if (b->broken)
        return PURSE_BROKEN;
    return purse_write(b->device, b->len, b->work, b->work_len, &b->session, name, PURSE_NAME, x, bytes, n);
}

/* Cuts a file to a size, or lengthens it by zeros. */
static inline uint32_t purse_box_set_size(purse_box *b, const uint8_t *name, uint64_t size)
{
    if (b->broken)
        return PURSE_BROKEN;
    return purse_set_size(b->device, b->len, b->work, b->work_len, &b->session, name, PURSE_NAME, size);
}

/* Reads up to n bytes of a file from byte x on, changes of this transaction included. *count: how many; the rest of the buffer stays. */
static inline uint32_t purse_box_read(const purse_box *b, const uint8_t *name, uint64_t x, uint8_t *buffer, size_t n, uint64_t *count)
{
    *count = 0;
    if (b->broken)
        return PURSE_BROKEN;
    return purse_read(b->device, b->len, b->work, b->work_len, &b->session, name, PURSE_NAME, x, buffer, n, count);
}

/* The size of a file in bytes. */
static inline uint32_t purse_box_size(const purse_box *b, const uint8_t *name, uint64_t *size)
{
    *size = 0;
    if (b->broken)
        return PURSE_BROKEN;
    return purse_size(b->device, b->len, b->work, b->work_len, &b->session, name, PURSE_NAME, size);
}

/* How many blocks are free. */
static inline uint32_t purse_box_free_count(const purse_box *b, uint64_t *count)
{
    *count = 0;
    if (b->broken)
        return PURSE_BROKEN;
    return purse_free_count(b->device, b->len, b->work, b->work_len, &b->session, count);
}

/* Name and size of the file in record i, counted from 0. An empty record, and any from 128 on, is all 0. */
static inline uint32_t purse_box_record(const purse_box *b, uint64_t i, purse_file *out)
{
    out->used = 0;
    out->size = 0;
    if (b->broken)
        return PURSE_BROKEN;
    return purse_record(b->device, b->len, b->work, b->work_len, &b->session, i, out);
}

/* Where n blocks of a file lie from its block `from` on: piece k, counted from 0. */
static inline uint32_t purse_box_nth_extent(const purse_box *b, const uint8_t *name, uint64_t from, uint64_t n, uint64_t k, purse_extent *out)
{
    out->first = 0;
    out->count = 0;
    if (b->broken)
        return PURSE_BROKEN;
    return purse_nth_extent(b->device, b->len, b->work, b->work_len, &b->session, name, PURSE_NAME, from, n, k, out);
}

/* All pieces, in turn, into a list that takes so many. *count: how many they are; the places behind them stay. */
static inline uint32_t purse_box_run_list(const purse_box *b, const uint8_t *name, uint64_t from, uint64_t n, purse_extent *list, size_t places,
    uint64_t *count)
{
    *count = 0;
    if (b->broken)
        return PURSE_BROKEN;
    return purse_run_list(b->device, b->len, b->work, b->work_len, &b->session, name, PURSE_NAME, from, n, list, places, count);
}

#ifdef __cplusplus
}
#endif

#endif
