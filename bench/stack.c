/* How deep the stack of each call goes: each runs on a stack painted before, and the lowest byte that lost its paint tells. A row is the deepest
 * of all cases: an empty store, one with small files, one with a file in as many pieces as it takes; calls that are accepted and calls that are
 * refused. What a function reserves and does not write is not seen. */
#define _XOPEN_SOURCE 700
#include <stdio.h>
#include <stdlib.h>
#include <string.h>
#include <ucontext.h>

#include "purse.h"

enum { STACK = 32768, ROWS = 24 };

static uint8_t stack[STACK] __attribute__((aligned(64)));
static uint8_t device[PURSE_MOST_BLOCKS * PURSE_BLOCK], kept_device[sizeof device], bytes[PURSE_FILE_MAX];
static uint8_t work[PURSE_WORK], kept_work[PURSE_WORK];
static purse_box box, kept_box;
static size_t len;

static const uint8_t A[8] = { 1, 2, 3, 4, 5, 6, 7, 8 };
static const uint8_t B[8] = { 8, 7, 6, 5, 4, 3, 2, 1 };
static const uint8_t *name = A;
static uint64_t x, n;
static volatile uint64_t answer; /* so that no call is the last thing its function does */
static purse_store done;
static purse_file file;
static purse_extent list[PURSE_EXTENTS_MAX];
static purse_load_answer step;
static const char *text = "";
static uint8_t output[99];
static uint64_t line;

static void must(int ok, const char *what)
{
    if (!ok) {
        fprintf(stderr, "stack: %s\n", what);
        exit(1);
    }
}

/* ---- The calls */

#define LENT device, len, work, sizeof work, &box.session

static int write_block(void *context, uint64_t block, const uint8_t *from)
{
    (void)context, (void)block, (void)from;
    return 0;
}

static void no_call(void) {}

static void do_format(void) { answer = purse_format(device, len, &box.session); }
static void do_open(void) { answer = purse_open(device, len, &box.session, &n); }
static void do_advance(void) { answer = purse_advance(LENT, &done); }
static void do_commit(void) { answer = purse_commit(LENT, &n); }
static void do_abort(void) { answer = purse_abort(LENT); }
static void do_create(void) { answer = purse_create(LENT, name, 8); }
static void do_remove(void) { answer = purse_remove(LENT, name, 8); }
static void do_rename(void) { answer = purse_rename(LENT, name, 8, B, 8); }
static void do_write(void) { answer = purse_write(LENT, name, 8, x, bytes, (size_t)n); }
static void do_set_size(void) { answer = purse_set_size(LENT, name, 8, n); }
static void do_read(void) { answer = purse_read(LENT, name, 8, x, bytes, sizeof bytes, &n); }
static void do_size(void) { answer = purse_size(LENT, name, 8, &n); }
static void do_free_count(void) { answer = purse_free_count(LENT, &n); }
static void do_record(void) { answer = purse_record(LENT, x, &file); }
static void do_nth_extent(void) { answer = purse_nth_extent(LENT, name, 8, 0, 4096, x, list); }
static void do_run_list(void) { answer = purse_run_list(LENT, name, 8, 0, 4096, list, (size_t)x, &n); }
static void do_load_begin(void) { answer = purse_load_begin(LENT); }
static void do_load_step(void) { answer = purse_load_step(LENT, (const uint8_t *)text, strlen(text), &n, &step); }
static void do_box_load(void) { answer = purse_box_load(&box, (const uint8_t *)text, strlen(text), &n, write_block, NULL).lines; }
static void do_convert_h(void) { answer = purse_convert_to_h((const uint8_t *)text, strlen(text), output, (size_t)x, &n, &line); }
static void do_convert_d(void) { answer = purse_convert_to_d((const uint8_t *)text, strlen(text), output, (size_t)x, &n, &line); }
static void do_box_open(void) { answer = purse_box_open(&box, write_block, NULL).answer; }
static void do_box_commit(void) { answer = purse_box_commit(&box, write_block, NULL).answer; }

typedef struct {
    const char *what;
    void (*call)(void);
    size_t depth[2]; /* for N = 64 and N = 4,096 */
} row;

static row rows[ROWS] = {
    { "format", do_format, { 0 } },
    { "open", do_open, { 0 } },
    { "advance", do_advance, { 0 } },
    { "commit", do_commit, { 0 } },
    { "abort", do_abort, { 0 } },
    { "create", do_create, { 0 } },
    { "remove", do_remove, { 0 } },
    { "rename", do_rename, { 0 } },
    { "write", do_write, { 0 } },
    { "set size", do_set_size, { 0 } },
    { "read", do_read, { 0 } },
    { "size", do_size, { 0 } },
    { "free count", do_free_count, { 0 } },
    { "record", do_record, { 0 } },
    { "n-th extent", do_nth_extent, { 0 } },
    { "run list", do_run_list, { 0 } },
    { "load begin", do_load_begin, { 0 } },
    { "load step", do_load_step, { 0 } },
    { "convert to H", do_convert_h, { 0 } },
    { "convert to D", do_convert_d, { 0 } },
    { "purse_box_open", do_box_open, { 0 } },
    { "purse_box_commit", do_box_commit, { 0 } },
    { "purse_box_load", do_box_load, { 0 } },
};

/* ---- The painted stack */

static ucontext_t here, there;
static void (*current)(void);
static uint8_t paint;
static size_t low; /* bytes of the stack that kept their paint */

/* The call, and the paint looked at before anything else runs on this stack. */
static void enter(void)
{
    current();
    for (low = 0; low < sizeof stack && stack[low] == paint; low++)
        ;
}

/* Bytes of stack from `enter` on that a call has written. */
static size_t painted(void (*call)(void), uint8_t with)
{
    paint = with;
    memset(stack, paint, sizeof stack);
    must(getcontext(&there) == 0, "getcontext");
    there.uc_stack.ss_sp = stack;
    there.uc_stack.ss_size = sizeof stack;
    there.uc_link = &here;
    current = call;
    makecontext(&there, enter, 0);
    must(swapcontext(&here, &there) == 0, "swapcontext");
    must(low > 4096, "the painted stack is too small");
    return sizeof stack - low;
}

static void keep(void)
{
    memcpy(kept_device, device, len);
    memcpy(kept_work, work, sizeof work);
    kept_box = box;
}

static void back(void)
{
    memcpy(device, kept_device, len);
    memcpy(work, kept_work, sizeof work);
    box = kept_box;
}

/* A call in the state that now is, with two paints: what it writes below its caller, the address to go back to included. The state behind it
 * stays. */
static void measure(void (*call)(void))
{
    uint64_t was_n = n;
    size_t depth, other, empty = painted(no_call, 0xa5) - sizeof(void *);
    row *r = rows;
    while (r->call != call)
        r++;
    keep();
    painted(call, 0); /* the first call of all may have the linker on its stack */
    back();
    n = was_n;
    depth = painted(call, 0xa5);
    back();
    n = was_n;
    other = painted(call, 0x5a);
    depth = (depth > other ? depth : other) - empty;
    if (depth > r->depth[len > 32768])
        r->depth[len > 32768] = depth;
}

/* The same, and the state goes back. */
static void try(void (*call)(void))
{
    measure(call);
    back();
}

/* ---- The cases */

static void commit_all(void)
{
    must(purse_box_commit(&box, write_block, NULL).answer == 0, "commit");
}

static void fresh(void)
{
    purse_box_lend(&box, device, len, work, sizeof work);
    must(purse_box_format(&box) == 0 && purse_box_open(&box, write_block, NULL).answer == 0, "format");
}

/* As many small files as half of the free blocks take. */
static void small_files(unsigned files)
{
    uint8_t each[8] = { 4 };
    fresh();
    for (unsigned i = 0; i < files; i++) {
        each[6] = (uint8_t)i;
        must(purse_box_create(&box, i == 0 ? A : each) == 0 && purse_box_write(&box, i == 0 ? A : each, 0, bytes, 600) == 0, "small file");
        commit_all();
    }
}

/* File A in as many pieces as the device and the limit of 512 take: another file grows in turn with it. */
static void pieces(void)
{
    static const uint8_t other[8] = { 5 };
    fresh();
    must(purse_box_create(&box, A) == 0 && purse_box_create(&box, other) == 0, "two files");
    for (uint64_t k = 1; k <= PURSE_EXTENTS_MAX; k++) {
        if (purse_box_set_size(&box, A, k * PURSE_BLOCK) != 0 || (k < PURSE_EXTENTS_MAX && purse_box_set_size(&box, other, k * PURSE_BLOCK) != 0))
            break;
        commit_all();
    }
    must(purse_box_abort(&box) == 0, "abort");
}

/* Every store of the commit of what is staged, cut behind each, and every store of the recovery. */
static void stores(void)
{
    purse_box start;
    static uint8_t image[sizeof device];
    try(do_commit);
    try(do_box_commit);
    must(purse_commit(LENT, &n) == 0, "commit");
    while (box.session.phase == PURSE_COMMITTING) {
        measure(do_advance);
        start = box;
        memcpy(image, device, len);
        memset(&box.session, 0, sizeof box.session);
        try(do_open);
        try(do_box_open);
        must(purse_open(device, len, &box.session, &n) == 0, "open behind a cut");
        while (box.session.phase == PURSE_RECOVERING)
            measure(do_advance);
        memcpy(device, image, len);
        box = start;
    }
}

/* The calls that only read. */
static void reading(void)
{
    static const uint64_t places[] = { 0, 500, 5000, 100000, 1048000 };
    try(do_size);
    try(do_free_count);
    for (x = 0; x < 4096; x = 3 * x + 1) {
        try(do_record);
        try(do_nth_extent);
    }
    x = 1;
    try(do_run_list);
    x = PURSE_EXTENTS_MAX;
    try(do_run_list);
    for (size_t p = 0; p < sizeof places / sizeof places[0]; p++) {
        x = places[p];
        try(do_read);
    }
}

/* The calls that change a file, with this size or so many bytes. */
static void changing(uint64_t size)
{
    static const uint64_t places[] = { 0, 500, 5000, 100000, 1048000 };
    n = size;
    try(do_set_size);
    for (size_t p = 0; p < sizeof places / sizeof places[0]; p++) {
        x = places[p];
        n = size < sizeof bytes ? size : 0;
        try(do_write);
    }
}

/* Loads: of lines of each form, of refused ones, and each store of a line. */
static void loading(void)
{
    static const char *const texts[] = { "", "x\n", "04A1B2C3;H;1250\n", "72057594037927935;D;10000000\n04A1B2C3D4E5F6;H;99999999\n",
        "04A1B2C3;H;1\n3283263748;D;1\n", "00000000000000000000000000000000000000000000000000000000000000000000000000000000" };
    for (size_t i = 0; i < sizeof texts / sizeof texts[0]; i++) {
        text = texts[i];
        n = 0;
        try(do_load_begin);
        n = 0;
        try(do_load_step);
        n = 0;
        try(do_box_load);
    }
    text = texts[2];
    n = 0;
    if (purse_load_step(LENT, (const uint8_t *)text, strlen(text), &n, &step) != 0)
        return;
    while (box.session.phase == PURSE_COMMITTING)
        measure(do_load_step);
    must(purse_box_remove(&box, (const uint8_t *)"\4\4\xa1\xb2\xc3\0\0\0") == 0, "remove");
    commit_all();
}

/* Conversions of lines of each form, of refused ones, and into a buffer that is too short. */
static void converting(void)
{
    static const char *const texts[] = { "", "x\n", "04A1B2C3;H;1250\n04A1B2C3D4E5F6;H;99999999\n", "3283263748;D;0\n72057594037927935;D;10000000\n",
        "00000000000000000000000000000000000000000000000000000000000000000000000000000000" };
    for (size_t i = 0; i < sizeof texts / sizeof texts[0]; i++)
        for (x = 0; x < 2 * sizeof output; x += sizeof output) {
            text = texts[i];
            try(do_convert_h);
            try(do_convert_d);
        }
}

/* Each call on the store as it is, with arguments that lead far, and with changes that wait for their commit. */
static void calls(void)
{
    static const uint64_t sizes[] = { 0, 8, 600, 5000, 14000, 40000, 200000, 1048576, 1048577 };
    try(do_format);
    try(do_open);
    try(do_box_open);
    try(do_abort);
    try(do_advance);
    loading();
    converting();
    for (unsigned k = 0; k < 2; k++) {
        name = k == 0 ? A : B;
        try(do_create);
        try(do_remove);
        try(do_rename);
        reading();
        for (size_t i = 0; i < sizeof sizes / sizeof sizes[0]; i++)
            changing(sizes[i]);
    }
    name = A;
    for (size_t i = 1; i < 5; i++)
        if (purse_box_write(&box, A, 300, bytes, (size_t)sizes[i]) == 0) {
            reading();
            changing(sizes[i]);
            try(do_remove);
            stores();
        }
}

int main(void)
{
    static const size_t blocks[2] = { PURSE_FEWEST_BLOCKS, PURSE_MOST_BLOCKS };
    for (int k = 0; k < 2; k++) {
        len = blocks[k] * PURSE_BLOCK;
        fresh();
        calls();
        small_files(k == 0 ? 6 : 128);
        calls();
        pieces();
        calls();
    }
    printf("\nstack of each call, bytes\n%-52s%12s%12s\n", "", "N = 64", "N = 4,096");
    for (const row *r = rows; r->what != NULL; r++)
        printf("%-52s%12zu%12zu\n", r->what, r->depth[0], r->depth[1]);
    return 0;
}
