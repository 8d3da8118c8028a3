/* Loads the printer's file into a till box: a purse for each line, a transaction for each purse.
 *
 *     tools/build capi loadapi
 *     gcc -std=c11 -Wall -Wextra -pedantic -O2 -Iinclude examples/load.c target/staticlib/libcapi.a target/staticlib/libloadapi.a -o load
 *     ./load box.img samples/monday.txt        the box must be there: ./purse format box.img 64 makes one
 *     ./load box.img samples/monday.txt 3      the same from line 3 on
 *     ./load box.img samples/monday.txt 1 12   the same from line 1 on, but the plug is pulled after twelve blocks: the next run recovers
 *
 * Exit status: 0 loaded; 1 refused or failed, and it says at which line, whether that is in force, and where to go on; 2 wrong words; 3 the
 * box is in use. The lines that it loaded before the one that is named are in force.
 */
#include "till.h"

/* At most 128 lines of at most 65 bytes are taken, and the next is refused by its first 65: no file needs more. */
static uint8_t text[PURSE_LOAD_ENOUGH];

/* The text from a line on, as much of it as is needed; how many bytes. It is read before the box is touched, and a read that fails is the end. */
static size_t read_text(const char *path, uint64_t line)
{
    FILE *file = fopen(path, "rb");
    size_t n = 0;
    int byte = 0;
    if (file == NULL)
        fail(path);
    while (line > 1 && (byte = getc(file)) != EOF)
        line -= byte == '\n';
    if (byte != EOF)
        n = fread(text, 1, sizeof text, file);
    if (ferror(file))
        fail(path);
    fclose(file);
    return n;
}

/* The box of the image file, open. None is made here. */
static void open_box(purse_box *b, till *t)
{
    t->fd = open(t->path, O_RDWR | O_CLOEXEC);
    if (t->fd < 0)
        fail(t->path);
    lend_held(b, t, lock_file(t));
    open_lent(b, t, "the change before");
}

/* Says where to go on, behind a line that was refused or that a store failed of. */
static void tell_place(const char *path, uint64_t line, purse_load_outcome o)
{
    fprintf(stderr, "%s: line %" PRIu64 ", %" PRIu64 " before it were loaded and stay; ", path, line, o.lines);
    if (o.outcome.force == PURSE_IN_FORCE)
        fprintf(stderr, "go on at line %" PRIu64 "\n", line + 1);
    else if (o.outcome.force == PURSE_FORCE_UNKNOWN)
        fprintf(stderr, "go on at line %" PRIu64 ", or at line %" PRIu64 " if that is refused with 14\n", line, line + 1);
    else
        fprintf(stderr, "go on at line %" PRIu64 " when the cause is gone\n", line);
}

/* The load. `first` is the number that the text's first line has in its file. */
static void load(purse_box *b, till *t, const char *path, uint64_t first, size_t n)
{
    char what[40];
    uint64_t place = 0;
    purse_load_outcome o = purse_box_load(b, text, n, &place, write_block, t);
    uint64_t line = first - 1 + o.line;
    if (o.line != 0)
        tell_place(path, line, o);
    snprintf(what, sizeof what, "line %" PRIu64, line);
    must_be_stored(t, what, o.outcome);
    printf("loaded %" PRIu64 " line%s\n", o.lines, o.lines == 1 ? "" : "s");
}

/* A number of a word of at most nine digits, from `least` on; -1: it is none. */
static long number(const char *word, long least)
{
    long n = 0;
    size_t k = 0;
    for (; k < 9 && word[k] >= '0' && word[k] <= '9'; k++)
        n = 10 * n + (word[k] - '0');
    return k != 0 && word[k] == 0 && n >= least ? n : -1;
}

int main(int argc, char **argv)
{
    purse_box b;
    till t = { .stores_left = -1 };
    long line = argc > 3 ? number(argv[3], 1) : 1;
    size_t n;
    if (argc == 5)
        t.stores_left = number(argv[4], 0);
    if (argc < 3 || argc > 5 || line < 1 || (argc == 5 && t.stores_left < 0)) {
        fprintf(stderr, "load IMAGE FILE [LINE [STORES]]\n");
        return WRONG_WORDS;
    }
    t.path = argv[1];
    n = read_text(argv[2], (uint64_t)line);
    open_box(&b, &t);
    load(&b, &t, argv[2], (uint64_t)line, n);
    return 0;
}
