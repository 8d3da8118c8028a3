/* The conversions: the worked examples, lines of every form both ways, each refusal, buffers of every length, and random texts there and back. Every
 * byte of the buffer, and of the memory around it, is compared behind every call. It links libconvertapi.a alone. Prints the first 20 differences, then
 * the result. */
#include <inttypes.h>
#include <stdio.h>
#include <string.h>

#include "purse.h"

typedef char converted_is_laid_out[sizeof(purse_converted) == 24 && offsetof(purse_converted, line) == 8
    && offsetof(purse_converted, length) == 16 ? 1 : -1];

#define AROUND 40u /* bytes before the buffer, which begins there in the memory */

static uint8_t memory[100000], before[sizeof memory], kept[sizeof memory];
static unsigned tests, failures;

static void same(const char *what, uint64_t got, uint64_t want)
{
    tests++;
    if (got != want && failures++ < 20)
        printf("%s: %" PRIu64 ", not %" PRIu64 "\n", what, got, want);
}

/* What a conversion is to answer: a refusal with its line, else the output. */
typedef struct {
    uint32_t refusal;
    uint64_t line;
    const char *output;
    size_t length;
} answer;

static answer gives(const char *output) { return (answer){ 0, 0, output, strlen(output) }; }

static answer refuses(uint32_t refusal, uint64_t line) { return (answer){ refusal, line, "", 0 }; }

/* The call with the wanted letter. */
static uint32_t call(char wanted, const uint8_t *text, size_t n, uint8_t *out, size_t most, uint64_t *length, uint64_t *line)
{
    return (wanted == 'H' ? purse_convert_to_h : purse_convert_to_d)(text, n, out, most, length, line);
}

/* Bytes that tell their place, and how often they were laid. */
static void lay(void)
{
    static unsigned round;
    round++;
    for (size_t k = 0; k < sizeof memory; k++)
        memory[k] = (uint8_t)(k * 13 + round * 101 + (k >> 8));
    memcpy(before, memory, sizeof memory);
}

/* One conversion into a buffer of `most` bytes: its answer, and every byte. */
static void converts(const char *what, char wanted, const void *text, size_t n, size_t most, answer want)
{
    uint64_t length = 77, line = 77;
    uint8_t *out = memory + AROUND;
    purse_converted r;
    lay();
    memcpy(kept, text, n);
    same(what, call(wanted, (const uint8_t *)text, n, out, most, &length, &line), want.refusal);
    same("line", line, want.line);
    same("length", length, want.length);
    memcpy(before + AROUND, want.output, want.length);
    same("bytes of the buffer, or around it", (uint64_t)(memcmp(memory, before, sizeof memory) != 0), 0);
    r = (wanted == 'H' ? purse_convert_h_v : purse_convert_d_v)((const uint8_t *)text, n, out, most);
    same("exported function", (uint64_t)(r.refusal != want.refusal || r.line != want.line || r.length != want.length), 0);
    same("bytes behind a second call", (uint64_t)(memcmp(memory, before, sizeof memory) != 0), 0);
    same("the text", (uint64_t)(memcmp(kept, text, n) != 0), 0);
}

/* The same with a string, into buffers around the output's length. */
static void into_all(const char *what, char wanted, const char *text, answer want)
{
    size_t n = strlen(text);
    for (size_t more = 0; more < 3; more++)
        converts(what, wanted, text, n, want.length + more, want);
    converts(what, wanted, text, n, 5000, want);
    if (want.refusal == 0 && want.length > 0) {
        converts("a byte too few", wanted, text, n, want.length - 1, refuses(PURSE_OUTPUT_TOO_LONG, 0));
        converts("a buffer of 0", wanted, text, n, 0, refuses(PURSE_OUTPUT_TOO_LONG, 0));
    }
}

/* ---- The worked examples */

#define H_TEXT "04A1B2C3;H;1250\n04A1B2C3D4E5F6;H;0\n"
#define D_TEXT "3283263748;D;1250\n69495546249912580;D;0\n"

static void examples(void)
{
    static const struct {
        const char *text;
        char wanted;
        size_t most;
        uint32_t refusal;
        uint64_t line;
        const char *output;
    } list[] = {
        { H_TEXT, 'D', 99, 0, 0, D_TEXT },
        { D_TEXT, 'H', 99, 0, 0, H_TEXT },
        { H_TEXT, 'D', 41, 0, 0, D_TEXT },
        { H_TEXT, 'D', 40, 0, 0, D_TEXT },
        { H_TEXT, 'D', 39, PURSE_OUTPUT_TOO_LONG, 0, "" },
        { H_TEXT, 'H', 99, PURSE_SAME_SPELLING, 1, "" },
        { "3283263748;D;1\n" H_TEXT "x\n", 'H', 99, PURSE_SAME_SPELLING, 2, "" },
        { "04A1B2C3;H;1250\n04A1B2C3D4E5F6;H;0", 'D', 99, PURSE_BAD_LINE, 2, "" },
        { H_TEXT "zz\n", 'D', 0, PURSE_BAD_LINE, 3, "" },
        { "", 'D', 0, 0, 0, "" },
        { "", 'H', 0, 0, 0, "" },
        { "04A1B2C3D4E5F6A7B8C9;H;1\n", 'D', 99, PURSE_BAD_LINE, 1, "" },
        { "04A1B2C3D4E5F6A7B8C9;H;1\n", 'H', 99, PURSE_BAD_LINE, 1, "" },
    };
    for (size_t i = 0; i < sizeof list / sizeof list[0]; i++) {
        answer want = { list[i].refusal, list[i].line, list[i].output, strlen(list[i].output) };
        converts(list[i].text, list[i].wanted, list[i].text, strlen(list[i].text), list[i].most, want);
    }
    same("bytes of an example", strlen(D_TEXT) * 100 + strlen(H_TEXT), 4035);
}

/* Buffers of every length, texts of every length. */
static void lengths(void)
{
    static const char bad[] = H_TEXT "zz\n";
    for (size_t most = 0; most < 100; most++) {
        converts("to D", 'D', H_TEXT, 35, most, most < 40 ? refuses(PURSE_OUTPUT_TOO_LONG, 0) : gives(D_TEXT));
        converts("to H", 'H', D_TEXT, 40, most, most < 35 ? refuses(PURSE_OUTPUT_TOO_LONG, 0) : gives(H_TEXT));
        converts("a bad last line", 'D', bad, 38, most, refuses(PURSE_BAD_LINE, 3));
        converts("the wanted spelling", 'H', "3283263748;D;1\n" H_TEXT, 50, most, refuses(PURSE_SAME_SPELLING, 2));
    }
    for (size_t n = 0; n <= 35; n++) {
        answer part = { 0, 0, D_TEXT, n == 0 ? 0 : n == 16 ? 18 : 40 };
        converts("a part of the text", 'D', H_TEXT, n, 99, n == 0 || n == 16 || n == 35 ? part : refuses(PURSE_BAD_LINE, n < 16 ? 1 : 2));
    }
}

/* ---- Lines */

/* Both spellings of a line. */
static const char *const pairs[][2] = {
    { "04A1B2C3;H;1250\n", "3283263748;D;1250\n" },
    { "04A1B2C3D4E5F6;H;0\n", "69495546249912580;D;0\n" },
    { "00000000;H;99999999\n", "0000000000;D;99999999\n" },
    { "00000000000000;H;1\n", "00000000000000000;D;1\n" },
    { "01000000;H;7\n", "0000000001;D;7\n" },
    { "00000001;H;7\n", "0016777216;D;7\n" },
    { "01000000000000;H;10\n", "00000000000000001;D;10\n" },
    { "00000000000001;H;10\n", "00281474976710656;D;10\n" },
    { "FFFFFFFF;H;10000000\n", "4294967295;D;10000000\n" },
    { "FFFFFFFFFFFFFF;H;10000000\n", "72057594037927935;D;10000000\n" },
    { "0A1B2C3D;H;9\n", "1026300682;D;9\n" },
    { "9C3E5A07;H;5000\n", "0123354780;D;5000\n" },
};

/* Lines that are not of the form. */
static const char *const bad_lines[] = { "", ";H;", "04A1B2C3;H", "04A1B2C3;H;", "04A1B2C3;H;1;", ";04A1B2C3;H;1", "04a1b2c3;H;1", "04A1B2C;H;1",
    "04A1B2C3D;H;1", "04A1B2C3;h;1", "04A1B2C3;X;1", "04A1B2C3;;1", "04A1B2C3;H;01", "04A1B2C3;H;00", "04A1B2C3;H;123456789", "04A1B2C3;H;-1",
    "04A1B2C3;H;1 ", " 04A1B2C3;H;1", "04A1B2C3;H;1\r", "04A1B2C3,H,1", "4294967296;D;1", "9999999999;D;1", "328326374;D;1", "03283263748;D;1",
    "72057594037927936;D;1", "3283263748;H;1", "04A1B2C3;D;1", "04A1B2C3;H;1.5", "G4A1B2C3;H;1", "04A1B2C3D4E5F6A7B8C9;H;1", "04A1B2C3;H;+1",
    "04A1B2C3;H;\xB2", "99999999999999999;D;1", "04A1B2C3;HH;1", "04A1B2C3;H;1;2", ";;", "#", "3283263748;D;01", "3283263748;D;", "3283263748;d;1",
    "3283263748;D;123456789", "-283263748;D;1", "3283263748;D;1\r" };

static void lines(void)
{
    char text[100];
    for (size_t i = 0; i < sizeof pairs / sizeof pairs[0]; i++) {
        const char *h = pairs[i][0], *d = pairs[i][1];
        into_all(h, 'D', h, gives(d));
        into_all(d, 'H', d, gives(h));
        into_all(h, 'H', h, refuses(PURSE_SAME_SPELLING, 1));
        into_all(d, 'D', d, refuses(PURSE_SAME_SPELLING, 1));
        converts("no feed", 'D', h, strlen(h) - 1, 99, refuses(PURSE_BAD_LINE, 1));
        converts("no feed, and the wanted spelling", 'H', h, strlen(h) - 1, 99, refuses(PURSE_BAD_LINE, 1));
    }
    for (size_t i = 0; i < sizeof bad_lines / sizeof bad_lines[0]; i++) {
        snprintf(text, sizeof text, "%s\n04A1B2C3;H;1\n", bad_lines[i]);
        into_all(text, 'D', text, refuses(PURSE_BAD_LINE, 1));
        into_all(text, 'H', text, refuses(PURSE_BAD_LINE, 1));
        snprintf(text, sizeof text, H_TEXT "%s\n", bad_lines[i]);
        into_all(text, 'D', text, refuses(PURSE_BAD_LINE, 3));
        snprintf(text, sizeof text, D_TEXT "%s\n", bad_lines[i]);
        into_all(text, 'H', text, refuses(PURSE_BAD_LINE, 3));
    }
}

/* Lines of 64 and of 65 bytes, with a feed and without; and which line decides. */
static void order(void)
{
    char zeros[200], text[300];
    memset(zeros, '0', sizeof zeros);
    for (int to_d = 0; to_d < 2; to_d++) {
        char wanted = to_d ? 'D' : 'H';
        const char *good = to_d ? "04A1B2C3;H;1\n" : "3283263748;D;1\n", *done = to_d ? "3283263748;D;1\n" : "04A1B2C3;H;1\n";
        for (int n = 64; n <= 66; n++) {
            uint32_t refusal = n == 64 ? PURSE_BAD_LINE : PURSE_LINE_TOO_LONG;
            converts("no feed", wanted, zeros, (size_t)n, 99, refuses(refusal, 1));
            snprintf(text, sizeof text, "%.*s\n", n, zeros);
            into_all("a long line", wanted, text, refuses(refusal, 1));
            snprintf(text, sizeof text, "%s%.*s\n%s", good, n, zeros, done);
            into_all("a long line before one in the wanted spelling", wanted, text, refuses(refusal, 2));
            snprintf(text, sizeof text, "%s%s%.*s\nx\n", good, done, n, zeros);
            into_all("one in the wanted spelling before a long line", wanted, text, refuses(PURSE_SAME_SPELLING, 2));
        }
        snprintf(text, sizeof text, "%sx\n%.200s", good, zeros);
        into_all("a bad line before a long one", wanted, text, refuses(PURSE_BAD_LINE, 2));
        snprintf(text, sizeof text, "%sx\n%s", good, done);
        into_all("a bad line before one in the wanted spelling", wanted, text, refuses(PURSE_BAD_LINE, 2));
        snprintf(text, sizeof text, "%.199s;%c;1\n", zeros, wanted);
        into_all("a long line in the wanted spelling", wanted, text, refuses(PURSE_LINE_TOO_LONG, 1));
        snprintf(text, sizeof text, "x;%c;1\n", wanted);
        into_all("a bad line in the wanted spelling", wanted, text, refuses(PURSE_BAD_LINE, 1));
    }
    into_all("a card that stands twice", 'D', H_TEXT H_TEXT, gives(D_TEXT D_TEXT));
    into_all("one feed", 'D', "\n", refuses(PURSE_BAD_LINE, 1));
}

/* ---- Long texts */

static uint32_t draw(uint32_t below)
{
    static uint64_t state = 1;
    state = state * 6364136223846793005u + 1442695040888963407u;
    return (uint32_t)(state >> 33) % below;
}

/* A random card: both its lines. */
static void random_card(char *h, char *d)
{
    int bytes = draw(2) ? 7 : 4, one = (int)draw(8);
    uint32_t cents = draw(4) ? draw(100000000) : draw(12);
    uint64_t number = 0;
    for (int k = 0; k < bytes; k++) {
        uint32_t byte = one == 0 ? 0 : one == 1 ? 255 : draw(256);
        number |= (uint64_t)byte << (8 * k);
        h += sprintf(h, "%02" PRIX32, byte);
    }
    sprintf(h, ";H;%" PRIu32 "\n", cents);
    sprintf(d, "%0*" PRIu64 ";D;%" PRIu32 "\n", bytes == 4 ? 10 : 17, number, cents);
}

/* Random texts there and back, at odd addresses, into buffers that just fit or just do not. */
static void there_and_back(void)
{
    static char h[30000], d[36000];
    for (int round = 0; round < 400; round++) {
        size_t i = (size_t)draw(16), j = (size_t)draw(16), n, m;
        char *hs = h + i, *ds = d + j;
        for (uint32_t k = draw(round % 40 == 0 ? 1000 : 20) + 1; k > 0; k--) {
            random_card(hs, ds);
            hs += strlen(hs);
            ds += strlen(ds);
        }
        n = (size_t)(hs - (h + i));
        m = (size_t)(ds - (d + j));
        converts("random, to D", 'D', h + i, n, m + draw(3), (answer){ 0, 0, d + j, m });
        converts("random, back to H", 'H', d + j, m, n + draw(3), (answer){ 0, 0, h + i, n });
        converts("random, to D, too short", 'D', h + i, n, m - 1 - draw((uint32_t)m), refuses(PURSE_OUTPUT_TOO_LONG, 0));
        converts("random, to H, too short", 'H', d + j, m, n - 1 - draw((uint32_t)n), refuses(PURSE_OUTPUT_TOO_LONG, 0));
        same("a sixth more is enough", m <= n + n / 6 && n <= m, 1);
    }
}

/* A thousand of the lines that grow most: they fit, and a bad one behind them is found, in the shortest buffer too. */
static void growing(void)
{
    static const char *const most[][2] = { { "FFFFFFFF;H;0\n", "4294967295;D;0\n" }, { "FFFFFFFFFFFFFF;H;0\n", "72057594037927935;D;0\n" } };
    static char h[20001], d[22001];
    for (int which = 0; which < 2; which++) {
        size_t n = strlen(most[which][0]), m = strlen(most[which][1]);
        same("a line and how it grows", n * 100 + m, which == 0 ? 1315 : 1922);
        for (size_t k = 0; k < 1000; k++) {
            memcpy(h + k * n, most[which][0], n);
            memcpy(d + k * m, most[which][1], m);
        }
        converts("a thousand lines", 'D', h, 1000 * n, 1000 * n + 1000 * n / 6, (answer){ 0, 0, d, 1000 * m });
        converts("a thousand lines back", 'H', d, 1000 * m, 1000 * n, (answer){ 0, 0, h, 1000 * n });
        h[1000 * n] = 'x';
        converts("a byte behind a thousand lines", 'D', h, 1000 * n + 1, 0, refuses(PURSE_BAD_LINE, 1001));
        converts("a byte less of a thousand lines", 'D', h, 1000 * n - 1, 50000, refuses(PURSE_BAD_LINE, 1000));
    }
}

/* NULL where the length is 0, and the sentences. */
static void nothing_lent(void)
{
    uint64_t length = 5, line = 5;
    same("no text, no buffer", purse_convert_to_d(NULL, 0, NULL, 0, &length, &line) + length + line, 0);
    length = line = 5;
    same("no text, no buffer", purse_convert_to_h(NULL, 0, NULL, 0, &length, &line) + length + line, 0);
    same("no buffer", purse_convert_to_d((const uint8_t *)H_TEXT, 35, NULL, 0, &length, &line), PURSE_OUTPUT_TOO_LONG);
    same("neither line nor length", length + line, 0);
    same("no buffer, a line", purse_convert_to_h((const uint8_t *)H_TEXT, 35, NULL, 0, &length, &line), PURSE_SAME_SPELLING);
    same("its line", length * 10 + line, 1);
    same("24", (uint64_t)strcmp(purse_refusal_text(24), "the line is already in the wanted spelling"), 0);
    same("25", (uint64_t)strcmp(purse_refusal_text(25), "the output is longer than the buffer"), 0);
}

int main(void)
{
    examples();
    lengths();
    lines();
    order();
    there_and_back();
    growing();
    nothing_lent();
    printf("%u tests, %u failed\n", tests, failures);
    return failures != 0;
}
