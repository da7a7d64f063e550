/* The show program under a fuzzer that goes by coverage (libFuzzer): each input is given to the compiled program, and what it prints must be what this reading of the scope
 * document makes of the same bytes through the C names. Built and run by host/fuzz; NOVLIZEB_SHOW names the program.
 *
 * The fuzzer sees the branches of the reading below, and beside them what was printed (how many lines of each kind, which refusal), so that it looks for pages that print otherwise. Half of
 * its changes are single digits, which leave an input as well made as it was. */
#define _GNU_SOURCE
#include "../include/novlizeb.h"

#include <errno.h>
#include <fcntl.h>
#include <spawn.h>
#include <stdio.h>
#include <stdlib.h>
#include <string.h>
#include <sys/mman.h>
#include <sys/wait.h>
#include <unistd.h>

#define SIDE 16u
#define CAPACITY 64u
#define MOST_DOTS (3 * SIDE * 2 * SIDE)
#define MOST_TEXT 16384u

extern char **environ;
size_t LLVMFuzzerMutate(uint8_t *data, size_t size, size_t most);
int LLVMFuzzerTestOneInput(const uint8_t *data, size_t size);
size_t LLVMFuzzerCustomMutator(uint8_t *data, size_t size, size_t most, unsigned seed);

__attribute__((section("__libfuzzer_extra_counters"))) static uint8_t printed_lines[9][64];

/* ---- What must be printed ---- */

static const novlizeb_sheet sheet = {1, 1.0, 1, 1.0, 4.0, 0.5, 4.0, 8.0, 1.0, 1, 0.5, 3.0, 0.5, 0.5, 3.0, 1.0, 0.0, 0.0};

static int digit(uint8_t c)
{
    if (c >= '0' && c <= '9') return c - '0';
    if (c >= 'A' && c <= 'F') return c - 'A' + 10;
    return -1;
}

/* The number in n digits, and whether they all are digits. */
static int number(const uint8_t *at, unsigned n, uint64_t *value)
{
    *value = 0;
    for (unsigned k = 0; k < n; k++) {
        int d = digit(at[k]);
        if (d < 0) return 0;
        *value = *value * 16 + (uint64_t)d;
    }
    return 1;
}

static double of_bits(uint64_t bits)
{
    double x;
    memcpy(&x, &bits, sizeof x);
    return x;
}

typedef struct {
    uint32_t width, height;
    double skew, slope;
    uint8_t mask[SIDE * SIDE];
} leaf;

static int read_row(leaf *l, uint32_t y, const uint8_t *at, size_t digits)
{
    for (size_t k = 0; k < digits; k++) {
        int d = digit(at[k]);
        if (d < 0) return 0;
        for (uint32_t b = 0; b < 4; b++) {
            uint32_t x = 4 * (uint32_t)k + b;
            int dot = d >> (3 - b) & 1;
            if (x < l->width)
                l->mask[y * l->width + x] = (uint8_t)dot;
            else if (dot)
                return 0;
        }
    }
    return 1;
}

static int read_leaf(leaf *l, const uint8_t *data, size_t size)
{
    uint64_t width, height, skew, slope;
    if (size < 41 || data[40] != '\n') return 0;
    if (!number(data, 4, &width) || !number(data + 4, 4, &height) || !number(data + 8, 16, &skew) || !number(data + 24, 16, &slope)) return 0;
    if (width > SIDE || height > SIDE) return 0;
    l->width = (uint32_t)width;
    l->height = (uint32_t)height;
    l->skew = of_bits(skew);
    l->slope = of_bits(slope);
    size_t digits = (l->width + 3) / 4;
    if (size != 41 + l->height * (digits + 1)) return 0;
    for (uint32_t y = 0; y < l->height; y++) {
        const uint8_t *row = data + 41 + y * (digits + 1);
        if (row[digits] != '\n' || !read_row(l, y, row, digits)) return 0;
    }
    return 1;
}

static size_t refusal(uint8_t *text, uint32_t n) { return (size_t)sprintf((char *)text, "FF%02X\n", (unsigned)n); }

static size_t expected(uint8_t *text, const uint8_t *data, size_t size)
{
    static uint32_t store[64 + SIDE + 2 * SIDE + 6 * SIDE + 40 * CAPACITY], scratch[4 * MOST_DOTS + 16 * CAPACITY + 64];
    static uint8_t ink[MOST_DOTS], kinds[MOST_DOTS];
    leaf l;
    if (!read_leaf(&l, data, size)) return refusal(text, 0);
    store[0] = 0;
    uint32_t refused = novlizeb_level_page(l.mask, (size_t)l.width * l.height, l.width, l.height, l.skew, l.slope, &sheet, CAPACITY, store, sizeof store / 4, ink, sizeof ink);
    if (!refused) refused = novlizeb_segment_page(&sheet, store, sizeof store / 4, ink, sizeof ink, kinds, sizeof kinds, scratch, sizeof scratch / 4);
    if (refused) return refusal(text, refused);
    uint64_t answer = novlizeb_write_sheet(store, sizeof store / 4, ink, sizeof ink, kinds, sizeof kinds, text, MOST_TEXT);
    if (novlizeb_number(answer)) abort();
    return novlizeb_value(answer);
}

/* ---- What the program prints ---- */

static int file_of(const char *name, int *file)
{
    if (*file < 0) *file = memfd_create(name, 0);
    return *file >= 0 && ftruncate(*file, 0) == 0 && lseek(*file, 0, SEEK_SET) == 0;
}

static void give_up(const char *what)
{
    perror(what);
    _exit(2);
}

static size_t printed(uint8_t *text, const uint8_t *data, size_t size)
{
    static int in = -1, out = -1;
    static char *program;
    if (!program && !(program = getenv("NOVLIZEB_SHOW"))) give_up("fuzz_show: NOVLIZEB_SHOW names no program");
    if (!file_of("in", &in) || !file_of("out", &out) || write(in, data, size) != (ssize_t)size || lseek(in, 0, SEEK_SET) != 0) give_up("fuzz_show");
    posix_spawn_file_actions_t actions;
    posix_spawn_file_actions_init(&actions);
    posix_spawn_file_actions_adddup2(&actions, in, 0);
    posix_spawn_file_actions_adddup2(&actions, out, 1);
    pid_t child;
    char *words[] = {program, NULL};
    if (posix_spawn(&child, program, &actions, NULL, words, environ)) give_up("fuzz_show: the program does not start");
    posix_spawn_file_actions_destroy(&actions);
    int status;
    pid_t ended;
    do /* the fuzzer's clock interrupts */
        ended = waitpid(child, &status, 0);
    while (ended < 0 && errno == EINTR);
    if (ended != child) give_up("fuzz_show");
    if (status != 0) {
        fprintf(stderr, "fuzz_show: the program ended with status %d\n", status);
        abort();
    }
    ssize_t n = pread(out, text, MOST_TEXT, 0);
    if (n < 0) give_up("fuzz_show");
    return (size_t)n;
}

static void count_lines(const uint8_t *text, size_t size)
{
    unsigned lines[9] = {0};
    for (size_t at = 0; at + 2 < size; at++) {
        if (at > 0 && text[at - 1] != '\n') continue;
        unsigned kind = text[at] == 'F' ? 8 : (unsigned)(text[at + 1] - '0');
        if (kind < 8) lines[kind]++;
        if (kind == 8) lines[8] = (unsigned)strtoul((const char[]){(char)text[at + 2], (char)text[at + 3], 0}, NULL, 16);
    }
    for (unsigned k = 0; k < 9; k++) printed_lines[k][lines[k] % 64] = 1;
}

int LLVMFuzzerTestOneInput(const uint8_t *data, size_t size)
{
    static uint8_t asked[MOST_TEXT + 1], told[MOST_TEXT + 1];
    size_t n = expected(asked, data, size), m = printed(told, data, size);
    if (n != m || memcmp(asked, told, n)) {
        fprintf(stderr, "fuzz_show: the program prints\n%.*snot\n%.*s", (int)m, told, (int)n, asked);
        abort();
    }
    count_lines(told, m);
    return 0;
}

/* ---- Changes ---- */

size_t LLVMFuzzerCustomMutator(uint8_t *data, size_t size, size_t most, unsigned seed)
{
    if (size == 0 || seed % 2 == 0) return LLVMFuzzerMutate(data, size, most);
    for (unsigned left = 1 + seed / 2 % 4; left > 0; left--) {
        seed = seed * 1664525u + 1013904223u;
        size_t at = (seed >> 8) % size;
        if (digit(data[at]) >= 0) data[at] = (uint8_t)"0123456789ABCDEF"[seed >> 28];
    }
    return size;
}
