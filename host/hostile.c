/* Hostile calls: random and corrupted calls through every C name of the library.
 *
 *   hostile N [SEED]     makes N calls, and prints how often each entry was accepted and refused by each number
 *
 * Each lent slice lies against a page that nobody may touch, before it or behind it, so that a step outside is a fault; what remains of its own pages is filled with a pattern that is
 * looked at after the call. Lengths go from 0 on; floats, words and bytes may hold anything; stores and planes are genuine, spoiled in some words, or noise. After a refusal all lent memory but scratch is compared with a
 * copy taken before; after an accepted call everything that is const, and for readings all but the output. The status is 0 where nothing was found. */
#define _GNU_SOURCE
#include "../include/novlizeb.h"

#include <signal.h>
#include <stdio.h>
#include <stdlib.h>
#include <string.h>
#include <sys/mman.h>
#include <unistd.h>

#define PAGE 4096u
#define SLICES 6

/* ---- Random numbers (SplitMix64) ---- */

static uint64_t state;

static uint64_t next(void)
{
    uint64_t z = (state += 0x9e3779b97f4a7c15u);
    z = (z ^ (z >> 30)) * 0xbf58476d1ce4e5b9u;
    z = (z ^ (z >> 27)) * 0x94d049bb133111ebu;
    return z ^ (z >> 31);
}

static uint32_t below(uint32_t n) { return (uint32_t)(next() % n); }

static int one_in(uint32_t n) { return below(n) == 0; }

/* ---- What is being called, for the message of a fault ---- */

static uint64_t calls, seed;
static const char *entry = "nothing";

static void fault(int signal_number)
{
    char text[200];
    int n = snprintf(text, sizeof text, "hostile: signal %d in %s, call %llu of seed %llu\n", signal_number, entry, (unsigned long long)calls, (unsigned long long)seed);
    if (write(2, text, (size_t)n) < 0) { }
    _exit(1);
}

static void fail(const char *what)
{
    fprintf(stderr, "hostile: %s in %s, call %llu of seed %llu\n", what, entry, (unsigned long long)calls, (unsigned long long)seed);
    exit(1);
}

/* ---- Slices between two closed pages ---- */

typedef struct {
    uint8_t *base;   /* the first byte that may be touched */
    size_t room;     /* so many may be */
    uint8_t *at;     /* the slice, size bytes */
    size_t size;
    uint8_t *before; /* a copy of all the room */
} slice;

static slice slices[SLICES];

static void open_slice(slice *s, size_t room)
{
    room = (room + PAGE - 1) / PAGE * PAGE;
    uint8_t *all = mmap(NULL, room + 2 * PAGE, PROT_READ | PROT_WRITE, MAP_PRIVATE | MAP_ANONYMOUS, -1, 0);
    if (all == MAP_FAILED || mprotect(all, PAGE, PROT_NONE) || mprotect(all + PAGE + room, PAGE, PROT_NONE)) {
        perror("hostile: mmap");
        exit(2);
    }
    s->base = all + PAGE;
    s->room = room;
    s->before = malloc(room);
    if (!s->before) {
        perror("hostile");
        exit(2);
    }
    s->at = s->base;
    s->size = 0;
}

/* Lays a slice of n elements against one of the closed pages, or somewhere between at its own alignment; the rest of the room is a pattern. */
static void *lay(slice *s, size_t n, size_t element)
{
    size_t size = n * element;
    if (size > s->room) size = s->room / element * element;
    size_t slack = s->room - size, from;
    switch (below(3)) {
    case 0: from = 0; break;
    case 1: from = slack; break;
    default: from = slack ? below((uint32_t)(slack < 512 ? slack + 1 : 512)) : 0; break;
    }
    from = from / element * element;
    s->at = s->base + from;
    s->size = size;
    return s->at;
}

static void keep(slice *s) { memcpy(s->before, s->base, s->room); }

static void same(const slice *s, const char *what)
{
    if (memcmp(s->before, s->base, s->room)) fail(what);
}

/* All but the slice itself is as it was. */
static void same_around(const slice *s, const char *what)
{
    size_t from = (size_t)(s->at - s->base), to = from + s->size;
    if (memcmp(s->before, s->base, from) || memcmp(s->before + to, s->base + to, s->room - to)) fail(what);
}

/* ---- A genuine leaf, kept beside, that hostile calls are given copies of ---- */

#define MOST_SIDE 40u
#define MOST_CAPACITY 24u
#define MOST_DOTS (128u * 96u)
#define MOST_STORE (64u + MOST_SIDE + 128u + 2u * 128u + 40u * MOST_CAPACITY)

typedef struct {
    uint32_t width, height, frame_width, frame_height, capacity;
    double skew, slope;
    novlizeb_sheet sheet;
    uint8_t mask[MOST_SIDE * MOST_SIDE], ink[MOST_DOTS], kinds[MOST_DOTS];
    uint32_t store[MOST_STORE];
    size_t store_words, dots, scratch_words;
} leaf;

static leaf genuine;
static uint32_t scratch_memory[4 * MOST_DOTS + 16 * MOST_CAPACITY + 64];

static double small_float(void) { return (double)below(64) / 8.0; }

static novlizeb_sheet good_sheet(void)
{
    novlizeb_sheet s = {1 + below(3), 1.0 - (double)below(4) / 8.0, below(4), 1.0 + below(4), small_float(), small_float() / 4, small_float(), small_float(), small_float() / 2,
                        1 + below(3), small_float() / 8, 2.0 + small_float(), (double)below(9) / 8.0, small_float(), small_float(), small_float(), (double)below(8) / 8.0, (double)below(3)};
    return s;
}

static double hostile_float(void)
{
    static const double some[] = {0.0, -0.0, 1.0, -1.0, 45.0, -45.0, 45.00000000000001, 1.0000000000000002, 0.5, 1e4, 10000.000000000002, 1e308, 5e-324, -5e-324};
    uint64_t bits = next();
    double x;
    switch (below(6)) {
    case 0: memcpy(&x, &bits, sizeof x); return x;
    case 1: return 0.0 / (double)(calls - calls);
    case 2: return one_in(2) ? __builtin_inf() : -__builtin_inf();
    default: return some[below(sizeof some / sizeof *some)];
    }
}

static uint32_t hostile_word(void)
{
    static const uint32_t some[] = {0, 1, 2, 3, 5, 6, 64, 4095, 4096, 8192, 8193, 16383, 24574, 65535, 65536, 131072, 0x3fffffff, 0x40000000, 0x7fffffff, 0x80000000, 0xfffffffe, 0xffffffff};
    return one_in(3) ? (uint32_t)next() : one_in(2) ? below(48) : some[below(sizeof some / sizeof *some)];
}

static void make_leaf(void)
{
    for (;;) {
        leaf *g = &genuine;
        g->width = 1 + below(MOST_SIDE);
        g->height = 1 + below(MOST_SIDE);
        g->capacity = 1 + below(MOST_CAPACITY);
        g->skew = (double)((int)below(41) - 20);
        g->slope = (double)((int)below(33) - 16) / 16.0;
        g->sheet = good_sheet();
        uint32_t thin = 1 + below(12);
        for (size_t i = 0; i < (size_t)g->width * g->height; i++) g->mask[i] = (uint8_t)one_in(thin);
        double applied = (g->skew < 0 ? -g->skew : g->skew) >= g->sheet.shear_min_deg ? g->slope : 0.0;
        uint64_t size = novlizeb_frame_size(g->width, g->height, applied);
        g->frame_width = novlizeb_value(size);
        g->frame_height = novlizeb_number(size);
        g->dots = (size_t)g->frame_width * g->frame_height;
        g->store_words = novlizeb_store_words(g->width, g->frame_width, g->frame_height, g->capacity);
        g->scratch_words = novlizeb_scratch_words(g->frame_width, g->frame_height, g->capacity);
        if (g->dots == 0 || g->dots > MOST_DOTS || g->store_words > MOST_STORE) fail("a frame larger than was thought");
        memset(g->store, 0, sizeof g->store);
        memset(g->kinds, 0, sizeof g->kinds);
        entry = "making a leaf";
        if (novlizeb_level_page(g->mask, (size_t)g->width * g->height, g->width, g->height, g->skew, g->slope, &g->sheet, g->capacity, g->store, g->store_words, g->ink, g->dots)) fail("a good page is refused");
        uint32_t n = novlizeb_segment_page(&g->sheet, g->store, g->store_words, g->ink, g->dots, g->kinds, g->dots, scratch_memory, g->scratch_words);
        if (n != 0 && n != NOVLIZEB_COMPONENTS) fail("a good page is refused");
        if (n == 0 || one_in(8)) return;
    }
}

/* In half of the calls at most one thing is wrong, so that every later test is reached too. */
static int calm;

/* A length near the one that is asked. */
static size_t length_near(size_t asked)
{
    if (calm && !one_in(12)) return asked + (one_in(4) ? below(40) : 0);
    switch (below(8)) {
    case 0: return 0;
    case 1: return asked ? asked - 1 : 0;
    case 2: return below(80);
    case 3: return asked + below(40);
    default: return asked;
    }
}

static void spoil(uint8_t *bytes, size_t size, int words)
{
    if (size == 0 || !one_in(calm ? 12 : 3)) return;
    for (uint32_t k = 1 + below(3); k > 0; k--) {
        if (words && size >= 4) {
            uint32_t w = hostile_word();
            size_t at = one_in(2) && size >= 256 ? below(64) : below((uint32_t)(size / 4));
            memcpy(bytes + 4 * at, &w, 4);
        } else
            bytes[below((uint32_t)size)] = (uint8_t)(one_in(2) ? below(7) : next());
    }
}

/* Fills a slice with a copy of what is genuine, or with noise, and then spoils it. */
static void give(slice *s, const void *from, size_t size, int words)
{
    for (size_t i = 0; i < s->room; i += 8) {
        uint64_t pattern = 0xa5a5a5a5a5a5a5a5u;
        memcpy(s->base + i, &pattern, 8);
    }
    if (!calm && one_in(12))
        for (size_t i = 0; i + 8 <= s->size; i += 8) {
            uint64_t noise = next();
            memcpy(s->at + i, &noise, 8);
        }
    else
        memcpy(s->at, from, size < s->size ? size : s->size);
    spoil(s->at, s->size, words);
}

/* ---- The calls ---- */

enum { ENTRIES = 20 };
static const char *names[ENTRIES] = {"level", "segment", "clear", "to_page", "rect_to_page", "level_gray", "read_frame", "read_figures", "read_summary", "read_lines", "read_blocks", "read_rules",
                                     "read_graphics", "read_glyphs", "read_columns", "twenty_line_measure", "count_dots", "read_dots", "write_sheet", "frame_size"};
static uint64_t told[ENTRIES][24];

static slice *const store = &slices[0], *const ink = &slices[1], *const kinds = &slices[2], *const extra = &slices[3], *const out = &slices[4], *const scratch = &slices[5];

static novlizeb_sheet any_sheet(void)
{
    novlizeb_sheet s = one_in(2) ? genuine.sheet : good_sheet();
    if (one_in(calm ? 24 : 6)) {
        double *field[] = {&s.glyph_max_extent_frac, &s.xheight_fallback_px, &s.rule_min_len_xh, &s.rule_max_thick_xh, &s.rule_run_xh, &s.graphic_min_xh, &s.smear_xh, &s.line_min_height_xh,
                           &s.line_max_height_xh, &s.block_min_overlap, &s.block_gap_margin_lines, &s.block_max_gap_lines, &s.column_gap_xh, &s.column_cover_frac, &s.shear_min_deg};
        *field[below(15)] = hostile_float();
    }
    if (one_in(12)) s.glyph_min_area = hostile_word();
    if (one_in(12)) s.line_min_glyphs = hostile_word();
    if (one_in(12)) s.xheight_min_area = hostile_word();
    return s;
}

/* Lays store, ink plane and kind plane with genuine or spoiled content. */
static void lend_leaf(void)
{
    lay(store, length_near(genuine.store_words), 4);
    give(store, genuine.store, 4 * genuine.store_words, 1);
    lay(ink, length_near(genuine.dots), 1);
    give(ink, genuine.ink, genuine.dots, 0);
    lay(kinds, length_near(genuine.dots), 1);
    give(kinds, genuine.kinds, genuine.dots, 0);
}

static size_t words(const slice *s) { return s->size / 4; }

#define STORE (const uint32_t *)store->at, words(store)
#define HELD STORE, ink->at, ink->size, kinds->at, kinds->size
#define OUT (uint32_t *)out->at, words(out)

static uint32_t side(uint32_t limit) { return one_in(calm ? 12 : 4) ? hostile_word() : below(limit + (uint32_t)one_in(8)); }

static uint32_t one_call(uint32_t which)
{
    uint32_t x0, y0, x1, y1;
    novlizeb_sheet sheet;
    calm = one_in(2);
    sheet = any_sheet();
    lend_leaf();
    lay(extra, length_near((size_t)genuine.width * genuine.height), 1);
    give(extra, genuine.mask, (size_t)genuine.width * genuine.height, 0);
    lay(scratch, 0, 4);
    size_t asked = which == 18 ? 8192 : which == 5 ? genuine.dots : which == 17 ? 2 * genuine.dots : 4 * below(600);
    lay(out, which == 18 || which == 5 ? length_near(asked) : which == 8 ? length_near(12) : which == 7 ? length_near(15) : which == 6 ? length_near(8) : which == 3 ? length_near(2)
                : which == 4 ? length_near(4) : length_near(asked),
        which == 18 || which == 5 ? 1 : which == 8 ? 8 : 4);
    if (which == 1) {
        lay(scratch, length_near(genuine.scratch_words), 4);
        give(scratch, scratch_memory, sizeof scratch_memory, 0);
    }
    if (which == 0 && words(store) > 0 && !one_in(8)) memset(store->at, 0, 4);
    if (which == 1 && words(store) > 0 && one_in(2)) {
        uint32_t levelled = 1;
        memcpy(store->at, &levelled, 4);
    }
    for (int k = 0; k < SLICES; k++) keep(&slices[k]);
    x0 = side(genuine.frame_width);
    y0 = side(genuine.frame_height);
    x1 = one_in(8) || x0 >= genuine.frame_width ? side(genuine.frame_width) : x0 + below(genuine.frame_width - x0 + (uint32_t)one_in(8));
    y1 = one_in(8) || y0 >= genuine.frame_height ? side(genuine.frame_height) : y0 + below(genuine.frame_height - y0 + (uint32_t)one_in(8));
    uint32_t kind = one_in(calm ? 12 : 4) ? hostile_word() : 1 + below(5);
    switch (which) {
    case 0:
        return novlizeb_level_page(extra->at, extra->size, one_in(calm ? 24 : 8) ? hostile_word() : genuine.width, one_in(calm ? 24 : 8) ? hostile_word() : genuine.height, one_in(calm ? 24 : 4) ? hostile_float() : genuine.skew,
                                   one_in(calm ? 24 : 4) ? hostile_float() : genuine.slope, &sheet, one_in(calm ? 24 : 8) ? hostile_word() : genuine.capacity, (uint32_t *)store->at, words(store), ink->at, ink->size);
    case 1: return novlizeb_segment_page(&sheet, (uint32_t *)store->at, words(store), ink->at, ink->size, kinds->at, kinds->size, (uint32_t *)scratch->at, words(scratch));
    case 2: return novlizeb_clear((uint32_t *)store->at, words(store));
    case 3: return novlizeb_to_page(STORE, x0, y0, (int32_t *)out->at, words(out));
    case 4: return novlizeb_rect_to_page(STORE, x0, y0, x1, y1, (int32_t *)out->at, words(out));
    case 5: return novlizeb_level_gray(STORE, extra->at, extra->size, out->at, out->size);
    case 6: return novlizeb_read_frame(STORE, OUT);
    case 7: return novlizeb_read_figures(HELD, OUT);
    case 8: return novlizeb_read_summary(HELD, (double *)out->at, out->size / 8);
    case 9: return novlizeb_number(novlizeb_read_lines(HELD, OUT));
    case 10: return novlizeb_number(novlizeb_read_blocks(HELD, OUT));
    case 11: return novlizeb_number(novlizeb_read_rules(HELD, OUT));
    case 12: return novlizeb_number(novlizeb_read_graphics(HELD, OUT));
    case 13: return novlizeb_number(novlizeb_read_glyphs(HELD, OUT));
    case 14: return novlizeb_number(novlizeb_read_columns(HELD, OUT));
    case 15: return novlizeb_number(novlizeb_twenty_line_measure(HELD));
    case 16: return novlizeb_number(novlizeb_count_dots(HELD, kind, x0, y0, x1, y1));
    case 17: return novlizeb_number(novlizeb_read_dots(HELD, kind, x0, y0, x1, y1, OUT));
    case 18: return novlizeb_number(novlizeb_write_sheet(HELD, out->at, out->size));
    default: novlizeb_frame_size(hostile_word(), hostile_word(), hostile_float()); return 0;
    }
}

/* What may have changed: on a refusal scratch alone; else by the entry. */
static void compare(uint32_t which, uint32_t number)
{
    int accepted = number == 0;
    int writes_store = accepted && which <= 2, writes_ink = accepted && which == 0, writes_kinds = accepted && which == 1, writes_out = accepted && which >= 3;
    if (!writes_store) same(store, "a store that should be as it was");
    if (!writes_ink) same(ink, "an ink plane that should be as it was");
    if (!writes_kinds) same(kinds, "a kind plane that should be as it was");
    if (!writes_out) same(out, "an output that should be as it was");
    same(extra, "a const slice that was written");
    for (int k = 0; k < SLICES; k++) same_around(&slices[k], "a byte outside its slice was written");
}

int main(int count, char **word)
{
    uint64_t n = count > 1 ? strtoull(word[1], NULL, 10) : 0;
    seed = count > 2 ? strtoull(word[2], NULL, 10) : 1;
    state = seed;
    if (n == 0) {
        fprintf(stderr, "usage: hostile N [SEED]\n");
        return 2;
    }
    struct sigaction action;
    memset(&action, 0, sizeof action);
    action.sa_handler = fault;
    for (int k = 0; k < 4; k++) sigaction((int[]){SIGSEGV, SIGBUS, SIGFPE, SIGILL}[k], &action, NULL);
    open_slice(store, 4 * (MOST_STORE + 64));
    open_slice(ink, MOST_DOTS + 64);
    open_slice(kinds, MOST_DOTS + 64);
    open_slice(extra, MOST_SIDE * MOST_SIDE + 64);
    open_slice(out, 4 * 2 * MOST_DOTS + 8192);
    open_slice(scratch, sizeof scratch_memory + 256);
    for (calls = 1; calls <= n; calls++) {
        if (calls % 64 == 1) make_leaf();
        uint32_t which = below(ENTRIES);
        entry = names[which];
        uint32_t number = one_call(which);
        if (number > 21) fail("an unknown number");
        compare(which, number);
        told[which][number]++;
    }
    printf("%-20s %10s  refused, by number\n", "entry", "accepted");
    for (int k = 0; k < ENTRIES; k++) {
        printf("%-20s %10llu ", names[k], (unsigned long long)told[k][0]);
        for (int m = 1; m < 22; m++)
            if (told[k][m]) printf(" %d: %llu", m, (unsigned long long)told[k][m]);
        printf("\n");
    }
    printf("hostile: %llu calls of seed %llu, no fault, no difference\n", (unsigned long long)n, (unsigned long long)seed);
    return 0;
}
