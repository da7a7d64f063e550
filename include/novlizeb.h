/* Novlizeb: printed leaves measured, from an ink mask to lines, blocks and columns.
 *
 * The library keeps nothing and allocates nothing: the caller lends all memory, a slice as a pointer and a length in elements. A slice of length 0 may have any
 * pointer but NULL. Slices of one call must not overlap, unless all that overlap are const.
 *
 * A leaf's life: lend a store, an ink plane and a kind plane; novlizeb_level puts a mask into store and ink plane; novlizeb_segment finds the kinds, glyphs, lines,
 * blocks and columns; the readings tell them; novlizeb_clear makes the store empty again. A store begins with its first word 0.
 *
 * A call that is refused gives a number (NOVLIZEB_...; novlizeb_refusal_text says it in words), and all lent memory but scratch is then as it was. No call demands
 * anything of what it is handed: whatever a store, a plane or a float holds, the call ends with a result or a number.
 *
 * C99 or later, C++11 or later; link libnovlizeb.a. The library is compiled for x86-64 and has no state: threads may use different stores at once.
 */
#ifndef NOVLIZEB_H
#define NOVLIZEB_H

#include <stddef.h>
#include <stdint.h>

#ifdef __cplusplus
extern "C" {
#endif

/* ---- Limits ---- */

#define NOVLIZEB_MAX_PAGE_SIDE 8192u    /* page width and height, from 1 on */
#define NOVLIZEB_MAX_FRAME_WIDTH 24574u /* of the levelled frame */
#define NOVLIZEB_MAX_FRAME_HEIGHT 16383u
#define NOVLIZEB_MAX_CAPACITY 65535u /* components in each labelling, from 1 on */
#define NOVLIZEB_MAX_LINES 4095u
#define NOVLIZEB_NO_LINE 4095u /* the line of a glyph that stands in none */

/* ---- Refusals ---- */

enum novlizeb_refusal {
    NOVLIZEB_DONE = 0,           /* not refused */
    NOVLIZEB_SIDES = 1,          /* a side of the page is outside its limit */
    NOVLIZEB_MASK_LENGTH = 2,    /* the mask has not width x height bytes */
    NOVLIZEB_MASK_BYTE = 3,      /* a byte of the mask is above 1 */
    NOVLIZEB_SKEW = 4,           /* the skew is not finite or beyond 45 degrees */
    NOVLIZEB_SLOPE = 5,          /* the slope is not finite or beyond 1 */
    NOVLIZEB_SHEET = 6,          /* a parameter of the sheet is not valid */
    NOVLIZEB_CAPACITY = 7,       /* the capacity is outside its limit */
    NOVLIZEB_OUTSIDE = 8,        /* a point or box outside the frame, or a kind outside 1 to 5 */
    NOVLIZEB_TOO_SHORT = 9,      /* lent memory is too short, or a gray plane is not of page size */
    NOVLIZEB_SPOILED = 16,       /* the store or a plane holds what no call leaves */
    NOVLIZEB_NOT_EMPTY = 17,     /* levelling while the store is not empty */
    NOVLIZEB_EMPTY = 18,         /* the store is empty: level first */
    NOVLIZEB_NOT_SEGMENTED = 19, /* no results yet: segment first */
    NOVLIZEB_COMPONENTS = 20,    /* more components than the capacity */
    NOVLIZEB_LINES = 21          /* more than 4,095 lines */
};

/* A refusal's number in words. */
static inline const char *novlizeb_refusal_text(uint32_t number)
{
    switch (number) {
    case NOVLIZEB_DONE: return "not refused";
    case NOVLIZEB_SIDES: return "a side of the page is not from 1 to 8192";
    case NOVLIZEB_MASK_LENGTH: return "the mask has not width x height bytes";
    case NOVLIZEB_MASK_BYTE: return "a byte of the mask is neither 0 nor 1";
    case NOVLIZEB_SKEW: return "the skew is not a number from -45 to 45 degrees";
    case NOVLIZEB_SLOPE: return "the slope is not a number from -1 to 1";
    case NOVLIZEB_SHEET: return "a parameter of the sheet is not valid";
    case NOVLIZEB_CAPACITY: return "the capacity is not from 1 to 65535";
    case NOVLIZEB_OUTSIDE: return "a point or box lies outside the frame, or the kind is not from 1 to 5";
    case NOVLIZEB_TOO_SHORT: return "lent memory is too short, or the gray plane is not of page size";
    case NOVLIZEB_SPOILED: return "the store or a plane is spoiled: it holds what no call leaves";
    case NOVLIZEB_NOT_EMPTY: return "the store is not empty: clear it before levelling";
    case NOVLIZEB_EMPTY: return "the store is empty: level a page first";
    case NOVLIZEB_NOT_SEGMENTED: return "the store has no results: segment the page first";
    case NOVLIZEB_COMPONENTS: return "the page has more components than the capacity";
    case NOVLIZEB_LINES: return "the page has more than 4095 lines";
    default: return "no refusal has this number";
    }
}

/* Answers of 64 bits: a refusal's number, or 0, above, and a value below. */
static inline uint32_t novlizeb_number(uint64_t answer) { return (uint32_t)(answer >> 32); }

static inline uint32_t novlizeb_value(uint64_t answer) { return (uint32_t)answer; }

/* ---- Lengths to lend ---- */

/* Words of a store. The frame's sides: novlizeb_frame_size. */
static inline size_t novlizeb_store_words(uint32_t page_width, uint32_t frame_width, uint32_t frame_height, uint32_t capacity)
{
    return (size_t)64 + page_width + frame_height + 2 * (size_t)frame_width + 40 * (size_t)capacity;
}

/* Words of scratch. */
static inline size_t novlizeb_scratch_words(uint32_t frame_width, uint32_t frame_height, uint32_t capacity)
{
    return 4 * (size_t)frame_width * frame_height + 16 * (size_t)capacity + 64;
}

/* Bytes of the ink plane, of the kind plane, and of novlizeb_level_gray's output. */
static inline size_t novlizeb_plane_bytes(uint32_t frame_width, uint32_t frame_height) { return (size_t)frame_width * frame_height; }

/* The frame that a page of these sides is levelled into at this slope: width below, height above (novlizeb_value, novlizeb_number); 0 outside the limits. Where the
 * skew's magnitude is below shear_min_deg no skew is applied: the frame is then that of slope 0. */
uint64_t novlizeb_frame_size(uint32_t width, uint32_t height, double slope);

/* ---- The sheet ---- */

/* The parameters. Lengths named _xh are multiples of the x-height. */
typedef struct novlizeb_sheet {
    uint32_t glyph_min_area;       /* a component of fewer dots is a speck */
    double glyph_max_extent_frac;  /* a glyph's side is under this fraction of the frame's */
    uint32_t xheight_min_area;     /* components of fewer dots do not count for the x-height */
    double xheight_fallback_px;    /* the x-height where none can be measured */
    double rule_min_len_xh;        /* a rule is at least so long .. */
    double rule_max_thick_xh;      /* .. and at most so thick */
    double rule_run_xh;            /* thin rulings: the least run that is cut */
    double graphic_min_xh;         /* a graphic is so large both ways */
    double smear_xh;               /* the gap that smoothing closes along a row */
    uint32_t line_min_glyphs;      /* a line has at least so many glyphs .. */
    double line_min_height_xh;     /* .. and its height lies between these */
    double line_max_height_xh;
    double block_min_overlap;      /* lines of a block share this fraction of the narrower .. */
    double block_gap_margin_lines; /* .. at a gap near the usual one .. */
    double block_max_gap_lines;    /* .. and at most this, in line heights */
    double column_gap_xh;          /* columns are parted by a gap of so much */
    double column_cover_frac;      /* a column is where more than this fraction of the most lines lies */
    double shear_min_deg;          /* a skew below this is not applied */
} novlizeb_sheet;

/* ---- Entries ---- */

/* Levels a mask, width x height bytes, 0 blank and 1 ink. skew: degrees; slope: sine over cosine of the skew. Each answers a refusal's number, or 0. The sheet's
 * numbers stand one by one here; novlizeb_level_page and novlizeb_segment_page take a pointer to a sheet. */
uint32_t novlizeb_level(const uint8_t *mask, size_t mask_length, uint32_t width, uint32_t height, double skew, double slope, uint32_t glyph_min_area,
                        double glyph_max_extent_frac, uint32_t xheight_min_area, double xheight_fallback_px, double rule_min_len_xh, double rule_max_thick_xh,
                        double rule_run_xh, double graphic_min_xh, double smear_xh, uint32_t line_min_glyphs, double line_min_height_xh, double line_max_height_xh,
                        double block_min_overlap, double block_gap_margin_lines, double block_max_gap_lines, double column_gap_xh, double column_cover_frac,
                        double shear_min_deg, uint32_t capacity, uint32_t *store, size_t store_length, uint8_t *ink, size_t ink_length);

/* Finds kinds, glyphs, lines, blocks and columns. A segmented page may be segmented again with another sheet. */
uint32_t novlizeb_segment(uint32_t glyph_min_area, double glyph_max_extent_frac, uint32_t xheight_min_area, double xheight_fallback_px, double rule_min_len_xh,
                          double rule_max_thick_xh, double rule_run_xh, double graphic_min_xh, double smear_xh, uint32_t line_min_glyphs, double line_min_height_xh,
                          double line_max_height_xh, double block_min_overlap, double block_gap_margin_lines, double block_max_gap_lines, double column_gap_xh,
                          double column_cover_frac, double shear_min_deg, uint32_t *store, size_t store_length, const uint8_t *ink, size_t ink_length, uint8_t *kinds,
                          size_t kinds_length, uint32_t *scratch, size_t scratch_length);

/* Makes a store empty, whatever it holds. */
uint32_t novlizeb_clear(uint32_t *store, size_t store_length);

static inline uint32_t novlizeb_level_page(const uint8_t *mask, size_t mask_length, uint32_t width, uint32_t height, double skew, double slope, const novlizeb_sheet *sheet,
                                           uint32_t capacity, uint32_t *store, size_t store_length, uint8_t *ink, size_t ink_length)
{
    return novlizeb_level(mask, mask_length, width, height, skew, slope, sheet->glyph_min_area, sheet->glyph_max_extent_frac, sheet->xheight_min_area,
                          sheet->xheight_fallback_px, sheet->rule_min_len_xh, sheet->rule_max_thick_xh, sheet->rule_run_xh, sheet->graphic_min_xh, sheet->smear_xh,
                          sheet->line_min_glyphs, sheet->line_min_height_xh, sheet->line_max_height_xh, sheet->block_min_overlap, sheet->block_gap_margin_lines,
                          sheet->block_max_gap_lines, sheet->column_gap_xh, sheet->column_cover_frac, sheet->shear_min_deg, capacity, store, store_length, ink, ink_length);
}

static inline uint32_t novlizeb_segment_page(const novlizeb_sheet *sheet, uint32_t *store, size_t store_length, const uint8_t *ink, size_t ink_length, uint8_t *kinds,
                                             size_t kinds_length, uint32_t *scratch, size_t scratch_length)
{
    return novlizeb_segment(sheet->glyph_min_area, sheet->glyph_max_extent_frac, sheet->xheight_min_area, sheet->xheight_fallback_px, sheet->rule_min_len_xh,
                            sheet->rule_max_thick_xh, sheet->rule_run_xh, sheet->graphic_min_xh, sheet->smear_xh, sheet->line_min_glyphs, sheet->line_min_height_xh,
                            sheet->line_max_height_xh, sheet->block_min_overlap, sheet->block_gap_margin_lines, sheet->block_max_gap_lines, sheet->column_gap_xh,
                            sheet->column_cover_frac, sheet->shear_min_deg, store, store_length, ink, ink_length, kinds, kinds_length, scratch, scratch_length);
}

/* ---- Readings of a levelled page ---- */

/* Where a frame point lies on the page, column and row: 2 numbers. A point that was added by levelling lies outside the page. */
uint32_t novlizeb_to_page(const uint32_t *store, size_t store_length, uint32_t x, uint32_t y, int32_t *point, size_t point_length);

/* The least page box around a frame box, cut to the page: 4 numbers. */
uint32_t novlizeb_rect_to_page(const uint32_t *store, size_t store_length, uint32_t x0, uint32_t y0, uint32_t x1, uint32_t y1, int32_t *rect, size_t rect_length);

/* A gray plane of page size, levelled as the mask was; added dots are 255. */
uint32_t novlizeb_level_gray(const uint32_t *store, size_t store_length, const uint8_t *gray, size_t gray_length, uint8_t *out, size_t out_length);

/* 8 words: page width and height, frame width and height, applied skew and slope as f64 bits, low word first. */
uint32_t novlizeb_read_frame(const uint32_t *store, size_t store_length, uint32_t *out, size_t out_length);

/* ---- Readings of results: store, ink plane and kind plane of a segmented page ---- */

/* 15 words: 1 where the x-height was measured; the x-height as f64 bits, low word first; counts of rules, graphics, glyphs, lines, blocks, columns; dots of ink, cut, rule,
 * graphic, glyph, speck. Ink is the sum of the five. */
uint32_t novlizeb_read_figures(const uint32_t *store, size_t store_length, const uint8_t *ink, size_t ink_length, const uint8_t *kinds, size_t kinds_length, uint32_t *out,
                               size_t out_length);

/* The twelve numbers of the summary. */
uint32_t novlizeb_read_summary(const uint32_t *store, size_t store_length, const uint8_t *ink, size_t ink_length, const uint8_t *kinds, size_t kinds_length, double *out,
                               size_t out_length);

/* Lists; the value is how many records. A line: box (x0 y0 x1 y1), glyphs, ink, glyph height, block. */
uint64_t novlizeb_read_lines(const uint32_t *store, size_t store_length, const uint8_t *ink, size_t ink_length, const uint8_t *kinds, size_t kinds_length, uint32_t *out,
                             size_t out_length);

/* A block: box, line count. */
uint64_t novlizeb_read_blocks(const uint32_t *store, size_t store_length, const uint8_t *ink, size_t ink_length, const uint8_t *kinds, size_t kinds_length, uint32_t *out,
                              size_t out_length);

/* A rule: box. Horizontal cuts, vertical cuts, then components. */
uint64_t novlizeb_read_rules(const uint32_t *store, size_t store_length, const uint8_t *ink, size_t ink_length, const uint8_t *kinds, size_t kinds_length, uint32_t *out,
                             size_t out_length);

/* A graphic: box. */
uint64_t novlizeb_read_graphics(const uint32_t *store, size_t store_length, const uint8_t *ink, size_t ink_length, const uint8_t *kinds, size_t kinds_length, uint32_t *out,
                                size_t out_length);

/* A glyph: box, area, line or NOVLIZEB_NO_LINE. */
uint64_t novlizeb_read_glyphs(const uint32_t *store, size_t store_length, const uint8_t *ink, size_t ink_length, const uint8_t *kinds, size_t kinds_length, uint32_t *out,
                              size_t out_length);

/* A column: its first and its last frame column. */
uint64_t novlizeb_read_columns(const uint32_t *store, size_t store_length, const uint8_t *ink, size_t ink_length, const uint8_t *kinds, size_t kinds_length, uint32_t *out,
                               size_t out_length);

/* Ten times the median of differences of y0 + y1 between following lines of a block. */
uint64_t novlizeb_twenty_line_measure(const uint32_t *store, size_t store_length, const uint8_t *ink, size_t ink_length, const uint8_t *kinds, size_t kinds_length);

/* How many page dots of a kind (1 cut, 2 rule, 3 graphic, 4 glyph, 5 speck) lie in a frame box. */
uint64_t novlizeb_count_dots(const uint32_t *store, size_t store_length, const uint8_t *ink, size_t ink_length, const uint8_t *kinds, size_t kinds_length, uint32_t kind,
                             uint32_t x0, uint32_t y0, uint32_t x1, uint32_t y1);

/* These dots, page column and page row of each, by row and then column. */
uint64_t novlizeb_read_dots(const uint32_t *store, size_t store_length, const uint8_t *ink, size_t ink_length, const uint8_t *kinds, size_t kinds_length, uint32_t kind,
                            uint32_t x0, uint32_t y0, uint32_t x1, uint32_t y1, uint32_t *out, size_t out_length);

/* The printed sheet as text; the value is how many bytes. */
uint64_t novlizeb_write_sheet(const uint32_t *store, size_t store_length, const uint8_t *ink, size_t ink_length, const uint8_t *kinds, size_t kinds_length, uint8_t *out,
                              size_t out_length);

#ifdef __cplusplus
}
#endif

#endif
