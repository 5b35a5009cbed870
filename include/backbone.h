/* Backbone labelling of parts sheets: the C interface of the proved library, libbackbone.
 *
 * A sheet, a layout and a stored sheet are lists of 32-bit words. No function keeps a pointer, allocates or
 * touches anything but the areas that it is given. Areas must not overlap, and those of words are aligned as uint32_t is.
 * A pointer may be null where its length is 0.
 *
 * Right after a sheet's head may stand a charge word, of kind 5: 5 << 28 | charge, the charge from 0 to
 * BACKBONE_MOST_CHARGE. Without it the charge is 0. Each site that is not on its backbone adds the charge to the length
 * of a layout, beside its drop.
 *
 * Rule 5 of lawful layouts: a backbone lies at least the gap in height from every site of another label at or right of its
 * left end, and on a one-sided sheet also from every one left of that end by less than the gap. */
#ifndef BACKBONE_H
#define BACKBONE_H

#include <stddef.h>
#include <stdint.h>

#ifdef __cplusplus
extern "C" {
#endif

enum {
    BACKBONE_MOST_SLOTS = 48,
    BACKBONE_MOST_COLOURS = 8,
    BACKBONE_MOST_SITES = 32,
    BACKBONE_MOST_CHARGE = 16383,
    /* Answer words that serve for every sheet. */
    BACKBONE_ANSWER_WORDS = BACKBONE_MOST_SITES + 1,
    /* The bytes of a line of a page: 40 columns and a line feed. */
    BACKBONE_PAGE_LINE_BYTES = 41,
    /* Bytes that serve for every page: a line for each used slot, of which there are no more than sites, a line for each
     * site, and the last. */
    BACKBONE_PAGE_BYTES = BACKBONE_PAGE_LINE_BYTES * (2 * BACKBONE_MOST_SITES + 1),
    /* The bound of a colour without one. */
    BACKBONE_UNBOUNDED = 255
};

/* Refusals. The program alone has refusal 12. */
enum {
    BACKBONE_ACCEPTED = 0,
    BACKBONE_NO_HEAD = 1,           /* empty, or the first word is no head, or its width or gap is 0 */
    BACKBONE_BAD_WORD = 2,          /* a word of another kind, out of its order (a charge elsewhere than right after the
                                       head), or with a spare bit set */
    BACKBONE_TOO_MANY = 3,          /* more than 48 slots, 8 colours or 32 sites */
    BACKBONE_SLOTS_NOT_RISING = 4,  /* slot heights are not strictly rising */
    BACKBONE_SITE_BEYOND_WIDTH = 5, /* a site's x is above the width */
    BACKBONE_EQUAL_X = 6,           /* two sites have equal x */
    BACKBONE_TOO_MANY_BUDGETS = 7,  /* the product of bound plus one over the bounded colours is above 64 */
    BACKBONE_WORK_TOO_SHORT = 8,    /* the work area is shorter than needed */
    BACKBONE_ANSWER_TOO_SHORT = 9,  /* the area for the answer is shorter than needed */
    BACKBONE_NO_LAYOUT = 10,        /* no layout obeys rules 1 to 5 */
    BACKBONE_BAD_LAYOUT = 11,       /* the stored sheet has no layout, or one that is not in its form */
    BACKBONE_BAD_INPUT = 12,        /* more than 1,024 bytes or not whole words */
    BACKBONE_UNLAWFUL = 13,         /* the layout breaks a rule: the judge's answer is not 0 */
    BACKBONE_PAST_LAST_STROKE = 14, /* the place is past the last stroke */
    BACKBONE_TWO_SIDED = 18         /* the sheet is two-sided: such sheets are no longer laid out */
};

/* Kinds of strokes. */
enum {
    BACKBONE_BONE = 0, /* a backbone */
    BACKBONE_DROP = 1
};

/* A colour's label bound and its number of sites; both 0 for a colour that the sheet doesn't have. */
typedef struct {
    uint8_t bound;
    uint8_t sites;
} backbone_colour;

/* What the reader gives. Beside a refusal all else is 0. */
typedef struct {
    uint8_t refusal;
    uint8_t n;     /* sites */
    uint8_t m;     /* slots */
    uint8_t c;     /* colours */
    uint8_t p;     /* budgets: the product of bound plus one over the bounded colours */
    uint32_t work; /* work words that backbone_make needs; a two-sided sheet has a number too, though it is not laid out */
    backbone_colour colours[BACKBONE_MOST_COLOURS];
} backbone_sizes;

/* What the judge gives: the least broken rule, or 0. Beside a refusal it is 0. */
typedef struct {
    uint8_t refusal;
    uint8_t rule;
} backbone_verdict;

/* What the writers of the twin and of the page give: how many words, or bytes of the page, were written. Beside a refusal
 * it is 0. */
typedef struct {
    uint8_t refusal;
    uint32_t written;
} backbone_written;

/* A stroke of a stored sheet, from its first end to its second. Coordinates are in printer's points, eight units each, and
 * exact: eight times each is a whole number, and zero is plus zero. Beside a refusal all else is 0. */
typedef struct {
    uint8_t refusal;
    uint8_t kind;
    float x0, y0; /* a backbone's left end, a drop's site */
    float x1, y1; /* a backbone's right end, which is at the width; a drop's end on its backbone */
} backbone_stroke;

/* Reads a sheet, one-sided or two-sided: refusals 1 to 7. */
backbone_sizes backbone_read(const uint32_t *sheet, size_t len);

/* Judges a stored sheet, which is a sheet followed by a layout: refusals 1 to 7 and 11. A length that is stated without the
 * charges breaks rule 6. */
backbone_verdict backbone_judge(const uint32_t *stored, size_t len);

/* Lays out a one-sided sheet: refusals 1 to 7, then 18, then 8 to 10, or 0 with the best layout in the first n + 1 words
 * of out. Refusals other than 10 change neither area. On 0 and on 10 the needed work words are all zero afterwards. */
uint32_t backbone_make(const uint32_t *sheet, size_t len, uint32_t *work, size_t work_len, uint32_t *out,
                       size_t out_len);

/* Writes the one-sided twin of a stored sheet, as many words as it has, to the start of out: refusals 1 to 7 and 11 as the
 * judge gives them, then 13, then 9 where out is shorter than the stored sheet. Of a lawful two-sided sheet only the side
 * and the length differ, and the length is the true one; a charge word stays. A lawful one-sided sheet comes back word for
 * word. A refusal changes nothing in out; words past the twin stay as they were. */
backbone_written backbone_twin(const uint32_t *stored, size_t len, uint32_t *out, size_t out_len);

/* The stroke of a stored sheet at a place, for a viewer to draw: refusals 1 to 7 and 11 as the judge gives them, then 13,
 * then 14. Backbones come first, by rising slot, then drops in sheet order; a site on its backbone has none. Places count
 * from 0: who draws all strokes asks for 0, 1, 2 and so on until 14 comes back. The lengths of all strokes, eight units a
 * point, and the charge for each drop add up to the length that the layout states. */
backbone_stroke backbone_stroke_at(const uint32_t *stored, size_t len, size_t place);

/* Writes the page of a stored sheet, a text for the print room, to the start of page: refusals 1 to 7 and 11 as the judge
 * gives them, then 13, then 9 where page has fewer than BACKBONE_PAGE_LINE_BYTES for each used slot, each site and the last
 * line. A line has 40 columns, counted from 1, and a line feed. Numbers are decimal and stand at the right of their
 * columns; all else is blank.
 *
 * A line for each used slot, by rising slot: slot in columns 1 to 3, colour in 5 and 6, its number of sites in 8 and 9,
 * height in 11 to 18, the label's own length in 20 to 27, which is its backbone's and its sites' drops without their signs,
 * with the charge for each that is not 0.
 * A line for each site, in sheet order, that begins with "  drop": site in columns 8 to 10, slot in 12 to 14, drop in 16 to
 * 23, which is the slot's height less the site's y, with + or - right before its digits, none at 0.
 * Last a line that begins with "total": the count in columns 8 to 10, the length in 20 to 27.
 *
 * The slots' numbers of sites add up to all sites, their lengths to the length of the last line. The page does not end with
 * a zero byte. A refusal changes nothing in page; bytes past the page stay as they were. */
backbone_written backbone_page(const uint32_t *stored, size_t len, uint8_t *page, size_t page_len);

#ifdef __cplusplus
}
#endif

#endif
