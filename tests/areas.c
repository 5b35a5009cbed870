/* The areas of the C interface: null pointers, lengths on both sides of what is needed, and every word of the areas
 * afterwards; the strokes of a stored sheet, which they leave as it is, and its page; a sheet with a charge; and a tip that
 * is too near a foreign site. Prints what does not hold, and ends with 1 if anything does not. */
#include "backbone.h"

#include <stdio.h>
#include <stdlib.h>
#include <string.h>

enum { WORDS = 9, WORK = 900, ANSWER = 4, SPARE = 3, DIRT = 0x5A };

/* Sheet A of the format's drawn examples: 900 work words, 4 answer words. */
static const uint32_t sheet[WORDS] = {0x10008008, 0x20000002, 0x20000005, 0x20000008, 0x300000FF,
                                      0x40008004, 0x40018006, 0x300000FF, 0x40010005};
static const uint32_t best[ANSWER] = {0x80400013, 0x90000000, 0x90000000, 0x90000002};

/* Sheet A two-sided with its best layout, and the twin of that: sheet A with the layout above. */
static const uint32_t two_sided[WORDS + ANSWER] = {0x18008008, 0x20000002, 0x20000005, 0x20000008, 0x300000FF,
                                                   0x40008004, 0x40018006, 0x300000FF, 0x40010005, 0x80400019,
                                                   0x90000000, 0x90000000, 0x90000002};

/* Sheet A with a charge: no layout of it has a site on its backbone and as few labels, so the best is the same, and its
 * length is greater by three charges. */
enum { CHARGE = 5, CHARGED = WORDS + 1 };
static const uint32_t charge_word = 0x50000000 | CHARGE;

/* The strokes of sheet A with its best layout, by hand. */
static const backbone_stroke strokes[] = {
    {0, BACKBONE_BONE, 0.25f, 0.25f, 1.0f, 0.25f},
    {0, BACKBONE_BONE, 0.5f, 1.0f, 1.0f, 1.0f},
    {0, BACKBONE_DROP, 0.25f, 0.5f, 0.25f, 0.25f},
    {0, BACKBONE_DROP, 0.75f, 0.75f, 0.75f, 0.25f},
    {0, BACKBONE_DROP, 0.5f, 0.625f, 0.5f, 1.0f},
};
enum { STROKES = sizeof strokes / sizeof *strokes };

/* Its page: slot 0 has a backbone of 6 and drops of 2 and 4, slot 2 a backbone of 4 and a drop of 3. */
static const char page_of_a[] = "  0  0  2        2       12             \n"
                                "  2  1  1        8        7             \n"
                                "  drop   0   0       -2                 \n"
                                "  drop   1   0       -4                 \n"
                                "  drop   2   2       +3                 \n"
                                "total    2               19             \n";
enum { PAGE = sizeof page_of_a - 1 };

static int failures = 0;

static void expect(int holds, const char *what) {
    if (!holds) {
        fprintf(stderr, "does not hold: %s\n", what);
        failures++;
    }
}

/* An area of its own on the heap, so that a tool that looks for accesses past its end finds them. */
static void *dirty_bytes(size_t bytes) {
    void *area = malloc(bytes);
    if (area == NULL && bytes > 0) {
        fputs("no memory\n", stderr);
        exit(3);
    }
    if (bytes > 0) {
        memset(area, DIRT, bytes);
    }
    return area;
}

static uint32_t *dirty(size_t words) {
    return dirty_bytes(words * sizeof(uint32_t));
}

static int all_are(const uint32_t *area, size_t from, size_t to, uint32_t word) {
    while (from < to && area[from] == word) {
        from++;
    }
    return from == to;
}

static int is_dirty(const uint32_t *area, size_t from, size_t to) {
    return all_are(area, from, to, DIRT * 0x01010101u);
}

static int are_dirty_bytes(const uint8_t *area, size_t from, size_t to) {
    while (from < to && area[from] == DIRT) {
        from++;
    }
    return from == to;
}

static void null_lists(void) {
    expect(backbone_read(NULL, 0).refusal == BACKBONE_NO_HEAD, "the reader refuses a null list with 1");
    expect(backbone_judge(NULL, 0).refusal == BACKBONE_NO_HEAD, "the judge refuses a null list with 1");
    expect(backbone_make(NULL, 0, NULL, 0, NULL, 0) == BACKBONE_NO_HEAD, "the maker refuses a null list with 1");
    expect(backbone_twin(NULL, 0, NULL, 0).refusal == BACKBONE_NO_HEAD, "the twin of a null list is refused with 1");
    expect(backbone_stroke_at(NULL, 0, 0).refusal == BACKBONE_NO_HEAD, "a stroke of a null list is refused with 1");
    expect(backbone_page(NULL, 0, NULL, 0).refusal == BACKBONE_NO_HEAD, "the page of a null list is refused with 1");
}

/* What malloc gives for no words is null or not; both serve. */
static void no_words(void) {
    uint32_t *none = dirty(0);
    expect(backbone_read(none, 0).refusal == BACKBONE_NO_HEAD, "the reader refuses a list of no words with 1");
    expect(backbone_make(sheet, WORDS, none, 0, NULL, 0) == BACKBONE_WORK_TOO_SHORT, "8 with a work area of no words");
    free(none);
}

static void null_areas(void) {
    uint32_t *work = dirty(WORK), *answer = dirty(ANSWER);
    expect(backbone_make(sheet, WORDS, NULL, 0, answer, ANSWER) == BACKBONE_WORK_TOO_SHORT, "8 with a null work area");
    expect(is_dirty(answer, 0, ANSWER), "8 with a null work area leaves the answer area");
    expect(backbone_make(sheet, WORDS, work, WORK, NULL, 0) == BACKBONE_ANSWER_TOO_SHORT, "9 with a null answer area");
    expect(is_dirty(work, 0, WORK), "9 with a null answer area leaves the work area");
    expect(backbone_make(sheet, WORDS, NULL, 0, NULL, 0) == BACKBONE_WORK_TOO_SHORT, "8 comes before 9");
    free(work);
    free(answer);
}

static void short_areas(void) {
    uint32_t *work = dirty(WORK), *answer = dirty(ANSWER);
    expect(backbone_make(sheet, WORDS, work, WORK - 1, answer, ANSWER) == BACKBONE_WORK_TOO_SHORT, "899 work words give 8");
    expect(backbone_make(sheet, WORDS, work, WORK, answer, ANSWER - 1) == BACKBONE_ANSWER_TOO_SHORT, "3 answer words give 9");
    expect(is_dirty(work, 0, WORK) && is_dirty(answer, 0, ANSWER), "8 and 9 leave both areas");
    free(work);
    free(answer);
}

static void areas_with_spare(size_t spare) {
    uint32_t *work = dirty(WORK + spare), *answer = dirty(ANSWER + spare);
    expect(backbone_make(sheet, WORDS, work, WORK + spare, answer, ANSWER + spare) == BACKBONE_ACCEPTED, "a layout");
    expect(memcmp(answer, best, sizeof best) == 0, "the best layout of sheet A");
    expect(all_are(work, 0, WORK, 0), "the needed work words are zero");
    expect(is_dirty(work, WORK, WORK + spare) && is_dirty(answer, ANSWER, ANSWER + spare), "what is spare is left");
    free(work);
    free(answer);
}

static void two_sided_sheet(void) {
    uint32_t *work = dirty(WORK), *answer = dirty(ANSWER);
    expect(backbone_read(two_sided, WORDS).work == 15, "the reader gives two-sided work words");
    expect(backbone_make(two_sided, WORDS, NULL, 0, NULL, 0) == BACKBONE_TWO_SIDED, "18 comes before 8 and 9");
    expect(backbone_make(two_sided, WORDS, work, WORK, answer, ANSWER) == BACKBONE_TWO_SIDED, "18");
    expect(is_dirty(work, 0, WORK) && is_dirty(answer, 0, ANSWER), "18 leaves both areas");
    free(work);
    free(answer);
}

static void twin_with_spare(size_t spare) {
    uint32_t *area = dirty(WORDS + ANSWER + spare);
    backbone_written made = backbone_twin(two_sided, WORDS + ANSWER, area, WORDS + ANSWER + spare);
    expect(made.refusal == BACKBONE_ACCEPTED && made.written == WORDS + ANSWER, "the twin has as many words");
    expect(memcmp(area, sheet, sizeof sheet) == 0 && memcmp(area + WORDS, best, sizeof best) == 0, "the twin of A two-sided");
    expect(is_dirty(area, WORDS + ANSWER, WORDS + ANSWER + spare), "what is past the twin is left");
    free(area);
}

static void refused_twins(void) {
    uint32_t false_length[WORDS + ANSWER], *area = dirty(WORDS + ANSWER);
    memcpy(false_length, two_sided, sizeof two_sided);
    false_length[WORDS]--;
    backbone_written lone = backbone_twin(two_sided, WORDS, area, WORDS + ANSWER);
    backbone_written unlawful = backbone_twin(false_length, WORDS + ANSWER, NULL, 0);
    backbone_written tight = backbone_twin(two_sided, WORDS + ANSWER, area, WORDS + ANSWER - 1);
    expect(lone.refusal == BACKBONE_BAD_LAYOUT && lone.written == 0, "a sheet without a layout has no twin: 11");
    expect(unlawful.refusal == BACKBONE_UNLAWFUL && unlawful.written == 0, "13 comes before 9");
    expect(tight.refusal == BACKBONE_ANSWER_TOO_SHORT && tight.written == 0, "9 with an area of a word less");
    expect(is_dirty(area, 0, WORDS + ANSWER), "refusals leave the area");
    free(area);
}

/* The stored sheet with the charge after its head, and its length with three charges, in an area that ends with it. */
static uint32_t *charged(const uint32_t *words, const uint32_t *layout) {
    uint32_t *stored = dirty(CHARGED + ANSWER);
    stored[0] = words[0];
    stored[1] = charge_word;
    memcpy(stored + 2, words + 1, (WORDS - 1) * sizeof *words);
    memcpy(stored + CHARGED, layout, ANSWER * sizeof *layout);
    stored[CHARGED] += 3 * CHARGE;
    return stored;
}

static void charged_sheet(void) {
    uint32_t *stored = charged(sheet, best), *work = dirty(WORK), *answer = dirty(ANSWER);
    expect(backbone_read(stored, CHARGED).work == WORK, "a charge asks for no work words");
    expect(backbone_make(stored, CHARGED, work, WORK, answer, ANSWER) == BACKBONE_ACCEPTED, "a layout of a charged sheet");
    expect(memcmp(answer, stored + CHARGED, sizeof best) == 0, "the best layout of sheet A with a charge");
    expect(all_are(work, 0, WORK, 0), "the needed work words are zero after a charged sheet");
    expect(backbone_judge(stored, CHARGED + ANSWER).rule == 0, "the charged layout is lawful");
    stored[CHARGED] -= 3 * CHARGE;
    expect(backbone_judge(stored, CHARGED + ANSWER).rule == 6, "a length without charges breaks rule 6");
    free(stored);
    free(work);
    free(answer);
}

static void charged_twin(void) {
    uint32_t *stored = charged(two_sided, two_sided + WORDS), *twin = charged(sheet, best);
    uint32_t *area = dirty(CHARGED + ANSWER);
    backbone_written made = backbone_twin(stored, CHARGED + ANSWER, area, CHARGED + ANSWER);
    expect(made.refusal == BACKBONE_ACCEPTED && made.written == CHARGED + ANSWER, "the twin has a charge as its sheet has");
    expect(memcmp(area, twin, (CHARGED + ANSWER) * sizeof *twin) == 0, "the twin of A two-sided with a charge");
    free(stored);
    free(twin);
    free(area);
}

static void refused_charges(void) {
    const uint32_t twice[] = {0x10008008, charge_word, charge_word}, late[] = {0x10008008, 0x20000002, charge_word};
    const uint32_t most[] = {0x10008008, 0x50000000 | BACKBONE_MOST_CHARGE};
    const uint32_t spare[] = {0x10008008, 0x50000000 | (BACKBONE_MOST_CHARGE + 1)};
    expect(backbone_read(twice, 3).refusal == BACKBONE_BAD_WORD, "a second charge is refused with 2");
    expect(backbone_read(late, 3).refusal == BACKBONE_BAD_WORD, "a charge after a slot is refused with 2");
    expect(backbone_read(spare, 2).refusal == BACKBONE_BAD_WORD, "a charge with a spare bit is refused with 2");
    expect(backbone_read(twice + 1, 2).refusal == BACKBONE_NO_HEAD, "a charge as the first word is refused with 1");
    expect(backbone_read(most, 2).refusal == BACKBONE_ACCEPTED, "the greatest charge");
}

static int same(backbone_stroke one, backbone_stroke other) {
    const float ends[] = {one.x0, one.y0, one.x1, one.y1}, wanted[] = {other.x0, other.y0, other.x1, other.y1};
    return one.refusal == other.refusal && one.kind == other.kind && memcmp(ends, wanted, sizeof ends) == 0;
}

/* A refusal and zeros beside it. */
static int is_refused(backbone_stroke stroke, uint8_t refusal) {
    return same(stroke, (backbone_stroke){.refusal = refusal});
}

/* Sheet A with its best layout, in an area that ends with it. */
static uint32_t *stored_a(void) {
    uint32_t *stored = dirty(WORDS + ANSWER);
    memcpy(stored, sheet, sizeof sheet);
    memcpy(stored + WORDS, best, sizeof best);
    return stored;
}

static int is_stored_a(const uint32_t *stored) {
    return memcmp(stored, sheet, sizeof sheet) == 0 && memcmp(stored + WORDS, best, sizeof best) == 0;
}

static void strokes_of_a(void) {
    uint32_t *stored = stored_a();
    for (size_t place = 0; place < STROKES; place++) {
        expect(same(backbone_stroke_at(stored, WORDS + ANSWER, place), strokes[place]), "a stroke of sheet A");
    }
    expect(is_refused(backbone_stroke_at(stored, WORDS + ANSWER, STROKES), BACKBONE_PAST_LAST_STROKE), "14");
    expect(is_refused(backbone_stroke_at(stored, WORDS + ANSWER, SIZE_MAX), BACKBONE_PAST_LAST_STROKE), "14 at the last place");
    expect(is_refused(backbone_stroke_at(stored, WORDS, 0), BACKBONE_BAD_LAYOUT), "a sheet without a layout has no strokes: 11");
    expect(is_stored_a(stored), "strokes change no word");
    stored[WORDS]--;
    expect(is_refused(backbone_stroke_at(stored, WORDS + ANSWER, SIZE_MAX), BACKBONE_UNLAWFUL), "13 comes before 14");
    free(stored);
}

/* Backbones begin at plus zero; drops are those of the one-sided sheet. */
static void strokes_of_two_sided(void) {
    for (size_t place = 0; place < STROKES; place++) {
        backbone_stroke wanted = strokes[place];
        if (wanted.kind == BACKBONE_BONE) {
            wanted.x0 = 0.0f;
        }
        expect(same(backbone_stroke_at(two_sided, WORDS + ANSWER, place), wanted), "a stroke of A two-sided");
    }
}

/* A charge gives no stroke. */
static void strokes_of_charged(void) {
    uint32_t *stored = charged(sheet, best);
    for (size_t place = 0; place < STROKES; place++) {
        expect(same(backbone_stroke_at(stored, CHARGED + ANSWER, place), strokes[place]), "a stroke of A with a charge");
    }
    expect(is_refused(backbone_stroke_at(stored, CHARGED + ANSWER, STROKES), BACKBONE_PAST_LAST_STROKE), "14 with a charge");
    free(stored);
}

static void page_with_spare(size_t spare) {
    uint32_t *stored = stored_a();
    uint8_t *area = dirty_bytes(PAGE + spare);
    backbone_written made = backbone_page(stored, WORDS + ANSWER, area, PAGE + spare);
    expect(made.refusal == BACKBONE_ACCEPTED && made.written == PAGE, "the page has 6 lines of 41 bytes");
    expect(memcmp(area, page_of_a, PAGE) == 0, "the page of sheet A");
    expect(are_dirty_bytes(area, PAGE, PAGE + spare), "what is past the page is left");
    expect(is_stored_a(stored), "the page changes no word");
    free(stored);
    free(area);
}

/* A page may begin at any byte. */
static void page_at_odd_bytes(void) {
    uint32_t *stored = stored_a();
    for (size_t from = 1; from < sizeof(uint32_t); from++) {
        uint8_t *area = dirty_bytes(from + PAGE);
        expect(backbone_page(stored, WORDS + ANSWER, area + from, PAGE).written == PAGE, "a page at an odd byte");
        expect(are_dirty_bytes(area, 0, from) && memcmp(area + from, page_of_a, PAGE) == 0, "a page at an odd byte");
        free(area);
    }
    free(stored);
}

static int is_not_written(backbone_written made, uint8_t refusal) {
    return made.refusal == refusal && made.written == 0;
}

static void refused_pages(void) {
    uint32_t *stored = stored_a();
    uint8_t *area = dirty_bytes(PAGE);
    size_t words = WORDS + ANSWER;
    expect(is_not_written(backbone_page(stored, WORDS, area, PAGE), BACKBONE_BAD_LAYOUT), "a sheet without a layout has no page: 11");
    expect(is_not_written(backbone_page(stored, words, area, PAGE - 1), BACKBONE_ANSWER_TOO_SHORT), "9 with an area of a byte less");
    expect(is_not_written(backbone_page(stored, words, NULL, 0), BACKBONE_ANSWER_TOO_SHORT), "9 with a null area");
    stored[WORDS]--;
    expect(is_not_written(backbone_page(stored, words, NULL, 0), BACKBONE_UNLAWFUL), "13 comes before 9");
    expect(is_not_written(backbone_page(stored, words, area, PAGE), BACKBONE_UNLAWFUL), "13");
    expect(are_dirty_bytes(area, 0, PAGE), "refusals leave the page's area");
    free(stored);
    free(area);
}

/* Sheet A's page with other lengths, of two digits each: of slot 0, of slot 2, and of both. */
static int has_page(const uint32_t *stored, size_t words, const char *of_0, const char *of_2, const char *total) {
    enum { TENS = 25, LINE = BACKBONE_PAGE_LINE_BYTES };
    uint8_t *area = dirty_bytes(BACKBONE_PAGE_BYTES);
    char page[sizeof page_of_a];
    memcpy(page, page_of_a, sizeof page);
    memcpy(page + TENS, of_0, 2);
    memcpy(page + LINE + TENS, of_2, 2);
    memcpy(page + 5 * LINE + TENS, total, 2);
    backbone_written made = backbone_page(stored, words, area, BACKBONE_PAGE_BYTES);
    int holds = made.refusal == BACKBONE_ACCEPTED && made.written == PAGE && memcmp(area, page, PAGE) == 0;
    free(area);
    return holds;
}

static void other_pages(void) {
    uint32_t *stored = charged(sheet, best);
    expect(has_page(two_sided, WORDS + ANSWER, "14", "11", "25"), "the page of A two-sided: both backbones have 8 units");
    expect(has_page(stored, CHARGED + ANSWER, "22", "12", "34"), "the page of A with a charge: 5 more for each drop");
    free(stored);
}

/* Sheet A with another head and the layout of slots 2, 2 and 0, which has length 19. */
static uint32_t *with_head(uint32_t head) {
    static const uint32_t other[ANSWER] = {0x80400013, 0x90000002, 0x90000002, 0x90000000};
    uint32_t *stored = dirty(WORDS + ANSWER);
    memcpy(stored, sheet, sizeof sheet);
    memcpy(stored + WORDS, other, sizeof other);
    stored[0] = head;
    return stored;
}

/* With gap 3 the tip at (4, 2) is too near the site (2, 4): it is left by 2, and 2 below. */
static void near_tip(void) {
    uint32_t *stored = with_head(0x1000C008), *gap_2 = with_head(sheet[0]), *work = dirty(WORK), *answer = dirty(ANSWER);
    expect(backbone_judge(gap_2, WORDS + ANSWER).rule == 0, "with gap 2 the tip is far enough");
    expect(backbone_judge(stored, WORDS + ANSWER).rule == 5, "with gap 3 the tip breaks rule 5");
    expect(is_refused(backbone_stroke_at(stored, WORDS + ANSWER, 0), BACKBONE_UNLAWFUL), "a tip too near: no strokes");
    expect(backbone_twin(stored, WORDS + ANSWER, NULL, 0).refusal == BACKBONE_UNLAWFUL, "a tip too near: no twin");
    expect(backbone_page(stored, WORDS + ANSWER, NULL, 0).refusal == BACKBONE_UNLAWFUL, "a tip too near: no page");
    expect(backbone_make(stored, WORDS, work, WORK, answer, ANSWER) == BACKBONE_NO_LAYOUT, "A with gap 3 has no layout");
    expect(all_are(work, 0, WORK, 0), "the needed work words are zero after 10");
    expect(is_dirty(answer, 0, ANSWER), "10 leaves the answer area");
    free(stored);
    free(gap_2);
    free(work);
    free(answer);
}

int main(void) {
    null_lists();
    no_words();
    null_areas();
    short_areas();
    areas_with_spare(0);
    areas_with_spare(SPARE);
    two_sided_sheet();
    twin_with_spare(0);
    twin_with_spare(SPARE);
    refused_twins();
    strokes_of_a();
    strokes_of_two_sided();
    charged_sheet();
    charged_twin();
    refused_charges();
    strokes_of_charged();
    page_with_spare(0);
    page_with_spare(SPARE);
    page_at_odd_bytes();
    refused_pages();
    other_pages();
    near_tip();
    return failures == 0 ? 0 : 1;
}
