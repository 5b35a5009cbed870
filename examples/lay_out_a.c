/* Lays out a sheet through the C interface, prints the layout and checks it with the judge. */
#include "backbone.h"

#include <inttypes.h>
#include <stdio.h>
#include <string.h>

enum { WORDS = 9, WORK_WORDS = 900 };

/* Width 8, gap 2, slots at 2, 5 and 8; colour 0 at (2,4) and (6,6), colour 1 at (4,5). */
static const uint32_t sheet[WORDS] = {0x10008008, 0x20000002, 0x20000005, 0x20000008, 0x300000FF,
                                      0x40008004, 0x40018006, 0x300000FF, 0x40010005};

static void print_layout(const uint32_t *layout, backbone_sizes sizes) {
    printf("labels %" PRIu32 " length %" PRIu32 "\n", layout[0] >> 21 & 0x7F, layout[0] & 0x1FFFFF);
    unsigned site = 0;
    for (unsigned colour = 0; colour < sizes.c; colour++) {
        for (unsigned own = 0; own < sizes.colours[colour].sites; own++, site++) {
            printf("site %u colour %u slot %" PRIu32 "\n", site, colour, layout[site + 1] & 0xFF);
        }
    }
}

int main(void) {
    backbone_sizes sizes = backbone_read(sheet, WORDS);
    if (sizes.refusal != BACKBONE_ACCEPTED || sizes.work > WORK_WORDS) {
        fprintf(stderr, "refused %u, %" PRIu32 " work words\n", sizes.refusal, sizes.work);
        return 1;
    }
    static uint32_t work[WORK_WORDS];
    uint32_t stored[WORDS + BACKBONE_ANSWER_WORDS];
    memcpy(stored, sheet, sizeof sheet);
    uint32_t *layout = stored + WORDS;
    uint32_t refusal = backbone_make(sheet, WORDS, work, WORK_WORDS, layout, BACKBONE_ANSWER_WORDS);
    if (refusal != BACKBONE_ACCEPTED) {
        fprintf(stderr, "refused %" PRIu32 "\n", refusal);
        return 1;
    }
    print_layout(layout, sizes);
    backbone_verdict verdict = backbone_judge(stored, WORDS + sizes.n + 1u);
    if (verdict.refusal != BACKBONE_ACCEPTED || verdict.rule != 0) {
        fprintf(stderr, "judge: refused %u, broken rule %u\n", verdict.refusal, verdict.rule);
        return 1;
    }
    return 0;
}
