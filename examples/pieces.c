/* Draws the pieces that an elliptical fin's strip was cut into, as a screen would: a line for each, from the root up. From the repository's root:
 *
 *   tools/build exports screen_exports
 *   cc -Iinclude examples/pieces.c -Ltarget/staticlib -lscreen_exports -lexports -o pieces && ./pieces
 *
 * The pieces are left in the scratch, 16 numbers each from its start: where a piece begins and ends, as fractions of root chord plus span, then
 * its seven values and its seven errors. They lie in the order in which they were made; sorted by their starts they rise, one's end being the
 * next one's start. */
#include <stdio.h>
#include <stdlib.h>
#include <string.h>

#include "delvouzh.h"

enum { LIMIT = 64, PIECE = 16, COLUMNS = 60 };

static int by_start(const void *a, const void *b) {
    double x = *(const double *)a, y = *(const double *)b;
    return (x > y) - (x < y);
}

int main(void) {
    static const double ellipse[2] = {0.2, 0.1}; /* root chord, span */
    static double scratch[PIECE * LIMIT], body[DELVOUZH_BODY], job_numbers[DELVOUZH_JOB_NUMBERS];
    static size_t counts[DELVOUZH_COUNTS], job_counts[DELVOUZH_JOB_COUNTS], values[DELVOUZH_VALUES];
    double scale = ellipse[0] + ellipse[1];
    struct delvouzh_set set;
    size_t number, k;

    memset(&set, 0, sizeof set);
    set.count = 3;
    set.planform = DELVOUZH_ELLIPSE;
    memcpy(set.lengths, ellipse, sizeof ellipse);
    set.section = DELVOUZH_ROUNDED;
    set.thickness_m = 0.003;
    set.body_radius_m = 0.05;
    set.density = DELVOUZH_BULK;
    set.density_figure = 680.0;
    number = delvouzh_set_job_make(&set, LIMIT, job_numbers, job_counts, values);
    if (number == 0) /* an ellipse is one strip, so that its first step is its last */
        number = delvouzh_job_step(job_numbers, DELVOUZH_JOB_NUMBERS, job_counts, DELVOUZH_JOB_COUNTS, scratch, PIECE * LIMIT, body,
                                   DELVOUZH_BODY, counts, DELVOUZH_COUNTS);
    if (number != 0) {
        fprintf(stderr, "refused %zu: %s\n", number, delvouzh_sentence(number));
        return 1;
    }
    qsort(scratch, counts[2], PIECE * sizeof *scratch, by_start);
    printf("%zu pieces, %zu samples; heights in mm\n", counts[2], counts[3]);
    for (k = 0; k < counts[2]; k++) {
        double low = scratch[PIECE * k] * scale, high = scratch[PIECE * k + 1] * scale;
        int from = (int)(COLUMNS * low / ellipse[1]), to = (int)(COLUMNS * high / ellipse[1]);
        printf("%8.3f to %8.3f |%*s", 1e3 * low, 1e3 * high, from, "");
        while (from++ <= to) putchar('=');
        putchar('\n');
    }
    return 0;
}
