/* What a C program gets from the static libraries: each call with figures and refused, what is left alone where there is no room, the
 * scratch, threads, and the stack. tests/header compiles it, as C and as C++; it prints what does not hold, and exits with 1 then. */
#define _XOPEN_SOURCE 700
#include <fenv.h>
#include <math.h>
#include <pthread.h>
#include <stdint.h>
#include <stdio.h>
#include <string.h>
#include <ucontext.h>

#include "delvouzh.h"

enum { LIMIT = 64, SCRATCH = 16 * LIMIT, THREADS = 4, TURNS = 200 };

/* 0.2 m root chord, 3 mm of plywood, a body of 50 mm radius: the examples of docs/FORMS.md */
static const double TRAPEZOID[4] = {0.2, 0.1, 0.15, 0.05};
static const double ELLIPSE[4] = {0.2, 0.1, 0.0, 0.0};
static const double TUBES[6] = {0.2, 0.05, 0.001, 0.0, 0.05, 680.0};
static const double FIGURES[5] = {0.003, 0.0, 0.0, 0.05, 680.0};

/* what a call is lent, and what it returned */
struct lent {
    double scratch[SCRATCH], numbers[DELVOUZH_BODY], engine_numbers[DELVOUZH_ENGINE_NUMBERS];
    size_t counts[DELVOUZH_COUNTS], engine_counts[DELVOUZH_ENGINE_COUNTS], number;
    unsigned char answer[DELVOUZH_ANSWER];
};

static struct lent at;
static int failed;

static void holds(const char *what, int good) {
    if (!good) {
        failed++;
        printf("FAILED: %s\n", what);
    }
}

static uint64_t bits(double x) {
    uint64_t b;
    memcpy(&b, &x, sizeof b);
    return b;
}

/* Lends `filling` everywhere. */
static void lend(struct lent *l, double filling) {
    for (int i = 0; i < SCRATCH; i++) l->scratch[i] = filling;
    for (int i = 0; i < DELVOUZH_BODY; i++) l->numbers[i] = filling;
    for (int i = 0; i < DELVOUZH_COUNTS; i++) l->counts[i] = 99;
    memset(l->answer, '?', sizeof l->answer);
    for (int i = 0; i < DELVOUZH_ENGINE_NUMBERS; i++) l->engine_numbers[i] = 0.0;
    for (int i = 0; i < DELVOUZH_ENGINE_COUNTS; i++) l->engine_counts[i] = 0;
}

/* A set as the calls take it. */
struct lists {
    double numbers[DELVOUZH_SET_NUMBERS];
    size_t counts[DELVOUZH_SET_COUNTS];
};

/* Three fins without a tab, whose figures are not read; `lengths` are not an outline's, which has points. */
static struct lists lists_of(size_t planform, const double *lengths, size_t section, const double *figures, size_t fillet, const double *fillet_numbers) {
    struct lists set;
    const size_t counts[DELVOUZH_SET_COUNTS] = {3, planform, section, DELVOUZH_NO_TAB, DELVOUZH_BULK, fillet};
    for (int i = 0; i < DELVOUZH_SET_NUMBERS; i++) set.numbers[i] = NAN;
    if (planform != DELVOUZH_OUTLINE) memcpy(set.numbers, lengths, DELVOUZH_LENGTHS * sizeof *lengths);
    memcpy(set.numbers + 4, figures, 5 * sizeof *figures);
    if (fillet_numbers != NULL) memcpy(set.numbers + 12, fillet_numbers, 2 * sizeof *fillet_numbers);
    memcpy(set.counts, counts, sizeof counts);
    return set;
}

/* `lengths` are an outline's points, `len` numbers. */
static void set_of(struct lent *l, size_t limit, size_t planform, const double *lengths, size_t len, const double *figures) {
    const struct lists set = lists_of(planform, lengths, DELVOUZH_SQUARE, figures, DELVOUZH_NO_FILLET, NULL);
    l->number = delvouzh_mass_properties(limit, set.numbers, DELVOUZH_SET_NUMBERS, set.counts, DELVOUZH_SET_COUNTS, lengths, len, l->scratch,
                                         SCRATCH, l->numbers, DELVOUZH_BODY, l->counts, DELVOUZH_COUNTS);
}

static void filleted_set_of(struct lent *l, size_t fillet, const double *fillet_numbers, size_t numbers_len, size_t counts_len) {
    const struct lists set = lists_of(DELVOUZH_TRAPEZOID, TRAPEZOID, DELVOUZH_SQUARE, FIGURES, fillet, fillet_numbers);
    l->number = delvouzh_mass_properties(LIMIT, set.numbers, numbers_len, set.counts, counts_len, NULL, 0, l->scratch, SCRATCH, l->numbers,
                                         DELVOUZH_BODY, l->counts, DELVOUZH_COUNTS);
}

static void area_of(struct lent *l, size_t planform, const double *lengths, size_t len) {
    l->number = delvouzh_geometry(LIMIT, planform, lengths, DELVOUZH_LENGTHS, lengths, len, l->scratch, SCRATCH, l->numbers, DELVOUZH_AREA,
                                  l->counts, DELVOUZH_COUNTS);
}

static void answer_to(struct lent *l, const char *line) {
    l->number = delvouzh_answer_line((const unsigned char *)line, strlen(line), l->scratch, SCRATCH, l->engine_numbers, DELVOUZH_ENGINE_NUMBERS,
                                     l->engine_counts, DELVOUZH_ENGINE_COUNTS, l->answer, DELVOUZH_ANSWER, l->counts, DELVOUZH_WRITTEN);
}

/* A refusal has a sentence of its own, and 4 and 9 the name of their field. */
static int has_words(void) {
    const char *const field = delvouzh_refused_field(at.number, at.counts);
    const int has_field = at.number == DELVOUZH_REFUSED_LENGTH || at.number == DELVOUZH_REFUSED_ANGLE;
    return strcmp(delvouzh_sentence(at.number), delvouzh_sentence(0)) != 0 && (*field != 0) == has_field && strcmp(field, "no field") != 0;
}

static int refused(size_t number, size_t first, size_t second) {
    const int is_refusal = number != 0 && number != DELVOUZH_MORE;
    return at.number == number && at.counts[0] == first && at.counts[1] == second && (!is_refusal || has_words());
}

static int answered(const char *text) {
    return at.number == 0 && at.counts[0] == strlen(text) && memcmp(at.answer, text, strlen(text)) == 0;
}

static int left_alone(void) {
    struct lent as_lent;
    lend(&as_lent, 7.0);
    return memcmp(as_lent.scratch, at.scratch, sizeof at.scratch) == 0 && memcmp(as_lent.numbers, at.numbers, sizeof at.numbers) == 0 &&
           memcmp(as_lent.counts, at.counts, sizeof at.counts) == 0 && memcmp(as_lent.answer, at.answer, sizeof at.answer) == 0;
}

static void figures(void) {
    set_of(&at, LIMIT, DELVOUZH_TRAPEZOID, TRAPEZOID, 4, FIGURES);
    holds("a set's mass", at.number == 0 && bits(at.numbers[0]) == 0x3fc1a027525460ab);
    holds("a set's centre", bits(at.numbers[3]) == 0xbfb9999999999999);
    holds("a set's tensor", bits(at.numbers[4]) == 0x3f561772f7ea12f8 && bits(at.numbers[6]) == 0x3f616435485c1b52);
    holds("a set's counts", refused(0, 0, 0) && at.counts[2] == 1 && at.counts[3] == 15);
    const double fillet_numbers[2] = {0.01, 1200.0};
    filleted_set_of(&at, DELVOUZH_BULK, fillet_numbers, DELVOUZH_SET_NUMBERS, DELVOUZH_SET_COUNTS);
    holds("a set with fillets", refused(0, 0, 0) && bits(at.numbers[0]) == 0x3fc4a28891b0e97b && bits(at.numbers[6]) == 0x3f61e9ed0a3848ba);
    area_of(&at, DELVOUZH_ELLIPSE, ELLIPSE, 2);
    holds("an area", at.number == 0 && bits(at.numbers[0]) == 0x3f9015bf9217273e);
    holds("a centroid", bits(at.numbers[1]) == 0x3fb999999999999b && bits(at.numbers[2]) == 0x3fa5bade52f95eaa);
    holds("an area's counts", refused(0, 0, 0) && at.counts[2] == 22 && at.counts[3] == 645);
    const double outline[8] = {0.0, 0.0, 0.05, 0.15, 0.15, 0.15, 0.2, 0.0};
    area_of(&at, DELVOUZH_OUTLINE, outline, 8);
    holds("an outline's area", at.number == 0 && fabs(at.numbers[0] - 0.0225) < 1e-15);
    at.number = delvouzh_chords_at(DELVOUZH_TRAPEZOID, TRAPEZOID, DELVOUZH_LENGTHS, NULL, 0, 0.15, at.scratch, SCRATCH, at.counts, DELVOUZH_CHORD_COUNTS);
    holds("the chord at the span", refused(0, 0, 0) && at.counts[2] == 1 && at.scratch[0] == 0.05 && at.scratch[1] == (0.05 + 0.2) + (0.1 - 0.2));
    const double drilled[4] = {1.0, 0.5, 1.0, 0.5};
    at.number = delvouzh_drill(DELVOUZH_TRAPEZOID, drilled, DELVOUZH_LENGTHS, NULL, 0, 0.25, 0.5, at.counts, DELVOUZH_COUNTS);
    holds("a point on the edge", refused(0, 0, 0) && at.counts[2] == DELVOUZH_EDGE && at.counts[3] == 0);
    at.number = delvouzh_drill(DELVOUZH_TRAPEZOID, drilled, DELVOUZH_LENGTHS, NULL, 0, 1.25, 1.0, at.counts, DELVOUZH_COUNTS);
    holds("a point outside", refused(0, 0, 0) && at.counts[2] == DELVOUZH_OUTSIDE && at.counts[3] == 2);
    at.number = delvouzh_tube_mass_properties(6, DELVOUZH_BULK, TUBES, 6, at.numbers, DELVOUZH_BODY, at.counts, DELVOUZH_VALUES);
    holds("a ring of tubes", refused(0, 0, 0) && fabs(at.numbers[0] - 0.2537904) < 1e-7 && fabs(at.numbers[3] + 0.1) < 1e-15);
    const double can[DELVOUZH_BODY] = {0.9, 0.25, 0.0, -0.5, 0.003, 0.003, 0.001, 0.0, 0.0, 0.0};
    const double ballast[DELVOUZH_BODY] = {0.2, 0.0, 0.0, -0.1, 0.0, 0.0, 0.0, 0.0, 0.0, 0.0};
    const double places[6] = {0.5, 0.0, 0.0, -0.5, 0.0, 0.0};
    at.number = delvouzh_copied(can, DELVOUZH_BODY, places + 1, 2, at.numbers, DELVOUZH_BODY, at.counts, DELVOUZH_VALUES);
    holds("a copy that is not moved", refused(0, 0, 0) && memcmp(at.numbers, can, sizeof can) == 0);
    at.number = delvouzh_placed(can, DELVOUZH_BODY, places, 6, at.numbers, DELVOUZH_BODY, at.counts, DELVOUZH_VALUES);
    holds("two copies", refused(0, 0, 0) && at.numbers[0] == 1.8 && fabs(at.numbers[1] - 0.25) < 1e-15);
    at.number = delvouzh_with_part_moved(can, DELVOUZH_BODY, ballast, DELVOUZH_BODY, places, 3, at.numbers, DELVOUZH_BODY, at.counts, DELVOUZH_VALUES);
    holds("a part moved", refused(0, 0, 0) && at.numbers[0] == 0.9 && fabs(at.numbers[1] - 0.25 - 0.1 / 0.9) < 1e-15);
    at.number = delvouzh_without_part(can, DELVOUZH_BODY, ballast, DELVOUZH_BODY, at.numbers, DELVOUZH_BODY, at.counts, DELVOUZH_VALUES);
    holds("a part taken off", refused(0, 0, 0) && at.numbers[0] == 0.9 - 0.2);
    at.number = delvouzh_without_part(can, DELVOUZH_BODY, can, DELVOUZH_BODY, at.numbers, DELVOUZH_BODY, at.counts, DELVOUZH_VALUES);
    holds("26", refused(26, 0, 0) && at.numbers[0] == 0.0);
    at.number = delvouzh_closing_radius(2, 0.05, at.numbers, DELVOUZH_CLOSING, at.counts, DELVOUZH_VALUES);
    holds("a closing radius", refused(0, 0, 0) && at.numbers[0] == 0.05);
    const double bodies[20] = {1, 0, 0, 0, 0, 0, 0, 0, 0, 0, 1, 2, 0, 0, 0, 0, 0, 0, 0, 0};
    at.number = delvouzh_combine(bodies, 20, at.numbers, DELVOUZH_BODY);
    holds("a join", at.number == 0 && at.numbers[0] == 2.0 && at.numbers[1] == 1.0 && at.numbers[5] == 2.0 && at.numbers[6] == 2.0);
    const double tensor[6] = {2, 0, 2, 0, 0, 0};
    at.number = delvouzh_principal_moments(tensor, 6, at.numbers, DELVOUZH_MOMENTS, at.counts, DELVOUZH_VALUES);
    holds("moments", refused(0, 0, 0) && at.numbers[0] == 0.0 && at.numbers[1] == 2.0 && at.numbers[2] == 2.0);
    holds("the most samples", delvouzh_most_samples() == DELVOUZH_MOST_SAMPLES);
    holds("the root of 2", bits(delvouzh_sqrt(2.0)) == 0x3ff6a09e667f3bcd);
    answer_to(&at, "(join (point 1.0 #4000000000000000 0 -0))");
    holds("a line", answered("(joined (mass 3ff0000000000000) (centre 4000000000000000 0000000000000000 0000000000000000) (inertia"
                             " 0000000000000000 0000000000000000 0000000000000000 0000000000000000 0000000000000000 0000000000000000))"));
}

static void refusals(void) {
    const double tip[4] = {0.2, -0.01, 0.15, 0.05}, cant[5] = {0.003, NAN, 0.0, 0.05, 680.0};
    const double crossed[8] = {0, 0, 2, 1, 0, 1, 2, 0};
    double body[DELVOUZH_BODY] = {1, 0, 0, 0, 1, 1, 3, 0, 0, 0};
    set_of(&at, 0, DELVOUZH_TRAPEZOID, TRAPEZOID, 4, FIGURES);
    holds("1", refused(1, 0, 0));
    set_of(&at, LIMIT + 1, DELVOUZH_TRAPEZOID, TRAPEZOID, 4, FIGURES);
    holds("1 of 65 pieces", refused(1, 0, 0));
    at.number = delvouzh_geometry(LIMIT, DELVOUZH_ELLIPSE, ELLIPSE, DELVOUZH_LENGTHS, NULL, 0, at.scratch, SCRATCH - 1, at.numbers, DELVOUZH_AREA,
                                  at.counts, DELVOUZH_COUNTS);
    holds("2", refused(2, 0, 0));
    set_of(&at, LIMIT, DELVOUZH_TRAPEZOID, tip, 4, FIGURES);
    holds("4 with its field", refused(4, 2, 0) && at.numbers[0] == 0.0);
    area_of(&at, DELVOUZH_OUTLINE, crossed, 8);
    holds("7 with its edges", refused(7, 0, 2));
    at.scratch[0] = 7.0;
    at.number = delvouzh_chords_at(DELVOUZH_OUTLINE, crossed, DELVOUZH_LENGTHS, crossed, 8, 0.5, at.scratch, SCRATCH, at.counts, DELVOUZH_CHORD_COUNTS);
    holds("no chords of a refused planform", refused(7, 0, 2) && at.counts[2] == 0 && at.scratch[0] == 7.0);
    at.number = delvouzh_drill(DELVOUZH_ELLIPSE, ELLIPSE, DELVOUZH_LENGTHS, NULL, 0, 0.5, 65.0, at.counts, DELVOUZH_COUNTS);
    holds("4 of a point's height", refused(4, 18, 0) && at.counts[2] == 0 && at.counts[3] == 0);
    at.number = delvouzh_drill(DELVOUZH_ELLIPSE, ELLIPSE, DELVOUZH_LENGTHS, NULL, 0, 0.5, 0.5, at.counts, DELVOUZH_COUNTS);
    holds("24", refused(24, 0, 0));
    set_of(&at, LIMIT, DELVOUZH_TRAPEZOID, TRAPEZOID, 4, cant);
    holds("9 with its field", refused(9, 12, 0));
    const double wide[2] = {51.0, 0.0};
    filleted_set_of(&at, DELVOUZH_BULK, wide, DELVOUZH_SET_NUMBERS, DELVOUZH_SET_COUNTS);
    holds("22", refused(22, 0, 0));
    filleted_set_of(&at, DELVOUZH_SURFACE, wide, DELVOUZH_SET_NUMBERS, DELVOUZH_SET_COUNTS);
    holds("12 of a fillet", refused(12, 0, 0));
    filleted_set_of(&at, 4, wide, DELVOUZH_SET_NUMBERS, DELVOUZH_SET_COUNTS);
    holds("18 of an unknown fillet", refused(18, 0, 0));
    filleted_set_of(&at, DELVOUZH_NO_FILLET, wide, DELVOUZH_SET_NUMBERS - 1, DELVOUZH_SET_COUNTS);
    holds("18 of a set's numbers without the last", refused(18, 0, 0));
    filleted_set_of(&at, DELVOUZH_NO_FILLET, wide, DELVOUZH_SET_NUMBERS, DELVOUZH_SET_COUNTS - 1);
    holds("18 of a set's counts without the last", refused(18, 0, 0));
    at.number = delvouzh_geometry(LIMIT, DELVOUZH_ELLIPSE, ELLIPSE, 2, NULL, 0, at.scratch, SCRATCH, at.numbers, DELVOUZH_AREA, at.counts,
                                  DELVOUZH_COUNTS);
    holds("18 of two lengths", refused(18, 0, 0));
    set_of(&at, 1, DELVOUZH_ELLIPSE, ELLIPSE, 2, FIGURES);
    holds("13 with its samples", at.number == 13 && at.counts[0] < 7 && at.counts[2] == 0 && at.counts[3] == 15);
    at.number = delvouzh_check(body, DELVOUZH_BODY, at.counts, DELVOUZH_VALUES);
    holds("17 with its case", refused(17, 4, 0));
    at.number = delvouzh_combine(body, DELVOUZH_BODY - 1, at.numbers, DELVOUZH_BODY);
    holds("3", at.number == 3);
    at.number = delvouzh_closing_radius(6, NAN, at.numbers, DELVOUZH_CLOSING, at.counts, DELVOUZH_VALUES);
    holds("4 of a closing radius", refused(4, 11, 0) && at.numbers[0] == 0.0);
    at.number = delvouzh_tube_mass_properties(6, DELVOUZH_BULK, TUBES, 5, at.numbers, DELVOUZH_BODY, at.counts, DELVOUZH_VALUES);
    holds("18 of five figures of a ring", refused(18, 0, 0));
    area_of(&at, 4, TRAPEZOID, 4);
    holds("18 of an unknown planform", refused(18, 0, 0));
    answer_to(&at, "(join)");
    holds("a refused line is answered", answered("(refused 3)"));
    answer_to(&at, "(turn)");
    holds("no job", answered("(idle)"));
    answer_to(&at, "(submit 2 (set (limit 1) (count 3) (ellipse 0.2 0.1) (thickness 0.003) (section square) (cant 0) (base 0) (radius 0.05) (bulk 680)))");
    holds("a job is taken", answered("(taken)"));
    answer_to(&at, "(turn)");
    holds("a job that is refused", answered("(done 2 (refused 13))"));
    answer_to(&at, "(turn)");
    holds("its screen is free", answered("(idle)"));
    answer_to(&at, "");
    holds("an empty line is answered", answered("(refused 18)"));
}

/* No room: 18, and nothing at all is written. */
static void no_room(void) {
    const unsigned char line[] = "(area (limit 8) (ellipse 3fc999999999999a 3fb999999999999a))";
    const double body[DELVOUZH_BODY] = {0};
    const struct lists set = lists_of(DELVOUZH_TRAPEZOID, TRAPEZOID, DELVOUZH_SQUARE, FIGURES, DELVOUZH_NO_FILLET, NULL);
    lend(&at, 7.0);
    at.number = delvouzh_mass_properties(LIMIT, set.numbers, DELVOUZH_SET_NUMBERS, set.counts, DELVOUZH_SET_COUNTS, NULL, 0, at.scratch, SCRATCH,
                                         at.numbers, DELVOUZH_BODY - 1, at.counts, DELVOUZH_COUNTS);
    holds("no room for a body", at.number == 18 && left_alone());
    at.number = delvouzh_geometry(LIMIT, DELVOUZH_ELLIPSE, ELLIPSE, DELVOUZH_LENGTHS, NULL, 0, at.scratch, SCRATCH, at.numbers, DELVOUZH_AREA,
                                  at.counts, DELVOUZH_COUNTS - 1);
    holds("no room for counts", at.number == 18 && left_alone());
    at.number = delvouzh_chords_at(DELVOUZH_ELLIPSE, ELLIPSE, DELVOUZH_LENGTHS, NULL, 0, 0.1, at.scratch, DELVOUZH_CHORDS - 1, at.counts, DELVOUZH_CHORD_COUNTS);
    holds("no room for chords", at.number == 18 && left_alone());
    at.number = delvouzh_tube_mass_properties(6, DELVOUZH_BULK, TUBES, 6, at.numbers, DELVOUZH_BODY - 1, at.counts, DELVOUZH_VALUES);
    holds("no room for a ring", at.number == 18 && left_alone());
    at.number = delvouzh_closing_radius(6, 0.05, at.numbers, 0, at.counts, DELVOUZH_VALUES);
    holds("no room for a radius", at.number == 18 && left_alone());
    at.number = delvouzh_drill(DELVOUZH_ELLIPSE, ELLIPSE, DELVOUZH_LENGTHS, NULL, 0, 0.5, 0.5, at.counts, DELVOUZH_COUNTS - 1);
    holds("no room for a place", at.number == 18 && left_alone());
    at.number = delvouzh_check(body, DELVOUZH_BODY, at.counts, DELVOUZH_VALUES - 1);
    holds("no room for values", at.number == 18 && left_alone());
    at.number = delvouzh_answer_line(line, sizeof line - 1, at.scratch, SCRATCH, at.engine_numbers, DELVOUZH_ENGINE_NUMBERS, at.engine_counts,
                                     DELVOUZH_ENGINE_COUNTS, at.answer, DELVOUZH_ANSWER - 1, at.counts, 1);
    holds("no room for an answer", at.number == 18 && left_alone());
    at.number = delvouzh_answer_line(line, sizeof line - 1, at.scratch, SCRATCH, at.engine_numbers, DELVOUZH_ENGINE_NUMBERS, at.engine_counts,
                                     DELVOUZH_ENGINE_COUNTS, at.answer, DELVOUZH_ANSWER, at.counts, 0);
    holds("no room for an answer's length", at.number == 18 && left_alone());
    at.number = delvouzh_answer_line(line, sizeof line - 1, at.scratch, SCRATCH, at.engine_numbers, DELVOUZH_ENGINE_NUMBERS - 1, at.engine_counts,
                                     DELVOUZH_ENGINE_COUNTS, at.answer, DELVOUZH_ANSWER, at.counts, 1);
    holds("no room for an engine's numbers", at.number == 18 && left_alone());
    at.number = delvouzh_answer_line(line, sizeof line - 1, at.scratch, SCRATCH, at.engine_numbers, DELVOUZH_ENGINE_NUMBERS, at.engine_counts,
                                     DELVOUZH_ENGINE_COUNTS - 1, at.answer, DELVOUZH_ANSWER, at.counts, 1);
    holds("no room for an engine's counts", at.number == 18 && left_alone());
}

/* The scratch: what it holds on entry does not matter, and behind the pieces it is left as it was. */
static void scratches(void) {
    double mass[2];
    for (int k = 0; k < 2; k++) {
        lend(&at, k == 0 ? NAN : 7.0);
        set_of(&at, LIMIT, DELVOUZH_ELLIPSE, ELLIPSE, 2, FIGURES);
        mass[k] = at.numbers[0];
    }
    holds("the scratch on entry does not matter", at.number == 0 && bits(mass[0]) == bits(mass[1]));
    holds("a strip's pieces are in the scratch", at.scratch[0] == 0.0 && at.scratch[16 * at.counts[2] - 1] != 7.0);
    holds("the rest of the scratch is left", at.scratch[16 * at.counts[2]] == 7.0 && at.scratch[SCRATCH - 1] == 7.0);
}

/* A job's memory, with one place behind it that no call may write. */
static double job_numbers[DELVOUZH_JOB_NUMBERS + 1];
static size_t job_counts[DELVOUZH_JOB_COUNTS + 1];

/* What it held before the last call on it. */
static double job_numbers_before[DELVOUZH_JOB_NUMBERS + 1];
static size_t job_counts_before[DELVOUZH_JOB_COUNTS + 1];

static void keep_job(void) {
    memcpy(job_numbers_before, job_numbers, sizeof job_numbers);
    memcpy(job_counts_before, job_counts, sizeof job_counts);
}

static int job_alone(void) {
    return memcmp(job_numbers_before, job_numbers, sizeof job_numbers) == 0 && memcmp(job_counts_before, job_counts, sizeof job_counts) == 0;
}

static void make_job(size_t section, const double *figures) {
    const double outline[8] = {0.0, 0.0, 0.05, 0.15, 0.15, 0.05, 0.2, 0.0};
    const struct lists set = lists_of(DELVOUZH_OUTLINE, NULL, section, figures, DELVOUZH_NO_FILLET, NULL);
    keep_job();
    at.number = delvouzh_job_make(LIMIT, set.numbers, DELVOUZH_SET_NUMBERS, set.counts, DELVOUZH_SET_COUNTS, outline, 8, job_numbers,
                                  DELVOUZH_JOB_NUMBERS + 1, job_counts, DELVOUZH_JOB_COUNTS + 1, at.counts, DELVOUZH_VALUES);
}

static void step_job(size_t scratch_len) {
    keep_job();
    at.number = delvouzh_job_step(job_numbers, DELVOUZH_JOB_NUMBERS + 1, job_counts, DELVOUZH_JOB_COUNTS + 1, at.scratch, scratch_len, at.numbers,
                                  DELVOUZH_BODY, at.counts, DELVOUZH_COUNTS);
}

static void change_job(size_t density, double figure) {
    keep_job();
    at.number = delvouzh_job_change_density(job_numbers, DELVOUZH_JOB_NUMBERS + 1, job_counts, DELVOUZH_JOB_COUNTS + 1, density, figure, at.counts,
                                            DELVOUZH_COUNTS);
}

static void tell_job(void) {
    keep_job();
    at.number = delvouzh_job_progress(job_numbers, DELVOUZH_JOB_NUMBERS + 1, job_counts, DELVOUZH_JOB_COUNTS + 1, at.counts, DELVOUZH_COUNTS);
}

static int told_so(size_t worked, size_t strips, size_t intervals, size_t samples) {
    return at.number == 0 && at.counts[0] == worked && at.counts[1] == strips && at.counts[2] == intervals && at.counts[3] == samples;
}

static int no_figures(void) {
    return at.numbers[0] == 0.0 && at.numbers[9] == 0.0 && refused(at.number, 0, 0) && at.counts[2] == 0 && at.counts[3] == 0;
}

/* A set of two strips, its wood changed between them, beside the same set in one run. */
static void jobs(void) {
    const double outline[8] = {0.0, 0.0, 0.05, 0.15, 0.15, 0.05, 0.2, 0.0}, balsa[5] = {0.003, 0.0, 0.0, 0.05, 160.0}, thick[5] = {65.0, 0.0, 0.0, 0.05, 160.0};
    struct lent whole;
    size_t samples;
    lend(&whole, 7.0);
    set_of(&whole, LIMIT, DELVOUZH_OUTLINE, outline, 8, balsa);
    lend(&at, 7.0);
    memset(job_numbers, 0xa5, sizeof job_numbers);
    memset(job_counts, 0xa5, sizeof job_counts);
    make_job(5, FIGURES);
    holds("18 leaves any memory as it was", refused(18, 0, 0) && job_alone());
    job_numbers[DELVOUZH_JOB_NUMBERS] = 7.0;
    job_counts[DELVOUZH_JOB_COUNTS] = 99;
    make_job(DELVOUZH_SQUARE, FIGURES);
    holds("a job is taken", refused(0, 0, 0));
    change_job(DELVOUZH_LINE, 160.0);
    holds("12 before the first strip", refused(12, 0, 0) && at.counts[3] == 0 && job_alone());
    tell_job();
    holds("no strip of two is worked", told_so(0, 2, 0, 0) && job_alone());
    step_job(SCRATCH);
    holds("more remain", at.number == DELVOUZH_MORE && no_figures());
    step_job(SCRATCH - 1);
    samples = at.counts[3];
    holds("2 with the samples so far", refused(2, 0, 0) && samples >= 15 && samples < whole.counts[3] && job_alone());
    tell_job();
    holds("one strip of two is worked", told_so(1, 2, (samples + 15) / 30, samples) && job_alone());
    change_job(DELVOUZH_BULK, 160.0);
    holds("another wood is taken", at.number == 0 && at.counts[3] == 0);
    change_job(DELVOUZH_BULK, 40000.0);
    holds("12 with the samples so far", refused(12, 0, 0) && at.counts[3] == samples && job_alone());
    change_job(4, 160.0);
    holds("18 of an unknown density", refused(18, 0, 0) && job_alone());
    step_job(SCRATCH);
    holds("a job ends as a fresh run with the last wood", at.number == 0 && memcmp(at.numbers, whole.numbers, sizeof at.numbers) == 0 &&
                                                             memcmp(at.counts, whole.counts, sizeof at.counts) == 0);
    holds("its strips leave what the run does", memcmp(at.scratch, whole.scratch, sizeof at.scratch) == 0);
    lend(&at, 7.0);
    step_job(0);
    holds("the same again, with no scratch", at.number == 0 && memcmp(at.numbers, whole.numbers, sizeof at.numbers) == 0 && job_alone());
    change_job(DELVOUZH_BULK, 160.0);
    holds("12 after the end", refused(12, 0, 0) && at.counts[3] == whole.counts[3] && job_alone());
    tell_job();
    holds("all strips are worked", told_so(2, 2, whole.counts[2], whole.counts[3]) && job_alone());
    make_job(5, balsa);
    holds("18 of an unknown section", refused(18, 0, 0) && job_alone());
    step_job(0);
    holds("18 makes no job", at.number == 0 && memcmp(at.numbers, whole.numbers, sizeof at.numbers) == 0);
    make_job(DELVOUZH_SQUARE, thick);
    holds("a refused job", refused(4, 7, 0));
    step_job(0);
    holds("it has ended with that", refused(4, 7, 0) && at.numbers[0] == 0.0 && at.counts[3] == 0);
    holds("nothing behind the memory is written", job_numbers[DELVOUZH_JOB_NUMBERS] == 7.0 && job_counts[DELVOUZH_JOB_COUNTS] == 99);
}

/* No room for a job, or for its answer: 18, and nothing at all is written. */
static void no_room_for_a_job(void) {
    make_job(DELVOUZH_SQUARE, FIGURES);
    lend(&at, 7.0);
    at.number = delvouzh_job_step(job_numbers, DELVOUZH_JOB_NUMBERS - 1, job_counts, DELVOUZH_JOB_COUNTS, at.scratch, SCRATCH, at.numbers,
                                  DELVOUZH_BODY, at.counts, DELVOUZH_COUNTS);
    holds("no room for a job's numbers", at.number == 18 && left_alone());
    at.number = delvouzh_job_step(job_numbers, DELVOUZH_JOB_NUMBERS, job_counts, DELVOUZH_JOB_COUNTS - 1, at.scratch, SCRATCH, at.numbers,
                                  DELVOUZH_BODY, at.counts, DELVOUZH_COUNTS);
    holds("no room for a job's counts", at.number == 18 && left_alone());
    at.number = delvouzh_job_step(job_numbers, DELVOUZH_JOB_NUMBERS, job_counts, DELVOUZH_JOB_COUNTS, at.scratch, SCRATCH, at.numbers,
                                  DELVOUZH_BODY, at.counts, DELVOUZH_COUNTS - 1);
    holds("no room for a step's counts", at.number == 18 && left_alone());
    at.number = delvouzh_job_change_density(job_numbers, DELVOUZH_JOB_NUMBERS, job_counts, DELVOUZH_JOB_COUNTS, DELVOUZH_BULK, 160.0, at.counts,
                                            DELVOUZH_COUNTS - 1);
    holds("no room for a change's counts", at.number == 18 && left_alone());
    at.number = delvouzh_job_progress(job_numbers, DELVOUZH_JOB_NUMBERS - 1, job_counts, DELVOUZH_JOB_COUNTS, at.counts, DELVOUZH_COUNTS);
    holds("no numbers to tell of", at.number == 18 && left_alone());
    at.number = delvouzh_job_progress(job_numbers, DELVOUZH_JOB_NUMBERS, job_counts, DELVOUZH_JOB_COUNTS - 1, at.counts, DELVOUZH_COUNTS);
    holds("no counts to tell of", at.number == 18 && left_alone());
    at.number = delvouzh_job_progress(job_numbers, DELVOUZH_JOB_NUMBERS, job_counts, DELVOUZH_JOB_COUNTS, at.counts, DELVOUZH_COUNTS - 1);
    holds("no room for what is told", at.number == 18 && left_alone());
    step_job(SCRATCH);
    holds("the job is as it was", at.number == DELVOUZH_MORE);
}

/* An engine's memory, with one place behind it that no call may write. */
static double engine_numbers[DELVOUZH_ENGINE_NUMBERS + 1];
static size_t engine_counts[DELVOUZH_ENGINE_COUNTS + 1], told[DELVOUZH_TURN_COUNTS];

/* What it held before the last call on it. */
static double numbers_before[DELVOUZH_ENGINE_NUMBERS + 1];
static size_t counts_before[DELVOUZH_ENGINE_COUNTS + 1];

static void keep_engine(void) {
    memcpy(numbers_before, engine_numbers, sizeof engine_numbers);
    memcpy(counts_before, engine_counts, sizeof engine_counts);
}

static int engine_alone(void) {
    return memcmp(numbers_before, engine_numbers, sizeof engine_numbers) == 0 && memcmp(counts_before, engine_counts, sizeof engine_counts) == 0;
}

/* Of all of it, only the job of this screen, whether the screen holds it, and which was served last may have been written. */
static int only_screen(size_t screen) {
    size_t a = (screen - 1) * DELVOUZH_JOB_NUMBERS, i = 9 + (screen - 1) * DELVOUZH_JOB_COUNTS;
    memcpy(numbers_before + a, engine_numbers + a, DELVOUZH_JOB_NUMBERS * sizeof *engine_numbers);
    memcpy(counts_before + i, engine_counts + i, DELVOUZH_JOB_COUNTS * sizeof *engine_counts);
    counts_before[screen - 1] = engine_counts[screen - 1];
    counts_before[8] = engine_counts[8];
    return engine_counts[screen - 1] <= 1 && engine_counts[8] <= 8 && engine_alone();
}

/* Memory that nobody has written, cleared: the counts are zeros, and the numbers as they were. */
static void clear(void) {
    memset(engine_numbers, 0xa5, sizeof engine_numbers);
    memset(engine_counts, 0xa5, sizeof engine_counts);
    keep_engine();
    memset(counts_before, 0, DELVOUZH_ENGINE_COUNTS * sizeof *counts_before);
    holds("cleared", delvouzh_engine_clear(engine_counts, DELVOUZH_ENGINE_COUNTS + 1) == 0 && engine_alone());
}

static void submit(size_t screen, size_t section, const double *figures) {
    const double outline[8] = {0.0, 0.0, 0.05, 0.15, 0.15, 0.05, 0.2, 0.0};
    const struct lists set = lists_of(DELVOUZH_OUTLINE, NULL, section, figures, DELVOUZH_NO_FILLET, NULL);
    keep_engine();
    at.number = delvouzh_engine_submit(screen, LIMIT, set.numbers, DELVOUZH_SET_NUMBERS, set.counts, DELVOUZH_SET_COUNTS, outline, 8, engine_numbers,
                                       DELVOUZH_ENGINE_NUMBERS + 1, engine_counts, DELVOUZH_ENGINE_COUNTS + 1, at.counts, DELVOUZH_VALUES);
}

static void turn(size_t scratch_len) {
    keep_engine();
    at.number = delvouzh_engine_turn(engine_numbers, DELVOUZH_ENGINE_NUMBERS + 1, engine_counts, DELVOUZH_ENGINE_COUNTS + 1, at.scratch, scratch_len,
                                     at.numbers, DELVOUZH_BODY, told, DELVOUZH_TURN_COUNTS);
}

static void change_at(size_t screen, size_t density, double figure) {
    keep_engine();
    at.number = delvouzh_engine_change_density(engine_numbers, DELVOUZH_ENGINE_NUMBERS + 1, engine_counts, DELVOUZH_ENGINE_COUNTS + 1, screen, density,
                                               figure, at.counts, DELVOUZH_COUNTS);
}

static void tell_at(size_t screen) {
    keep_engine();
    at.number = delvouzh_engine_progress(engine_numbers, DELVOUZH_ENGINE_NUMBERS + 1, engine_counts, DELVOUZH_ENGINE_COUNTS + 1, screen, at.counts,
                                         DELVOUZH_COUNTS);
}

/* A set of two strips on two of the eight screens, beside the same set in one run. */
static void engine(void) {
    const double outline[8] = {0.0, 0.0, 0.05, 0.15, 0.15, 0.05, 0.2, 0.0}, balsa[5] = {0.003, 0.0, 0.0, 0.05, 160.0}, thick[5] = {65.0, 0.0, 0.0, 0.05, 160.0};
    struct lent whole;
    lend(&whole, 7.0);
    set_of(&whole, LIMIT, DELVOUZH_OUTLINE, outline, 8, balsa);
    lend(&at, 7.0);
    turn(SCRATCH);
    holds("memory of zeros is idle", at.number == DELVOUZH_IDLE && told[4] == 0 && at.numbers[0] == 0.0 && engine_alone());
    clear();
    turn(SCRATCH);
    holds("and so is cleared memory", at.number == DELVOUZH_IDLE && told[4] == 0 && at.numbers[0] == 0.0 && engine_alone());
    turn(SCRATCH - 1);
    holds("2 before idle", at.number == 2 && told[3] == 0 && told[4] == 0 && engine_alone());
    submit(0, DELVOUZH_SQUARE, FIGURES);
    holds("no screen 0", refused(23, 0, 0) && engine_alone());
    submit(9, DELVOUZH_SQUARE, thick);
    holds("no screen 9, before the set's refusal", refused(23, 0, 0) && engine_alone());
    submit(9, 5, FIGURES);
    holds("18 of an unknown section, before 23", refused(18, 0, 0) && engine_alone());
    submit(2, DELVOUZH_SQUARE, thick);
    holds("a refused submission", refused(4, 7, 0) && engine_alone());
    submit(2, DELVOUZH_SQUARE, FIGURES);
    holds("it left the screen free", refused(0, 0, 0) && only_screen(2));
    submit(2, DELVOUZH_SQUARE, FIGURES);
    holds("which is busy now", refused(23, 0, 0) && engine_alone());
    submit(8, DELVOUZH_SQUARE, balsa);
    holds("another screen", refused(0, 0, 0) && only_screen(8));
    change_at(1, DELVOUZH_BULK, 160.0);
    holds("12 with no job there", refused(12, 0, 0) && at.counts[3] == 0 && engine_alone());
    change_at(2, DELVOUZH_LINE, 160.0);
    holds("12 of a job that keeps its wood", refused(12, 0, 0) && at.counts[3] == 0 && engine_alone());
    turn(SCRATCH);
    holds("from screen 1 on", at.number == DELVOUZH_MORE && told[4] == 2 && only_screen(2));
    tell_at(2);
    holds("a strip of two is worked", told_so(1, 2, 1, 15) && engine_alone());
    tell_at(8);
    holds("none of the other screen's", told_so(0, 2, 0, 0) && engine_alone());
    tell_at(1);
    holds("no job there", told_so(0, 0, 0, 0) && engine_alone());
    tell_at(9);
    holds("no such screen", told_so(0, 0, 0, 0) && engine_alone());
    at.number = delvouzh_engine_progress(engine_numbers, DELVOUZH_ENGINE_NUMBERS - 1, engine_counts, DELVOUZH_ENGINE_COUNTS, 2, at.counts, DELVOUZH_COUNTS);
    holds("no numbers to tell of", at.number == 18 && at.counts[1] == 0 && engine_alone());
    at.number = delvouzh_engine_progress(engine_numbers, DELVOUZH_ENGINE_NUMBERS, engine_counts, DELVOUZH_ENGINE_COUNTS, 2, at.counts, DELVOUZH_COUNTS - 1);
    holds("no room for what is told", at.number == 18 && at.counts[1] == 0 && engine_alone());
    turn(SCRATCH - 1);
    holds("2 between two strips", at.number == 2 && told[3] == 0 && told[4] == 0 && engine_alone());
    turn(SCRATCH);
    holds("then the next", at.number == DELVOUZH_MORE && told[4] == 8 && only_screen(8));
    change_at(2, DELVOUZH_BULK, 160.0);
    holds("another wood is taken", at.number == 0 && only_screen(2));
    change_at(2, 4, 160.0);
    holds("18 of an unknown density", refused(18, 0, 0) && engine_alone());
    lend(&at, 7.0);
    turn(SCRATCH);
    holds("a screen's job ends as a fresh run with the last wood",
          at.number == 0 && told[4] == 2 && memcmp(at.numbers, whole.numbers, sizeof at.numbers) == 0 && memcmp(told, whole.counts, sizeof whole.counts) == 0);
    holds("and frees its own screen alone", engine_counts[1] == 0 && only_screen(2));
    change_at(2, DELVOUZH_BULK, 160.0);
    holds("the screen is freed", refused(12, 0, 0) && at.counts[3] == 0 && engine_alone());
    tell_at(2);
    holds("and tells of no job", told_so(0, 0, 0, 0) && engine_alone());
    turn(SCRATCH);
    holds("the other one", at.number == 0 && told[4] == 8 && memcmp(at.numbers, whole.numbers, sizeof at.numbers) == 0 && only_screen(8));
    submit(1, DELVOUZH_SQUARE, FIGURES);
    clear();
    turn(SCRATCH);
    holds("it holds no job", at.number == DELVOUZH_IDLE && engine_alone());
}

static void line_of(const char *line) {
    keep_engine();
    at.number = delvouzh_answer_line((const unsigned char *)line, strlen(line), at.scratch, SCRATCH, engine_numbers, DELVOUZH_ENGINE_NUMBERS + 1,
                                     engine_counts, DELVOUZH_ENGINE_COUNTS + 1, at.answer, DELVOUZH_ANSWER, at.counts, DELVOUZH_WRITTEN);
}

#define SUBMIT_3 "(submit 3 (set (limit 64) (count 3) (outline 0 0 0.05 0.15 0.15 0.05 0.2 0) (thickness 0.003) (section square) (cant 0) (base 0) (radius 0.05) (bulk 680)))"
#define BODY "(body (mass 0.9) (centre 0 0 0) (inertia 0 0 0 0 0 0))"

/* Lines over an engine that holds a job: those that are not its own leave all of its memory alone, and its own what they do not change. */
static void lines_and_engine(void) {
    static const char *const others[] = {
        "(set (limit 64) (count 3) (ellipse 0.2 0.1) (thickness 0.003) (section square) (cant 0) (base 0) (radius 0.05) (bulk 680))",
        "(area (limit 64) (ellipse 0.2 0.1))",
        "(join (point 1 0 0 0) (point 1 2 0 0))",
        "(moments 2 0 2 0 0 0)",
        "(check (mass 1) (centre 0 0 0) (inertia 1 2 3 0 0 0))",
        "(tubes (count 6) (length 0.2) (outer 0.05) (wall 0.001) (base 0) (radius 0.05) (bulk 680))",
        "(closing (count 4) (radius 0.05))",
        "(drill (trapezoid 0.25 0.125 0.125 0.0625) (at 0.125 0.03125))",
        "(copied " BODY " (offset 1 0) (offset 0 1))",
        "(placed " BODY " (place 1 0 0) (place -1 0 0))",
        "(moved " BODY " " BODY " (offset 0 0 1))",
        "(without " BODY " (body (mass 0.2) (centre 0 0 0) (inertia 0 0 0 0 0 0)))",
        "(join)",
        "(progress 3)",
        "(submit 3 x)",
        "(submit 3 (set (limit 64) (count 3) (ellipse x 0.1) (thickness 0.003) (section square) (cant 0) (base 0) (radius 0.05) (bulk 680)))",
        "(submit 4 (set (limit 64) (count 33) (ellipse 0.2 0.1) (thickness 0.003) (section square) (cant 0) (base 0) (radius 0.05) (bulk 680)))",
        SUBMIT_3,
        "(density 3 (line 160))",
        "(density 4 (bulk 160))",
        "(density 9 (bulk 160))",
        "",
    };
    lend(&at, 7.0);
    clear();
    line_of("(turn)");
    holds("an idle line writes nothing", answered("(idle)") && engine_alone());
    line_of(SUBMIT_3);
    holds("a line's job is taken", answered("(taken)") && only_screen(3) && engine_counts[2] == 1);
    for (size_t k = 0; k < sizeof others / sizeof *others; k++) {
        line_of(others[k]);
        holds(others[k], at.number == 0 && engine_alone());
    }
    line_of("(density 3 (bulk 160))");
    holds("a line's wood is taken", answered("(taken)") && only_screen(3));
    line_of("(turn)");
    holds("a line's turn", answered("(more 3)") && only_screen(3));
    line_of("(turn)");
    holds("a line's job has ended", memcmp(at.answer, "(done 3 (figures ", 17) == 0 && only_screen(3) && engine_counts[2] == 0);
}

/* No room for an engine, or for a turn's answer: 18, and nothing at all is written. */
static void no_room_for_an_engine(void) {
    submit(1, DELVOUZH_SQUARE, FIGURES);
    lend(&at, 7.0);
    at.number = delvouzh_engine_turn(engine_numbers, DELVOUZH_ENGINE_NUMBERS - 1, engine_counts, DELVOUZH_ENGINE_COUNTS, at.scratch, SCRATCH, at.numbers,
                                     DELVOUZH_BODY, told, DELVOUZH_TURN_COUNTS);
    holds("no room for an engine's numbers", at.number == 18 && left_alone());
    at.number = delvouzh_engine_turn(engine_numbers, DELVOUZH_ENGINE_NUMBERS, engine_counts, DELVOUZH_ENGINE_COUNTS - 1, at.scratch, SCRATCH, at.numbers,
                                     DELVOUZH_BODY, told, DELVOUZH_TURN_COUNTS);
    holds("no room for an engine's counts", at.number == 18 && left_alone());
    at.number = delvouzh_engine_turn(engine_numbers, DELVOUZH_ENGINE_NUMBERS, engine_counts, DELVOUZH_ENGINE_COUNTS, at.scratch, SCRATCH, at.numbers,
                                     DELVOUZH_BODY, told, DELVOUZH_TURN_COUNTS - 1);
    holds("no room for a turn's counts", at.number == 18 && left_alone());
    keep_engine();
    holds("no room to clear", delvouzh_engine_clear(engine_counts, DELVOUZH_ENGINE_COUNTS - 1) == 18 && engine_alone());
    turn(SCRATCH);
    holds("the engine is as it was", at.number == DELVOUZH_MORE && told[4] == 1);
}

static void *turns(void *same) {
    struct lent own;
    *(int *)same = 1;
    for (int k = 0; k < TURNS; k++) {
        lend(&own, (double)k);
        set_of(&own, LIMIT, DELVOUZH_ELLIPSE, ELLIPSE, 2, FIGURES);
        if (own.number != 0 || bits(own.numbers[0]) != bits(at.numbers[0]) || own.counts[3] != at.counts[3]) *(int *)same = 0;
    }
    return NULL;
}

static void threads(void) {
    pthread_t thread[THREADS];
    int same[THREADS];
    set_of(&at, LIMIT, DELVOUZH_ELLIPSE, ELLIPSE, 2, FIGURES);
    for (int k = 0; k < THREADS; k++) holds("a thread", pthread_create(&thread[k], NULL, turns, &same[k]) == 0);
    for (int k = 0; k < THREADS; k++) holds("the same figures on every thread", pthread_join(thread[k], NULL) == 0 && same[k]);
}

/* Each call on a stack of its own, which is filled before: how much of it is written then. */
static unsigned char stack[4 * DELVOUZH_STACK];
static ucontext_t here, there;

static void call_set(void) { set_of(&at, LIMIT, DELVOUZH_ELLIPSE, ELLIPSE, 2, FIGURES); }
static void call_area(void) { area_of(&at, DELVOUZH_ELLIPSE, ELLIPSE, 2); }
static void call_make(void) { make_job(DELVOUZH_SQUARE, FIGURES); }
static void call_step(void) { step_job(SCRATCH); }
static void call_change(void) { change_job(DELVOUZH_BULK, 160.0); }
static void call_submit(void) { submit(3, DELVOUZH_SQUARE, FIGURES); }
static void call_turn(void) { turn(SCRATCH); }
static void call_change_at(void) { change_at(3, DELVOUZH_BULK, 160.0); }
static void call_join(void) { at.number = delvouzh_combine(at.scratch, 32 * DELVOUZH_BODY, at.numbers, DELVOUZH_BODY); }
static void call_check(void) { at.number = delvouzh_check(at.scratch, DELVOUZH_BODY, at.counts, DELVOUZH_VALUES); }

/* A set's line, short and with spaces behind it: a long line needs more. */
static const char SET[] = "(set (limit 64) (count 3) (ellipse 0.2 0.1) (thickness 0.003) (section rounded) (cant 0.02) (base 0) (radius 0.05) (bulk 680))";
static char long_set[4097];
static void call_line(void) { answer_to(&at, SET); }
static void call_long_line(void) { answer_to(&at, long_set); }

static size_t stack_of(void (*call)(void)) {
    size_t free_bytes = 0;
    memset(stack, 0xa5, sizeof stack);
    getcontext(&there);
    there.uc_stack.ss_sp = stack;
    there.uc_stack.ss_size = sizeof stack;
    there.uc_link = &here;
    makecontext(&there, call, 0);
    swapcontext(&here, &there);
    while (free_bytes < sizeof stack && stack[free_bytes] == 0xa5) free_bytes++;
    return sizeof stack - free_bytes;
}

static void stacks(void) {
    void (*const calls[])(void) = {call_set, call_make, call_change, call_step, call_submit, call_change_at, call_turn, call_area, call_join, call_check, call_line, call_long_line};
    size_t most = 0;
    memset(long_set, ' ', sizeof long_set - 1);
    memcpy(long_set, SET, sizeof SET - 1);
    lend(&at, 1.0);
    for (size_t k = 0; k < sizeof calls / sizeof *calls; k++) {
        size_t used = stack_of(calls[k]);
        most = used > most ? used : most;
    }
    holds("a set's line was answered", at.number == 0 && at.counts[0] > 100);
    holds("DELVOUZH_STACK is enough", most <= DELVOUZH_STACK);
    printf("stack: at most %zu bytes in use, of %d\n", most, DELVOUZH_STACK);
}

int main(void) {
    holds("the rounding mode of a process's start", fegetround() == FE_TONEAREST);
    figures();
    refusals();
    no_room();
    jobs();
    no_room_for_a_job();
    engine();
    lines_and_engine();
    no_room_for_an_engine();
    scratches();
    threads();
    stacks();
    return failed != 0;
}
