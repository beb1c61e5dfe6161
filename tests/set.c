/* The part of the header that is C alone: a set as a struct answers as the call with its numbers one by one; names and sentences; and a null
 * pointer with length 0. tests/header compiles it, as C and as C++; it prints what does not hold, and exits with 1 then. */
#include <stdio.h>
#include <string.h>

#include "delvouzh.h"

static const double TRAPEZOID[4] = {0.2, 0.1, 0.15, 0.05};
static double scratch[1024], body[DELVOUZH_BODY], other[DELVOUZH_BODY];
static size_t counts[DELVOUZH_COUNTS], other_counts[DELVOUZH_COUNTS];
static int failed;

static void holds(const char *what, int good) {
    if (!good) {
        failed++;
        printf("FAILED: %s\n", what);
    }
}

static struct delvouzh_set plywood(void) {
    struct delvouzh_set set;
    memset(&set, 0, sizeof set);
    set.count = 3;
    set.planform = DELVOUZH_TRAPEZOID;
    memcpy(set.lengths, TRAPEZOID, sizeof TRAPEZOID);
    set.section = DELVOUZH_SQUARE;
    set.thickness_m = 0.003;
    set.body_radius_m = 0.05;
    set.density = DELVOUZH_BULK;
    set.density_figure = 680.0;
    return set;
}

static int same(void) {
    return memcmp(body, other, sizeof body) == 0 && memcmp(counts, other_counts, sizeof counts) == 0;
}

static size_t figures_of(const double *numbers, const size_t *of_set) {
    return delvouzh_mass_properties(64, numbers, DELVOUZH_SET_NUMBERS, of_set, DELVOUZH_SET_COUNTS, NULL, 0, scratch, 1024, other,
                                    DELVOUZH_BODY, other_counts, DELVOUZH_COUNTS);
}

/* Without a tab and a fillet, whose figures are not read; the points that there are none of stand at a null pointer. */
static void plain_set(void) {
    static const double numbers[DELVOUZH_SET_NUMBERS] = {0.2, 0.1, 0.15, 0.05, 0.003, 0.0, 0.0, 0.05, 680.0, 9.0, 9.0, 9.0, 9.0, 9.0};
    static const size_t of_set[DELVOUZH_SET_COUNTS] = {3, DELVOUZH_TRAPEZOID, DELVOUZH_SQUARE, DELVOUZH_NO_TAB, DELVOUZH_BULK, DELVOUZH_NO_FILLET};
    struct delvouzh_set set = plywood();
    holds("a set with null points", figures_of(numbers, of_set) == 0 && other_counts[3] == 15);
    holds("a set as a struct", delvouzh_set_mass_properties(&set, 64, scratch, 1024, body, counts) == 0 && same());
}

static void full_set(void) {
    static const double numbers[DELVOUZH_SET_NUMBERS] = {0.2, 0.1, 0.15, 0.05, 0.003, 0.1, 0.2, 0.05, 680.0, 0.02, 0.1, 0.05, 0.01, 1200.0};
    static const size_t of_set[DELVOUZH_SET_COUNTS] = {3, DELVOUZH_TRAPEZOID, DELVOUZH_SQUARE, DELVOUZH_TAB, DELVOUZH_BULK, DELVOUZH_BULK};
    struct delvouzh_set set = plywood();
    size_t number = figures_of(numbers, of_set);
    set.cant_rad = 0.1;
    set.base_angle_rad = 0.2;
    set.tab = DELVOUZH_TAB;
    set.tab_height_m = 0.02;
    set.tab_length_m = 0.1;
    set.tab_offset_m = 0.05;
    set.fillet = DELVOUZH_BULK;
    set.fillet_radius_m = 0.01;
    set.fillet_density_figure = 1200.0;
    holds("a set with tab and fillet", number == 0);
    holds("the same as a struct", delvouzh_set_mass_properties(&set, 64, scratch, 1024, body, counts) == 0 && same());
}

static void steps_and_turns(void) {
    static double job_numbers[DELVOUZH_JOB_NUMBERS], engine_numbers[DELVOUZH_ENGINE_NUMBERS];
    static size_t job_counts[DELVOUZH_JOB_COUNTS], engine_counts[DELVOUZH_ENGINE_COUNTS];
    size_t values[DELVOUZH_VALUES], turn[DELVOUZH_TURN_COUNTS];
    struct delvouzh_set set = plywood();
    delvouzh_set_mass_properties(&set, 64, scratch, 1024, other, other_counts);
    holds("a job of a struct", delvouzh_set_job_make(&set, 64, job_numbers, job_counts, values) == 0);
    holds("its only step", delvouzh_job_step(job_numbers, DELVOUZH_JOB_NUMBERS, job_counts, DELVOUZH_JOB_COUNTS, scratch, 1024, body,
                                             DELVOUZH_BODY, counts, DELVOUZH_COUNTS) == 0 && same());
    holds("a submission of a struct", delvouzh_set_engine_submit(&set, 2, 64, engine_numbers, engine_counts, values) == 0);
    holds("its only turn", delvouzh_engine_turn(engine_numbers, DELVOUZH_ENGINE_NUMBERS, engine_counts, DELVOUZH_ENGINE_COUNTS, scratch,
                                                1024, body, DELVOUZH_BODY, turn, DELVOUZH_TURN_COUNTS) == 0 && turn[4] == 2);
    holds("the same body", memcmp(body, other, sizeof body) == 0);
}

static void refusals(void) {
    struct delvouzh_set set = plywood();
    set.thickness_m = 0.3;
    holds("21 by its name", delvouzh_set_mass_properties(&set, 64, scratch, 1024, body, counts) == DELVOUZH_REFUSED_THICKNESS_OVER_ROOT);
    holds("its sentence", strcmp(delvouzh_sentence(21), "the fin is thicker than its root chord is long") == 0);
    set.thickness_m = 65.0;
    holds("4 by its name", delvouzh_set_mass_properties(&set, 64, scratch, 1024, body, counts) == DELVOUZH_REFUSED_LENGTH);
    holds("its field", counts[0] == DELVOUZH_FIELD_THICKNESS && strcmp(delvouzh_refused_field(4, counts), "thickness") == 0);
    holds("21 has none", *delvouzh_refused_field(21, counts) == 0);
    holds("no field", strcmp(delvouzh_field_name(0), "no field") == 0 && strcmp(delvouzh_field_name(21), "no field") == 0);
    holds("the last field", strcmp(delvouzh_field_name(DELVOUZH_FIELD_ROLL), "roll") == 0);
    holds("no refusal", strcmp(delvouzh_sentence(14), delvouzh_sentence(0)) == 0);
    holds("no bodies", delvouzh_combine(NULL, 0, body, DELVOUZH_BODY) == DELVOUZH_REFUSED_COUNT);
}

int main(void) {
    plain_set();
    full_set();
    steps_and_turns();
    refusals();
    return failed != 0;
}
