/* Fin figures that are proved: the functions of two static libraries (x86-64 Linux), which `tools/build exports
 * screen_exports` writes. libexports.a has the calls on numbers alone, libscreen_exports.a those of a kiosk's screens;
 * below, each call stands under its library. Either may be linked alone; both together: cc main.c -lscreen_exports
 * -lexports.
 *
 * Lengths are metres, angles radians, figures f64. Every function but delvouzh_sqrt and delvouzh_most_samples returns 0,
 * a step of a job also DELVOUZH_MORE, a turn of an engine also DELVOUZH_MORE or DELVOUZH_IDLE, or the number of a refusal:
 *
 *      1 limit not 1 to 64               7 outline touches itself       13 not converged
 *      2 scratch under 16 * limit        8 no area, or no volume
 *      3 count not 1 to 32               9 angle outside its limits     15 body mass
 *      4 length outside its limits      10 tab off the root chord       16 body centre
 *      5 points not 3 to 64 pairs       11 tab deeper than the body     17 body tensor
 *      6 first or last point            12 density                      18 no form
 *     19 a word that is no figure      20 wall over the outer radius     21 thickness over the root chord
 *     22 fillet too wide for the body  23 no such screen, or it is busy  24 no corners: an ellipse
 *     25 not whole steps of 2^-20 m    26 the whole is not heavier
 *
 * It writes its figures and counts over the start of the lent arrays. With a refusal the figures are zeros; only a
 * planform's chords are left as they were. Two counts are the values of a refusal: the field of 4 and 9, the two edges
 * of 7, the component of 13, the case of 17 (a to e as 0 to 4, without c); else both are 0. Fields have the numbers of
 * enum delvouzh_field below; edges and components are counted from 0.
 *
 * 18 is an unknown number of a planform, section, tab, fillet or density, or an array of another length than the call
 * asks for, with two exceptions: an outline's points that are not 3 to 64 whole pairs are 5; bodies to be joined, offsets
 * and places that are not 1 to 32 whole ones are 3. Where an array is too short for what a call writes, it returns 18 too,
 * and writes nothing at all.
 *
 * What a caller owes, and nothing checks:
 *  - An array is handed over as a pointer and how many numbers lie there. Where there are none the pointer may be null.
 *    An array that is written overlaps no other. What it holds on entry does not matter to an answer, the scratch
 *    neither; but a job's memory is the job, and an engine's memory is the engine.
 *  - The floating-point environment is the one that a process starts with: rounding to nearest, subnormal numbers kept
 *    (no flushing to zero), exceptions masked. Linking with -ffast-math changes it before main; some libraries change
 *    it for their thread. In another environment no call faults, but figures differ in their last bits, and what lies
 *    at a limit may be refused or not: docs/ASSUMED.md has what tests/rounding measured.
 *  - DELVOUZH_STACK bytes of stack for a call.
 * A call keeps no pointer, and nothing between calls: any number of threads may call at the same time, each with arrays
 * of its own. It takes no memory but its stack, and calls nothing but memcpy and memset.
 */
#ifndef DELVOUZH_H
#define DELVOUZH_H

#include <stddef.h>

#define DELVOUZH_VERSION "0.1.0"

#ifdef __cplusplus
extern "C" {
#endif

/* A planform: its number, DELVOUZH_LENGTHS lengths, of which it reads its own, and `points`, which only an outline reads. */
#define DELVOUZH_TRAPEZOID 1 /* root chord, tip chord, span, sweep */
#define DELVOUZH_ELLIPSE 2   /* root chord, span */
#define DELVOUZH_OUTLINE 3   /* no lengths; `points`: x, y of each point; y is the height above the root */
#define DELVOUZH_LENGTHS 4

#define DELVOUZH_SQUARE 1
#define DELVOUZH_ROUNDED 2
#define DELVOUZH_AIRFOIL 3      /* its tail ends in a point */
#define DELVOUZH_AIRFOIL_OPEN 4 /* its tail is open */

#define DELVOUZH_NO_TAB 0
#define DELVOUZH_TAB 1

/* A fillet has its density's number, or this one where there is none. */
#define DELVOUZH_NO_FILLET 0

#define DELVOUZH_BULK 1
#define DELVOUZH_SURFACE 2
#define DELVOUZH_LINE 3

/* A set is two arrays, which delvouzh_set_lists below fills from a struct. `set_numbers`: the planform's
 * DELVOUZH_LENGTHS lengths; thickness, cant, base angle, body radius, density; the tab's height, length and offset; the
 * fillet's radius and density. `set_counts`: how many fins, then the numbers of planform, section, tab, density and
 * fillet. Places that a planform, a tab or a fillet does not use are not read. */
#define DELVOUZH_SET_NUMBERS 14
#define DELVOUZH_SET_COUNTS 6

/* Where a point lies. */
#define DELVOUZH_INSIDE 1
#define DELVOUZH_EDGE 2
#define DELVOUZH_OUTSIDE 3

/* Numbers that a call writes: a body is its mass, centre x, y, z, and inertia tensor xx, yy, zz, xy, xz, yz. */
#define DELVOUZH_BODY 10
#define DELVOUZH_AREA 3
#define DELVOUZH_CHORDS 64 /* the ends of 32 chords: an outline of 64 points has no more */
#define DELVOUZH_CHORD_COUNTS 3
#define DELVOUZH_CLOSING 1
#define DELVOUZH_MOMENTS 3
#define DELVOUZH_COUNTS 4
#define DELVOUZH_VALUES 2
#define DELVOUZH_WRITTEN 1

/* The memory of a job, which its calls are lent: so many doubles, and so many size_t. */
#define DELVOUZH_JOB_NUMBERS 159
#define DELVOUZH_JOB_COUNTS 17

/* The memory of an engine of eight screens, likewise, where zeros are one with no job; and the counts that a turn writes. */
#define DELVOUZH_ENGINE_NUMBERS 1272
#define DELVOUZH_ENGINE_COUNTS 145
#define DELVOUZH_TURN_COUNTS 5

/* What a step returns that has strips still to come, and a turn with no job; no refusal has these numbers. */
#define DELVOUZH_MORE 1000
#define DELVOUZH_IDLE 1001

/* The samples that scale a bar: no set, no planform, no job and no screen reports more, with figures or refused. */
#define DELVOUZH_MOST_SAMPLES 118110

/* The bytes of an answer to a line: no answer has more. */
#define DELVOUZH_ANSWER 320

/* The bytes of stack that are enough for any call. The longest chain of frames in the libraries' code takes a little over half of them: tests/header. */
#define DELVOUZH_STACK 98304

/* ---- libexports.a: calls on numbers alone */

/* A set's figures. Writes a body, and as counts two values of a refusal, the intervals and the samples. `scratch` has at
 * least 16 * limit numbers; the pieces of the strips are left in it, 16 numbers each from its start, and the rest of it
 * is as it was. */
size_t delvouzh_mass_properties(size_t limit, const double *set_numbers, size_t set_numbers_len, const size_t *set_counts,
                                size_t set_counts_len, const double *points, size_t points_len, double *scratch, size_t scratch_len,
                                double *body, size_t body_len, size_t *counts, size_t counts_len);

/* A planform's area and its centroid, x, then height. Counts and scratch as above. */
size_t delvouzh_geometry(size_t limit, size_t planform, const double *lengths, size_t lengths_len, const double *points,
                         size_t points_len, double *scratch, size_t scratch_len, double *area, size_t area_len, size_t *counts,
                         size_t counts_len);

/* DELVOUZH_MOST_SAMPLES: no call of the two above reports more samples, with figures or refused. */
size_t delvouzh_most_samples(void);

/* A planform's chords at a height in metres, which may be any number; the planform is checked as for its area. Writes
 * start and end of each chord over `ends`, which has room for DELVOUZH_CHORDS numbers, and leaves the rest of it as it
 * was, with a refusal all of it. Writes as counts two values of a refusal, and how many chords there are. At the span, or
 * a few last bits below it, a trapezoid's chord may end before it starts, as both ends are rounded: root 0.273, tip 0 and
 * sweep 0.225 give 0.225 and 0.22499999999999998 there. */
size_t delvouzh_chords_at(size_t planform, const double *lengths, size_t lengths_len, const double *points, size_t points_len,
                          double height_m, double *ends, size_t ends_len, size_t *counts, size_t counts_len);

/* Where a point lies beside a trapezoid or an outline, exactly in steps of 2^-20 m, and the nearest corner. Corners are
 * counted from 0: an outline's points, or (0, 0), (sweep, span), (sweep + tip chord, span), (root chord, 0). Writes as
 * counts two values of a refusal, the place, and the nearest corner's position, the lowest of equally near ones; with a
 * refusal the last two are 0. */
size_t delvouzh_drill(size_t planform, const double *lengths, size_t lengths_len, const double *points, size_t points_len, double x_m,
                      double height_m, size_t *counts, size_t counts_len);

/* A ring of 1 to 32 tubes around a body. `figures`: length, outer radius, wall (which may be 0), base angle, body
 * radius, density. Writes a body, its origin on the axis at the tubes' forward end, and two values of a refusal. */
size_t delvouzh_tube_mass_properties(size_t count, size_t density, const double *figures, size_t figures_len, double *body,
                                     size_t body_len, size_t *values, size_t values_len);

/* The outer radius of 1 to 32 tubes that close the ring around a body, each touching the body and its two neighbours; for
 * one or two tubes the body's radius. Writes the radius, which is held to no limit, and two values of a refusal. */
size_t delvouzh_closing_radius(size_t count, double body_radius_m, double *radius, size_t radius_len, size_t *values,
                               size_t values_len);

/* 1 to 32 bodies, 10 numbers each, one after another, joined into one. Any other count of numbers is 3; a `body` that is too short is 18.
 * No other number is given. */
size_t delvouzh_combine(const double *bodies, size_t bodies_len, double *body, size_t body_len);

/* Copies of a body, which is checked as delvouzh_check does, joined: one copy for each of 1 to 32 offsets, x and y, moved
 * by it. A copy that moves by 0 and 0 is the body itself. Writes a body, and two values of a refusal. */
size_t delvouzh_copied(const double *body, size_t body_len, const double *offsets, size_t offsets_len, double *joined,
                       size_t joined_len, size_t *values, size_t values_len);

/* The same by 1 to 32 places, x, y and roll of each: a copy is rolled about the axis, then moved. */
size_t delvouzh_placed(const double *body, size_t body_len, const double *places, size_t places_len, double *joined,
                       size_t joined_len, size_t *values, size_t values_len);

/* A body with a part of it moved by x, y and z; both are checked, the whole first. 26 is a whole of mass 0. Writes likewise. */
size_t delvouzh_with_part_moved(const double *whole, size_t whole_len, const double *part, size_t part_len, const double *offset,
                                size_t offset_len, double *joined, size_t joined_len, size_t *values, size_t values_len);

/* A body with a part of it taken off. 26 is a part that is as heavy as the whole, or heavier. Writes likewise. */
size_t delvouzh_without_part(const double *whole, size_t whole_len, const double *part, size_t part_len, double *joined,
                             size_t joined_len, size_t *values, size_t values_len);

/* The principal moments of a tensor, six numbers xx, yy, zz, xy, xz, yz, ascending. Writes two values of a refusal. */
size_t delvouzh_principal_moments(const double *tensor, size_t tensor_len, double *moments, size_t moments_len,
                                  size_t *values, size_t values_len);

/* Whether a body could be a real one. Writes two values of a refusal. */
size_t delvouzh_check(const double *body, size_t body_len, size_t *values, size_t values_len);

/* The square root: the nearest f64. */
double delvouzh_sqrt(double x);

/* ---- libscreen_exports.a: the calls of a kiosk's screens. Each library has its own copy of what both use, so that a whole run is as fast as it can be. */

/* A job: a set as delvouzh_mass_properties takes it, worked one strip a step, so that its density can still be changed. It lies in `job_numbers`
 * and `job_counts`, which are lent to every call on it as the one before left them, and keeps its own copy of the outline. A copy of both is a
 * job of its own. Where a call changes nothing of the job, no number and no count of it is written.
 *
 * Makes one, and runs every check of the set but 2. Returns 0 where the job is taken. A refused job has ended with its refusal, and every
 * step repeats that; but 18 makes none, and leaves the memory as it was. Writes two values of a refusal. */
size_t delvouzh_job_make(size_t limit, const double *set_numbers, size_t set_numbers_len, const size_t *set_counts,
                         size_t set_counts_len, const double *points, size_t points_len, double *job_numbers, size_t job_numbers_len,
                         size_t *job_counts, size_t job_counts_len, size_t *values, size_t values_len);

/* Works the job's next strip, and leaves its pieces in `scratch`, 16 numbers each from its start, the rest as it was. Returns DELVOUZH_MORE where
 * strips are still to come, and writes zeros; with the last strip, or one that is refused, what delvouzh_mass_properties does for the set with its
 * last density, and the job has ended. A step of a job that has ended repeats its answer, with any scratch, writes none and changes nothing. A scratch
 * under 16 * limit numbers is 2, with the samples so far, and changes nothing. Writes a body and counts as delvouzh_mass_properties does. */
size_t delvouzh_job_step(double *job_numbers, size_t job_numbers_len, size_t *job_counts, size_t job_counts_len, double *scratch,
                         size_t scratch_len, double *body, size_t body_len, size_t *counts, size_t counts_len);

/* Another density for the plates of a job that has not ended: returns 0 where it is taken. 12 is a density that is not bulk or outside its limits, or
 * a job that has ended, and changes nothing; its samples are those so far. Writes counts as delvouzh_job_step does. */
size_t delvouzh_job_change_density(double *job_numbers, size_t job_numbers_len, size_t *job_counts, size_t job_counts_len,
                                   size_t density, double figure, size_t *counts, size_t counts_len);

/* How far the job is, for a bar: writes DELVOUZH_COUNTS counts, the strips worked, the strips in all, the intervals and the samples so far. Returns 0.
 * Of a job that has ended with figures every strip is worked; a strip that was refused counts as worked too, and of a job that was refused when it was
 * made none is. `samples` never passes DELVOUZH_MOST_SAMPLES, which scales any bar, but most fins end far below it, a trapezoid mostly at 15: then strips
 * worked of strips in all make the better bar.
 *
 * To draw the strip just worked: a step leaves its pieces at the start of `scratch`, 16 numbers each, of which the first two are its start and end,
 * heights over the root divided by root chord plus span. Of what `samples` grew by in that step, s, they are (s + 15) / 30: none where s is 0, as where a
 * strip's two ends are one when divided. Sorted by their start they rise, end to end, from the strip's lower end to its upper one; in the scratch they
 * stand as they were cut. */
size_t delvouzh_job_progress(const double *job_numbers, size_t job_numbers_len, const size_t *job_counts, size_t job_counts_len, size_t *counts,
                             size_t counts_len);

/* An engine of eight screens, 1 to 8, each of which may hold one job. It lies in `engine_numbers` and `engine_counts`, which are lent to every call on
 * it as the one before left them; memory of zeros is an engine with no job, none served. A call writes there the job of one screen and the screens' own
 * counts, which are the first nine; where it changes nothing, no number and no count of the engine is written.
 *
 * Makes such an engine of any memory: every count of it is 0 then. Returns 0. */
size_t delvouzh_engine_clear(size_t *engine_counts, size_t engine_counts_len);

/* Submits a set to a screen, as delvouzh_job_make takes it. Returns 0 where its job is taken; 23 is a screen that is not 1 to 8 or already holds a
 * job, before anything else but 18. A refused submission changes nothing. Writes two values of a refusal. */
size_t delvouzh_engine_submit(size_t screen, size_t limit, const double *set_numbers, size_t set_numbers_len,
                              const size_t *set_counts, size_t set_counts_len, const double *points, size_t points_len,
                              double *engine_numbers, size_t engine_numbers_len, size_t *engine_counts, size_t engine_counts_len,
                              size_t *values, size_t values_len);

/* Works one strip for the next screen with a job, in ascending order from the one after the last served, wrapping round. Returns what that job's
 * delvouzh_job_step would, and DELVOUZH_IDLE where no screen holds a job; a job that has ended frees its screen. A scratch under 1,024 numbers is 2, with
 * no samples, and changes nothing. Writes a body and counts as delvouzh_job_step does, and behind the counts the screen served, 0 for none. */
size_t delvouzh_engine_turn(double *engine_numbers, size_t engine_numbers_len, size_t *engine_counts, size_t engine_counts_len,
                            double *scratch, size_t scratch_len, double *body, size_t body_len, size_t *counts,
                            size_t counts_len);

/* Another density for the job of a screen, as delvouzh_job_change_density; with no job there, or no such screen, 12 with no samples. */
size_t delvouzh_engine_change_density(double *engine_numbers, size_t engine_numbers_len, size_t *engine_counts,
                                      size_t engine_counts_len, size_t screen, size_t density, double figure, size_t *counts,
                                      size_t counts_len);

/* How far the job of a screen is, as delvouzh_job_progress; all 0 with no job there, or no such screen. A job that has ended has freed its screen. */
size_t delvouzh_engine_progress(const double *engine_numbers, size_t engine_numbers_len, const size_t *engine_counts,
                                size_t engine_counts_len, size_t screen, size_t *counts, size_t counts_len);

/* The answer to a card line (docs/FORMS.md); neither has a newline. Writes the answer's bytes, and as `written` how many they are. Every
 * line is answered, and returns 0, also where its answer is "(refused N)". The engine of eight screens is lent as two arrays, which begin as zeros and
 * go from one call to the next as they are; lines that are no submission, density or turn leave them alone. 18 is an engine without room for DELVOUZH_ENGINE_NUMBERS
 * numbers and DELVOUZH_ENGINE_COUNTS counts, an `answer` without room for DELVOUZH_ANSWER bytes, or a `written` without room for a number, and then nothing at
 * all is written, as above. */
size_t delvouzh_answer_line(const unsigned char *line, size_t line_len, double *scratch, size_t scratch_len, double *engine_numbers,
                            size_t engine_numbers_len, size_t *engine_counts, size_t engine_counts_len, unsigned char *answer, size_t answer_len,
                            size_t *written, size_t written_len);

/* ---- for C alone: names, sentences, and a set as a struct. These are in no archive, and nothing of them is proved. */

/* The refusals by name. */
enum delvouzh_refusal {
    /* copied by tests/copies: the refusals by name */
    DELVOUZH_REFUSED_LIMIT = 1,
    DELVOUZH_REFUSED_SCRATCH = 2,
    DELVOUZH_REFUSED_COUNT = 3,
    DELVOUZH_REFUSED_LENGTH = 4,
    DELVOUZH_REFUSED_POINTS = 5,
    DELVOUZH_REFUSED_ENDS = 6,
    DELVOUZH_REFUSED_TOUCHES = 7,
    DELVOUZH_REFUSED_NO_AREA = 8,
    DELVOUZH_REFUSED_ANGLE = 9,
    DELVOUZH_REFUSED_TAB_OFF_ROOT = 10,
    DELVOUZH_REFUSED_TAB_TOO_DEEP = 11,
    DELVOUZH_REFUSED_DENSITY = 12,
    DELVOUZH_REFUSED_NOT_CONVERGED = 13,
    DELVOUZH_REFUSED_MASS = 15,
    DELVOUZH_REFUSED_CENTRE = 16,
    DELVOUZH_REFUSED_TENSOR = 17,
    DELVOUZH_REFUSED_NO_FORM = 18,
    DELVOUZH_REFUSED_NO_FIGURE = 19,
    DELVOUZH_REFUSED_WALL_OVER_RADIUS = 20,
    DELVOUZH_REFUSED_THICKNESS_OVER_ROOT = 21,
    DELVOUZH_REFUSED_FILLET_RATIO = 22,
    DELVOUZH_REFUSED_SCREEN = 23,
    DELVOUZH_REFUSED_NO_CORNERS = 24,
    DELVOUZH_REFUSED_NOT_WHOLE_STEPS = 25,
    DELVOUZH_REFUSED_NOT_HEAVIER = 26
    /* end of the copy */
};

/* The fields that 4 and 9 carry as their first value. */
enum delvouzh_field {
    /* copied by tests/copies: the fields by name */
    DELVOUZH_FIELD_ROOT_CHORD = 1,
    DELVOUZH_FIELD_TIP_CHORD = 2,
    DELVOUZH_FIELD_SPAN = 3,
    DELVOUZH_FIELD_SWEEP = 4,
    DELVOUZH_FIELD_X = 5,
    DELVOUZH_FIELD_Y = 6,
    DELVOUZH_FIELD_THICKNESS = 7,
    DELVOUZH_FIELD_TAB_HEIGHT = 8,
    DELVOUZH_FIELD_TAB_LENGTH = 9,
    DELVOUZH_FIELD_TAB_OFFSET = 10,
    DELVOUZH_FIELD_BODY_RADIUS = 11,
    DELVOUZH_FIELD_CANT = 12,
    DELVOUZH_FIELD_BASE_ANGLE = 13,
    DELVOUZH_FIELD_TUBE_LENGTH = 14,
    DELVOUZH_FIELD_OUTER_RADIUS = 15,
    DELVOUZH_FIELD_FILLET_RADIUS = 16,
    DELVOUZH_FIELD_DRILL_X = 17,
    DELVOUZH_FIELD_DRILL_HEIGHT = 18,
    DELVOUZH_FIELD_OFFSET = 19,
    DELVOUZH_FIELD_ROLL = 20
    /* end of the copy */
};

/* A refusal's sentence, which is the one that `readable` prints; of a number that is none's, that it is not in the table. */
static inline const char *delvouzh_sentence(size_t number) {
    switch (number) {
    /* copied by tests/copies: the refusals' sentences */
    case DELVOUZH_REFUSED_LIMIT:
        return "the limit is not 1 to 64";
    case DELVOUZH_REFUSED_SCRATCH:
        return "the lent scratch is too short for the limit";
    case DELVOUZH_REFUSED_COUNT:
        return "the count of fins, of tubes, of joined points, of offsets or of places is not 1 to 32";
    case DELVOUZH_REFUSED_LENGTH:
        return "a length is out of its limits";
    case DELVOUZH_REFUSED_POINTS:
        return "the outline is not 3 to 64 whole points";
    case DELVOUZH_REFUSED_ENDS:
        return "the outline does not begin at (0, 0), or does not end at (c, 0) with c > 0";
    case DELVOUZH_REFUSED_TOUCHES:
        return "the outline touches itself";
    case DELVOUZH_REFUSED_NO_AREA:
        return "there is no area or no volume";
    case DELVOUZH_REFUSED_ANGLE:
        return "a cant, base angle or roll is not a number, or is beyond 4 rad";
    case DELVOUZH_REFUSED_TAB_OFF_ROOT:
        return "the tab begins ahead of the root or ends aft of it";
    case DELVOUZH_REFUSED_TAB_TOO_DEEP:
        return "the tab is higher than the body's radius";
    case DELVOUZH_REFUSED_DENSITY:
        return "the density of the fins, of the tubes or of a fillet with a radius above 0 is not bulk, "
               "or is neither 0 nor 2^-10 to 2^15 kg/m\xc2\xb3";
    case DELVOUZH_REFUSED_NOT_CONVERGED:
        return "the sums did not settle within the limit's pieces, or cannot";
    case DELVOUZH_REFUSED_MASS:
        return "a body's mass is negative or not finite";
    case DELVOUZH_REFUSED_CENTRE:
        return "a body's centre is not finite";
    case DELVOUZH_REFUSED_TENSOR:
        return "a body's tensor is none that a body can have";
    case DELVOUZH_REFUSED_NO_FORM:
        return "the line is none of the forms in docs/FORMS.md, "
               "or a call was handed an unknown number or a list of another length than it takes";
    case DELVOUZH_REFUSED_NO_FIGURE:
        return "a word where a figure belongs has neither shape of a figure, or is sixteen decimal digits alone";
    case DELVOUZH_REFUSED_WALL_OVER_RADIUS:
        return "a tube's wall is thicker than its outer radius";
    case DELVOUZH_REFUSED_THICKNESS_OVER_ROOT:
        return "the fin is thicker than its root chord is long";
    case DELVOUZH_REFUSED_FILLET_RATIO:
        return "the fillet's radius is over 1000 times the body's, whatever its density";
    case DELVOUZH_REFUSED_SCREEN:
        return "the screen is not 1 to 8, or already holds a job";
    case DELVOUZH_REFUSED_NO_CORNERS:
        return "an ellipse has no corners";
    case DELVOUZH_REFUSED_NOT_WHOLE_STEPS:
        return "a coordinate of the point or of a corner is no whole number of steps of 2^-20 m";
    case DELVOUZH_REFUSED_NOT_HEAVIER:
        return "the whole is not heavier than the part taken off, or a part is moved in a body of mass 0";
    /* end of the copy */
    default:
        return "the number is not in the table of refusals";
    }
}

/* A field's name. */
static inline const char *delvouzh_field_name(size_t field) {
    /* copied by tests/copies: the fields' names */
    static const char *const names[] = {"root chord", "tip chord", "span", "sweep", "x", "y", "thickness", "tab height",
                                        "tab length", "tab offset", "body radius", "cant", "base angle", "tube length",
                                        "outer radius", "fillet radius", "drill x", "drill height", "offset", "roll"};
    /* end of the copy */
    return 1 <= field && field <= sizeof names / sizeof *names ? names[field - 1] : "no field";
}

/* The name of the field that a refusal carries, by the values that were written with it; of a refusal that carries none, an empty text. */
static inline const char *delvouzh_refused_field(size_t number, const size_t *values) {
    return number == DELVOUZH_REFUSED_LENGTH || number == DELVOUZH_REFUSED_ANGLE ? delvouzh_field_name(values[0]) : "";
}

/* A set of fins. Zeros are no tab and no fillet; `lengths` are the planform's, `points` an outline's, `points_len` numbers. */
struct delvouzh_set {
    size_t count, planform, section;
    double lengths[DELVOUZH_LENGTHS];
    const double *points;
    size_t points_len;
    double thickness_m, cant_rad, base_angle_rad, body_radius_m;
    size_t density; /* DELVOUZH_BULK, .. */
    double density_figure;
    size_t tab; /* DELVOUZH_TAB, or DELVOUZH_NO_TAB */
    double tab_height_m, tab_length_m, tab_offset_m;
    size_t fillet; /* its density's number, or DELVOUZH_NO_FILLET */
    double fillet_radius_m, fillet_density_figure;
};

/* A set as the calls take it. */
static inline void delvouzh_set_lists(const struct delvouzh_set *set, double numbers[DELVOUZH_SET_NUMBERS],
                                      size_t counts[DELVOUZH_SET_COUNTS]) {
    size_t i;
    for (i = 0; i < DELVOUZH_LENGTHS; i++) numbers[i] = set->lengths[i];
    numbers[4] = set->thickness_m;
    numbers[5] = set->cant_rad;
    numbers[6] = set->base_angle_rad;
    numbers[7] = set->body_radius_m;
    numbers[8] = set->density_figure;
    numbers[9] = set->tab_height_m;
    numbers[10] = set->tab_length_m;
    numbers[11] = set->tab_offset_m;
    numbers[12] = set->fillet_radius_m;
    numbers[13] = set->fillet_density_figure;
    counts[0] = set->count;
    counts[1] = set->planform;
    counts[2] = set->section;
    counts[3] = set->tab;
    counts[4] = set->density;
    counts[5] = set->fillet;
}

/* delvouzh_mass_properties of a set: `body` has DELVOUZH_BODY numbers, `counts` DELVOUZH_COUNTS. */
static inline size_t delvouzh_set_mass_properties(const struct delvouzh_set *set, size_t limit, double *scratch, size_t scratch_len,
                                                  double *body, size_t *counts) {
    double set_numbers[DELVOUZH_SET_NUMBERS];
    size_t set_counts[DELVOUZH_SET_COUNTS];
    delvouzh_set_lists(set, set_numbers, set_counts);
    return delvouzh_mass_properties(limit, set_numbers, DELVOUZH_SET_NUMBERS, set_counts, DELVOUZH_SET_COUNTS, set->points,
                                    set->points_len, scratch, scratch_len, body, DELVOUZH_BODY, counts, DELVOUZH_COUNTS);
}

/* delvouzh_job_make of a set: `job_numbers` has DELVOUZH_JOB_NUMBERS numbers, `job_counts` DELVOUZH_JOB_COUNTS, `values` DELVOUZH_VALUES. */
static inline size_t delvouzh_set_job_make(const struct delvouzh_set *set, size_t limit, double *job_numbers, size_t *job_counts,
                                           size_t *values) {
    double set_numbers[DELVOUZH_SET_NUMBERS];
    size_t set_counts[DELVOUZH_SET_COUNTS];
    delvouzh_set_lists(set, set_numbers, set_counts);
    return delvouzh_job_make(limit, set_numbers, DELVOUZH_SET_NUMBERS, set_counts, DELVOUZH_SET_COUNTS, set->points, set->points_len,
                             job_numbers, DELVOUZH_JOB_NUMBERS, job_counts, DELVOUZH_JOB_COUNTS, values, DELVOUZH_VALUES);
}

/* delvouzh_engine_submit of a set: `engine_numbers` has DELVOUZH_ENGINE_NUMBERS numbers, `engine_counts` DELVOUZH_ENGINE_COUNTS. */
static inline size_t delvouzh_set_engine_submit(const struct delvouzh_set *set, size_t screen, size_t limit, double *engine_numbers,
                                                size_t *engine_counts, size_t *values) {
    double set_numbers[DELVOUZH_SET_NUMBERS];
    size_t set_counts[DELVOUZH_SET_COUNTS];
    delvouzh_set_lists(set, set_numbers, set_counts);
    return delvouzh_engine_submit(screen, limit, set_numbers, DELVOUZH_SET_NUMBERS, set_counts, DELVOUZH_SET_COUNTS, set->points,
                                  set->points_len, engine_numbers, DELVOUZH_ENGINE_NUMBERS, engine_counts, DELVOUZH_ENGINE_COUNTS,
                                  values, DELVOUZH_VALUES);
}

#ifdef __cplusplus
}
#endif

#endif
