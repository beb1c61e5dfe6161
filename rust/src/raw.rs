//! The functions and numbers as include/delvouzh.h declares them.

// copied by tests/copies: the header's numbers
pub const TRAPEZOID: usize = 1;
pub const ELLIPSE: usize = 2;
pub const OUTLINE: usize = 3;
pub const LENGTHS: usize = 4;

pub const SQUARE: usize = 1;
pub const ROUNDED: usize = 2;
pub const AIRFOIL: usize = 3;
pub const AIRFOIL_OPEN: usize = 4;

pub const NO_TAB: usize = 0;
pub const TAB: usize = 1;

pub const NO_FILLET: usize = 0;

pub const BULK: usize = 1;
pub const SURFACE: usize = 2;
pub const LINE: usize = 3;

pub const SET_NUMBERS: usize = 14;
pub const SET_COUNTS: usize = 6;

pub const INSIDE: usize = 1;
pub const EDGE: usize = 2;
pub const OUTSIDE: usize = 3;

pub const BODY: usize = 10;
pub const AREA: usize = 3;
pub const CHORDS: usize = 64;
pub const CHORD_COUNTS: usize = 3;
pub const CLOSING: usize = 1;
pub const MOMENTS: usize = 3;
pub const COUNTS: usize = 4;
pub const VALUES: usize = 2;
pub const WRITTEN: usize = 1;

pub const JOB_NUMBERS: usize = 159;
pub const JOB_COUNTS: usize = 17;

pub const ENGINE_NUMBERS: usize = 1272;
pub const ENGINE_COUNTS: usize = 145;
pub const TURN_COUNTS: usize = 5;

pub const MORE: usize = 1000;
pub const IDLE: usize = 1001;

pub const ANSWER: usize = 320;
// end of the copy

extern "C" {
    // copied by tests/copies: the calls
    pub fn delvouzh_mass_properties(
        limit: usize,
        set_numbers: *const f64,
        set_numbers_len: usize,
        set_counts: *const usize,
        set_counts_len: usize,
        points: *const f64,
        points_len: usize,
        scratch: *mut f64,
        scratch_len: usize,
        body: *mut f64,
        body_len: usize,
        counts: *mut usize,
        counts_len: usize,
    ) -> usize;

    pub fn delvouzh_geometry(
        limit: usize,
        planform: usize,
        lengths: *const f64,
        lengths_len: usize,
        points: *const f64,
        points_len: usize,
        scratch: *mut f64,
        scratch_len: usize,
        area: *mut f64,
        area_len: usize,
        counts: *mut usize,
        counts_len: usize,
    ) -> usize;

    pub fn delvouzh_most_samples() -> usize;

    pub fn delvouzh_chords_at(
        planform: usize,
        lengths: *const f64,
        lengths_len: usize,
        points: *const f64,
        points_len: usize,
        height_m: f64,
        ends: *mut f64,
        ends_len: usize,
        counts: *mut usize,
        counts_len: usize,
    ) -> usize;

    pub fn delvouzh_drill(
        planform: usize,
        lengths: *const f64,
        lengths_len: usize,
        points: *const f64,
        points_len: usize,
        x_m: f64,
        height_m: f64,
        counts: *mut usize,
        counts_len: usize,
    ) -> usize;

    pub fn delvouzh_tube_mass_properties(
        count: usize,
        density: usize,
        figures: *const f64,
        figures_len: usize,
        body: *mut f64,
        body_len: usize,
        values: *mut usize,
        values_len: usize,
    ) -> usize;

    pub fn delvouzh_closing_radius(
        count: usize,
        body_radius_m: f64,
        radius: *mut f64,
        radius_len: usize,
        values: *mut usize,
        values_len: usize,
    ) -> usize;

    pub fn delvouzh_combine(bodies: *const f64, bodies_len: usize, body: *mut f64, body_len: usize) -> usize;

    pub fn delvouzh_copied(
        body: *const f64,
        body_len: usize,
        offsets: *const f64,
        offsets_len: usize,
        joined: *mut f64,
        joined_len: usize,
        values: *mut usize,
        values_len: usize,
    ) -> usize;

    pub fn delvouzh_placed(
        body: *const f64,
        body_len: usize,
        places: *const f64,
        places_len: usize,
        joined: *mut f64,
        joined_len: usize,
        values: *mut usize,
        values_len: usize,
    ) -> usize;

    pub fn delvouzh_with_part_moved(
        whole: *const f64,
        whole_len: usize,
        part: *const f64,
        part_len: usize,
        offset: *const f64,
        offset_len: usize,
        joined: *mut f64,
        joined_len: usize,
        values: *mut usize,
        values_len: usize,
    ) -> usize;

    pub fn delvouzh_without_part(
        whole: *const f64,
        whole_len: usize,
        part: *const f64,
        part_len: usize,
        joined: *mut f64,
        joined_len: usize,
        values: *mut usize,
        values_len: usize,
    ) -> usize;

    pub fn delvouzh_principal_moments(
        tensor: *const f64,
        tensor_len: usize,
        moments: *mut f64,
        moments_len: usize,
        values: *mut usize,
        values_len: usize,
    ) -> usize;

    pub fn delvouzh_check(body: *const f64, body_len: usize, values: *mut usize, values_len: usize) -> usize;

    pub fn delvouzh_sqrt(x: f64) -> f64;

    pub fn delvouzh_job_make(
        limit: usize,
        set_numbers: *const f64,
        set_numbers_len: usize,
        set_counts: *const usize,
        set_counts_len: usize,
        points: *const f64,
        points_len: usize,
        job_numbers: *mut f64,
        job_numbers_len: usize,
        job_counts: *mut usize,
        job_counts_len: usize,
        values: *mut usize,
        values_len: usize,
    ) -> usize;

    pub fn delvouzh_job_step(
        job_numbers: *mut f64,
        job_numbers_len: usize,
        job_counts: *mut usize,
        job_counts_len: usize,
        scratch: *mut f64,
        scratch_len: usize,
        body: *mut f64,
        body_len: usize,
        counts: *mut usize,
        counts_len: usize,
    ) -> usize;

    pub fn delvouzh_job_change_density(
        job_numbers: *mut f64,
        job_numbers_len: usize,
        job_counts: *mut usize,
        job_counts_len: usize,
        density: usize,
        figure: f64,
        counts: *mut usize,
        counts_len: usize,
    ) -> usize;

    pub fn delvouzh_job_progress(
        job_numbers: *const f64,
        job_numbers_len: usize,
        job_counts: *const usize,
        job_counts_len: usize,
        counts: *mut usize,
        counts_len: usize,
    ) -> usize;

    pub fn delvouzh_engine_clear(engine_counts: *mut usize, engine_counts_len: usize) -> usize;

    pub fn delvouzh_engine_submit(
        screen: usize,
        limit: usize,
        set_numbers: *const f64,
        set_numbers_len: usize,
        set_counts: *const usize,
        set_counts_len: usize,
        points: *const f64,
        points_len: usize,
        engine_numbers: *mut f64,
        engine_numbers_len: usize,
        engine_counts: *mut usize,
        engine_counts_len: usize,
        values: *mut usize,
        values_len: usize,
    ) -> usize;

    pub fn delvouzh_engine_turn(
        engine_numbers: *mut f64,
        engine_numbers_len: usize,
        engine_counts: *mut usize,
        engine_counts_len: usize,
        scratch: *mut f64,
        scratch_len: usize,
        body: *mut f64,
        body_len: usize,
        counts: *mut usize,
        counts_len: usize,
    ) -> usize;

    pub fn delvouzh_engine_change_density(
        engine_numbers: *mut f64,
        engine_numbers_len: usize,
        engine_counts: *mut usize,
        engine_counts_len: usize,
        screen: usize,
        density: usize,
        figure: f64,
        counts: *mut usize,
        counts_len: usize,
    ) -> usize;

    pub fn delvouzh_engine_progress(
        engine_numbers: *const f64,
        engine_numbers_len: usize,
        engine_counts: *const usize,
        engine_counts_len: usize,
        screen: usize,
        counts: *mut usize,
        counts_len: usize,
    ) -> usize;

    pub fn delvouzh_answer_line(
        line: *const u8,
        line_len: usize,
        scratch: *mut f64,
        scratch_len: usize,
        engine_numbers: *mut f64,
        engine_numbers_len: usize,
        engine_counts: *mut usize,
        engine_counts_len: usize,
        answer: *mut u8,
        answer_len: usize,
        written: *mut usize,
        written_len: usize,
    ) -> usize;
    // end of the copy
}
