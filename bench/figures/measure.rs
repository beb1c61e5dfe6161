//! A set's figures worked by the proved library and by the original Rust: equal results, time and instructions a set.
//!
//! Each time is the best of many rounds in which the two take turns, so that other work on the machine counts least.
//! Every answer of both is compared: equal bits, either zero and any NaN being one. Instructions are counted by valgrind,
//! where there is one, and do not hang on other work.
use std::env;
use std::hint::black_box;
use std::process::Command;
use std::time::{Duration, Instant};

use hpr_core::{CoreError, record};
use hpr_design::error::DesignError;
use hpr_design::mass::MassProperties;

use crate::sets::Set;

unsafe extern "C" {
    fn delvouzh_mass_properties(
        limit: usize,
        set_numbers: *const f64,
        set_numbers_len: usize,
        set_counts: *const usize,
        set_counts_len: usize,
        points: *const f64,
        points_len: usize,
        scratch: *mut f64,
        scratch_len: usize,
        body: *mut f64,
        body_len: usize,
        counts: *mut usize,
        counts_len: usize,
    ) -> usize;
}

/// The library's answer: the refusal's number, 0 for none, its first value, the body, and how many intervals and samples.
struct Answer {
    number: usize,
    body: [f64; 10],
    counts: [usize; 4],
}

fn proved(set: &Set, scratch: &mut [f64], limit: usize) -> Answer {
    let mut body = [0.0; 10];
    let mut counts = [0; 4];
    let number = unsafe {
        delvouzh_mass_properties(
            limit,
            set.numbers.as_ptr(),
            set.numbers.len(),
            set.counts.as_ptr(),
            set.counts.len(),
            set.points.as_ptr(),
            set.points.len(),
            scratch.as_mut_ptr(),
            scratch.len(),
            body.as_mut_ptr(),
            body.len(),
            counts.as_mut_ptr(),
            counts.len(),
        )
    };
    Answer { number, body, counts }
}

fn rust(set: &Set) -> Result<MassProperties, DesignError> {
    set.rust.mass_properties(set.body_radius_m())
}

fn same(a: f64, b: f64) -> bool {
    a == b || (a.is_nan() && b.is_nan())
}

/// Whether the two answers are one: the body, or 13 with its component.
fn agree(answer: &Answer, rust: &Result<MassProperties, DesignError>) -> bool {
    match rust {
        Ok(found) => {
            let c = found.cg_m;
            let centre = [found.mass_kg, c.x, c.y, c.z];
            let inertia = found.inertia_kg_m2.six();
            let figures = centre.iter().chain(&inertia);
            answer.number == 0 && figures.zip(&answer.body).all(|(&a, &b)| same(a, b))
        }
        Err(DesignError::Numerics(CoreError::QuadratureDidNotConverge { component, .. })) => {
            answer.number == 13 && answer.counts[0] == *component
        }
        Err(_) => false,
    }
}

/// Sets of one kind, worked with at most `limit` pieces to a strip.
pub struct Row {
    pub name: String,
    pub section: &'static str,
    pub sets: Vec<Set>,
    pub limit: usize,
}

/// Nanoseconds a set of both, and the intervals a set.
pub struct Times {
    pub rust: f64,
    pub proved: f64,
    pub intervals: f64,
}

/// Compares every answer of both, and counts the intervals; a set that does not converge has as many as its limit.
fn compare(made: &[Set], scratch: &mut [f64], limit: usize) -> usize {
    let mut intervals = 0;
    for set in made {
        let answer = proved(set, scratch, limit);
        if !agree(&answer, &rust(set)) {
            println!("the answers differ: number {}, {:?}", answer.number, set.rust);
            std::process::exit(1);
        }
        intervals += if answer.number == 0 { answer.counts[2] } else { limit };
    }
    intervals
}

/// How many sets are timed at once: few, or one where it takes long, so that other work on the machine seldom falls into all rounds.
fn together(made: &[Set]) -> usize {
    let start = Instant::now();
    let _ = black_box(rust(black_box(&made[0])));
    if start.elapsed() < Duration::from_micros(50) {
        8
    } else {
        1
    }
}

/// The best of the rounds that half a second has room for, five at the least, of every few sets.
pub fn measure(row: &Row) -> Times {
    let (made, limit) = (&row.sets, row.limit);
    let mut scratch = vec![0.0; 16 * limit];
    record::start(limit, &[]);
    let intervals = compare(made, &mut scratch, limit);
    let size = together(made);
    let mut best = vec![[Duration::MAX; 2]; made.len().div_ceil(size)];
    let started = Instant::now();
    let mut rounds = 0;
    while rounds < 5 || started.elapsed() < Duration::from_millis(500) {
        for (sets, best) in made.chunks(size).zip(&mut best) {
            let start = Instant::now();
            for set in sets {
                let _ = black_box(rust(black_box(set)));
            }
            best[0] = best[0].min(start.elapsed());
        }
        for (sets, best) in made.chunks(size).zip(&mut best) {
            let start = Instant::now();
            for set in sets {
                black_box(proved(black_box(set), &mut scratch, limit));
            }
            best[1] = best[1].min(start.elapsed());
        }
        rounds += 1;
    }
    let n = made.len() as f64;
    let [rust, proved] = [0, 1].map(|i| best.iter().map(|b| b[i].as_nanos() as f64).sum::<f64>() / n);
    Times {
        rust,
        proved,
        intervals: intervals as f64 / n,
    }
}

/// How many sets of a row are worked to count instructions.
const COUNTED: usize = 8;

/// What valgrind counts within: every set of a row, worked by one of the two.
#[unsafe(no_mangle)]
#[inline(never)]
fn counted(row: &Row, by_rust: bool, scratch: &mut [f64]) {
    for set in row.sets.iter().take(COUNTED) {
        if by_rust {
            let _ = black_box(rust(black_box(set)));
        } else {
            black_box(proved(black_box(set), scratch, row.limit));
        }
    }
}

/// Works the row that the program's words name, for valgrind: `count ROW rust` or `count ROW proved`. Answers whether
/// that was asked.
pub fn count_if_asked(rows: &[Row]) -> bool {
    let words: Vec<String> = env::args().collect();
    if words.len() != 4 || words[1] != "count" {
        return false;
    }
    let row = &rows[words[2].parse::<usize>().unwrap()];
    record::start(row.limit, &[]);
    counted(row, words[3] == "rust", &mut vec![0.0; 16 * row.limit]);
    true
}

/// Instructions a set of a row by one of the two, counted by a run of this program under valgrind.
pub fn instructions(rows: &[Row], i: usize, who: &str) -> Option<f64> {
    let tool = [
        "--tool=callgrind",
        "--callgrind-out-file=/dev/null",
        "--toggle-collect=counted",
    ];
    let run = Command::new("valgrind")
        .args(tool)
        .arg(env::current_exe().ok()?)
        .args(["count", &i.to_string(), who])
        .output()
        .ok()?;
    let told = String::from_utf8(run.stderr).ok()?;
    let total: f64 = told
        .split("Collected : ")
        .nth(1)?
        .split_whitespace()
        .next()?
        .parse()
        .ok()?;
    Some(total / rows[i].sets.len().min(COUNTED) as f64)
}

/// A number of instructions as a table has it, in thousands; nothing where none was counted.
pub fn thousands(instructions: Option<f64>) -> String {
    instructions.map_or(String::new(), |n| format!("{:.1}", n / 1e3))
}
