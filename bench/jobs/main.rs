//! A set worked as a job, made and stepped to its end, beside the same set in one run: time a set, and what a step adds to its strip.
//!
//! Each time is the best of many rounds in which the two take turns. Every answer of both is compared: figures, counts and scratch.
use std::hint::black_box;
use std::process::exit;
use std::time::{Duration, Instant};

extern "C" {
    fn delvouzh_mass_properties(
        limit: usize,
        set_numbers: *const f64,
        set_numbers_len: usize,
        set_counts: *const usize,
        set_counts_len: usize,
        points: *const f64,
        points_len: usize,
        scratch: *mut f64,
        scratch_len: usize,
        body: *mut f64,
        body_len: usize,
        counts: *mut usize,
        counts_len: usize,
    ) -> usize;

    fn delvouzh_job_make(
        limit: usize,
        set_numbers: *const f64,
        set_numbers_len: usize,
        set_counts: *const usize,
        set_counts_len: usize,
        points: *const f64,
        points_len: usize,
        job_numbers: *mut f64,
        job_numbers_len: usize,
        job_counts: *mut usize,
        job_counts_len: usize,
        values: *mut usize,
        values_len: usize,
    ) -> usize;

    fn delvouzh_job_step(
        job_numbers: *mut f64,
        job_numbers_len: usize,
        job_counts: *mut usize,
        job_counts_len: usize,
        scratch: *mut f64,
        scratch_len: usize,
        body: *mut f64,
        body_len: usize,
        counts: *mut usize,
        counts_len: usize,
    ) -> usize;
}

const LIMIT: usize = 64;
const MORE: usize = 1000;

/// The most microseconds that a step may add to its strip, of an outline of 64 points.
const ASKED: f64 = 0.4;

/// As include/delvouzh.h has it.
struct Set {
    name: &'static str,
    numbers: [f64; 14],
    counts: [usize; 6],
    points: Vec<f64>,
}

#[derive(PartialEq)]
struct Answer {
    number: usize,
    body: [f64; 10],
    counts: [usize; 4],
    scratch: Vec<f64>,
}

impl Answer {
    fn new() -> Self {
        Self {
            number: 0,
            body: [0.0; 10],
            counts: [0; 4],
            scratch: vec![0.0; 16 * LIMIT],
        }
    }
}

fn whole(set: &Set, to: &mut Answer) {
    let scratch = &mut to.scratch;
    to.number = unsafe {
        delvouzh_mass_properties(
            LIMIT,
            set.numbers.as_ptr(),
            set.numbers.len(),
            set.counts.as_ptr(),
            set.counts.len(),
            set.points.as_ptr(),
            set.points.len(),
            scratch.as_mut_ptr(),
            scratch.len(),
            to.body.as_mut_ptr(),
            to.body.len(),
            to.counts.as_mut_ptr(),
            to.counts.len(),
        )
    };
}

/// Makes the job and steps it to its end; gives the steps.
fn stepped(set: &Set, to: &mut Answer) -> usize {
    let (mut numbers, mut counts, mut values) = ([0.0; 159], [0usize; 17], [0; 2]);
    let scratch = &mut to.scratch;
    to.number = unsafe {
        delvouzh_job_make(
            LIMIT,
            set.numbers.as_ptr(),
            set.numbers.len(),
            set.counts.as_ptr(),
            set.counts.len(),
            set.points.as_ptr(),
            set.points.len(),
            numbers.as_mut_ptr(),
            numbers.len(),
            counts.as_mut_ptr(),
            counts.len(),
            values.as_mut_ptr(),
            values.len(),
        )
    };
    let mut steps = 0;
    loop {
        steps += 1;
        to.number = unsafe {
            delvouzh_job_step(
                numbers.as_mut_ptr(),
                numbers.len(),
                counts.as_mut_ptr(),
                counts.len(),
                scratch.as_mut_ptr(),
                scratch.len(),
                to.body.as_mut_ptr(),
                to.body.len(),
                to.counts.as_mut_ptr(),
                to.counts.len(),
            )
        };
        if to.number != MORE {
            return steps;
        }
    }
}

/// An outline of n points: up in steps of its own, and down again.
fn outline(n: usize) -> Vec<f64> {
    let point = |i: usize| {
        [
            0.004 * i as f64,
            0.003 * (i.min(2 * (n - 1) - 2 * i) as f64) * (1.0 + 0.1 * (i % 3) as f64),
        ]
    };
    let mut numbers: Vec<f64> = (0..n).flat_map(point).collect();
    numbers[2 * n - 1] = 0.0;
    numbers
}

fn sets() -> Vec<Set> {
    let kinds = [
        ("trapezoid", 1, [0.2, 0.1, 0.15, 0.05], vec![]),
        ("ellipse", 2, [0.2, 0.1, 0.0, 0.0], vec![]),
        ("outline of 12 points", 3, [0.0; 4], outline(12)),
        ("outline of 64 points", 3, [0.0; 4], outline(64)),
    ];
    let on = |(name, planform, lengths, points): &(&'static str, usize, [f64; 4], Vec<f64>)| {
        let mut numbers = [0.0; 14];
        numbers[..4].copy_from_slice(lengths);
        numbers[4..9].copy_from_slice(&[0.003, 0.02, 0.5, 0.05, 680.0]);
        [1, 2].map(|section| Set {
            name,
            numbers,
            counts: [4, *planform, section, 0, 1, 0],
            points: points.clone(),
        })
    };
    kinds.iter().flat_map(on).collect()
}

/// The time of one call, over so many.
fn time(calls: u32, mut call: impl FnMut()) -> Duration {
    let start = Instant::now();
    for _ in 0..calls {
        call();
    }
    start.elapsed() / calls
}

fn main() {
    let mut differing = 0;
    let mut slow = false;
    println!("| planform | section | strips | µs in one run | µs as a job | µs that a step adds |");
    println!("|---|---|---|---|---|---|");
    for set in sets() {
        let (mut one, mut job) = (Answer::new(), Answer::new());
        whole(&set, &mut one);
        let steps = stepped(&set, &mut job);
        differing += usize::from(one != job || one.number != 0);
        let calls = (2_000_000 / (one.counts[3] as u32 * 40)).max(4);
        let mut best = [Duration::MAX; 2];
        for _ in 0..300 {
            best[0] = best[0].min(time(calls, || whole(black_box(&set), &mut one)));
            best[1] = best[1].min(time(calls, || {
                black_box(stepped(black_box(&set), &mut job));
            }));
        }
        let [run, worked] = best.map(|t| t.as_nanos() as f64 / 1000.0);
        let added = (worked - run) / steps as f64;
        let section = ["square", "rounded"][set.counts[2] - 1];
        println!(
            "| {} | {section} | {steps} | {run:.2} | {worked:.2} | {added:.2} |",
            set.name
        );
        slow |= set.points.len() == 128 && added > ASKED;
    }
    println!(
        "\n{differing} answers differ; at most {ASKED} µs a step is asked at 64 points{}",
        if slow { ": more" } else { "" }
    );
    exit(i32::from(differing != 0 || slow));
}
