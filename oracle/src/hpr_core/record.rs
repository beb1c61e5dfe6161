//! What a run leaves behind: the samples and the pieces of each strip. The changed quadrature.rs writes here.

use std::cell::RefCell;

/// One call of `integrate`.
#[derive(Debug, Clone, Default)]
pub struct Strip {
    pub lower: f64,
    pub upper: f64,
    pub samples: u64,
    /// The pieces it ended with, in storage order: start, end, seven values, seven errors.
    pub pieces: Vec<[f64; 16]>,
}

#[derive(Debug, Clone, Default)]
pub struct Record {
    limit: usize,
    heights: Vec<f64>,
    pub strips: Vec<Strip>,
    /// The integrand at the heights asked for, worked at the start of each strip.
    pub integrand: Vec<Vec<f64>>,
}

thread_local! {
    static RECORD: RefCell<Record> = RefCell::default();
}

fn with<T>(f: impl FnOnce(&mut Record) -> T) -> T {
    RECORD.with(|r| f(&mut r.borrow_mut()))
}

/// Starts a run with L = `limit`, asking for the integrand at `heights`.
pub fn start(limit: usize, heights: &[f64]) {
    with(|r| {
        *r = Record {
            limit,
            heights: heights.to_vec(),
            ..Record::default()
        }
    });
}

/// What the run since `start` left.
pub fn finish() -> Record {
    with(std::mem::take)
}

pub fn limit() -> usize {
    with(|r| r.limit)
}

pub fn strip(lower: f64, upper: f64) {
    let strip = Strip {
        lower,
        upper,
        ..Strip::default()
    };
    with(|r| r.strips.push(strip));
}

pub fn heights() -> Vec<f64> {
    with(|r| r.heights.clone())
}

pub fn integrand(value: &[f64]) {
    with(|r| r.integrand.push(value.to_vec()));
}

fn last_strip(f: impl FnOnce(&mut Strip)) {
    with(|r| f(r.strips.last_mut().expect("a strip has begun")));
}

pub fn sample() {
    last_strip(|s| s.samples += 1);
}

/// The pieces as they stand before a halving.
pub fn pieces<'a>(list: impl Iterator<Item = (f64, f64, &'a [f64], &'a [f64])>) {
    last_strip(|s| {
        s.pieces.clear();
        for (start, end, value, error) in list {
            let mut piece = [0.0; 16];
            piece[0] = start;
            piece[1] = end;
            piece[2..2 + value.len()].copy_from_slice(value);
            piece[9..9 + error.len()].copy_from_slice(error);
            s.pieces.push(piece);
        }
    });
}
