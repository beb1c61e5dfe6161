//! The proved square root, as Rust links it, beside the hardware's `f64::sqrt`: time a call and equal bits, on the same inputs.
//!
//! Independent: 4,096 roots that do not wait for each other. Chain: each input waits for the result before it.
//! Each figure is the best of 500 rounds in which the two take turns, so that other work on the machine counts least.
use std::hint::black_box;
use std::time::Instant;

extern "C" {
    fn delvouzh_sqrt(x: f64) -> f64;
}

#[inline(always)]
fn proved(x: f64) -> f64 {
    unsafe { delvouzh_sqrt(x) }
}

#[inline(always)]
fn hardware(x: f64) -> f64 {
    x.sqrt()
}

/// Marsaglia's xorshift, from a fixed seed: every run has the same inputs.
struct Random(u64);

impl Random {
    fn bits(&mut self) -> u64 {
        self.0 ^= self.0 << 13;
        self.0 ^= self.0 >> 7;
        self.0 ^= self.0 << 17;
        self.0
    }

    fn below(&mut self, n: u64) -> u64 {
        self.bits() % n
    }
}

const LEADING: u64 = 1 << 52;

fn any(r: &mut Random) -> f64 {
    f64::from_bits(r.bits())
}

fn normal(r: &mut Random) -> f64 {
    f64::from_bits(LEADING + r.below(2046 * LEADING))
}

fn subnormal(r: &mut Random) -> f64 {
    f64::from_bits(1 + r.below(LEADING - 1))
}

/// 1 − f², as on an ellipse.
fn ellipse(r: &mut Random) -> f64 {
    let f = r.below(1 << 53) as f64 / (1u64 << 53) as f64;
    1.0 - f * f
}

/// The square of a whole number of at most 26 binary digits, times a power of 4.
fn square(r: &mut Random) -> f64 {
    let k = (1 + r.below((1 << 26) - 1)) as f64;
    k * k * 4f64.powi(r.below(900) as i32 - 450)
}

/// Near the square of a number halfway between two f64s, where rounding is hardest to decide.
fn halfway(r: &mut Random) -> f64 {
    let twice = 2 * (LEADING + r.below(LEADING)) + 1;
    let square = twice as u128 * twice as u128;
    square as f64 * 4f64.powi(r.below(900) as i32 - 500)
}

/// A power of 2, which is where f64s begin to lie twice as far apart.
fn power(r: &mut Random) -> f64 {
    f64::from_bits((1 + r.below(2046)) * LEADING)
}

// ---- equal bits

struct Tally {
    compared: u64,
    differ: u64,
}

fn compare(tally: &mut Tally, x: f64) {
    let (a, b) = (proved(x), hardware(x));
    tally.compared += 1;
    if a.to_bits() != b.to_bits() && !(a.is_nan() && b.is_nan()) {
        tally.differ += 1;
        if tally.differ <= 8 {
            println!(
                "differ at {:016x}: {:016x}, hardware {:016x}",
                x.to_bits(),
                a.to_bits(),
                b.to_bits()
            );
        }
    }
}

/// `count` inputs of a family, each with the f64s within `around` places of it.
fn family(name: &str, count: u64, around: u64, make: fn(&mut Random) -> f64) -> u64 {
    let mut random = Random(0x2545_f491_4f6c_dd1d);
    let mut tally = Tally { compared: 0, differ: 0 };
    for _ in 0..count {
        let bits = make(&mut random).to_bits();
        for d in 0..=2 * around {
            compare(&mut tally, f64::from_bits(bits.wrapping_add(d).wrapping_sub(around)));
        }
    }
    println!("{name:<34}{:>12}{:>10}", tally.compared, tally.differ);
    tally.differ
}

// ---- time

fn independent(root: impl Fn(f64) -> f64, inputs: &[f64]) -> f64 {
    let start = Instant::now();
    let mut all = 0;
    for x in inputs {
        all ^= root(black_box(*x)).to_bits();
    }
    black_box(all);
    start.elapsed().as_nanos() as f64 / inputs.len() as f64
}

/// The sign of the result before, which is never set, is laid over the input: the processor cannot know.
fn chain(root: impl Fn(f64) -> f64, inputs: &[f64]) -> f64 {
    let start = Instant::now();
    let mut last = 0;
    for x in inputs {
        last = root(f64::from_bits(x.to_bits() | last >> 63)).to_bits();
    }
    black_box(last);
    start.elapsed().as_nanos() as f64 / inputs.len() as f64
}

/// Prints the times of a family and returns its larger ratio.
fn time(name: &str, make: fn(&mut Random) -> f64) -> f64 {
    let mut random = Random(0x9e37_79b9_7f4a_7c15);
    let inputs: Vec<f64> = (0..4096).map(|_| make(&mut random)).collect();
    let mut best = [f64::MAX; 4];
    for _ in 0..500 {
        let round = [
            independent(hardware, &inputs),
            independent(proved, &inputs),
            chain(hardware, &inputs),
            chain(proved, &inputs),
        ];
        for (b, t) in best.iter_mut().zip(round) {
            *b = b.min(t);
        }
    }
    for (style, h, p) in [("independent", best[0], best[1]), ("chain", best[2], best[3])] {
        println!("{name:<22}{style:<12}{h:>10.2}{p:>10.2}{:>8.1}", p / h);
    }
    (best[1] / best[0]).max(best[3] / best[2])
}

fn main() {
    println!("{:<34}{:>12}{:>10}", "bits of", "compared", "differ");
    let differ = family("random bit patterns", 20_000_000, 0, any)
        + family("normal numbers", 10_000_000, 0, normal)
        + family("subnormal numbers", 5_000_000, 0, subnormal)
        + family("1 − f²", 10_000_000, 0, ellipse)
        + family("perfect squares, ±2 last places", 2_000_000, 2, square)
        + family("halfway roots, ±2 last places", 2_000_000, 2, halfway)
        + family("powers of 2, ±1000 last places", 5_000, 1000, power);
    println!(
        "\n{:<22}{:<12}{:>10}{:>10}{:>8}",
        "ns a root", "", "hardware", "proved", "ratio"
    );
    let ratio = time("normal numbers", normal)
        .max(time("perfect squares", square))
        .max(time("1 − f²", ellipse))
        .max(time("subnormal numbers", subnormal));
    if differ != 0 || ratio > 30.0 {
        std::process::exit(1);
    }
}
