//! How the cost of a set grows with the points of its outline, the pieces of a strip and the fins, by the proved library
//! and by the original Rust: tables in Markdown. A power is that by which a row's cost grows from the row before.
#[allow(dead_code)] // it serves bench/figures too
#[path = "../figures/measure.rs"]
mod measure;
#[allow(dead_code)]
#[path = "../figures/sets.rs"]
mod sets;

use measure::{Row, count_if_asked, instructions, measure, thousands};
use sets::Random;

/// By which power of the points the proved cost may grow from 24 to 64 of them.
const ASKED: f64 = 1.35;

const POINTS: [usize; 10] = [3, 4, 6, 8, 12, 16, 24, 32, 48, 64];
const PIECES: [usize; 7] = [1, 2, 4, 8, 16, 32, 64];
const FINS: [usize; 6] = [1, 2, 4, 8, 16, 32];

fn rows() -> Vec<Row> {
    let of = |n: usize, what: &str, limit, sets| Row {
        name: format!("{what}: {n}"),
        section: "square",
        sets,
        limit,
    };
    let sixty_four = |make: &dyn Fn(&mut Random) -> sets::Set| {
        let mut random = Random::new();
        (0..64).map(|_| make(&mut random)).collect()
    };
    let points = POINTS.map(|n| of(n, "points", 64, sixty_four(&|r| sets::outline(r, 0, n))));
    let pieces = PIECES.map(|n| of(n, "pieces of one strip", n, vec![sets::never_converging()]));
    let fins = FINS.map(|n| of(n, "fins of a trapezoid", 64, sixty_four(&|r| sets::fins(r, n as u32))));
    points.into_iter().chain(pieces).chain(fins).collect()
}

/// By which power a cost grows from one of m to another of n.
fn power(m: f64, before: f64, n: f64, now: f64) -> f64 {
    (now / before).ln() / (n / m).ln()
}

/// One table, of the rows from the first on; answers each row's count and the proved nanoseconds.
fn table(rows: &[Row], first: usize, counts: &[usize]) -> Vec<(f64, f64)> {
    println!(
        "| square section | Rust, µs | power | proved, µs | power | times the Rust's speed | Rust, thousand instructions | proved |"
    );
    println!("|---|---|---|---|---|---|---|---|");
    let mut told: Vec<(f64, f64)> = Vec::new();
    let mut before: Option<(f64, f64, f64)> = None;
    for (i, &n) in (first..).zip(counts) {
        let t = measure(&rows[i]);
        let n = n as f64;
        let grown = |cost: fn(&(f64, f64, f64)) -> f64, now| {
            before.map_or(String::new(), |was| format!("{:.2}", power(was.0, cost(&was), n, now)))
        };
        let (by_rust, by_proved) = (grown(|was| was.1, t.rust), grown(|was| was.2, t.proved));
        let [rust, proved] = ["rust", "proved"].map(|who| thousands(instructions(rows, i, who)));
        let (a, b, ratio) = (t.rust / 1e3, t.proved / 1e3, t.rust / t.proved);
        println!(
            "| {} | {a:.2} | {by_rust} | {b:.2} | {by_proved} | {ratio:.2} | {rust} | {proved} |",
            rows[i].name
        );
        before = Some((n, t.rust, t.proved));
        told.push((n, t.proved));
    }
    println!();
    told
}

fn main() {
    let rows = rows();
    if count_if_asked(&rows) {
        return;
    }
    let points = table(&rows, 0, &POINTS);
    table(&rows, POINTS.len(), &PIECES);
    table(&rows, POINTS.len() + PIECES.len(), &FINS);
    let at = |n: f64| points.iter().find(|p| p.0 == n).unwrap().1;
    let grown = power(24.0, at(24.0), 64.0, at(64.0));
    println!("from 24 to 64 points the cost grows by the power {grown:.2}, of at most {ASKED} asked");
    std::process::exit(i32::from(grown > ASKED));
}
