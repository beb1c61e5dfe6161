//! The proved figures of a fin set, as Rust links them, beside the original Rust's `FinSet::mass_properties`, by planform
//! and section: a table in Markdown, and whether each is as many times as fast as is asked.
mod measure;
#[allow(dead_code)] // it serves bench/growth too
mod sets;

use measure::{Row, count_if_asked, instructions, measure, thousands};
use sets::{Random, Set};

const SECTIONS: [&str; 4] = ["square", "rounded", "airfoil", "airfoil-open"];

/// The largest limit there is. Most of the teeth of 64 points with rounded edges need more pieces of a strip than this,
/// and are refused 13.
const LIMIT: usize = 64;

/// A planform, how many times the Rust's speed is asked, and how many of rounded sections, whose samples cost more on both sides.
type Planform = (&'static str, f64, f64, fn(&mut Random, usize) -> Set);

const PLANFORMS: [Planform; 6] = [
    ("trapezoid", 1.5, 1.5, sets::trapezoid),
    ("ellipse", 1.0, 1.0, sets::ellipse),
    ("outline of 12 points", 3.4, 3.0, |r, s| sets::outline(r, s, 12)),
    ("outline of 64 points", 5.5, 4.5, |r, s| sets::outline(r, s, 64)),
    ("teeth of 12 points", 2.2, 2.2, |r, s| sets::teeth(r, s, 12)),
    ("teeth of 64 points", 2.8, 2.3, |r, s| sets::teeth(r, s, 64)),
];

fn row(planform: &Planform, k: usize) -> Row {
    let mut random = Random::new();
    let (name, _, _, make) = planform;
    let sets = (0..64).map(|_| make(&mut random, k)).collect();
    Row {
        name: name.to_string(),
        section: SECTIONS[k],
        sets,
        limit: LIMIT,
    }
}

fn main() {
    let rows: Vec<Row> = PLANFORMS
        .iter()
        .flat_map(|p| (0..SECTIONS.len()).map(|k| row(p, k)))
        .collect();
    if count_if_asked(&rows) {
        return;
    }
    println!(
        "| planform | section | pieces | Rust, µs | proved, µs | times the Rust's speed | Rust, thousand instructions | proved |"
    );
    println!("|---|---|---|---|---|---|---|---|");
    let mut short = Vec::new();
    for (i, row) in rows.iter().enumerate() {
        let t = measure(row);
        let ratio = t.rust / t.proved;
        let [by_rust, by_proved] = ["rust", "proved"].map(|who| thousands(instructions(&rows, i, who)));
        println!(
            "| {} | {} | {:.0} | {:.2} | {:.2} | {ratio:.2} | {by_rust} | {by_proved} |",
            row.name,
            row.section,
            t.intervals,
            t.rust / 1e3,
            t.proved / 1e3
        );
        let (_, wanted, rounded, _) = PLANFORMS[i / SECTIONS.len()];
        let aim = if row.section == "rounded" { rounded } else { wanted };
        if ratio < aim {
            short.push(format!(
                "{}, {}: {ratio:.2} times the Rust's speed, of {aim} asked",
                row.name, row.section
            ));
        }
    }
    println!(
        "\n{}",
        if short.is_empty() {
            "every aim is met".to_string()
        } else {
            short.join("\n")
        }
    );
    std::process::exit(i32::from(!short.is_empty()));
}
