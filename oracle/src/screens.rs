//! Lines to the engine, each of which may depend on those before it: submissions, changes of density and turns, with other lines among them, and
//! in a kind of its own with questions of how far the jobs are.

use crate::forms::Density;
use crate::lines::{densities, density, density_part, one, spaced};
use crate::random::Random;
use crate::words;

/// Stretches of few and of many screens, with few and with many turns to each submission, so that screens stand idle, wait and are all taken.
pub fn traffic(r: &mut Random, count: usize) -> Vec<String> {
    stretches(r, count, line)
}

/// The same with a question before each second or third line, mostly of a screen that may hold a job.
pub fn questions(r: &mut Random, count: usize) -> Vec<String> {
    stretches(r, count, |r, screens, submissions| {
        if !r.once_in(3) {
            return line(r, screens, submissions);
        }
        let question = format!("(progress {})", screen(r, screens));
        match r.below(24) {
            0 => words::mistyped(r, &question),
            1 => spaced(r, &question),
            _ => question,
        }
    })
}

fn stretches(r: &mut Random, count: usize, line: fn(&mut Random, i64, usize) -> String) -> Vec<String> {
    let mut made = Vec::new();
    while made.len() < count {
        let screens = r.pick(&[1, 2, 3, 8, 8, 8]);
        let submissions = r.pick(&[1, 4, 8, 12]);
        for _ in 0..r.range(4, 60) {
            made.push(line(r, screens, submissions));
        }
    }
    made.truncate(count);
    made
}

/// One line in twenty or so is written otherwise, or has a word that is no figure.
fn line(r: &mut Random, screens: i64, submissions: usize) -> String {
    let line = match r.below(24) {
        k if k < submissions => format!("(submit {} {})", screen(r, screens), set(r)),
        k if k < submissions + 3 => format!("(density {} {})", screen(r, screens), wood(r)),
        23 => one(r, "mixed"),
        _ => "(turn)".to_owned(),
    };
    match r.below(24) {
        0 => words::mistyped(r, &line),
        1..=3 => words::decimals(r, &line),
        4 => spaced(r, &line),
        _ => line,
    }
}

/// A number of 1 to `most`, seldom with zeros before it, and at times none of a screen.
fn screen(r: &mut Random, most: i64) -> String {
    let screen = r.range(1, most);
    match r.below(30) {
        0 => format!("{screen:012}"),
        1 => r.pick(&["0", "9", "10", "255", "257", "4294967297", "18446744073709551617", "99999999999999999999999"]).to_owned(),
        _ => screen.to_string(),
    }
}

/// A set, of several strips more often than not, at times with faults; seldom another form in its place.
fn set(r: &mut Random) -> String {
    let kind = r.pick(&["set", "set", "outline", "outline", "outline", "narrow", "merging", "noise", "fillets", "faults", "limits", "points"]);
    loop {
        let line = one(r, kind);
        if line.starts_with("(set ") || r.once_in(40) {
            return line;
        }
    }
}

fn wood(r: &mut Random) -> String {
    let limits = densities();
    density_part(match r.below(10) {
        0 => Density::Bulk(r.pick(&limits)),
        1 => r.pick(&[Density::Surface(0.1), Density::Line(1.0), Density::Surface(f64::NAN)]),
        _ => Density::Bulk(density(r)),
    })
}
