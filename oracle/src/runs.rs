//! Runs: a set's or a planform's line with its own number of scratch numbers in front of it.

use crate::engine::Engine;
use crate::lines;
use crate::random::Random;
use crate::work;

/// `count` lines of a kind, each with 16·L numbers of scratch, a few less, or more.
pub fn runs(kind: &str, count: u64, seed: u64) -> Option<Vec<String>> {
    let r = &mut Random::new(seed);
    let made = lines::lines(kind, count, seed)?;
    Some(made.iter().map(|line| format!("{} {line}", lent(r, line))).collect())
}

/// Enough for the line's limit, mostly exactly; the limit is the first count of a line.
fn lent(r: &mut Random, line: &str) -> usize {
    let digits: String = line.chars().skip_while(|c| !c.is_ascii_digit()).take_while(char::is_ascii_digit).collect();
    let enough = digits.parse::<usize>().map_or(0, |limit| 16 * limit.min(64));
    if r.once_in(12) {
        enough.saturating_sub(1 + r.below(16))
    } else {
        enough + r.below(2) * r.below(64)
    }
}

/// The answer to such a line.
pub fn run(line: &[u8]) -> String {
    let space = line.iter().position(|&b| b == b' ').unwrap_or(line.len());
    let lent = std::str::from_utf8(&line[..space]).ok().and_then(|n| n.parse().ok()).unwrap_or(0);
    work::work(&mut Engine::new(), line.get(space + 1..).unwrap_or_default(), lent).run()
}
