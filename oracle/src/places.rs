//! Lines of copies at places, of a part moved in a body, and of a part taken off.

use crate::bodies;
use crate::figures::marked_all;
use crate::random::{Random, moved as stepped, power_of_two};

/// Mass, centre, tensor.
type Numbers = (f64, [f64; 3], [f64; 6]);

fn body_words((mass, centre, inertia): &Numbers) -> String {
    let parts = [marked_all(&[*mass]), marked_all(centre), marked_all(inertia)];
    format!("(body (mass{}) (centre{}) (inertia{}))", parts[0], parts[1], parts[2])
}

fn each<const N: usize>(name: &str, list: &[[f64; N]]) -> String {
    list.iter().map(|numbers| format!(" ({name}{})", marked_all(numbers))).collect()
}

fn copied_line(body: &Numbers, offsets: &[[f64; 2]]) -> String {
    format!("(copied {}{})", body_words(body), each("offset", offsets))
}

fn placed_line(body: &Numbers, places: &[[f64; 3]]) -> String {
    format!("(placed {}{})", body_words(body), each("place", places))
}

fn moved_line(whole: &Numbers, part: &Numbers, offset: [f64; 3]) -> String {
    format!("(moved {} {}{})", body_words(whole), body_words(part), each("offset", &[offset]))
}

fn without_line(whole: &Numbers, part: &Numbers) -> String {
    format!("(without {} {})", body_words(whole), body_words(part))
}

/// Most pass the check; one in ten is any body of the check's own lines.
fn body(r: &mut Random) -> Numbers {
    if r.once_in(10) {
        return bodies::body(r);
    }
    let mass = match r.below(12) {
        0 => return (r.pick(&[0.0, -0.0]), [r.between(-2.0, 2.0), 0.0, -0.0], [0.0; 6]),
        1 => r.pick(&[f64::MAX, f64::from_bits(1), power_of_two(1000), power_of_two(-1022)]),
        _ => r.scaled(-8, 4),
    };
    let mut centre: [f64; 3] = std::array::from_fn(|_| r.between(-2.0, 2.0));
    if r.once_in(12) {
        centre[r.below(3)] = r.pick(&[0.0, -0.0, f64::MAX, -f64::MAX, power_of_two(600)]);
    }
    let tensor = if r.once_in(8) { [0.0; 6] } else { bodies::real_tensor(r) };
    (mass, centre, tensor)
}

/// Within the limits of an offset, either zero among them, or about them.
fn offset(r: &mut Random) -> f64 {
    match r.below(40) {
        0..=9 => r.pick(&[0.0, -0.0]),
        10 => {
            let about = r.pick(&[power_of_two(-20), 64.0]);
            let near = r.near(about, 1);
            r.sign(near)
        }
        _ => {
            let x = r.scaled(-8, 3);
            r.sign(x)
        }
    }
}

fn odd(r: &mut Random) -> f64 {
    let value = r.pick(&[stepped(64.0, 1), stepped(power_of_two(-20), -1), 65.0, 1e-300, f64::INFINITY, f64::NAN]);
    r.sign(value)
}

fn roll(r: &mut Random) -> f64 {
    match r.below(8) {
        0 | 1 => r.pick(&[0.0, -0.0]),
        2 => {
            let angle = r.pick(&[4.0, f64::from_bits(1), 1.5707963267948966, 3.141592653589793]);
            r.sign(angle)
        }
        _ => r.between(-4.0, 4.0),
    }
}

/// How many places: few, up to 32, and at times none or too many.
fn count(r: &mut Random) -> usize {
    match r.below(20) {
        0 => r.pick(&[0, 33, 34, 40]),
        1..=6 => 1,
        7 => r.pick(&[31, 32]),
        _ => 2 + r.below(7),
    }
}

/// One in eight lines has an odd number or two among its places.
fn spoil(r: &mut Random, places: &mut [[f64; 3]], numbers: usize) {
    if places.is_empty() || !r.once_in(8) {
        return;
    }
    for _ in 0..1 + r.below(2) {
        let (k, i) = (r.below(places.len()), r.below(numbers));
        places[k][i] = if i == 2 { r.pick(&[stepped(4.0, 1), -5.0, f64::NAN]) } else { odd(r) };
    }
}

fn places(r: &mut Random, numbers: usize) -> Vec<[f64; 3]> {
    let count = count(r);
    let mut list: Vec<[f64; 3]> = (0..count).map(|_| [offset(r), offset(r), roll(r)]).collect();
    spoil(r, &mut list, numbers);
    list
}

pub fn copied(r: &mut Random) -> String {
    let body = body(r);
    let offsets: Vec<[f64; 2]> = places(r, 2).iter().map(|&[x, y, _]| [x, y]).collect();
    copied_line(&body, &offsets)
}

pub fn placed(r: &mut Random) -> String {
    let body = body(r);
    placed_line(&body, &places(r, 3))
}

/// A part of some of the whole's mass, of all of it, of a last bit less or more, or any.
fn part(r: &mut Random, whole: &Numbers) -> Numbers {
    let mut part = body(r);
    if part.0 > 0.0 && whole.0.is_finite() {
        part.0 = match r.below(6) {
            0 => whole.0,
            1 => r.near(whole.0, 2),
            2 => part.0,
            _ => whole.0 * r.unit(),
        };
    }
    part
}

pub fn moved(r: &mut Random) -> String {
    let whole = body(r);
    let part = part(r, &whole);
    let mut by = [offset(r), offset(r), offset(r)];
    if r.once_in(8) {
        by[r.below(3)] = odd(r);
    }
    moved_line(&whole, &part, by)
}

pub fn without(r: &mut Random) -> String {
    let whole = body(r);
    let part = part(r, &whole);
    without_line(&whole, &part)
}

/// Document 02, Paper 13: a place that neither moves nor turns, a list's ends, each number, and their order.
pub fn table() -> Vec<String> {
    let can: Numbers = (0.3, [0.02, 0.0, -0.4], [0.003, 0.003, 0.001, 0.0, 0.0001, 0.0]);
    let ballast: Numbers = (0.1, [0.0, 0.0, -0.1], [0.0; 6]);
    let massless: Numbers = (0.0, [0.0; 3], [0.0; 6]);
    let wrong: Numbers = (-1.0, [f64::NAN; 3], [f64::NAN; 6]);
    let off_centre: Numbers = (0.1, [f64::NAN, 0.0, 0.0], [0.0; 6]);
    vec![
        copied_line(&can, &[[0.0, -0.0]]),
        copied_line(&can, &[[0.0, 0.0], [0.0, 0.0]]),
        copied_line(&can, &[[0.05, 0.0], [-0.05, 0.0], [0.0, 0.05]]),
        placed_line(&can, &[[-0.0, 0.0, -0.0]]),
        placed_line(&can, &[[0.0, 0.0, 0.5]]),
        placed_line(&can, &[[0.05, 0.0, 0.0], [-0.05, 0.0, 3.0]]),
        moved_line(&can, &ballast, [0.0, 0.01, -0.3]),
        moved_line(&ballast, &can, [0.0, 0.01, -0.3]),
        without_line(&can, &ballast),
        // 3, with 4 and 9 behind it; 15 before 3; 4 of a later place behind 9 of an earlier one
        copied_line(&can, &[]),
        placed_line(&can, &[[65.0, 65.0, 5.0]; 33]),
        copied_line(&wrong, &[]),
        placed_line(&can, &[[0.0, 0.0, 5.0], [65.0, 0.0, 0.0]]),
        placed_line(&can, &[[0.0, -65.0, 5.0]]),
        // 26: equal masses, a heavier part, no mass; the offset's 4 before it; the whole before the part
        without_line(&can, &can),
        without_line(&ballast, &can),
        moved_line(&massless, &massless, [0.0; 3]),
        moved_line(&massless, &massless, [0.0, 0.0, 65.0]),
        without_line(&off_centre, &wrong),
    ]
}
