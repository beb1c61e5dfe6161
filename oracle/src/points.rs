//! Lines that ask where a point lies: most points on edges, on corners and at corners' heights.

use crate::figures::marked_all;
use crate::forms::Planform;
use crate::lines::planform_words;
use crate::outlines::Point;
use crate::random::{Random, moved, power_of_two};

const STEP: f64 = 1.0 / 1048576.0;

/// The metres of a drawing's unit: a few steps, shop sizes, and up to the limits.
fn unit(r: &mut Random) -> f64 {
    let power = r.pick(&[-20, -20, -19, -17, -12, -9, -7, -5, -3, 0, 2]);
    power_of_two(power) * if power > -3 { 1.0 } else { r.pick(&[1.0, 1.0, 1.0, 3.0, 5.0]) }
}

fn trapezoid(r: &mut Random, unit: f64) -> Planform {
    let tip = if r.once_in(3) { 0 } else { r.range(0, 12) };
    let lengths = [r.range(1, 12), tip, r.range(1, 12), r.range(-12, 12)];
    Planform::Trapezoid(lengths.map(|n| n as f64 * unit))
}

/// The drawn points between the first and the last: a skyline, a saw, a star around the root's middle, or any few.
fn between(r: &mut Random, shape: usize, width: i64) -> Vec<[i64; 2]> {
    match shape {
        0 => (1..width).map(|x| [x, r.range(1, 6)]).collect(),
        1 => (1..width).map(|x| [x, if x % 2 == 1 { 5 } else { r.range(1, 2) }]).collect(),
        2 => {
            let mut star: Vec<[i64; 2]> = (0..r.range(1, 10)).map(|_| [r.range(-8, 20), r.range(1, 12)]).collect();
            star.sort_by_key(|p| p[1]);
            star.sort_by(|a, b| ((6 - b[0]) * a[1]).cmp(&((6 - a[0]) * b[1])));
            star.dedup();
            star
        }
        _ => (0..r.range(1, 4)).map(|_| [r.range(-3, 9), r.range(0, 6)]).collect(),
    }
}

/// An outline, at times drawn in the other direction.
fn outline(r: &mut Random, unit: f64) -> Planform {
    let shape = r.below(4);
    let width = if shape < 2 { r.pick(&[2, 3, 4, 4, 5, 6, 7, 11, 15]) } else { 12 };
    let width = if shape < 2 && r.once_in(20) { 63 } else { width };
    let mut points = vec![[0, 0]];
    points.extend(between(r, shape, width));
    points.push([width, 0]);
    if r.once_in(3) {
        points.reverse();
        points.iter_mut().for_each(|p| p[0] = width - p[0]);
    }
    Planform::Outline(points.concat().iter().map(|&n| n as f64 * unit).collect())
}

fn corners(planform: &Planform) -> Vec<Point> {
    match planform {
        Planform::Trapezoid([root, tip, span, sweep]) => vec![[0.0, 0.0], [*sweep, *span], [sweep + tip, *span], [*root, 0.0]],
        Planform::Ellipse([root, span]) => vec![[0.0, 0.0], [0.5 * root, *span], [*root, 0.0]],
        Planform::Outline(figures) => figures.chunks_exact(2).map(|p| [p[0], p[1]]).collect(),
    }
}

fn in_steps(x: f64) -> f64 {
    (x / STEP).round() * STEP
}

/// A corner, a point of an edge, at a corner's height, a step beside a corner, between three corners, or anywhere near.
fn point(r: &mut Random, corners: &[Point], unit: f64) -> Point {
    let i = r.below(corners.len());
    let (a, b) = (corners[i], corners[(i + 1) % corners.len()]);
    let halves = |r: &mut Random| r.range(-4, 26) as f64 * unit / 2.0;
    match r.below(11) {
        0 => a,
        1 | 2 => {
            let parts = r.pick(&[2, 3, 4, 5, 8, 12]);
            let along = r.range(0, parts) as f64 / parts as f64;
            [0, 1].map(|k| in_steps(a[k] + along * (b[k] - a[k])))
        }
        3..=5 => [r.pick(corners)[0] + r.pick(&[-1.0, 1.0, 0.0, 0.5]) * unit * r.range(0, 12) as f64, a[1]],
        6 => a.map(|value| value + r.range(-1, 1) as f64 * STEP),
        7 => [0, 1].map(|k| 0.5 * (a[k] + b[k])),
        8 | 9 => {
            let (c, d) = (r.pick(corners), r.pick(corners));
            [0, 1].map(|k| in_steps((a[k] + c[k] + d[k]) / 3.0))
        }
        _ => [halves(r), halves(r)],
    }
}

/// About the limits of a length, about whole numbers of steps, and no numbers.
fn odd(r: &mut Random) -> f64 {
    let value = r.pick(&[
        0.0, STEP, 0.5 * STEP, 1.5 * STEP, moved(STEP, 1), 2.0 * STEP + power_of_two(-60), 64.0, moved(64.0, 1), moved(64.0, -1), 64.0 - STEP,
        1.0 / 3.0, 1e-300, f64::INFINITY, f64::NAN,
    ]);
    r.sign(value)
}

pub fn drill_line(planform: &Planform, at: Point) -> String {
    format!("(drill ({}) (at{}))", planform_words(planform, marked_all), marked_all(&at))
}

/// One in ten has a fault or more: an odd number, an ellipse, points that are not whole pairs.
pub fn drill(r: &mut Random) -> String {
    let unit = unit(r);
    let mut planform = if r.once_in(3) { trapezoid(r, unit) } else { outline(r, unit) };
    let mut at = point(r, &corners(&planform), unit);
    if r.once_in(10) {
        for _ in 0..1 + r.below(3) {
            spoil(r, &mut planform, &mut at, unit);
        }
    }
    drill_line(&planform, at)
}

fn spoil(r: &mut Random, planform: &mut Planform, at: &mut Point, unit: f64) {
    match r.below(5) {
        0 => at[0] = odd(r),
        1 => at[1] = odd(r),
        2 => *planform = Planform::Ellipse([r.range(1, 12) as f64 * unit, r.range(1, 12) as f64 * unit]),
        _ => match planform {
            Planform::Trapezoid(figures) => figures[r.below(4)] = odd(r),
            Planform::Ellipse(figures) => figures[r.below(2)] = odd(r),
            Planform::Outline(figures) if r.once_in(4) => figures.truncate(r.below(figures.len() + 1)),
            Planform::Outline(figures) if figures.is_empty() => figures.push(odd(r)),
            Planform::Outline(figures) => {
                let k = r.below(figures.len());
                figures[k] = odd(r);
            }
        },
    }
}
