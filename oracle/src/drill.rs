//! Where a point lies beside a planform (document 02, Paper 11). The Rust has no such call: this is the paper, word by word, over whole
//! numbers. `oracle/drill` works the same answers in another way.

use crate::forms::Planform;
use crate::refusals::Refusal;

#[derive(Debug, Clone, Copy, PartialEq)]
pub enum Place {
    Inside,
    Edge,
    Outside,
}

/// An x and a height.
type Point = [i128; 2];

/// A length within the limits is a whole number of units of 2^-72 m, and a step is 2^52 of them.
const UNITS_OF_A_METRE: f64 = 4722366482869645213696.0;
const UNITS_OF_A_STEP: i128 = 1 << 52;

fn units(length: f64) -> i128 {
    (length * UNITS_OF_A_METRE) as i128
}

/// "the drawn points, or (0,0), (sweep, span), (sweep + tip, span), (root, 0)", in units: sweep + tip is not rounded.
fn corners(planform: &Planform) -> Result<Vec<Point>, Refusal> {
    match planform {
        Planform::Trapezoid(lengths) => {
            let [root, tip, span, sweep] = lengths.map(units);
            Ok(vec![[0, 0], [sweep, span], [sweep + tip, span], [root, 0]])
        }
        Planform::Ellipse(_) => Err(Refusal::NoCorners),
        Planform::Outline(figures) => Ok(figures.chunks(2).map(|p| [units(p[0]), units(p[1])]).collect()),
    }
}

/// The place and the nearest corner, or 24 or 25; planform and point have passed their checks.
pub fn drill(planform: &Planform, at: [f64; 2]) -> Result<(Place, usize), Refusal> {
    let mut points = corners(planform)?;
    points.push(at.map(units));
    if points.iter().flatten().any(|value| value % UNITS_OF_A_STEP != 0) {
        return Err(Refusal::NotWholeSteps);
    }
    let steps: Vec<Point> = points.iter().map(|p| p.map(|value| value / UNITS_OF_A_STEP)).collect();
    let (&at, corners) = steps.split_last().expect("the point itself");
    Ok((place(corners, at), nearest(corners, at)))
}

fn place(corners: &[Point], at: Point) -> Place {
    let edges = || corners.iter().zip(corners.iter().cycle().skip(1));
    if edges().any(|(&a, &b)| lies_on(a, b, at)) {
        return Place::Edge;
    }
    let cut = edges().filter(|&(&a, &b)| is_cut(a, b, at)).count();
    if cut % 2 == 1 { Place::Inside } else { Place::Outside }
}

/// In line with the edge's ends, and not beyond either.
fn lies_on([ax, ay]: Point, [bx, by]: Point, [x, height]: Point) -> bool {
    let in_line = (bx - ax) * (height - ay) == (by - ay) * (x - ax);
    in_line && (ax.min(bx)..=ax.max(bx)).contains(&x) && (ay.min(by)..=ay.max(by)).contains(&height)
}

/// "cut to the right, an edge counting from its lower end's height up to, but not at, its upper end's"
fn is_cut(a: Point, b: Point, [x, height]: Point) -> bool {
    let ([low_x, low], [high_x, high]) = if a[1] < b[1] { (a, b) } else { (b, a) };
    (low..high).contains(&height) && (x - low_x) * (high - low) < (height - low) * (high_x - low_x)
}

/// "the nearest corner, lowest position on equal distance"
fn nearest(corners: &[Point], [x, height]: Point) -> usize {
    let distance = |&i: &usize| {
        let [cx, cy] = corners[i];
        (cx - x).pow(2) + (cy - height).pow(2)
    };
    (0..corners.len()).min_by_key(distance).expect("a corner")
}
