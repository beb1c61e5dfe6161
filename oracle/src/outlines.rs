//! Drawn outlines: simple polygons above the root, and outlines that touch themselves or nearly do.

use crate::random::Random;

pub type Point = [f64; 2];

const SHORTEST: f64 = 1.0 / 1048576.0;

/// How the heights of an outline lie.
#[derive(Clone, Copy)]
pub enum Heights {
    Free,
    /// Few values, so that many points are level.
    Level,
    /// Clusters a few last bits wide, so that strips are.
    Close,
    /// Neighbours that often become one when divided by root chord plus span.
    Merging,
}

/// A length of a shop's fin, or any within the limits.
pub fn length(r: &mut Random, wild: bool) -> f64 {
    if !wild {
        return r.range(1, 400) as f64 / 1000.0;
    }
    match r.below(8) {
        0 => SHORTEST,
        1 => 64.0,
        2 => r.range(1, 400) as f64 / 1000.0,
        _ => r.scaled(-20, 5),
    }
}

fn heights(r: &mut Random, count: usize, top: f64, style: Heights) -> Vec<f64> {
    let bases = [r.between(0.5, 1.0), 1.0];
    let levels = r.range(1, 6);
    let list = (0..count).map(|_| match style {
        Heights::Free => top * (r.range(1, 1000) as f64 / 1000.0),
        Heights::Level => top * (r.range(1, levels) as f64 / levels as f64),
        Heights::Close => {
            let base = top * r.pick(&bases);
            r.near(base, 4)
        }
        Heights::Merging => {
            let base = top * (0.96 + 0.01 * r.pick(&bases));
            r.near(base, 3)
        }
    });
    list.map(|y| y.clamp(SHORTEST, 64.0)).collect()
}

/// A length of x as an outline may hold it: what is too short becomes 0.
fn drawn(x: f64) -> f64 {
    if x.abs() < SHORTEST { 0.0 } else { x.clamp(-64.0, 64.0) }
}

/// An outline of n points that is simple before rounding.
pub fn simple(r: &mut Random, n: usize, style: Heights, wild: bool) -> Vec<Point> {
    let (mut root, mut top) = (length(r, wild), length(r, wild));
    if let (Heights::Close, false) = (style, wild) {
        let low = r.pick(&[-19, -19, -12, -6]);
        root = r.scaled(low, low + 2);
        top = root * r.scaled(-1, 3);
    }
    if let Heights::Merging = style {
        // The quotient by root + top then has fewer last bits than the height.
        top = 2.0 * r.scaled(-12, 3);
        root = top * r.between(0.85, 0.95);
    }
    let inner = n - 2;
    let mut points = vec![[0.0, 0.0]];
    let shape = match style {
        Heights::Close | Heights::Merging => r.pick(&[0, 3, 3, 3]),
        Heights::Free | Heights::Level => r.below(5),
    };
    match shape {
        0 | 1 => points.extend(graph(r, inner, root, top, style)),
        2 => points.extend(star(r, inner, root, top)),
        3 => {
            let (up_and_down, its_root) = climb(r, inner, root, top, style);
            points.extend(up_and_down);
            root = its_root;
        }
        _ => {
            points = hook(r, root, top);
            root = points.pop().map_or(root, |p| p[0]);
        }
    }
    points.push([root, 0.0]);
    points.iter().map(|&[x, y]| [drawn(x), drawn(y)]).collect()
}

/// x rising from point to point; teeth that go up and down in every other outline.
fn graph(r: &mut Random, inner: usize, root: f64, top: f64, style: Heights) -> Vec<Point> {
    let teeth = r.once_in(2);
    let ys = heights(r, inner, top, style);
    let step = root / (inner + 1) as f64;
    let point = |(k, y): (usize, f64)| {
        let x = step * (k as f64 + 1.0 + 0.8 * (r.unit() - 0.5));
        [x, if teeth && k % 2 == 1 { 0.25 * y } else { y }]
    };
    ys.into_iter().enumerate().map(point).collect()
}

/// Every point seen from the middle of the root.
fn star(r: &mut Random, inner: usize, root: f64, top: f64) -> Vec<Point> {
    let step = 2.0 / (inner + 1) as f64;
    let point = |k: usize| {
        let along = -1.0 + step * (k as f64 + 1.0 + 0.8 * (r.unit() - 0.5));
        let reach = r.between(0.3, 1.0);
        let x = 0.5 * root + root * reach * along;
        [x, top * reach * (1.0 - along.abs())]
    };
    (0..inner).map(point).collect()
}

/// Up on the left, down on the right, and the root. Close heights reach far to both sides, so that a last bit of height moves a
/// chord's end by much; and one of them is often half of root chord plus span: the scaled height is then 1/2, below which the
/// f64s lie closer, so that a piece one last bit wide has samples below it and its middle is an end.
fn climb(r: &mut Random, inner: usize, root: f64, top: f64, style: Heights) -> (Vec<Point>, f64) {
    let mut ys = heights(r, inner, top, style);
    let span = ys.iter().fold(0.0f64, |m, y| m.max(*y));
    let halved = 2.0 * r.pick(&ys) - span;
    let close = matches!(style, Heights::Close | Heights::Merging);
    let root = if close && halved >= SHORTEST && r.once_in(2) {
        halved
    } else {
        root
    };
    let left = r.below(inner + 1);
    ys[..left].sort_by(f64::total_cmp);
    ys[left..].sort_by(|a, b| b.total_cmp(a));
    let aside = if close {
        ((root + top) * r.scaled(2, 26)).min(60.0)
    } else {
        0.5 * root
    };
    let point = |(k, y)| {
        let x = if k < left {
            r.between(-aside, 0.45 * root)
        } else {
            r.between(0.55 * root, root + aside)
        };
        [x, y]
    };
    let points = ys.into_iter().enumerate().map(point).collect();
    (points, root)
}

/// A hook that winds inward, stretched and leaned: heights cross it up to six times, in no order of the edges.
fn hook(r: &mut Random, root: f64, top: f64) -> Vec<Point> {
    let corners = [
        (0, 0),
        (0, 5),
        (5, 5),
        (5, 2),
        (3, 2),
        (3, 3),
        (4, 3),
        (4, 4),
        (1, 4),
        (1, 1),
        (6, 1),
        (6, 0),
    ];
    let lean = if r.once_in(2) { r.between(-0.6, 0.6) } else { 0.0 };
    let place = |&(x, y): &(i32, i32)| {
        let (x, y) = (f64::from(x) / 6.0, f64::from(y) / 5.0);
        [root * (x + lean * y), top * y]
    };
    corners.iter().map(place).collect()
}

/// Outlines that cross or touch themselves, or come within a last bit of it.
pub fn touching(r: &mut Random, wild: bool) -> Vec<Point> {
    let (root, top) = (length(r, wild), length(r, wild));
    let mut points: Vec<Point> = match r.below(11) {
        0 => vec![[0.0, 0.0], [2.0, 1.0], [0.0, 1.0], [2.0, 0.0]],
        // a point on the root
        1 => vec![[0.0, 0.0], [0.2, 1.0], [0.5, 0.0], [0.8, 1.0], [1.0, 0.0]],
        // a point drawn twice
        2 => vec![
            [0.0, 0.0],
            [0.0, 1.0],
            [0.5, 0.5],
            [1.0, 1.0],
            [1.0, 0.5],
            [0.5, 0.5],
            [1.0, 0.0],
        ],
        // there and back on one line
        3 => vec![[0.0, 0.0], [0.0, 1.0], [1.0, 1.0], [0.5, 1.0], [0.7, 1.0], [1.0, 0.0]],
        // a corner on, or a last bit off, an edge
        4 => {
            let f = r.unit();
            let corner = [f, 1.0 - f];
            vec![[0.0, 0.0], [0.0, 1.0], [1.0, 0.0], [1.0, 0.5], corner, [2.0, 0.0]]
        }
        5 => {
            let f = r.unit();
            vec![
                [0.0, 0.0],
                [0.1, 1.0],
                [0.3 + 0.2 * f, f],
                [0.3, 1.0],
                [0.9, 1.0],
                [0.3 + 0.2 * f, f],
                [1.0, 0.0],
            ]
        }
        // each of the four ends alone on the other edge
        6 => vec![[0.0, 0.0], [0.5, 1.0], [-1.0, 0.0], [1.0, 0.0]],
        7 => vec![[0.0, 0.0], [0.5, 0.5], [0.5, 1.0], [0.5, 0.2], [1.0, 0.0]],
        8 => vec![[0.0, 0.0], [1.0, 1.0], [0.5, 0.5], [1.0, 0.0]],
        9 => vec![[0.0, 0.0], [2.0, 0.0], [1.5, 1.0], [1.0, 0.0]],
        // points in any order
        _ => {
            let inner = 1 + r.below(8);
            let mut any = vec![[0.0, 0.0]];
            any.extend((0..inner).map(|_| [r.between(-1.0, 2.0), r.unit()]));
            any.push([1.0, 0.0]);
            any
        }
    };
    let last = points.len() - 1;
    for point in &mut points[1..last] {
        let [x, y] = *point;
        *point = [drawn(root * x), drawn(top * y)];
        if r.once_in(3) && x != 0.0 && y != 0.0 {
            *point = [drawn(r.near(point[0], 2)), drawn(r.near(point[1], 2))];
        }
    }
    points[last][0] *= root;
    points
}
