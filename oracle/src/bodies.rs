//! Bodies for joins, moments and checks.

use hpr_core::DVec3;
use hpr_design::mass::MassProperties;

use crate::random::{Random, moved, power_of_two};

/// Any f64 that a join may get: mostly of a fin's size, now and then a zero, subnormal, huge or not finite.
pub fn figure(r: &mut Random) -> f64 {
    let x = match r.below(24) {
        0 => 0.0,
        1 => f64::from_bits(r.next() >> 13),
        2 => r.scaled(-1022, 1023),
        3 => r.not_finite(),
        4 => f64::MAX,
        5 => r.bits(),
        6..=11 => r.range(0, 9) as f64,
        _ => r.scaled(-12, 4),
    };
    r.sign(x)
}

/// Points for a join: mass, x, y, z.
pub fn points(r: &mut Random) -> Vec<[f64; 4]> {
    let count = r.pick(&[0, 1, 1, 2, 2, 3, 4, 5, 8, 31, 32, 33, 34, 50]);
    let style = r.below(6);
    let point = |_| {
        let mass = match style {
            0 => 0.0,
            1 => figure(r),
            2 => r.range(-3, 3) as f64,
            3 => r.pick(&[0.0, -0.0, 1.0]),
            _ => r.scaled(-10, 4),
        };
        let mut place = || if style == 5 { r.scaled(-4, 4) } else { figure(r) };
        [mass, place(), place(), place()]
    };
    let mut list: Vec<[f64; 4]> = (0..count).map(point).collect();
    // masses that add up to 0 exactly
    if style == 4 && list.len() >= 2 && r.once_in(3) {
        list[1][0] = -list[0][0];
        list.truncate(2);
    }
    list
}

fn symmetric(d: [f64; 3], xy: f64, xz: f64, yz: f64) -> [f64; 6] {
    [d[0], d[1], d[2], xy, xz, yz]
}

/// The tensor of a few points: what a body can have.
pub fn real_tensor(r: &mut Random) -> [f64; 6] {
    let count = 1 + r.below(5);
    let parts: Vec<MassProperties> = (0..count)
        .map(|_| {
            let mut place = || r.between(-2.0, 2.0);
            let place = DVec3::new(place(), place(), place());
            MassProperties::point(r.scaled(-8, 3), place)
        })
        .collect();
    MassProperties::combine(&parts).inertia_kg_m2.six()
}

/// Tensors of every sort that the principal moments and the body check tell apart.
pub fn tensor(r: &mut Random) -> [f64; 6] {
    match r.below(16) {
        0 => {
            let d = [r.scaled(-8, 2), r.scaled(-8, 2), r.scaled(-8, 2)];
            symmetric(d, 0.0, 0.0, 0.0)
        }
        1 => {
            let v = r.scaled(-8, 2);
            let d = [v, v, r.pick(&[v, 0.0, 2.0 * v])];
            let off = r.pick(&[0.0, v, -v, 0.25 * v, moved(v, 1)]);
            symmetric(d, off, r.pick(&[0.0, off]), r.pick(&[0.0, off]))
        }
        2 => std::array::from_fn(|_| r.pick(&[0.0, -0.0, 0.0, 1.0, -1.0, 2.0, 3.0])),
        3 => {
            let v = r.scaled(-8, 2);
            let d = [r.near(v, 3), r.near(v, 3), r.near(v, 3)];
            let mut tiny = || {
                let k = r.range(-80, -40);
                let x = v * power_of_two(k);
                r.sign(x)
            };
            symmetric(d, tiny(), tiny(), tiny())
        }
        4 => {
            let top = power_of_two(500);
            let v = [top, -top, moved(top, -1), moved(top, 1), 0.5 * top, 0.0, 1.0];
            let mut entry = || r.pick(&v);
            symmetric([entry(), entry(), entry()], entry(), entry(), entry())
        }
        5 => {
            let mut entry = || {
                let x = f64::from_bits(r.next() >> (13 + r.below(50)));
                r.sign(x)
            };
            symmetric([entry(), entry(), entry()], entry(), entry(), entry())
        }
        6 => std::array::from_fn(|_| r.bits()),
        7 => {
            let mut t = symmetric_random(r, -8, 2);
            let largest = t.iter().fold(0.0f64, |m, v| m.max(v.abs()));
            // a mixed number of the tolerance's size
            t[3 + r.below(3)] = r.near(1e-9 * largest, 2);
            t
        }
        8 => {
            let mut t = symmetric_random(r, -8, 2);
            t[r.below(6)] = r.not_finite();
            t
        }
        9 => symmetric_random(r, -300, 300),
        10 => symmetric_random(r, -1022, 499),
        11 => {
            let v = r.scaled(-8, 2);
            // one direction: rank one, with a moment of 0 twice
            let d: [f64; 3] = std::array::from_fn(|_| r.range(-3, 3) as f64 * v);
            let v2 = |i: usize, j: usize| d[i] * d[j];
            symmetric([v2(0, 0), v2(1, 1), v2(2, 2)], v2(0, 1), v2(0, 2), v2(1, 2))
        }
        12 => symmetric_random(r, -8, 2),
        _ => real_tensor(r),
    }
}

fn symmetric_random(r: &mut Random, low: i64, high: i64) -> [f64; 6] {
    let mut entry = || {
        let x = r.scaled(low, high);
        r.sign(x)
    };
    symmetric([entry(), entry(), entry()], entry(), entry(), entry())
}

/// A body for the check: mass, centre, tensor.
pub fn body(r: &mut Random) -> (f64, [f64; 3], [f64; 6]) {
    let mass = match r.below(12) {
        0 => r.pick(&[0.0, -0.0]),
        1 => r.not_finite(),
        2 => r.pick(&[-1.0, -f64::from_bits(1), f64::from_bits(1), f64::MAX]),
        _ => r.scaled(-8, 4),
    };
    let mut centre: [f64; 3] = std::array::from_fn(|_| r.between(-2.0, 2.0));
    if r.once_in(12) {
        centre[r.below(3)] = r.pick(&[f64::NAN, f64::INFINITY, f64::NEG_INFINITY, f64::MAX]);
    }
    let tensor = match r.below(8) {
        0 => [0.0; 6],
        1 | 2 => edge_of_triangle(r),
        3 => edge_of_negative(r),
        4 | 5 => real_tensor(r),
        _ => tensor(r),
    };
    (mass, centre, tensor)
}

/// I1 + I2 a few last bits about I3 − 1e-9·I3.
fn edge_of_triangle(r: &mut Random) -> [f64; 6] {
    let (a, b) = (r.scaled(-3, 1), r.scaled(-3, 1));
    let c = r.pick(&[a + b, (a + b) / (1.0 - 1e-9), 1.5 * (a + b)]);
    let mut d = [a, b, r.near(c, 4)];
    d.rotate_left(r.below(3));
    let off = r.pick(&[0.0, 0.0, 1e-12, 1e-6]);
    symmetric(d, off, 0.0, 0.0)
}

/// The lowest moment a few last bits about −1e-9 of the largest entry.
fn edge_of_negative(r: &mut Random) -> [f64; 6] {
    let v = r.scaled(-3, 1);
    let low = r.pick(&[1e-9 * v, 0.5e-9 * v, 0.1 * v, f64::from_bits(1)]);
    let mut d = [r.near(-low, 2), v, v];
    d.rotate_left(r.below(3));
    symmetric(d, 0.0, 0.0, 0.0)
}
