//! The fin sets of the comparison, each as the Rust takes it and as the library does.

use hpr_design::fins::{FinCrossSection, FinPlanform, FinSet, FinTab};
use hpr_design::material::Material;

/// Marsaglia's xorshift, from a fixed seed: every run has the same sets.
pub struct Random(u64);

impl Random {
    pub fn new() -> Self {
        Self(0x2545_f491_4f6c_dd1d)
    }

    fn bits(&mut self) -> u64 {
        self.0 ^= self.0 << 13;
        self.0 ^= self.0 >> 7;
        self.0 ^= self.0 << 17;
        self.0
    }

    fn below(&mut self, n: u64) -> u64 {
        (self.bits() >> 11) % n
    }

    /// Between two numbers.
    fn between(&mut self, low: f64, high: f64) -> f64 {
        low + (high - low) * (self.below(1 << 53) as f64 / (1u64 << 53) as f64)
    }
}

pub struct Set {
    pub rust: FinSet,
    /// As include/delvouzh.h has them.
    pub numbers: [f64; 14],
    pub counts: [usize; 6],
    pub points: Vec<f64>,
}

impl Set {
    pub fn body_radius_m(&self) -> f64 {
        self.numbers[7]
    }
}

/// A set on a planform: three to six fins, every other one with a tab, canted a little.
/// `lengths` are an outline's points.
fn on(r: &mut Random, section: usize, number: usize, lengths: Vec<f64>, planform: FinPlanform) -> Set {
    let root = planform.root_chord_m();
    let radius = r.between(0.02, 0.08);
    let density = r.between(100.0, 2700.0);
    let mut figures = vec![
        r.between(0.002, 0.006).min(root),
        r.between(-0.05, 0.05),
        r.between(-3.0, 3.0),
        radius,
        density,
    ];
    let tab = r.below(2) == 1;
    if tab {
        figures.extend([0.5 * radius, 0.5 * root, 0.25 * root]);
    }
    let cross_section = [
        FinCrossSection::Square,
        FinCrossSection::Rounded,
        FinCrossSection::Airfoil,
        FinCrossSection::AirfoilOpen,
    ];
    let rust = FinSet {
        count: 3 + r.below(4) as u32,
        planform,
        thickness_m: figures[0],
        cross_section: cross_section[section],
        tab: tab.then(|| FinTab {
            height_m: figures[5],
            length_m: figures[6],
            offset_m: figures[7],
        }),
        fillet: None,
        cant_rad: figures[1],
        base_angle_rad: figures[2],
        material: Material::bulk("", density),
    };
    let counts = [rust.count as usize, number, section + 1, usize::from(tab), 1, 0];
    let mut numbers = [0.0; 14];
    if number != 3 {
        numbers[..lengths.len()].copy_from_slice(&lengths);
    }
    numbers[4..4 + figures.len()].copy_from_slice(&figures);
    Set {
        rust,
        numbers,
        counts,
        points: lengths,
    }
}

fn on_trapezoid(r: &mut Random, section: usize, lengths: [f64; 4]) -> Set {
    let [root_chord_m, tip_chord_m, span_m, sweep_m] = lengths;
    let planform = FinPlanform::Trapezoidal {
        root_chord_m,
        tip_chord_m,
        span_m,
        sweep_m,
    };
    on(r, section, 1, lengths.to_vec(), planform)
}

pub fn trapezoid(r: &mut Random, section: usize) -> Set {
    let root = r.between(0.1, 0.4);
    let tip = root * r.between(0.2, 1.0);
    let lengths = [root, tip, r.between(0.05, 0.3), r.between(0.0, 0.2)];
    on_trapezoid(r, section, lengths)
}

/// A trapezoid's set of so many fins.
pub fn fins(r: &mut Random, count: u32) -> Set {
    let mut set = trapezoid(r, 0);
    set.rust.count = count;
    set.counts[0] = count as usize;
    set
}

pub fn ellipse(r: &mut Random, section: usize) -> Set {
    let lengths = [r.between(0.1, 0.4), r.between(0.05, 0.3)];
    let [root_chord_m, span_m] = lengths;
    let planform = FinPlanform::Elliptical { root_chord_m, span_m };
    on(r, section, 2, lengths.to_vec(), planform)
}

fn on_outline(r: &mut Random, section: usize, points_m: Vec<[f64; 2]>) -> Set {
    let lengths = points_m.concat();
    on(r, section, 3, lengths, FinPlanform::Freeform { points_m })
}

/// A rounded outline: half an ellipse's points, each moved a little. A height crosses it twice.
pub fn outline(r: &mut Random, section: usize, points: usize) -> Set {
    let (root, span) = (r.between(0.1, 0.4), r.between(0.05, 0.3));
    let mut made = vec![[0.0, 0.0]];
    for k in 1..points - 1 {
        let angle = std::f64::consts::PI * (k as f64 + r.between(-0.2, 0.2)) / (points - 1) as f64;
        made.push([0.5 * root * (1.0 - angle.cos()), span * angle.sin()]);
    }
    made.push([root, 0.0]);
    on_outline(r, section, made)
}

/// An outline that goes up and down: most heights cross it many times.
pub fn teeth(r: &mut Random, section: usize, points: usize) -> Set {
    let (root, span) = (r.between(0.1, 0.4), r.between(0.05, 0.3));
    let mut made = vec![[0.0, 0.0]];
    for k in 1..points - 1 {
        let x = root * (k as f64 + r.between(-0.3, 0.3)) / (points - 1) as f64;
        let share = if k % 2 == 0 { 0.25 } else { 1.0 };
        made.push([x, span * share * r.between(0.5, 1.0)]);
    }
    made.push([root, 0.0]);
    on_outline(r, section, made)
}

/// A legal set that no number of pieces brings within the bound: a narrow fin whose tip lies far aft, so that differences of cubes
/// lose their digits. It ends in 13 at L pieces.
pub fn never_converging() -> Set {
    let mut r = Random::new();
    on_trapezoid(&mut r, 0, [1.0 / 65536.0, 1.0 / 131072.0, 1.0 / 1024.0, 16.3])
}
