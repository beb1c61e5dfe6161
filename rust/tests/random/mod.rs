//! Sets made up by numbers that look random.
#![allow(dead_code)] // each test uses a part of it
use delvouzh::{Density, Fillet, FinSet, Planform, Section, Tab};

/// Numbers that look random (xorshift).
pub struct Random(pub u64);

impl Random {
    pub fn below(&mut self, n: u64) -> u64 {
        self.0 ^= self.0 << 13;
        self.0 ^= self.0 >> 7;
        self.0 ^= self.0 << 17;
        (self.0 >> 11) % n
    }

    pub fn between(&mut self, lower: f64, upper: f64) -> f64 {
        lower + (upper - lower) * self.below(1 << 20) as f64 / (1 << 20) as f64
    }

    /// From the root's leading edge back to its trailing edge.
    pub fn outline(&mut self) -> Vec<[f64; 2]> {
        let inner = 1 + self.below(14);
        let point = |i: u64, height| [0.02 * i as f64, height];
        let mut points = vec![[0.0, 0.0]];
        points.extend((1..=inner).map(|i| point(i, 0.02 * (1 + self.below(16)) as f64)));
        points.push(point(inner + 1, 0.0));
        points
    }

    pub fn planform<'a>(&mut self, points_m: &'a [[f64; 2]]) -> Planform<'a> {
        match self.below(4) {
            0 => Planform::Trapezoid {
                root_chord_m: self.between(0.1, 1.0),
                tip_chord_m: self.between(0.0, 1.0),
                span_m: self.between(0.05, 1.0),
                sweep_m: self.between(-0.5, 0.5),
            },
            1 => Planform::Ellipse {
                root_chord_m: self.between(0.1, 1.0),
                span_m: self.between(0.05, 1.0),
            },
            _ => Planform::Outline { points_m },
        }
    }

    pub fn density(&mut self) -> Density {
        match self.below(8) {
            0 => Density::Surface { kg_m2: 1.0 },
            1 => Density::Bulk { kg_m3: 40000.0 },
            2 => Density::Line { kg_m: 0.0 },
            _ => Density::Bulk {
                kg_m3: self.between(50.0, 900.0),
            },
        }
    }

    pub fn set<'a>(&mut self, points_m: &'a [[f64; 2]]) -> FinSet<'a> {
        let section = [
            Section::Square,
            Section::Rounded,
            Section::Airfoil,
            Section::AirfoilOpen,
        ][self.below(4) as usize];
        FinSet {
            count: 1 + self.below(8) as usize,
            planform: self.planform(points_m),
            thickness_m: self.between(0.001, 0.01),
            section,
            tab: (self.below(2) == 0).then(|| Tab {
                height_m: 0.01,
                length_m: 0.03,
                offset_m: 0.005,
            }),
            fillet: (self.below(2) == 0).then(|| Fillet {
                radius_m: 0.01,
                density: Density::Bulk { kg_m3: 1200.0 },
            }),
            cant_rad: [0.0, 0.05][self.below(2) as usize],
            base_angle_rad: self.between(0.0, 1.0),
            body_radius_m: 0.05,
            density: Density::Bulk { kg_m3: 680.0 },
        }
    }
}
