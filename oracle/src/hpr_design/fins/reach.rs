//! A module inside fins.rs that hands out what is private there.

use super::{FinCrossSection, FinPlanform, FinSet};

pub fn chord_moments(section: FinCrossSection, a: f64, b: f64, t: f64) -> [f64; 4] {
    super::chord_moments(section, a, b, t)
}

/// PHI and PSI of an airfoil, its tail closed or open (document 02, Paper 7): each the f64 nearest to its fraction, since both sides of the
/// fraction are whole numbers below 2^53.
pub fn airfoil_constants(section: FinCrossSection) -> [f64; 4] {
    match section {
        FinCrossSection::AirfoilOpen => {
            [8221.0 / 12000.0, 8641.0 / 30000.0, 33373.0 / 210000.0, 611584192871283.0 / 1293292000000000.0]
        }
        _ => [40853.0 / 60000.0, 1067.0 / 3750.0, 32743.0 / 210000.0, 152164422844893.0 / 323323000000000.0],
    }
}

pub fn breakpoints(planform: &FinPlanform) -> Vec<f64> {
    planform.breakpoints()
}

pub fn segments_touch(p: [f64; 2], q: [f64; 2], r: [f64; 2], s: [f64; 2]) -> bool {
    super::segments_touch(p, q, r, s)
}

pub fn fillet_section(body_radius_m: f64, radius_m: f64) -> [f64; 4] {
    super::fillet_section(body_radius_m, radius_m)
}

pub fn tab_integrals(set: &FinSet, body_radius_m: f64) -> [f64; 7] {
    set.tab_integrals(body_radius_m)
}
