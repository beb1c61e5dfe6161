//! The names of hpr-sim give what the crate's own calls give.
mod random;

use delvouzh::hpr_sim::{FinPlanform, FinSet};
use delvouzh::{geometry, mass_properties, scratch_len, Job, Planform};
use random::Random;

fn owned(planform: Planform) -> FinPlanform {
    match planform {
        Planform::Trapezoid {
            root_chord_m,
            tip_chord_m,
            span_m,
            sweep_m,
        } => FinPlanform::Trapezoid {
            root_chord_m,
            tip_chord_m,
            span_m,
            sweep_m,
        },
        Planform::Ellipse { root_chord_m, span_m } => FinPlanform::Ellipse { root_chord_m, span_m },
        Planform::Outline { points_m } => FinPlanform::Outline {
            points_m: points_m.to_vec(),
        },
    }
}

#[test]
fn sets_and_planforms_answer_alike() {
    let mut random = Random(20261117);
    let mut scratch = vec![0.0; scratch_len(64)];
    for _ in 0..500 {
        let points = random.outline();
        let set = random.set(&points);
        let there = FinSet {
            count: set.count,
            planform: owned(set.planform),
            thickness_m: set.thickness_m,
            section: set.section,
            tab: set.tab,
            fillet: set.fillet,
            cant_rad: set.cant_rad,
            base_angle_rad: set.base_angle_rad,
            density: set.density,
        };
        assert_eq!(
            there.mass_properties(set.body_radius_m),
            mass_properties(&set, 64, &mut scratch)
        );
        assert_eq!(there.validate(set.body_radius_m), Job::new(&set, 64).map(drop));
        assert_eq!(there.planform.geometry(), geometry(&set.planform, 64, &mut scratch));
    }
}

#[test]
fn an_outline_has_its_root_and_span() {
    let points_m = vec![[0.0, 0.0], [0.06, 0.11], [0.15, 0.09], [0.19, 0.0]];
    let outline = FinPlanform::Outline { points_m };
    assert_eq!((outline.root_chord_m(), outline.span_m()), (0.19, 0.11));
    let none = Planform::Outline { points_m: &[] };
    assert_eq!((none.root_chord_m(), none.span_m()), (0.0, 0.0));
}
