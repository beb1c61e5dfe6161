//! The figures of three plywood fins: `cargo run --example fin`.
use delvouzh::{mass_properties, principal_moments, scratch_len, Density, FinSet, Planform, Section};

fn main() -> Result<(), Box<dyn std::error::Error>> {
    let points_m = [[0.0, 0.0], [0.06, 0.11], [0.15, 0.11], [0.19, 0.0]];
    let set = FinSet {
        count: 3,
        planform: Planform::Outline { points_m: &points_m },
        thickness_m: 0.003,
        section: Section::Airfoil,
        tab: None,
        fillet: None,
        cant_rad: 0.0,
        base_angle_rad: 0.0,
        body_radius_m: 0.038,
        density: Density::Bulk { kg_m3: 680.0 },
    };
    let limit = 64;
    let mut scratch = vec![0.0; scratch_len(limit)];
    let figures = mass_properties(&set, limit, &mut scratch)?;
    let body = figures.body;
    println!("mass {:.6} kg, centre {:?} m", body.mass_kg, body.centre_m);
    println!("principal moments {:?} kg·m²", principal_moments(&body.inertia_kg_m2)?);
    println!("{} intervals, {} samples", figures.intervals, figures.samples);
    Ok(())
}
