//! hpr-motor's mass element, which mass.rs names and no fin uses.

pub struct MassElement {
    pub mass_kg: f64,
    pub cg_m: f64,
    pub axial_inertia_kg_m2: f64,
    pub transverse_inertia_kg_m2: f64,
}
