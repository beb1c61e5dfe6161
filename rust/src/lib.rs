#![doc = include_str!("../README.md")]
#![warn(missing_docs)]

mod bodies;
mod calls;
mod engines;
mod fins;
pub mod hpr_sim;
mod jobs;
mod raw;
mod refusals;

pub use bodies::{check, combine, copied, placed, principal_moments, with_part_moved, without_part, Body, Placement};
pub use calls::{
    answer_line, chords_at, closing_radius_m, drill, geometry, mass_properties, most_samples, scratch_len, sqrt,
    tube_mass_properties, Area, Figures, Place,
};
pub use engines::{Engine, Turn};
pub use fins::{Density, Fillet, FinSet, Planform, Section, Tab, TubeFinSet};
pub use jobs::{Job, Progress, Step};
pub use refusals::{field_name, Error, Refusal, RunError, TensorFault};
