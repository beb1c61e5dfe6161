//! hpr-design as far as fins, tube fins, bodies and densities reach: the original files, and `reach` beside fins.rs.

pub mod error;
pub mod fins;
pub mod mass;
pub mod material;
pub mod parts;
pub mod shapes;

/// What thiserror's `#[from]` writes.
impl From<hpr_core::CoreError> for error::DesignError {
    fn from(e: hpr_core::CoreError) -> Self {
        Self::Numerics(e)
    }
}
