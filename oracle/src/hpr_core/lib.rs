//! hpr-core as far as the fin modules use it: the original error.rs and quadrature.rs, and ours beside them.

pub mod error;
pub mod quadrature;
pub mod record;
pub mod stand_ins;

pub use error::CoreError;
pub use stand_ins::{DMat3, DQuat, DVec3};

impl quadrature::Tolerance {
    /// The same tolerance with L intervals at most, in place of PLATE's 4000.
    pub fn limited(self) -> Self {
        Self {
            max_intervals: record::limit(),
            ..self
        }
    }
}
