//! For programs that come from hpr-sim: its names, over the proved calls.
//!
//! hpr-sim hands the body's radius beside the set, keeps an outline's points with the planform, and takes no limit and no scratch. So do
//! the types here; each call lends 1,024 numbers of its own, which are enough for the largest limit, 64.
//!
//! | hpr-sim | here | what differs |
//! |---|---|---|
//! | `FinPlanform` | [`FinPlanform`] | `Freeform` is `Outline`; 3 to 64 points |
//! | `FinPlanform::geometry`, `root_chord_m`, `span_m` | the same | the answer carries intervals and samples |
//! | `FinSet::mass_properties(body_radius_m)` | [`FinSet::mass_properties`] | limits on every length (refused 4); six numbers for a tensor |
//! | `FinSet::validate` | [`FinSet::validate`] | takes the body's radius, as its limits and the tab's are checked too |
//! | `FinSet::single_fin` | not offered | a set of one fin at base angle 0 is that fin, turned by 0 and joined with nothing, which may move last bits |
//! | `Section::Airfoil` | [`crate::Section::AirfoilOpen`] | `Airfoil` is the closed tail here, and all constants are the nearest f64s |
//! | `MassProperties` | [`crate::Body`] | `cg_m` is `centre_m` |
//! | `MassProperties::combine`, `copied`, `placed`, `with_part_moved`, `without_part`, `principal_moments_kg_m2`, `validate` | [`crate::combine`], [`crate::copied`], [`crate::placed`], [`crate::with_part_moved`], [`crate::without_part`], [`crate::principal_moments`], [`crate::check`] | lists of 1 to 32 |
//! | `TubeFinSet::mass_properties`, `closing_radius_m` | [`crate::tube_mass_properties`], [`crate::closing_radius_m`] | a count of 0 is refused 3 |

use crate::{Area, Density, Fillet, Job, RunError, Section, Tab};

/// The largest limit, and the scratch that it asks for.
const LIMIT: usize = 64;
const SCRATCH: usize = crate::scratch_len(LIMIT);

/// The outline of one fin, which keeps its own points.
#[derive(Debug, Clone, PartialEq)]
#[allow(missing_docs)]
pub enum FinPlanform {
    /// As [`crate::Planform::Trapezoid`].
    Trapezoid {
        root_chord_m: f64,
        tip_chord_m: f64,
        span_m: f64,
        sweep_m: f64,
    },
    /// As [`crate::Planform::Ellipse`].
    Ellipse { root_chord_m: f64, span_m: f64 },
    /// As [`crate::Planform::Outline`].
    Outline { points_m: Vec<[f64; 2]> },
}

impl FinPlanform {
    /// The same planform, with its points borrowed.
    pub fn borrowed(&self) -> crate::Planform<'_> {
        match *self {
            Self::Trapezoid {
                root_chord_m,
                tip_chord_m,
                span_m,
                sweep_m,
            } => crate::Planform::Trapezoid {
                root_chord_m,
                tip_chord_m,
                span_m,
                sweep_m,
            },
            Self::Ellipse { root_chord_m, span_m } => crate::Planform::Ellipse { root_chord_m, span_m },
            Self::Outline { ref points_m } => crate::Planform::Outline { points_m },
        }
    }

    /// The length of the root.
    pub fn root_chord_m(&self) -> f64 {
        self.borrowed().root_chord_m()
    }

    /// How far the fin reaches from the root.
    pub fn span_m(&self) -> f64 {
        self.borrowed().span_m()
    }

    /// The area and its centroid.
    pub fn geometry(&self) -> Result<Area, RunError> {
        crate::geometry(&self.borrowed(), LIMIT, &mut [0.0; SCRATCH])
    }
}

/// Identical fins spaced evenly around a body, whose radius each call is handed.
#[derive(Debug, Clone, PartialEq)]
pub struct FinSet {
    /// How many fins there are, 1 to 32.
    pub count: usize,
    /// The outline of each fin.
    pub planform: FinPlanform,
    /// The thickness of the plate.
    pub thickness_m: f64,
    /// The shape of its section.
    pub section: Section,
    /// A tab below each root, or none.
    pub tab: Option<Tab>,
    /// Glue along each root, or none.
    pub fillet: Option<Fillet>,
    /// The turn of each fin about its span.
    pub cant_rad: f64,
    /// The angle of the first fin about the body's axis.
    pub base_angle_rad: f64,
    /// The plates' density.
    pub density: Density,
}

impl FinSet {
    /// The set as the crate's other calls take it, on a body of this radius.
    pub fn on_body(&self, body_radius_m: f64) -> crate::FinSet<'_> {
        crate::FinSet {
            count: self.count,
            planform: self.planform.borrowed(),
            thickness_m: self.thickness_m,
            section: self.section,
            tab: self.tab,
            fillet: self.fillet,
            cant_rad: self.cant_rad,
            base_angle_rad: self.base_angle_rad,
            body_radius_m,
            density: self.density,
        }
    }

    /// Runs every check of the set on a body of this radius.
    pub fn validate(&self, body_radius_m: f64) -> Result<(), crate::Error> {
        Job::new(&self.on_body(body_radius_m), LIMIT).map(drop)
    }

    /// Mass, balance point and inertia of the whole set on a body of this radius.
    ///
    /// ```
    /// use delvouzh::hpr_sim::{FinPlanform, FinSet};
    /// use delvouzh::{Density, Section};
    /// let set = FinSet {
    ///     count: 3,
    ///     planform: FinPlanform::Outline { points_m: vec![[0.0, 0.0], [0.05, 0.1], [0.15, 0.1], [0.2, 0.0]] },
    ///     thickness_m: 0.003,
    ///     section: Section::Square,
    ///     tab: None,
    ///     fillet: None,
    ///     cant_rad: 0.0,
    ///     base_angle_rad: 0.0,
    ///     density: Density::Bulk { kg_m3: 680.0 },
    /// };
    /// let figures = set.mass_properties(0.05)?;
    /// assert!((figures.body.mass_kg - 3.0 * 680.0 * 0.003 * 0.015).abs() < 1e-15);
    /// # Ok::<(), delvouzh::Error>(())
    /// ```
    pub fn mass_properties(&self, body_radius_m: f64) -> Result<crate::Figures, RunError> {
        crate::mass_properties(&self.on_body(body_radius_m), LIMIT, &mut [0.0; SCRATCH])
    }
}
