//! The types of a fin set and of a ring of tubes, and how they cross to the library as numbers.

use crate::raw;

/// The outline of one fin.
#[derive(Debug, Clone, Copy, PartialEq)]
pub enum Planform<'a> {
    /// Straight leading and trailing edges; the sweep is how far the tip's leading edge lies aft of the root's.
    #[allow(missing_docs)]
    Trapezoid {
        root_chord_m: f64,
        tip_chord_m: f64,
        span_m: f64,
        sweep_m: f64,
    },
    /// Half an ellipse over the root chord.
    #[allow(missing_docs)]
    Ellipse { root_chord_m: f64, span_m: f64 },
    /// Points (x, height), from the root's leading edge (0, 0) around to its trailing edge (c, 0).
    #[allow(missing_docs)]
    Outline { points_m: &'a [[f64; 2]] },
}

/// The shape of a fin's section along its chord.
#[derive(Debug, Clone, Copy, PartialEq, Eq, Default)]
#[non_exhaustive]
pub enum Section {
    /// Cut square at both edges.
    #[default]
    Square,
    /// Half circles at both edges.
    Rounded,
    /// NACA's four-digit thickness with a closed tail, which ends in a point.
    Airfoil,
    /// NACA's four-digit thickness with the open tail.
    AirfoilOpen,
}

/// A rectangular tab below each root.
#[derive(Debug, Clone, Copy, PartialEq)]
pub struct Tab {
    /// How deep the tab reaches below the root.
    pub height_m: f64,
    /// Its length along the root.
    pub length_m: f64,
    /// How far aft of the root's leading edge it begins.
    pub offset_m: f64,
}

/// Glue along both sides of each root; a radius of 0 is none.
#[derive(Debug, Clone, Copy, PartialEq)]
pub struct Fillet {
    /// Radius of the concave face.
    pub radius_m: f64,
    /// The glue's own density.
    pub density: Density,
}

/// A density, with its units in the case. Only bulk is taken; the others are refused 12.
#[derive(Debug, Clone, Copy, PartialEq)]
#[allow(missing_docs)]
pub enum Density {
    /// Mass by volume.
    Bulk { kg_m3: f64 },
    /// Mass by area.
    Surface { kg_m2: f64 },
    /// Mass by length.
    Line { kg_m: f64 },
}

/// Identical fins spaced evenly around a body.
#[derive(Debug, Clone, Copy, PartialEq)]
pub struct FinSet<'a> {
    /// How many fins there are, 1 to 32.
    pub count: usize,
    /// The outline of each fin.
    pub planform: Planform<'a>,
    /// The thickness of the plate, at most the root chord.
    pub thickness_m: f64,
    /// The shape of its section.
    pub section: Section,
    /// A tab below each root, or none.
    pub tab: Option<Tab>,
    /// Glue along each root, or none.
    pub fillet: Option<Fillet>,
    /// The turn of each fin about its span through the middle of its root.
    pub cant_rad: f64,
    /// The angle of the first fin about the body's axis, from x toward y.
    pub base_angle_rad: f64,
    /// The radius of the body that the roots sit on.
    pub body_radius_m: f64,
    /// The plates' density.
    pub density: Density,
}

/// Tube fins: open tubes parallel to a body, touching it, spaced evenly around it.
#[derive(Debug, Clone, Copy, PartialEq)]
pub struct TubeFinSet {
    /// How many tubes there are, 1 to 32.
    pub count: usize,
    /// The length of a tube.
    pub length_m: f64,
    /// The outer radius of a tube.
    pub outer_radius_m: f64,
    /// The wall; it may be 0.
    pub thickness_m: f64,
    /// The angle of the first tube about the body's axis, from x toward y.
    pub base_angle_rad: f64,
    /// The tubes' density.
    pub density: Density,
}

/// A set as the library takes it: its lengths and figures, how many fins and the number of each choice, and an outline's points.
pub(crate) struct SetNumbers<'a> {
    pub(crate) numbers: [f64; raw::SET_NUMBERS],
    pub(crate) counts: [usize; raw::SET_COUNTS],
    pub(crate) points: &'a [f64],
}

impl FinSet<'_> {
    pub(crate) fn numbers(&self) -> SetNumbers<'_> {
        let planform = self.planform.numbers();
        let [root, second, third, fourth] = planform.lengths;
        let (density, value) = self.density.number();
        let (tab, [height, length, offset]) = self.tab.map_or((raw::NO_TAB, [0.0; 3]), |tab| {
            (raw::TAB, [tab.height_m, tab.length_m, tab.offset_m])
        });
        let (fillet, [radius, glue]) = self.fillet.map_or((raw::NO_FILLET, [0.0; 2]), |fillet| {
            let (number, value) = fillet.density.number();
            (number, [fillet.radius_m, value])
        });
        SetNumbers {
            numbers: [
                root,
                second,
                third,
                fourth,
                self.thickness_m,
                self.cant_rad,
                self.base_angle_rad,
                self.body_radius_m,
                value,
                height,
                length,
                offset,
                radius,
                glue,
            ],
            counts: [self.count, planform.number, self.section.number(), tab, density, fillet],
            points: planform.points,
        }
    }
}

/// A planform's number, its lengths with zeros after them, and an outline's points as they lie.
pub(crate) struct PlanformNumbers<'a> {
    pub(crate) number: usize,
    pub(crate) lengths: [f64; raw::LENGTHS],
    pub(crate) points: &'a [f64],
}

impl Planform<'_> {
    pub(crate) fn numbers(&self) -> PlanformNumbers<'_> {
        let none: &[f64] = &[];
        let (number, lengths, points) = match *self {
            Self::Trapezoid {
                root_chord_m,
                tip_chord_m,
                span_m,
                sweep_m,
            } => (raw::TRAPEZOID, [root_chord_m, tip_chord_m, span_m, sweep_m], none),
            Self::Ellipse { root_chord_m, span_m } => (raw::ELLIPSE, [root_chord_m, span_m, 0.0, 0.0], none),
            Self::Outline { points_m } => (raw::OUTLINE, [0.0; raw::LENGTHS], points_m.as_flattened()),
        };
        PlanformNumbers {
            number,
            lengths,
            points,
        }
    }

    /// The length of the root: of an outline its last point's x, 0 where it has none.
    pub fn root_chord_m(&self) -> f64 {
        match *self {
            Self::Trapezoid { root_chord_m, .. } | Self::Ellipse { root_chord_m, .. } => root_chord_m,
            Self::Outline { points_m } => points_m.last().map_or(0.0, |point| point[0]),
        }
    }

    /// How far the fin reaches from the root: of an outline its largest height, 0 where it has no point.
    pub fn span_m(&self) -> f64 {
        match *self {
            Self::Trapezoid { span_m, .. } | Self::Ellipse { span_m, .. } => span_m,
            Self::Outline { points_m } => points_m.iter().fold(0.0, |most, point| point[1].max(most)),
        }
    }
}

impl Section {
    pub(crate) fn number(self) -> usize {
        match self {
            Self::Square => raw::SQUARE,
            Self::Rounded => raw::ROUNDED,
            Self::Airfoil => raw::AIRFOIL,
            Self::AirfoilOpen => raw::AIRFOIL_OPEN,
        }
    }
}

impl Density {
    /// The density's number, and its figure.
    pub(crate) fn number(self) -> (usize, f64) {
        match self {
            Self::Bulk { kg_m3 } => (raw::BULK, kg_m3),
            Self::Surface { kg_m2 } => (raw::SURFACE, kg_m2),
            Self::Line { kg_m } => (raw::LINE, kg_m),
        }
    }
}
