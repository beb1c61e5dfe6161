//! Document 01's limits, refusal numbers and their order, before the first strip, with document 02's. They refuse more than the Rust.

use hpr_design::fins::reach;

use crate::forms::{Body, Density, Planform, Set, Tubes};

#[derive(Debug, Clone, Copy, PartialEq)]
pub enum Refusal {
    // copied by tests/copies: the refusals
    Limit,
    Scratch,
    Count,
    Length { field: u8 },
    Points,
    Ends,
    Touches { edges: [usize; 2] },
    NoArea,
    Angle { field: u8 },
    TabOffRoot,
    TabTooDeep,
    Density,
    NotConverged { component: usize },
    Mass,
    Centre,
    Tensor { case: char },
    NoForm,
    NoFigure,
    WallOverRadius,
    ThicknessOverRoot,
    FilletRatio,
    Screen,
    NoCorners,
    NotWholeSteps,
    NotHeavier,
    // end of the copy
}

impl Refusal {
    pub fn number(self) -> u8 {
        match self {
            // copied by tests/copies: the refusals' numbers
            Self::Limit => 1,
            Self::Scratch => 2,
            Self::Count => 3,
            Self::Length { .. } => 4,
            Self::Points => 5,
            Self::Ends => 6,
            Self::Touches { .. } => 7,
            Self::NoArea => 8,
            Self::Angle { .. } => 9,
            Self::TabOffRoot => 10,
            Self::TabTooDeep => 11,
            Self::Density => 12,
            Self::NotConverged { .. } => 13,
            Self::Mass => 15,
            Self::Centre => 16,
            Self::Tensor { .. } => 17,
            Self::NoForm => 18,
            Self::NoFigure => 19,
            Self::WallOverRadius => 20,
            Self::ThicknessOverRoot => 21,
            Self::FilletRatio => 22,
            Self::Screen => 23,
            Self::NoCorners => 24,
            Self::NotWholeSteps => 25,
            Self::NotHeavier => 26,
            // end of the copy
        }
    }

    /// What the number carries, as two numbers: 0 where it carries none.
    pub fn numbers(self) -> [usize; 2] {
        match self {
            Self::Length { field } | Self::Angle { field } => [field.into(), 0],
            Self::Touches { edges } => edges,
            Self::NotConverged { component } => [component, 0],
            Self::Tensor { case } => [case as usize - 'a' as usize, 0],
            _ => [0, 0],
        }
    }

    /// What the number carries, as a part of `oracle detail`.
    pub fn values(self) -> String {
        match self {
            Self::Length { field } | Self::Angle { field } => format!(" (field {field})"),
            Self::Touches { edges: [i, j] } => format!(" (edges {i} {j})"),
            Self::NotConverged { component } => format!(" (component {component})"),
            Self::Tensor { case } => format!(" (case {case})"),
            _ => String::new(),
        }
    }
}

type Checked = Result<(), Refusal>;

// copied by tests/copies: the fields
const ROOT_CHORD: u8 = 1;
const TIP_CHORD: u8 = 2;
const SPAN: u8 = 3;
const SWEEP: u8 = 4;
const X: u8 = 5;
const Y: u8 = 6;
const THICKNESS: u8 = 7;
const TAB_HEIGHT: u8 = 8;
const TAB_LENGTH: u8 = 9;
const TAB_OFFSET: u8 = 10;
const BODY_RADIUS: u8 = 11;
const CANT: u8 = 12;
const BASE_ANGLE: u8 = 13;
const TUBE_LENGTH: u8 = 14;
const OUTER_RADIUS: u8 = 15;
const FILLET_RADIUS: u8 = 16;
const DRILL_X: u8 = 17;
const DRILL_HEIGHT: u8 = 18;
const OFFSET: u8 = 19;
const ROLL: u8 = 20;
// end of the copy

const SHORTEST: f64 = 1.0 / 1048576.0;
const LONGEST: f64 = 64.0;
const WIDEST_ANGLE: f64 = 4.0;
const LIGHTEST: f64 = 1.0 / 1024.0;
const HEAVIEST: f64 = 32768.0;
const LARGEST_LIMIT: u64 = 64;
const LARGEST_COUNT: u64 = 32;

/// 2^500, the largest magnitude of a tensor's entry.
const LARGEST_ENTRY: f64 = f64::from_bits((1023 + 500) << 52);

fn refuse(refused: bool, refusal: Refusal) -> Checked {
    if refused { Err(refusal) } else { Ok(()) }
}

/// Number 4: a length is zero or has magnitude 2^-20 to 64; which fields may be zero or negative.
fn length(field: u8, value: f64) -> Checked {
    // copied by tests/copies: the fields that may be zero or negative
    let zero_allowed = [TIP_CHORD, SWEEP, X, Y, TAB_OFFSET, BODY_RADIUS, FILLET_RADIUS, DRILL_X, DRILL_HEIGHT, OFFSET].contains(&field);
    let negative_allowed = [SWEEP, X, TAB_OFFSET, DRILL_X, DRILL_HEIGHT, OFFSET].contains(&field);
    // end of the copy
    let magnitude = if negative_allowed { value.abs() } else { value };
    let passes = (zero_allowed && value == 0.0) || (SHORTEST <= magnitude && magnitude <= LONGEST);
    refuse(!passes, Refusal::Length { field })
}

/// Number 9: magnitude at most 4 rad.
fn angle(field: u8, value: f64) -> Checked {
    let passes = value.abs() <= WIDEST_ANGLE;
    refuse(!passes, Refusal::Angle { field })
}

/// Numbers 1 and 2.
pub fn run(limit: u64, scratch: usize) -> Checked {
    self::limit(limit)?;
    refuse((scratch as u64) < 16 * limit, Refusal::Scratch)
}

/// Number 1.
pub fn limit(limit: u64) -> Checked {
    refuse(!(1..=LARGEST_LIMIT).contains(&limit), Refusal::Limit)
}

/// Number 3, of fins and of bodies joined.
pub fn count(count: u64) -> Checked {
    refuse(!(1..=LARGEST_COUNT).contains(&count), Refusal::Count)
}

/// The planform's lengths as listed; or 5, the points in order, x then y, and 6. Numbers 7 and 8 follow, and are the
/// Rust's (`work::outline`).
pub fn planform(planform: &Planform) -> Checked {
    match planform {
        Planform::Trapezoid([root, tip, span, sweep]) => {
            length(ROOT_CHORD, *root)?;
            length(TIP_CHORD, *tip)?;
            length(SPAN, *span)?;
            length(SWEEP, *sweep)
        }
        Planform::Ellipse([root, span]) => {
            length(ROOT_CHORD, *root)?;
            length(SPAN, *span)
        }
        Planform::Outline(figures) => {
            let whole_pairs = figures.len() % 2 == 0;
            let points = figures.len() / 2;
            let passes = whole_pairs && (3..=64).contains(&points);
            refuse(!passes, Refusal::Points)?;
            for (k, &value) in figures.iter().enumerate() {
                length(if k % 2 == 0 { X } else { Y }, value)?;
            }
            let first = (figures[0], figures[1]);
            let last = (figures[2 * points - 2], figures[2 * points - 1]);
            let passes = first == (0.0, 0.0) && last.0 > 0.0 && last.1 == 0.0;
            refuse(!passes, Refusal::Ends)
        }
    }
}

/// From the thickness to the density. `root` is the root chord.
pub fn behind_planform(set: &Set, root: f64) -> Checked {
    length(THICKNESS, set.thickness)?;
    refuse(set.thickness > root, Refusal::ThicknessOverRoot)?;
    angle(CANT, set.cant)?;
    angle(BASE_ANGLE, set.base)?;
    let (fillet_radius, glue) = set.fillet.unwrap_or((0.0, Density::Bulk(0.0)));
    length(FILLET_RADIUS, fillet_radius)?;
    if let Some([tab_height, tab_length, tab_offset]) = set.tab {
        length(TAB_HEIGHT, tab_height)?;
        length(TAB_LENGTH, tab_length)?;
        length(TAB_OFFSET, tab_offset)?;
        let past_root = tab_offset + tab_length > root * (1.0 + 1e-12);
        refuse(tab_offset < 0.0 || past_root, Refusal::TabOffRoot)?;
    }
    length(BODY_RADIUS, set.radius)?;
    if let Some([tab_height, ..]) = set.tab {
        refuse(tab_height > set.radius, Refusal::TabTooDeep)?;
    }
    density(set.density)?;
    if fillet_radius > 0.0 {
        density(glue)?;
        fillet_ratio(fillet_radius, set.radius)?;
    }
    Ok(())
}

/// Number 22 of document 02, Paper 6; the section is the Rust's.
fn fillet_ratio(radius: f64, body_radius: f64) -> Checked {
    let ratio = radius / body_radius;
    if body_radius == 0.0 || ratio < 1e-6 {
        return Ok(());
    }
    let [area, moments @ ..] = reach::fillet_section(body_radius, radius);
    let sound = area > 0.0 && moments.iter().all(|m| m.is_finite());
    refuse(ratio > 1000.0 || !sound, Refusal::FilletRatio)
}

/// Number 12.
pub fn density(density: Density) -> Checked {
    let passes = match density {
        Density::Bulk(value) => value == 0.0 || (LIGHTEST..=HEAVIEST).contains(&value),
        Density::Surface(_) | Density::Line(_) => false,
    };
    refuse(!passes, Refusal::Density)
}

/// Document 02, Paper 3: count, body radius, base angle, density, length, outer radius, wall, which may be zero here; 20 last.
pub fn tubes(set: &Tubes) -> Checked {
    closing(set.count, set.radius)?;
    angle(BASE_ANGLE, set.base)?;
    density(set.density)?;
    length(TUBE_LENGTH, set.length)?;
    length(OUTER_RADIUS, set.outer)?;
    if set.wall != 0.0 {
        length(THICKNESS, set.wall)?;
    }
    refuse(set.wall > set.outer, Refusal::WallOverRadius)
}

/// "Closing radius for count 0 or over 32 is refused 3, then a bad body radius 4."
pub fn closing(tubes: u64, radius: f64) -> Checked {
    count(tubes)?;
    length(BODY_RADIUS, radius)
}

/// Document 02, Paper 11: "the length limits on the point's own x and height". 24 and 25 follow (`drill`).
pub fn point([x, height]: [f64; 2]) -> Checked {
    length(DRILL_X, x)?;
    length(DRILL_HEIGHT, height)
}

/// Document 02, Paper 13: "then the list's length, then offset and roll place by place".
pub fn places(list: &[[f64; 3]]) -> Checked {
    count(list.len() as u64)?;
    for &[x, y, roll] in list {
        offset(&[x, y])?;
        angle(ROLL, roll)?;
    }
    Ok(())
}

/// "field 19 for each number of an offset"
pub fn offset(numbers: &[f64]) -> Checked {
    numbers.iter().try_for_each(|&number| length(OFFSET, number))
}

/// "26, the whole does not outweigh the part taken off"
pub fn outweighs(whole: f64, part: f64) -> Checked {
    refuse(whole <= part, Refusal::NotHeavier)
}

/// "or a part is moved in a body of mass 0"
pub fn has_mass(whole: f64) -> Checked {
    refuse(whole == 0.0, Refusal::NotHeavier)
}

/// 17a, of the body check and of the principal moments.
pub fn entries(tensor: &[f64; 6]) -> Checked {
    let passes = tensor.iter().all(|v| v.abs() <= LARGEST_ENTRY);
    refuse(!passes, Refusal::Tensor { case: 'a' })
}

/// 15, 16 and 17a. 17 b, d and e follow, and are the Rust's (`work::check`).
pub fn body(body: &Body) -> Checked {
    refuse(!body.mass.is_finite() || body.mass < 0.0, Refusal::Mass)?;
    let passes = body.centre.iter().all(|v| v.is_finite());
    refuse(!passes, Refusal::Centre)?;
    entries(&body.inertia)
}
