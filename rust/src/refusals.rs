//! The refusals by number, and the errors of the calls.

use std::fmt;

/// What is wrong with a tensor: 17's cases a, b, d and e.
#[derive(Debug, Clone, Copy, PartialEq, Eq)]
#[non_exhaustive]
pub enum TensorFault {
    /// An entry is not finite, or beyond 2^500.
    Entry,
    /// The body has no mass, but an entry that is not 0.
    Massless,
    /// A principal moment is negative.
    Negative,
    /// Two principal moments are less than the third.
    Triangle,
}

impl TensorFault {
    /// The case as the library counts it.
    fn from_case(case: usize) -> Option<Self> {
        Some(match case {
            // copied by tests/copies: the cases of 17
            0 => Self::Entry,
            1 => Self::Massless,
            3 => Self::Negative,
            4 => Self::Triangle,
            // end of the copy
            _ => return None,
        })
    }
}

/// The name of a field that a refusal of a length or an angle carries, by its number in include/delvouzh.h.
pub fn field_name(field: usize) -> Option<&'static str> {
    // copied by tests/copies: the fields' names
    const NAMES: [&str; 20] = [
        "root chord",
        "tip chord",
        "span",
        "sweep",
        "x of an outline's point",
        "height of an outline's point",
        "thickness",
        "tab height",
        "tab length",
        "tab offset",
        "body radius",
        "cant",
        "base angle",
        "tube length",
        "outer radius",
        "fillet radius",
        "x of the drilled point",
        "height of the drilled point",
        "offset",
        "roll",
    ];
    // end of the copy
    NAMES.get(field.wrapping_sub(1)).copied()
}

/// A row of the table of refusals, with its values. Fields have the numbers of include/delvouzh.h ([`field_name`]); edges and components
/// count from 0.
#[derive(Debug, Clone, Copy, PartialEq, Eq)]
#[non_exhaustive]
#[allow(missing_docs)] // its sentence is what `Display` writes
pub enum Refusal {
    // copied by tests/copies: the refusals
    Limit,
    Scratch,
    Count,
    Length { field: usize },
    Points,
    Ends,
    Touches { edges: [usize; 2] },
    NoArea,
    Angle { field: usize },
    TabOffRoot,
    TabTooDeep,
    Density,
    NotConverged { component: usize },
    Mass,
    Centre,
    Tensor(TensorFault),
    NoForm,
    NoFigure,
    WallOverRadius,
    ThicknessOverRoot,
    FilletRatio,
    Screen,
    NoCorners,
    NotWholeSteps,
    NotHeavier,
    // end of the copy
}

impl Refusal {
    /// The number that the card prints.
    pub fn number(self) -> usize {
        match self {
            // copied by tests/copies: the refusals' numbers
            Self::Limit => 1,
            Self::Scratch => 2,
            Self::Count => 3,
            Self::Length { .. } => 4,
            Self::Points => 5,
            Self::Ends => 6,
            Self::Touches { .. } => 7,
            Self::NoArea => 8,
            Self::Angle { .. } => 9,
            Self::TabOffRoot => 10,
            Self::TabTooDeep => 11,
            Self::Density => 12,
            Self::NotConverged { .. } => 13,
            Self::Mass => 15,
            Self::Centre => 16,
            Self::Tensor(_) => 17,
            Self::NoForm => 18,
            Self::NoFigure => 19,
            Self::WallOverRadius => 20,
            Self::ThicknessOverRoot => 21,
            Self::FilletRatio => 22,
            Self::Screen => 23,
            Self::NoCorners => 24,
            Self::NotWholeSteps => 25,
            Self::NotHeavier => 26,
            // end of the copy
        }
    }

    /// The refusal with a number and its two values, if there is one.
    fn from_number(number: usize, [first, second]: [usize; 2]) -> Option<Self> {
        Some(match number {
            // copied by tests/copies: the refusals by number
            1 => Self::Limit,
            2 => Self::Scratch,
            3 => Self::Count,
            4 => Self::Length { field: first },
            5 => Self::Points,
            6 => Self::Ends,
            7 => Self::Touches { edges: [first, second] },
            8 => Self::NoArea,
            9 => Self::Angle { field: first },
            10 => Self::TabOffRoot,
            11 => Self::TabTooDeep,
            12 => Self::Density,
            13 => Self::NotConverged { component: first },
            15 => Self::Mass,
            16 => Self::Centre,
            17 => Self::Tensor(TensorFault::from_case(first)?),
            18 => Self::NoForm,
            19 => Self::NoFigure,
            20 => Self::WallOverRadius,
            21 => Self::ThicknessOverRoot,
            22 => Self::FilletRatio,
            23 => Self::Screen,
            24 => Self::NoCorners,
            25 => Self::NotWholeSteps,
            26 => Self::NotHeavier,
            // end of the copy
            _ => return None,
        })
    }
}

impl fmt::Display for TensorFault {
    fn fmt(&self, f: &mut fmt::Formatter) -> fmt::Result {
        f.write_str(match self {
            Self::Entry => "an entry of the body's tensor is not finite, or beyond 2^500",
            Self::Massless => "the body has no mass, but its tensor is not zero",
            Self::Negative => "a principal moment of the body is negative",
            Self::Triangle => "two principal moments of the body are less than the third",
        })
    }
}

impl fmt::Display for Refusal {
    /// The number that the card prints, and what is wrong, with the field's name.
    fn fmt(&self, f: &mut fmt::Formatter) -> fmt::Result {
        write!(f, "refused {}: ", self.number())?;
        let named = |field| field_name(field).unwrap_or("a field of another library");
        f.write_str(match *self {
            // copied by tests/copies: the refusals' sentences
            Self::Limit => "the limit is not 1 to 64",
            Self::Scratch => "the lent scratch is too short for the limit",
            Self::Count => "the count of fins, of tubes, of joined points, of offsets or of places is not 1 to 32",
            Self::Points => "the outline is not 3 to 64 whole points",
            Self::Ends => "the outline does not begin at (0, 0), or does not end at (c, 0) with c > 0",
            Self::NoArea => "there is no area or no volume",
            Self::TabOffRoot => "the tab begins ahead of the root or ends aft of it",
            Self::TabTooDeep => "the tab is higher than the body's radius",
            Self::Density => {
                "the density of the fins, of the tubes or of a fillet with a radius above 0 is not bulk, \
                 or is neither 0 nor 2^-10 to 2^15 kg/m³"
            }
            Self::Mass => "a body's mass is negative or not finite",
            Self::Centre => "a body's centre is not finite",
            Self::NoForm => {
                "the line is none of the forms in docs/FORMS.md, \
                 or a call was handed an unknown number or a list of another length than it takes"
            }
            Self::NoFigure => {
                "a word where a figure belongs has neither shape of a figure, or is sixteen decimal digits alone"
            }
            Self::WallOverRadius => "a tube's wall is thicker than its outer radius",
            Self::ThicknessOverRoot => "the fin is thicker than its root chord is long",
            Self::FilletRatio => "the fillet's radius is over 1000 times the body's, whatever its density",
            Self::Screen => "the screen is not 1 to 8, or already holds a job",
            Self::NoCorners => "an ellipse has no corners",
            Self::NotWholeSteps => "a coordinate of the point or of a corner is no whole number of steps of 2^-20 m",
            Self::NotHeavier => {
                "the whole is not heavier than the part taken off, or a part is moved in a body of mass 0"
            }
            // end of the copy
            Self::Length { field } => return write!(f, "the {} is out of its limits", named(field)),
            Self::Angle { field } => return write!(f, "the {} is not a number, or is beyond 4 rad", named(field)),
            Self::Touches { edges: [i, j] } => return write!(f, "edges {i} and {j} of the outline touch"),
            Self::NotConverged { component } => {
                return write!(f, "sum {component} did not settle within the limit's pieces, or cannot")
            }
            Self::Tensor(fault) => return fault.fmt(f),
        })
    }
}

impl std::error::Error for Refusal {}

/// Why a call has no figures.
#[derive(Debug, Clone, Copy, PartialEq, Eq)]
#[non_exhaustive]
pub enum Error {
    /// A row of the table of refusals.
    Refused(Refusal),
    /// A number, a case of 17 or a place that this crate does not know: the library that was linked is not the crate's.
    #[allow(missing_docs)]
    Unknown { number: usize, values: [usize; 2] },
}

impl Error {
    /// What a call returned, with the values that it wrote: 0 is no error.
    pub(crate) fn unless_zero(number: usize, values: [usize; 2]) -> Result<(), Self> {
        if number == 0 {
            return Ok(());
        }
        Err(Refusal::from_number(number, values).map_or(Self::Unknown { number, values }, Self::Refused))
    }
}

impl fmt::Display for Error {
    fn fmt(&self, f: &mut fmt::Formatter) -> fmt::Result {
        match self {
            Self::Refused(refusal) => refusal.fmt(f),
            Self::Unknown { number, values } => {
                write!(f, "refused {number} with {values:?}, which this crate does not know")
            }
        }
    }
}

impl std::error::Error for Error {
    fn source(&self) -> Option<&(dyn std::error::Error + 'static)> {
        match self {
            Self::Refused(refusal) => Some(refusal),
            Self::Unknown { .. } => None,
        }
    }
}

impl From<Refusal> for Error {
    fn from(refusal: Refusal) -> Self {
        Self::Refused(refusal)
    }
}

impl From<RunError> for Error {
    /// Drops the samples, so that `?` works in a function that answers an `Error`.
    fn from(failed: RunError) -> Self {
        failed.error
    }
}

/// The error of a call that works strips, with the samples taken so far.
#[derive(Debug, Clone, Copy, PartialEq, Eq)]
pub struct RunError {
    /// Why there are no figures.
    pub error: Error,
    /// The samples taken until then.
    pub samples: usize,
}

impl RunError {
    pub(crate) fn unless_zero(number: usize, values: [usize; 2], samples: usize) -> Result<(), Self> {
        Error::unless_zero(number, values).map_err(|error| Self { error, samples })
    }
}

impl fmt::Display for RunError {
    fn fmt(&self, f: &mut fmt::Formatter) -> fmt::Result {
        write!(f, "{}, after {} samples", self.error, self.samples)
    }
}

impl std::error::Error for RunError {
    fn source(&self) -> Option<&(dyn std::error::Error + 'static)> {
        Some(&self.error)
    }
}

#[cfg(test)]
mod tests {
    use super::*;

    /// Which numbers there are, tests/copies writes.
    #[test]
    fn every_number_of_the_table_is_known() {
        let known = |number| Refusal::from_number(number, [0, 0]).map(|refusal| (number, refusal));
        let table: Vec<(usize, Refusal)> = (0..100).filter_map(known).collect();
        assert_eq!(table.first(), Some(&(1, Refusal::Limit)));
        for (number, refusal) in table {
            assert_eq!(refusal.number(), number);
            assert_eq!(Error::unless_zero(number, [0, 0]), Err(Error::Refused(refusal)));
        }
        assert_eq!(Error::unless_zero(0, [0, 0]), Ok(()));
    }

    #[test]
    fn values_are_carried() {
        assert_eq!(Refusal::from_number(4, [3, 0]), Some(Refusal::Length { field: 3 }));
        assert_eq!(Refusal::from_number(9, [12, 0]), Some(Refusal::Angle { field: 12 }));
        assert_eq!(
            Refusal::from_number(7, [1, 5]),
            Some(Refusal::Touches { edges: [1, 5] })
        );
        assert_eq!(
            Refusal::from_number(13, [6, 0]),
            Some(Refusal::NotConverged { component: 6 })
        );
        assert_eq!(
            Refusal::from_number(17, [4, 0]),
            Some(Refusal::Tensor(TensorFault::Triangle))
        );
    }

    #[test]
    fn a_refusal_is_shown_as_its_sentence() {
        let tip = Refusal::Length { field: 2 };
        assert_eq!(tip.to_string(), "refused 4: the tip chord is out of its limits");
        let failed = RunError {
            error: tip.into(),
            samples: 15,
        };
        assert_eq!(failed.to_string(), format!("{tip}, after 15 samples"));
        let source = std::error::Error::source(&failed).map(ToString::to_string);
        assert_eq!(source, Some(tip.to_string()));
        assert_eq!(field_name(0), None);
        assert_eq!(field_name(20), Some("roll"));
        assert_eq!(field_name(21), None);
    }

    #[test]
    fn what_is_not_known_is_no_refusal() {
        for (number, values) in [(14, [0, 0]), (100, [0, 0]), (usize::MAX, [1, 2]), (17, [5, 0])] {
            assert_eq!(
                Error::unless_zero(number, values),
                Err(Error::Unknown { number, values })
            );
        }
    }
}
