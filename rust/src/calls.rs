//! The calls on sets, planforms and tubes, a card line's answer, and the root.

use crate::{raw, Body, Engine, Error, FinSet, Planform, RunError, TubeFinSet};

/// A set's body, with the totals of intervals and samples.
#[derive(Debug, Clone, Copy, PartialEq)]
pub struct Figures {
    /// Mass, balance point and inertia.
    pub body: Body,
    /// The pieces that the strips were cut into.
    pub intervals: usize,
    /// The samples that were taken.
    pub samples: usize,
}

/// A planform's area and centroid, with the totals of intervals and samples.
#[derive(Debug, Clone, Copy, PartialEq)]
pub struct Area {
    /// The area.
    pub area_m2: f64,
    /// The centroid's distance aft of the root's leading edge.
    pub centroid_x_m: f64,
    /// The centroid's height above the root.
    pub centroid_span_m: f64,
    /// The pieces that the strips were cut into.
    pub intervals: usize,
    /// The samples that were taken.
    pub samples: usize,
}

/// Where a point lies, with the nearest corner's position, counted from 0.
#[derive(Debug, Clone, Copy, PartialEq, Eq)]
#[allow(missing_docs)]
pub enum Place {
    /// Inside the fin.
    Inside { nearest: usize },
    /// On its edge.
    Edge { nearest: usize },
    /// Outside.
    Outside { nearest: usize },
}

/// 118,110: no set's figures and no planform's area report more samples, nor does their refusal.
pub fn most_samples() -> usize {
    // SAFETY: the call takes nothing and reads nothing.
    unsafe { raw::delvouzh_most_samples() }
}

/// The numbers of scratch that a call with this limit asks for; a limit over 64 is refused in any case.
pub const fn scratch_len(limit: usize) -> usize {
    limit.saturating_mul(16)
}

/// A set's figures, with at most `limit` intervals a strip; `scratch` has [`scratch_len`]`(limit)` numbers.
pub fn mass_properties(set: &FinSet, limit: usize, scratch: &mut [f64]) -> Result<Figures, RunError> {
    let crossing = set.numbers();
    let mut body = [0.0; raw::BODY];
    let mut counts = [0; raw::COUNTS];
    // SAFETY: each pointer goes with the length of its own live list; what is written is borrowed by nobody else.
    let number = unsafe {
        raw::delvouzh_mass_properties(
            limit,
            crossing.numbers.as_ptr(),
            crossing.numbers.len(),
            crossing.counts.as_ptr(),
            crossing.counts.len(),
            crossing.points.as_ptr(),
            crossing.points.len(),
            scratch.as_mut_ptr(),
            scratch.len(),
            body.as_mut_ptr(),
            body.len(),
            counts.as_mut_ptr(),
            counts.len(),
        )
    };
    let [first, second, intervals, samples] = counts;
    RunError::unless_zero(number, [first, second], samples)?;
    let body = Body::from_numbers(body);
    Ok(Figures {
        body,
        intervals,
        samples,
    })
}

/// A planform's area and centroid, with at most `limit` intervals a strip.
pub fn geometry(planform: &Planform, limit: usize, scratch: &mut [f64]) -> Result<Area, RunError> {
    let crossing = planform.numbers();
    let mut area = [0.0; raw::AREA];
    let mut counts = [0; raw::COUNTS];
    // SAFETY: each pointer goes with the length of its own live list; what is written is borrowed by nobody else.
    let number = unsafe {
        raw::delvouzh_geometry(
            limit,
            crossing.number,
            crossing.lengths.as_ptr(),
            crossing.lengths.len(),
            crossing.points.as_ptr(),
            crossing.points.len(),
            scratch.as_mut_ptr(),
            scratch.len(),
            area.as_mut_ptr(),
            area.len(),
            counts.as_mut_ptr(),
            counts.len(),
        )
    };
    let [first, second, intervals, samples] = counts;
    RunError::unless_zero(number, [first, second], samples)?;
    let [area_m2, centroid_x_m, centroid_span_m] = area;
    Ok(Area {
        area_m2,
        centroid_x_m,
        centroid_span_m,
        intervals,
        samples,
    })
}

/// A planform's chords at a height: start and end of each, in order. The planform is checked as for its area. At the
/// span, or a few last bits below it, a trapezoid's chord may end before it starts, as both ends are rounded.
pub fn chords_at(planform: &Planform, height_m: f64) -> Result<Vec<[f64; 2]>, Error> {
    let crossing = planform.numbers();
    let mut ends = [0.0; raw::CHORDS];
    let mut counts = [0; raw::CHORD_COUNTS];
    // SAFETY: each pointer goes with the length of its own live list; what is written is borrowed by nobody else.
    let number = unsafe {
        raw::delvouzh_chords_at(
            crossing.number,
            crossing.lengths.as_ptr(),
            crossing.lengths.len(),
            crossing.points.as_ptr(),
            crossing.points.len(),
            height_m,
            ends.as_mut_ptr(),
            ends.len(),
            counts.as_mut_ptr(),
            counts.len(),
        )
    };
    let [first, second, count] = counts;
    Error::unless_zero(number, [first, second])?;
    let chords = ends.chunks_exact(2).take(count);
    Ok(chords.map(|chord| [chord[0], chord[1]]).collect())
}

/// Where a point lies beside a trapezoid or an outline, exactly in steps of 2^-20 m, and the nearest corner, the lowest
/// of equally near ones.
pub fn drill(planform: &Planform, x_m: f64, height_m: f64) -> Result<Place, Error> {
    let crossing = planform.numbers();
    let mut counts = [0; raw::COUNTS];
    // SAFETY: each pointer goes with the length of its own live list; what is written is borrowed by nobody else.
    let number = unsafe {
        raw::delvouzh_drill(
            crossing.number,
            crossing.lengths.as_ptr(),
            crossing.lengths.len(),
            crossing.points.as_ptr(),
            crossing.points.len(),
            x_m,
            height_m,
            counts.as_mut_ptr(),
            counts.len(),
        )
    };
    let [first, second, place, nearest] = counts;
    Error::unless_zero(number, [first, second])?;
    place_of(place, nearest)
}

/// A place by its number; one that this crate does not know comes from another library.
fn place_of(place: usize, nearest: usize) -> Result<Place, Error> {
    match place {
        raw::INSIDE => Ok(Place::Inside { nearest }),
        raw::EDGE => Ok(Place::Edge { nearest }),
        raw::OUTSIDE => Ok(Place::Outside { nearest }),
        _ => Err(Error::Unknown {
            number: 0,
            values: [place, nearest],
        }),
    }
}

/// The body of a ring of tubes on a body of the given radius; its origin is on the axis at the tubes' forward end.
pub fn tube_mass_properties(set: &TubeFinSet, body_radius_m: f64) -> Result<Body, Error> {
    let (density, value) = set.density.number();
    let figures = [
        set.length_m,
        set.outer_radius_m,
        set.thickness_m,
        set.base_angle_rad,
        body_radius_m,
        value,
    ];
    let mut body = [0.0; raw::BODY];
    let mut values = [0; raw::VALUES];
    // SAFETY: each pointer goes with the length of its own live list; what is written is borrowed by nobody else.
    let number = unsafe {
        raw::delvouzh_tube_mass_properties(
            set.count,
            density,
            figures.as_ptr(),
            figures.len(),
            body.as_mut_ptr(),
            body.len(),
            values.as_mut_ptr(),
            values.len(),
        )
    };
    Error::unless_zero(number, values).map(|()| Body::from_numbers(body))
}

/// The outer radius of `count` tubes that close the ring around a body; for one or two tubes it is the body's radius.
///
/// ```
/// assert_eq!(delvouzh::closing_radius_m(0.05, 2)?, 0.05);
/// # Ok::<(), delvouzh::Error>(())
/// ```
pub fn closing_radius_m(body_radius_m: f64, count: usize) -> Result<f64, Error> {
    let mut radius = [0.0; raw::CLOSING];
    let mut values = [0; raw::VALUES];
    // SAFETY: each pointer goes with the length of its own live list; what is written is borrowed by nobody else.
    let number = unsafe {
        raw::delvouzh_closing_radius(
            count,
            body_radius_m,
            radius.as_mut_ptr(),
            radius.len(),
            values.as_mut_ptr(),
            values.len(),
        )
    };
    let [radius_m] = radius;
    Error::unless_zero(number, values).map(|()| radius_m)
}

/// The answer to a card line (docs/FORMS.md), which may be a refusal's text; neither has a newline. Submissions,
/// densities and turns go to the engine.
///
/// ```
/// use delvouzh::{answer_line, Engine};
/// let mut scratch = [0.0; 1024];
/// let answer = answer_line(b"(closing (count 2) (radius 0.5))", &mut scratch, &mut Engine::new())?;
/// assert_eq!(answer, b"(closing 3fe0000000000000)");
/// # Ok::<(), delvouzh::Error>(())
/// ```
pub fn answer_line(line: &[u8], scratch: &mut [f64], engine: &mut Engine) -> Result<Vec<u8>, Error> {
    let mut answer = vec![0; raw::ANSWER];
    let mut written = [0; raw::WRITTEN];
    // SAFETY: each pointer goes with the length of its own live list; what is written is borrowed by nobody else.
    let number = unsafe {
        raw::delvouzh_answer_line(
            line.as_ptr(),
            line.len(),
            scratch.as_mut_ptr(),
            scratch.len(),
            engine.numbers.as_mut_ptr(),
            engine.numbers.len(),
            engine.counts.as_mut_ptr(),
            engine.counts.len(),
            answer.as_mut_ptr(),
            answer.len(),
            written.as_mut_ptr(),
            written.len(),
        )
    };
    Error::unless_zero(number, [0, 0])?;
    let [len] = written;
    answer.truncate(len);
    Ok(answer)
}

/// The square root: the nearest f64.
pub fn sqrt(x: f64) -> f64 {
    // SAFETY: the call takes a number alone.
    unsafe { raw::delvouzh_sqrt(x) }
}

#[cfg(test)]
mod tests {
    use super::*;

    #[test]
    fn a_place_that_is_not_known_is_an_error() {
        assert_eq!(place_of(raw::OUTSIDE, 2), Ok(Place::Outside { nearest: 2 }));
        assert_eq!(
            place_of(4, 1),
            Err(Error::Unknown {
                number: 0,
                values: [4, 1]
            })
        );
    }
}
