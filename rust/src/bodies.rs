//! Rigid bodies and places, and the calls that join, copy, move and check them.

use crate::{raw, Error};

/// Where one copy of a body sits: rolled about the axis, from x toward y, then moved across it.
#[derive(Debug, Clone, Copy, PartialEq, Default)]
#[repr(C)]
pub struct Placement {
    /// How far the copy is moved across the axis, x and y.
    pub offset_m: [f64; 2],
    /// How far it is turned about the axis before that.
    pub roll_rad: f64,
}

impl Placement {
    /// The body where it is: no move, no turn.
    pub const HERE: Self = Self {
        offset_m: [0.0; 2],
        roll_rad: 0.0,
    };
}

/// A rigid body: ten numbers one after another, as the library has them.
#[derive(Debug, Clone, Copy, PartialEq, Default)]
#[repr(C)]
pub struct Body {
    /// Mass.
    pub mass_kg: f64,
    /// The balance point: x, y, z; z points to the nose.
    pub centre_m: [f64; 3],
    /// The inertia tensor about the balance point: xx, yy, zz, xy, xz, yz.
    pub inertia_kg_m2: [f64; 6],
}

// A body's numbers, and a place's, are handed over as they lie.
const _: () = assert!(std::mem::size_of::<Body>() == raw::BODY * std::mem::size_of::<f64>());
const _: () = assert!(std::mem::size_of::<Placement>() == 3 * std::mem::size_of::<f64>());

impl Body {
    /// The empty body.
    pub const ZERO: Self = Self {
        mass_kg: 0.0,
        centre_m: [0.0; 3],
        inertia_kg_m2: [0.0; 6],
    };

    /// A point mass.
    pub const fn point(mass_kg: f64, centre_m: [f64; 3]) -> Self {
        Self {
            mass_kg,
            centre_m,
            inertia_kg_m2: [0.0; 6],
        }
    }

    pub(crate) fn from_numbers(numbers: [f64; raw::BODY]) -> Self {
        let [mass_kg, x, y, z, inertia_kg_m2 @ ..] = numbers;
        Self {
            mass_kg,
            centre_m: [x, y, z],
            inertia_kg_m2,
        }
    }

    fn numbers(bodies: &[Self]) -> &[f64] {
        // SAFETY: Body is ten f64s in C's layout, without padding, so that as many f64s lie there.
        unsafe { std::slice::from_raw_parts(bodies.as_ptr().cast(), raw::BODY * bodies.len()) }
    }

    /// This body's own ten numbers.
    fn own_numbers(&self) -> &[f64] {
        Self::numbers(std::slice::from_ref(self))
    }
}

/// What a call that writes a body and two values answered.
fn body_or_error(number: usize, body: [f64; raw::BODY], values: [usize; raw::VALUES]) -> Result<Body, Error> {
    Error::unless_zero(number, values).map(|()| Body::from_numbers(body))
}

/// 1 to 32 bodies joined into one rigid body.
///
/// ```
/// use delvouzh::{combine, Body};
/// let joined = combine(&[Body::point(1.0, [0.0; 3]), Body::point(1.0, [2.0, 0.0, 0.0])])?;
/// assert_eq!(joined.centre_m, [1.0, 0.0, 0.0]);
/// assert_eq!(joined.inertia_kg_m2, [0.0, 2.0, 2.0, 0.0, 0.0, 0.0]);
/// # Ok::<(), delvouzh::Error>(())
/// ```
pub fn combine(bodies: &[Body]) -> Result<Body, Error> {
    let numbers = Body::numbers(bodies);
    let mut body = [0.0; raw::BODY];
    // SAFETY: each pointer goes with the length of its own live list; what is written is borrowed by nobody else.
    let number = unsafe { raw::delvouzh_combine(numbers.as_ptr(), numbers.len(), body.as_mut_ptr(), body.len()) };
    body_or_error(number, body, [0, 0])
}

/// Copies of a body, joined: one for each offset, moved by its x and y across the axis. A single copy that moves by 0
/// and 0 is the body itself.
pub fn copied(body: &Body, offsets_m: &[[f64; 2]]) -> Result<Body, Error> {
    let body = body.own_numbers();
    let offsets = offsets_m.as_flattened();
    let mut joined = [0.0; raw::BODY];
    let mut values = [0; raw::VALUES];
    // SAFETY: each pointer goes with the length of its own live list; what is written is borrowed by nobody else.
    let number = unsafe {
        raw::delvouzh_copied(
            body.as_ptr(),
            body.len(),
            offsets.as_ptr(),
            offsets.len(),
            joined.as_mut_ptr(),
            joined.len(),
            values.as_mut_ptr(),
            values.len(),
        )
    };
    body_or_error(number, joined, values)
}

/// Copies of a body, joined: one at each place. A single copy at [`Placement::HERE`] is the body itself.
pub fn placed(body: &Body, places: &[Placement]) -> Result<Body, Error> {
    let body = body.own_numbers();
    let mut joined = [0.0; raw::BODY];
    let mut values = [0; raw::VALUES];
    // SAFETY: as for `copied`; a Placement is three f64s in C's layout, without padding.
    let number = unsafe {
        raw::delvouzh_placed(
            body.as_ptr(),
            body.len(),
            places.as_ptr().cast(),
            3 * places.len(),
            joined.as_mut_ptr(),
            joined.len(),
            values.as_mut_ptr(),
            values.len(),
        )
    };
    body_or_error(number, joined, values)
}

/// The whole with one of its parts moved by x, y and z inside it.
pub fn with_part_moved(whole: &Body, part: &Body, offset_m: [f64; 3]) -> Result<Body, Error> {
    let (whole, part) = (whole.own_numbers(), part.own_numbers());
    let mut joined = [0.0; raw::BODY];
    let mut values = [0; raw::VALUES];
    // SAFETY: each pointer goes with the length of its own live list; what is written is borrowed by nobody else.
    let number = unsafe {
        raw::delvouzh_with_part_moved(
            whole.as_ptr(),
            whole.len(),
            part.as_ptr(),
            part.len(),
            offset_m.as_ptr(),
            offset_m.len(),
            joined.as_mut_ptr(),
            joined.len(),
            values.as_mut_ptr(),
            values.len(),
        )
    };
    body_or_error(number, joined, values)
}

/// The whole with one of its parts taken off.
pub fn without_part(whole: &Body, part: &Body) -> Result<Body, Error> {
    let (whole, part) = (whole.own_numbers(), part.own_numbers());
    let mut joined = [0.0; raw::BODY];
    let mut values = [0; raw::VALUES];
    // SAFETY: each pointer goes with the length of its own live list; what is written is borrowed by nobody else.
    let number = unsafe {
        raw::delvouzh_without_part(
            whole.as_ptr(),
            whole.len(),
            part.as_ptr(),
            part.len(),
            joined.as_mut_ptr(),
            joined.len(),
            values.as_mut_ptr(),
            values.len(),
        )
    };
    body_or_error(number, joined, values)
}

/// The principal moments of a tensor (xx, yy, zz, xy, xz, yz), ascending.
pub fn principal_moments(tensor: &[f64; 6]) -> Result<[f64; 3], Error> {
    let mut moments = [0.0; raw::MOMENTS];
    let mut values = [0; raw::VALUES];
    // SAFETY: each pointer goes with the length of its own live list; what is written is borrowed by nobody else.
    let number = unsafe {
        raw::delvouzh_principal_moments(
            tensor.as_ptr(),
            tensor.len(),
            moments.as_mut_ptr(),
            moments.len(),
            values.as_mut_ptr(),
            values.len(),
        )
    };
    Error::unless_zero(number, values).map(|()| moments)
}

/// Whether a body could be a real one.
pub fn check(body: &Body) -> Result<(), Error> {
    let numbers = body.own_numbers();
    let mut values = [0; raw::VALUES];
    // SAFETY: each pointer goes with the length of its own live list; what is written is borrowed by nobody else.
    let number = unsafe { raw::delvouzh_check(numbers.as_ptr(), numbers.len(), values.as_mut_ptr(), values.len()) };
    Error::unless_zero(number, values)
}
