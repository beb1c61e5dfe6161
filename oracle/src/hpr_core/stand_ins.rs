//! glam's vector, tensor and quaternion, `powi`, and sine and cosine, as document 01, "Stand-ins", writes them.

use std::ops::{Add, AddAssign, Div, Mul, Neg, Sub};

#[derive(Debug, Clone, Copy, PartialEq)]
pub struct DVec3 {
    pub x: f64,
    pub y: f64,
    pub z: f64,
}

impl DVec3 {
    pub const ZERO: Self = Self::splat(0.0);
    pub const NAN: Self = Self::splat(f64::NAN);

    pub const fn new(x: f64, y: f64, z: f64) -> Self {
        Self { x, y, z }
    }

    pub const fn splat(v: f64) -> Self {
        Self::new(v, v, v)
    }

    /// The dot product with itself, left to right.
    pub fn length_squared(self) -> f64 {
        self.x * self.x + self.y * self.y + self.z * self.z
    }

    pub fn is_finite(self) -> bool {
        self.x.is_finite() && self.y.is_finite() && self.z.is_finite()
    }

    pub fn max_element(self) -> f64 {
        self.x.max(self.y).max(self.z)
    }

    pub fn min_element(self) -> f64 {
        self.x.min(self.y).min(self.z)
    }
}

impl Add for DVec3 {
    type Output = Self;
    fn add(self, o: Self) -> Self {
        Self::new(self.x + o.x, self.y + o.y, self.z + o.z)
    }
}

impl AddAssign for DVec3 {
    fn add_assign(&mut self, o: Self) {
        *self = *self + o;
    }
}

impl Sub for DVec3 {
    type Output = Self;
    fn sub(self, o: Self) -> Self {
        Self::new(self.x - o.x, self.y - o.y, self.z - o.z)
    }
}

impl Neg for DVec3 {
    type Output = Self;
    fn neg(self) -> Self {
        Self::new(-self.x, -self.y, -self.z)
    }
}

impl Mul<f64> for DVec3 {
    type Output = Self;
    fn mul(self, v: f64) -> Self {
        Self::new(self.x * v, self.y * v, self.z * v)
    }
}

impl Div<f64> for DVec3 {
    type Output = Self;
    fn div(self, v: f64) -> Self {
        Self::new(self.x / v, self.y / v, self.z / v)
    }
}

/// Three columns.
#[derive(Debug, Clone, Copy, PartialEq)]
pub struct DMat3 {
    pub x_axis: DVec3,
    pub y_axis: DVec3,
    pub z_axis: DVec3,
}

impl DMat3 {
    pub const ZERO: Self = Self::from_cols(DVec3::ZERO, DVec3::ZERO, DVec3::ZERO);

    pub const fn from_cols(x_axis: DVec3, y_axis: DVec3, z_axis: DVec3) -> Self {
        Self { x_axis, y_axis, z_axis }
    }

    pub fn from_diagonal(d: DVec3) -> Self {
        Self::from_cols(
            DVec3::new(d.x, 0.0, 0.0),
            DVec3::new(0.0, d.y, 0.0),
            DVec3::new(0.0, 0.0, d.z),
        )
    }

    pub fn from_quat(q: DQuat) -> Self {
        let DQuat { x, y, z, w } = q;
        let (x2, y2, z2) = (x + x, y + y, z + z);
        let (xx2, xy2, xz2) = (x * x2, x * y2, x * z2);
        let (yy2, yz2, zz2) = (y * y2, y * z2, z * z2);
        let (wx2, wy2, wz2) = (w * x2, w * y2, w * z2);
        Self::from_cols(
            DVec3::new(1.0 - (yy2 + zz2), xy2 + wz2, xz2 - wy2),
            DVec3::new(xy2 - wz2, 1.0 - (xx2 + zz2), yz2 + wx2),
            DVec3::new(xz2 + wy2, yz2 - wx2, 1.0 - (xx2 + yy2)),
        )
    }

    pub fn transpose(self) -> Self {
        let (a, b, c) = (self.x_axis, self.y_axis, self.z_axis);
        Self::from_cols(
            DVec3::new(a.x, b.x, c.x),
            DVec3::new(a.y, b.y, c.y),
            DVec3::new(a.z, b.z, c.z),
        )
    }

    pub fn from_cols_array(m: &[f64; 9]) -> Self {
        Self::from_cols(
            DVec3::new(m[0], m[1], m[2]),
            DVec3::new(m[3], m[4], m[5]),
            DVec3::new(m[6], m[7], m[8]),
        )
    }

    pub fn to_cols_array(self) -> [f64; 9] {
        let (a, b, c) = (self.x_axis, self.y_axis, self.z_axis);
        [a.x, a.y, a.z, b.x, b.y, b.z, c.x, c.y, c.z]
    }

    /// Half the sum of the opposite entries (document 02, Paper 12), at the end of `rotated`.
    pub fn averaged(self) -> Self {
        let [xx, yx, zx, xy, yy, zy, xz, yz, zz] = self.to_cols_array();
        Self::from_six(&[xx, yy, zz, 0.5 * (xy + yx), 0.5 * (xz + zx), 0.5 * (yz + zy)])
    }

    pub fn from_six(&[xx, yy, zz, xy, xz, yz]: &[f64; 6]) -> Self {
        Self::from_cols_array(&[xx, xy, xz, xy, yy, yz, xz, yz, zz])
    }

    /// xx, yy, zz, xy, xz, yz. Every tensor that is printed has the same bits in opposite entries, which the oracle holds itself to.
    pub fn six(self) -> [f64; 6] {
        let [xx, yx, zx, xy, yy, zy, xz, yz, zz] = self.to_cols_array();
        for (a, b) in [(xy, yx), (xz, zx), (yz, zy)] {
            assert!(a.to_bits() == b.to_bits() || (a.is_nan() && b.is_nan()), "opposite entries differ");
        }
        [xx, yy, zz, xy, xz, yz]
    }
}

impl Add for DMat3 {
    type Output = Self;
    fn add(self, o: Self) -> Self {
        Self::from_cols(self.x_axis + o.x_axis, self.y_axis + o.y_axis, self.z_axis + o.z_axis)
    }
}

impl Sub for DMat3 {
    type Output = Self;
    fn sub(self, o: Self) -> Self {
        Self::from_cols(self.x_axis - o.x_axis, self.y_axis - o.y_axis, self.z_axis - o.z_axis)
    }
}

impl Mul<f64> for DMat3 {
    type Output = Self;
    fn mul(self, v: f64) -> Self {
        Self::from_cols(self.x_axis * v, self.y_axis * v, self.z_axis * v)
    }
}

/// Column 1·x, plus column 2·y, plus column 3·z.
impl Mul<DVec3> for DMat3 {
    type Output = DVec3;
    fn mul(self, v: DVec3) -> DVec3 {
        self.x_axis * v.x + self.y_axis * v.y + self.z_axis * v.z
    }
}

/// By columns.
impl Mul for DMat3 {
    type Output = Self;
    fn mul(self, o: Self) -> Self {
        Self::from_cols(self * o.x_axis, self * o.y_axis, self * o.z_axis)
    }
}

#[derive(Debug, Clone, Copy, PartialEq)]
pub struct DQuat {
    pub x: f64,
    pub y: f64,
    pub z: f64,
    pub w: f64,
}

impl DQuat {
    pub fn from_rotation_x(angle: f64) -> Self {
        let (s, c) = sine_cosine(angle / 2.0);
        let (y, z) = (0.0, 0.0);
        Self { x: s, y, z, w: c }
    }

    pub fn from_rotation_z(angle: f64) -> Self {
        let (s, c) = sine_cosine(angle / 2.0);
        let (x, y) = (0.0, 0.0);
        Self { x, y, z: s, w: c }
    }
}

/// Sine and cosine by document 01's steps, and the angle of `atan2` by document 02's (Paper 6), for positive arguments.
pub trait Angles {
    fn sin_by_steps(self) -> f64;
    fn cos_by_steps(self) -> f64;
    fn angle_by_steps(self, c: f64) -> f64;
}

impl Angles for f64 {
    fn sin_by_steps(self) -> f64 {
        sine_cosine(self).0
    }

    fn cos_by_steps(self) -> f64 {
        sine_cosine(self).1
    }

    fn angle_by_steps(self, c: f64) -> f64 {
        let mut t = self / c;
        for _ in 0..3 {
            t = t / (1.0 + (1.0 + t * t).sqrt());
        }
        let z = t * t;
        let mut v = 1.0 / 21.0;
        for d in (1..=19).rev().step_by(2) {
            v = 1.0 / f64::from(d) - z * v;
        }
        8.0 * t * v
    }
}

/// `powi` in document 01's orders.
pub trait Powers {
    fn powi_in_order(self, n: i32) -> f64;
}

impl Powers for f64 {
    fn powi_in_order(self, n: i32) -> f64 {
        let y = self;
        match n {
            2 => y * y,
            3 => y * (y * y),
            4 => (y * y) * (y * y),
            5 => y * ((y * y) * (y * y)),
            _ => panic!("document 01 gives no order for the power {n}"),
        }
    }
}

/// The whole number nearest q, halves away from zero. From 2^52 on every f64 is whole.
fn nearest_whole(q: f64) -> f64 {
    if q.abs() >= 4503599627370496.0 {
        return q;
    }
    let whole = q.trunc();
    if (q - whole).abs() >= 0.5 {
        whole + 1f64.copysign(q)
    } else {
        whole
    }
}

/// From v = 1, v = 1 − (z/d)·v for each d.
fn series(z: f64, divisors: [f64; 8]) -> f64 {
    divisors.iter().fold(1.0, |v, d| 1.0 - (z / d) * v)
}

/// Sine and cosine of f by document 01's steps; two NaNs where f·0.6366197723675814 is not finite.
pub fn sine_cosine(f: f64) -> (f64, f64) {
    let q = f * 0.6366197723675814;
    if !q.is_finite() {
        return (f64::NAN, f64::NAN);
    }
    let a = f64::from_bits(0x3ff921fb54400000);
    let b = f64::from_bits(0x3dd0b4611a626331);
    let m = nearest_whole(q);
    let r = (f - m * a) - m * b;
    let z = r * r;
    let s = r * series(z, [272.0, 210.0, 156.0, 110.0, 72.0, 42.0, 20.0, 6.0]);
    let c = series(z, [240.0, 182.0, 132.0, 90.0, 56.0, 30.0, 12.0, 2.0]);
    match m.rem_euclid(4.0) {
        0.0 => (s, c),
        1.0 => (c, -s),
        2.0 => (-s, -c),
        3.0 => (-c, s),
        _ => unreachable!("a whole number mod 4"),
    }
}
