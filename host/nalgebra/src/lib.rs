//! As much of nalgebra's face as the published files use, so that their `use`
//! lines and calls stay as they are. What an operation computes is what
//! document 01's section 'Stand-ins' and document 02 say, each step rounding once,
//! left to right; where the papers say nothing, the comment here says so.

#![forbid(unsafe_code)]
// Formulas are spelled as the paper spells them.
#![allow(clippy::assign_op_pattern)]

use standins::{atan2, cos, sin, sqrt};
use std::ops::{Add, Deref, Index, IndexMut, Mul, MulAssign, Sub};

/// The library offers its rotations under this path too.
pub mod geometry {
    pub use crate::{Isometry3, Point3, Quaternion, Translation3, UnitQuaternion};
}

#[derive(Clone, Copy, Debug, PartialEq)]
pub struct Vector3<T> {
    pub x: T,
    pub y: T,
    pub z: T,
}

impl Vector3<f64> {
    pub fn new(x: f64, y: f64, z: f64) -> Self {
        Self { x, y, z }
    }

    pub fn dot(&self, v: &Self) -> f64 {
        self.x * v.x + self.y * v.y + self.z * v.z
    }

    pub fn cross(&self, v: &Self) -> Self {
        Self::new(
            self.y * v.z - self.z * v.y,
            self.z * v.x - self.x * v.z,
            self.x * v.y - self.y * v.x,
        )
    }

    pub fn norm(&self) -> f64 {
        sqrt(self.dot(self))
    }
}

impl Add for Vector3<f64> {
    type Output = Self;
    fn add(self, v: Self) -> Self {
        Self::new(self.x + v.x, self.y + v.y, self.z + v.z)
    }
}

impl Sub for Vector3<f64> {
    type Output = Self;
    fn sub(self, v: Self) -> Self {
        Self::new(self.x - v.x, self.y - v.y, self.z - v.z)
    }
}

impl Mul<f64> for Vector3<f64> {
    type Output = Self;
    fn mul(self, f: f64) -> Self {
        Self::new(self.x * f, self.y * f, self.z * f)
    }
}

impl MulAssign<f64> for Vector3<f64> {
    fn mul_assign(&mut self, f: f64) {
        *self = *self * f;
    }
}

impl Index<usize> for Vector3<f64> {
    type Output = f64;
    fn index(&self, i: usize) -> &f64 {
        [&self.x, &self.y, &self.z][i]
    }
}

/// Asked for by a function of transformations.rs alone that no list of objectives
/// reaches.
#[derive(Clone, Copy, Debug, PartialEq)]
pub struct Vector4<T>([T; 4]);

impl Vector4<f64> {
    pub fn new(x: f64, y: f64, z: f64, w: f64) -> Self {
        Self([x, y, z, w])
    }

    pub fn norm(&self) -> f64 {
        let [x, y, z, w] = self.0;
        sqrt(x * x + y * y + z * z + w * w)
    }
}

impl MulAssign<f64> for Vector4<f64> {
    fn mul_assign(&mut self, f: f64) {
        self.0 = self.0.map(|c| c * f);
    }
}

impl Index<usize> for Vector4<f64> {
    type Output = f64;
    fn index(&self, i: usize) -> &f64 {
        &self.0[i]
    }
}

#[derive(Clone, Copy, Debug, PartialEq)]
pub struct Vector6<T>([T; 6]);

impl Vector6<f64> {
    pub fn new(x: f64, y: f64, z: f64, w: f64, a: f64, b: f64) -> Self {
        Self([x, y, z, w, a, b])
    }
}

impl Index<usize> for Vector6<f64> {
    type Output = f64;
    fn index(&self, i: usize) -> &f64 {
        &self.0[i]
    }
}

#[derive(Clone, Copy, Debug, PartialEq)]
pub struct Point3<T> {
    pub coords: Vector3<T>,
}

impl From<Vector3<f64>> for Point3<f64> {
    fn from(coords: Vector3<f64>) -> Self {
        Self { coords }
    }
}

#[derive(Clone, Copy, Debug, PartialEq)]
pub struct Quaternion<T> {
    pub w: T,
    pub i: T,
    pub j: T,
    pub k: T,
}

impl Quaternion<f64> {
    pub fn new(w: f64, i: f64, j: f64, k: f64) -> Self {
        Self { w, i, j, k }
    }
}

/// The library keeps a quaternion as i, j, k, w and counts in that order.
impl Index<usize> for Quaternion<f64> {
    type Output = f64;
    fn index(&self, at: usize) -> &f64 {
        [&self.i, &self.j, &self.k, &self.w][at]
    }
}

#[derive(Clone, Copy, Debug, PartialEq)]
pub struct Unit<T> {
    value: T,
}

impl<T> Unit<T> {
    /// Takes the value as it is: no stand-in normalises what comes in.
    pub fn new_unchecked(value: T) -> Self {
        Self { value }
    }
}

impl<T> Deref for Unit<T> {
    type Target = T;
    fn deref(&self) -> &T {
        &self.value
    }
}

impl Index<usize> for Unit<Quaternion<f64>> {
    type Output = f64;
    fn index(&self, at: usize) -> &f64 {
        &self.value[at]
    }
}

pub type UnitQuaternion<T> = Unit<Quaternion<T>>;

impl UnitQuaternion<f64> {
    pub fn identity() -> Self {
        Self::new_unchecked(Quaternion::new(1.0, 0.0, 0.0, 0.0))
    }

    /// Divided by the root of the squares' sum, w first, as document 02's change 4
    /// says.
    pub fn from_quaternion(q: Quaternion<f64>) -> Self {
        let norm = sqrt(q.w * q.w + q.i * q.i + q.j * q.j + q.k * q.k);
        Self::new_unchecked(Quaternion::new(
            q.w / norm,
            q.i / norm,
            q.j / norm,
            q.k / norm,
        ))
    }

    /// The paper defines this for one angle. The angle is the argument that is
    /// not +0: the published calls write the other two as `0.`, and an angle
    /// of -0.0 must keep its sign.
    pub fn from_euler_angles(roll: f64, pitch: f64, yaw: f64) -> Self {
        let is_angle = |v: &f64| v.to_bits() != 0;
        let mut angles = [roll, pitch, yaw].into_iter().filter(is_angle);
        let v = angles.next().unwrap_or(0.0);
        assert!(
            angles.next().is_none(),
            "document 01 has no stand-in for from_euler_angles with several angles"
        );
        let sine = sin(v * 0.5);
        let at = |angle: f64| if is_angle(&angle) { sine } else { 0.0 };
        Self::new_unchecked(Quaternion::new(cos(v * 0.5), at(roll), at(pitch), at(yaw)))
    }

    pub fn inverse(&self) -> Self {
        Self::new_unchecked(Quaternion::new(self.w, -self.i, -self.j, -self.k))
    }

    pub fn scaled_axis(&self) -> Vector3<f64> {
        let mut u = Vector3::new(self.i, self.j, self.k);
        if self.w < 0.0 {
            u = Vector3::new(-u.x, -u.y, -u.z);
        }
        let norm = u.norm();
        if norm == 0.0 {
            return Vector3::new(0.0, 0.0, 0.0);
        }
        Vector3::new(u.x / norm, u.y / norm, u.z / norm) * (2.0 * atan2(norm, self.w.abs()))
    }
}

impl Mul for UnitQuaternion<f64> {
    type Output = Self;
    fn mul(self, b: Self) -> Self {
        let a = self;
        Self::new_unchecked(Quaternion::new(
            a.w * b.w - a.i * b.i - a.j * b.j - a.k * b.k,
            a.w * b.i + a.i * b.w + a.j * b.k - a.k * b.j,
            a.w * b.j - a.i * b.k + a.j * b.w + a.k * b.i,
            a.w * b.k + a.i * b.j - a.j * b.i + a.k * b.w,
        ))
    }
}

impl Mul<Vector3<f64>> for UnitQuaternion<f64> {
    type Output = Vector3<f64>;
    fn mul(self, v: Vector3<f64>) -> Vector3<f64> {
        let u = Vector3::new(self.i, self.j, self.k);
        let t = u.cross(&v) * 2.0;
        t * self.w + u.cross(&t) + v
    }
}

/// Row after row. arm.rs keeps an identity and never reads it; its matrix
/// functions, which `relaxed_ik` does not reach, ask for the rest.
#[derive(Clone, Copy, Debug, PartialEq)]
pub struct Matrix3<T>([[T; 3]; 3]);

impl Matrix3<f64> {
    #[allow(clippy::too_many_arguments)]
    pub fn new(
        m11: f64,
        m12: f64,
        m13: f64,
        m21: f64,
        m22: f64,
        m23: f64,
        m31: f64,
        m32: f64,
        m33: f64,
    ) -> Self {
        Self([[m11, m12, m13], [m21, m22, m23], [m31, m32, m33]])
    }

    pub fn identity() -> Self {
        Self([[1.0, 0.0, 0.0], [0.0, 1.0, 0.0], [0.0, 0.0, 1.0]])
    }
}

impl Mul for Matrix3<f64> {
    type Output = Self;
    fn mul(self, b: Self) -> Self {
        let entry = |r: usize, c: usize| (0..3).fold(0.0, |sum, k| sum + self.0[r][k] * b.0[k][c]);
        Self([0, 1, 2].map(|r| [0, 1, 2].map(|c| entry(r, c))))
    }
}

/// Column after column, as in the library.
#[derive(Clone, Debug, PartialEq)]
pub struct DMatrix<T> {
    rows: usize,
    columns: usize,
    entries: Vec<T>,
}

impl DMatrix<f64> {
    pub fn from_fn(
        rows: usize,
        columns: usize,
        mut entry: impl FnMut(usize, usize) -> f64,
    ) -> Self {
        let mut entries = Vec::with_capacity(rows * columns);
        for c in 0..columns {
            for r in 0..rows {
                entries.push(entry(r, c));
            }
        }
        Self {
            rows,
            columns,
            entries,
        }
    }

    pub fn identity(rows: usize, columns: usize) -> Self {
        Self::from_fn(rows, columns, |r, c| if r == c { 1.0 } else { 0.0 })
    }

    pub fn set_column(&mut self, column: usize, v: &Vector6<f64>) {
        assert_eq!(self.rows, 6, "a column of six floats");
        for r in 0..6 {
            self[(r, column)] = v[r];
        }
    }

    pub fn transpose(&self) -> Self {
        Self::from_fn(self.columns, self.rows, |r, c| self[(c, r)])
    }

    /// Partial pivoting. A later pivot must be larger, so that the upper one
    /// stands on a tie.
    pub fn determinant(&self) -> f64 {
        assert_eq!(self.rows, self.columns, "a square matrix");
        let size = self.rows;
        let mut m = self.clone();
        let mut odd = false;
        for k in 0..size {
            let mut at = k;
            for r in k + 1..size {
                if m[(r, k)].abs() > m[(at, k)].abs() {
                    at = r;
                }
            }
            if m[(at, k)] == 0.0 {
                return 0.0;
            }
            if at != k {
                for c in 0..size {
                    m.entries.swap(c * size + at, c * size + k);
                }
                odd = !odd;
            }
            for r in k + 1..size {
                let factor = m[(r, k)] / m[(k, k)];
                for c in k..size {
                    m[(r, c)] = m[(r, c)] - factor * m[(k, c)];
                }
            }
        }
        let mut product = 1.0;
        for k in 0..size {
            product = product * m[(k, k)];
        }
        if odd {
            -product
        } else {
            product
        }
    }
}

impl Index<(usize, usize)> for DMatrix<f64> {
    type Output = f64;
    fn index(&self, (r, c): (usize, usize)) -> &f64 {
        &self.entries[c * self.rows + r]
    }
}

impl IndexMut<(usize, usize)> for DMatrix<f64> {
    fn index_mut(&mut self, (r, c): (usize, usize)) -> &mut f64 {
        &mut self.entries[c * self.rows + r]
    }
}

/// Sums from 0, by column of the left matrix.
impl Mul for DMatrix<f64> {
    type Output = Self;
    fn mul(self, b: Self) -> Self {
        assert_eq!(self.columns, b.rows, "sizes that fit");
        Self::from_fn(self.rows, b.columns, |r, c| {
            let mut sum = 0.0;
            for k in 0..self.columns {
                sum = sum + self[(r, k)] * b[(k, c)];
            }
            sum
        })
    }
}

/// The place of a shape. The published files only ever ask for `one()`, so the
/// identity is the only value there is, and nothing needs applying.
#[derive(Clone, Copy, Debug, PartialEq)]
pub struct Isometry3<T> {
    identity: std::marker::PhantomData<T>,
}

pub trait One {
    fn one() -> Self;
}

impl One for Isometry3<f64> {
    fn one() -> Self {
        Self {
            identity: std::marker::PhantomData,
        }
    }
}

pub fn one<T: One>() -> T {
    T::one()
}

// Names in the published `use` lines that the files never use: they have no
// values.
pub enum ArrayStorage {}
pub enum DVector {}
pub enum Matrix {}
pub enum Translation3 {}

#[cfg(test)]
mod tests {
    use super::*;

    fn rows<const N: usize>(m: [[f64; N]; N]) -> DMatrix<f64> {
        DMatrix::from_fn(N, N, |r, c| m[r][c])
    }

    #[test]
    fn determinant_and_its_corners() {
        assert_eq!(DMatrix::identity(6, 6).determinant(), 1.0);
        assert_eq!(rows([[0.0, 1.0], [1.0, 0.0]]).determinant(), -1.0);
        assert_eq!(rows([[1.0, 2.0], [3.0, 4.0]]).determinant(), -2.0);
        let singular = rows([[-0.0, 1.0], [0.0, 1.0]]).determinant();
        assert_eq!(singular.to_bits(), 0.0f64.to_bits());
        // On the tie 1, -1 the upper row stays; with the lower one the last
        // digits would be ..12.
        let tie = rows([[1.0, 0.1, 0.2], [-1.0, 0.3, 0.4], [0.5, 0.6, 0.7]]);
        assert_eq!(tie.determinant(), -0.08999999999999998);
    }

    #[test]
    fn a_product_with_the_transpose() {
        let mut j = DMatrix::identity(6, 7);
        j.set_column(6, &Vector6::new(1.0, 2.0, 3.0, 4.0, 5.0, 6.0));
        let gram = j.clone() * j.transpose();
        assert_eq!(gram[(0, 0)], 2.0);
        assert_eq!(gram[(2, 4)], 15.0);
        assert_eq!(gram[(5, 5)], 37.0);
    }

    #[test]
    fn a_quarter_turn_about_z() {
        let half = std::f64::consts::FRAC_1_SQRT_2;
        let turn = UnitQuaternion::new_unchecked(Quaternion::new(half, 0.0, 0.0, half));
        let v = turn * Vector3::new(1.0, 0.0, 0.0);
        assert!(v.x.abs() < 1e-15 && (v.y - 1.0).abs() < 1e-15 && v.z == 0.0);
        let axis = turn.scaled_axis();
        assert!((axis.z - std::f64::consts::FRAC_PI_2).abs() < 1e-15);
        let back = turn * turn.inverse();
        assert!((back.w - 1.0).abs() < 1e-15 && back.k == 0.0);
    }

    #[test]
    fn a_quaternion_divided_by_its_length() {
        let q = UnitQuaternion::from_quaternion(Quaternion::new(-2.0, 0.0, 2.0, -1.0));
        let third = [q.w, q.i, q.j, q.k].map(|part| part * 3.0);
        assert_eq!(third, [-2.0, 0.0, 2.0, -1.0]);
        // Summed from w on: from k on, the ones would not be lost.
        let q = UnitQuaternion::from_quaternion(Quaternion::new(1e8, 1.0, 1.0, 1.0));
        assert_eq!(q.w, 1.0);
        let none = UnitQuaternion::from_quaternion(Quaternion::new(0.0, 0.0, -0.0, 0.0));
        assert!([none.w, none.i, none.j, none.k]
            .iter()
            .all(|part| part.is_nan()));
    }

    #[test]
    fn no_turn_has_no_axis() {
        for w in [1.0, -1.0, 0.0] {
            let q = UnitQuaternion::new_unchecked(Quaternion::new(w, 0.0, -0.0, 0.0));
            let axis = q.scaled_axis();
            let bits = [axis.x, axis.y, axis.z].map(f64::to_bits);
            assert_eq!(bits, [0; 3]);
        }
    }

    #[test]
    fn a_quaternion_counts_from_i() {
        let q = UnitQuaternion::new_unchecked(Quaternion::new(1.0, 2.0, 3.0, 4.0));
        assert_eq!([q[0], q[1], q[2], q[3]], [2.0, 3.0, 4.0, 1.0]);
    }

    #[test]
    #[should_panic(expected = "several angles")]
    fn several_angles_are_refused() {
        UnitQuaternion::from_euler_angles(0.1, 0.0, 0.2);
    }
}
