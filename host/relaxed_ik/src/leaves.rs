//! The library's functions on numbers, with quaternions (w, i, j, k), vectors
//! and points as arrays. The library is asked for one part a call.

use crate::bytes;

pub use crate::bytes::{abs, acos, atan2, b20, b30, cos, cut, determinant, exp, gram};
#[cfg(feature = "objective")]
pub use crate::bytes::{groove_loss, swamp_groove_loss, swamp_loss};
#[cfg(feature = "objective")]
pub use crate::bytes::{loss_limits, loss_position, loss_rotation};
pub use crate::bytes::{power20, power30, sin, sqrt};

#[derive(Clone, Copy, Debug, PartialEq)]
pub enum Axis {
    X,
    Y,
    Z,
}

pub fn quat_product_part(a: [f64; 4], b: [f64; 4], part: u32) -> f64 {
    bytes::quat_product(a[0], a[1], a[2], a[3], b[0], b[1], b[2], b[3], part)
}

pub fn quat_product(a: [f64; 4], b: [f64; 4]) -> [f64; 4] {
    [0, 1, 2, 3].map(|part| quat_product_part(a, b, part))
}

pub fn quat_inverse(q: [f64; 4]) -> [f64; 4] {
    [0, 1, 2, 3].map(|part| bytes::quat_inverse(q[0], q[1], q[2], q[3], part))
}

pub fn rotate(q: [f64; 4], v: [f64; 3]) -> [f64; 3] {
    [0, 1, 2].map(|part| bytes::rotate(q[0], q[1], q[2], q[3], v[0], v[1], v[2], part))
}

pub fn cross(a: [f64; 3], b: [f64; 3]) -> [f64; 3] {
    [0, 1, 2].map(|part| bytes::cross(a[0], a[1], a[2], b[0], b[1], b[2], part))
}

pub fn norm(v: [f64; 3]) -> f64 {
    bytes::norm(v[0], v[1], v[2])
}

/// The rotation by `v` about an axis.
pub fn get_quat(axis: Axis, v: f64) -> [f64; 4] {
    [0, 1, 2, 3].map(|part| bytes::get_quat(axis as u32, v, part))
}

pub fn scaled_axis_part(q: [f64; 4], part: u32) -> f64 {
    bytes::scaled_axis(q[0], q[1], q[2], q[3], part)
}

pub fn scaled_axis(q: [f64; 4]) -> [f64; 3] {
    [0, 1, 2].map(|part| scaled_axis_part(q, part))
}

/// Divided by its length.
pub fn from_quaternion(q: [f64; 4]) -> [f64; 4] {
    [0, 1, 2, 3].map(|part| bytes::from_quaternion(q[0], q[1], q[2], q[3], part))
}

pub fn quaternion_log(q: [f64; 4]) -> [f64; 3] {
    [0, 1, 2].map(|part| bytes::quaternion_log(q[0], q[1], q[2], q[3], part))
}

pub fn quaternion_disp_part(q: [f64; 4], to: [f64; 4], part: u32) -> f64 {
    bytes::quaternion_disp(q[0], q[1], q[2], q[3], to[0], to[1], to[2], to[3], part)
}

/// The logarithm of the turn from the first to the second.
pub fn quaternion_disp(q: [f64; 4], to: [f64; 4]) -> [f64; 3] {
    [0, 1, 2].map(|part| quaternion_disp_part(q, to, part))
}

/// The angle of that turn.
pub fn angle_between_quaternion(q: [f64; 4], to: [f64; 4]) -> f64 {
    bytes::angle_between_quaternion(q[0], q[1], q[2], q[3], to[0], to[1], to[2], to[3])
}

/// A strict goal's position and an end's.
#[cfg(feature = "objective")]
pub fn loss_pos_goals(goal: [f64; 3], end: [f64; 3]) -> f64 {
    bytes::loss_pos_goals(goal[0], goal[1], goal[2], end[0], end[1], end[2])
}

/// A strict goal's rotation and an end's, which counts by the nearer of its two
/// signs.
#[cfg(feature = "objective")]
pub fn loss_quat_goals(goal: [f64; 4], end: [f64; 4]) -> f64 {
    bytes::loss_quat_goals(
        goal[0], goal[1], goal[2], goal[3], end[0], end[1], end[2], end[3],
    )
}

/// Start and end of one segment, then of the other.
pub fn segment_distance([a, b, c, d]: [[f64; 3]; 4]) -> f64 {
    bytes::segment_distance(
        a[0], a[1], a[2], b[0], b[1], b[2], c[0], c[1], c[2], d[0], d[1], d[2],
    )
}
