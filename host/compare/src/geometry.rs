//! The leaves on vectors, quaternions and segments.

use crate::draw::kind::{Kind, Kinds};
use crate::draw::{grid, Draw, CORNERS, SIGNS};
use crate::numbers::{half_angle, singles, ANGLE};
use crate::run::Run;
use crate::target::Target;
use nalgebra::{Point3, Quaternion, UnitQuaternion, Vector3};
use parry3d_f64::{query, shape::Segment};
use reference::spacetime::arm::{get_quat_x, get_quat_y, get_quat_z};
use relaxed_ik::leaves::{self, Axis};

const QUATERNIONS: Kinds = &[
    (Kind::Range, 9),
    (Kind::Signs, 4),
    (Kind::Small, 1),
    (Kind::Any, 2),
];
const VECTORS: Kinds = &[
    (Kind::Range, 5),
    (Kind::Signs, 1),
    (Kind::Small, 1),
    (Kind::Any, 1),
];
const SEGMENTS: Kinds = &[
    (Kind::Range, 1),
    (Kind::Border, 12),
    (Kind::Small, 2),
    (Kind::Any, 1),
];

pub fn targets() -> Vec<Target> {
    let leaf = Target::leaf;
    vec![
        leaf(
            "quat_product",
            "quaternion product",
            QUATERNIONS,
            quat_product,
        ),
        leaf(
            "quat_inverse",
            "quaternion inverse",
            QUATERNIONS,
            quat_inverse,
        ),
        leaf("rotate", "a vector rotated", QUATERNIONS, rotate),
        leaf("cross", "cross product", VECTORS, cross),
        leaf("norm", "length of a vector", VECTORS, norm),
        leaf("get_quat", "rotation about x, y or z", ANGLE, get_quat),
        leaf(
            "scaled_axis",
            "scaled axis of a quaternion",
            QUATERNIONS,
            scaled_axis,
        ),
        leaf(
            "segment_distance",
            "distance of two segments",
            SEGMENTS,
            segment_distance,
        ),
    ]
}

pub fn vector([x, y, z]: [f64; 3]) -> Vector3<f64> {
    Vector3::new(x, y, z)
}

pub fn unit([w, i, j, k]: [f64; 4]) -> UnitQuaternion<f64> {
    UnitQuaternion::new_unchecked(Quaternion::new(w, i, j, k))
}

pub fn three(v: Vector3<f64>) -> [f64; 3] {
    [v.x, v.y, v.z]
}

pub fn four(q: UnitQuaternion<f64>) -> [f64; 4] {
    [q.w, q.i, q.j, q.k]
}

/// The first A floats and the B after them.
pub fn split<const N: usize, const A: usize, const B: usize>(
    all: [f64; N],
) -> ([f64; A], [f64; B]) {
    (
        std::array::from_fn(|i| all[i]),
        std::array::from_fn(|i| all[A + i]),
    )
}

pub fn join<const N: usize>(first: &[f64], second: &[f64]) -> [f64; N] {
    std::array::from_fn(|i| *first.get(i).unwrap_or_else(|| &second[i - first.len()]))
}

fn quat_product(run: &mut Run) {
    run.function(
        grid::<8>(&SIGNS),
        |draw, kind| {
            let kinds = [draw.mixed(kind), draw.mixed(kind)];
            join(&draw.quaternion(kinds[0]), &draw.quaternion(kinds[1]))
        },
        |all| {
            let (a, b) = split::<8, 4, 4>(all);
            leaves::quat_product(a, b)
        },
        |all| {
            let (a, b) = split::<8, 4, 4>(all);
            four(unit(a) * unit(b))
        },
    );
}

fn quat_inverse(run: &mut Run) {
    run.function(
        grid::<4>(&CORNERS),
        Draw::quaternion,
        leaves::quat_inverse,
        |q| four(unit(q).inverse()),
    );
}

fn rotate(run: &mut Run) {
    run.function(
        grid::<7>(&SIGNS),
        |draw, kind| {
            let kinds = [draw.mixed(kind), draw.mixed(kind)];
            join(&draw.quaternion(kinds[0]), &draw.vector(kinds[1]))
        },
        |all| {
            let (q, v) = split::<7, 4, 3>(all);
            leaves::rotate(q, v)
        },
        |all| {
            let (q, v) = split::<7, 4, 3>(all);
            three(unit(q) * vector(v))
        },
    );
}

fn cross(run: &mut Run) {
    run.function(
        grid::<6>(&SIGNS),
        |draw, kind| {
            let kinds = [draw.mixed(kind), draw.mixed(kind)];
            join(&draw.vector(kinds[0]), &draw.vector(kinds[1]))
        },
        |all| {
            let (a, b) = split::<6, 3, 3>(all);
            leaves::cross(a, b)
        },
        |all| {
            let (a, b) = split::<6, 3, 3>(all);
            three(vector(a).cross(&vector(b)))
        },
    );
}

fn norm(run: &mut Run) {
    run.function(
        grid::<3>(&CORNERS),
        Draw::vector,
        |v| [leaves::norm(v)],
        |v| [vector(v).norm()],
    );
}

/// The axis goes first as a number, so that a difference shows it. The angle is twice
/// what sine and cosine are asked.
fn get_quat(run: &mut Run) {
    let axes = [0.0, 1.0, 2.0];
    let edges = singles(&run.draw);
    run.function(
        axes.iter()
            .flat_map(|&a| edges.iter().map(move |&[v]| [a, v])),
        |draw, kind| {
            let axis = draw.pick(&axes);
            let v = match kind {
                Kind::Any => draw.any(),
                _ => 2.0 * half_angle(draw, kind),
            };
            [axis, v]
        },
        |[axis, v]| {
            let axis = [Axis::X, Axis::Y, Axis::Z][axis as usize];
            leaves::get_quat(axis, v)
        },
        |[axis, v]| four([get_quat_x, get_quat_y, get_quat_z][axis as usize](v)),
    );
}

fn scaled_axis(run: &mut Run) {
    run.function(
        grid::<4>(&CORNERS),
        Draw::quaternion,
        leaves::scaled_axis,
        |q| three(unit(q).scaled_axis()),
    );
}

/// All segments between points of a small lattice: parallel, equal, crossing,
/// touching and degenerate ones are among them.
fn segment_distance(run: &mut Run) {
    let points: Vec<[f64; 3]> = grid(&[0.0, 1.0, -1.0]).collect();
    let count = points.len();
    let edges = (0..count.pow(4)).map(|number| {
        let point = |place: u32| points[number / count.pow(place) % count];
        [point(0), point(1), point(2), point(3)]
    });
    run.function(
        edges.map(flat),
        |draw, kind| flat(segments(draw, kind)),
        |all| [leaves::segment_distance(points_of(all))],
        |all| {
            let [a, b, c, d] = points_of(all).map(|p| Point3::from(vector(p)));
            let place = nalgebra::one();
            let distance =
                query::distance(&place, &Segment::new(a, b), &place, &Segment::new(c, d));
            [distance.expect("segments can be measured")]
        },
    );
}

fn flat(points: [[f64; 3]; 4]) -> [f64; 12] {
    std::array::from_fn(|i| points[i / 3][i % 3])
}

pub fn points_of(all: [f64; 12]) -> [[f64; 3]; 4] {
    std::array::from_fn(|p| std::array::from_fn(|i| all[3 * p + i]))
}

fn segments(draw: &mut Draw, kind: Kind) -> [[f64; 3]; 4] {
    match kind {
        Kind::Any => std::array::from_fn(|_| draw.anys()),
        Kind::Small => small_segments(draw),
        Kind::Border => match draw.word() % 12 {
            0..8 => related(draw),
            _ => touching(draw),
        },
        _ => std::array::from_fn(|_| place(draw)),
    }
}

fn place(draw: &mut Draw) -> [f64; 3] {
    match draw.word() % 4 {
        0 => std::array::from_fn(|_| draw.pick(&[0.0, -0.0, 1.0, -1.0, 0.5, 2.0])),
        1 => std::array::from_fn(|_| draw.between(-1.0, 1.0)),
        2 => std::array::from_fn(|_| draw.between(-160.0, 160.0)),
        _ => std::array::from_fn(|_| draw.between(-10.0, 10.0)),
    }
}

fn along(from: [f64; 3], to: [f64; 3], f: f64) -> [f64; 3] {
    std::array::from_fn(|i| from[i] + (to[i] - from[i]) * f)
}

fn shifted(p: [f64; 3], by: [f64; 3]) -> [f64; 3] {
    std::array::from_fn(|i| p[i] + by[i])
}

/// Parallel segments, equal ones and points, which the formula tells apart.
fn related(draw: &mut Draw) -> [[f64; 3]; 4] {
    let (a, b, c) = (place(draw), place(draw), place(draw));
    match draw.word() % 8 {
        // Parallel, aside.
        0 => [a, b, shifted(a, c), shifted(b, c)],
        // Equal, and the other way round.
        1 => [a, b, a, b],
        2 => [a, b, b, a],
        // On one line, overlapping or apart.
        3 => {
            let (f, g) = (draw.between(-2.0, 3.0), draw.between(-2.0, 3.0));
            [a, b, along(a, b, f), along(a, b, g)]
        }
        // Points.
        4 => [a, a, c, place(draw)],
        5 => [a, b, b, b],
        6 => [a, b, c, c],
        _ => [a, a, c, c],
    }
}

/// An end on the other segment, or both crossing: t falls on 0 or 1, or just
/// beside.
fn touching(draw: &mut Draw) -> [[f64; 3]; 4] {
    let (a, b, c) = (place(draw), place(draw), place(draw));
    let middle = along(a, b, draw.between(0.0, 1.0));
    match draw.word() % 4 {
        // Sharing an end, as neighbouring links do.
        0 => [a, b, b, c],
        1 => [a, b, c, along(c, middle, draw.between(0.0, 2.0))],
        2 => [a, b, middle, c],
        _ => [a, b, c, middle],
    }
}

/// One or both so short that a square falls to a subnormal or to 0.
fn small_segments(draw: &mut Draw) -> [[f64; 3]; 4] {
    let scale = draw.small(1000);
    match draw.word() % 2 {
        0 => {
            let (a, by) = (place(draw), place(draw).map(|v| v * scale));
            [a, shifted(a, by), place(draw), place(draw)]
        }
        _ => std::array::from_fn(|_| place(draw).map(|v| v * scale)),
    }
}
