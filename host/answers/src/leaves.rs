//! The leaves: the floats asked and the floats that the stand-ins answer.

use crate::record::{answer_bytes, float_bytes, Record};
use draw::kind::Kind;
use draw::{Draw, CORNERS, NANS, SIGNS};
use nalgebra::{DMatrix, Point3, Quaternion, UnitQuaternion, Vector3};
use parry3d_f64::{query, shape::Segment};
use reference::groove::objective::{groove_loss, swamp_groove_loss, swamp_loss};
use reference::losses;
use reference::spacetime::arm::{get_quat_x, get_quat_y, get_quat_z};
use standins::{atan2, b, cos, cut, exp, powi, sin, sqrt};

/// Draws of each leaf besides its edges.
const DRAWS: usize = 6;

pub fn vector(v: &[f64]) -> Vector3<f64> {
    Vector3::new(v[0], v[1], v[2])
}

pub fn unit(q: &[f64]) -> UnitQuaternion<f64> {
    UnitQuaternion::new_unchecked(Quaternion::new(q[0], q[1], q[2], q[3]))
}

pub fn three(v: Vector3<f64>) -> Vec<f64> {
    vec![v.x, v.y, v.z]
}

pub fn four(q: UnitQuaternion<f64>) -> Vec<f64> {
    vec![q.w, q.i, q.j, q.k]
}

fn distance(x: &[f64]) -> f64 {
    let point = |at: usize| Point3::from(vector(&x[3 * at..]));
    let segments = [
        Segment::new(point(0), point(1)),
        Segment::new(point(2), point(3)),
    ];
    let place = nalgebra::one();
    query::distance(&place, &segments[0], &place, &segments[1]).expect("segments can be measured")
}

fn determinant(rows: &[f64]) -> f64 {
    DMatrix::from_fn(6, 6, |r, c| rows[r * 6 + c]).determinant()
}

/// The product of columns of six with their transpose, row after row.
fn gram(columns: &[f64]) -> Vec<f64> {
    let j = DMatrix::from_fn(6, columns.len() / 6, |r, c| columns[c * 6 + r]);
    let product = j.clone() * j.transpose();
    (0..36).map(|at| product[(at / 6, at % 6)]).collect()
}

/// A leaf by its number in the stored list.
pub fn answer(call: u16, x: &[f64]) -> Vec<f64> {
    match call {
        11 => vec![sqrt(x[0])],
        12 => vec![sin(x[0])],
        13 => vec![cos(x[0])],
        14 => vec![exp(x[0])],
        15 => vec![atan2(x[0], x[1])],
        16 => vec![powi(x[0], 20)],
        17 => vec![powi(x[0], 30)],
        18 => vec![b(20)],
        19 => vec![b(30)],
        20 => vec![cut(x[0])],
        21 => vec![x[0].abs()],
        22..=28 => vec![loss(call, x)],
        29 => vec![vector(x).norm()],
        30 => vec![distance(x)],
        31 => vec![determinant(x)],
        32 => four(unit(x) * unit(&x[4..])),
        33 => four(unit(x).inverse()),
        34 => four(get_quat_x(x[0])),
        35 => four(get_quat_y(x[0])),
        36 => four(get_quat_z(x[0])),
        37 => three(unit(x) * vector(&x[4..])),
        38 => three(vector(x).cross(&vector(&x[3..]))),
        39 => three(unit(x).scaled_axis()),
        40 => gram(x),
        _ => panic!("{call} is no leaf"),
    }
}

fn loss(call: u16, x: &[f64]) -> f64 {
    match call {
        22 => groove_loss(x[0], x[1], 2, x[2], x[3], 2),
        23 => swamp_groove_loss(x[0], x[1], x[2], x[3], x[4], x[5], x[6], x[7], 20),
        24 => swamp_loss(x[0], x[1], x[2], x[3], x[4], 20),
        25 => swamp_loss(x[0], x[1], x[2], x[3], x[4], 30),
        26 => losses::position(x[0], x[1]),
        27 => losses::rotation(x[0], x[1]),
        _ => losses::limits(x[0], &losses::limited(x[1], x[2])),
    }
}

/// Leaves of one float: the corners, and where a leaf changes its formula.
fn singles(call: u16, draw: &mut Draw) -> Vec<Vec<f64>> {
    let mut all = CORNERS.to_vec();
    all.extend(NANS[1..4].iter().map(|&bits| f64::from_bits(bits)));
    all.extend([
        -700.0,
        (-700.0f64).next_down(),
        f64::MIN_POSITIVE,
        4.0,
        1.0f64.next_up(),
    ]);
    for _ in 0..DRAWS {
        let own = match call {
            11 => draw.bits().abs(),
            14 => draw.between(-705.0, 0.0),
            16..=20 => draw.between(-1.5, 1.5),
            _ => draw.between(-8.0, 8.0),
        };
        all.push(own);
    }
    all.into_iter().map(|v| vec![v]).collect()
}

/// Losses: x inside, at the ends and beyond; tolerances of every kind.
#[allow(clippy::approx_constant)]
fn loss_arguments(call: u16, draw: &mut Draw) -> Vec<Vec<f64>> {
    let bounds = [0.0, 0.01, 0.01f64.next_up(), 0.05, 1.5, 3.1415926, 3.2];
    let mut all = Vec::new();
    for bound in bounds {
        for x in [
            0.0,
            bound,
            draw.between(-1.1, 1.1) * bound,
            draw.between(-9.0, 9.0),
        ] {
            let (l, u) = (-bound, bound);
            all.push(match call {
                22 => vec![x, draw.pick(&[0.0, 1.0]), draw.pick(&[0.1, 0.5]), 10.0],
                23 => vec![x, 0.0, l, u, u * 2.0, 1.0, 0.01, 100.0],
                24 | 25 => vec![x, l, u, 100.0, 0.1],
                28 => vec![x, l, u],
                _ => vec![x, bound],
            });
        }
    }
    if call == 28 {
        all.extend([vec![0.5, -999.0, 999.0], vec![0.5, -999.0, 998.0]]);
    }
    let count = all[0].len();
    all.push(vec![f64::NAN; count]);
    all.into_iter()
        .step_by(if call == 28 { 1 } else { 2 })
        .collect()
}

/// Quaternions and vectors: signs of zero, then draws.
fn shape_arguments(count: usize, quaternions: usize, draw: &mut Draw) -> Vec<Vec<f64>> {
    let mut all = Vec::new();
    for _ in 0..DRAWS {
        all.push((0..count).map(|_| draw.pick(&SIGNS)).collect());
    }
    all.push(vec![f64::NAN; count]);
    all.push(vec![0.0; count]);
    for _ in 0..DRAWS {
        let mut x = Vec::new();
        (0..quaternions).for_each(|_| x.extend(draw.quaternion(Kind::Range)));
        while x.len() < count {
            x.extend(draw.vector(Kind::Range));
        }
        all.push(x);
    }
    all
}

/// Segments that are points, parallel, on one line, or crossing, and any.
fn segments(draw: &mut Draw) -> Vec<Vec<f64>> {
    let mut all = shape_arguments(12, 0, draw);
    let p: [f64; 3] = std::array::from_fn(|_| draw.between(-1.0, 1.0));
    let q: [f64; 3] = std::array::from_fn(|_| draw.between(-1.0, 1.0));
    let r: [f64; 3] = std::array::from_fn(|_| draw.between(-1.0, 1.0));
    let aside = |v: [f64; 3]| [v[0] + 1.0, v[1], v[2]];
    for points in [
        [p, p, q, q],
        [p, p, q, r],
        [p, q, r, r],
        [p, q, p, q],
        [p, q, q, p],
        [p, q, aside(p), aside(q)],
        [p, q, q, r],
    ] {
        all.push(points.as_flattened().to_vec());
    }
    all
}

/// The identity, a permutation, ties, a zero column, a NaN, and draws.
fn matrices(draw: &mut Draw) -> Vec<Vec<f64>> {
    let by = |f: &dyn Fn(usize, usize) -> f64| -> Vec<f64> {
        (0..36).map(|at| f(at / 6, at % 6)).collect()
    };
    let is = |yes: bool| if yes { 1.0 } else { 0.0 };
    let mut all = vec![
        by(&|r, c| is(r == c)),
        by(&|r, c| is((r + 1) % 6 == c)),
        by(&|r, c| if r == c { 2.0 } else { -0.0 }),
        by(&|r, c| if (r * c) % 5 < 2 { 1.0 } else { -1.0 }),
        by(&|r, c| {
            if c == 3 {
                0.0
            } else {
                1.0 / (1 + r + c) as f64
            }
        }),
        by(&|r, c| {
            if (r, c) == (2, 1) {
                f64::NAN
            } else {
                1.0 / (1 + r + c) as f64
            }
        }),
    ];
    for _ in 0..DRAWS {
        all.push((0..36).map(|_| draw.between(-1.0, 1.0)).collect());
    }
    all
}

/// No column, one, some, sixteen.
fn columns(draw: &mut Draw) -> Vec<Vec<f64>> {
    let mut all: Vec<Vec<f64>> = [0, 1, 2, 5, 6, 7, 16]
        .map(|count| (0..6 * count).map(|_| draw.between(-1.0, 1.0)).collect())
        .to_vec();
    all.push(vec![-0.0; 12]);
    all.push(vec![f64::MAX; 12]);
    all
}

fn arguments(call: u16, draw: &mut Draw) -> Vec<Vec<f64>> {
    match call {
        15 => {
            let pairs = [
                [1.0, 1.0],
                [1.0, 2.0],
                [2.0, 1.0],
                [0.0, 0.0],
                [5e-324, 1.0],
            ];
            let mut all: Vec<Vec<f64>> = pairs.map(|pair| pair.to_vec()).to_vec();
            all.extend([vec![f64::INFINITY; 2], vec![f64::NAN, 1.0]]);
            all.extend((0..DRAWS).map(|_| vec![draw.between(0.0, 1.0), draw.between(0.0, 1.0)]));
            all
        }
        18 | 19 => vec![Vec::new()],
        22..=28 => loss_arguments(call, draw),
        29 => shape_arguments(3, 0, draw),
        30 => segments(draw),
        31 => matrices(draw),
        32 => shape_arguments(8, 2, draw),
        33 | 39 => shape_arguments(4, 1, draw),
        37 => shape_arguments(7, 1, draw),
        38 => shape_arguments(6, 0, draw),
        40 => columns(draw),
        _ => singles(call, draw),
    }
}

/// The record of a leaf that is asked these floats.
pub fn asked(call: u16, x: &[f64], answer: &[f64]) -> Record {
    Record {
        call,
        number: 0,
        lists: vec![float_bytes(x), answer_bytes(answer)],
        read: 1,
    }
}

pub fn all(draw: &mut Draw) -> Vec<Record> {
    let mut records = Vec::new();
    for call in 11..=40 {
        let own = arguments(call, draw).into_iter();
        records.extend(own.map(|x| asked(call, &x, &answer(call, &x))));
    }
    records
}
