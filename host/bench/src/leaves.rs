//! The functions on numbers.

use crate::builds::all_take_turns_off;
use crate::{digits, Draw, Rows};
use nalgebra::{DMatrix, Point3, Quaternion, UnitQuaternion, Vector3};
use parry3d_f64::{query, shape::Segment};
use reference::utils_rust::transformations::{angle_between_quaternion, quaternion_disp};
use relaxed_ik::bytes::put_floats;
use relaxed_ik::leaves;
use std::hint::black_box;

pub fn unit(q: &[f64; 4]) -> UnitQuaternion<f64> {
    UnitQuaternion::new_unchecked(Quaternion::new(q[0], q[1], q[2], q[3]))
}

pub fn rows(rows: &mut Rows, draw: &mut Draw) {
    standins(rows, draw);
    shapes(rows, draw);
    determinant(rows, draw);
}

fn standins(rows: &mut Rows, draw: &mut Draw) {
    let radicands = draw.inputs(|d| d.between(0.0, 100.0));
    let root = |x: &f64| leaves::sqrt(*x);
    rows.row("sqrt, against digit by digit", &radicands, root, |x| {
        digits::root(*x)
    });
    rows.row("sqrt, against the machine's", &radicands, root, |x| {
        standins::sqrt(*x)
    });

    let angles = draw.inputs(|d| d.between(-4.0, 4.0));
    rows.row("sin", &angles, |a| leaves::sin(*a), |a| standins::sin(*a));
    rows.row("cos", &angles, |a| leaves::cos(*a), |a| standins::cos(*a));
    let exponents = draw.inputs(|d| d.between(-700.0, 0.0));
    rows.row(
        "exp",
        &exponents,
        |y| leaves::exp(*y),
        |y| standins::exp(*y),
    );
    let sides = draw.inputs(|d| d.floats::<2>(0.0, 1.0));
    rows.row(
        "atan2",
        &sides,
        |[n, w]| leaves::atan2(*n, *w),
        |[n, w]| standins::atan2(*n, *w),
    );
}

/// Sine and cosine of angles that have whole turns to be taken off.
pub fn turns(rows: &mut Rows, draw: &mut Draw) {
    if !all_take_turns_off() {
        return;
    }
    let angles = draw.inputs(|d| d.between(4.5, 32.0).copysign(d.between(-1.0, 1.0)));
    rows.row(
        "sin beyond 4.5",
        &angles,
        |a| leaves::sin(*a),
        |a| standins::sin(*a),
    );
    rows.row(
        "cos beyond 4.5",
        &angles,
        |a| leaves::cos(*a),
        |a| standins::cos(*a),
    );
}

/// The functions that the strict goals came with, parts as above.
pub fn rotations(rows: &mut Rows, draw: &mut Draw) {
    let cosines = draw.inputs(|d| d.between(-1.0, 1.0));
    rows.row(
        "acos",
        &cosines,
        |w| leaves::acos(*w),
        |w| standins::acos(*w),
    );
    let pairs = draw.inputs(|d| (d.quaternion(), d.quaternion()));
    rows.row(
        "quaternion_disp, one part a call",
        &pairs,
        |(a, b)| leaves::quaternion_disp_part(*a, *b, 0),
        |(a, b)| black_box(quaternion_disp(unit(a), unit(b))).x,
    );
    rows.row(
        "angle_between_quaternion",
        &pairs,
        |(a, b)| leaves::angle_between_quaternion(*a, *b),
        |(a, b)| angle_between_quaternion(unit(a), unit(b)),
    );
}

/// A proved function of several parts gives one a call; the reference is made to
/// give all of its parts.
fn shapes(rows: &mut Rows, draw: &mut Draw) {
    let turns = draw.inputs(Draw::quaternion);
    rows.row(
        "scaled_axis, one part a call",
        &turns,
        |q| leaves::scaled_axis_part(*q, 0),
        |q| black_box(unit(q).scaled_axis()).x,
    );
    let pairs = draw.inputs(|d| (d.quaternion(), d.quaternion()));
    rows.row(
        "quat_product, one part a call",
        &pairs,
        |(a, b)| leaves::quat_product_part(*a, *b, 0),
        |(a, b)| black_box(unit(a) * unit(b)).w,
    );

    let points = draw.inputs(|d| [(); 4].map(|()| d.floats::<3>(-1.0, 1.0)));
    let place = nalgebra::one();
    rows.row(
        "segment_distance",
        &points,
        |s| leaves::segment_distance(*s),
        |s| {
            let [a, b, c, d] = s.map(|p| Point3::from(Vector3::new(p[0], p[1], p[2])));
            query::distance(&place, &Segment::new(a, b), &place, &Segment::new(c, d))
                .expect("segments can be measured")
        },
    );
}

/// Each side gets the matrix in the form it takes, made beforehand.
fn determinant(rows: &mut Rows, draw: &mut Draw) {
    let matrices = draw.inputs(|d| {
        let entries = d.floats::<36>(-1.0, 1.0);
        let mut bytes = Vec::new();
        put_floats(&entries, &mut bytes);
        (bytes, DMatrix::from_fn(6, 6, |r, c| entries[6 * r + c]))
    });
    rows.row(
        "determinant",
        &matrices,
        |(bytes, _)| leaves::determinant(bytes),
        |(_, matrix)| matrix.determinant(),
    );
}
