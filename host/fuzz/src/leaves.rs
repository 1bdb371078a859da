//! The functions on numbers. They are quick, so every case asks all of them.

use crate::fence::Fence;
use crate::input::Input;
use compare::draw::Draw;
use compare::geometry::{four, points_of, three, unit, vector};
use compare::run::{matches, show};
use nalgebra::{DMatrix, Point3, UnitQuaternion};
use parry3d_f64::{query, shape::Segment};
use reference::groove::objective::{groove_loss, swamp_groove_loss, swamp_loss};
use reference::losses as published;
use reference::refusals::{f64s, List};
use reference::spacetime::arm::{get_quat_x, get_quat_y, get_quat_z};
use reference::utils_rust::transformations::{
    angle_between_quaternion, quaternion_disp, quaternion_log,
};
use relaxed_ik::leaves::{self, Axis};
use std::array::from_fn;

/// The segment distance takes the most.
const NUMBERS: usize = 12;
/// Rows and columns of the matrices.
const SIDE: usize = 6;
const MOST_COLUMNS: usize = 16;

type Numbers = [f64; NUMBERS];
type Side = fn(Numbers) -> Vec<f64>;

/// Name, proved, reference.
const LEAVES: [(&str, Side, Side); 31] = [
    ("sqrt", |x| vec![leaves::sqrt(x[0])], |x| vec![x[0].sqrt()]),
    (
        "sin",
        |x| vec![leaves::sin(x[0])],
        |x| vec![standins::sin(x[0])],
    ),
    (
        "cos",
        |x| vec![leaves::cos(x[0])],
        |x| vec![standins::cos(x[0])],
    ),
    (
        "exp",
        |x| vec![leaves::exp(x[0])],
        |x| vec![standins::exp(x[0])],
    ),
    (
        "atan2",
        |x| vec![leaves::atan2(x[0], x[1])],
        |x| vec![standins::atan2(x[0], x[1])],
    ),
    (
        "acos",
        |x| vec![leaves::acos(x[0])],
        |x| vec![standins::acos(x[0])],
    ),
    (
        "power20",
        |x| vec![leaves::power20(x[0])],
        |x| vec![standins::powi(x[0], 20)],
    ),
    (
        "power30",
        |x| vec![leaves::power30(x[0])],
        |x| vec![standins::powi(x[0], 30)],
    ),
    ("b20", |_| vec![leaves::b20()], |_| vec![standins::b(20)]),
    ("b30", |_| vec![leaves::b30()], |_| vec![standins::b(30)]),
    (
        "cut",
        |x| vec![leaves::cut(x[0])],
        |x| vec![standins::cut(x[0])],
    ),
    ("abs", |x| vec![leaves::abs(x[0])], |x| vec![x[0].abs()]),
    (
        "quat_product",
        |x| leaves::quat_product(part(x, 0), part(x, 4)).to_vec(),
        |x| four(unit(part(x, 0)) * unit(part(x, 4))).to_vec(),
    ),
    (
        "quat_inverse",
        |x| leaves::quat_inverse(part(x, 0)).to_vec(),
        |x| four(unit(part(x, 0)).inverse()).to_vec(),
    ),
    (
        "rotate",
        |x| leaves::rotate(part(x, 0), part(x, 4)).to_vec(),
        |x| three(unit(part(x, 0)) * vector(part(x, 4))).to_vec(),
    ),
    (
        "cross",
        |x| leaves::cross(part(x, 0), part(x, 3)).to_vec(),
        |x| three(vector(part(x, 0)).cross(&vector(part(x, 3)))).to_vec(),
    ),
    (
        "norm",
        |x| vec![leaves::norm(part(x, 0))],
        |x| vec![vector(part(x, 0)).norm()],
    ),
    (
        "get_quat",
        |x| {
            [Axis::X, Axis::Y, Axis::Z]
                .map(|axis| leaves::get_quat(axis, x[0]))
                .concat()
        },
        |x| {
            [get_quat_x, get_quat_y, get_quat_z]
                .map(|turn| four(turn(x[0])))
                .concat()
        },
    ),
    (
        "scaled_axis",
        |x| leaves::scaled_axis(part(x, 0)).to_vec(),
        |x| three(unit(part(x, 0)).scaled_axis()).to_vec(),
    ),
    (
        "from_quaternion",
        |x| leaves::from_quaternion(part(x, 0)).to_vec(),
        |x| four(UnitQuaternion::from_quaternion(*unit(part(x, 0)))).to_vec(),
    ),
    (
        "quaternion_log",
        |x| leaves::quaternion_log(part(x, 0)).to_vec(),
        |x| three(quaternion_log(unit(part(x, 0)))).to_vec(),
    ),
    (
        "quaternion_disp",
        |x| leaves::quaternion_disp(part(x, 0), part(x, 4)).to_vec(),
        |x| three(quaternion_disp(unit(part(x, 0)), unit(part(x, 4)))).to_vec(),
    ),
    (
        "angle_between_quaternion",
        |x| vec![leaves::angle_between_quaternion(part(x, 0), part(x, 4))],
        |x| vec![angle_between_quaternion(unit(part(x, 0)), unit(part(x, 4)))],
    ),
    (
        "segment_distance",
        |x| vec![leaves::segment_distance(points_of(x))],
        |x| vec![segment_distance(x)],
    ),
    (
        "groove_loss",
        |x| vec![leaves::groove_loss(x[0], x[1], x[2], x[3])],
        |x| vec![groove_loss(x[0], x[1], 2, x[2], x[3], 2)],
    ),
    (
        "swamp_groove_loss",
        |x| {
            vec![leaves::swamp_groove_loss(
                x[0], x[1], x[2], x[3], x[4], x[5], x[6], x[7],
            )]
        },
        |x| {
            vec![swamp_groove_loss(
                x[0], x[1], x[2], x[3], x[4], x[5], x[6], x[7], 20,
            )]
        },
    ),
    (
        "swamp_loss",
        |x| {
            [20, 30]
                .map(|p| leaves::swamp_loss(x[0], x[1], x[2], x[3], x[4], p))
                .to_vec()
        },
        |x| {
            [20, 30]
                .map(|p| swamp_loss(x[0], x[1], x[2], x[3], x[4], p))
                .to_vec()
        },
    ),
    (
        "loss_position, loss_rotation",
        |x| {
            vec![
                leaves::loss_position(x[0], x[1]),
                leaves::loss_rotation(x[0], x[1]),
            ]
        },
        |x| {
            vec![
                published::position(x[0], x[1]),
                published::rotation(x[0], x[1]),
            ]
        },
    ),
    (
        "loss_limits",
        |x| vec![leaves::loss_limits(x[0], x[1], x[2])],
        |x| vec![published::limits(x[0], &published::limited(x[1], x[2]))],
    ),
    (
        "loss_pos_goals",
        |x| vec![leaves::loss_pos_goals(part(x, 0), part(x, 3))],
        |x| {
            vec![published::position_goal(
                vector(part(x, 0)),
                vector(part(x, 3)),
            )]
        },
    ),
    (
        "loss_quat_goals",
        |x| vec![leaves::loss_quat_goals(part(x, 0), part(x, 4))],
        |x| vec![published::rotation_goal(unit(part(x, 0)), unit(part(x, 4)))],
    ),
];

/// N of the numbers, from a place on.
fn part<const N: usize>(x: Numbers, from: usize) -> [f64; N] {
    from_fn(|at| x[from + at])
}

fn segment_distance(x: Numbers) -> f64 {
    let [a, b, c, d] = points_of(x).map(|p| Point3::from(vector(p)));
    let place = nalgebra::one();
    query::distance(&place, &Segment::new(a, b), &place, &Segment::new(c, d))
        .expect("segments can be measured")
}

/// All of them, on numbers of the case or drawn ones.
pub fn check(input: &Input, fence: &mut Fence, draw: &mut Draw) -> Result<(), String> {
    let lent = input.read_lists().concat();
    let mut floats = Vec::new();
    f64s(&lent, &mut floats);
    let numbers = numbers(&floats, draw);
    for (name, proved, reference) in LEAVES {
        same(name, &numbers, &proved(numbers), &reference(numbers))?;
    }
    fence.lend(&lent[..matrix_length(lent.len(), draw)], draw);
    matrices(fence, draw)
}

/// Neighbours among the case's floats, or any floats.
fn numbers(floats: &[f64], draw: &mut Draw) -> Numbers {
    if floats.is_empty() || draw.word() % 4 == 0 {
        return draw.anys();
    }
    let from = draw.below(floats.len());
    from_fn(|at| floats[(from + at) % floats.len()])
}

/// Mostly that of a whole matrix, as far as there are so many bytes.
fn matrix_length(most: usize, draw: &mut Draw) -> usize {
    let columns = draw.below(MOST_COLUMNS + 2);
    let length = match draw.word() % 4 {
        0 => draw.below(most + 1),
        1 => 8 * SIDE * columns,
        _ => 8 * SIDE * SIDE,
    };
    length.min(most)
}

fn matrices(fence: &Fence, draw: &mut Draw) -> Result<(), String> {
    let mut floats = Vec::new();
    let list = f64s(fence.list(), &mut floats);
    let (proved, reference) = (leaves::determinant(fence.list()), determinant(list));
    same("determinant", list.numbers, &[proved], &[reference])?;
    let (row, column) = (draw.below(SIDE + 1), draw.below(SIDE + 1));
    let proved = leaves::gram(fence.list(), row as u32, column as u32);
    let name = format!("gram, row {row}, column {column}");
    let reference = gram(list, row, column);
    same(&name, list.numbers, &[proved], &[reference])?;
    if fence.holds() {
        Ok(())
    } else {
        Err(format!("a matrix, only read:\n{}", fence.differences(1)))
    }
}

/// Another length than a matrix's is answered with a NaN.
fn determinant(rows: List<f64>) -> f64 {
    if rows.ragged || rows.numbers.len() != SIDE * SIDE {
        return f64::NAN;
    }
    DMatrix::from_fn(SIDE, SIDE, |r, c| rows.numbers[r * SIDE + c]).determinant()
}

/// So are a length that is no whole number of columns, too many of them, and a
/// place outside.
fn gram(columns: List<f64>, row: usize, column: usize) -> f64 {
    let count = columns.numbers.len() / SIDE;
    let whole = !columns.ragged && columns.numbers.len() == count * SIDE;
    if !whole || count > MOST_COLUMNS || row >= SIDE || column >= SIDE {
        return f64::NAN;
    }
    let j = DMatrix::from_fn(SIDE, count, |r, c| columns.numbers[c * SIDE + r]);
    (j.clone() * j.transpose())[(row, column)]
}

fn same(name: &str, numbers: &[f64], proved: &[f64], reference: &[f64]) -> Result<(), String> {
    let mut both = proved.iter().zip(reference);
    if proved.len() == reference.len() && both.all(|(&a, &b)| matches(a, b)) {
        Ok(())
    } else {
        Err(format!(
            "{name}\n{}",
            show(numbers, proved, reference).text()
        ))
    }
}

#[cfg(test)]
mod tests {
    use super::*;
    use crate::mutate::drawn;
    use compare::calls::Call;

    #[test]
    fn leaves_agree_on_drawn_cases() {
        let (mut draw, mut fence) = (Draw::new(6), Fence::default());
        for _ in 0..2_000 {
            let input = drawn(draw.pick(&Call::ALL), &mut draw);
            assert_eq!(check(&input, &mut fence, &mut draw), Ok(()));
        }
    }

    #[test]
    fn one_wrong_bit_is_told() {
        assert_eq!(same("test", &[1.0], &[f64::NAN], &[-f64::NAN]), Ok(()));
        assert!(same("test", &[1.0], &[0.0], &[-0.0]).is_err());
        assert!(same("test", &[1.0], &[], &[1.0]).is_err());
    }
}
