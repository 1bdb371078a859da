//! The cases of joints that turn on beyond 8: the angles at which sine and cosine change
//! what they take off, every call on joints, and the ends of a joint's range by its
//! code, in the block and in each block of a history.

use crate::arms::{asked, Call, Lent, List, CALLS};
use crate::cases::{exact, lent_at, put_beyond, Shape};
use crate::leaves;
use crate::record::Record;
use crate::strict::PICKS;
use draw::{half_turns, Draw};
use reference::refusals::{reach, BLOCKS};

use List::{Floats, History, Joints};

/// Draws of each leaf besides its edges.
const DRAWS: usize = 3;

/// Slides between joints that turn, and joints that turn alone.
const SHAPES: [Shape; 2] = [&[&[13, 33, 0, 20], &[43, 26]], &[&[23, 12, 11, 16, 15, 24]]];
/// A joint that turns and one that slides.
const BOTH: Shape = &[&[13, 43]];

/// 4.5, and the half turns that half of a joint reaches.
fn marks() -> Vec<f64> {
    let reached = half_turns().into_iter().take_while(|&angle| angle <= 32.0);
    reached.chain([4.5]).collect()
}

/// The marks with the floats beside, half of a raised joint at the end of its range, some
/// that no joint has, and draws; of both signs.
fn angles(draw: &mut Draw) -> Vec<f64> {
    let around = |angle: f64| [angle, angle.next_up(), angle.next_down()];
    let mut all: Vec<f64> = marks().into_iter().flat_map(around).collect();
    all.extend([32.0, 32.00000005, 1e300]);
    all.extend([40, 52, 53].map(|power| 2f64.powi(power)));
    for most in [33.0, 65.0] {
        all.extend((0..DRAWS).map(|_| draw.between(4.5, most)));
    }
    all.into_iter().flat_map(|angle| [angle, -angle]).collect()
}

/// `sin` and `cos` of all angles, `get_quat_*` of twice the marks.
fn leaves(draw: &mut Draw, records: &mut Vec<Record>) {
    let mut ask = |call: u16, x: f64| {
        records.push(leaves::asked(call, &[x], &leaves::answer(call, &[x])));
    };
    for call in [12, 13] {
        angles(draw).into_iter().for_each(|angle| ask(call, angle));
    }
    for call in [34, 35, 36] {
        for half in marks().into_iter().flat_map(|half| [half, -half]) {
            ask(call, 2.0 * half);
        }
    }
}

/// The calls on a block of joints.
fn on_joints() -> impl Iterator<Item = Call> {
    CALLS
        .into_iter()
        .filter(|call| call.read().contains(&Joints))
}

/// Anywhere in the joints' ranges but next to their ends: the history is drawn beside.
fn far(shape: Shape, draw: &mut Draw) -> Lent {
    lent_at(shape, draw, |draw, code| {
        draw.between(-0.99, 0.99) * reach(code)
    })
}

/// Joints at the ends of their ranges, the history's at the other ends.
fn at_the_ends(sign: f64, draw: &mut Draw) -> Lent {
    let mut lent = far(BOTH, draw);
    let ends: Vec<f64> = BOTH[0].iter().map(|&code| sign * reach(code)).collect();
    lent.set(Joints, &ends);
    let others: Vec<f64> = ends.iter().map(|end| -end).collect();
    lent.set(History, &others.repeat(BLOCKS));
    lent
}

/// Two links up 1, the first turned by -1 about y, the second by five turns about x: half
/// of that is a tie, and i of the last rotation a zero by whose sign the tie is seen.
fn tie(draw: &mut Draw) -> Lent {
    let mut lent = far(&[&[12, 11]], draw);
    lent.set(Floats, &[0.0, 0.0, 1.0, 1.0, 0.0, 0.0, 0.0].repeat(2));
    lent.set(Joints, &[-1.0, 31.41592653589793]);
    lent
}

fn accepted(draw: &mut Draw, records: &mut Vec<Record>) {
    let mut ask = |call, lent: &Lent| records.push(asked(call, lent, &exact(call, lent)));
    ask(Call::Frames, &tie(draw));
    for call in on_joints() {
        for (at, shape) in SHAPES.into_iter().enumerate() {
            let mut lent = far(shape, draw);
            lent.set_pick(if at % 2 == 0 { 0 } else { PICKS[0] });
            ask(call, &lent);
        }
        for sign in [1.0, -1.0] {
            ask(call, &at_the_ends(sign, draw));
        }
    }
}

/// The next float beyond the range of each joint in turn, in the block and in each block
/// of the history.
fn refused(draw: &mut Draw, records: &mut Vec<Record>) {
    for call in on_joints() {
        let mut ask = |list: List, at: usize| {
            let mut lent = far(BOTH, draw);
            let sign = if at % 4 < 2 { 1.0 } else { -1.0 };
            put_beyond(&mut lent, list, at, sign);
            records.push(asked(call, &lent, &exact(call, &lent)));
        };
        let joints = BOTH[0].len();
        (0..joints).for_each(|at| ask(Joints, at));
        if call.read().contains(&History) {
            (0..BLOCKS * joints).for_each(|at| ask(History, at));
        }
    }
}

pub fn all(draw: &mut Draw) -> Vec<Record> {
    let mut records = Vec::new();
    leaves(draw, &mut records);
    accepted(draw, &mut records);
    refused(draw, &mut records);
    records
}

/// Gives a record of `sin`, `cos` or `get_quat_*` the answer of the series as they stood
/// before change 7.
#[cfg(test)]
pub fn undo(record: &mut Record) {
    if matches!(record.call, 12 | 13 | 34..=36) {
        let x = f64::from_le_bytes(record.lists[0][..].try_into().expect("one float"));
        record.lists[1] = crate::record::answer_bytes(&unreduced(record.call, x));
    }
}

#[cfg(test)]
fn unreduced(call: u16, x: f64) -> Vec<f64> {
    let series = |a: f64, divisor: fn(i32) -> i32| {
        let step = |s: f64, n: i32| 1.0 - s * (a * a) / f64::from(divisor(n));
        (1..=16).rev().fold(1.0, step)
    };
    let sine = |a: f64| a * series(a, |n| 2 * n * (2 * n + 1));
    let cosine = |a: f64| series(a, |n| (2 * n - 1) * 2 * n);
    match call {
        12 => vec![sine(x)],
        13 => vec![cosine(x)],
        _ => {
            let mut q = vec![cosine(x * 0.5), 0.0, 0.0, 0.0];
            q[usize::from(call - 33)] = sine(x * 0.5);
            q
        }
    }
}

#[cfg(test)]
mod tests {
    use super::*;
    use reference::refusals::ACCEPTED;

    /// What is to be taken is, what is to be refused is by 7.
    #[test]
    fn a_range_ends_where_it_should() {
        let mut draw = Draw::new(3);
        let (mut taken, mut not) = (Vec::new(), Vec::new());
        accepted(&mut draw, &mut taken);
        refused(&mut draw, &mut not);
        assert!(taken.iter().all(|record| record.number == ACCEPTED));
        assert!(not.iter().all(|record| record.number == 7));
        // 64 and 8 in the block and in each of the history's.
        let of = |call: Call| {
            not.iter()
                .filter(|record| record.call == call as u16)
                .count()
        };
        assert_eq!((of(Call::Frames), of(Call::Update)), (2, 10));
    }

    /// Most of the joints that turn are beyond 8, and no slide is.
    #[test]
    fn turns_are_counted_on() {
        let mut draw = Draw::new(3);
        let (mut beyond, mut all) = (0, 0);
        for _ in 0..100 {
            for shape in SHAPES {
                let codes = shape.concat().into_iter().filter(|&code| code != 0);
                for (code, v) in codes.zip(far(shape, &mut draw).floats(Joints)) {
                    assert!(v.abs() < reach(code));
                    all += usize::from(reach(code) > 8.0);
                    beyond += usize::from(v.abs() > 8.0);
                }
            }
        }
        assert!(4 * beyond > 3 * all, "{beyond} of {all}");
    }

    /// +0.0, where the tie taken away from zero would leave -0.0.
    #[test]
    fn a_tie_shows_in_a_zero() {
        let lent = tie(&mut Draw::new(3));
        let mut record = asked(Call::Frames, &lent, &exact(Call::Frames, &lent));
        let bytes: Vec<u8> = record.outputs().map(|byte| *byte).collect();
        // Three positions, then w and i of the fourth rotation.
        let i = 8 * (3 * 3 + 4 * 3 + 1);
        assert_eq!(bytes[i..i + 8], [0; 8]);
    }
}
