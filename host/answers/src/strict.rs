//! The cases of the strict list: the calls that take a pick, with weights and with
//! tools, taken and refused, and the leaves that came with it.

use crate::arms::{asked, Call, Lent, List};
use crate::cases::{exact, lent, link, LARGE, SHAPES, SMALL};
use crate::leaves::{self, four, three, unit, vector};
use crate::record::Record;
use crate::tools::{self, mounted, spoil, FOUR};
use crate::weights::{self, alone, drawn, Share, SHARES};
use draw::kind::Kind;
use draw::{turned, Draw, HALVES, NANS, SIGNS};
use nalgebra::UnitQuaternion;
use reference::losses::{position_goal, rotation_goal};
use reference::sheet::GOAL_FLOATS;
use reference::utils_rust::transformations::{
    angle_between_quaternion, quaternion_disp, quaternion_log,
};
use standins::acos;

/// Numbers that pick the strict list, in turn.
pub const PICKS: [u16; 4] = [1, 2, 256, u16::MAX];
/// Draws of each leaf besides its edges.
const DRAWS: usize = 2;

/// The calls that take a pick.
#[cfg(test)]
fn picking() -> impl Iterator<Item = Call> {
    let goals = SHARES.map(|(call, ..)| call);
    goals.into_iter().chain([Call::Sizing])
}

/// Where the pick is in a record, if its call takes one.
#[cfg(test)]
pub fn place(record: &Record) -> Option<usize> {
    let call = picking().find(|call| *call as u16 == record.call)?;
    call.read().iter().position(|list| *list == List::Strict)
}

/// The small sheet with its goal turned away from the end pose by twice the angle.
fn apart(half: f64, draw: &mut Draw) -> Lent {
    let mut lent = mounted(SMALL, &[], draw);
    let mut goals = lent.floats(List::Goals);
    for goal in goals.chunks_exact_mut(GOAL_FLOATS) {
        let q = std::array::from_fn(|part| goal[3 + part]);
        goal[3..7].copy_from_slice(&turned(q, half, draw.vector(Kind::Range)));
    }
    lent.set(List::Goals, &goals);
    // Where the history ends, which is where `mounted` has the goals.
    let history = lent.floats(List::History);
    lent.set(List::Joints, &history[history.len() - lent.counts.joints..]);
    lent
}

/// Sheets of one to four chains, with weights and with tools, and goals whose
/// rotation lies where something changes.
fn taken(draw: &mut Draw) -> Vec<Lent> {
    let mut all: Vec<Lent> = SHAPES.map(|shape| lent(shape, draw)).to_vec();
    for (shape, weights) in [
        (SMALL, alone(0, 1000.0)),
        (SMALL, alone(1, 0.5)),
        (SHAPES[2], drawn(draw)),
    ] {
        let mut lent = lent(shape, draw);
        lent.set(List::Weights, &weights);
        all.push(lent);
    }
    for (shape, chains) in [(SHAPES[2], &[1][..]), (FOUR, &[0, 1, 2, 3])] {
        let mounts: Vec<(usize, tools::Tool)> = chains.iter().map(|&at| (at, link(draw))).collect();
        let mut lent = mounted(shape, &mounts, draw);
        lent.set(List::Weights, &drawn(draw));
        all.push(lent);
    }
    all.extend(HALVES.map(|half| apart(half, draw)));
    all
}

/// Under the pick; one of them under its number for the tolerance list too.
fn accepted(share: Share, draw: &mut Draw, records: &mut Vec<Record>) {
    let (call, first, step) = share;
    let mut ask = |lent: &Lent| records.push(asked(call, lent, &exact(call, lent)));
    let own = taken(draw).into_iter().skip(first).step_by(step);
    for (at, mut lent) in own.enumerate() {
        lent.set_pick(PICKS[at % PICKS.len()]);
        ask(&lent);
        if at == 0 {
            lent.set_pick(0);
            ask(&lent);
        }
    }
}

/// The numbers of the refusals that are stored beside a pick.
const REFUSED: [u32; 7] = [1, 5, 7, 8, 9, 10, 11];

/// The small sheet under the pick with a fault of this number; and how much the
/// first output is too short.
fn spoilt(number: u32, draw: &mut Draw) -> (Lent, usize) {
    let mut lent = mounted(SMALL, &[(0, link(draw))], draw);
    lent.set(List::Weights, &drawn(draw));
    lent.set_pick(PICKS[number as usize % PICKS.len()]);
    match number {
        9 => return (lent, 1),
        10 => weights::WRONG[0].2(&mut lent),
        11 => tools::WRONG[0].2(&mut lent),
        _ => spoil(number, &mut lent),
    }
    (lent, 0)
}

/// A pick changes no refusal.
fn refused(share: Share, draw: &mut Draw, records: &mut Vec<Record>) {
    let (call, first, step) = share;
    for &number in REFUSED.iter().skip(first).step_by(step) {
        let (lent, short) = spoilt(number, draw);
        let mut rooms = exact(call, &lent);
        rooms[0] -= short;
        records.push(asked(call, &lent, &rooms));
    }
}

/// Plans of one to four chains, and refusals.
fn sizing(draw: &mut Draw, records: &mut Vec<Record>) {
    let mut ask = |lent: &Lent, short: usize| {
        let room = exact(Call::Sizing, lent)[0] - short;
        records.push(asked(Call::Sizing, lent, &[room]));
    };
    let shapes = [SMALL, SHAPES[2], FOUR, LARGE[1], SMALL];
    for (shape, pick) in shapes.into_iter().zip(PICKS.into_iter().chain([0])) {
        let mut lent = lent(shape, draw);
        lent.set_pick(pick);
        ask(&lent, 0);
    }
    for number in [4, 9] {
        let (lent, short) = spoilt(number, draw);
        ask(&lent, short);
    }
}

/// Zeros, both sides of 1 and -1, what is no cosine, and draws between.
fn cosines(draw: &mut Draw) -> Vec<Vec<f64>> {
    let mut all = SIGNS.to_vec();
    all.extend([1.0f64.next_up(), 1.0f64.next_down()]);
    all.extend([(-1.0f64).next_up(), (-1.0f64).next_down()]);
    all.extend([5e-324, f64::MAX, f64::INFINITY, f64::NEG_INFINITY]);
    all.push(f64::from_bits(NANS[3]));
    all.extend((0..DRAWS).map(|_| draw.between(-1.0, 1.0)));
    all.into_iter().map(|w| vec![w]).collect()
}

/// Quaternions of any length; none, and more than floats have room for.
fn quaternions(draw: &mut Draw) -> Vec<Vec<f64>> {
    let mut all: Vec<Vec<f64>> = [0.0, f64::MAX, 5e-324, f64::INFINITY, f64::NAN]
        .map(|part| vec![part; 4])
        .to_vec();
    all.push(vec![1e8, 1.0, -1.0, 1.0]);
    all.push(vec![-1.0, 0.0, -0.0, 0.0]);
    all.extend((0..DRAWS).map(|_| (0..4).map(|_| draw.between(-2.0, 2.0)).collect()));
    all
}

/// Rotations by every w at which something changes, either sign.
fn rotations(draw: &mut Draw) -> Vec<Vec<f64>> {
    let none = [1.0, 0.0, 0.0, 0.0];
    let mut all: Vec<Vec<f64>> = HALVES
        .iter()
        .flat_map(|&half| [half, half + 1e-9])
        .map(|half| turned(none, half, draw.vector(Kind::Range)).to_vec())
        .collect();
    all.extend([vec![-1.0, 0.25, -0.0, 0.5], vec![f64::NAN, 0.25, 0.5, 1.0]]);
    all.push(vec![0.5, f64::INFINITY, f64::NAN, 0.0]);
    all.extend((0..DRAWS).map(|_| draw.quaternion(Kind::Range).to_vec()));
    all
}

/// A rotation and one beside it; none at all, and what overflows on the way: then
/// one of the two angles is a NaN, and the least is the other.
fn pairs(draw: &mut Draw) -> Vec<Vec<f64>> {
    let pair = |q: [f64; 4], other: [f64; 4]| [q, other].concat();
    let q = draw.quaternion(Kind::Range);
    let mut all = vec![
        pair(q, q),
        pair(q, q.map(|part| -part)),
        pair(q, [0.0; 4]),
        pair([2.0; 4], [f64::MAX; 4]),
        pair([f64::NAN; 4], q),
    ];
    for half in HALVES {
        let q = draw.quaternion(Kind::Range);
        all.push(pair(q, turned(q, half, draw.vector(Kind::Range))));
    }
    all
}

/// Ends at a goal, near it and far.
fn positions(draw: &mut Draw) -> Vec<Vec<f64>> {
    let goal = draw.vector(Kind::Range);
    let mut all: Vec<Vec<f64>> = [0.0, 1e-9, 0.05, 3.0, 1e200]
        .map(|by| [goal, goal.map(|v| v + draw.between(-by, by))].concat())
        .to_vec();
    all.push(vec![-0.0; 6]);
    all.push([[0.0; 3], [f64::INFINITY, 0.0, f64::NAN]].concat());
    all
}

/// A leaf by its number in the stored list.
fn answer(call: u16, x: &[f64]) -> Vec<f64> {
    let second = || unit(&x[4..]);
    match call {
        44 => vec![acos(x[0])],
        45 => four(UnitQuaternion::from_quaternion(*unit(x))),
        46 => three(quaternion_log(unit(x))),
        47 => three(quaternion_disp(unit(x), second())),
        48 => vec![angle_between_quaternion(unit(x), second())],
        49 => vec![position_goal(vector(x), vector(&x[3..]))],
        50 => vec![rotation_goal(unit(x), second())],
        _ => panic!("{call} is no leaf of the strict list"),
    }
}

fn arguments(call: u16, draw: &mut Draw) -> Vec<Vec<f64>> {
    match call {
        44 => cosines(draw),
        45 => quaternions(draw),
        46 => rotations(draw),
        49 => positions(draw),
        _ => pairs(draw),
    }
}

pub fn all(draw: &mut Draw) -> Vec<Record> {
    let mut records = Vec::new();
    for share in SHARES {
        accepted(share, draw, &mut records);
        refused(share, draw, &mut records);
    }
    sizing(draw, &mut records);
    for call in 44..=50 {
        let own = arguments(call, draw).into_iter();
        records.extend(own.map(|x| leaves::asked(call, &x, &answer(call, &x))));
    }
    records
}

#[cfg(test)]
mod tests {
    use super::*;

    fn of(records: &[Record], call: Call) -> impl Iterator<Item = &Record> {
        records
            .iter()
            .filter(move |record| record.call == call as u16)
    }

    /// Each call has its share of the numbers under a pick, and both picks.
    #[test]
    fn every_number_is_there() {
        let records = all(&mut Draw::new(crate::SEED));
        for (call, first, step) in SHARES {
            let mut met: Vec<u32> = of(&records, call).map(|record| record.number).collect();
            met.sort_unstable();
            met.dedup();
            let share = REFUSED.into_iter().skip(first).step_by(step);
            let possible: Vec<u32> = std::iter::once(0).chain(share).collect();
            assert_eq!(met, possible, "{call:?}");
        }
        for call in picking() {
            for pick in PICKS.into_iter().chain([0]) {
                let stored = pick.to_le_bytes();
                let met = |record: &Record| record.lists[place(record).unwrap()] == stored;
                assert!(of(&records, call).any(met), "{call:?}, {pick}");
            }
        }
    }

    /// What a call writes.
    fn outputs(call: Call, lent: &Lent) -> Vec<u8> {
        let mut record = asked(call, lent, &exact(call, lent));
        record.outputs().map(|byte| *byte).collect()
    }

    /// The pick shows in every call, whatever its number; no byte and 0 are one.
    #[test]
    fn a_pick_shows() {
        let mut draw = Draw::new(3);
        for mut lent in taken(&mut draw) {
            for call in picking() {
                lent.bytes[List::Strict as usize].clear();
                let none = outputs(call, &lent);
                lent.set_pick(0);
                assert_eq!(outputs(call, &lent), none, "{call:?}");
                lent.set_pick(PICKS[0]);
                let strict = outputs(call, &lent);
                assert_ne!(strict, none, "{call:?}");
                for pick in PICKS {
                    lent.set_pick(pick);
                    assert_eq!(outputs(call, &lent), strict, "{call:?}, {pick}");
                }
            }
        }
    }

    /// Where one of two angles is a NaN the other serves.
    #[test]
    fn a_nan_gives_way() {
        assert!(quaternion_disp(unit(&[2.0; 4]), unit(&[f64::MAX; 4]))
            .x
            .is_nan());
        assert_eq!(rotation_goal(unit(&[2.0; 4]), unit(&[f64::MAX; 4])), -1.0);
        assert_eq!(
            rotation_goal(unit(&[1.0, 0.0, 0.0, 0.0]), unit(&[0.0; 4])),
            -1.0
        );
    }
}
