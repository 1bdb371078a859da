//! The cases of the byte calls: sheets that document 01 takes, at drawn joints
//! and at the ends of their ranges, and one fault or two for every number that
//! the call can answer.

use crate::arms::{asked, Call, Counts, Lent, List, CALLS};
use crate::record::{u16_bytes, Record};
use draw::Draw;
use reference::refusals::{reach, u16s};
use reference::sheet;

use List::{Codes, Floats, Goals, History, Joints, Limits, Sizes};

/// The codes of each chain's links.
pub type Shape = &'static [&'static [u16]];

pub const SMALL: Shape = &[&[13, 12]];
pub const SHAPES: [Shape; 5] = [
    SMALL,
    &[&[0, 14, 36, 20, 0]],
    &[&[13, 32, 0, 10], &[25, 11]],
    &[&[13, 12, 11, 16, 15, 24, 23]],
    &[&[0, 13, 22, 31, 12, 15, 11, 26, 10]],
];
/// Sixteen joints on four chains, and on one: asked once a call.
pub const LARGE: [Shape; 2] = [
    &[
        &[13, 12, 11, 26],
        &[33, 12, 0, 11, 14],
        &[22, 15, 31, 16],
        &[13, 12, 11, 10],
    ],
    &[&[
        13, 12, 11, 16, 15, 14, 23, 22, 21, 13, 12, 11, 33, 12, 11, 10,
    ]],
];

/// A sheet of this shape with drawn numbers; everything near everything else,
/// where the losses are not all tail.
pub fn lent(shape: &[&[u16]], draw: &mut Draw) -> Lent {
    lent_at(shape, draw, |draw, _| draw.between(-2.5, 2.5))
}

/// The same with joints that are drawn by their codes.
pub fn lent_at(shape: &[&[u16]], draw: &mut Draw, joint: fn(&mut Draw, u16) -> f64) -> Lent {
    let codes = shape.concat();
    let again = |chain: &&[u16]| -> usize {
        let joints = chain.iter().enumerate().filter(|(_, &code)| code != 0);
        joints.map(|(at, _)| chain.len() - at).sum()
    };
    let counts = Counts {
        chains: shape.len(),
        links: codes.len(),
        joints: codes.iter().filter(|&&code| code != 0).count(),
        walked: codes.len() + shape.iter().map(again).sum::<usize>(),
    };
    let mut sizes = vec![shape.len() as u16];
    sizes.extend(shape.iter().map(|chain| chain.len() as u16));
    let mut lent = Lent {
        counts,
        ..Lent::default()
    };
    lent.bytes[Sizes as usize] = u16_bytes(&sizes);
    lent.bytes[Codes as usize] = u16_bytes(&codes);
    let floats: Vec<[f64; 7]> = (0..counts.links).map(|_| link(draw)).collect();
    lent.set(Floats, floats.as_flattened());
    let limits: Vec<[f64; 2]> = (0..counts.joints).map(|_| limits(draw)).collect();
    lent.set(Limits, limits.as_flattened());
    let moving = codes.iter().filter(|&&code| code != 0);
    let joints: Vec<f64> = moving.map(|&code| joint(draw, code)).collect();
    aim(&mut lent, &sizes, &codes, &joints, draw);
    lent
}

/// These joints, a history of nearby blocks, and goals near their end poses.
fn aim(lent: &mut Lent, sizes: &[u16], codes: &[u16], joints: &[f64], draw: &mut Draw) {
    lent.set(Joints, joints);
    let mut history = Vec::new();
    for block in 0..4 {
        let by = 0.02 * f64::from(block);
        history.extend(joints.iter().map(|v| v + draw.between(-by, by)));
    }
    lent.set(History, &history);
    let (floats, limits) = (lent.floats(Floats), lent.floats(Limits));
    let robot = sheet::robot(sizes, codes, &floats, &limits);
    let mut goals = Vec::new();
    for end in sheet::ends(&robot, &history[history.len() - joints.len()..]).chunks_exact(7) {
        goals.extend(end);
        goals.extend((0..6).map(|_| tolerance(draw)));
    }
    lent.set(Goals, &goals);
}

pub fn link(draw: &mut Draw) -> [f64; 7] {
    let [x, y, z]: [f64; 3] = std::array::from_fn(|_| draw.between(-0.6, 0.6));
    let [w, i, j, k] = match draw.word() % 4 {
        0 => draw.pick(&[
            [1.0, 0.0, 0.0, 0.0],
            [-1.0, 0.0, 0.0, -0.0],
            [0.0, 0.0, 0.0, 1.0],
        ]),
        _ => turn(draw),
    };
    [x, y, z, w, i, j, k]
}

/// A quaternion of length 1 as near as floats allow.
pub fn turn(draw: &mut Draw) -> [f64; 4] {
    let q: [f64; 4] = std::array::from_fn(|_| draw.between(0.1, 1.0));
    let size = q.iter().map(|v| v * v).sum::<f64>().sqrt();
    q.map(|v| v / size)
}

fn limits(draw: &mut Draw) -> [f64; 2] {
    match draw.word() % 4 {
        0 => [-999.0, 999.0],
        _ => [draw.between(-4.0, -2.0), draw.between(2.0, 4.0)],
    }
}

/// A groove, a swamp with a groove, or a swamp; the ends among them.
#[allow(clippy::approx_constant)]
fn tolerance(draw: &mut Draw) -> f64 {
    let bound = draw.between(0.01, 3.2);
    draw.pick(&[
        0.0,
        0.01,
        0.01f64.next_up(),
        0.05,
        bound,
        3.1415926,
        3.2,
        -1.0,
    ])
}

/// Outputs just as long as they need be.
pub fn exact(call: Call, lent: &Lent) -> Vec<usize> {
    let needs = call.needs(&lent.counts).into_iter();
    needs.map(|(count, unit)| count * unit).collect()
}

/// Outputs with room to spare, by another count each.
fn long(call: Call, lent: &Lent) -> Vec<usize> {
    let needs = call.needs(&lent.counts).into_iter().enumerate();
    needs
        .map(|(at, (count, unit))| (count + at + 1) * unit)
        .collect()
}

/// Accepted: drawn sheets with exact and with long outputs, then joints at the
/// ends of a slide's range and of both zeros.
fn accepted(call: Call, draw: &mut Draw, records: &mut Vec<Record>) {
    for shape in SHAPES {
        let lent = lent(shape, draw);
        records.push(asked(call, &lent, &exact(call, &lent)));
    }
    for shape in [SHAPES[0], SHAPES[2]] {
        let lent = lent(shape, draw);
        records.push(asked(call, &lent, &long(call, &lent)));
    }
    if call.read().contains(&Joints) {
        for value in [8.0, -8.0, 0.0, -0.0] {
            let mut lent = lent(SHAPES[1], draw);
            lent.set(Joints, &vec![value; lent.counts.joints]);
            records.push(asked(call, &lent, &exact(call, &lent)));
        }
    }
    for shape in LARGE {
        let lent = lent(shape, draw);
        records.push(asked(call, &lent, &exact(call, &lent)));
    }
}

/// Puts a number in the place of one that a list has.
pub fn put(lent: &mut Lent, list: List, at: usize, value: f64) {
    lent.bytes[list as usize][8 * at..8 * at + 8].copy_from_slice(&value.to_le_bytes());
}

pub fn put_u16(lent: &mut Lent, list: List, at: usize, value: u16) {
    lent.bytes[list as usize][2 * at..2 * at + 2].copy_from_slice(&value.to_le_bytes());
}

/// Puts the float next beyond a joint's range in its place in a block.
pub fn put_beyond(lent: &mut Lent, list: List, at: usize, sign: f64) {
    let mut codes = Vec::new();
    u16s(lent.get(Codes), &mut codes);
    codes.retain(|&code| code != 0);
    let reach = reach(codes[at % codes.len()]);
    put(lent, list, at, sign * reach.next_up());
}

/// Cuts bytes off a list's end.
pub fn cut(lent: &mut Lent, list: List, bytes: usize) {
    let length = lent.get(list).len() - bytes;
    lent.bytes[list as usize].truncate(length);
}

/// What is done to lists that would be taken, the refusal that follows, and
/// the list that must be read for it.
pub type Fault = (u32, List, fn(&mut Lent));

#[rustfmt::skip]
pub const FAULTS: [Fault; 30] = [
    (1, Sizes, |l| l.bytes[Sizes as usize].clear()),
    (1, Sizes, |l| put_u16(l, Sizes, 0, 5)),
    (1, Sizes, |l| put_u16(l, Sizes, 0, 0)),
    (1, Sizes, |l| put_u16(l, Sizes, 1, 17)),
    (1, Sizes, |l| put_u16(l, Sizes, 1, 0)),
    (1, Sizes, |l| cut(l, Sizes, 1)),
    (2, Codes, |l| cut(l, Codes, 2)),
    (2, Floats, |l| cut(l, Floats, 8)),
    (2, Floats, |l| cut(l, Floats, 1)),
    (2, Sizes, |l| put_u16(l, Sizes, 1, 3)),
    (3, Codes, |l| put_u16(l, Codes, 0, 37)),
    (3, Codes, |l| put_u16(l, Codes, 1, 9)),
    (4, Codes, |l| put_u16(l, Codes, 1, 0)),
    (5, Limits, |l| cut(l, Limits, 16)),
    (5, Limits, |l| { put(l, Limits, 0, 1.0); put(l, Limits, 1, 1.001) }),
    (5, Limits, |l| { put(l, Limits, 2, -999.0); put(l, Limits, 3, 998.0) }),
    (5, Limits, |l| put(l, Limits, 1, f64::NAN)),
    (6, Floats, |l| put(l, Floats, 9, 10.0f64.next_up())),
    (6, Floats, |l| put(l, Floats, 0, f64::NAN)),
    (6, Floats, |l| put(l, Floats, 3, 1.1)),
    (7, Joints, |l| put_beyond(l, Joints, 1, 1.0)),
    (7, Joints, |l| cut(l, Joints, 8)),
    (7, Joints, |l| put(l, Joints, 0, f64::NAN)),
    (7, History, |l| put_beyond(l, History, 7, -1.0)),
    (7, History, |l| cut(l, History, 4)),
    (8, Goals, |l| cut(l, Goals, 8)),
    (8, Goals, |l| put(l, Goals, 2, 100.0f64.next_up())),
    (8, Goals, |l| put(l, Goals, 12, f64::INFINITY)),
    (8, Goals, |l| put(l, Goals, 4, 1.0)),
    (8, Goals, |l| put(l, Goals, 0, f64::NAN)),
];

/// Whether a call reads the list of a fault.
pub fn meets(call: Call, fault: &Fault) -> bool {
    call.read().contains(&fault.1)
}

/// Refused for one fault; loading shows them all, the others every number.
fn refused(call: Call, draw: &mut Draw, records: &mut Vec<Record>) {
    let mut last = 0;
    for fault in FAULTS.iter().filter(|fault| meets(call, fault)) {
        if call != Call::Load && fault.0 == last && fault.0 < 7 {
            continue;
        }
        last = fault.0;
        let mut lent = lent(SMALL, draw);
        fault.2(&mut lent);
        records.push(asked(call, &lent, &exact(call, &lent)));
    }
}

/// Refused for two faults at once: the lower number wins.
fn refused_twice(call: Call, draw: &mut Draw, records: &mut Vec<Record>) {
    let faults: Vec<&Fault> = FAULTS.iter().filter(|fault| meets(call, fault)).collect();
    for step in [5, 7] {
        let mut lent = lent(SMALL, draw);
        faults[faults.len() - 1].2(&mut lent);
        faults[faults.len() - step].2(&mut lent);
        records.push(asked(call, &lent, &exact(call, &lent)));
    }
}

/// Refused for the shape: more joints than 16, and a later chain with more
/// joints than the first has links.
pub fn refused_shapes(call: Call, draw: &mut Draw, records: &mut Vec<Record>) {
    const NINE: &[u16] = &[13; 9];
    let shapes: [Shape; 2] = [&[NINE, &[12; 8]], &[&[13, 12], &[11, 12, 13]]];
    for shape in shapes {
        let lent = lent(shape, draw);
        records.push(asked(call, &lent, &exact(call, &lent)));
    }
}

/// Refused for an output: each in turn too short by a number, by a byte, or
/// ragged though long enough.
fn too_short(call: Call, draw: &mut Draw, records: &mut Vec<Record>) {
    let lent = lent(SMALL, draw);
    let rooms = exact(call, &lent);
    for (at, (_, unit)) in call.needs(&lent.counts).into_iter().enumerate() {
        for length in [rooms[at] - unit, rooms[at] - 1, rooms[at] + 1] {
            let mut rooms = rooms.clone();
            rooms[at] = length;
            records.push(asked(call, &lent, &rooms));
        }
    }
}

pub fn all(draw: &mut Draw) -> Vec<Record> {
    let mut records = Vec::new();
    for call in CALLS {
        accepted(call, draw, &mut records);
        refused(call, draw, &mut records);
        refused_twice(call, draw, &mut records);
        if call == Call::Load {
            refused_shapes(call, draw, &mut records);
        }
        too_short(call, draw, &mut records);
    }
    records
}

#[cfg(test)]
mod tests {
    use super::*;

    /// Each fault alone is refused with its number.
    #[test]
    fn a_fault_has_its_number() {
        let mut draw = Draw::new(3);
        for call in CALLS {
            for fault in FAULTS.iter().filter(|fault| meets(call, fault)) {
                let mut lent = lent(SMALL, &mut draw);
                fault.2(&mut lent);
                let record = asked(call, &lent, &exact(call, &lent));
                assert_eq!(record.number, fault.0, "{call:?}");
            }
        }
    }

    /// Every number that a call can answer is stored, and nothing else.
    #[test]
    fn every_number_is_there() {
        let records = all(&mut Draw::new(crate::SEED));
        for call in CALLS {
            let mut possible = vec![0, 1, 2, 3, 4, 5, 6];
            possible.extend(call.read().contains(&Joints).then_some(7));
            possible.extend(call.read().contains(&Goals).then_some(8));
            possible.extend(call.read().contains(&Joints).then_some(9));
            let own = records.iter().filter(|r| r.call == call as u16);
            let mut met: Vec<u32> = own.map(|r| r.number).collect();
            met.sort_unstable();
            met.dedup();
            assert_eq!(met, possible, "{call:?}");
        }
    }
}
