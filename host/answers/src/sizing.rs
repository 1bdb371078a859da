//! The cases of `sizing`: sheets of many shapes, faults alone and in every set
//! of numbers, and outputs of every length from none on.

use crate::arms::{asked, Call, Lent, List};
use crate::cases::{
    cut, exact, lent, meets, put, put_u16, refused_shapes, Fault, Shape, FAULTS, LARGE, SHAPES,
    SMALL,
};
use crate::record::Record;
use draw::Draw;

use List::{Codes, Floats, Sizes};

/// The numbers of its refusals.
const NUMBERS: [u32; 6] = [1, 2, 3, 4, 6, 9];
/// Drawn sheets for each count of chains.
const DRAWS: usize = 5;
/// The most that a chain may have.
const LINKS: usize = 16;
/// Every code but that of a fixed link is one of a kind and an axis.
const KINDS: [u16; 3] = [10, 20, 30];
const AXES: u16 = 7;

const FRONT: &[u16] = &[13, 12, 0, 0, 0, 0, 0, 0, 0, 0, 0, 0, 0, 0, 0, 0];
const ENDS: &[u16] = &[13, 0, 0, 0, 0, 0, 0, 0, 0, 0, 0, 0, 0, 0, 0, 12];
const BACK: &[u16] = &[0, 0, 0, 0, 0, 0, 0, 0, 0, 0, 0, 0, 0, 0, 13, 12];
const SPREAD: &[u16] = &[11, 0, 0, 32, 0, 0, 0, 20, 0, 0, 0, 0, 0, 0, 0, 26];

/// At the edge of what is taken: as many links as there can be, joints at a
/// chain's front or back, and as many joints in a later chain as the first one
/// has links.
const TAKEN: [Shape; 7] = [
    &[FRONT],
    &[ENDS],
    &[BACK],
    &[SPREAD; 4],
    &[&[13; 8], &[12; 8]],
    &[&[13, 0, 12], &[11, 12, 33]],
    &[&[13, 12], &[21, 36], &[10, 30], &[20, 23]],
];

/// Beyond it: a chain with a joint too few, in front and behind.
const BEYOND: [Shape; 3] = [
    &[&[0, 13, 0], &[11, 12]],
    &[&[11, 12], &[0, 13, 0]],
    &[&[11, 12], &[0, 0]],
];

/// The largest w for which w alone is still a rotation.
pub fn widest() -> f64 {
    let end = 1.000000001f64;
    let mut w = end.sqrt().next_up();
    while w * w > end {
        w = w.next_down();
    }
    w
}

/// The last link's offset.
fn turn(lent: &mut Lent, offset: [f64; 4]) {
    for (at, part) in offset.into_iter().enumerate() {
        put(lent, Floats, 10 + at, part);
    }
}

/// What is done to the small sheet, and the number that follows; besides the
/// faults that the other calls share.
#[rustfmt::skip]
const EDGES: [Fault; 31] = [
    (0, Floats, |l| put(l, Floats, 0, 10.0)),
    (0, Floats, |l| put(l, Floats, 9, -10.0)),
    (0, Floats, |l| put(l, Floats, 8, -0.0)),
    (0, Floats, |l| turn(l, [-1.0, 0.0, -0.0, 0.0])),
    (0, Floats, |l| turn(l, [widest(), 0.0, 0.0, 0.0])),
    (1, Sizes, |l| put_u16(l, Sizes, 0, 2)),
    (1, Sizes, |l| put_u16(l, Sizes, 0, u16::MAX)),
    (1, Sizes, |l| put_u16(l, Sizes, 1, u16::MAX)),
    (1, Sizes, |l| l.bytes[Sizes as usize].extend([2, 0])),
    (1, Sizes, |l| l.bytes[Sizes as usize].push(0)),
    (2, Sizes, |l| put_u16(l, Sizes, 1, 1)),
    (2, Codes, |l| l.bytes[Codes as usize].clear()),
    (2, Codes, |l| l.bytes[Codes as usize].extend([13, 0])),
    (2, Codes, |l| l.bytes[Codes as usize].push(0)),
    (2, Codes, |l| cut(l, Codes, 1)),
    (2, Floats, |l| l.bytes[Floats as usize].clear()),
    (2, Floats, |l| l.bytes[Floats as usize].extend([0; 8])),
    (2, Floats, |l| l.bytes[Floats as usize].push(0)),
    (3, Codes, |l| put_u16(l, Codes, 0, 1)),
    (3, Codes, |l| put_u16(l, Codes, 0, 17)),
    (3, Codes, |l| put_u16(l, Codes, 1, 29)),
    (3, Codes, |l| put_u16(l, Codes, 1, 47)),
    (3, Codes, |l| put_u16(l, Codes, 1, 256 + 13)),
    (3, Codes, |l| put_u16(l, Codes, 1, u16::MAX)),
    (4, Codes, |l| put_u16(l, Codes, 0, 0)),
    (6, Floats, |l| put(l, Floats, 0, (-10.0f64).next_down())),
    (6, Floats, |l| put(l, Floats, 8, f64::INFINITY)),
    (6, Floats, |l| put(l, Floats, 1, f64::NEG_INFINITY)),
    (6, Floats, |l| turn(l, [widest().next_up(), 0.0, 0.0, 0.0])),
    (6, Floats, |l| turn(l, [0.0; 4])),
    (6, Floats, |l| turn(l, [1.0, 0.0, 0.0, f64::NAN])),
];

/// The record of a sheet, with room for a plan and no more.
fn of(lent: &Lent) -> Record {
    asked(Call::Sizing, lent, &exact(Call::Sizing, lent))
}

/// Codes of links that are not fixed.
fn joint_codes() -> Vec<u16> {
    let of_kind = |kind: u16| (0..AXES).map(move |axis| kind + axis);
    KINDS.into_iter().flat_map(of_kind).collect()
}

/// A shape that is taken: 2 to 4 joints a chain, and fixed links anywhere.
fn drawn(chains: usize, draw: &mut Draw) -> Vec<Vec<u16>> {
    let mut shape: Vec<Vec<u16>> = Vec::new();
    for _ in 0..chains {
        // A later chain has no more joints than the first one has links.
        let most = shape.first().map_or(LINKS, Vec::len);
        let joints = most.min(2 + draw.below(3));
        let codes = joint_codes();
        let mut chain: Vec<u16> = (0..joints).map(|_| draw.pick(&codes)).collect();
        for _ in 0..draw.below(3) {
            chain.insert(draw.below(chain.len() + 1), 0);
        }
        shape.push(chain);
    }
    shape
}

/// Sheets that are taken: of every count of chains, at the edges, and with
/// every code.
fn taken(draw: &mut Draw, records: &mut Vec<Record>) {
    for shape in SHAPES.into_iter().chain(LARGE).chain(TAKEN) {
        records.push(of(&lent(shape, draw)));
    }
    for chains in 1..=4 {
        for _ in 0..DRAWS {
            let shape = drawn(chains, draw);
            let shape: Vec<&[u16]> = shape.iter().map(|chain| &chain[..]).collect();
            records.push(of(&lent(&shape, draw)));
        }
    }
    for code in std::iter::once(0).chain(joint_codes()) {
        records.push(of(&lent(&[&[13, code, 12]], draw)));
    }
}

/// One fault each, and shapes that are refused.
fn refused(draw: &mut Draw, records: &mut Vec<Record>) {
    let shared = FAULTS.iter().filter(|fault| meets(Call::Sizing, fault));
    for fault in shared.chain(&EDGES) {
        let mut lent = lent(SMALL, draw);
        fault.2(&mut lent);
        records.push(of(&lent));
    }
    refused_shapes(Call::Sizing, draw, records);
    for shape in BEYOND {
        records.push(of(&lent(shape, draw)));
    }
}

/// The small sheet with outputs of every length, the planned one and longer ones
/// among them; sheets of several chains with a long one.
fn lengths(draw: &mut Draw, records: &mut Vec<Record>) {
    let small = lent(SMALL, draw);
    let exact: usize = exact(Call::Sizing, &small).iter().sum();
    for room in 0..3 * exact {
        records.push(asked(Call::Sizing, &small, &[room]));
    }
    for shape in [SHAPES[2], TAKEN[6]] {
        records.push(asked(Call::Sizing, &lent(shape, draw), &[5 * exact]));
    }
}

/// Every set of the numbers that it can answer, at once: the lowest wins.
fn sets(draw: &mut Draw, records: &mut Vec<Record>) {
    for set in 0..1 << NUMBERS.len() {
        let mut lent = lent(SMALL, draw);
        let mut rooms = exact(Call::Sizing, &lent);
        // What shortens a list comes last.
        for (at, &number) in NUMBERS.iter().enumerate().rev() {
            if set >> at & 1 == 0 {
                continue;
            }
            match FAULTS.iter().find(|fault| fault.0 == number) {
                Some(fault) => fault.2(&mut lent),
                // 9 is no fault of a list that is read.
                None => rooms[0] -= 2,
            }
        }
        records.push(asked(Call::Sizing, &lent, &rooms));
    }
}

pub fn all(draw: &mut Draw) -> Vec<Record> {
    let mut records = Vec::new();
    taken(draw, &mut records);
    refused(draw, &mut records);
    lengths(draw, &mut records);
    sets(draw, &mut records);
    records
}

#[cfg(test)]
mod tests {
    use super::*;

    #[test]
    fn an_edge_has_its_number() {
        let mut draw = Draw::new(3);
        for (at, edge) in EDGES.iter().enumerate() {
            let mut lent = lent(SMALL, &mut draw);
            edge.2(&mut lent);
            assert_eq!(of(&lent).number, edge.0, "edge {at}");
        }
    }

    #[test]
    fn the_lowest_of_a_set_is_answered() {
        let (mut draw, mut records) = (Draw::new(3), Vec::new());
        sets(&mut draw, &mut records);
        for (set, record) in records.iter().enumerate() {
            let held = NUMBERS
                .iter()
                .enumerate()
                .filter(|(at, _)| set >> at & 1 == 1);
            let lowest = held.map(|(_, &number)| number).min().unwrap_or(0);
            assert_eq!(record.number, lowest, "set {set:06b}");
        }
        assert_eq!(records.len(), 64);
    }

    /// The planned lengths are those that the calls themselves ask for.
    #[test]
    fn a_plan_is_what_the_calls_need() {
        let (mut draw, mut chains) = (Draw::new(3), [0; 5]);
        for at in 0..400 {
            let shape = drawn(1 + at % 4, &mut draw);
            let shape: Vec<&[u16]> = shape.iter().map(|chain| &chain[..]).collect();
            let lent = lent(&shape, &mut draw);
            let (record, counts) = (of(&lent), &lent.counts);
            assert_eq!(record.number, 0, "{shape:?}");
            let plan: Vec<usize> = record.lists[record.read]
                .chunks_exact(2)
                .map(|two| usize::from(u16::from_le_bytes([two[0], two[1]])))
                .collect();
            let frames = Call::Frames.needs(counts);
            assert_eq!(plan[..2], [frames[0].0, frames[1].0], "{shape:?}");
            let walked = Call::GradientOneBlock.needs(counts)[2].0;
            assert_eq!(plan[3], walked, "{shape:?}");
            chains[counts.chains] += 1;
        }
        assert_eq!(chains, [0, 100, 100, 100, 100]);
    }

    #[test]
    fn every_number_is_there() {
        let records = all(&mut Draw::new(crate::SEED));
        let mut met: Vec<u32> = records.iter().map(|record| record.number).collect();
        met.sort_unstable();
        met.dedup();
        assert_eq!(met[0], 0);
        assert_eq!(met[1..], NUMBERS);
    }
}
