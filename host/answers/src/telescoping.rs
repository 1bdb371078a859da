//! The cases of codes 40 to 46: every call that walks an arm, on arms of all kinds,
//! and what is refused of them.

use crate::arms::{asked, Call, Lent, List};
use crate::cases::{exact, lent, meets, put, put_u16, Fault, Shape};
use crate::record::Record;
use crate::strict::PICKS;
use draw::Draw;

use List::{Codes, Joints};

/// Every axis, in front of turning joints and behind them, beside prismatic ones
/// and on a second chain.
pub const SHAPES: [Shape; 4] = [
    &[&[40, 43]],
    &[&[0, 14, 46, 41, 0]],
    &[&[13, 42, 33, 40], &[45, 12]],
    &[&[44, 13, 12, 43, 11, 26, 31, 15]],
];

/// The calls that walk an arm, and how many of the shapes each is asked with.
const WALKS: [(Call, usize); 8] = [
    (Call::Pose, 4),
    (Call::Manipulability, 4),
    (Call::Frames, 4),
    (Call::Reset, 3),
    (Call::Objective, 4),
    (Call::Gradient, 3),
    (Call::GradientFiniteDiff, 3),
    (Call::GradientOneBlock, 4),
];

/// Those that only look at the arms.
const LOOKS: [Call; 2] = [Call::Load, Call::Sizing];

/// At drawn joints under either pick, and at the ends of a slide's range and both zeros.
fn accepted(draw: &mut Draw, records: &mut Vec<Record>) {
    let mut ask = |call, lent: &Lent| records.push(asked(call, lent, &exact(call, lent)));
    for (call, shapes) in WALKS {
        for (at, shape) in SHAPES.into_iter().enumerate().take(shapes) {
            let mut lent = lent(shape, draw);
            lent.set_pick(if at % 2 == 0 { 0 } else { PICKS[0] });
            ask(call, &lent);
        }
    }
    for value in [8.0, -8.0, 0.0, -0.0] {
        let mut lent = lent(SHAPES[1], draw);
        lent.set(Joints, &vec![value; lent.counts.joints]);
        ask(Call::Frames, &lent);
    }
    for call in LOOKS {
        for shape in SHAPES {
            ask(call, &lent(shape, draw));
        }
    }
}

/// One axis too many, one kind too many, and a joint beyond its range.
const WRONG: [Fault; 3] = [
    (3, Codes, |lent| put_u16(lent, Codes, 1, 47)),
    (3, Codes, |lent| put_u16(lent, Codes, 0, 50)),
    (7, Joints, |lent| put(lent, Joints, 1, 8.0f64.next_up())),
];

fn refused(draw: &mut Draw, records: &mut Vec<Record>) {
    for fault in &WRONG {
        let calls = LOOKS.into_iter().chain(WALKS.map(|(call, _)| call));
        for call in calls.filter(|call| meets(*call, fault)) {
            let mut lent = lent(SHAPES[0], draw);
            fault.2(&mut lent);
            records.push(asked(call, &lent, &exact(call, &lent)));
        }
    }
}

pub fn all(draw: &mut Draw) -> Vec<Record> {
    let mut records = Vec::new();
    accepted(draw, &mut records);
    refused(draw, &mut records);
    records
}

#[cfg(test)]
mod tests {
    use super::*;

    #[test]
    fn every_code_is_there() {
        let codes = SHAPES.concat().concat();
        assert!((40..=46).all(|code| codes.contains(&code)));
    }

    /// Each fault is refused with its number, and all others are taken.
    #[test]
    fn a_fault_has_its_number() {
        let mut draw = Draw::new(3);
        let mut records = Vec::new();
        accepted(&mut draw, &mut records);
        assert!(records.iter().all(|record| record.number == 0));
        for (number, _, wrong) in WRONG {
            let mut lent = lent(SHAPES[0], &mut draw);
            wrong(&mut lent);
            let record = asked(Call::Frames, &lent, &exact(Call::Frames, &lent));
            assert_eq!(record.number, number);
        }
    }

    /// A prismatic joint in the place of a telescoping one is elsewhere.
    #[test]
    fn the_rule_shows() {
        let mut draw = Draw::new(3);
        for shape in SHAPES {
            let telescoping = lent(shape, &mut draw);
            let mut prismatic = telescoping.clone();
            for (at, code) in shape.concat().into_iter().enumerate() {
                if code >= 40 {
                    put_u16(&mut prismatic, Codes, at, code - 10);
                }
            }
            let frames = |lent: &Lent| {
                let mut record = asked(Call::Frames, lent, &exact(Call::Frames, lent));
                record.outputs().map(|byte| *byte).collect::<Vec<u8>>()
            };
            assert_ne!(frames(&telescoping), frames(&prismatic));
        }
    }
}
