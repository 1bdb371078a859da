//! Sequences of calls on the state that are asked under either pick: before there
//! is anything to work with and after, with weights, tools and updates between. A
//! pick is of its call alone.

use crate::arms::{Lent, List};
use crate::cases::{lent, link, Shape, SHAPES, SMALL};
use crate::record::Record;
use crate::sequences::{near, play_exact, State, Step};
use crate::strict::PICKS;
use crate::telescoping;
use crate::tools::set_chain;
use crate::weights::{drawn, WRONG};
use draw::Draw;

use Step::*;

const ASKED: [Step; 4] = [Objective, Gradient, GradientFiniteDiff, GradientOneBlock];

/// A step that changes the state, and the number that it is to answer.
type Change = (Step, u32);

/// Weights and a tool over arms; a load keeps the weights and clears the tool.
const ONE_CHAIN: &[Change] = &[
    (Load, 0),
    (SetGoals, 0),
    (Reset, 0),
    (SetWeights, 0),
    (SetTool, 0),
    (Update, 0),
    (Load, 0),
    (SetGoals, 0),
    (Reset, 0),
];

/// Weights before arms, and a list that is refused; a tool on the second chain.
const TWO_CHAINS: &[Change] = &[
    (SetWeights, 0),
    (Load, 0),
    (SetGoals, 0),
    (Reset, 0),
    (SetTool, 0),
    (SetWeights, 10),
    (SetWeights, 0),
];

/// Changes, the shape of the arms, and the chain that gets the tool.
type Sequence = (&'static [Change], Shape, u16);

const SEQUENCES: [Sequence; 2] = [(ONE_CHAIN, SMALL, 0), (TWO_CHAINS, SHAPES[2], 1)];

/// The same changes over arms with telescoping joints.
const TELESCOPING: [Sequence; 2] = [
    (ONE_CHAIN, telescoping::SHAPES[0], 0),
    (TWO_CHAINS, telescoping::SHAPES[2], 1),
];

/// What a change is lent.
fn lists((step, number): Change, own: &Lent, chain: u16, draw: &mut Draw) -> Lent {
    let mut lists = near(own, draw);
    match step {
        SetWeights => lists.set(List::Weights, &drawn(draw)),
        SetTool => {
            lists.set(List::Tool0, &link(draw));
            set_chain(&mut lists, chain);
        }
        _ => (),
    }
    if number == 10 {
        WRONG[0].2(&mut lists);
    }
    lists
}

/// A sequence: each change with the calls behind it, under the pick and then, at the
/// same joints, without one.
fn sequence((changes, shape, chain): Sequence, draw: &mut Draw, records: &mut Vec<Record>) {
    let mut state = State::default();
    let mut own = lent(shape, draw);
    let mut picks = PICKS.into_iter().cycle();
    let mut ask = |step, lent: &Lent| records.push(play_exact(&mut state, step, lent));
    ask(Empty, &own);
    for &change in changes {
        if change.0 == Load {
            own = lent(shape, draw);
        }
        ask(change.0, &lists(change, &own, chain, draw));
        for step in ASKED {
            let mut lists = near(&own, draw);
            lists.set_pick(picks.next().expect("a cycle"));
            ask(step, &lists);
            lists.bytes[List::Strict as usize].clear();
            ask(step, &lists);
        }
    }
    ask(Kept, &own);
}

fn played(sequences: &[Sequence], draw: &mut Draw) -> Vec<Record> {
    let mut records = Vec::new();
    for &one in sequences {
        sequence(one, draw, &mut records);
    }
    records
}

pub fn all(draw: &mut Draw) -> Vec<Record> {
    played(&SEQUENCES, draw)
}

pub fn telescoping(draw: &mut Draw) -> Vec<Record> {
    played(&TELESCOPING, draw)
}

#[cfg(test)]
mod tests {
    use super::*;
    use crate::sequences::lacking_after;

    /// Each change answers what it is to, and the calls behind it lack what the
    /// changes up to there have not brought, whatever the pick; once nothing is
    /// lacking the two picks answer apart.
    #[test]
    fn a_pick_changes_answers_and_no_refusal() {
        let mut draw = Draw::new(crate::SEED);
        let mut records = all(&mut draw);
        records.extend(telescoping(&mut draw));
        let mut records = records.iter();
        for (changes, ..) in [SEQUENCES, TELESCOPING].concat() {
            assert_eq!(records.next().map(|record| record.call), Some(0));
            let mut lacking = 20;
            for &(step, number) in changes {
                let change = records.next().expect("a change");
                assert_eq!((change.call, change.number), (step as u16, number));
                lacking = lacking_after(step, number, lacking);
                for asked in ASKED {
                    let [strict, tolerance] = [(); 2].map(|()| records.next().expect("a call"));
                    for record in [strict, tolerance] {
                        assert_eq!((record.call, record.number), (asked as u16, lacking));
                    }
                    assert_eq!(strict.lists[0], tolerance.lists[0]);
                    let same = strict.lists[2..] == tolerance.lists[2..];
                    assert_eq!(same, lacking != 0, "{asked:?}");
                }
            }
            assert_eq!(records.next().map(|record| record.call), Some(Kept as u16));
        }
        assert!(records.next().is_none());
    }
}
