//! Sequences of calls on the state in which weights are set: before there are
//! arms and after, over loads, goals, resets and updates, taken and refused. After
//! each of these every call that works with weights is asked.

use crate::arms::{Lent, List};
use crate::cases::{lent, Shape, FAULTS, SHAPES, SMALL};
use crate::record::Record;
use crate::sequences::{near, play_exact, State, Step};
use crate::weights::{alone, drawn, ends, wrong_floats};
use draw::Draw;
use reference::weights::built_in;

use Step::*;

const WEIGHTED: [Step; 4] = [Objective, Gradient, GradientFiniteDiff, GradientOneBlock];

/// A step that changes the state, and whether it is to be refused.
type Change = (Step, bool);

/// Weights before arms: they stay over everything else, and a list that is
/// refused leaves them.
const BEFORE_ARMS: &[Change] = &[
    (SetWeights, false),
    (Load, false),
    (SetGoals, false),
    (Reset, false),
    (Update, false),
    (SetWeights, true),
    (Load, true),
    (SetGoals, false),
    (Load, false),
    (SetGoals, false),
    (Reset, false),
];

/// Weights over arms: the built-in ones serve until a list is taken, and each list
/// gives way to the next.
const OVER_ARMS: &[Change] = &[
    (Load, false),
    (SetGoals, false),
    (Reset, false),
    (SetWeights, true),
    (SetWeights, false),
    (SetWeights, false),
    (Update, true),
    (Reset, true),
    (SetGoals, true),
    (SetWeights, false),
    (SetWeights, false),
    (Update, false),
];

/// Two loads one after the other.
const OVER_LOADS: &[Change] = &[
    (SetWeights, true),
    (SetWeights, false),
    (Load, true),
    (Load, false),
    (Load, false),
    (SetGoals, false),
    (Reset, false),
    (SetWeights, true),
];

/// With the shapes of their loads in turn.
const SEQUENCES: [(&[Change], [Shape; 2]); 3] = [
    (BEFORE_ARMS, [SMALL, SHAPES[1]]),
    (OVER_ARMS, [SMALL, SMALL]),
    (OVER_LOADS, [SHAPES[1], SMALL]),
];

/// Lists of weights in turn.
struct Turns {
    taken: Vec<Vec<f64>>,
    at: usize,
    refused: usize,
}

impl Turns {
    /// A drawn one first, then one alone, the built-in ones, and the ends.
    fn new(draw: &mut Draw) -> Self {
        let mut taken = vec![drawn(draw), alone(6, 1000.0), built_in()];
        taken.extend(ends());
        Self {
            taken: taken.iter().map(|list| list.to_vec()).collect(),
            at: 0,
            refused: 0,
        }
    }

    fn set(&mut self, lent: &mut Lent, wrong: bool) {
        lent.set(List::Weights, &self.taken[self.at % self.taken.len()]);
        if wrong {
            let fault = wrong_floats().cycle().nth(self.refused);
            fault.expect("there are some").2(lent);
            self.refused += 1;
        } else {
            self.at += 1;
        }
    }
}

/// Makes a list that the step reads one that is refused.
fn spoil(step: Step, lent: &mut Lent) {
    let number = match step {
        Load => 5,
        SetGoals => 8,
        _ => 7,
    };
    let fault = FAULTS.iter().find(|fault| fault.0 == number);
    fault.expect("a fault of each number").2(lent);
}

/// What a change is lent.
fn lists((step, wrong): Change, own: &Lent, turns: &mut Turns, draw: &mut Draw) -> Lent {
    let mut lists = match step {
        // What is done to a sheet is meant for the small one.
        Load if wrong => lent(SMALL, draw),
        Load => own.clone(),
        _ => near(own, draw),
    };
    match step {
        SetWeights => turns.set(&mut lists, wrong),
        _ if wrong => spoil(step, &mut lists),
        _ => (),
    }
    lists
}

/// The changes of a sequence, each with the weighted calls behind it.
fn sequence(
    changes: &[Change],
    shapes: [Shape; 2],
    turns: &mut Turns,
    draw: &mut Draw,
    records: &mut Vec<Record>,
) {
    let mut state = State::default();
    let mut own = lent(shapes[0], draw);
    let mut loads = shapes.into_iter().cycle();
    let mut ask = |step, lent: &Lent| records.push(play_exact(&mut state, step, lent));
    ask(Empty, &own);
    for &change in changes {
        if change == (Load, false) {
            own = lent(loads.next().expect("a cycle"), draw);
        }
        ask(change.0, &lists(change, &own, turns, draw));
        for weighted in WEIGHTED {
            ask(weighted, &near(&own, draw));
        }
    }
    ask(Kept, &own);
}

pub fn all(draw: &mut Draw) -> Vec<Record> {
    let (mut records, mut turns) = (Vec::new(), Turns::new(draw));
    for (changes, shapes) in SEQUENCES {
        sequence(changes, shapes, &mut turns, draw, &mut records);
    }
    records
}

#[cfg(test)]
mod tests {
    use super::*;

    /// Each change is taken or refused as it is to be, and the calls behind it lack
    /// what the changes up to there have not brought.
    #[test]
    fn changes_are_taken_or_refused() {
        let records = all(&mut Draw::new(crate::SEED));
        let mut records = records.iter();
        for (changes, _) in SEQUENCES {
            assert_eq!(records.next().map(|record| record.call), Some(0));
            let mut number = 20;
            for &(step, wrong) in changes {
                let change = records.next().expect("a change");
                assert_eq!(change.call, step as u16);
                assert_eq!(change.number != 0, wrong, "{step:?}");
                number = match (step, wrong) {
                    (Load, false) => 21,
                    (SetGoals, false) if number == 21 => 22,
                    (Reset, false) if number == 22 => 0,
                    _ => number,
                };
                for weighted in WEIGHTED {
                    let asked = records.next().expect("a weighted call");
                    assert_eq!((asked.call, asked.number), (weighted as u16, number));
                }
            }
            assert_eq!(records.next().map(|record| record.call), Some(Kept as u16));
        }
        assert!(records.next().is_none());
    }
}
