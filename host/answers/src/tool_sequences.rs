//! Sequences of calls on the state in which tools are set: before there are arms
//! and after, before a reset and behind it, over loads, taken and refused. After
//! each of these the calls that work with tools are asked, and what is kept.

use crate::arms::{Lent, List};
use crate::cases::{lent, Shape, SHAPES, SMALL};
use crate::record::Record;
use crate::sequences::{near, play_exact, State, Step};
use crate::tools::{set_chain, taken, Tool, WRONG};
use draw::Draw;

use Step::*;

const ASKED: [Step; 5] = [
    Pose,
    Objective,
    Gradient,
    GradientFiniteDiff,
    GradientOneBlock,
];

/// A step that changes the state, the number that it is to answer, and for a tool
/// its chain.
type Change = (Step, u32, u16);

/// A tool needs arms. One set behind a reset leaves the start poses; a load clears
/// it.
const ONE_CHAIN: &[Change] = &[
    (SetTool, 20, 0),
    (Load, 0, 0),
    (SetTool, 11, 0),
    (SetTool, 0, 0),
    (SetGoals, 0, 0),
    (Reset, 0, 0),
    (SetTool, 0, 0),
    (SetTool, 11, 1),
    (SetTool, 11, 0),
    (Update, 0, 0),
    (Reset, 0, 0),
    (Load, 0, 0),
    (SetGoals, 0, 0),
    (Reset, 0, 0),
];

/// Tools on one chain and on both; a load that is refused leaves them.
const TWO_CHAINS: &[Change] = &[
    (Load, 0, 0),
    (SetGoals, 0, 0),
    (Reset, 0, 0),
    (SetTool, 0, 1),
    (SetTool, 11, 2),
    (SetTool, 0, 0),
    (Load, 5, 0),
    (Reset, 0, 0),
    (SetTool, 11, 1),
    (SetTool, 0, 1),
];

const SEQUENCES: [(&[Change], Shape); 2] = [(ONE_CHAIN, SMALL), (TWO_CHAINS, SHAPES[2])];

/// By their places: of the length, of the quaternion, of the displacement.
const FAULTS: [usize; 3] = [0, 7, 2];

/// Tools and faults in turn.
struct Turns {
    taken: Vec<Tool>,
    at: usize,
    refused: usize,
}

impl Turns {
    fn new(draw: &mut Draw) -> Self {
        Self {
            taken: taken(draw).to_vec(),
            at: 0,
            refused: 0,
        }
    }

    /// A tool that is taken, but for a chain that is loaded and is to be refused.
    fn set(&mut self, lent: &mut Lent, number: u32, chain: u16) {
        lent.set(List::Tool0, &self.taken[self.at % self.taken.len()]);
        self.at += 1;
        set_chain(lent, chain);
        if number == 11 && usize::from(chain) < lent.counts.chains {
            WRONG[FAULTS[self.refused % FAULTS.len()]].2(lent);
            self.refused += 1;
        }
    }
}

/// A sequence: each change with the calls behind it, and what is kept.
fn sequence(
    changes: &[Change],
    shape: Shape,
    turns: &mut Turns,
    draw: &mut Draw,
    records: &mut Vec<Record>,
) {
    let mut state = State::default();
    let mut own = lent(shape, draw);
    let mut ask = |step, lent: &Lent| records.push(play_exact(&mut state, step, lent));
    ask(Empty, &own);
    for &(step, number, chain) in changes {
        if (step, number) == (Load, 0) {
            own = lent(shape, draw);
        }
        let mut lists = near(&own, draw);
        match step {
            SetTool => turns.set(&mut lists, number, chain),
            Load if number != 0 => lists.set(List::Limits, &[]),
            _ => (),
        }
        ask(step, &lists);
        for asked in ASKED {
            ask(asked, &near(&own, draw));
        }
        if matches!(step, SetTool | Reset) && number == 0 {
            ask(Kept, &own);
        }
    }
}

pub fn all(draw: &mut Draw) -> Vec<Record> {
    let (mut records, mut turns) = (Vec::new(), Turns::new(draw));
    for (changes, shape) in SEQUENCES {
        sequence(changes, shape, &mut turns, draw, &mut records);
    }
    records
}

#[cfg(test)]
mod tests {
    use super::*;
    use crate::sequences::lacking_after;

    /// Each change answers what it is to, and the calls behind it lack what the
    /// changes up to there have not brought. Of what is kept a tool changes
    /// nothing, and a reset behind it does.
    #[test]
    fn changes_are_taken_or_refused() {
        let records = all(&mut Draw::new(crate::SEED));
        let mut records = records.iter().peekable();
        for (changes, _) in SEQUENCES {
            assert_eq!(records.next().map(|record| record.call), Some(0));
            let mut lacking = 20;
            let mut kept: Option<&Record> = None;
            for &(step, number, _) in changes {
                let change = records.next().expect("a change");
                assert_eq!((change.call, change.number), (step as u16, number));
                lacking = lacking_after(step, number, lacking);
                for asked in ASKED {
                    let record = records.next().expect("a call");
                    // A pose needs arms and nothing else.
                    let number = match (asked, lacking) {
                        (Pose, 21 | 22) => 0,
                        _ => lacking,
                    };
                    assert_eq!((record.call, record.number), (asked as u16, number));
                }
                if let Some(now) = records.next_if(|record| record.call == Kept as u16) {
                    let starts = |record: &Record| record.lists[5].clone();
                    if let (SetTool, Some(before)) = (step, kept) {
                        assert_eq!(starts(now), starts(before));
                    }
                    kept = Some(now);
                }
            }
        }
        assert!(records.next().is_none());
    }

    /// What a reset keeps has the tools of then: the start poses are those that
    /// `pose` answers at the same joints.
    #[test]
    fn start_poses_have_their_tools() {
        let mut draw = Draw::new(3);
        let (own, mut state) = (lent(SHAPES[2], &mut draw), State::default());
        let mut ask = |step, lent: &Lent| play_exact(&mut state, step, lent);
        ask(Load, &own);
        let mut tool = own.clone();
        tool.set(List::Tool0, &taken(&mut draw)[4]);
        set_chain(&mut tool, 1);
        let plain = ask(Pose, &own).lists.remove(1);
        assert_eq!(ask(SetTool, &tool).number, 0);
        ask(Reset, &own);
        let posed = ask(Pose, &own).lists.remove(1);
        assert_ne!(posed, plain);
        assert_eq!(posed[..56], plain[..56]);
        assert_eq!(ask(Kept, &own).lists[5][..posed.len()], posed);
    }
}
