//! The byte calls on arms, weights and tools by name, and how each call is
//! compared: its edges and its draws.

use crate::calls::{exact, fitted, Call};
use crate::draw::half_turns;
use crate::run::Run;
use crate::sheets::{damages, Damage, Fit, List, Lists, Shape, CODES};
use crate::source::{Source, READ, WEIGHTS, WRITTEN};
use crate::target::{Target, ARMS, SETTING, SET_TOOL, SIZING};
use crate::trial::Trial;
use crate::{strict, tools, weights};
use reference::refusals::BLOCKS;

pub fn targets() -> Vec<Target> {
    let arms = |name, about, kinds, run| Target::new(name, about, ARMS, kinds, run);
    vec![
        arms("load", "loading arms", READ, |run| all(run, Call::Load)),
        Target::new(
            "sizing",
            "the lengths of a sheet's lists",
            SIZING,
            WRITTEN,
            |run| all(run, Call::Sizing),
        ),
        arms("set_goals", "setting goals", READ, |run| {
            all(run, Call::SetGoals)
        }),
        Target::new("set_weights", "setting weights", SETTING, WEIGHTS, |run| {
            all(run, Call::SetWeights)
        }),
        Target::new("set_tool", "setting a tool", SET_TOOL, READ, |run| {
            all(run, Call::SetTool)
        }),
        arms("frames", "positions and rotations", WRITTEN, |run| {
            all(run, Call::Frames)
        }),
        arms("pose", "end poses", WRITTEN, |run| all(run, Call::Pose)),
        arms("manipulability", "manipulability", WRITTEN, |run| {
            all(run, Call::Manipulability)
        }),
        arms("reset", "reset of the history", WRITTEN, |run| {
            all(run, Call::Reset)
        }),
        arms("update", "update of the history", WRITTEN, |run| {
            all(run, Call::Update)
        }),
    ]
}

pub fn all(run: &mut Run, call: Call) {
    let mut trial = Trial::new(call, Call::ask);
    if run.edges() {
        if call.read().contains(&List::Sizes) {
            named(run, &mut trial);
            telescoping(run, &mut trial);
            every_code(run, &mut trial);
        }
        if call.own().contains(&List::Joints) {
            reaches(run, &mut trial);
            turns(run, &mut trial);
        }
        every_fault(run, &mut trial);
        if call.read().contains(&List::Weights) {
            weights::edges(run, &mut trial);
        }
        let tools = [List::Tool, List::Tool0];
        if tools.iter().any(|list| call.read().contains(list)) {
            tools::edges(run, &mut trial);
        }
        if call.read().contains(&List::Strict) {
            strict::edges(run, &mut trial);
        }
    }
    let mut source = Source::new(call, run.kind);
    while run.more() {
        let (lists, rooms) = source.next(&mut run.draw);
        trial.check(run, lists, &rooms);
    }
}

/// Document 01's cases that are not proved, and shapes at the edge.
fn named(run: &mut Run, trial: &mut Trial) {
    let call = trial.call;
    let mut plain = |run: &mut Run, shape: &Shape, change: &dyn Fn(&mut Lists)| {
        let mut lists = Lists::plain(shape, &mut run.draw);
        call.renew(&mut lists, &mut run.draw);
        change(&mut lists);
        trial.check(run, &lists, &exact(call, &lists));
    };
    let two = vec![vec![13, 12]];
    // One joint is refused, two are taken.
    for chain in [vec![13], vec![0, 13, 0], vec![0, 13, 0, 12], vec![13, 13]] {
        plain(run, &vec![chain.clone()], &|_| {});
        plain(run, &vec![vec![13; 4], chain], &|_| {});
    }
    // The difference of limits is rounded.
    for (lower, upper) in [(5.0, 5.001), (1.0, 1.001), (0.0, 0.001), (1e-30, 0.001)] {
        for limits in [[lower, upper, -3.0, 3.0], [-3.0, 3.0, lower, upper]] {
            plain(run, &two, &|lists| lists.set_floats(List::Limits, &limits));
        }
    }
    // Counts of chains, links and joints.
    for first in 0..=18 {
        plain(run, &vec![vec![13; first]], &|_| {});
        plain(run, &vec![vec![13, 12, 0, 0]; first], &|_| {});
        for second in 0..=17 {
            plain(run, &vec![vec![13; first], vec![12; second]], &|_| {});
            let mut fixed = vec![0; first];
            fixed.extend([11, 12]);
            plain(run, &vec![fixed, vec![12; second]], &|_| {});
        }
    }
    plain(run, &vec![vec![0; 16]; 4], &|_| {});
    let mut long = vec![0; 16];
    (long[0], long[3], long[7], long[15]) = (11, 32, 20, 26);
    plain(run, &vec![long; 4], &|_| {});
}

/// A telescoping joint counts as any other.
fn telescoping(run: &mut Run, trial: &mut Trial) {
    let call = trial.call;
    let mut check = |run: &mut Run, shape: &Shape| {
        let mut lists = Lists::plain(shape, &mut run.draw);
        call.renew(&mut lists, &mut run.draw);
        trial.check(run, &lists, &exact(call, &lists));
    };
    for chain in [vec![43], vec![0, 40, 0], vec![0, 40, 0, 43], vec![43, 43]] {
        check(run, &vec![chain.clone()]);
        check(run, &vec![vec![13; 4], chain]);
    }
    for first in 0..=18 {
        check(run, &vec![vec![43; first]]);
        for second in 0..=17 {
            check(run, &vec![vec![43; first], vec![40; second]]);
        }
    }
    let mut long = vec![0; 16];
    (long[0], long[3], long[7], long[15]) = (11, 42, 40, 46);
    check(run, &vec![long; 4]);
}

/// Document 01's case at 8 is a sliding joint's, and a turning one has it at 64: taken
/// there, and the next float refused, in the block and in each block of a history. Every
/// code meets both ends.
fn reaches(run: &mut Run, trial: &mut Trial) {
    let call = trial.call;
    let mut places = vec![(List::Joints, 0)];
    if call.own().contains(&List::History) {
        places.extend((0..BLOCKS).map(|block| (List::History, block)));
    }
    let ends = [8.0, 8.0f64.next_up(), 64.0, 64.0f64.next_up()];
    for &code in &CODES[1..] {
        for (at, chain) in [[code, 33], [13, code]].into_iter().enumerate() {
            for v in ends.into_iter().flat_map(|v| [v, -v]) {
                for &(list, block) in &places {
                    let mut lists = Lists::plain(&vec![chain.to_vec()], &mut run.draw);
                    call.renew(&mut lists, &mut run.draw);
                    lists.put(list, chain.len() * block + at, &[v]);
                    trial.check(run, &lists, &exact(call, &lists));
                }
            }
        }
    }
}

/// Joints that have turned on: where half of one begins to be reduced, at every number of
/// half turns, and at the floats beside. Behind -1 about y the case at ten half turns
/// about x shows in the sign of a zero how a tie is taken.
fn turns(run: &mut Run, trial: &mut Trial) {
    let call = trial.call;
    let mut check = |run: &mut Run, mut lists: Lists, joints: &dyn Fn(&mut Lists)| {
        call.renew(&mut lists, &mut run.draw);
        joints(&mut lists);
        trial.check(run, &lists, &exact(call, &lists));
    };
    let six = vec![vec![13, 12, 11, 26, 25, 24, 33]];
    let reached = half_turns().into_iter().take_while(|&angle| angle <= 64.0);
    for angle in reached.chain([9.0]) {
        let around = [angle, angle.next_up(), angle.next_down()];
        for v in around.into_iter().flat_map(|v| [v, -v]) {
            let two = Lists::plain(&vec![vec![12, 11]], &mut run.draw);
            check(run, two, &|lists| {
                lists.set_floats(List::Joints, &[-1.0, v])
            });
            let still = Lists::still(&six, &mut run.draw);
            check(run, still, &|lists| lists.set_joints(v));
            let drawn = Lists::of(&six, &mut run.draw);
            check(run, drawn, &|lists| lists.set_joints(v));
        }
    }
}

/// Every two codes before six turning links or behind them, so that manipulability is
/// not 0, at joints of every sign and at the ends of their range.
fn every_code(run: &mut Run, trial: &mut Trial) {
    let call = trial.call;
    for a in CODES {
        for b in CODES {
            for front in [true, false] {
                let mut chain = vec![11, 12, 13, 14, 15, 16];
                chain.splice(if front { 0..0 } else { 6..6 }, [a, b]);
                let mut lists = Lists::still(&vec![chain.clone()], &mut run.draw);
                for _ in 0..5 {
                    call.renew(&mut lists, &mut run.draw);
                    trial.check(run, &lists, &exact(call, &lists));
                }
                lists = Lists::of(&vec![chain], &mut run.draw);
                call.renew(&mut lists, &mut run.draw);
                for v in [64.0, -64.0, 8.0, -8.0, 0.0, -0.0, 0.5] {
                    if call.own().contains(&List::Joints) {
                        lists.set_joints(v);
                    }
                    trial.check(run, &lists, &exact(call, &lists));
                }
            }
        }
    }
}

/// Every fault alone and every two together, on a few sheets; outputs of every
/// length, alone and with every fault.
fn every_fault(run: &mut Run, trial: &mut Trial) {
    let call = trial.call;
    let damages = damages(call.read()).into_iter();
    let damages: Vec<Damage> = damages.map(|(_, damage)| damage).collect();
    let shapes: [Shape; 5] = [
        vec![vec![13, 12]],
        vec![vec![0, 13, 12, 11, 36, 23, 15, 16, 0]],
        vec![vec![13, 32, 0, 10], vec![14, 0, 35, 20, 11]],
        vec![vec![21, 12, 33, 14]; 4],
        vec![vec![13, 43, 0, 40], vec![44, 0, 35]],
    ];
    for shape in &shapes {
        let base = Lists::of(shape, &mut run.draw);
        let mut lists = Lists::default();
        let mut check = |run: &mut Run, faults: &[Damage], fits: &[Fit]| {
            lists.copy(&base);
            lists.renew(call.own(), &mut run.draw);
            for &fault in faults {
                lists.spoil(fault, &mut run.draw);
            }
            let rooms = fitted(call, &lists, fits);
            trial.check(run, &lists, &rooms);
        };
        check(run, &[], &[]);
        for &fault in &damages {
            check(run, &[fault], &[]);
            for &other in &damages {
                check(run, &[fault, other], &[]);
            }
        }
        for fits in fits(call.needs(&base).len()) {
            check(run, &[], &fits);
            for &fault in &damages {
                check(run, &[fault], &fits);
            }
        }
    }
}

/// Every two outputs of every length, the others exact.
fn fits(outputs: usize) -> Vec<Vec<Fit>> {
    let mut all = Vec::new();
    // A single output is taken for one of two; the second fit finds no list.
    let count = if outputs == 1 { 2 } else { outputs };
    for later in 1..count {
        for sooner in 0..later {
            for first in Fit::ALL {
                for second in Fit::ALL {
                    let mut fits = vec![Fit::Exact; later + 1];
                    (fits[sooner], fits[later]) = (first, second);
                    all.push(fits);
                }
            }
        }
    }
    all
}

#[cfg(test)]
mod tests {
    use super::*;
    use crate::draw::kind::Kind;
    use crate::run::Block;
    use std::collections::BTreeMap;

    /// Of the 14 codes that turn all ends are taken but one float beyond 64, of the 14
    /// that slide 8 alone; of either sign, in two places.
    #[test]
    fn joints_end_where_the_papers_say() {
        let edges = Block {
            target: 0,
            kind: Kind::Edges,
            number: 0,
            draws: 0,
        };
        for (call, blocks) in [(Call::Frames, 1), (Call::Update, 1 + 4)] {
            let mut run = Run::new(1, &edges, 1);
            reaches(&mut run, &mut Trial::new(call, Call::ask));
            let (taken, refused) = (14 * 3 + 14, 14 + 14 * 3);
            let counts = [(0, taken), (7, refused)].map(|(number, n)| (number, n * 4 * blocks));
            assert_eq!(run.finish().answers, BTreeMap::from(counts), "{call:?}");
        }
    }

    /// Every two outputs meet with every two fits.
    #[test]
    fn fits_come_in_pairs() {
        assert!(fits(0).is_empty());
        assert_eq!((fits(1).len(), fits(2).len()), (64, 64));
        assert_eq!((fits(3).len(), fits(5).len()), (3 * 64, 10 * 64));
        let all = fits(5);
        assert!(all.iter().any(|fits| matches!(
            fits[..],
            [Fit::Exact, Fit::Short, Fit::Exact, Fit::Exact, Fit::Empty]
        )));
    }
}
