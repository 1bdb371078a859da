//! Numbers that pick a list of objectives, and the edges of every call that takes
//! one.

use crate::calls::{exact, fitted};
use crate::draw::kind::Kind;
use crate::draw::{turned, Draw, HALVES};
use crate::run::Run;
use crate::sheets::{Fit, List, Lists, Shape};
use crate::trial::Trial;

/// The tolerance list and the strict one; some of the numbers have no bit in their
/// last byte, or in their last two.
const PICKS: [u32; 9] = [0, 1, 2, 255, 256, 65535, 65536, 1 << 31, u32::MAX];
/// What is added to half an angle at which something changes: nothing, a hair or
/// more, either way.
pub const HAIRS: [f64; 9] = [0.0, 1e-16, -1e-16, 1e-12, -1e-12, 1e-8, -1e-8, 1e-5, -1e-5];

/// Either list as often as the other.
pub fn drawn(draw: &mut Draw) -> u32 {
    match draw.word() % 4 {
        0 | 1 => 0,
        2 => draw.pick(&PICKS[1..]),
        _ => draw.word() as u32,
    }
}

/// Every number on a few sheets, with goals that are met, and with rotations that lie
/// to the goal's where something changes; and with an output too short.
pub fn edges(run: &mut Run, trial: &mut Trial) {
    let shapes: [Shape; 5] = [
        vec![vec![13, 12]],
        vec![vec![0, 13, 12, 11, 36, 23, 15, 16, 0]],
        vec![vec![13, 32, 0, 10], vec![14, 0, 35, 20, 11]],
        vec![vec![13, 12]; 4],
        vec![vec![13, 42, 0, 45]],
    ];
    let aims = trial.call.aims();
    for shape in &shapes {
        for pick in PICKS {
            let mut lists = Lists::of(shape, &mut run.draw);
            let mut check = |run: &mut Run, turn: Turn| {
                trial.call.renew(&mut lists, &mut run.draw);
                if aims {
                    lists.meet(turn);
                }
                lists.set(List::Strict, &pick.to_le_bytes());
                trial.check(run, &lists, &exact(trial.call, &lists));
                trial.check(run, &lists, &fitted(trial.call, &lists, &[Fit::Short]));
            };
            check(run, &|q| q);
            if !aims {
                continue;
            }
            check(run, &|q| q.map(|part| -part));
            for half in HALVES {
                for hair in HAIRS {
                    let axis = run.draw.vector(Kind::Range);
                    check(run, &|q| turned(q, half + hair, axis));
                }
            }
        }
    }
}

/// What becomes of an end's rotation to be its goal's.
type Turn<'a> = &'a dyn Fn([f64; 4]) -> [f64; 4];

#[cfg(test)]
mod tests {
    use super::*;
    use crate::calls::Call;
    use crate::judge::Judge;

    #[test]
    fn both_lists_are_picked() {
        let mut draw = Draw::new(2);
        let picks: Vec<u32> = (0..4_000).map(|_| drawn(&mut draw)).collect();
        let strict = picks.iter().filter(|&&pick| pick != 0).count();
        assert!((1_800..2_200).contains(&strict), "{strict}");
        assert!(PICKS.iter().all(|pick| picks.contains(pick)));
        assert!(picks.iter().filter(|&&pick| pick > 65536).count() > 900);
    }

    /// A goal that is met is taken, whatever it is turned by, and both lists of
    /// objectives answer apart, in every call.
    #[test]
    fn goals_that_are_met_are_taken() {
        let (mut draw, mut judge) = (Draw::new(2), Judge::default());
        for call in [
            Call::Sizing,
            Call::Objective,
            Call::Gradient,
            Call::GradientFiniteDiff,
            Call::GradientOneBlock,
        ] {
            let mut lists = Lists::of(&vec![vec![13, 12], vec![11, 32]], &mut draw);
            for half in HALVES {
                Call::Objective.renew(&mut lists, &mut draw);
                lists.meet(|q| turned(q, half, [1.0, -2.0, 0.5]));
                lists.set_floats(List::Weights, &[]);
                let mut answer = |pick: u32| {
                    lists.set(List::Strict, &pick.to_le_bytes());
                    let rooms = exact(call, &lists);
                    let (number, written) = judge.answer(call, &call.lent(&lists), &rooms);
                    assert_eq!(number, 0, "{call:?}");
                    format!("{written:?}")
                };
                let strict = PICKS[1..].iter().map(|&pick| answer(pick));
                let strict: Vec<String> = strict.collect();
                assert!(strict.iter().all(|one| *one == strict[0]));
                assert_ne!(answer(0), strict[0], "{call:?}");
            }
        }
    }
}
