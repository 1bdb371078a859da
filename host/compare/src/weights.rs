//! Lists of weights: those that are taken, what is wrong with others, and the
//! edges of every call that reads them.

use crate::calls::{exact, fitted};
use crate::draw::kind::Kind;
use crate::draw::Draw;
use crate::run::Run;
use crate::sheets::{Change, Damage, Fit, List, Lists, Shape};
use crate::trial::Trial;
use reference::weights::{built_in, WEIGHTS};
use relaxed_ik::bytes::of_floats;
use std::sync::LazyLock;

pub type Weights = [f64; WEIGHTS];

/// The largest weight.
const MOST: f64 = 1000.0;
/// The least float above 0.
const LEAST: f64 = f64::from_bits(1);
/// Taken, but only just.
const ENDS: [f64; 5] = [0.0, -0.0, LEAST, MOST.next_down(), MOST];
/// Refused, some of them only just.
const OUTSIDE: [f64; 3] = [-LEAST, -1e-300, MOST.next_up()];
const NO_NUMBERS: [f64; 3] = [f64::NAN, f64::INFINITY, f64::NEG_INFINITY];

static BUILT_IN: LazyLock<Weights> = LazyLock::new(built_in);

/// A list that is taken.
pub fn drawn(draw: &mut Draw) -> Weights {
    let mut weights = [0.0; WEIGHTS];
    match draw.word() % 8 {
        0 => (),
        1 => weights = weights.map(|_| draw.pick(&[0.0, -0.0])),
        // One kind alone counts.
        2 => weights[draw.below(WEIGHTS)] = draw.between(0.0, MOST),
        3 => weights = weights.map(|_| draw.pick(&ENDS)),
        4 => weights = *BUILT_IN,
        5 => weights = BUILT_IN.map(|weight| weight * draw.between(0.0, 2.0)),
        _ => weights = weights.map(|_| draw.between(0.0, MOST)),
    }
    if draw.word() % 8 == 0 {
        weights[draw.below(WEIGHTS)] = -0.0;
    }
    weights
}

/// Every damage to a list of weights besides those that any list has.
pub fn damages() -> Vec<(Kind, Damage)> {
    let value = |kind: Kind| move |v: f64| (kind, Damage::Value(List::Weights, v));
    let mut all = vec![(Kind::Long, Damage::Length(List::Weights, Change::TimesOver))];
    all.extend(ENDS.map(value(Kind::Border)));
    all.extend(OUTSIDE.map(value(Kind::Outside)));
    all.extend(NO_NUMBERS.map(value(Kind::Nan)));
    all
}

/// Lists of eight: each of them all of one number, then that number alone beside
/// zeros, and alone beside the built-in weights.
fn of_eight() -> Vec<Weights> {
    let mut all = vec![*BUILT_IN];
    let numbers = ENDS.into_iter().chain(OUTSIDE).chain(NO_NUMBERS);
    for number in numbers.chain([1.0]) {
        all.push([number; WEIGHTS]);
        for base in [[0.0; WEIGHTS], *BUILT_IN] {
            for at in 0..WEIGHTS {
                let mut weights = base;
                weights[at] = number;
                all.push(weights);
            }
        }
    }
    all
}

/// Those, then bytes of every length up to twice as many as are needed, and
/// lists that are longer still: the last one by as many bytes as a u16 counts.
fn lists() -> Vec<Vec<u8>> {
    let of_eight = of_eight().into_iter();
    let mut all: Vec<Vec<u8>> = of_eight.map(|list| of_floats(&list).to_vec()).collect();
    let built_in = of_floats(&*BUILT_IN);
    let twice = built_in.repeat(2);
    all.extend((0..=twice.len()).map(|length| twice[..length].to_vec()));
    all.extend([3, 4, 32].map(|times| built_in.repeat(times)));
    all.push(built_in.repeat(1 + (1 << 16) / built_in.len()));
    all
}

/// Every list on a few sheets, and with an output too short, which comes before.
pub fn edges(run: &mut Run, trial: &mut Trial) {
    let call = trial.call;
    let shapes: [Shape; 3] = [
        vec![vec![13, 12]],
        vec![vec![0, 13, 12, 11, 36, 23, 15, 16, 0]],
        vec![vec![13, 32, 0, 10], vec![14, 0, 35, 20, 11]],
    ];
    let all = lists();
    for shape in &shapes {
        for bytes in &all {
            let mut lists = Lists::of(shape, &mut run.draw);
            call.renew(&mut lists, &mut run.draw);
            lists.set(List::Weights, bytes);
            trial.check(run, &lists, &exact(call, &lists));
            trial.check(run, &lists, &fitted(call, &lists, &[Fit::Short]));
        }
    }
}

#[cfg(test)]
mod tests {
    use super::*;
    use reference::refusals::{self, set_weights};

    #[test]
    fn drawn_lists_are_taken_and_differ() {
        let mut draw = Draw::new(2);
        let (mut zeros, mut alone, mut negative, mut built) = (0, 0, 0, 0);
        let mut ends = [false; ENDS.len()];
        for _ in 0..5_000 {
            let weights = drawn(&mut draw);
            assert_eq!(set_weights(refusals::List::of(&weights)), 0, "{weights:?}");
            let set = weights.iter().filter(|&&v| v != 0.0).count();
            zeros += usize::from(set == 0);
            alone += usize::from(set == 1);
            built += usize::from(weights == *BUILT_IN);
            negative += usize::from(weights.iter().any(|v| v.to_bits() == (-0.0f64).to_bits()));
            for (end, met) in ENDS.iter().zip(&mut ends) {
                *met |= weights.iter().any(|v| v.to_bits() == end.to_bits());
            }
        }
        for met in [zeros, alone, negative, built] {
            assert!(met > 250, "{zeros}, {alone}, {negative}, {built}");
        }
        assert_eq!(ends, [true; ENDS.len()]);
    }

    /// What the edges hold by their numbers.
    #[test]
    fn edges_are_taken_or_refused() {
        let taken = |bytes: &Vec<u8>| {
            let mut floats = Vec::new();
            set_weights(refusals::f64s(bytes, &mut floats)) == 0
        };
        let all = lists();
        let good = all.iter().filter(|bytes| taken(bytes)).count();
        // The built-in list twice, and 17 of each number that is taken.
        assert_eq!(good, 2 + 17 * (ENDS.len() + 1));
        assert!(all.iter().any(|bytes| bytes.len() == 65536 + 64));
    }
}
