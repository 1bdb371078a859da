//! Two builds of the proved library in one program, which `tools/speed_ratio`
//! links: what a call takes after a change, divided by what it took before. The
//! builds take turns on the same inputs, in batches so short that other work on
//! the machine meets both alike or few batches at all, and medians leave those out.

use crate::timing::{at_quarter, nanoseconds, pass};
use relaxed_ik::leaves;
use std::f64::consts::TAU;
use std::hint::black_box;

/// Pairs of batches at each place of the stack. A batch follows one of the other
/// build, so that neither finds the processor's predictors as it left them; half
/// of the pairs have the other order.
const PAIRS: usize = 16;
/// A batch runs for about this long: well under a time slice.
const SECONDS: f64 = 0.0002;

#[derive(Clone, Copy, Debug, PartialEq)]
pub enum Build {
    Before,
    After,
}

#[cfg(feature = "two_builds")]
mod linked {
    use super::Build;

    unsafe extern "C" {
        safe fn speed_ratio_take(build: u32);
        safe fn speed_ratio_strict(build: u32) -> u32;
    }

    pub fn take(build: Build) {
        speed_ratio_take(build as u32);
    }

    /// Whether the build's calls have the strict list. One from before is handed the
    /// pick too, behind the lists that it knows, and does not look at it.
    pub fn has_strict(build: Build) -> bool {
        speed_ratio_strict(build as u32) != 0
    }
}

#[cfg(feature = "two_builds")]
pub use linked::take;

/// Sends the calls that follow to one build.
#[cfg(not(feature = "two_builds"))]
pub fn take(build: Build) {
    unreachable!("{build:?}, where one build is linked");
}

/// Whether every build that is linked has the strict list.
#[cfg(feature = "objective")]
pub fn all_have_strict() -> bool {
    #[cfg(feature = "two_builds")]
    return [Build::Before, Build::After]
        .into_iter()
        .all(linked::has_strict);
    #[cfg(not(feature = "two_builds"))]
    true
}

/// Whether every build that is linked takes whole turns off an angle before its series
/// see it: of one turn nothing is left then.
pub fn all_take_turns_off() -> bool {
    let nothing_left = || leaves::sin(TAU) == 0.0;
    #[cfg(feature = "two_builds")]
    return [Build::Before, Build::After].into_iter().all(|build| {
        take(build);
        nothing_left()
    });
    #[cfg(not(feature = "two_builds"))]
    nothing_left()
}

/// Nanoseconds a call before and after, and their ratio.
pub type Times = [f64; 3];

/// At so many quarters of each of the three.
pub fn times_at_quarter(quarter: usize, times: &[Times]) -> Times {
    [0, 1, 2].map(|of| {
        let numbers: Vec<f64> = times.iter().map(|times| times[of]).collect();
        at_quarter(quarter, &numbers)
    })
}

/// A row in one process.
#[derive(Clone, Debug, PartialEq)]
pub struct Round {
    pub times: Times,
    /// Whether both builds answered the same.
    pub same: bool,
}

impl Round {
    pub fn new<I>(inputs: &[I], call: &impl Fn(&I) -> f64, take: &impl Fn(Build)) -> Self {
        let sums = [Build::Before, Build::After].map(|build| {
            take(build);
            pass(inputs, call).to_bits()
        });
        Self {
            times: times(inputs, call, take),
            same: sums[0] == sums[1],
        }
    }
}

/// The median of the pairs at each place of the stack, and the places' mean.
fn times<I>(inputs: &[I], call: &impl Fn(&I) -> f64, take: &impl Fn(Build)) -> Times {
    let once = (0..3).map(|_| nanoseconds(inputs, 1, call));
    let once = once.fold(f64::INFINITY, f64::min) * inputs.len() as f64;
    let passes = (SECONDS * 1e9 / once).ceil() as usize;
    // Where one pass is longer than a batch, a batch has a part of the inputs.
    let parts = (once / (SECONDS * 1e9)).ceil() as usize;
    let parts = inputs.chunks(inputs.len().div_ceil(parts.max(1)));
    let time = |part: &[I], build| {
        take(build);
        nanoseconds(part, passes, call)
    };
    let places = at_each_place(&|| {
        let mut pairs = Vec::new();
        for after_first in [false, true] {
            for part in parts.clone().cycle().take(PAIRS / 2) {
                let early = after_first.then(|| time(part, Build::After));
                let before = time(part, Build::Before);
                let after = early.unwrap_or_else(|| time(part, Build::After));
                pairs.push([before, after, after / before]);
            }
        }
        times_at_quarter(2, &pairs)
    });
    [0, 1, 2].map(|of| places.map(|times| times[of]).iter().sum::<f64>() / 4.0)
}

/// Runs it at each of the four places in a cache line at which a caller's stack
/// can end: what a call takes depends on it, in each build in its own way.
fn at_each_place<T>(run: &dyn Fn() -> T) -> [T; 4] {
    [
        further_down::<16, T>(run),
        further_down::<32, T>(run),
        further_down::<48, T>(run),
        further_down::<64, T>(run),
    ]
}

#[inline(never)]
fn further_down<const BYTES: usize, T>(run: &dyn Fn() -> T) -> T {
    let room = [0u8; BYTES];
    black_box(&room);
    let answer = run();
    black_box(&room);
    answer
}

#[cfg(test)]
mod tests {
    use super::*;
    use std::cell::Cell;

    /// On two builds, of which the second takes three times as many turns.
    fn timed(answer: fn(Build) -> f64) -> Round {
        let taken = Cell::new(Build::Before);
        let call = |x: &f64| {
            let turns = 50 + 100 * taken.get() as u32;
            black_box((0..turns).fold(*x, |a, _| black_box(a).sqrt()));
            answer(taken.get())
        };
        Round::new(&[2.0; 64], &call, &|build| taken.set(build))
    }

    #[test]
    fn the_slower_build_shows() {
        let round = timed(|_| 1.0);
        let [before, after, ratio] = round.times;
        assert!(ratio > 1.5 && after > before && round.same, "{round:?}");
    }

    #[test]
    fn other_answers_show() {
        assert!(!timed(|build| f64::from(build as u8)).same);
    }

    #[test]
    fn the_four_places_are_those_of_a_cache_line() {
        let mut places = at_each_place(&|| {
            let here = 0u8;
            black_box(&raw const here).addr() / 16 % 4
        });
        places.sort();
        assert_eq!(places, [0, 1, 2, 3]);
    }
}
