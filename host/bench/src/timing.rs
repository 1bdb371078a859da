//! Times two functions in turn and says how steady the ratio is.

use std::hint::black_box;
use std::time::Instant;

/// Repetitions, of which the fastest counts: other work on the machine only
/// adds to the others.
pub const REPETITIONS: usize = 201;
/// A repetition runs for about this long: short, so that some of them meet no
/// other work.
const SECONDS: f64 = 0.001;

/// A row in nanoseconds a call.
#[derive(Clone, Debug)]
pub struct Timed {
    pub name: String,
    pub proved: f64,
    pub reference: f64,
    /// The first and the third quartile of the ratio of neighbouring
    /// repetitions. They lie near each other if the machine was quiet.
    pub quartiles: [f64; 2],
}

impl Timed {
    pub fn ratio(&self) -> f64 {
        self.proved / self.reference
    }
}

/// One pass over the inputs. `black_box` hides each input, so that a call can
/// be neither left out nor merged with its neighbours.
pub fn pass<I>(inputs: &[I], f: &impl Fn(&I) -> f64) -> f64 {
    inputs.iter().map(|input| f(black_box(input))).sum()
}

/// Nanoseconds a call over some passes.
pub fn nanoseconds<I>(inputs: &[I], passes: usize, f: &impl Fn(&I) -> f64) -> f64 {
    let start = Instant::now();
    for _ in 0..passes {
        black_box(pass(inputs, f));
    }
    start.elapsed().as_secs_f64() * 1e9 / (passes * inputs.len()) as f64
}

/// At so many quarters of the sorted numbers, between two of them if need be;
/// the second is the median.
pub fn at_quarter(quarter: usize, numbers: &[f64]) -> f64 {
    let mut sorted = numbers.to_vec();
    sorted.sort_by(f64::total_cmp);
    let quarters = quarter * (sorted.len() - 1);
    let (low, high) = (sorted[quarters / 4], sorted[quarters.div_ceil(4)]);
    low + (high - low) * (quarters % 4) as f64 / 4.0
}

/// Times both in turn, so that a change of the machine's pace meets both.
pub fn time<I>(
    name: &str,
    inputs: &[I],
    proved: &impl Fn(&I) -> f64,
    reference: &impl Fn(&I) -> f64,
) -> Timed {
    let passes = |once: f64| (SECONDS * 1e9 / (once * inputs.len() as f64)).ceil() as usize;
    let proved_passes = passes(nanoseconds(inputs, 4, proved));
    let reference_passes = passes(nanoseconds(inputs, 4, reference));
    let (mut ours, mut theirs, mut ratios) = (f64::INFINITY, f64::INFINITY, Vec::new());
    for _ in 0..REPETITIONS {
        let once = nanoseconds(inputs, proved_passes, proved);
        let other = nanoseconds(inputs, reference_passes, reference);
        ours = ours.min(once);
        theirs = theirs.min(other);
        ratios.push(once / other);
    }
    Timed {
        name: name.to_string(),
        proved: ours,
        reference: theirs,
        quartiles: [1, 3].map(|quarter| at_quarter(quarter, &ratios)),
    }
}

#[cfg(test)]
mod tests {
    use super::*;

    #[test]
    fn quartiles_are_of_the_sorted_numbers() {
        let numbers = [5.0, 1.0, 3.0, 2.0, 4.0];
        let found = [1, 2, 3].map(|quarter| at_quarter(quarter, &numbers));
        assert_eq!(found, [2.0, 3.0, 4.0]);
        assert_eq!(at_quarter(3, &[7.0]), 7.0);
        assert_eq!(at_quarter(2, &[4.0, 1.0]), 2.5);
    }

    #[test]
    fn the_slower_side_shows() {
        let work = |turns: u32| move |x: &f64| (0..turns).fold(*x, |a, _| black_box(a).sqrt());
        let timed = time("test", &[2.0; 64], &work(200), &work(20));
        assert!(timed.ratio() > 2.0, "{timed:?}");
        assert!(timed.quartiles[0] <= timed.quartiles[1]);
    }
}
