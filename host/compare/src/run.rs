//! The run of one block: counts its cases and keeps the differences.

use crate::draw::kind::Kind;
use crate::draw::Draw;
use crate::tally::{Difference, Shown, Tally};
use std::fmt::Write as _;

/// A part of the run. Its inputs depend on the seed, the name, the kind and its
/// own number, and on nothing that was run before it.
#[derive(Clone, Copy, Debug, PartialEq)]
pub struct Block {
    /// Among the names that are run.
    pub target: usize,
    pub kind: Kind,
    /// Among the blocks of that name and kind.
    pub number: u64,
    pub draws: u64,
}

pub struct Run {
    pub draw: Draw,
    /// What is to be drawn.
    pub kind: Kind,
    number: u64,
    left: u64,
    /// Differences still to be kept.
    room: usize,
    tally: Tally,
}

impl Run {
    pub fn new(seed: u64, block: &Block, room: usize) -> Self {
        Self {
            draw: Draw::new(seed),
            kind: block.kind,
            number: block.number,
            left: block.draws,
            room,
            tally: Tally::default(),
        }
    }

    pub fn finish(self) -> Tally {
        self.tally
    }

    /// Whether the block is one of edges.
    pub fn edges(&self) -> bool {
        self.kind == Kind::Edges
    }

    /// Whether to draw one case more.
    #[inline]
    pub fn more(&mut self) -> bool {
        let more = self.left > 0;
        self.left -= u64::from(more);
        more
    }

    /// One case, found the same or not. The input is only shown for a difference
    /// that is kept.
    #[inline]
    pub fn case(&mut self, same: bool, show: impl FnOnce() -> Shown) {
        self.tally.cases += 1;
        if !same {
            self.differ(show);
        }
    }

    #[cold]
    fn differ(&mut self, show: impl FnOnce() -> Shown) {
        self.tally.differences += 1;
        if self.room == 0 {
            return;
        }
        self.room -= 1;
        self.tally.kept.push(Difference {
            kind: self.kind,
            block: self.number,
            case: self.tally.cases,
            shown: show(),
        });
    }

    /// Counts the number that a call is to answer: 0, or a refusal's.
    pub fn answer(&mut self, number: u32) {
        *self.tally.answers.entry(number).or_default() += 1;
    }

    /// One case of a function from floats to floats.
    #[inline]
    pub fn floats(&mut self, input: &[f64], proved: &[f64], reference: &[f64]) {
        let same = proved.len() == reference.len()
            && proved.iter().zip(reference).all(|(&a, &b)| matches(a, b));
        self.case(same, || show(input, proved, reference));
    }

    /// The edges, or draws of the run's kind, of a function from N floats to M.
    #[inline]
    pub fn function<const N: usize, const M: usize>(
        &mut self,
        edges: impl Iterator<Item = [f64; N]>,
        mut draw: impl FnMut(&mut Draw, Kind) -> [f64; N],
        proved: impl Fn([f64; N]) -> [f64; M],
        reference: impl Fn([f64; N]) -> [f64; M],
    ) {
        if self.edges() {
            for input in edges {
                self.floats(&input, &proved(input), &reference(input));
            }
        }
        while self.more() {
            let input = draw(&mut self.draw, self.kind);
            self.floats(&input, &proved(input), &reference(input));
        }
    }
}

/// Bit for bit, a NaN matching a NaN.
#[inline]
pub fn matches(a: f64, b: f64) -> bool {
    a.to_bits() == b.to_bits() || (a.is_nan() && b.is_nan())
}

/// Every float in bits and in decimal.
pub fn show(input: &[f64], proved: &[f64], reference: &[f64]) -> Shown {
    let mut text = String::new();
    for (at, v) in input.iter().enumerate() {
        let _ = writeln!(text, "input {at:<2}     {}", with_bits(*v));
    }
    for at in 0..proved.len().max(reference.len()) {
        for (side, answers) in [("proved", proved), ("reference", reference)] {
            let answer = answers.get(at).copied().map(with_bits);
            let answer = answer.unwrap_or("missing".to_string());
            let _ = writeln!(text, "{side:<9} {at:<2} {answer}");
        }
    }
    Shown::Lines(text)
}

pub fn with_bits(v: f64) -> String {
    format!("0x{:016x} {v:e}", v.to_bits())
}

#[cfg(test)]
mod tests {
    use super::*;

    #[test]
    fn a_match_is_bit_for_bit() {
        assert!(matches(1.5, 1.5));
        assert!(matches(f64::NAN, -f64::NAN));
        assert!(!matches(0.0, -0.0));
        assert!(!matches(f64::NAN, 0.0));
        assert!(!matches(1.0, 1.0f64.next_up()));
    }
}
