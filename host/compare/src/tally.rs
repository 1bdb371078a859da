//! What was counted and found for a name.

use crate::draw::kind::Kind;
use std::collections::BTreeMap;
use std::time::Duration;

/// Differences of a name that are kept: printed, stored and written to files.
/// The others are counted.
pub const MOST_KEPT: usize = 20;

/// A case on which the two sides differ.
#[derive(Clone, Debug, PartialEq)]
pub struct Difference {
    pub kind: Kind,
    /// The block among those of its name and kind, and the case within.
    pub block: u64,
    pub case: u64,
    pub shown: Shown,
}

impl Difference {
    /// What it is called, apart from the name: words with this between them.
    pub fn place(&self, between: &str) -> String {
        let (block, case) = (self.block.to_string(), self.case.to_string());
        [self.kind.name(), &block, &case].join(between)
    }
}

/// Input and both answers.
#[derive(Clone, Debug, PartialEq)]
pub enum Shown {
    /// A sheet that `sonde` reads, the answers in its comments.
    Sheet(String),
    /// Lines of numbers, each with its bits.
    Lines(String),
}

impl Shown {
    pub fn text(&self) -> &str {
        match self {
            Self::Sheet(text) | Self::Lines(text) => text,
        }
    }
}

#[derive(Clone, Debug, Default, PartialEq)]
pub struct Tally {
    pub blocks: u64,
    pub cases: u64,
    pub differences: u64,
    /// How often each number was the reference's answer, for calls that answer
    /// one.
    pub answers: BTreeMap<u32, u64>,
    pub time: Duration,
    pub kept: Vec<Difference>,
}

impl Tally {
    pub fn add(&mut self, other: Self) {
        self.blocks += other.blocks;
        self.cases += other.cases;
        self.differences += other.differences;
        for (number, count) in other.answers {
            *self.answers.entry(number).or_default() += count;
        }
        self.time += other.time;
        self.kept.extend(other.kept);
    }

    /// How many more differences are to be kept.
    pub fn room(&self) -> usize {
        MOST_KEPT.saturating_sub(self.kept.len())
    }
}
