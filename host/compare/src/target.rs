//! What is compared, by name, and the kinds of input.

use crate::draw::kind::{Kind, Kinds};
use crate::draw::{fnv, Draw};
use crate::run::{Block, Run};
use crate::tally::Tally;
use std::time::Instant;

/// How many cases a name gets. A slow name gets fewer.
#[derive(Clone, Copy, Debug)]
pub struct Pace {
    /// One draw in so many of those that `--cases` asks for.
    pub divisor: u64,
    /// Parts of a thousand that it gets of `--total`, all names being run.
    pub share: u64,
    /// Draws in a full block: at most a few seconds of work.
    pub block: u64,
}

const fn pace(divisor: u64, share: u64, block: u64) -> Pace {
    Pace {
        divisor,
        share,
        block,
    }
}

/// Nothing to draw.
pub const CONSTANT: Pace = pace(1, 0, 1);
pub const LEAF: Pace = pace(1, 10, 2_000_000);
pub const ARMS: Pace = pace(1, 73, 400_000);
/// One tool beside a sheet.
pub const SET_TOOL: Pace = pace(1, 14, 400_000);
/// The reference makes every frame, objective and entry that it counts.
pub const SIZING: Pace = pace(1, 30, 100_000);
/// Eight numbers are soon looked at.
pub const SETTING: Pace = pace(1, 5, 1_000_000);
#[cfg(feature = "objective")]
pub const OBJECTIVE: Pace = pace(20, 80, 100_000);
#[cfg(feature = "objective")]
pub const SLOPES: Pace = pace(100, 10, 10_000);
#[cfg(feature = "objective")]
pub const TOGETHER: Pace = pace(200, 10, 10_000);

/// Something to compare, by name. `run` feeds both sides one block: the edges,
/// or draws of the run's kind until `Run::more` says that it is enough.
#[derive(Clone, Copy)]
pub struct Target {
    pub name: &'static str,
    pub about: &'static str,
    pub pace: Pace,
    pub kinds: Kinds,
    pub run: fn(&mut Run),
}

impl Target {
    pub fn new(
        name: &'static str,
        about: &'static str,
        pace: Pace,
        kinds: Kinds,
        run: fn(&mut Run),
    ) -> Self {
        Self {
            name,
            about,
            pace,
            kinds,
            run,
        }
    }

    pub fn leaf(name: &'static str, about: &'static str, kinds: Kinds, run: fn(&mut Run)) -> Self {
        Self::new(name, about, LEAF, kinds, run)
    }

    pub fn has(&self, kind: Kind) -> bool {
        kind == Kind::Edges || self.kinds.iter().any(|(known, _)| *known == kind)
    }

    /// Its kinds by name, the edges first.
    pub fn kind_names(&self) -> String {
        let drawn = self.kinds.iter().map(|(kind, _)| kind.name());
        let names: Vec<&str> = std::iter::once(Kind::Edges.name()).chain(drawn).collect();
        names.join(", ")
    }

    /// Feeds both sides a block of its inputs, and keeps so many differences.
    pub fn run_block(&self, block: &Block, seed: u64, room: usize) -> Tally {
        let started = Instant::now();
        let mut run = Run::new(block_seed(seed, self.name, block), block, room);
        (self.run)(&mut run);
        Tally {
            blocks: 1,
            time: started.elapsed(),
            ..run.finish()
        }
    }
}

/// The seed of a block. Each has draws of its own, so that a run that is resumed
/// or that takes a name alone meets the same cases as the whole run.
fn block_seed(seed: u64, name: &str, block: &Block) -> u64 {
    let words = format!("{seed} {name} {} {}", block.kind.name(), block.number);
    let hash = fnv(words.as_bytes());
    // Seeds that differ in few bits would begin alike.
    Draw::new(hash).word()
}

#[cfg(test)]
mod tests {
    use super::*;
    use crate::targets;

    #[test]
    fn names_differ_and_kinds_are_listed_once() {
        let mut names: Vec<&str> = targets().iter().map(|target| target.name).collect();
        let count = names.len();
        names.sort();
        names.dedup();
        assert_eq!(names.len(), count);
        for target in targets() {
            for (at, (kind, weight)) in target.kinds.iter().enumerate() {
                assert!(*weight > 0 && *kind != Kind::Edges, "{}", target.name);
                assert!(target.kinds[..at].iter().all(|(other, _)| other != kind));
            }
            assert_eq!(target.kinds.is_empty(), target.pace.share == 0);
        }
    }

    /// So that a share is what `--list` says it is.
    #[cfg(feature = "objective")]
    #[test]
    fn shares_sum_to_a_thousand() {
        let shares = targets().into_iter().map(|target| target.pace.share);
        assert_eq!(shares.sum::<u64>(), 1000);
    }

    fn block(kind: Kind, number: u64, draws: u64) -> Block {
        Block {
            target: 0,
            kind,
            number,
            draws,
        }
    }

    /// Right at 2, wrong elsewhere.
    fn wrong(run: &mut Run) {
        run.function(
            [[1.0], [2.0]].into_iter(),
            |draw, _| [draw.between(0.0, 1.0)],
            |[x]| [x],
            |[x]| [if x == 2.0 { x } else { -x }],
        );
    }

    fn target() -> Target {
        Target::leaf("test", "a test", &[(Kind::Range, 1)], wrong)
    }

    #[test]
    fn differences_are_counted_and_the_first_are_kept() {
        let edges = target().run_block(&block(Kind::Edges, 0, 0), 1, 3);
        assert_eq!((edges.cases, edges.differences), (2, 1));
        let text = edges.kept[0].shown.text();
        assert!(
            text.contains("input 0      0x3ff0000000000000 1e0"),
            "{text}"
        );
        assert!(
            text.contains("reference 0  0xbff0000000000000 -1e0"),
            "{text}"
        );
        let drawn = target().run_block(&block(Kind::Range, 4, 20), 1, 3);
        assert_eq!((drawn.cases, drawn.differences), (20, 20));
        let places: Vec<(u64, u64)> = drawn.kept.iter().map(|one| (one.block, one.case)).collect();
        assert_eq!(places, [(4, 1), (4, 2), (4, 3)]);
    }

    /// The same block has the same cases, another one has others.
    #[test]
    fn a_block_has_draws_of_its_own() {
        let first = |name: &'static str, kind: Kind, number: u64, seed: u64| {
            let target = Target::leaf(name, "a test", &[(Kind::Range, 1)], wrong);
            let tally = target.run_block(&block(kind, number, 1), seed, 1);
            tally.kept[0].shown.text().to_string()
        };
        let one = first("a", Kind::Range, 0, 1);
        assert_eq!(one, first("a", Kind::Range, 0, 1));
        assert_ne!(one, first("b", Kind::Range, 0, 1));
        assert_ne!(one, first("a", Kind::Any, 0, 1));
        assert_ne!(one, first("a", Kind::Range, 1, 1));
        assert_ne!(one, first("a", Kind::Range, 0, 2));
    }
}
