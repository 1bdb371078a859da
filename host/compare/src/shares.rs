//! How many draws each name and each kind of input gets, and the blocks that
//! they are run in.

use crate::draw::kind::Kind;
use crate::run::Block;
use crate::target::Target;

/// What the command line asks for.
#[derive(Clone, Copy, Debug, PartialEq)]
pub enum Amount {
    /// Draws for each name, of a slow one fewer.
    Cases(u64),
    /// Draws for all names together.
    Total(u64),
}

/// Parts of a number by weight, which sum to it; nothing if all weights are 0.
pub fn parts(number: u64, weights: &[u64]) -> Vec<u64> {
    let all: u64 = weights.iter().sum();
    let upto =
        |weight: u64| (u128::from(number) * u128::from(weight) / u128::from(all.max(1))) as u64;
    let mut passed = 0;
    let part = |weight: &u64| {
        let before = upto(passed);
        passed += weight;
        upto(passed) - before
    };
    weights.iter().map(part).collect()
}

/// The kinds that are drawn for a name, with their weights: all of them if none
/// is asked for.
fn drawn(target: &Target, kinds: &[Kind]) -> Vec<(Kind, u64)> {
    let asked = |(kind, _): &&(Kind, u64)| kinds.is_empty() || kinds.contains(kind);
    target.kinds.iter().filter(asked).copied().collect()
}

/// Draws for each name.
pub fn draws(targets: &[Target], amount: Amount, kinds: &[Kind]) -> Vec<u64> {
    let some = |target: &Target| u64::from(!drawn(target, kinds).is_empty());
    match amount {
        Amount::Cases(cases) => {
            let of = |target: &Target| some(target) * cases.div_ceil(target.pace.divisor);
            targets.iter().map(of).collect()
        }
        Amount::Total(total) => {
            let shares = targets
                .iter()
                .map(|target| some(target) * target.pace.share);
            parts(total, &shares.collect::<Vec<u64>>())
        }
    }
}

/// All blocks in the order in which they are run: first the edges, then the
/// draws of all names side by side, so that a run that is stopped has done about
/// the same share of each.
pub fn plan(targets: &[Target], amount: Amount, kinds: &[Kind]) -> Vec<Block> {
    let mut placed = Vec::new();
    for (at, (target, draws)) in targets
        .iter()
        .zip(draws(targets, amount, kinds))
        .enumerate()
    {
        if kinds.is_empty() || kinds.contains(&Kind::Edges) {
            placed.push((0.0, edges(at)));
        }
        let drawn = drawn(target, kinds);
        let weights: Vec<u64> = drawn.iter().map(|(_, weight)| *weight).collect();
        for ((kind, _), draws) in drawn.iter().zip(parts(draws, &weights)) {
            placed.extend(cut(at, *kind, draws, target.pace.block));
        }
    }
    placed.sort_by(|(a, _), (b, _)| f64::total_cmp(a, b));
    placed.into_iter().map(|(_, block)| block).collect()
}

fn edges(target: usize) -> Block {
    Block {
        target,
        kind: Kind::Edges,
        number: 0,
        draws: 0,
    }
}

/// The blocks of one name and kind, each with its place between 0 and 1.
fn cut(target: usize, kind: Kind, draws: u64, most: u64) -> Vec<(f64, Block)> {
    let count = draws.div_ceil(most);
    let block = |number: u64| Block {
        target,
        kind,
        number,
        draws: most.min(draws - number * most),
    };
    let place = |number: u64| (number as f64 + 0.5) / count as f64;
    let placed = (0..count).map(|number| (place(number), block(number)));
    placed.collect()
}

#[cfg(test)]
mod tests {
    use super::*;
    use crate::target::{Pace, LEAF};
    use crate::targets;

    #[test]
    fn parts_sum_up() {
        assert_eq!(parts(10, &[1, 1, 2]), [2, 3, 5]);
        assert_eq!(parts(7, &[0, 0]), [0, 0]);
        assert_eq!(parts(u64::MAX, &[1, 0]), [u64::MAX, 0]);
        for number in [0, 1, 99, 1_000_003] {
            assert_eq!(parts(number, &[3, 5, 7]).iter().sum::<u64>(), number);
        }
    }

    fn slow() -> Target {
        let pace = Pace {
            divisor: 3,
            share: 1,
            block: 10,
        };
        const TWO: crate::draw::kind::Kinds = &[(Kind::Range, 1), (Kind::Any, 3)];
        Target::new("slow", "a test", pace, TWO, |_| {})
    }

    /// Some are drawn if any are asked for.
    #[test]
    fn a_slow_name_draws_its_share() {
        let draws = |cases| draws(&[slow()], Amount::Cases(cases), &[])[0];
        assert_eq!([0, 1, 3, 7].map(draws), [0, 1, 1, 3]);
    }

    #[test]
    fn a_total_is_met() {
        let all = targets();
        let draws = draws(&all, Amount::Total(1_000_000), &[]);
        assert_eq!(draws.iter().sum::<u64>(), 1_000_000);
        for (target, draws) in all.iter().zip(draws) {
            assert_eq!(draws == 0, target.pace.share == 0, "{}", target.name);
        }
        let blocks = plan(&all, Amount::Total(1_000_000), &[]);
        assert_eq!(
            blocks.iter().map(|block| block.draws).sum::<u64>(),
            1_000_000
        );
    }

    /// Edges come first, blocks are full but for the last, and both kinds go
    /// forward together.
    #[test]
    fn a_plan_is_cut_into_blocks() {
        let blocks = plan(&[slow()], Amount::Total(50), &[]);
        let shown: Vec<(Kind, u64, u64)> = blocks
            .iter()
            .map(|block| (block.kind, block.number, block.draws))
            .collect();
        let expected = [
            (Kind::Edges, 0, 0),
            (Kind::Any, 0, 10),
            (Kind::Range, 0, 10),
            (Kind::Any, 1, 10),
            (Kind::Any, 2, 10),
            (Kind::Range, 1, 2),
            (Kind::Any, 3, 8),
        ];
        assert_eq!(shown, expected);
    }

    #[test]
    fn a_kind_alone_gets_all() {
        let blocks = plan(&[slow()], Amount::Total(20), &[Kind::Any]);
        assert_eq!(blocks.iter().map(|block| block.draws).sum::<u64>(), 20);
        assert!(blocks.iter().all(|block| block.kind == Kind::Any));
        let blocks = plan(&[slow()], Amount::Total(20), &[Kind::Edges]);
        assert_eq!(blocks, [edges(0)]);
        // The other one has no such kind.
        let other = Target::new("other", "a test", LEAF, &[(Kind::Range, 1)], |_| {});
        let draws = draws(&[other, slow()], Amount::Total(20), &[Kind::Any]);
        assert_eq!(draws, [0, 20]);
    }
}
