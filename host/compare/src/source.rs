//! Where drawn cases of the byte calls come from, kind by kind.

use crate::calls::{fitted, Call};
use crate::draw::kind::{Kind, Kinds};
use crate::draw::Draw;
use crate::sheets::{damages, refused_shape, shape, Damage, Fit, Lists};

/// More than half of the draws are taken.
pub const WRITTEN: Kinds = &[
    (Kind::Border, 6),
    (Kind::Signs, 8),
    (Kind::Valid, 40),
    (Kind::Shape, 5),
    (Kind::Counts, 5),
    (Kind::Codes, 5),
    (Kind::Short, 4),
    (Kind::Long, 3),
    (Kind::Ragged, 4),
    (Kind::Outside, 6),
    (Kind::Nan, 3),
    (Kind::Several, 8),
    (Kind::Outputs, 3),
];
/// For a call without outputs: all but the last.
pub const READ: Kinds = WRITTEN.split_at(WRITTEN.len() - 1).0;

/// For a call that reads a list of weights and nothing else.
pub const WEIGHTS: Kinds = &[
    (Kind::Border, 6),
    (Kind::Valid, 40),
    (Kind::Short, 4),
    (Kind::Long, 3),
    (Kind::Ragged, 4),
    (Kind::Outside, 6),
    (Kind::Nan, 3),
    (Kind::Several, 8),
];

pub fn kinds(call: Call) -> Kinds {
    match call {
        Call::SetWeights => WEIGHTS,
        _ if call.needs(&Lists::default()).is_empty() => READ,
        _ => WRITTEN,
    }
}

/// One of a call's kinds, each as often as a run has it.
pub fn kind(call: Call, draw: &mut Draw) -> Kind {
    let weights = kinds(call).iter().map(|&(_, weight)| weight as usize);
    let mut left = draw.below(weights.sum());
    for &(kind, weight) in kinds(call) {
        if left < weight as usize {
            return kind;
        }
        left -= weight as usize;
    }
    unreachable!("below the sum of the weights")
}

/// Cases of one kind. A sheet serves for several of them.
pub struct Source {
    call: Call,
    kind: Kind,
    /// Of the kind, or all of them for several at once; beside outputs those to
    /// weights and tools, whose numbers come after that of the outputs.
    damages: Vec<Damage>,
    base: Lists,
    left: usize,
    lists: Lists,
}

impl Source {
    pub fn new(call: Call, kind: Kind) -> Self {
        let mut damages = damages(call.read());
        damages.retain(|(of, damage)| match kind {
            Kind::Several => true,
            Kind::Outputs => damage.is_late(),
            _ => *of == kind,
        });
        Self {
            call,
            kind,
            damages: damages.into_iter().map(|(_, damage)| damage).collect(),
            base: Lists::default(),
            left: 0,
            lists: Lists::default(),
        }
    }

    /// The next case's lists and the lengths of its outputs.
    pub fn next(&mut self, draw: &mut Draw) -> (&Lists, Vec<usize>) {
        if self.left == 0 {
            (self.base, self.left) = self.sheet(draw);
        }
        self.left -= 1;
        self.lists.copy(&self.base);
        self.call.renew(&mut self.lists, draw);
        for _ in 0..self.faults(draw) {
            let damage = draw.pick(&self.damages);
            self.lists.spoil(damage, draw);
        }
        let rooms = self.rooms(draw);
        (&self.lists, rooms)
    }

    /// A sheet, and how many cases it serves for. Sizing looks at nothing else, so
    /// each of its cases has a sheet of its own; setting weights has none.
    fn sheet(&self, draw: &mut Draw) -> (Lists, usize) {
        if self.call == Call::SetWeights {
            return (Lists::default(), 1);
        }
        let (lists, cases) = match (self.kind, draw.word() % 8) {
            (Kind::Shape, _) | (Kind::Several, 0) => (Lists::of(&refused_shape(draw), draw), 4),
            (Kind::Signs, _) | (Kind::Several, 1) => (Lists::still(&shape(draw), draw), 8),
            _ => (Lists::of(&shape(draw), draw), 16),
        };
        match self.call {
            Call::Sizing => (lists, 1),
            _ => (lists, cases),
        }
    }

    fn faults(&self, draw: &mut Draw) -> usize {
        match self.kind {
            Kind::Several => draw.pick(&[2, 3]),
            _ if self.damages.is_empty() => 0,
            Kind::Outputs => draw.pick(&[0, 0, 0, 1]),
            _ => 1,
        }
    }

    /// Exact or one number longer, but for the kinds that say otherwise.
    fn rooms(&self, draw: &mut Draw) -> Vec<usize> {
        let needs = self.call.needs(&self.lists);
        let wrong = draw.below(needs.len().max(1));
        let fit = |at: usize| match (self.kind, draw.word() % 16) {
            (Kind::Outputs, _) if at == wrong => draw.pick(&Fit::WRONG),
            (Kind::Outputs, 0..8) | (Kind::Several, 0..2) => draw.pick(&Fit::ALL),
            (_, 8..12) => Fit::Long,
            _ => Fit::Exact,
        };
        let fits: Vec<Fit> = (0..needs.len()).map(fit).collect();
        fitted(self.call, &self.lists, &fits)
    }
}

#[cfg(test)]
mod tests {
    use super::*;
    use crate::judge::{Judge, Written};
    use crate::shares::parts;
    use crate::sheets::List;
    use std::collections::BTreeMap;

    fn floats(written: Written) -> Option<Vec<f64>> {
        match written {
            Written::Floats(floats) => Some(floats),
            Written::U16s(_) => None,
        }
    }

    /// Draws of all kinds by the reference's answer, with the floats that it would
    /// write last.
    fn drawn(call: Call, cases: u64) -> (BTreeMap<u32, u64>, Vec<Vec<f64>>) {
        let weights: Vec<u64> = kinds(call).iter().map(|(_, weight)| *weight).collect();
        let (mut draw, mut judge) = (Draw::new(5), Judge::default());
        let (mut answers, mut last) = (BTreeMap::new(), Vec::new());
        for ((kind, _), cases) in kinds(call).iter().zip(parts(cases, &weights)) {
            let mut source = Source::new(call, *kind);
            for _ in 0..cases {
                let (lists, rooms) = source.next(&mut draw);
                let (number, written) = judge.answer(call, &call.lent(lists), &rooms);
                *answers.entry(number).or_default() += 1;
                last.extend(written.into_iter().next_back().and_then(floats));
            }
        }
        (answers, last)
    }

    /// What a kind says is so: taken, or refused. Of the kinds that are not here
    /// some change nothing.
    #[test]
    fn kinds_are_taken_or_refused() {
        let (mut draw, mut judge) = (Draw::new(6), Judge::default());
        for call in Call::ALL {
            for (kind, _) in kinds(call) {
                let taken = match kind {
                    Kind::Valid | Kind::Signs | Kind::Border => true,
                    Kind::Shape | Kind::Short | Kind::Long => false,
                    Kind::Ragged | Kind::Outside | Kind::Nan => false,
                    _ => continue,
                };
                let mut source = Source::new(call, *kind);
                for _ in 0..300 {
                    let (lists, rooms) = source.next(&mut draw);
                    let (number, _) = judge.answer(call, &call.lent(lists), &rooms);
                    assert_eq!(number == 0, taken, "{call:?} {kind:?}: {number}");
                }
            }
        }
    }

    /// All that a call can answer is drawn, and none of it rarely.
    #[test]
    fn every_number_is_drawn() {
        for call in Call::ALL {
            let mut possible = match call.read().contains(&List::Sizes) {
                true => vec![1, 2, 3, 4, 6],
                false => vec![],
            };
            possible.extend(call.read().contains(&List::Limits).then_some(5));
            possible.extend(call.own().contains(&List::Joints).then_some(7));
            possible.extend(call.own().contains(&List::Goals).then_some(8));
            possible.extend((kinds(call).len() > READ.len()).then_some(9));
            possible.extend(call.own().contains(&List::Weights).then_some(10));
            let tools = [List::Tool, List::Tool0];
            let any = tools.iter().any(|list| call.own().contains(list));
            possible.extend(any.then_some(11));
            // Slopes take their time.
            let cases = if call.aims() { 4_000 } else { 20_000 };
            let (answers, _) = drawn(call, cases);
            for number in &possible {
                let met = answers.get(number).copied().unwrap_or(0);
                assert!(met > cases / 200, "{call:?} {number}: {answers:?}");
            }
            assert!(answers[&0] > cases * 2 / 5, "{call:?}: {answers:?}");
            assert_eq!(answers.len(), possible.len() + 1, "{call:?}");
        }
    }

    /// The cut to 0..1 hides a wrong Jacobian, so many must lie inside.
    #[test]
    fn manipulability_is_often_inside_the_cut() {
        let (_, values) = drawn(Call::Manipulability, 20_000);
        let inside = values.iter().filter(|v| v[0] > 0.0 && v[0] < 1.0).count();
        assert!(inside > values.len() / 10, "{inside} of {}", values.len());
    }

    /// Far out the losses are all tail; a good part must lie near its goals,
    /// and nothing that is taken makes a NaN.
    #[test]
    fn objectives_are_often_near_their_goals() {
        let (_, values) = drawn(Call::Objective, 4_000);
        let near = values.iter().filter(|v| v[0] < 0.0).count();
        let middle = values.iter().filter(|v| (0.0..1e4).contains(&v[0])).count();
        let far = values.len() - near - middle;
        let least = values.len() / 20;
        assert!(near > least, "{near}, {middle}, {far}");
        assert!(middle > least && far > least, "{near}, {middle}, {far}");
        assert!(values.iter().all(|v| v[0].is_finite()));
    }
}
