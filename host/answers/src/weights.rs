//! The cases of `set_weights` and of the calls that work with weights: lists that
//! are taken, lists that are refused by 10, and those beside other faults, whose
//! numbers come first.

use crate::arms::{asked, Call, Counts, Lent, List};
use crate::cases::{cut, exact, lent, put, Fault, FAULTS, SHAPES, SMALL};
use crate::record::Record;
use draw::Draw;
use reference::weights::{built_in, WEIGHTS};

use List::Weights;

pub type Share = (Call, usize, usize);

/// The calls on goals, which are lent weights and take a pick, and of a list of
/// cases the first one that each has and the step to the next: the objective has
/// all of them, the gradients share them out.
pub const SHARES: [Share; 4] = [
    (Call::Objective, 0, 1),
    (Call::Gradient, 0, 3),
    (Call::GradientFiniteDiff, 1, 3),
    (Call::GradientOneBlock, 2, 3),
];

/// The largest weight, and the least float above 0.
const MOST: f64 = 1000.0;
const LEAST: f64 = f64::from_bits(1);
/// Drawn lists of every weight.
const DRAWS: usize = 3;

/// Whether a record has a list of weights among others.
#[cfg(test)]
pub fn is_weighted(record: &Record) -> bool {
    SHARES.iter().any(|(call, ..)| *call as u16 == record.call)
}

pub fn drawn(draw: &mut Draw) -> [f64; WEIGHTS] {
    std::array::from_fn(|_| draw.between(0.0, MOST))
}

/// At the ends of the range.
pub fn ends() -> [[f64; WEIGHTS]; 6] {
    let mixed = [MOST, 0.0, -0.0, LEAST, MOST.next_down(), 1.0, 0.0, MOST];
    let each = [0.0, -0.0, LEAST, MOST.next_down(), MOST];
    let [a, b, c, d, e] = each.map(|v| [v; WEIGHTS]);
    [a, b, c, d, e, mixed]
}

/// One weight beside zeros.
pub fn alone(at: usize, weight: f64) -> [f64; WEIGHTS] {
    let mut weights = [0.0; WEIGHTS];
    weights[at] = weight;
    weights
}

/// All that are taken: at the ends, one alone, the built-in ones, drawn ones.
pub fn taken(draw: &mut Draw) -> Vec<[f64; WEIGHTS]> {
    let mut all = ends().to_vec();
    all.extend((0..WEIGHTS).map(|at| alone(at, draw.between(0.0, MOST))));
    all.push(built_in());
    all.extend((0..DRAWS).map(|_| drawn(draw)));
    all
}

/// What is done to a list that would be taken; 10 follows.
#[rustfmt::skip]
pub const WRONG: [Fault; 20] = [
    (10, Weights, |l| cut(l, Weights, 8)),
    (10, Weights, |l| l.bytes[Weights as usize].extend([0; 8])),
    (10, Weights, |l| put(l, Weights, 0, 1000.0f64.next_up())),
    (10, Weights, |l| put(l, Weights, 1, -1e-300)),
    (10, Weights, |l| put(l, Weights, 2, f64::NAN)),
    (10, Weights, |l| put(l, Weights, 3, f64::INFINITY)),
    (10, Weights, |l| put(l, Weights, 4, f64::NEG_INFINITY)),
    (10, Weights, |l| put(l, Weights, 5, -LEAST)),
    (10, Weights, |l| put(l, Weights, 6, 1e300)),
    (10, Weights, |l| put(l, Weights, 7, -1.0)),
    (10, Weights, |l| put(l, Weights, 7, 1000.0f64.next_up())),
    (10, Weights, |l| cut(l, Weights, 56)),
    (10, Weights, |l| l.bytes[Weights as usize].extend([0; 64])),
    (10, Weights, |l| l.bytes[Weights as usize].extend([0; 448])),
    (10, Weights, |l| l.bytes[Weights as usize].push(0)),
    (10, Weights, |l| cut(l, Weights, 1)),
    (10, Weights, |l| l.bytes[Weights as usize].extend([0; 7])),
    (10, Weights, |l| cut(l, Weights, 7)),
    (10, Weights, |l| cut(l, Weights, 57)),
    (10, Weights, |l| cut(l, Weights, 63)),
];

/// Those that a list of whole floats can have.
pub fn wrong_floats() -> impl Iterator<Item = &'static Fault> + Clone {
    WRONG.iter().take(14)
}

/// `set_weights` looks at nothing else.
fn setting(draw: &mut Draw, records: &mut Vec<Record>) {
    let mut ask = |lent: &Lent| records.push(asked(Call::SetWeights, lent, &[]));
    for list in taken(draw) {
        let mut lent = Lent::default();
        lent.set(Weights, &list);
        ask(&lent);
    }
    for fault in WRONG {
        let mut lent = Lent::default();
        lent.set(Weights, &drawn(draw));
        fault.2(&mut lent);
        ask(&lent);
    }
    // Here no list is refused too.
    ask(&Lent::default());
}

/// A sheet with weights.
fn with(shape: &[&[u16]], weights: &[f64], draw: &mut Draw) -> Lent {
    let mut lent = lent(shape, draw);
    lent.set(Weights, weights);
    lent
}

/// On the small sheet lists of every kind, the built-in ones always; on others
/// drawn ones.
fn accepted(share: Share, draw: &mut Draw, records: &mut Vec<Record>) {
    let (call, first, step) = share;
    let mut ask = |lent: &Lent| records.push(asked(call, lent, &exact(call, lent)));
    for list in taken(draw).iter().skip(first).step_by(step) {
        ask(&with(SMALL, list, draw));
    }
    ask(&with(SMALL, &built_in(), draw));
    for shape in &SHAPES[1..4] {
        let weights = drawn(draw);
        ask(&with(shape, &weights, draw));
    }
}

/// The weights wrong in this way.
fn spoilt(fault: &Fault, draw: &mut Draw) -> Lent {
    let mut lent = with(SMALL, &built_in(), draw);
    fault.2(&mut lent);
    lent
}

/// A fault of the weights alone; then beside a fault of a number that comes
/// before: an output that is too short, and what a list that is read can have.
fn refused(share: Share, draw: &mut Draw, records: &mut Vec<Record>) {
    let (call, first, step) = share;
    for fault in WRONG.iter().skip(first).step_by(step) {
        let lent = spoilt(fault, draw);
        records.push(asked(call, &lent, &exact(call, &lent)));
    }
    for (at, _) in call.needs(&Counts::default()).iter().enumerate() {
        let lent = spoilt(&WRONG[at], draw);
        let mut rooms = exact(call, &lent);
        rooms[at] -= 1;
        records.push(asked(call, &lent, &rooms));
    }
    for number in (1..=8).rev().step_by(step) {
        let mut lent = spoilt(&WRONG[number as usize], draw);
        let other = FAULTS.iter().find(|fault| fault.0 == number);
        other.expect("a fault of each number").2(&mut lent);
        records.push(asked(call, &lent, &exact(call, &lent)));
    }
}

pub fn all(draw: &mut Draw) -> Vec<Record> {
    let mut records = Vec::new();
    setting(draw, &mut records);
    for share in SHARES {
        accepted(share, draw, &mut records);
        refused(share, draw, &mut records);
    }
    records
}

#[cfg(test)]
mod tests {
    use super::*;

    #[test]
    fn a_fault_has_its_number() {
        for (at, fault) in WRONG.iter().enumerate() {
            let mut lent = Lent::default();
            lent.set(Weights, &built_in());
            fault.2(&mut lent);
            let record = asked(Call::SetWeights, &lent, &[]);
            assert_eq!(record.number, fault.0, "fault {at}");
        }
        for fault in wrong_floats() {
            let mut lent = Lent::default();
            lent.set(Weights, &built_in());
            fault.2(&mut lent);
            assert_eq!(lent.get(Weights).len() % 8, 0);
        }
    }

    /// Its numbers are there, and 10 only where nothing comes before it.
    #[test]
    fn every_number_is_there() {
        let records = all(&mut Draw::new(crate::SEED));
        for (call, first, step) in SHARES {
            let own = records.iter().filter(|record| record.call == call as u16);
            let mut met: Vec<u32> = own.map(|record| record.number).collect();
            let tens = met.iter().filter(|&&number| number == 10).count();
            let wrong = WRONG.iter().skip(first).step_by(step).count();
            assert_eq!(tens, wrong, "{call:?}");
            met.sort_unstable();
            met.dedup();
            let mut possible: Vec<u32> = (1..=8).rev().step_by(step).collect();
            possible.extend([0, 9, 10]);
            possible.sort_unstable();
            assert_eq!(met, possible, "{call:?}");
        }
    }

    /// The built-in weights as a list answer what no list does.
    #[test]
    fn the_built_in_list_is_no_other() {
        for (call, ..) in SHARES {
            let mut draw = Draw::new(3);
            let none = lent(SHAPES[2], &mut draw);
            let mut same = none.clone();
            same.set(Weights, &built_in());
            let mut other = none.clone();
            other.set(Weights, &alone(0, 1.0));
            let outputs = |lent: &Lent| {
                let mut record = asked(call, lent, &exact(call, lent));
                record.outputs().map(|byte| *byte).collect::<Vec<u8>>()
            };
            assert_eq!(outputs(&none), outputs(&same), "{call:?}");
            assert_ne!(outputs(&none), outputs(&other), "{call:?}");
        }
    }
}
