//! Changes a case by what it means: another call, lists drawn anew, one of the
//! faults that `compare` knows, a number, a length. Bytes changed anywhere
//! would hardly ever leave a sheet that is taken.

use crate::input::{Input, MOST};
use crate::mend::mend;
use compare::calls::Call;
use compare::draw::Draw;
use compare::sheets::{damages, Fit, List, Lists};
use compare::source::{kind, Source};

/// A case as `compare` draws it: more than half are taken.
pub fn drawn(call: Call, draw: &mut Draw) -> Input {
    let mut source = Source::new(call, kind(call, draw));
    let (from, rooms) = source.next(draw);
    let mut lists = Lists::default();
    lists.copy(from);
    Input { call, rooms, lists }
}

/// A case changed in one to three ways, and mended or not; `plain` is the
/// fuzzer's own change of bytes.
pub fn change(input: &mut Input, draw: &mut Draw, mut plain: impl FnMut(&mut Vec<u8>)) {
    for _ in 0..1 + draw.below(3) {
        match draw.word() % 16 {
            0 => *input = drawn(draw.pick(&Call::ALL), draw),
            1 => other_call(input, draw),
            2 => fit(input, draw),
            3 => length_of_output(input, draw),
            4 | 5 => input.call.renew(&mut input.lists, draw),
            6..=8 => {
                let (_, damage) = draw.pick(&damages(input.call.read()));
                input.lists.spoil(damage, draw);
            }
            9 | 10 => bytes(input, draw, false, &mut plain),
            11 | 12 => bytes(input, draw, true, &mut plain),
            _ => float(input, draw),
        }
        input.lists.count();
    }
    if draw.word() % 2 == 0 {
        mend(input);
    }
}

/// The same sheet for another call, with lists and outputs that fit it.
fn other_call(input: &mut Input, draw: &mut Draw) {
    input.call = draw.pick(&Call::ALL);
    input.call.renew(&mut input.lists, draw);
    fit(input, draw);
}

/// Outputs as long as the call needs them, now and then longer.
fn fit(input: &mut Input, draw: &mut Draw) {
    let needs = input.call.needs(&input.lists).into_iter().enumerate();
    let rooms = needs.map(|(at, numbers)| {
        let fit = draw.pick(&[Fit::Exact, Fit::Exact, Fit::Long, Fit::Longer]);
        fit.bytes(numbers, input.call.unit(at)).min(MOST)
    });
    input.rooms = rooms.collect();
}

fn length_of_output(input: &mut Input, draw: &mut Draw) {
    let needs = input.call.needs(&input.lists);
    if needs.is_empty() {
        return;
    }
    let at = draw.below(needs.len());
    let fitted = draw.pick(&Fit::ALL).bytes(needs[at], input.call.unit(at));
    let any = draw.below(4096);
    input.rooms[at] = draw.pick(&[fitted, fitted, any]).min(MOST);
}

/// The fuzzer's own change of one list, its length kept or not.
fn bytes(input: &mut Input, draw: &mut Draw, keep: bool, plain: &mut impl FnMut(&mut Vec<u8>)) {
    let list = draw.pick(input.call.read());
    let old = input.lists.get(list).to_vec();
    let mut new = old.clone();
    plain(&mut new);
    if keep {
        new.truncate(old.len());
        let kept = new.len();
        new.extend_from_slice(&old[kept..]);
    }
    input.lists.set(list, &new);
}

/// One float becomes a neighbour, its negative, an edge, or any; a joint's now and then
/// so many half turns.
fn float(input: &mut Input, draw: &mut Draw) {
    let mut lists = input.call.read().to_vec();
    let floats = |list: &List| {
        use List::{Chain, Codes, Sizes, Strict};
        !matches!(list, Sizes | Codes | Chain | Strict)
    };
    lists.retain(floats);
    let list = draw.pick(&lists);
    let mut bytes = input.lists.get(list).to_vec();
    let count = bytes.len() / 8;
    if count == 0 {
        return;
    }
    let at = 8 * draw.below(count);
    let old = f64::from_le_bytes(bytes[at..at + 8].try_into().expect("eight bytes"));
    let new = match draw.word() % 6 {
        0 => old.next_up(),
        1 => old.next_down(),
        2 => -old,
        3 => draw.edge(),
        4 => draw.any(),
        _ if list == List::Weights => draw.between(0.0, 1000.0),
        _ if matches!(list, List::Joints | List::History) => {
            let turned = [draw.between(-64.0, 64.0), draw.half_turns(20)];
            draw.pick(&turned)
        }
        _ => draw.between(-8.0, 8.0),
    };
    bytes[at..at + 8].copy_from_slice(&new.to_le_bytes());
    input.lists.set(list, &bytes);
}

#[cfg(test)]
mod tests {
    use super::*;

    /// Changed over and over, a case stays one that can be written and read.
    #[test]
    fn a_changed_case_is_a_case() {
        let mut draw = Draw::new(4);
        let mut input = drawn(Call::GradientOneBlock, &mut draw);
        let mut met = [false; Call::ALL.len()];
        for _ in 0..5_000 {
            change(&mut input, &mut draw, |bytes| bytes.push(7));
            met[input.call as usize] = true;
            let bytes = input.bytes();
            assert_eq!(Input::read(&bytes).bytes(), bytes);
        }
        assert!(met.iter().all(|&met| met));
    }

    #[test]
    fn a_kept_length_is_kept() {
        let mut draw = Draw::new(4);
        let mut input = drawn(Call::Load, &mut draw);
        let before = input.read_lists().concat().len();
        for _ in 0..50 {
            bytes(&mut input, &mut draw, true, &mut |list| list.push(7));
            bytes(&mut input, &mut draw, true, &mut |list| list.clear());
        }
        assert_eq!(input.read_lists().concat().len(), before);
    }
}
