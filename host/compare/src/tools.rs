//! What is wrong with tools and with the chains that they are for, and the edges
//! of every call that reads them.

use crate::calls::{exact, fitted};
use crate::draw::kind::Kind;
use crate::run::Run;
use crate::sheets::{link_damages, Change, Damage, Fit, List, Lists, Shape, TOOL_LISTS};
use crate::trial::Trial;
use reference::tools::{TOOLS, TOOL_FLOATS};
use relaxed_ik::bytes::of_floats;

type Tool = [f64; TOOL_FLOATS];

/// Chains that no sheet has; some of them end in the bits of one that it may have.
const UNNUMBERED: [u32; 7] = [0, 4, 255, 256, 65536, 1 << 31, u32::MAX];
/// Bytes of a tool: a part of a float, some floats, all of them.
const BYTES: [(Kind, usize); 4] = [
    (Kind::Ragged, 1),
    (Kind::Ragged, 55),
    (Kind::Outside, 8),
    (Kind::Outside, 56),
];

/// Every damage to tools besides those that any list has.
pub fn damages(read: &[List]) -> Vec<(Kind, Damage)> {
    let mut all = Vec::new();
    for list in [List::Tool0, List::Tool] {
        if read.contains(&list) {
            all.push((Kind::Long, Damage::Length(list, Change::TimesOver)));
            all.extend(link_damages(list));
        }
    }
    if read.contains(&List::Tool0) {
        all.extend(BYTES.map(|(kind, bytes)| (kind, Damage::Unloaded(bytes))));
    }
    if read.contains(&List::Chain) {
        all.extend(UNNUMBERED.map(|chain| (Kind::Outside, Damage::Unnumbered(chain))));
    }
    all
}

/// A tool that is taken and does not turn.
const PLAIN: Tool = [0.5, -0.25, 0.125, 1.0, 0.0, 0.0, 0.0];

/// Tools of seven floats: each part the ends of its range, their neighbours, zeros
/// of both signs and what is in no range; then offsets that turn nothing, hardly
/// anything, by half, and at both ends of the squares' sum.
fn of_seven() -> Vec<Tool> {
    let mut all = Vec::new();
    let parts = [
        10.0,
        10.0f64.next_up(),
        1.0,
        1.0f64.next_up(),
        0.0,
        f64::from_bits(1),
        f64::NAN,
        f64::INFINITY,
    ];
    for at in 0..TOOL_FLOATS {
        for part in parts.into_iter().flat_map(|v| [v, -v]) {
            let mut tool = PLAIN;
            tool[at] = part;
            all.push(tool);
        }
    }
    for offset in offsets() {
        let mut tool = PLAIN;
        tool[3..].copy_from_slice(&offset);
        all.push(tool);
        tool[..3].fill(-0.0);
        all.push(tool);
    }
    all
}

/// One part about the root of an end, the others zeros of both signs.
fn offsets() -> Vec<[f64; 4]> {
    let mut all = Vec::new();
    for end in [0.999999999f64, 1.0, 1.000000001] {
        let mut part = end.sqrt();
        for _ in 0..3 {
            part = part.next_down();
        }
        for _ in 0..7 {
            for at in 0..4 {
                for (v, zero) in [(part, 0.0), (-part, 0.0), (part, -0.0), (-part, -0.0)] {
                    let mut offset = [zero; 4];
                    offset[at] = v;
                    all.push(offset);
                }
            }
            part = part.next_up();
        }
    }
    all
}

/// Those, then bytes of every length up to twice as many as are needed, and lists
/// that are longer still: the last one by as many bytes as a u16 counts.
fn lists() -> Vec<Vec<u8>> {
    let tools = of_seven().into_iter();
    let mut all: Vec<Vec<u8>> = tools.map(|tool| of_floats(&tool).to_vec()).collect();
    let plain = of_floats(&PLAIN);
    let twice = plain.repeat(2);
    all.extend((0..=twice.len()).map(|length| twice[..length].to_vec()));
    all.extend([3, 4, 32].map(|times| plain.repeat(times)));
    let mut long = plain.repeat(1 + (1 << 16) / plain.len());
    long.resize(plain.len() + (1 << 16), 0);
    all.push(long);
    all
}

/// Every list for every chain on a few sheets, loaded or not, the other chains with
/// a tool and without, and with an output too short, which comes before.
pub fn edges(run: &mut Run, trial: &mut Trial) {
    let call = trial.call;
    let shapes: [Shape; 4] = [
        vec![vec![13, 12]],
        vec![vec![13, 32, 0, 10], vec![14, 0, 35, 20, 11]],
        vec![vec![13, 12]; 4],
        vec![vec![13, 42], vec![40, 0, 46]],
    ];
    let all = lists();
    let numbers: Vec<u32> = (0..TOOLS as u32).chain(UNNUMBERED).collect();
    for shape in &shapes {
        for bytes in &all {
            let mut lists = Lists::of(shape, &mut run.draw);
            for chain in 0..TOOLS {
                call.renew(&mut lists, &mut run.draw);
                lists.set(TOOL_LISTS[chain], bytes);
                lists.set(List::Tool, bytes);
                lists.set(List::Chain, &numbers[chain].to_le_bytes());
                trial.check(run, &lists, &exact(call, &lists));
            }
            trial.check(run, &lists, &fitted(call, &lists, &[Fit::Short]));
        }
        for number in &numbers {
            let mut lists = Lists::of(shape, &mut run.draw);
            call.renew(&mut lists, &mut run.draw);
            lists.set(List::Chain, &number.to_le_bytes());
            trial.check(run, &lists, &exact(call, &lists));
        }
    }
}

#[cfg(test)]
mod tests {
    use super::*;
    use crate::calls::Call;
    use crate::draw::Draw;
    use crate::judge::Judge;

    /// What the edges hold by their numbers: both ends of the squares' sum, and one
    /// float beyond, are among them, of either sign.
    #[test]
    fn edges_are_taken_or_refused() {
        let (mut draw, mut judge) = (Draw::new(3), Judge::default());
        let mut sheet = Lists::of(&vec![vec![13, 12]], &mut draw);
        Call::SetTool.renew(&mut sheet, &mut draw);
        let mut taken = |bytes: &[u8]| {
            sheet.set(List::Tool, bytes);
            judge
                .answer(Call::SetTool, &Call::SetTool.lent(&sheet), &[])
                .0
                == 0
        };
        let met = offsets().into_iter().map(|[w, i, j, k]| {
            let tool: Tool = [0.0, 0.0, 0.0, w, i, j, k];
            let sum = w * w + i * i + j * j + k * k;
            (taken(of_floats(&tool)), sum)
        });
        let (mut least, mut most, mut beyond) = (1.0f64, 1.0f64, [0; 2]);
        for (taken, sum) in met {
            match taken {
                true => (least, most) = (least.min(sum), most.max(sum)),
                false => beyond[usize::from(sum > 1.0)] += 1,
            }
        }
        assert!(least - 0.999999999 < 1e-15 && 1.000000001 - most < 1e-15);
        assert!(beyond.iter().all(|&count| count > 16), "{beyond:?}");
        let lists = lists();
        assert!(lists.iter().any(|bytes| bytes.len() == 65536 + 56));
        let good = lists.iter().filter(|bytes| taken(bytes)).count();
        assert!(good > 100 && good < lists.len() - 100, "{good}");
    }
}
