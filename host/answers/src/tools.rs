//! The cases of `set_tool` and of the calls that are lent tools: tools that are
//! taken, on some chains and not on others, tools that are refused by 11, and
//! those beside other faults, whose numbers come first.

use crate::arms::{asked, Call, Counts, Lent, List, TOOL_LISTS};
use crate::cases::{cut, exact, lent, link, meets, put, turn, Fault, Shape, FAULTS, SHAPES, SMALL};
use crate::record::{u16_bytes, Record};
use crate::sizing::widest;
use crate::weights::{self, Share};
use draw::Draw;
use reference::refusals::u16s;
use reference::sheet;
use reference::tools::{ends, tools, TOOLS, TOOL_FLOATS};

use List::{Chain, Codes, Floats, Goals, History, Limits, Sizes, Tool0, Tool1, Tool2, Tool3};

pub type Tool = [f64; TOOL_FLOATS];

/// The calls that are lent tools, and of the tools and faults below the first one
/// that each is lent and the step to the next.
const SHARES: [Share; 6] = [
    (Call::Pose, 1, 2),
    (Call::Reset, 1, 4),
    (Call::Objective, 0, 3),
    (Call::Gradient, 0, 4),
    (Call::GradientFiniteDiff, 2, 4),
    (Call::GradientOneBlock, 3, 4),
];

/// Two joints on each of four chains.
pub const FOUR: Shape = &[&[13, 12], &[11, 22], &[31, 12], &[13, 26]];
/// Shapes of several chains, and the chains that have a tool.
const MOUNTED: [(Shape, &[usize]); 3] = [(SHAPES[2], &[0, 1]), (SHAPES[2], &[1]), (FOUR, &[0, 3])];

/// The smallest w for which w alone is still a rotation.
fn narrowest() -> f64 {
    let end = 0.999999999f64;
    let mut w = end.sqrt().next_down();
    while w * w < end {
        w = w.next_up();
    }
    w
}

fn tool([x, y, z]: [f64; 3], [w, i, j, k]: [f64; 4]) -> Tool {
    [x, y, z, w, i, j, k]
}

/// All that are taken: offsets that turn nothing, which are skipped, whatever w
/// and the zeros' signs; one that hardly turns, which is not; the ends of the
/// ranges; drawn ones.
pub fn taken(draw: &mut Draw) -> [Tool; 12] {
    let at = [0.125, -0.25, 0.5];
    [
        link(draw),
        tool(at, [1.0, 0.0, 0.0, 0.0]),
        tool(at, [-1.0, 0.0, -0.0, 0.0]),
        tool([-0.0, 0.0, -0.0], [1.0, -0.0, -0.0, -0.0]),
        tool([10.0, -10.0, 10.0], turn(draw)),
        tool([-10.0, 10.0, -10.0], [-0.0, -0.0, 0.0, 1.0]),
        tool(at, [widest(), 0.0, 0.0, 0.0]),
        tool(at, [0.0, 0.0, narrowest(), -0.0]),
        tool(at, [1.0, f64::from_bits(1), 0.0, 0.0]),
        tool(at, [-1.0, 0.0, 0.0, 1e-12]),
        tool([0.0; 3], turn(draw)),
        link(draw),
    ]
}

/// Puts another quaternion in the place of the tool's.
fn put_turn(lent: &mut Lent, w: f64) {
    for (at, part) in [w, 0.0, 0.0, 0.0].into_iter().enumerate() {
        put(lent, Tool0, 3 + at, part);
    }
}

/// What is done to a tool of chain 0 that would be taken; 11 follows.
#[rustfmt::skip]
pub const WRONG: [Fault; 20] = [
    (11, Tool0, |l| cut(l, Tool0, 8)),
    (11, Tool0, |l| l.bytes[Tool0 as usize].extend([0; 8])),
    (11, Tool0, |l| put(l, Tool0, 0, 10.0f64.next_up())),
    (11, Tool0, |l| put(l, Tool0, 1, (-10.0f64).next_down())),
    (11, Tool0, |l| put(l, Tool0, 2, f64::NAN)),
    (11, Tool0, |l| put(l, Tool0, 0, f64::INFINITY)),
    (11, Tool0, |l| put(l, Tool0, 2, f64::NEG_INFINITY)),
    (11, Tool0, |l| put_turn(l, widest().next_up())),
    (11, Tool0, |l| put_turn(l, narrowest().next_down())),
    (11, Tool0, |l| put_turn(l, 0.0)),
    (11, Tool0, |l| put(l, Tool0, 3, f64::NAN)),
    (11, Tool0, |l| put(l, Tool0, 6, 1.1)),
    (11, Tool0, |l| cut(l, Tool0, 48)),
    (11, Tool0, |l| l.bytes[Tool0 as usize].extend([0; 56])),
    (11, Tool0, |l| l.bytes[Tool0 as usize].extend([0; 392])),
    (11, Tool0, |l| l.bytes[Tool0 as usize].push(0)),
    (11, Tool0, |l| cut(l, Tool0, 1)),
    (11, Tool0, |l| l.bytes[Tool0 as usize].extend([0; 7])),
    (11, Tool0, |l| cut(l, Tool0, 55)),
    (11, Tool0, |l| cut(l, Tool0, 49)),
];

/// The same tool for a chain that the small sheet does not have; and other lists
/// for such a chain, refused whatever they hold.
#[rustfmt::skip]
const BEHIND: [Fault; 5] = [
    (11, Tool1, |l| l.bytes[Tool1 as usize] = l.get(Tool0).to_vec()),
    (11, Tool3, |l| l.bytes[Tool3 as usize] = l.get(Tool0).to_vec()),
    (11, Tool2, |l| l.bytes[Tool2 as usize].push(0)),
    (11, Tool1, |l| l.bytes[Tool1 as usize].extend([0; 56])),
    (11, Tool3, |l| l.bytes[Tool3 as usize].extend([255; 15])),
];

/// Where the tools begin in a record, if its call is lent some.
#[cfg(test)]
pub fn place(record: &Record) -> Option<usize> {
    let own = |(call, ..): &&Share| *call as u16 == record.call;
    let (call, ..) = SHARES.iter().find(own)?;
    call.read().iter().position(|list| *list == Tool0)
}

/// The chain's number as a record has it.
pub fn set_chain(lent: &mut Lent, chain: u16) {
    lent.bytes[Chain as usize] = u16_bytes(&[chain]);
}

/// A sheet with a tool to set on a chain.
fn set(shape: Shape, tool: &Tool, chain: u16, draw: &mut Draw) -> Lent {
    let mut lent = lent(shape, draw);
    lent.set(Tool0, tool);
    set_chain(&mut lent, chain);
    lent
}

/// `set_tool`: tools that are taken, chains that are loaded and that are not,
/// faults of the tool, alone and beside one of the sheet.
fn setting(draw: &mut Draw, records: &mut Vec<Record>) {
    let mut ask = |lent: &Lent| records.push(asked(Call::SetTool, lent, &[]));
    for tool in taken(draw) {
        ask(&set(SMALL, &tool, 0, draw));
    }
    let chains = [
        (SMALL, 1),
        (SMALL, 256),
        (SMALL, u16::MAX),
        (SHAPES[2], 1),
        (SHAPES[2], 2),
    ];
    for (shape, chain) in chains.into_iter().chain([(FOUR, 3), (FOUR, 4)]) {
        let tool = link(draw);
        ask(&set(shape, &tool, chain, draw));
    }
    for fault in WRONG {
        let mut lent = set(SMALL, &link(draw), 0, draw);
        fault.2(&mut lent);
        ask(&lent);
    }
    // Here no list is refused too.
    let mut none = set(SMALL, &link(draw), 0, draw);
    none.set(Tool0, &[]);
    ask(&none);
    for number in 1..=6 {
        let mut lent = set(SMALL, &link(draw), 1, draw);
        WRONG[number as usize].2(&mut lent);
        spoil(number, &mut lent);
        ask(&lent);
    }
}

/// A sheet with these tools, the goals near their tips.
pub fn mounted(shape: Shape, mounts: &[(usize, Tool)], draw: &mut Draw) -> Lent {
    let mut lent = lent(shape, draw);
    let mut lists: [Vec<f64>; TOOLS] = Default::default();
    for (chain, tool) in mounts {
        lent.set(TOOL_LISTS[*chain], tool);
        lists[*chain] = tool.to_vec();
    }
    let (mut sizes, mut codes) = (Vec::new(), Vec::new());
    u16s(lent.get(Sizes), &mut sizes);
    u16s(lent.get(Codes), &mut codes);
    let robot = sheet::robot(&sizes, &codes, &lent.floats(Floats), &lent.floats(Limits));
    let (history, mut goals) = (lent.floats(History), lent.floats(Goals));
    let last = &history[history.len() - lent.counts.joints..];
    let tips = ends(&robot, &tools(&lists), last);
    for (goal, tip) in goals.chunks_exact_mut(13).zip(tips.chunks_exact(7)) {
        goal[..7].copy_from_slice(tip);
        // A tool at the end of its range makes of a turn none that a goal may have.
        let size = tip[3..].iter().map(|v| v * v).sum::<f64>().sqrt();
        goal[3..7].iter_mut().for_each(|part| *part /= size);
    }
    lent.set(Goals, &goals);
    lent
}

/// On the small sheet tools of every kind; on others some chains have one.
fn accepted(share: Share, draw: &mut Draw, records: &mut Vec<Record>) {
    let (call, first, step) = share;
    let mut ask = |lent: &Lent| records.push(asked(call, lent, &exact(call, lent)));
    for tool in taken(draw).into_iter().skip(first).step_by(step) {
        ask(&mounted(SMALL, &[(0, tool)], draw));
    }
    for (shape, chains) in MOUNTED {
        let mounts: Vec<(usize, Tool)> = chains.iter().map(|&at| (at, link(draw))).collect();
        let mut lent = mounted(shape, &mounts, draw);
        if meets(call, &weights::WRONG[0]) {
            lent.set(List::Weights, &weights::drawn(draw));
        }
        ask(&lent);
    }
}

/// The small sheet with a tool that is wrong in this way.
fn spoilt(fault: &Fault, draw: &mut Draw) -> Lent {
    let mut lent = mounted(SMALL, &[(0, link(draw))], draw);
    fault.2(&mut lent);
    lent
}

/// A fault of this number besides.
pub fn spoil(number: u32, lent: &mut Lent) {
    let other = FAULTS.iter().find(|fault| fault.0 == number);
    other.expect("a fault of each number").2(lent);
}

/// A fault of the tools alone; then beside a fault of a number that comes before:
/// an output that is too short, and what a list that is read can have.
fn refused(share: Share, draw: &mut Draw, records: &mut Vec<Record>) {
    let (call, first, step) = share;
    let mut ask = |lent: &Lent| records.push(asked(call, lent, &exact(call, lent)));
    for fault in wrong(first, step) {
        ask(&spoilt(fault, draw));
    }
    for number in lower(share) {
        let mut lent = spoilt(&WRONG[number as usize], draw);
        match number {
            10 => {
                lent.set(List::Weights, &weights::drawn(draw));
                weights::WRONG[first].2(&mut lent);
            }
            _ => spoil(number, &mut lent),
        }
        ask(&lent);
    }
    for (at, _) in call.needs(&Counts::default()).iter().enumerate() {
        let lent = spoilt(&WRONG[at], draw);
        let mut rooms = exact(call, &lent);
        rooms[at] -= 1;
        records.push(asked(call, &lent, &rooms));
    }
}

/// The faults that a call has.
fn wrong(first: usize, step: usize) -> impl Iterator<Item = &'static Fault> {
    let own = |faults: &'static [Fault]| faults.iter().skip(first).step_by(step);
    own(&WRONG).chain(own(&BEHIND))
}

/// The numbers that come before 11 and that its lists can have: 10 always, of the
/// others its share.
fn lower((call, first, step): Share) -> Vec<u32> {
    let met = |number: &u32| {
        let all = FAULTS.iter().chain(&weights::WRONG);
        all.filter(|fault| fault.0 == *number)
            .any(|fault| meets(call, fault))
    };
    let others = (1..=8).rev().skip(first % step).step_by(step);
    std::iter::once(10).chain(others).filter(met).collect()
}

pub fn all(draw: &mut Draw) -> Vec<Record> {
    let mut records = Vec::new();
    setting(draw, &mut records);
    for share in SHARES {
        accepted(share, draw, &mut records);
        refused(share, draw, &mut records);
    }
    records
}

#[cfg(test)]
mod tests {
    use super::*;

    fn numbers(records: &[Record], call: Call) -> Vec<u32> {
        let own = records.iter().filter(|record| record.call == call as u16);
        own.map(|record| record.number).collect()
    }

    #[test]
    fn a_fault_has_its_number() {
        let mut draw = Draw::new(3);
        for (at, fault) in WRONG.iter().chain(&BEHIND).enumerate() {
            let lent = spoilt(fault, &mut draw);
            for (call, ..) in SHARES {
                let record = asked(call, &lent, &exact(call, &lent));
                assert_eq!(record.number, fault.0, "{call:?}, fault {at}");
            }
        }
    }

    /// Each call has what it is to have: 11 for its share of the faults and nothing
    /// else, and the numbers before it.
    #[test]
    fn every_number_is_there() {
        let records = all(&mut Draw::new(crate::SEED));
        let mut beside = Vec::new();
        for share in SHARES {
            let (call, first, step) = share;
            let mut met = numbers(&records, call);
            let elevens = met.iter().filter(|&&number| number == 11).count();
            assert_eq!(elevens, wrong(first, step).count(), "{call:?}");
            met.sort_unstable();
            met.dedup();
            let mut possible = lower(share);
            possible.extend([0, 9, 11]);
            possible.sort_unstable();
            assert_eq!(met, possible, "{call:?}");
            beside.extend(met);
        }
        assert!(
            (1..=10).all(|number| beside.contains(&number)),
            "{beside:?}"
        );
        let met = numbers(&records, Call::SetTool);
        let count = |number: u32| met.iter().filter(|&&other| other == number).count();
        // Two of the seven chains are loaded; the list without a byte is refused.
        assert_eq!((count(0), count(11)), (12 + 2, WRONG.len() + 5 + 1));
        assert!((1..=6).all(|number| count(number) == 1), "{met:?}");
    }

    /// What a call writes, tools lent or not.
    fn outputs(call: Call, lent: &Lent) -> Vec<u8> {
        let mut record = asked(call, lent, &exact(call, lent));
        record.outputs().map(|byte| *byte).collect()
    }

    /// Every tool on every chain that there is shows, but for the one that neither
    /// moves nor turns.
    #[test]
    fn a_tool_shows() {
        let mut draw = Draw::new(3);
        for (at, tool) in taken(&mut draw).into_iter().enumerate() {
            let with = mounted(SHAPES[2], &[(at % 2, tool)], &mut draw);
            let mut without = with.clone();
            without.set(TOOL_LISTS[at % 2], &[]);
            for (call, ..) in SHARES {
                let same = outputs(call, &with) == outputs(call, &without);
                assert_eq!(same, at == 3, "{call:?}, tool {at}");
            }
        }
    }
}
