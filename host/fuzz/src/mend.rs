//! Makes a case one that is taken, with as much of it kept as can be: what a
//! change has left too long is cut, what is missing is filled up, and a number
//! outside of its range is brought in.

use crate::input::{Input, MOST};
use compare::calls::{number, Call};
use compare::sheets::{List, Lists, Shape, CODES, TOOL_LISTS};
use reference::refusals::{f64s, reach, u16s, BLOCKS};
use reference::sheet::{GOAL_FLOATS, LINK_FLOATS};
use reference::weights::WEIGHTS;
use relaxed_ik::bytes::{put_floats, put_u16s};

const MOST_CHAINS: usize = 4;
const MOST_LINKS: usize = 16;
const MOST_JOINTS: usize = 16;
const LEAST_JOINTS: usize = 2;

/// A link up 1.
const LINK: [f64; LINK_FLOATS] = [0.0, 0.0, 1.0, 1.0, 0.0, 0.0, 0.0];

pub fn mend(input: &mut Input) {
    if input.call.read().contains(&List::Weights) {
        mend_weights(input);
    }
    if input.call != Call::SetWeights {
        mend_arms(&mut input.lists);
    }
    mend_tools(input);
    make_room(input);
}

/// Where a call works with weights, no byte is a list too.
fn mend_weights(input: &mut Input) {
    let none = input.lists.get(List::Weights).is_empty();
    if input.call == Call::SetWeights || !none {
        let lists = &mut input.lists;
        set_groups(lists, List::Weights, WEIGHTS, &[0.5], |weight| {
            clamp(weight, 0.0, 1000.0)
        });
    }
}

/// The sheet, and what else a call on arms may read.
fn mend_arms(lists: &mut Lists) {
    let shape = mended_shape(shape(lists));
    set_shape(lists, &shape);
    set_groups(lists, List::Floats, lists.links, &LINK, mend_link);
    set_groups(lists, List::Limits, lists.joints, &[-3.0, 3.0], mend_pair);
    let mut goal = [0.0; GOAL_FLOATS];
    goal[3] = 1.0;
    set_groups(lists, List::Goals, lists.chains, &goal, mend_goal);
    set_blocks(lists, List::History, BLOCKS);
    set_blocks(lists, List::Joints, 1);
}

/// So many blocks of joints, each value as far as its joint goes.
fn set_blocks(lists: &mut Lists, list: List, blocks: usize) {
    let codes = lists.joint_codes();
    let mut reaches = codes.iter().map(|&code| reach(code)).cycle();
    set_groups(lists, list, blocks * codes.len(), &[0.0], |joint| {
        let reach = reaches.next().expect("a joint");
        clamp(joint, -reach, reach);
    });
}

/// A tool to be set is one, on a chain that is loaded. Where a call works with tools,
/// no byte is none, and all that a chain which is not loaded can have.
fn mend_tools(input: &mut Input) {
    let (call, lists) = (input.call, &mut input.lists);
    if call == Call::SetTool {
        set_groups(lists, List::Tool, 1, &LINK, mend_link);
        let chain = number(lists.get(List::Chain)) % lists.chains as u32;
        lists.set(List::Chain, &chain.to_le_bytes());
    }
    for (chain, list) in TOOL_LISTS.into_iter().enumerate() {
        if chain >= lists.chains {
            lists.set(list, &[]);
        } else if !lists.get(list).is_empty() {
            set_groups(lists, list, 1, &LINK, mend_link);
        }
    }
}

/// The codes of each chain, as far as sizes and codes tell.
fn shape(lists: &Lists) -> Shape {
    let (mut sizes, mut codes) = (Vec::new(), Vec::new());
    u16s(lists.get(List::Sizes), &mut sizes);
    u16s(lists.get(List::Codes), &mut codes);
    let mut left = codes.into_iter();
    let chains = sizes.iter().skip(1).take(MOST_CHAINS);
    chains
        .map(|&links| {
            left.by_ref()
                .take(usize::from(links).min(MOST_LINKS))
                .collect()
        })
        .collect()
}

fn mended_shape(mut shape: Shape) -> Shape {
    if shape.is_empty() {
        shape.push(Vec::new());
    }
    let (mut spare, first) = (MOST_JOINTS - LEAST_JOINTS * shape.len(), shape[0].len());
    for (at, chain) in shape.iter_mut().enumerate() {
        // Every pair of a later chain looks at chain 0's links.
        let own = if at == 0 {
            MOST_JOINTS
        } else {
            first.max(LEAST_JOINTS)
        };
        let joints = mend_chain(chain, own.min(LEAST_JOINTS + spare));
        spare -= joints - LEAST_JOINTS;
    }
    shape
}

/// With listed codes, and at least two and at most so many joints; answers how
/// many.
fn mend_chain(chain: &mut Vec<u16>, most: usize) -> usize {
    let mut joints = 0;
    for code in chain.iter_mut() {
        if !CODES.contains(code) {
            *code = CODES[usize::from(*code) % CODES.len()];
        }
        if *code != 0 && joints == most {
            *code = 0;
        }
        joints += usize::from(*code != 0);
    }
    if joints < LEAST_JOINTS {
        chain.fill(0);
        chain.truncate(MOST_LINKS - LEAST_JOINTS);
        chain.extend([13, 12]);
    }
    joints.max(LEAST_JOINTS)
}

fn set_shape(lists: &mut Lists, shape: &Shape) {
    let mut sizes = vec![shape.len() as u16];
    sizes.extend(shape.iter().map(|chain| chain.len() as u16));
    let mut bytes = Vec::new();
    put_u16s(&sizes, &mut bytes);
    lists.set(List::Sizes, &bytes);
    put_u16s(&shape.concat(), &mut bytes);
    lists.set(List::Codes, &bytes);
    lists.count();
}

/// So many groups of floats: those that are there, mended, then `filler`.
fn set_groups<const N: usize>(
    lists: &mut Lists,
    list: List,
    count: usize,
    filler: &[f64; N],
    mend: impl FnMut(&mut [f64]),
) {
    let mut floats = Vec::new();
    f64s(lists.get(list), &mut floats);
    floats.truncate(floats.len() / N * N);
    floats.truncate(count * N);
    while floats.len() < count * N {
        floats.extend_from_slice(filler);
    }
    floats.chunks_exact_mut(N).for_each(mend);
    let mut bytes = Vec::new();
    put_floats(&floats, &mut bytes);
    lists.set(list, &bytes);
}

/// Into the range, which has 0; a NaN becomes 0.
fn clamp(values: &mut [f64], low: f64, high: f64) {
    for value in values {
        *value = if value.is_nan() {
            0.0
        } else {
            value.clamp(low, high)
        };
    }
}

fn mend_link(link: &mut [f64]) {
    clamp(&mut link[..3], -10.0, 10.0);
    mend_turn(&mut link[3..]);
}

fn mend_goal(goal: &mut [f64]) {
    clamp(&mut goal[..3], -100.0, 100.0);
    mend_turn(&mut goal[3..7]);
    clamp(&mut goal[7..], -100.0, 100.0);
}

fn is_turn(q: &[f64]) -> bool {
    let sum = q[0] * q[0] + q[1] * q[1] + q[2] * q[2] + q[3] * q[3];
    (0.999999999..=1.000000001).contains(&sum)
}

fn mend_turn(q: &mut [f64]) {
    if !is_turn(q) {
        let size = q.iter().map(|c| c * c).sum::<f64>().sqrt();
        q.iter_mut().for_each(|c| *c /= size);
    }
    if !is_turn(q) {
        q.copy_from_slice(&[1.0, 0.0, 0.0, 0.0]);
    }
}

fn mend_pair(pair: &mut [f64]) {
    if *pair != [-999.0, 999.0] {
        clamp(pair, -100.0, 100.0);
        if pair[1] - pair[0] < 0.001 {
            pair.copy_from_slice(&[-3.0, 3.0]);
        }
    }
}

/// Outputs that are too short, or ragged, become as long as is needed.
fn make_room(input: &mut Input) {
    let call: Call = input.call;
    for (at, numbers) in call.needs(&input.lists).into_iter().enumerate() {
        let (room, unit) = (&mut input.rooms[at], call.unit(at));
        if *room < unit * numbers || *room % unit != 0 {
            *room = (unit * numbers).min(MOST);
        }
    }
}

#[cfg(test)]
mod tests {
    use super::*;
    use crate::mutate::{change, drawn};
    use compare::draw::Draw;
    use compare::judge::Judge;

    /// Whatever a case has become, it is taken once it is mended; and mending
    /// it again changes nothing.
    #[test]
    fn a_mended_case_is_taken() {
        let (mut draw, mut judge) = (Draw::new(5), Judge::default());
        let mut input = drawn(Call::GradientOneBlock, &mut draw);
        for _ in 0..2_000 {
            change(&mut input, &mut draw, |bytes| bytes.extend([7, 255, 240]));
            let mut mended = Input::read(&input.bytes());
            mend(&mut mended);
            let (number, _) = judge.answer(mended.call, &mended.read_lists(), &mended.rooms);
            assert_eq!(number, 0, "{mended}");
            let bytes = mended.bytes();
            mend(&mut mended);
            assert_eq!(mended.bytes(), bytes);
        }
    }

    /// Listed codes stay, the telescoping ones among them, and an unlisted one becomes
    /// any of them.
    #[test]
    fn every_code_is_kept_and_reached() {
        let mended = |code: u16| {
            let mut chain = vec![code, 13, 12];
            mend_chain(&mut chain, MOST_JOINTS);
            chain[0]
        };
        assert!(CODES.iter().all(|&code| mended(code) == code));
        assert!(CODES.contains(&40) && CODES.contains(&46));
        let reached: Vec<u16> = (47..47 + CODES.len() as u16).map(mended).collect();
        assert!(CODES.iter().all(|code| reached.contains(code)));
    }

    /// A joint goes as far as its kind does, in the block and in a history.
    #[test]
    fn joints_are_mended_by_their_code() {
        let mut input = drawn(Call::Update, &mut Draw::new(5));
        set_shape(&mut input.lists, &vec![vec![13, 33, 0, 40, 20]]);
        for (value, sign) in [(f64::INFINITY, 1.0), (-65.0, -1.0)] {
            input.lists.set_floats(List::Joints, &[value; 4]);
            input.lists.set_floats(List::History, &[value; 16]);
            mend(&mut input);
            let ends = [64.0, 8.0, 8.0, 64.0].map(|end| sign * end);
            for (list, blocks) in [(List::Joints, 1), (List::History, 4)] {
                let mut mended = Vec::new();
                f64s(input.lists.get(list), &mut mended);
                assert_eq!(mended, ends.repeat(blocks));
            }
        }
    }

    /// What is taken already is left alone.
    #[test]
    fn a_good_case_is_kept() {
        let (mut draw, mut judge) = (Draw::new(5), Judge::default());
        let mut good = 0;
        for _ in 0..2_000 {
            let mut input = drawn(draw.pick(&Call::ALL), &mut draw);
            if judge
                .answer(input.call, &input.read_lists(), &input.rooms)
                .0
                == 0
            {
                let bytes = input.bytes();
                mend(&mut input);
                assert_eq!(input.bytes(), bytes);
                good += 1;
            }
        }
        assert!(good > 800, "{good}");
    }
}
