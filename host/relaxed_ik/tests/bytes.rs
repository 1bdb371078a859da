//! What the calls answer and write, on lists of bytes written by hand.

mod lists;

use lists::UP;
use relaxed_ik::bytes::{self, of_floats, of_u16s, Sheet, Tools};

const NO_TOOLS: Tools = [&[]; 4];
/// Numbers that pick the strict list, among them some whose low bits are 0.
const STRICT: [u32; 6] = [1, 2, 256, 65536, 1 << 31, u32::MAX];

fn floats(numbers: &[f64]) -> Vec<u8> {
    of_floats(numbers).to_vec()
}

fn u16s(numbers: &[u16]) -> Vec<u8> {
    of_u16s(numbers).to_vec()
}

/// One chain of links up 1, with wide limits.
struct Lists {
    sizes: Vec<u8>,
    codes: Vec<u8>,
    floats: Vec<u8>,
    limits: Vec<u8>,
}

fn chain(codes: &[u16]) -> Lists {
    let joints = codes.iter().filter(|&&code| code != 0).count();
    Lists {
        sizes: u16s(&[1, codes.len() as u16]),
        codes: u16s(codes),
        floats: floats(&UP.repeat(codes.len())),
        limits: floats(&[-3.0, 3.0].repeat(joints)),
    }
}

impl Lists {
    fn sheet(&self) -> Sheet<'_> {
        Sheet {
            sizes: &self.sizes,
            codes: &self.codes,
            floats: &self.floats,
            limits: &self.limits,
        }
    }
}

/// Every code of a joint with the ends of its range, which are taken, and the next
/// floats, which are refused.
fn ends() -> impl Iterator<Item = (u16, f64, u32)> {
    let turning = (10..=16).chain(20..=26).map(|code| (code, 64.0f64));
    let sliding = (30..=36).chain(40..=46).map(|code| (code, 8.0));
    turning.chain(sliding).flat_map(|(code, most)| {
        let beyond = most.next_up();
        [(most, 0), (-most, 0), (beyond, 7), (-beyond, 7)]
            .map(|(value, answer)| (code, value, answer))
    })
}

/// What the calls on joints alone answer of four links, three of them joints. Only a
/// call that was taken has written.
fn joint_answers(lists: &Lists, joints: &[u8]) -> [u32; 4] {
    let sheet = lists.sheet();
    let mut written = [15, 24, 7, 1, 12, 7].map(|count| floats(&vec![0.5; count]));
    let before = written.clone();
    let [positions, rotations, ends, value, history, starts] = &mut written;
    let found = [
        bytes::frames(sheet, joints, positions, rotations),
        bytes::pose(sheet, NO_TOOLS, joints, ends),
        bytes::manipulability(sheet, joints, value),
        bytes::reset(sheet, NO_TOOLS, joints, history, starts),
    ];
    for (list, before) in written.iter().zip(&before) {
        assert_eq!(list != before, found == [0; 4]);
    }
    found
}

#[test]
fn the_end_of_a_range_is_taken_and_the_next_float_refused() {
    for (code, value, answer) in ends() {
        let lists = chain(&[33, 0, code, 13]);
        let found = joint_answers(&lists, &floats(&[8.0, value, -64.0]));
        assert_eq!(found, [answer; 4], "code {code} at {value:e}");
    }
}

/// The joints, then the four blocks of the history, with the value in one of them.
fn five_blocks<const N: usize>(block: [f64; N], at: usize, value: f64) -> [Vec<u8>; 2] {
    let mut blocks = [block; 5];
    blocks[at][1] = value;
    [&blocks[..1], &blocks[1..]].map(|part| floats(&part.concat()))
}

#[test]
fn each_block_of_a_history_has_the_ranges_of_the_joints() {
    for (code, value, answer) in ends() {
        let lists = chain(&[33, 0, code, 13]);
        for at in 0..5 {
            let [joints, history] = five_blocks([8.0, 0.5, -64.0], at, value);
            let mut renewed = floats(&[7.0; 12]);
            let expected = match answer {
                0 => [&joints[..], &history[..72]].concat(),
                _ => renewed.clone(),
            };
            let answered = bytes::update(lists.sheet(), &history, &joints, &mut renewed);
            assert_eq!(answered, answer, "code {code}, block {at} at {value:e}");
            assert_eq!(renewed, expected);
        }
    }
}

#[test]
fn one_joint_is_refused_and_two_are_taken() {
    assert_eq!(bytes::load(chain(&[13]).sheet()), 4);
    assert_eq!(bytes::load(chain(&[13, 13]).sheet()), 0);
}

#[test]
fn a_difference_of_limits_is_rounded() {
    for (lower, upper, answer) in [(5.0, 5.001, 0), (1.0, 1.001, 5)] {
        let mut lists = chain(&[13, 12]);
        lists.limits = floats(&[lower, upper, -3.0, 3.0]);
        assert_eq!(bytes::load(lists.sheet()), answer, "{lower}, {upper}");
    }
}

#[test]
fn two_revolute_links_up() {
    let lists = chain(&[13, 12]);
    let mut positions = floats(&[9.0; 10]);
    let mut rotations = floats(&[9.0; 17]);
    let answer = bytes::frames(
        lists.sheet(),
        &floats(&[0.0, 0.0]),
        &mut positions,
        &mut rotations,
    );
    assert_eq!(answer, 0);
    let up = [0.0, 0.0, 0.0, 0.0, 0.0, 1.0, 0.0, 0.0, 2.0, 9.0];
    assert_eq!(positions, floats(&up));
    let turns = [[1.0, 0.0, 0.0, 0.0].repeat(4), vec![9.0]].concat();
    assert_eq!(rotations, floats(&turns));
}

#[test]
fn goals_are_13_floats_a_chain() {
    let lists = chain(&[13, 12]);
    let mut goals = floats(&[0.0, 0.0, 1.0, 1.0]);
    goals.extend(floats(&[0.0; 9]));
    assert_eq!(bytes::set_goals(lists.sheet(), &goals), 0);
    assert_eq!(bytes::set_goals(lists.sheet(), &goals[1..]), 8);
    assert_eq!(bytes::set_goals(lists.sheet(), &[]), 8);
}

#[test]
fn a_plan_is_four_u16s() {
    let lists = chain(&[0, 13, 12, 0]);
    let ask = |plan: &mut [u8], strict: u32| {
        bytes::sizing(&lists.sizes, &lists.codes, &lists.floats, plan, strict)
    };
    for (strict, objectives) in [(0, 12)].into_iter().chain(STRICT.map(|n| (n, 8))) {
        let mut plan = u16s(&[7; 5]);
        assert_eq!(ask(&mut plan, strict), 0);
        let expected = u16s(&[15, 24, objectives, 9, 7]);
        assert_eq!(plan, expected, "the tail is kept");
        // Too short, or long enough and no whole number of u16s.
        for length in [0, 1, 6, 7, 9, 11] {
            let mut plan = vec![7; length];
            assert_eq!(ask(&mut plan, strict), 9, "{length} bytes");
            assert_eq!(plan, vec![7; length]);
        }
    }
}

/// A ragged list is refused by its own number, and before the plan's.
#[test]
fn a_ragged_sheet_has_no_plan() {
    let good = chain(&[13, 12]);
    for (at, answer) in [(0, 1), (1, 2), (2, 2)] {
        let mut lists = [&good.sizes[..], &good.codes, &good.floats];
        lists[at] = &lists[at][1..];
        for length in [8, 3] {
            let mut plan = vec![7; length];
            let found = bytes::sizing(lists[0], lists[1], lists[2], &mut plan, 1);
            assert_eq!(found, answer, "list {at}");
            assert_eq!(plan, vec![7; length]);
        }
    }
}

/// Ragged, too short, too long, or no byte at all.
#[test]
fn weights_are_64_bytes() {
    let bytes = floats(&[1.0; 12]);
    for length in 0..=bytes.len() {
        let answer = if length == 64 { 0 } else { 10 };
        assert_eq!(bytes::set_weights(&bytes[..length]), answer, "{length}");
    }
}

/// Ragged, too short, too long, or no byte at all.
#[test]
fn a_tool_is_56_bytes() {
    let lists = chain(&[13, 12]);
    let bytes = floats(&UP.repeat(2));
    for length in 0..=bytes.len() {
        let answer = if length == 56 { 0 } else { 11 };
        let found = bytes::set_tool(lists.sheet(), &bytes[..length], 0);
        assert_eq!(found, answer, "{length} bytes");
    }
}

/// What pose and reset answer. Only a call that was taken has written.
fn end_answers(lists: &Lists, tools: Tools, room: usize) -> [u32; 2] {
    let joints = floats(&[0.5, 0.5]);
    let mut ends = floats(&vec![7.0; room]);
    let (before, mut again) = (ends.clone(), ends.clone());
    let mut history = floats(&[7.0; 8]);
    let found = [
        bytes::pose(lists.sheet(), tools, &joints, &mut ends),
        bytes::reset(lists.sheet(), tools, &joints, &mut history, &mut again),
    ];
    assert_eq!([ends != before, again != before], found.map(|n| n == 0));
    assert_eq!(history != floats(&[7.0; 8]), found[1] == 0);
    found
}

/// A list of some bytes that is not of seven floats is wrong, and not none; one for
/// a chain that is not loaded is wrong whatever it holds.
#[test]
fn only_an_empty_tool_is_none() {
    let lists = chain(&[13, 12]);
    let bytes = floats(&UP.repeat(2));
    for (at, length) in (0..4).flat_map(|at| (0..=bytes.len()).map(move |n| (at, n))) {
        let mut tools = NO_TOOLS;
        tools[at] = &bytes[..length];
        let answer = if length == 0 || at == 0 && length == 56 {
            0
        } else {
            11
        };
        let found = end_answers(&lists, tools, 7);
        assert_eq!(found, [answer; 2], "{length} bytes for chain {at}");
        // 9 before 11.
        assert_eq!(end_answers(&lists, tools, 6), [9; 2]);
    }
}

#[cfg(feature = "objective")]
mod objective {
    use super::lists::{BUILT_IN, GOAL, UP};
    use super::{chain, ends, five_blocks, floats, u16s, Lists, STRICT};
    use relaxed_ik::bytes::{gradient, gradient_finite_diff, gradient_one_block, objective};
    use relaxed_ik::bytes::{Given, Record};

    /// A chain at rest at its joints.
    struct Aimed {
        lists: Lists,
        goals: Vec<u8>,
        history: Vec<u8>,
        weights: Vec<u8>,
        tools: [Vec<u8>; 4],
        joints: Vec<u8>,
        strict: u32,
    }

    fn aimed(codes: &[u16], joints: &[f64]) -> Aimed {
        Aimed {
            lists: chain(codes),
            goals: floats(&GOAL),
            history: floats(&joints.repeat(4)),
            weights: Vec::new(),
            tools: Default::default(),
            joints: floats(joints),
            strict: 0,
        }
    }

    impl Aimed {
        fn given(&self) -> Given<'_> {
            Given {
                sheet: self.lists.sheet(),
                goals: &self.goals,
                history: &self.history,
                weights: &self.weights,
                tools: self.tools.each_ref().map(Vec::as_slice),
                strict: self.strict,
            }
        }
    }

    /// The values agree, both gradients by 1e-7 agree, the scratch list ends
    /// equal to the joints, tails are kept, and -0.0 stays what it is. The value.
    fn agreed(lists: &Aimed) -> Vec<u8> {
        let given = lists.given();
        let mut single = floats(&[9.0, 9.0]);
        assert_eq!(objective(given, &lists.joints, &mut single), 0);
        let scratch_after = [&lists.joints[..], &floats(&[9.0])].concat();
        let mut answers = Vec::new();
        for call in [gradient, gradient_finite_diff] {
            let (mut scratch, mut value) = (floats(&[9.0; 4]), floats(&[9.0; 2]));
            let mut slopes = floats(&[9.0; 4]);
            let answer = call(given, &lists.joints, &mut scratch, &mut value, &mut slopes);
            assert_eq!((answer, &value), (0, &single));
            assert_eq!(scratch, scratch_after);
            assert_eq!(slopes[24..], floats(&[9.0]));
            answers.push(slopes);
        }
        let (mut value, mut slopes) = (floats(&[9.0; 2]), floats(&[9.0; 4]));
        let record = Record {
            joints: &mut u16s(&[0; 20]),
            links: &mut u16s(&[0; 20]),
            poses: &mut floats(&[0.0; 140]),
        };
        let answer = gradient_one_block(given, &lists.joints, &mut value, &mut slopes, record);
        assert_eq!((answer, &value, &slopes), (0, &single, &answers[0]));
        value
    }

    #[test]
    fn the_calls_agree() {
        let mut lists = aimed(&[13, 12, 0, 31], &[0.3, -0.0, 0.7]);
        let tolerance = agreed(&lists);
        let strict = STRICT.map(|number| {
            lists.strict = number;
            agreed(&lists)
        });
        // Any number but 0 picks the same list, and another than 0 does.
        assert!(strict.iter().all(|value| *value == strict[0]));
        assert_ne!(strict[0], tolerance);
    }

    #[test]
    fn nine_links_are_walked() {
        let lists = aimed(&[0, 13, 12, 0], &[0.0, 0.0]);
        let (mut value, mut slopes) = (floats(&[0.0]), floats(&[0.0; 2]));
        let (mut joints, mut links) = (u16s(&[7; 10]), u16s(&[7; 10]));
        let mut poses = floats(&[9.0; 64]);
        let record = Record {
            joints: &mut joints,
            links: &mut links,
            poses: &mut poses,
        };
        let given = lists.given();
        let answer = gradient_one_block(given, &lists.joints, &mut value, &mut slopes, record);
        assert_eq!(answer, 0);
        let first = u16::MAX;
        let raised = [first, first, first, first, 0, 0, 0, 1, 1, 7];
        assert_eq!(joints, u16s(&raised));
        assert_eq!(links, u16s(&[0, 1, 2, 3, 1, 2, 3, 2, 3, 7]));
        for (at, height) in [1.0, 2.0, 3.0, 4.0].into_iter().enumerate() {
            let pose = [0.0, 0.0, height, 1.0, 0.0, 0.0, 0.0];
            assert_eq!(poses[56 * at..][..56], floats(&pose), "link {at}");
        }
        assert_eq!(poses[8 * 63..], floats(&[9.0]));
    }

    /// Of the list that this number picks: 7 before 8 before 9 before 10 before 11, and
    /// nothing written.
    fn refused(strict: u32) {
        let mut lists = aimed(&[13, 12], &[0.5, 0.5]);
        lists.strict = strict;
        let good = lists.goals.clone();
        lists.goals.pop();
        lists.weights = floats(&[1000.5; 8]);
        lists.tools[1] = vec![0];
        lists.joints = floats(&[0.5, 64.0f64.next_up()]);
        let mut value = vec![1, 2, 3];
        let answer = objective(lists.given(), &lists.joints, &mut value);
        assert_eq!(answer, 7);
        lists.joints = floats(&[0.5, 64.0]);
        let answer = objective(lists.given(), &lists.joints, &mut value);
        assert_eq!(answer, 8);
        lists.goals = good;
        let answer = objective(lists.given(), &lists.joints, &mut value);
        assert_eq!((answer, value), (9, vec![1, 2, 3]));
        for expected in [10, 11] {
            let mut value = floats(&[7.0]);
            let answer = objective(lists.given(), &lists.joints, &mut value);
            assert_eq!((answer, value), (expected, floats(&[7.0])));
            lists.weights = floats(&[1000.0; 8]);
        }
    }

    #[test]
    fn a_refused_call_writes_nothing() {
        [0, 1, u32::MAX].into_iter().for_each(refused);
    }

    /// What each call on weights and tools answers, with room for all that it writes. Only a
    /// call that was taken has written.
    fn answers(lists: &Aimed) -> [u32; 4] {
        let (given, joints) = (lists.given(), &lists.joints[..]);
        let mut value = floats(&[7.0]);
        let (mut scratch, mut slopes) = (floats(&[7.0; 2]), floats(&[7.0; 2]));
        let mut found = [objective(given, joints, &mut value), 0, 0, 0];
        for (at, call) in [gradient, gradient_finite_diff].into_iter().enumerate() {
            found[1 + at] = call(given, joints, &mut scratch, &mut value, &mut slopes);
        }
        let (mut raised, mut links) = (u16s(&[7; 5]), u16s(&[7; 5]));
        let mut poses = floats(&[7.0; 35]);
        let record = Record {
            joints: &mut raised,
            links: &mut links,
            poses: &mut poses,
        };
        found[3] = gradient_one_block(given, joints, &mut value, &mut slopes, record);
        let sevens = |list: &Vec<u8>| *list == floats(&vec![7.0; list.len() / 8]);
        let kept = [value, scratch, slopes, poses].iter().all(sevens)
            && [raised, links].iter().all(|list| *list == u16s(&[7; 5]));
        assert_eq!(kept, found != [0; 4]);
        found
    }

    /// As in update, which sees the joints and a history in the same way.
    #[test]
    fn each_block_has_the_ranges_of_its_joints() {
        for (code, value, answer) in ends() {
            let mut lists = aimed(&[43, code], &[0.0, 0.0]);
            for at in 0..5 {
                [lists.joints, lists.history] = five_blocks([-8.0, 0.5], at, value);
                let found = answers(&lists);
                assert_eq!(found, [answer; 4], "code {code}, block {at} at {value:e}");
            }
        }
    }

    /// A list of some bytes that is not of eight floats is wrong, and not none.
    #[test]
    fn only_an_empty_list_of_weights_is_none() {
        let mut lists = aimed(&[13, 12], &[0.5, 0.5]);
        let bytes = floats(&[BUILT_IN, BUILT_IN].concat());
        for length in 0..=bytes.len() {
            lists.weights = bytes[..length].to_vec();
            let answer = if [0, 64].contains(&length) { 0 } else { 10 };
            assert_eq!(answers(&lists), [answer; 4], "{length} bytes");
        }
    }

    /// As in pose and reset, which see one chain in the same way.
    #[test]
    fn only_an_empty_tool_is_none() {
        let mut lists = aimed(&[13, 12], &[0.5, 0.5]);
        let bytes = floats(&UP.repeat(2));
        for (at, length) in (0..4).flat_map(|at| (0..=bytes.len()).map(move |n| (at, n))) {
            lists.tools = Default::default();
            lists.tools[at] = bytes[..length].to_vec();
            let answer = if length == 0 || at == 0 && length == 56 {
                0
            } else {
                11
            };
            assert_eq!(
                answers(&lists),
                [answer; 4],
                "{length} bytes for chain {at}"
            );
        }
    }
}
