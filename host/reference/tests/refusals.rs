//! The papers' refusals at their edges, and in their order.

mod lists;

use lists::{chains, Lists, UP};
use reference::refusals::*;
use reference::tools::TOOLS;

const NO_TOOLS: Tools = [List::NONE; TOOLS];
/// One that is taken, -0.0 among its parts.
const TOOL: [f64; 7] = [0.5, -0.0, 10.0, 0.0, -1.0, -0.0, 0.0];

impl Lists {
    fn load(&self) -> u32 {
        load(&self.sheet())
    }
}

fn with_limits(lower: f64, upper: f64) -> u32 {
    let mut lists = chains(&[&[13, 12]]);
    lists.limits[2..].copy_from_slice(&[lower, upper]);
    lists.load()
}

fn with_link(link: [f64; 7]) -> u32 {
    let mut lists = chains(&[&[13, 12]]);
    lists.floats[7..].copy_from_slice(&link);
    lists.load()
}

/// Every joint's code, with how far the papers let it go either way.
fn reaches() -> impl Iterator<Item = (u16, f64)> {
    let kinds = [(10, 64.0), (20, 64.0), (30, 8.0), (40, 8.0)];
    let codes = |(kind, reach): (u16, f64)| (0..7).map(move |axis| (kind + axis, reach));
    kinds.into_iter().flat_map(codes)
}

/// Values at the ends of a range, one float beyond, and in no range.
fn at_the_ends(reach: f64) -> [(f64, u32); 8] {
    [
        (reach, 0),
        (-reach, 0),
        (-0.0, 0),
        (reach.next_up(), 7),
        ((-reach).next_down(), 7),
        (f64::INFINITY, 7),
        (f64::NAN, 7),
        (-f64::NAN, 7),
    ]
}

/// What the calls answer that are lent the joints alone, and those that are lent a
/// history too, all with room enough.
fn on_blocks(lists: &Lists, history: &[f64]) -> [u32; 2] {
    let goals = taken_goals(usize::from(lists.sizes[0]));
    let given = given(lists, &goals, history);
    let (sheet, joints) = (given.sheet, List::of(&lists.joints[..]));
    let (numbers, room) = (1000, Room::of(1000));
    let alone = on_arms(&given, &lists.joints, numbers);
    assert_eq!(alone, frames(&sheet, joints, room, room));
    assert_eq!(alone, manipulability(&sheet, joints, room));
    let both = all_on_goals(&given, &lists.joints, numbers);
    assert_eq!(both, update(&sheet, given.history, joints, room));
    [alone, both]
}

/// A slide of either kind is taken at 8, a turning joint at 64, with an axis or
/// without, and the next float is refused: in the block and in each of the history's.
#[test]
fn a_joint_is_taken_at_its_reach_and_the_next_float_refused() {
    for (code, reach) in reaches() {
        for (value, answer) in at_the_ends(reach) {
            for (at, codes) in [[code, 13], [33, code]].iter().enumerate() {
                let (mut lists, quiet) = (chains(&[codes]), [0.5; 8]);
                for block in 0..BLOCKS {
                    let mut history = quiet;
                    history[2 * block + at] = value;
                    let answers = on_blocks(&lists, &history);
                    assert_eq!(answers, [0, answer], "{code}, {value:e} in block {block}");
                }
                lists.joints[at] = value;
                let answers = on_blocks(&lists, &quiet);
                assert_eq!(answers, [answer; 2], "{code}, {value:e}");
            }
        }
    }
}

/// Across chains and past fixed links each value has the range of its own joint.
#[test]
fn joints_are_ranged_one_by_one() {
    let mut lists = chains(&[&[0, 13, 33], &[43, 0, 20]]);
    let reaches = [64.0, 8.0, 8.0, 64.0];
    lists.joints = reaches.to_vec();
    let mut history = reaches.map(|reach: f64| -reach).repeat(BLOCKS);
    assert_eq!(on_blocks(&lists, &history), [0; 2]);
    for (at, reach) in reaches.into_iter().enumerate() {
        lists.joints[at] = reach.next_up();
        assert_eq!(on_blocks(&lists, &history), [7; 2], "joint {at}");
        lists.joints[at] = reach;
    }
    for at in 0..history.len() {
        let kept = history[at];
        history[at] = kept.next_down();
        assert_eq!(on_blocks(&lists, &history), [0, 7], "history, {at}");
        history[at] = kept;
    }
}

#[test]
fn one_joint_is_refused_and_two_are_taken() {
    assert_eq!(chains(&[&[13]]).load(), 4);
    assert_eq!(chains(&[&[0, 13, 0]]).load(), 4);
    assert_eq!(chains(&[&[0, 0]]).load(), 4);
    assert_eq!(chains(&[&[13, 13]]).load(), 0);
    assert_eq!(chains(&[&[13, 13], &[0, 13]]).load(), 4);
    assert_eq!(chains(&[&[13, 13], &[13, 13]]).load(), 0);
    // A slide of either kind is a joint, with an axis or without.
    assert_eq!(chains(&[&[43]]).load(), 4);
    assert_eq!(chains(&[&[30, 43], &[40, 33]]).load(), 0);
}

#[test]
fn sixteen_joints_are_taken_and_seventeen_refused() {
    assert_eq!(chains(&[&[13; 16]]).load(), 0);
    assert_eq!(chains(&[&[13; 8], &[13; 8]]).load(), 0);
    assert_eq!(chains(&[&[13; 9], &[13; 8]]).load(), 4);
}

#[test]
fn a_later_chain_has_at_most_as_many_joints_as_chain_0_has_links() {
    assert_eq!(chains(&[&[13, 13], &[13, 13, 13]]).load(), 4);
    assert_eq!(chains(&[&[13, 0, 13], &[13, 13, 13]]).load(), 0);
    assert_eq!(chains(&[&[13, 13], &[13, 0, 13]]).load(), 0);
}

#[test]
fn a_difference_of_limits_is_rounded() {
    assert_eq!(with_limits(5.0, 5.001), 0);
    assert_eq!(with_limits(1.0, 1.001), 5);
    assert_eq!(with_limits(0.0, 0.001), 0);
    assert_eq!(with_limits(0.0, 0.001f64.next_down()), 5);
    // The exact difference is below 0.001 and rounds to it.
    assert_eq!(with_limits(1e-30, 0.001), 0);
}

#[test]
fn limits_are_free_or_within_100() {
    assert_eq!(with_limits(-999.0, 999.0), 0);
    assert_eq!(with_limits(-100.0, 100.0), 0);
    for (lower, upper) in [
        (-999.0, 100.0),
        (-100.0, 999.0),
        (-999.0, 999.0f64.next_up()),
        ((-999.0f64).next_up(), 999.0),
        (999.0, -999.0),
        ((-100.0f64).next_down(), 100.0),
        (-100.0, 100.0f64.next_up()),
        (100.0, -100.0),
        (f64::NAN, 1.0),
        (0.0, f64::NAN),
    ] {
        assert_eq!(with_limits(lower, upper), 5, "{lower:e}, {upper:e}");
    }
}

#[test]
fn displacements_and_offsets() {
    for at in 0..3 {
        for (value, answer) in [
            (10.0, 0),
            (-10.0, 0),
            (10.0f64.next_up(), 6),
            ((-10.0f64).next_down(), 6),
            (f64::NAN, 6),
        ] {
            let mut link = UP;
            link[at] = value;
            assert_eq!(with_link(link), answer, "{value:e} at {at}");
        }
    }
    assert_eq!(with_link([0.0, 0.0, 0.0, -1.0, 0.0, -0.0, 0.0]), 0);
    assert_eq!(with_link([0.0; 7]), 6);
    assert_eq!(with_link([0.0, 0.0, 0.0, 1.0, 0.0, 0.0, f64::NAN]), 6);
    // The squares' sum ends just inside and just outside of the tolerance.
    for (mut w, inside, step) in [
        (
            1.000000001f64.sqrt() - 1e-15,
            1.000000001,
            f64::next_up as fn(f64) -> f64,
        ),
        (
            0.999999999f64.sqrt() + 1e-15,
            0.999999999,
            f64::next_down as fn(f64) -> f64,
        ),
    ] {
        let within = |w: f64| (w * w - 1.0).abs() <= (inside - 1.0f64).abs();
        assert!(within(w));
        while within(w) {
            assert_eq!(with_link([0.0, 0.0, 0.0, w, 0.0, 0.0, 0.0]), 0);
            w = step(w);
        }
        assert_eq!(with_link([0.0, 0.0, 0.0, w, 0.0, 0.0, 0.0]), 6);
    }
}

#[test]
fn sizes_and_arrays() {
    let good = || chains(&[&[13, 12, 0], &[13, 12]]);
    assert_eq!(good().load(), 0);
    for sizes in [
        &[][..],
        &[0],
        &[2, 3],
        &[2, 3, 2, 1],
        &[5, 1, 1, 1, 1, 1],
        &[2, 5, 0],
        &[1, 17],
    ] {
        let mut lists = good();
        lists.sizes = sizes.to_vec();
        assert_eq!(lists.load(), 1, "{sizes:?}");
    }
    let mut lists = good();
    lists.codes.push(13);
    assert_eq!(lists.load(), 2);
    lists = good();
    lists.floats.pop();
    assert_eq!(lists.load(), 2);
}

#[test]
fn every_code() {
    for code in 0..=u16::MAX {
        let listed = code == 0 || [10, 20, 30, 40].iter().any(|k| (*k..k + 7).contains(&code));
        let lists = chains(&[&[code, 13, 13]]);
        assert_eq!(lists.load(), if listed { 0 } else { 3 }, "code {code}");
    }
}

#[test]
fn goals() {
    let lists = chains(&[&[13, 12], &[13, 12]]);
    let goal = [
        100.0, -100.0, 0.0, 1.0, 0.0, 0.0, 0.0, 0.0, 100.0, -100.0, 0.0, 0.0, 3.2,
    ];
    let mut goals = [goal, goal].concat();
    assert_eq!(set_goals(&lists.sheet(), List::of(&goals)), 0);
    assert_eq!(set_goals(&lists.sheet(), List::of(&goals[1..])), 8);
    for (at, value) in [(13, 100.0f64.next_up()), (25, f64::NAN), (16, 1.1)] {
        let kept = std::mem::replace(&mut goals[at], value);
        assert_eq!(set_goals(&lists.sheet(), List::of(&goals)), 8, "place {at}");
        goals[at] = kept;
    }
}

#[test]
fn outputs_may_be_longer_but_not_shorter_or_ragged() {
    let lists = chains(&[&[13, 12, 0], &[13, 12]]);
    let (sheet, joints) = (lists.sheet(), List::of(&lists.joints[..]));
    let answer = |p: usize, r: usize| frames(&sheet, joints, Room::of(p), Room::of(r));
    assert_eq!(answer(21, 36), 0);
    assert_eq!(answer(22, 37), 0);
    assert_eq!(answer(20, 36), 9);
    assert_eq!(answer(21, 35), 9);
    assert_eq!(pose(&sheet, &NO_TOOLS, joints, Room::of_bytes(14 * 8)), 0);
    assert_eq!(
        pose(&sheet, &NO_TOOLS, joints, Room::of_bytes(14 * 8 + 1)),
        9
    );
    assert_eq!(
        pose(&sheet, &NO_TOOLS, joints, Room::of_bytes(14 * 8 - 1)),
        9
    );
    assert_eq!(
        reset(&sheet, &NO_TOOLS, joints, Room::of(16), Room::of(14)),
        0
    );
    assert_eq!(
        reset(&sheet, &NO_TOOLS, joints, Room::of(15), Room::of(14)),
        9
    );
    assert_eq!(
        reset(&sheet, &NO_TOOLS, joints, Room::of(16), Room::of(13)),
        9
    );
    let history = [0.0; 16];
    let answer = |h: usize, r: usize| update(&sheet, List::of(&history[..h]), joints, Room::of(r));
    assert_eq!(answer(16, 16), 0);
    assert_eq!(answer(15, 16), 7);
    assert_eq!(answer(16, 15), 9);
}

#[test]
fn a_ragged_list_is_too_long_or_too_short() {
    let (mut codes, mut floats) = (Vec::new(), Vec::new());
    assert!(!u16s(&[13, 0, 1, 2], &mut codes).ragged);
    assert_eq!(codes, [13, 513]);
    assert!(u16s(&[13, 0, 1], &mut codes).ragged);
    assert!(u16s(&[13], &mut codes).ragged);
    assert!(!u16s(&[], &mut codes).ragged);
    assert!(!f64s(&1.5f64.to_le_bytes(), &mut floats).ragged);
    assert_eq!(floats, [1.5]);
    assert!(f64s(&1.5f64.to_le_bytes()[1..], &mut floats).ragged);

    // As many numbers as there should be, and a byte besides.
    let lists = chains(&[&[13, 12]]);
    let mut sheet = lists.sheet();
    sheet.limits.ragged = true;
    assert_eq!(load(&sheet), 5);
    sheet.floats.ragged = true;
    assert_eq!(load(&sheet), 2);
    sheet.sizes.ragged = true;
    assert_eq!(load(&sheet), 1);
}

/// Everything wrong at once; then the faults are mended one by one.
#[test]
fn the_lowest_number_wins() {
    let good = chains(&[&[13, 12], &[13, 12]]);
    let mut lists = chains(&[&[13, 12], &[13, 12]]);
    let (no_joints, history) = ([f64::NAN; 3], [0.0; 16]);
    lists.sizes.push(2);
    lists.codes = vec![37, 0, 13, 12];
    lists.floats[0] = 11.0;
    lists.floats.pop();
    lists.limits[0] = f64::NAN;
    let answer = |lists: &Lists, joints: &[f64]| {
        let (block, none) = (List::of(joints), Room::of(0));
        let by_reset = reset(&lists.sheet(), &NO_TOOLS, block, none, none);
        let by_update = update(
            &lists.sheet(),
            List::of(&history),
            List::of(joints),
            Room::of(0),
        );
        assert_eq!(by_reset, by_update);
        by_reset
    };
    assert_eq!(answer(&lists, &no_joints), 1);
    lists.sizes = good.sizes.clone();
    assert_eq!(answer(&lists, &no_joints), 2);
    lists.floats.push(0.0);
    assert_eq!(answer(&lists, &no_joints), 3);
    lists.codes = vec![13, 0, 13, 12];
    assert_eq!(answer(&lists, &no_joints), 4);
    lists.codes = good.codes.clone();
    assert_eq!(answer(&lists, &no_joints), 5);
    lists.limits = good.limits.clone();
    assert_eq!(answer(&lists, &no_joints), 6);
    lists.floats = good.floats.clone();
    assert_eq!(answer(&lists, &no_joints), 7);
    assert_eq!(answer(&lists, &good.joints), 9);
}

/// A goal that is taken for each of so many chains.
fn taken_goals(chains: usize) -> Vec<f64> {
    let mut goal = [0.5; 13];
    goal[3..7].copy_from_slice(&[1.0, 0.0, -0.0, 0.0]);
    goal.repeat(chains)
}

fn given<'a>(lists: &'a Lists, goals: &'a [f64], history: &'a [f64]) -> Given<'a> {
    Given {
        sheet: lists.sheet(),
        goals: List::of(goals),
        history: List::of(history),
        weights: List::NONE,
        tools: NO_TOOLS,
    }
}

fn record_room(joints: usize, links: usize, poses: usize) -> RecordRoom {
    RecordRoom {
        joints: Room::of(joints),
        links: Room::of(links),
        poses: Room::of(poses),
    }
}

/// Fixed, revolute, revolute, fixed: nine links are walked.
#[test]
fn outputs_of_the_objective_and_its_slopes() {
    let lists = chains(&[&[0, 13, 12, 0]]);
    let (goals, history) = (taken_goals(1), [0.5; 8]);
    let given = given(&lists, &goals, &history);
    let joints = List::of(&lists.joints[..]);
    assert_eq!(objective(&given, joints, Room::of(1)), 0);
    assert_eq!(objective(&given, joints, Room::of(0)), 9);
    assert_eq!(objective(&given, joints, Room::of_bytes(12)), 9);
    let two_blocks = |s: usize, v: usize, g: usize| {
        gradient(&given, joints, Room::of(s), Room::of(v), Room::of(g))
    };
    assert_eq!(two_blocks(2, 1, 2), 0);
    assert_eq!(two_blocks(3, 2, 3), 0);
    assert_eq!(two_blocks(1, 1, 2), 9);
    assert_eq!(two_blocks(2, 0, 2), 9);
    assert_eq!(two_blocks(2, 1, 1), 9);
    let one_block = |value: usize, slopes: usize, record: RecordRoom| {
        gradient_one_block(&given, joints, Room::of(value), Room::of(slopes), record)
    };
    assert_eq!(one_block(1, 2, record_room(9, 9, 63)), 0);
    assert_eq!(one_block(2, 3, record_room(10, 11, 64)), 0);
    assert_eq!(one_block(0, 2, record_room(9, 9, 63)), 9);
    assert_eq!(one_block(1, 1, record_room(9, 9, 63)), 9);
    assert_eq!(one_block(1, 2, record_room(8, 9, 63)), 9);
    assert_eq!(one_block(1, 2, record_room(9, 8, 63)), 9);
    assert_eq!(one_block(1, 2, record_room(9, 9, 62)), 9);
    // Two bytes a number, and none left over.
    for (bytes, answer) in [(18, 0), (17, 9), (19, 9), (20, 0)] {
        let mut record = record_room(9, 9, 63);
        record.links = Room::of_u16_bytes(bytes);
        assert_eq!(one_block(1, 2, record), answer, "{bytes} bytes");
    }
}

/// The room is what the record needs, on sheets of several chains.
#[test]
fn a_record_fits_its_room() {
    let shapes: [&[&[u16]]; 5] = [
        &[&[13, 12]],
        &[&[0, 0, 13, 32, 0, 20], &[11, 0, 36]],
        &[&[13; 16]],
        &[&[0, 13, 12, 0], &[13, 0, 12], &[33, 20], &[0, 10, 36]],
        &[&[0, 13, 43, 0, 40], &[46, 0, 32]],
    ];
    for shape in shapes {
        let lists = chains(shape);
        let goals = taken_goals(shape.len());
        let history = lists.joints.repeat(4);
        let robot =
            reference::sheet::robot(&lists.sizes, &lists.codes, &lists.floats, &lists.limits);
        let record = reference::record::record(&robot, &lists.joints);
        let needed = record.links.len();
        let answer = |joints: usize, links: usize, poses: usize| {
            gradient_one_block(
                &given(&lists, &goals, &history),
                List::of(&lists.joints),
                Room::of(1),
                Room::of(lists.joints.len()),
                record_room(joints, links, poses),
            )
        };
        assert_eq!(record.poses.len(), 7 * needed);
        assert_eq!(answer(needed, needed, 7 * needed), 0);
        assert_eq!(answer(needed - 1, needed, 7 * needed), 9);
        assert_eq!(answer(needed, needed - 1, 7 * needed), 9);
        assert_eq!(answer(needed, needed, 7 * needed - 1), 9);
    }
}

/// What the calls on goals answer, all with outputs of so much room.
fn all_on_goals(given: &Given, joints: &[f64], room: usize) -> u32 {
    let (joints, room) = (List::of(joints), Room::of(room));
    let record = RecordRoom {
        joints: room,
        links: room,
        poses: room,
    };
    let answer = objective(given, joints, room);
    assert_eq!(answer, gradient(given, joints, room, room, room));
    assert_eq!(
        answer,
        gradient_one_block(given, joints, room, room, record)
    );
    answer
}

/// Joints or history before goals, goals before outputs, the sheet before all;
/// weights come behind them, tools last.
#[test]
fn the_lowest_number_wins_for_slopes() {
    let mut lists = chains(&[&[13, 12], &[13, 12]]);
    lists.floats[0] = 11.0;
    let (goals, history, joints) = (taken_goals(2), [0.5; 16], [0.5; 4]);
    let mut far = history;
    far[15] = 64.0f64.next_up();
    let all = |lists: &Lists, goals: &[f64], history: &[f64], joints: &[f64]| {
        let mut given = given(lists, goals, history);
        let answer = all_on_goals(&given, joints, 0);
        given.weights = List::of(&[0.5; 9]);
        assert_eq!(all_on_goals(&given, joints, 0), answer);
        given.tools[2] = List::of(&TOOL);
        assert_eq!(all_on_goals(&given, joints, 0), answer);
        assert_eq!(
            on_arms(&given, joints, 0),
            on_arms(&given_none(&given), joints, 0)
        );
        answer
    };
    let (no_goals, no_joints) = ([1.0; 26], [f64::NAN; 4]);
    assert_eq!(all(&lists, &no_goals, &far, &no_joints), 6);
    lists.floats[0] = 0.0;
    assert_eq!(all(&lists, &no_goals, &far, &no_joints), 7);
    assert_eq!(all(&lists, &no_goals, &far, &joints), 7);
    assert_eq!(all(&lists, &no_goals, &history, &no_joints), 7);
    assert_eq!(all(&lists, &no_goals, &history[1..], &joints), 7);
    assert_eq!(all(&lists, &no_goals, &history, &joints[1..]), 7);
    assert_eq!(all(&lists, &no_goals, &history, &joints), 8);
    assert_eq!(all(&lists, &goals[1..], &history, &joints), 8);
    assert_eq!(all(&lists, &goals, &history, &joints), 9);
}

/// What sets weights answers, and what a call that is lent them does.
fn with_weights(weights: List<f64>) -> [u32; 2] {
    let lists = chains(&[&[0, 13, 12, 0]]);
    let (goals, history) = (taken_goals(1), [0.5; 8]);
    let given = Given {
        weights,
        ..given(&lists, &goals, &history)
    };
    [
        set_weights(weights),
        all_on_goals(&given, &lists.joints, 63),
    ]
}

#[test]
fn weights_are_within_0_and_1000() {
    for at in 0..8 {
        for (value, answer) in [
            (0.0, 0),
            (-0.0, 0),
            (5e-324, 0),
            (1000.0f64.next_down(), 0),
            (1000.0, 0),
            (1000.0f64.next_up(), 10),
            (-5e-324, 10),
            (-1e-300, 10),
            (f64::INFINITY, 10),
            (f64::NEG_INFINITY, 10),
            (f64::NAN, 10),
            (-f64::NAN, 10),
        ] {
            let mut weights = [0.5; 8];
            weights[at] = value;
            let answers = with_weights(List::of(&weights));
            assert_eq!(answers, [answer; 2], "{value:e} at {at}");
        }
    }
}

/// A call that uses weights takes no list for none loaded; to set none is
/// refused.
#[test]
fn weights_are_eight_or_none() {
    for count in 0..=40 {
        let weights = vec![0.5; count];
        let expected = match count {
            0 => [10, 0],
            8 => [0, 0],
            _ => [10, 10],
        };
        assert_eq!(with_weights(List::of(&weights)), expected, "{count}");
        let mut ragged = List::of(&weights[..]);
        ragged.ragged = true;
        assert_eq!(with_weights(ragged), [10, 10], "{count} and a part of one");
    }
}

/// What `pose` and `reset` answer, with outputs of so much room.
fn on_arms(given: &Given, joints: &[f64], room: usize) -> u32 {
    let (joints, room) = (List::of(joints), Room::of(room));
    let answer = pose(&given.sheet, &given.tools, joints, room);
    assert_eq!(
        answer,
        reset(&given.sheet, &given.tools, joints, room, room)
    );
    answer
}

/// The same without tools.
fn given_none<'a>(given: &Given<'a>) -> Given<'a> {
    Given {
        tools: NO_TOOLS,
        ..*given
    }
}

/// What the calls that are lent tools answer to these on two chains.
fn with_tools(tools: Tools) -> u32 {
    let lists = chains(&[&[13, 12], &[0, 13, 12]]);
    let (goals, history) = (taken_goals(2), [0.5; 16]);
    let mut given = given(&lists, &goals, &history);
    given.tools = tools;
    let answer = all_on_goals(&given, &lists.joints, 98);
    assert_eq!(answer, on_arms(&given, &lists.joints, 98));
    // Short outputs and wrong weights come before.
    assert_eq!(all_on_goals(&given, &lists.joints, 0), 9);
    assert_eq!(on_arms(&given, &lists.joints, 0), 9);
    given.weights = List::of(&[f64::NAN; 8]);
    assert_eq!(all_on_goals(&given, &lists.joints, 98), 10);
    answer
}

/// This list for a chain, the other chains without one.
fn only(chain: usize, tool: List<f64>) -> u32 {
    let mut tools = NO_TOOLS;
    tools[chain] = tool;
    with_tools(tools)
}

/// Setting this tool on a chain of two.
fn set(tool: List<f64>, chain: u32) -> u32 {
    set_tool(&chains(&[&[13, 12], &[0, 13, 12]]).sheet(), tool, chain)
}

#[test]
fn a_tool_is_ranged_as_a_link() {
    for at in 0..7 {
        for value in [
            10.0,
            -10.0,
            10.0f64.next_up(),
            (-10.0f64).next_down(),
            -0.0,
            1.0,
            -1.0,
            1e-300,
            f64::INFINITY,
            f64::NAN,
        ] {
            for base in [UP, TOOL, [0.0, 0.0, 0.0, -1.0, -0.0, 0.0, -0.0]] {
                let mut tool = base;
                tool[at] = value;
                // 11 where a link with these floats is refused by 6.
                let expected = if with_link(tool) == 0 { 0 } else { 11 };
                for chain in 0..2 {
                    let tool = List::of(&tool[..]);
                    assert_eq!(set(tool, chain as u32), expected, "{tool:?}");
                    assert_eq!(only(chain, tool), expected, "{tool:?}");
                }
            }
        }
    }
}

/// A call that uses tools takes no list for none; to set none is refused.
#[test]
fn a_tool_is_seven_floats_or_none() {
    for count in 0..=30 {
        let mut floats = TOOL.repeat(5);
        floats.truncate(count);
        for chain in 0..2 {
            let list = List::of(&floats[..]);
            let (to_set, lent) = match count {
                0 => (11, 0),
                7 => (0, 0),
                _ => (11, 11),
            };
            assert_eq!(set(list, chain as u32), to_set, "{count}");
            assert_eq!(only(chain, list), lent, "{count}");
            let mut ragged = list;
            ragged.ragged = true;
            assert_eq!(set(ragged, chain as u32), 11, "{count} and a part of one");
            assert_eq!(only(chain, ragged), 11, "{count} and a part of one");
        }
    }
}

#[test]
fn a_chain_that_is_not_loaded_has_no_tool() {
    for chain in [2, 3, 4, 5, 255, 256, 65536, u32::MAX - 1, u32::MAX] {
        assert_eq!(set(List::of(&TOOL), chain), 11, "chain {chain}");
    }
    let mut part = List::NONE;
    part.ragged = true;
    for chain in 2..4 {
        for list in [List::of(&TOOL), List::of(&TOOL[..3]), part] {
            assert_eq!(only(chain, list), 11, "chain {chain}");
        }
        assert_eq!(only(chain, List::NONE), 0);
    }
    let all = [List::of(&TOOL), List::of(&UP), List::NONE, List::NONE];
    assert_eq!(with_tools(all), 0);
}

/// The sheet comes before the tool and the chain.
#[test]
fn a_tool_is_looked_at_behind_the_sheet() {
    let good = chains(&[&[13, 12], &[13, 12]]);
    let answer = |change: fn(&mut Lists)| {
        let mut lists = chains(&[&[13, 12], &[13, 12]]);
        change(&mut lists);
        set_tool(&lists.sheet(), List::of(&TOOL[1..]), 7)
    };
    assert_eq!(answer(|_| ()), 11);
    assert_eq!(answer(|lists| lists.floats[0] = 11.0), 6);
    assert_eq!(answer(|lists| lists.limits[0] = f64::NAN), 5);
    assert_eq!(answer(|lists| lists.codes[1] = 0), 4);
    assert_eq!(answer(|lists| lists.codes[1] = 37), 3);
    assert_eq!(answer(|lists| lists.codes.truncate(1)), 2);
    assert_eq!(answer(|lists| lists.sizes.clear()), 1);
    assert_eq!(set_tool(&good.sheet(), List::of(&TOOL), 1), 0);
}
