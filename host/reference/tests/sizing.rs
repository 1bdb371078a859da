//! The plan of a sheet, held against the paper's count and against the calls
//! that are lent lists of the planned lengths.

mod lists;

use lists::{chains, Lists};
use reference::refusals::*;
use reference::sizing::plan;
use reference::strict::Pick;
use reference::tools::TOOLS;

const GOAL: [f64; 13] = [
    0.5, 0.5, 0.5, 1.0, 0.0, 0.0, 0.0, 0.5, 0.5, 0.5, 0.5, 0.5, 0.5,
];

impl Lists {
    fn sizing(&self, room: Room) -> u32 {
        sizing(&self.sheet(), room)
    }

    fn plan(&self) -> [usize; 4] {
        self.plan_of(Pick::Tolerance)
    }

    fn plan_of(&self, pick: Pick) -> [usize; 4] {
        plan(pick, &self.sizes, &self.codes, &self.floats).map(usize::from)
    }

    fn frames(&self, positions: usize, rotations: usize) -> u32 {
        let (positions, rotations) = (Room::of(positions), Room::of(rotations));
        frames(&self.sheet(), List::of(&self.joints), positions, rotations)
    }

    /// The one-block call with a record of so many entries, and so many floats.
    fn one_block(&self, entries: usize, floats: usize) -> u32 {
        let goals = GOAL.repeat(usize::from(self.sizes[0]));
        let history = self.joints.repeat(4);
        let given = Given {
            sheet: self.sheet(),
            goals: List::of(&goals),
            history: List::of(&history),
            weights: List::NONE,
            tools: [List::NONE; TOOLS],
        };
        let record = RecordRoom {
            joints: Room::of(entries),
            links: Room::of(entries),
            poses: Room::of(floats),
        };
        let (value, slopes) = (Room::of(1), Room::of(self.joints.len()));
        gradient_one_block(&given, List::of(&self.joints), value, slopes, record)
    }
}

/// As many links as a chain can have.
const LONG: &[u16] = &[11, 0, 0, 32, 0, 0, 0, 20, 0, 0, 0, 0, 0, 0, 0, 26];

const SHAPES: [&[&[u16]]; 7] = [
    &[&[13, 12]],
    &[&[0, 13, 12, 0]],
    &[&[13; 16]],
    &[&[0, 0, 13, 32, 0, 20], &[11, 0, 36]],
    &[&[0, 13, 12, 0], &[13, 0, 12], &[33, 20], &[0, 10, 36]],
    &[LONG; 4],
    &[&[0, 13, 43, 0, 40], &[46, 0, 32]],
];

#[test]
fn small_plans() {
    assert_eq!(chains(SHAPES[0]).plan(), [9, 16, 12, 5]);
    assert_eq!(chains(SHAPES[1]).plan(), [15, 24, 12, 9]);
    // 105 pairs of 16 joints, 16 limits, 6 of the end, 4 more.
    assert_eq!(chains(SHAPES[2]).plan(), [51, 72, 131, 152]);
}

/// The strict list has four objectives fewer for each chain, and nothing else of a
/// plan depends on the pick.
#[test]
fn the_strict_list_is_shorter() {
    for shape in SHAPES {
        let lists = chains(shape);
        let mut expected = lists.plan();
        expected[2] -= 4 * shape.len();
        assert_eq!(lists.plan_of(Pick::Strict), expected, "{shape:?}");
    }
}

/// A planned length is never too short, and one entry fewer always is.
#[test]
fn a_planned_list_fits_and_a_shorter_one_does_not() {
    for shape in SHAPES {
        let lists = chains(shape);
        let [positions, rotations, _, entries] = lists.plan();
        assert_eq!(lists.frames(positions, rotations), 0, "{shape:?}");
        assert_eq!(lists.frames(positions - 1, rotations), 9, "{shape:?}");
        assert_eq!(lists.frames(positions, rotations - 1), 9, "{shape:?}");
        assert_eq!(lists.one_block(entries, 7 * entries), 0, "{shape:?}");
        assert_eq!(lists.one_block(entries - 1, 7 * entries), 9, "{shape:?}");
        assert_eq!(lists.one_block(entries, 7 * entries - 1), 9, "{shape:?}");
    }
}

/// All links, and for each joint the links from it to its chain's end.
#[test]
fn the_record_is_as_long_as_the_paper_says() {
    for shape in SHAPES {
        let mut entries = 0;
        for chain in shape {
            let joints = chain.iter().enumerate().filter(|(_, &code)| code != 0);
            entries += chain.len() + joints.map(|(at, _)| chain.len() - at).sum::<usize>();
        }
        assert_eq!(chains(shape).plan()[3], entries, "{shape:?}");
    }
}

#[test]
fn four_u16s_and_none_left_over() {
    let lists = chains(SHAPES[0]);
    for (bytes, answer) in [(8, 0), (7, 9), (9, 9), (10, 0), (6, 9), (0, 9), (1, 9)] {
        assert_eq!(lists.sizing(Room::of_u16_bytes(bytes)), answer, "{bytes}");
    }
}

/// Everything wrong at once, the limits too; then the faults are mended one by
/// one, and the limits never.
#[test]
fn the_lowest_number_wins_and_5_is_none() {
    let good = chains(&[&[13, 12], &[13, 12]]);
    let mut lists = chains(&[&[13, 12], &[13, 12]]);
    lists.sizes.push(2);
    lists.codes = vec![37, 0, 13, 12];
    lists.floats[0] = 11.0;
    lists.floats.pop();
    lists.limits = vec![f64::NAN];
    let none = Room::of(0);
    assert_eq!(lists.sizing(none), 1);
    lists.sizes = good.sizes.clone();
    assert_eq!(lists.sizing(none), 2);
    lists.floats.push(0.0);
    assert_eq!(lists.sizing(none), 3);
    lists.codes = vec![13, 0, 13, 12];
    assert_eq!(lists.sizing(none), 4);
    lists.codes = good.codes.clone();
    assert_eq!((lists.sizing(none), load(&lists.sheet())), (6, 5));
    lists.floats = good.floats.clone();
    assert_eq!((lists.sizing(none), load(&lists.sheet())), (9, 5));
    assert_eq!(lists.sizing(Room::of(4)), 0);
}
