//! The calls on arms, on sheets written by hand.

mod lists;

use lists::chains;
use relaxed_ik::{bytes, ObjectiveList, Refusal, Sheet, MOST_TURN, NO_TOOLS};
use std::f64::consts::TAU;

#[test]
fn each_refusal_by_its_number() {
    let good = chains(&[&[13, 12, 0][..], &[31, 22]]);
    assert_eq!(good.sheet().load(), Ok(()));
    let nan = f64::NAN;
    let mut faults = good.faults();
    faults.push((Refusal::Limits, good.spoiled(|l| l.limits[1] = -3.0)));
    faults.push((Refusal::Limits, good.spoiled(|l| l.limits[0] = nan)));
    for (refusal, lists) in faults {
        assert_eq!(lists.sheet().load(), Err(refusal));
    }
    let (lists, joints) = (good, [0.0; 4]);
    let sheet = lists.sheet();
    assert_eq!(sheet.poses(NO_TOOLS, &[0.0; 3]), Err(Refusal::Joints));
    assert_eq!(sheet.manipulability(&[nan; 4]), Err(Refusal::Joints));
    assert_eq!(
        sheet.update(&[0.0; 15], &joints),
        Err(Refusal::Joints),
        "a history is four blocks"
    );
    assert_eq!(sheet.set_goals(&[0.0; 26]), Err(Refusal::Goals));
    let mut ends = [5.0; 13];
    assert_eq!(
        sheet.poses_into(NO_TOOLS, &joints, &mut ends),
        Err(Refusal::Room)
    );
    assert_eq!(ends, [5.0; 13], "a refused call writes nothing");
}

#[test]
fn the_lowest_number_is_answered() {
    let lists = chains(&[[13, 12]]);
    let spoiled = lists.spoiled(|l| {
        l.floats[0] = 11.0;
        l.limits[0] = 200.0;
        l.codes[0] = 99;
    });
    assert_eq!(spoiled.sheet().load(), Err(Refusal::Code));
}

/// No lists at all, and lists far longer than any that is taken.
#[test]
fn odd_sheets_are_refused_and_nothing_else_happens() {
    let empty = Sheet {
        sizes: &[],
        codes: &[],
        floats: &[],
        limits: &[],
    };
    let long = chains(&[[13; 3000], [12; 3000]]);
    for sheet in [empty, long.sheet()] {
        assert_eq!(sheet.load(), Err(Refusal::Sizes));
        for list in [ObjectiveList::Tolerance, ObjectiveList::Strict] {
            assert_eq!(sheet.plan(list), Err(Refusal::Sizes));
        }
        assert_eq!(sheet.frames(&[]), Err(Refusal::Sizes));
        assert_eq!(sheet.poses(NO_TOOLS, &[]), Err(Refusal::Sizes));
        assert_eq!(sheet.manipulability(&[]), Err(Refusal::Sizes));
        assert_eq!(sheet.reset(NO_TOOLS, &[]), Err(Refusal::Sizes));
        assert_eq!(sheet.update(&[], &[]), Err(Refusal::Sizes));
    }
}

#[test]
fn two_links_up() {
    let lists = chains(&[[13, 12]]);
    let frames = lists.sheet().frames(&[0.0, 0.0]).unwrap();
    assert_eq!(frames.len(), 1);
    let heights = [0.0, 1.0, 2.0].map(|z| [0.0, 0.0, z]);
    assert_eq!(frames[0].positions, heights);
    assert_eq!(frames[0].rotations, [[1.0, 0.0, 0.0, 0.0]; 4]);
}

#[test]
fn frames_of_two_chains_come_apart() {
    let lists = chains(&[&[13, 12, 0][..], &[31, 22]]);
    let frames = lists.sheet().frames(&[0.0, 0.0, 0.25, 0.0]).unwrap();
    let counts = frames
        .iter()
        .map(|f| (f.positions.len(), f.rotations.len()));
    assert_eq!(counts.collect::<Vec<_>>(), [(4, 5), (3, 4)]);
    assert_eq!(frames[1].positions[1], [0.25, 0.0, 1.0]);
    let ends = lists
        .sheet()
        .poses(NO_TOOLS, &[0.0, 0.0, 0.25, 0.0])
        .unwrap();
    assert_eq!(ends[1].position, frames[1].positions[2]);
    assert_eq!(ends[1].rotation, frames[1].rotations[3]);
}

#[test]
fn a_longer_list_keeps_its_tail() {
    let lists = chains(&[[13, 12]]);
    let mut ends = [9.0; 8];
    lists
        .sheet()
        .poses_into(NO_TOOLS, &[0.0, 0.0], &mut ends)
        .unwrap();
    assert_eq!(ends, [0.0, 0.0, 2.0, 1.0, 0.0, 0.0, 0.0, 9.0]);
}

#[test]
fn reset_a_update_b_update_c() {
    let lists = chains(&[[13, 12]]);
    let sheet = lists.sheet();
    let (a, b, c) = ([0.1, 0.2], [0.3, 0.4], [0.5, -0.0]);
    let start = sheet.reset(NO_TOOLS, &a).unwrap();
    assert_eq!(start.history, [a, a, a, a].concat());
    assert_eq!(start.ends, sheet.poses(NO_TOOLS, &a).unwrap());
    let second = sheet.update(&start.history, &b).unwrap();
    let third = sheet.update(&second, &c).unwrap();
    assert_eq!(third, [c, b, a, a].concat());
    assert_eq!(
        third[1].to_bits(),
        (-0.0f64).to_bits(),
        "the sign of a zero"
    );
}

#[test]
fn manipulability_needs_six_joints() {
    let bend = |codes: &[u16]| {
        let mut lists = chains(&[codes]);
        lists.floats = [0.3, 0.2, 0.5, 1.0, 0.0, 0.0, 0.0].repeat(codes.len());
        lists
    };
    let joints = [0.3, -0.5, 0.7, 0.2, -0.4, 0.6, 0.1];
    let seven = bend(&[13, 12, 11, 13, 12, 11, 13]);
    assert!(seven.sheet().manipulability(&joints).unwrap() > 0.0);
    let five = bend(&[13, 12, 11, 13, 12]);
    assert_eq!(five.sheet().manipulability(&joints[..5]), Ok(0.0));
}

#[test]
fn a_pose_rotates_as_the_frames_do() {
    let lists = chains(&[[12, 13]]);
    let quarter = std::f64::consts::FRAC_PI_2;
    let end = lists.sheet().poses(NO_TOOLS, &[quarter, 0.0]).unwrap()[0];
    let z = end.rotate([0.0, 0.0, 1.0]);
    let expected = [1.0, 0.0, 0.0];
    assert!(z.iter().zip(expected).all(|(a, b)| (a - b).abs() < 1e-12));
}

/// An end's rotation, by its bits.
fn turned(codes: [u16; 2], joints: [f64; 2]) -> [u64; 4] {
    let lists = chains(&[codes]);
    let ends = lists.sheet().poses(NO_TOOLS, &joints).unwrap();
    ends[0].rotation.map(f64::to_bits)
}

/// Two turns are a whole one of the half angle, which leaves the arm as it was.
#[test]
fn a_ring_counts_on() {
    for code in [13, 26] {
        let at = |ring: f64| turned([code, 12], [ring, 0.3]);
        for twice in -5..=5 {
            let ring = f64::from(twice) * 2.0 * TAU;
            assert!(ring.abs() <= MOST_TURN);
            assert_eq!(at(ring), at(0.0), "{ring}");
            assert_ne!(at(ring + 1.0), at(0.0), "{ring}");
        }
    }
}

/// Half of this value is as near to two turns as to three. Two are taken off, which
/// leaves a zero of the other sign than three.
#[test]
fn ties_are_taken_to_even() {
    let [_, i, ..] = turned([12, 11], [-1.0, 5.0 * TAU]);
    assert_eq!(i, 0.0f64.to_bits());
    assert_eq!(bytes::sin(2.5 * TAU).to_bits(), 0.0f64.to_bits());
    assert_eq!(bytes::sin(1.5 * TAU).to_bits(), (-0.0f64).to_bits());
    assert_eq!([1.5, 2.5].map(|turns| bytes::cos(turns * TAU)), [-1.0; 2]);
}

#[test]
fn refusals_have_words_for_every_number() {
    for number in 1..=11 {
        let refusal = Refusal::of_number(number).unwrap();
        assert_eq!(refusal.number(), number);
        assert!(!refusal.words().is_empty());
        let text = refusal.to_string();
        assert!(text.starts_with(&format!("refused, {number}: ")), "{text}");
    }
    for number in [0, 12, 20, 21, 22, u32::MAX] {
        assert_eq!(Refusal::of_number(number), None);
    }
}

/// Lists are lent as they lie in memory: it has to be the library's own order.
#[test]
fn numbers_lie_low_byte_first() {
    assert_eq!(bytes::of_u16s(&[1, 0x203]), [1, 0, 3, 2]);
    assert_eq!(bytes::of_floats(&[2.5]), 2.5f64.to_le_bytes());
    let (mut number, mut float) = ([0], [0.0]);
    bytes::of_u16s_mut(&mut number).copy_from_slice(&[3, 2]);
    bytes::of_floats_mut(&mut float).copy_from_slice(&2.5f64.to_le_bytes());
    assert_eq!((number[0], float[0]), (0x203, 2.5));
    assert!(bytes::of_floats(&[]).is_empty());
}

#[test]
fn parts_answer_a_nan_past_their_last() {
    assert_eq!(bytes::sqrt(2.0), 2.0f64.sqrt());
    assert_eq!(bytes::norm(3.0, 4.0, 0.0), 5.0);
    assert_eq!(bytes::cross(1.0, 0.0, 0.0, 0.0, 1.0, 0.0, 2), 1.0);
    assert!(bytes::cross(1.0, 0.0, 0.0, 0.0, 1.0, 0.0, 3).is_nan());
    assert!(bytes::determinant(&[0; 287]).is_nan());
    assert_eq!(bytes::determinant(&[0; 288]), 0.0);
}
