//! The objective and its slopes, on sheets written by hand.
#![cfg(feature = "objective")]

mod lists;

use lists::{GOAL, UP};
use relaxed_ik::{bytes, Given, ObjectiveList, RecordLists, Refusal, Sheet};
use relaxed_ik::{MOST_TURN, NO_TOOLS};

/// Links up 1, at rest at the joints, handed to `test`.
fn with(codes: &[u16], joints: &[f64], test: impl FnOnce(Given)) {
    let sheet = Sheet {
        sizes: &[1, codes.len() as u16],
        codes,
        floats: &UP.repeat(codes.len()),
        limits: &[-3.0, 3.0].repeat(joints.len()),
    };
    test(Given {
        sheet,
        goals: &GOAL,
        history: &joints.repeat(4),
        weights: &[],
        tools: NO_TOOLS,
        list: ObjectiveList::Tolerance,
    });
}

#[test]
fn the_calls_agree() {
    let joints = [0.3, -0.0, 0.7];
    with(&[13, 12, 0, 31], &joints, |given| {
        let value = given.objective(&joints).unwrap();
        let two = given.gradient(&joints).unwrap();
        let coarse = given.gradient_finite_diff(&joints).unwrap();
        let (one, record) = given.gradient_one_block(&joints).unwrap();
        assert_eq!([two.value, coarse.value, one.value], [value; 3]);
        assert_eq!(one, two);
        assert_eq!(one.slopes.len(), 3);
        assert_eq!(record.len(), given.sheet.plan(given.list).unwrap().entries);
        let ends = given.sheet.poses(NO_TOOLS, &joints).unwrap();
        assert_eq!(record[3].pose, ends[0]);
    });
}

#[test]
fn nine_links_are_walked() {
    with(&[0, 13, 12, 0], &[0.0, 0.0], |given| {
        let (_, record) = given.gradient_one_block(&[0.0, 0.0]).unwrap();
        let walked: Vec<_> = record.iter().map(|w| (w.raised, w.link)).collect();
        let mut expected: Vec<_> = (0..4).map(|link| (None, link)).collect();
        expected.extend([1, 2, 3].map(|link| (Some(0), link)));
        expected.extend([2, 3].map(|link| (Some(1), link)));
        assert_eq!(walked, expected);
        assert_eq!(record[3].pose.position, [0.0, 0.0, 4.0]);
    });
}

#[test]
fn lists_at_hand_keep_their_tails_and_a_short_one_is_refused() {
    with(&[0, 13, 12, 0], &[0.0, 0.0], |given| {
        let mut value = 5.0;
        let mut slopes = [5.0; 3];
        let (mut joints, mut links) = ([7; 10], [7; 10]);
        let mut poses = [5.0; 64];
        let mut ask = |entries: usize| {
            let lists = RecordLists {
                joints: &mut joints[..entries],
                links: &mut links,
                poses: &mut poses,
            };
            given.gradient_one_block_into(&[0.0, 0.0], &mut value, &mut slopes, lists)
        };
        assert_eq!(ask(8), Err(Refusal::Room));
        assert_eq!(ask(10), Ok(()));
        assert_ne!(value, 5.0);
        assert_eq!((slopes[2], joints[9], links[9]), (5.0, 7, 7));
        assert_eq!(poses[63], 5.0);
    });
}

/// 7 before 8.
#[test]
fn the_lowest_number_is_answered() {
    with(&[13, 12], &[0.5, 0.5], |given| {
        let given = Given {
            goals: &GOAL[1..],
            ..given
        };
        let beyond = MOST_TURN.next_up();
        assert_eq!(given.objective(&[0.5, beyond]), Err(Refusal::Joints));
        assert_eq!(given.objective(&[0.5, MOST_TURN]), Err(Refusal::Goals));
        assert_eq!(given.gradient(&[0.5, MOST_TURN]), Err(Refusal::Goals));
    });
}

#[test]
fn losses_at_their_centre() {
    assert_eq!(bytes::groove_loss(0.0, 0.0, 0.1, 10.0), -1.0);
    assert_eq!(bytes::swamp_loss(0.0, -1.0, 1.0, 10.0, 10.0, 20), -1.0);
    assert_eq!(bytes::swamp_loss(0.0, -1.0, 1.0, 10.0, 10.0, 30), -1.0);
    assert_eq!(bytes::loss_limits(5.0, -999.0, 999.0), -1.0);
    assert_eq!(bytes::loss_position(0.0, 0.0), -1.0);
    assert_eq!(bytes::loss_rotation(0.0, 3.2), -1.0);
}

/// The header's most entries: four chains of 16 links with their joints in
/// front. One entry fewer is refused.
#[test]
fn the_longest_record() {
    let chain = [&[13; 4][..], &[0; 12]].concat();
    let sheet = Sheet {
        sizes: &[4, 16, 16, 16, 16],
        codes: &chain.repeat(4),
        floats: &UP.repeat(64),
        limits: &[-3.0, 3.0].repeat(16),
    };
    let given = Given {
        sheet,
        goals: &GOAL.repeat(4),
        history: &[0.1; 64],
        weights: &[],
        tools: NO_TOOLS,
        list: ObjectiveList::Tolerance,
    };
    assert_eq!(sheet.plan(given.list).unwrap().entries, 296);
    let ask = |entries: usize| {
        let lists = RecordLists {
            joints: &mut vec![0; entries],
            links: &mut vec![0; entries],
            poses: &mut vec![0.0; 7 * entries],
        };
        given.gradient_one_block_into(&[0.1; 16], &mut 0.0, &mut [0.0; 16], lists)
    };
    assert_eq!(ask(296), Ok(()));
    assert_eq!(ask(295), Err(Refusal::Room));
}
