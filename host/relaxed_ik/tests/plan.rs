//! What is planned of a sheet, and that the calls take lists of just that length.

mod lists;

use lists::{chains, Lists};
use relaxed_ik::ObjectiveList::{Strict, Tolerance};
use relaxed_ik::{Plan, Refusal};

/// Arms, and the numbers of their plans by the tolerance list: among them the scope
/// paper's, and the most objectives and the most entries that there can be.
fn arms() -> Vec<(Lists, [usize; 4])> {
    let front = [[13; 4].to_vec(), vec![0; 12]].concat();
    vec![
        (chains(&[[13, 12]]), [9, 16, 12, 5]),
        (chains(&[[0, 13, 12, 0]]), [15, 24, 12, 9]),
        (chains(&[[13; 7]]), [24, 36, 32, 35]),
        (chains(&[vec![31; 6], vec![22; 3]]), [33, 52, 36, 36]),
        (chains(&[[13; 16]]), [51, 72, 131, 152]),
        (chains(&vec![front; 4]), [204, 288, 56, 296]),
    ]
}

#[test]
fn the_numbers_of_a_plan() {
    for (lists, [positions, rotations, objectives, entries]) in arms() {
        let expected = Plan {
            positions,
            rotations,
            objectives,
            entries,
        };
        assert_eq!(lists.sheet().plan(Tolerance), Ok(expected));
        assert_eq!(expected.pose_floats(), 7 * entries);
        // Two objectives of a goal in place of six.
        let strict = Plan {
            objectives: objectives - 4 * lists.sheet().chains(),
            ..expected
        };
        assert_eq!(lists.sheet().plan(Strict), Ok(strict));
    }
}

#[test]
fn limits_are_not_asked_for() {
    for (lists, _) in arms() {
        let wrong = lists.spoiled(|l| l.limits = vec![f64::NAN]);
        for list in [Tolerance, Strict] {
            let plan = lists.sheet().plan(list);
            let without = Plan::of(&lists.sizes, &lists.codes, &lists.floats, list);
            assert_eq!(without, plan);
            assert_eq!(wrong.sheet().plan(list), plan);
        }
        assert_eq!(wrong.sheet().load(), Err(Refusal::Limits));
    }
}

#[test]
fn each_refusal_by_its_number() {
    let good = chains(&[vec![13, 12, 0], vec![31, 22]]);
    for (refusal, lists) in good.faults() {
        assert_eq!(lists.sheet().plan(Tolerance), Err(refusal));
        assert_eq!(lists.sheet().plan(Strict), Err(refusal));
        assert_eq!(lists.sheet().load(), Err(refusal), "as at loading");
    }
    let both = good.spoiled(|l| {
        l.floats[0] = 11.0;
        l.codes[0] = 99;
    });
    assert_eq!(both.sheet().plan(Strict), Err(Refusal::Code), "the lowest");
}

/// The lists are reserved by the plan, which knows nothing of limits; the number
/// is the call's own all the same.
#[test]
fn a_lower_number_than_the_plans_is_answered() {
    let good = chains(&[[13, 12]]);
    let wrong = good.spoiled(|l| {
        l.floats[0] = 11.0;
        l.limits[0] = 200.0;
    });
    assert_eq!(wrong.sheet().plan(Tolerance), Err(Refusal::Link));
    assert_eq!(wrong.sheet().frames(&[0.0; 2]), Err(Refusal::Limits));
}

#[test]
fn frames_take_what_is_planned_and_no_less() {
    for (lists, _) in arms() {
        let sheet = lists.sheet();
        let (plan, joints) = (sheet.plan(Tolerance).unwrap(), vec![0.1; sheet.joints()]);
        let ask = |positions: usize, rotations: usize| {
            let (mut points, mut turns) = (vec![5.0; positions], vec![5.0; rotations]);
            let answer = sheet.frames_into(&joints, &mut points, &mut turns);
            let kept = [points, turns].concat().iter().all(|&v| v == 5.0);
            assert_eq!(kept, answer.is_err(), "a refused call writes nothing");
            answer
        };
        assert_eq!(ask(plan.positions, plan.rotations), Ok(()));
        let short = Err(Refusal::Room);
        assert_eq!(ask(plan.positions - 1, plan.rotations), short);
        assert_eq!(ask(plan.positions, plan.rotations - 1), short);
    }
}

#[cfg(feature = "objective")]
mod objective {
    use super::lists::{Lists, GOAL};
    use super::{arms, Strict, Tolerance};
    use relaxed_ik::{Given, ObjectiveList, RecordLists, Refusal, NO_TOOLS};

    fn record_is_planned(lists: &Lists, list: ObjectiveList) {
        let sheet = lists.sheet();
        let (plan, joints) = (sheet.plan(list).unwrap(), vec![0.1; sheet.joints()]);
        let given = Given {
            sheet,
            goals: &GOAL.repeat(sheet.chains()),
            history: &joints.repeat(4),
            weights: &[],
            tools: NO_TOOLS,
            list,
        };
        let ask = |less: [usize; 3]| {
            let record = RecordLists {
                joints: &mut vec![0; plan.entries - less[0]],
                links: &mut vec![0; plan.entries - less[1]],
                poses: &mut vec![0.0; plan.pose_floats() - less[2]],
            };
            let mut slopes = joints.clone();
            given.gradient_one_block_into(&joints, &mut 0.0, &mut slopes, record)
        };
        assert_eq!(ask([0; 3]), Ok(()));
        // An entry of the poses is seven floats, and one float is as bad.
        for less in [[1, 0, 0], [0, 1, 0], [0, 0, 7], [0, 0, 1]] {
            assert_eq!(ask(less), Err(Refusal::Room), "{less:?}");
        }
        let (_, record) = given.gradient_one_block(&joints).unwrap();
        assert_eq!(record.len(), plan.entries);
    }

    #[test]
    fn the_record_takes_what_is_planned_and_no_less() {
        for (lists, _) in arms() {
            record_is_planned(&lists, Tolerance);
            record_is_planned(&lists, Strict);
        }
    }
}
