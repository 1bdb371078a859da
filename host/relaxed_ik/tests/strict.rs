//! Strict goals: what the list picked does, and the parts that it is made of.

mod lists;

use relaxed_ik::leaves::{acos, angle_between_quaternion, from_quaternion};
use relaxed_ik::leaves::{quat_product, quaternion_disp, quaternion_log};
use std::f64::consts::{FRAC_PI_2, FRAC_PI_3, PI};

const STILL: [f64; 4] = [1.0, 0.0, 0.0, 0.0];
/// A third of a turn about x, y and z alike.
const THIRD: [f64; 4] = [0.5, 0.5, 0.5, 0.5];

fn negative(q: [f64; 4]) -> [f64; 4] {
    q.map(|part| -part)
}

fn near(a: f64, b: f64) -> bool {
    (a - b).abs() < 1e-12
}

#[test]
fn an_angle_by_its_cosine() {
    assert_eq!(acos(1.0).to_bits(), 0);
    assert_eq!(
        (acos(-1.0), acos(0.0), acos(-0.0)),
        (PI, FRAC_PI_2, FRAC_PI_2)
    );
    assert!(near(acos(0.5), FRAC_PI_3) && near(acos(-0.5), PI - FRAC_PI_3));
    assert!(acos(1.0f64.next_up()).is_nan() && acos(f64::NAN).is_nan());
}

#[test]
fn a_quaternion_over_its_length() {
    assert_eq!(from_quaternion([2.0, 0.0, 0.0, 0.0]), STILL);
    assert_eq!(
        from_quaternion([-1.0, 1.0, -1.0, 1.0]),
        [-0.5, 0.5, -0.5, 0.5]
    );
    assert!(from_quaternion([0.0; 4]).iter().all(|part| part.is_nan()));
}

/// Half the angle along the axis; of no turn, and of hardly any, the last three parts
/// as they are.
#[test]
fn a_logarithm() {
    assert_eq!(quaternion_log(STILL), [0.0; 3]);
    assert_eq!(quaternion_log([-1.0, 0.0, 0.0, 0.0]), [0.0; 3]);
    let small = [1.0f64.next_down(), 1e-8, -0.0, 0.0];
    assert_eq!(quaternion_log(small), [1e-8, -0.0, 0.0]);
    let along = FRAC_PI_3 / 3.0f64.sqrt();
    assert!(quaternion_log(THIRD).iter().all(|part| near(*part, along)));
}

#[test]
fn a_turn_from_one_to_another() {
    let to = quat_product(THIRD, [0.8, 0.0, 0.6, 0.0]);
    let turn = quaternion_disp(THIRD, to);
    let expected = quaternion_log([0.8, 0.0, 0.6, 0.0]);
    assert!(turn.iter().zip(expected).all(|(a, b)| near(*a, b)));
    assert!(near(angle_between_quaternion(THIRD, to), 2.0 * expected[1]));
    assert_eq!(angle_between_quaternion(STILL, STILL), 0.0);
    // The long way round.
    let long = angle_between_quaternion(THIRD, negative(to));
    assert!(near(long, 2.0 * (PI - expected[1])));
}

#[cfg(feature = "objective")]
mod objective {
    use super::lists::{answers, chains, Answers, Lists, BUILT_IN, GOAL};
    use super::{near, negative, STILL, THIRD};
    use relaxed_ik::leaves::{loss_pos_goals, loss_quat_goals};
    use relaxed_ik::ObjectiveList::{Strict, Tolerance};
    use relaxed_ik::{Given, ObjectiveList, Pose, Record, Refusal, Slopes, Tools};

    const TOOL: [f64; 7] = [0.1, -0.2, 0.4, 0.5, 0.5, -0.5, 0.5];
    const TOOLS: Tools = [&TOOL, &[], &[], &[]];
    const JOINTS: [f64; 10] = [0.3, -0.5, 0.7, 0.2, -0.4, 0.6, 0.1, 0.9, -0.2, 0.5];

    /// Two arms, of seven joints and of three, bent so that every objective counts.
    fn arms() -> Lists {
        let mut lists = chains(&[vec![13, 12, 11, 13, 0, 12, 11, 13], vec![12, 33, 11]]);
        lists.floats = [0.3, 0.2, 0.5, 1.0, 0.0, 0.0, 0.0].repeat(11);
        lists
    }

    /// A goal for each arm, of which the second is turned.
    fn goals() -> Vec<f64> {
        let mut goals = GOAL.repeat(2);
        goals[13 + 3..13 + 7].copy_from_slice(&THIRD);
        goals
    }

    /// The arms in motion.
    struct Asked {
        lists: Lists,
        goals: Vec<f64>,
        weights: Vec<f64>,
        list: ObjectiveList,
    }

    fn asked(list: ObjectiveList) -> Asked {
        Asked {
            lists: arms(),
            goals: goals(),
            weights: Vec::new(),
            list,
        }
    }

    impl Asked {
        fn answers(&self) -> (Answers, Record) {
            let blocks = [0.0, 0.01, 0.03, 0.04].map(|by| JOINTS.map(|v| v - by));
            let given = Given {
                sheet: self.lists.sheet(),
                goals: &self.goals,
                history: &blocks.concat(),
                weights: &self.weights,
                tools: TOOLS,
                list: self.list,
            };
            answers(&given, &JOINTS)
        }

        fn found(&self) -> [Slopes; 4] {
            self.answers().0.map(Result::unwrap)
        }

        fn value(&self) -> f64 {
            self.found()[0].value
        }

        fn ends(&self) -> Vec<Pose> {
            self.lists.sheet().poses(TOOLS, &JOINTS).unwrap()
        }
    }

    #[test]
    fn the_calls_agree() {
        let strict = asked(Strict).found();
        assert!(strict.iter().all(|found| found.value == strict[0].value));
        assert_eq!(strict[3], strict[1], "one block as two");
        // The slopes are the value's: both rules come to the same, but for rounding.
        let pairs = strict[1].slopes.iter().zip(&strict[2].slopes);
        assert!(pairs.map(|(a, b)| (a - b).abs()).all(|off| off < 1e-3));
    }

    /// No other list is walked: the record is that of the tolerance list.
    #[test]
    fn the_lists_differ_and_their_records_do_not() {
        let (tolerance, first) = asked(Tolerance).answers();
        let (strict, second) = asked(Strict).answers();
        let pairs = tolerance.iter().zip(&strict);
        assert!(pairs.into_iter().all(|(a, b)| a != b));
        assert_eq!(first, second);
    }

    /// Each alone, to the bit: the ends are the tips.
    #[test]
    fn the_two_objectives_of_a_goal() {
        let mut case = asked(Strict);
        let goals = case.goals.clone();
        let pairs = || goals.chunks_exact(13).zip(case.ends());
        let position =
            |(goal, end): (&[f64], Pose)| loss_pos_goals([goal[0], goal[1], goal[2]], end.position);
        let rotation = |(goal, end): (&[f64], Pose)| {
            loss_quat_goals([goal[3], goal[4], goal[5], goal[6]], end.rotation)
        };
        let positions: Vec<f64> = pairs().map(position).collect();
        let rotations: Vec<f64> = pairs().map(rotation).collect();
        for (at, losses) in [positions, rotations].into_iter().enumerate() {
            for weight in [BUILT_IN[at], 3.0] {
                case.weights = vec![0.0; 8];
                case.weights[at] = weight;
                let sum = weight * losses[0] + weight * losses[1];
                assert_eq!(case.value(), sum, "kind {at}");
            }
        }
    }

    /// The others are those of the tolerance list: without the goals' weights there is
    /// no telling the two apart.
    #[test]
    fn the_other_objectives_stay() {
        let others = |list| {
            let mut case = asked(list);
            case.weights = BUILT_IN.to_vec();
            case.weights[..2].fill(0.0);
            case.found()
        };
        assert_eq!(others(Strict), others(Tolerance));
        assert_ne!(others(Strict)[0].value, 0.0);
    }

    #[test]
    fn weights_serve_as_ever() {
        let mut case = asked(Strict);
        let none = case.found();
        case.weights = BUILT_IN.to_vec();
        assert_eq!(case.found(), none);
        for at in 0..BUILT_IN.len() {
            case.weights = BUILT_IN.to_vec();
            case.weights[at] = 7.0;
            assert_ne!(case.found(), none, "weight {at}");
        }
        case.weights = vec![1.0; 9];
        assert_eq!(case.answers().0, [(); 4].map(|()| Err(Refusal::Weights)));
    }

    /// Within their range, whatever they are.
    #[test]
    fn tolerances_count_for_nothing() {
        for list in [Tolerance, Strict] {
            let mut case = asked(list);
            let before = case.found();
            for tolerance in [0.0, -0.0, 0.3, -100.0, 100.0, 5e-324] {
                case.goals[7..13].fill(tolerance);
                case.goals[20..].fill(tolerance);
                assert_eq!(case.found() == before, list == Strict, "{tolerance}");
            }
        }
    }

    #[test]
    fn goals_are_refused_as_ever() {
        for list in [Tolerance, Strict] {
            let refused = |goals: Vec<f64>| {
                let found = Asked {
                    goals,
                    ..asked(list)
                }
                .answers()
                .0;
                assert_eq!(found, [(); 4].map(|()| Err(Refusal::Goals)));
            };
            for at in 0..26 {
                for value in [f64::NAN, 100.0f64.next_up(), f64::NEG_INFINITY] {
                    let mut goals = goals();
                    goals[at] = value;
                    refused(goals);
                }
            }
            refused(Vec::new());
            refused(goals()[..7].repeat(2));
            refused(goals()[1..].to_vec());
        }
    }

    /// Least where the end is at its goal, by either sign of its rotation.
    #[test]
    fn losses_at_a_goal() {
        assert_eq!(loss_pos_goals([1.5, -2.0, 0.3], [1.5, -2.0, 0.3]), -1.0);
        assert_eq!(loss_quat_goals(STILL, STILL), -1.0);
        assert_eq!(loss_quat_goals(STILL, negative(STILL)), -1.0);
        assert!(near(loss_quat_goals(THIRD, negative(THIRD)), -1.0));
        let aside = loss_pos_goals([1.5, -2.0, 0.3], [1.5, -2.0, 0.4]);
        let turned = loss_quat_goals(THIRD, [0.8, 0.0, 0.6, 0.0]);
        assert!(aside > -1.0 && turned > -1.0);
        let back = loss_quat_goals(THIRD, [-0.8, 0.0, -0.6, 0.0]);
        assert!(near(turned, back));
    }

    /// Nothing is kept between calls: the list picked serves.
    #[test]
    fn each_call_picks() {
        let one_by_one = [Strict, Tolerance, Strict, Tolerance].map(|list| asked(list).found());
        assert_eq!(one_by_one[..2], one_by_one[2..]);
        assert_eq!(ObjectiveList::default(), Tolerance);
    }
}
