//! The strict list: which published objectives it has, in which order and with
//! which weights, and what the published master answers with them.

mod robots;

use nalgebra::{Quaternion, UnitQuaternion, Vector3};
use reference::groove::objective::{
    groove_loss, MatchEEPosGoals, MatchEEQuatGoals, ObjectiveTrait,
};
use reference::groove::objective_master::ObjectiveMaster;
use reference::groove::vars::RelaxedIKVars;
use reference::losses::{position_goal, rotation_goal};
use reference::sheet;
use reference::strict::Pick;
use reference::utils_rust::transformations::{angle_between_quaternion, quaternion_log};
use reference::weights::{built_in, master};
use robots::{goals, robot, JOINTS};

/// Sheet, goals and history with other numbers for every chain and joint.
fn vars() -> RelaxedIKVars {
    let mut vars = sheet::vars(robot(), &goals(), &JOINTS.map(|v| v * 0.9));
    vars.update(JOINTS.map(|v| v * 0.97).to_vec());
    vars
}

fn bits(floats: &[f64]) -> Vec<u64> {
    floats.iter().map(|v| v.to_bits()).collect()
}

type Objectives = [Box<dyn ObjectiveTrait + Send>];

/// Costs of objectives at the joints.
fn costs(objectives: &Objectives, vars: &RelaxedIKVars) -> Vec<u64> {
    let frames = vars.robot.get_frames_immutable(&JOINTS);
    let costs = objectives.iter();
    let costs = costs.map(|objective| objective.call(&JOINTS, vars, &frames));
    costs.map(f64::to_bits).collect()
}

/// Position then rotation, chain after chain, and behind them the published list
/// without its tolerance objectives, costs and weights alike.
#[test]
fn two_objectives_a_chain_in_the_place_of_six() {
    let vars = vars();
    let lengths = &vars.robot.chain_lengths;
    let (strict, published) = (
        Pick::Strict.master(lengths),
        ObjectiveMaster::relaxed_ik(lengths),
    );
    let mut front: Vec<Box<dyn ObjectiveTrait + Send>> = Vec::new();
    for chain in 0..lengths.len() {
        front.push(Box::new(MatchEEPosGoals::new(chain)));
        front.push(Box::new(MatchEEQuatGoals::new(chain)));
    }
    let rest = 6 * lengths.len();
    let (front, behind) = (
        costs(&front, &vars),
        costs(&published.objectives[rest..], &vars),
    );
    // No two of the front are alike, so that none can stand for another.
    assert!((1..front.len()).all(|at| !front[..at].contains(&front[at])));
    assert_eq!(costs(&strict.objectives, &vars), [front, behind].concat());
    let mut priors = [50.0, 10.0].repeat(lengths.len());
    priors.extend(&published.weight_priors[rest..]);
    assert_eq!(strict.weight_priors, priors);
    assert_eq!(strict.num_chains, published.num_chains);
    assert!(!strict.lite && !strict.finite_diff_grad);
}

/// Both gradients are the published master's: raised joint by joint.
#[test]
fn the_published_master_makes_the_slopes() {
    let vars = vars();
    let strict = Pick::Strict.master(&vars.robot.chain_lengths);
    let value = strict.call(&JOINTS, &vars);
    let coarse = |joint: usize| {
        let mut raised = JOINTS;
        raised[joint] += 0.000001;
        (-value + strict.call(&raised, &vars)) / 0.000001
    };
    let coarse: Vec<f64> = (0..JOINTS.len()).map(coarse).collect();
    assert_eq!(strict.gradient_finite_diff(&JOINTS, &vars), (value, coarse));
    let (again, slopes) = strict.gradient(&JOINTS, &vars);
    assert_eq!(again.to_bits(), value.to_bits());
    assert!(slopes
        .iter()
        .all(|slope| slope.is_finite() && *slope != 0.0));
}

/// Not picked, the list is the published one: nothing of an answer moves.
#[test]
fn the_tolerance_list_is_untouched() {
    let vars = vars();
    let lengths = &vars.robot.chain_lengths;
    let published = ObjectiveMaster::relaxed_ik(lengths);
    for own in [
        Pick::of(0).master(lengths),
        master(Pick::Tolerance, lengths, &[]),
        master(Pick::Tolerance, lengths, &built_in()),
    ] {
        assert_eq!(
            costs(&own.objectives, &vars),
            costs(&published.objectives, &vars)
        );
        assert_eq!(own.weight_priors, published.weight_priors);
        let ask = |master: &ObjectiveMaster| {
            let (value, slopes) = master.gradient(&JOINTS, &vars);
            let coarse = master.gradient_finite_diff(&JOINTS, &vars).1;
            bits(&[vec![value], slopes, coarse].concat())
        };
        assert_eq!(ask(&own), ask(&published));
    }
}

#[test]
fn every_number_but_0_picks() {
    assert_eq!(Pick::of(0), Pick::Tolerance);
    for number in [1, 2, 256, 65536, 1 << 31, u32::MAX] {
        assert_eq!(Pick::of(number), Pick::Strict, "{number}");
    }
}

/// Tolerances are not looked at.
#[test]
fn tolerances_change_nothing() {
    let mut vars = vars();
    let strict = Pick::Strict.master(&vars.robot.chain_lengths);
    let before = strict.gradient(&JOINTS, &vars);
    let mut other = goals();
    for goal in other.chunks_exact_mut(sheet::GOAL_FLOATS) {
        goal[7..].fill(2.5);
    }
    sheet::set_goals(&mut vars, &other);
    assert_eq!(strict.gradient(&JOINTS, &vars), before);
}

fn turn(w: f64, i: f64, j: f64, k: f64) -> UnitQuaternion<f64> {
    UnitQuaternion::new_unchecked(Quaternion::new(w, i, j, k))
}

/// A goal met costs least, by a rotation of either sign; half a turn costs by its
/// angle, and nothing costs more.
#[test]
fn a_goal_met_costs_least() {
    let at = Vector3::new(0.3, -0.2, 1.5);
    assert_eq!(position_goal(at, at), -1.0);
    let aside = position_goal(at, Vector3::new(0.3, -0.2, 1.25));
    assert_eq!(aside, groove_loss(0.25, 0.0, 2, 0.1, 10.0, 2));
    let goal = turn(0.5, 0.5, 0.5, 0.5);
    for end in [goal, turn(-0.5, -0.5, -0.5, -0.5)] {
        assert_eq!(rotation_goal(goal, end), -1.0);
    }
    let opposite = turn(-0.5, 0.5, 0.5, -0.5);
    let angle = angle_between_quaternion(goal, opposite);
    assert!((angle - std::f64::consts::PI).abs() < 1e-14);
    let most = groove_loss(angle, 0.0, 2, 0.1, 10.0, 2);
    assert_eq!(rotation_goal(goal, opposite), most);
    for half in (1..=30).map(|part| f64::from(part) * 0.1) {
        let end = goal * turn(half.cos(), 0.0, half.sin(), 0.0);
        assert!(rotation_goal(goal, end) < most, "{half}");
    }
}

/// A w of -1 or beyond keeps its vector, and so does one whose sine is small.
#[test]
fn a_log_is_scaled_between_its_ends() {
    let log = |w: f64, x: f64| quaternion_log(turn(w, x, 0.0, 0.0)).x;
    for w in [1.0, -1.0, 1.0f64.next_up(), -2.0, f64::NAN, f64::INFINITY] {
        assert_eq!(log(w, 0.25), 0.25, "{w}");
    }
    // Sines of a little less than 0.005 and of a little more, at either end.
    for sign in [1.0, -1.0] {
        assert_eq!(log(sign * (1.0f64 - 0.0049 * 0.0049).sqrt(), 0.25), 0.25);
        assert_ne!(log(sign * (1.0f64 - 0.0051 * 0.0051).sqrt(), 0.25), 0.25);
    }
    assert!((log(0.0, 1.0) - std::f64::consts::FRAC_PI_2).abs() < 1e-15);
    assert!(log(-0.5, 0.25) > log(0.5, 0.25));
}
