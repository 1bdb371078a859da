//! Document 01's small cases, and what turns that are counted on come to, run through
//! the published files.

use nalgebra::{Point3, Vector3};
use parry3d_f64::{query, shape::Segment};
use reference::groove::objective::{groove_loss, swamp_loss};
use reference::groove::objective_master::ObjectiveMaster;
use reference::sheet;
use reference::spacetime::arm::get_quat_y;
use reference::spacetime::robot::Robot;

const UP: [f64; 7] = [0.0, 0.0, 1.0, 1.0, 0.0, 0.0, 0.0];

/// One chain with wide limits.
fn chain(codes: &[u16], links: &[[f64; 7]]) -> Robot {
    limited(codes, links, [-3.0, 3.0])
}

fn limited(codes: &[u16], links: &[[f64; 7]], limits: [f64; 2]) -> Robot {
    let joints = codes.iter().filter(|&&code| code != 0).count();
    let limits = limits.repeat(joints);
    sheet::robot(&[1, codes.len() as u16], codes, &links.concat(), &limits)
}

/// A goal within reach, with a tolerance of each kind.
const GOAL: [f64; 13] = [
    0.3, -0.2, 1.5, 1.0, 0.0, 0.0, 0.0, 0.0, 0.1, 0.0, 0.0, 0.5, 3.2,
];

#[test]
fn losses_at_their_centre() {
    assert_eq!(groove_loss(0.0, 0.0, 2, 0.1, 10.0, 2), -1.0);
    assert_eq!(swamp_loss(0.0, -1.0, 1.0, 10.0, 10.0, 20), -1.0);
}

#[test]
fn two_revolute_links_up() {
    let frames = chain(&[13, 12], &[UP, UP]).get_frames_immutable(&[0.0, 0.0]);
    let (positions, rotations) = &frames[0];
    let heights: Vec<f64> = positions.iter().map(|p| p.z).collect();
    assert_eq!(heights, [0.0, 1.0, 2.0]);
    assert!(positions.iter().all(|p| p.x == 0.0 && p.y == 0.0));
    assert_eq!(rotations.len(), 4);
    for q in rotations {
        assert_eq!([q.w, q.i, q.j, q.k], [1.0, 0.0, 0.0, 0.0]);
    }
}

#[test]
fn prismatic_none_then_prismatic_z() {
    let frames = chain(&[30, 33], &[UP, UP]).get_frames_immutable(&[0.5, 0.25]);
    let heights: Vec<f64> = frames[0].0.iter().map(|p| p.z).collect();
    assert_eq!(heights, [0.0, 0.0, 1.25]);
}

#[test]
fn prismatic_moves_along_the_base_axis() {
    let turned = [0.0, 0.0, 0.0, 0.0, 0.0, 0.0, 1.0];
    let along = [1.0, 0.0, 0.0, 1.0, 0.0, 0.0, 0.0];
    let frames = chain(&[30, 31], &[turned, along]).get_frames_immutable(&[0.0, 0.5]);
    assert_eq!(frames[0].0[2].x, -0.5);
}

#[test]
fn an_offset_of_minus_one_is_skipped() {
    let minus = [0.0, 0.0, 1.0, -1.0, 0.0, -0.0, 0.0];
    let frames = chain(&[0, 13, 13], &[minus, UP, UP]).get_frames_immutable(&[0.0, 0.0]);
    assert!(frames[0].1.iter().all(|q| q.w == 1.0));
}

#[test]
fn a_zero_angle_keeps_its_sign() {
    let q = get_quat_y(-0.0);
    let bits = [q.w, q.i, q.j, q.k].map(f64::to_bits);
    assert_eq!(bits, [1.0, 0.0, -0.0, 0.0].map(f64::to_bits));
}

/// The bits of every position and rotation of the first chain.
fn frames_bits(robot: &Robot, x: &[f64]) -> Vec<u64> {
    let (positions, rotations) = sheet::frames(robot, x);
    positions
        .iter()
        .chain(&rotations)
        .map(|v| v.to_bits())
        .collect()
}

/// Twice round, half of the value is a whole turn, of which the series see nothing.
#[test]
fn a_ring_twice_round_is_where_it_was() {
    let robot = chain(&[13, 12, 20], &[UP; 3]);
    let still = frames_bits(&robot, &[0.0, 0.5, 1.0]);
    for k in [-5.0, -1.0, 1.0, 2.0, 5.0] {
        let ring = k * 12.566370614359172;
        assert_eq!(frames_bits(&robot, &[ring, 0.5, 1.0]), still, "{ring}");
    }
}

/// Half of the second joint is two turns and a half. Three taken off, not two, its sine
/// would be -0.0, and so would i.
#[test]
fn half_a_turn_too_many_is_taken_to_even() {
    let robot = chain(&[12, 11], &[UP, UP]);
    let frames = robot.get_frames_immutable(&[-1.0, 31.41592653589793]);
    let last = frames[0].1[3];
    assert_eq!(last.i.to_bits(), 0.0f64.to_bits());
    assert!(last.w < 0.0 && last.j > 0.0);
}

#[test]
fn history_shifts() {
    let (a, b, c) = ([0.1, 0.2], [0.3, 0.4], [0.5, 0.6]);
    let mut vars = sheet::vars(chain(&[13, 12], &[UP, UP]), &GOAL, &a);
    vars.update(b.to_vec());
    vars.update(c.to_vec());
    assert_eq!(vars.xopt, c);
    assert_eq!(vars.prev_state, b);
    assert_eq!(vars.prev_state2, a);
    assert_eq!(vars.prev_state3, a);
}

#[test]
fn objective_counts() {
    assert_eq!(ObjectiveMaster::relaxed_ik(&[7]).objectives.len(), 32);
    assert_eq!(ObjectiveMaster::relaxed_ik(&[6, 3]).objectives.len(), 36);
}

#[test]
fn every_objective_has_gradient_type_one() {
    let master = ObjectiveMaster::relaxed_ik(&[6, 3]);
    assert!(master.objectives.iter().all(|o| o.gradient_type() == 1));
    assert!(!master.lite && !master.finite_diff_grad);
}

#[test]
fn parallel_segments_one_apart() {
    let point = |x: f64, y: f64| Point3::from(Vector3::new(x, y, 0.0));
    let place = nalgebra::one();
    let low = Segment::new(point(0.0, 0.0), point(1.0, 0.0));
    let high = Segment::new(point(0.0, 1.0), point(1.0, 1.0));
    assert_eq!(query::distance(&place, &low, &place, &high).unwrap(), 1.0);
}

#[test]
fn few_joints_have_no_manipulability() {
    let robot = chain(&[11, 12, 13, 11, 12], &[UP; 5]);
    assert_eq!(robot.get_manipulability_immutable(&[0.3; 5]), 0.0);
}

/// Seven joints with a fixed link between, both gradients and the value beside
/// `call`: the slopes of the two must agree as far as their steps allow.
#[test]
fn gradients_run() {
    let bent = [0.1, 0.0, 0.3, 0.8, 0.0, 0.6, 0.0];
    let codes = [13, 12, 11, 0, 23, 15, 16, 33];
    let links = [UP, bent, UP, bent, UP, UP, bent, UP];
    let x = [0.3, -0.5, 0.7, 0.2, -0.4, 0.6, 0.1];
    let mut vars = sheet::vars(chain(&codes, &links), &GOAL, &x.map(|v| v * 0.9));
    vars.update(x.map(|v| v * 0.95).to_vec());
    let master = ObjectiveMaster::relaxed_ik(&vars.robot.chain_lengths);
    assert_eq!(master.objectives.len(), 32);
    let value = master.call(&x, &vars);
    let (at, slopes) = master.gradient(&x, &vars);
    let (at_too, slopes_too) = master.gradient_finite_diff(&x, &vars);
    assert_eq!(value.to_bits(), at.to_bits());
    assert_eq!(value.to_bits(), at_too.to_bits());
    assert_eq!((slopes.len(), slopes_too.len()), (7, 7));
    for (a, b) in slopes.iter().zip(&slopes_too) {
        assert!(a.is_finite() && *a != 0.0);
        assert!((a - b).abs() <= 1e-3 * a.abs().max(1.0), "{a} and {b}");
    }
}

/// Joints at 64 are raised beyond their range, and answered there: without limits value
/// and slopes are nearly those of ten turns before.
#[test]
fn slopes_go_beyond_the_range() {
    let bent = [0.1, 0.0, 0.3, 0.8, 0.0, 0.6, 0.0];
    let codes = [13, 12, 11, 23, 15, 16];
    let links = [UP, bent, UP, bent, UP, bent];
    let turns = 10.0 * std::f64::consts::TAU;
    let at = |x: [f64; 6]| {
        let robot = limited(&codes, &links, [-999.0, 999.0]);
        let vars = sheet::vars(robot, &GOAL, &x.map(|v| v - 0.01));
        let master = ObjectiveMaster::relaxed_ik(&vars.robot.chain_lengths);
        let (value, slopes) = master.gradient(&x, &vars);
        assert_eq!(value.to_bits(), master.call(&x, &vars).to_bits());
        [vec![value], slopes].concat()
    };
    let far = [64.0, -64.0, 64.0, -64.0, 64.0, -64.0];
    let near = far.map(|v: f64| v - turns.copysign(v));
    for (far, near) in at(far).into_iter().zip(at(near)) {
        assert!(
            (far - near).abs() <= 1e-4 * near.abs().max(1.0),
            "{far} and {near}"
        );
    }
}

/// Two chains: pairs of the second look at arm 0 and must still be there.
#[test]
fn two_chains_run() {
    let codes = [13, 12, 11, 13, 12, 11, 13, 32, 21];
    let limits: Vec<f64> = [-999.0, 999.0].repeat(9);
    let robot = sheet::robot(&[2, 6, 3], &codes, &[UP; 9].concat(), &limits);
    assert_eq!(robot.chain_lengths, [6, 3]);
    let x = [0.1, 0.2, 0.3, 0.4, 0.5, 0.6, 0.7, 0.8, 0.9];
    let vars = sheet::vars(robot, &[GOAL, GOAL].concat(), &x);
    let master = ObjectiveMaster::relaxed_ik(&vars.robot.chain_lengths);
    let (value, slopes) = master.gradient(&x, &vars);
    assert!(value.is_finite() && slopes.len() == 9);
    assert!(slopes.iter().all(|s| s.is_finite()));
}
