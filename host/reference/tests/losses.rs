//! The choice of losses in `losses` against the published objectives, as far
//! as frames reach.

use nalgebra::{Quaternion, UnitQuaternion, Vector3};
use reference::groove::objective::{swamp_loss, MatchEEPosiDoF, MatchEERotaDoF, ObjectiveTrait};
use reference::groove::vars::RelaxedIKVars;
use reference::losses::{limited, limits, position, rotation};
use reference::sheet;

type Frames = Vec<(Vec<Vector3<f64>>, Vec<UnitQuaternion<f64>>)>;

/// Tolerances of each kind, with the neighbours of where the kind changes.
#[allow(clippy::approx_constant)]
fn bounds() -> Vec<f64> {
    let (small, large) = (0.01f64, 3.14159260f64);
    let mut all = vec![-100.0, -0.0, 0.0, 0.05, 0.5, 1.0, 3.0, 100.0];
    for edge in [small, large] {
        all.extend([edge.next_down(), edge, edge.next_up()]);
    }
    all
}

/// Nothing but a goal at the origin with this tolerance everywhere.
fn at_origin(bound: f64) -> RelaxedIKVars {
    let mut goal = [bound; 13];
    goal[..7].copy_from_slice(&[0.0, 0.0, 0.0, 1.0, 0.0, 0.0, 0.0]);
    let robot = sheet::robot(&[0], &[], &[], &[]);
    let mut vars = sheet::loaded(robot);
    sheet::set_goals(&mut vars, &goal);
    vars
}

#[test]
fn a_position_costs_what_the_objective_says() {
    for bound in bounds() {
        let vars = at_origin(bound);
        for k in -60..=60 {
            // Rounded coordinates, near the goal and far from it.
            let place = [k, 7 * k, 61 * k].map(|n| f64::from(n) / 37.0);
            let [x, y, z] = place;
            let turn = UnitQuaternion::identity();
            let frames: Frames = vec![(vec![Vector3::new(x, y, z)], vec![turn])];
            for (axis, dist) in place.into_iter().enumerate() {
                let published = MatchEEPosiDoF::new(0, axis).call(&[], &vars, &frames);
                assert_eq!(published.to_bits(), position(dist, bound).to_bits());
            }
        }
    }
}

#[test]
fn a_rotation_costs_what_the_objective_says() {
    for bound in bounds() {
        let vars = at_origin(bound);
        for k in -60..=60 {
            let (angle, share) = (f64::from(k) / 19.0, f64::from(k) / 60.0);
            let (sine, cosine) = angle.sin_cos();
            let side = (1.0 - share * share).sqrt();
            let turn = Quaternion::new(cosine, sine * share, sine * side * 0.6, sine * side * 0.8);
            let turn = UnitQuaternion::new_unchecked(turn);
            let frames: Frames = vec![(vec![Vector3::new(0.0, 0.0, 0.0)], vec![turn])];
            // What the objective sees: its goal's inverse times the turn.
            let seen = (vars.goal_quats[0].inverse() * turn).scaled_axis();
            for axis in 0..3 {
                let published = MatchEERotaDoF::new(0, axis).call(&[], &vars, &frames);
                let ours = rotation(seen[axis].abs(), bound);
                assert_eq!(published.to_bits(), ours.to_bits());
            }
        }
    }
}

#[test]
fn a_free_joint_costs_minus_one() {
    assert_eq!(limits(990.0, &limited(-999.0, 999.0)), -1.0);
    for (lower, upper) in [
        (-999.0, 998.0),
        (-998.0, 999.0),
        (-999.0, 999.0f64.next_down()),
        ((-999.0f64).next_down(), 999.0),
        (-3.0, 3.0),
    ] {
        let cost = limits(990.0, &limited(lower, upper));
        assert_eq!(cost, swamp_loss(990.0, lower, upper, 10.0, 10.0, 20));
        assert_ne!(cost, -1.0, "{lower}, {upper}");
    }
}
