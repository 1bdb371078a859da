//! Ours, no part of the published files: which loss an objective takes, asked
//! for by itself. The published objectives work out distance and angle from
//! frames, which reaches neither every float nor every zero's sign; so the
//! choice by tolerance is written here once more, from document 01's notes on
//! `objective.rs`, over the published losses. `tests/losses.rs` holds it
//! against the published objectives. The strict ones take a whole end pose and are
//! asked as they are.

use crate::groove::objective::{
    groove_loss, swamp_groove_loss, swamp_loss, EachJointLimits, MatchEEPosGoals, MatchEEQuatGoals,
    ObjectiveTrait,
};
use crate::groove::vars::RelaxedIKVars;
use crate::sheet;
use crate::spacetime::robot::Robot;
use nalgebra::{UnitQuaternion, Vector3};

/// `MatchEEPosiDoF` of one coordinate's distance.
pub fn position(dist: f64, bound: f64) -> f64 {
    if bound <= 0.01 {
        groove_loss(dist, 0.0, 2, 0.1, 10.0, 2)
    } else {
        swamp_groove_loss(dist, 0.0, -bound, bound, bound * 2.0, 1.0, 0.01, 100.0, 20)
    }
}

/// `MatchEERotaDoF` of one coordinate's angle.
#[allow(clippy::approx_constant)]
pub fn rotation(angle: f64, bound: f64) -> f64 {
    if bound <= 0.01 {
        groove_loss(angle, 0.0, 2, 0.1, 10.0, 2)
    } else if bound >= 3.14159260 {
        swamp_loss(angle, -bound, bound, 100.0, 0.1, 20)
    } else {
        swamp_groove_loss(angle, 0.0, -bound, bound, bound * 2.0, 1.0, 0.01, 100.0, 20)
    }
}

/// No chains, and joints with these limits.
fn armless(lower: Vec<f64>, upper: Vec<f64>) -> RelaxedIKVars {
    sheet::loaded(Robot {
        arms: Vec::new(),
        num_chains: 0,
        num_dofs: lower.len(),
        chain_lengths: Vec::new(),
        lower_joint_limits: lower,
        upper_joint_limits: upper,
    })
}

/// The published `MatchEEPosGoals` of a goal's position and an end's, which is all
/// that it looks at.
pub fn position_goal(goal: Vector3<f64>, end: Vector3<f64>) -> f64 {
    let mut vars = armless(Vec::new(), Vec::new());
    vars.goal_positions.push(goal);
    MatchEEPosGoals::new(0).call(&[], &vars, &vec![(vec![end], Vec::new())])
}

/// The published `MatchEEQuatGoals` of a goal's rotation and an end's.
pub fn rotation_goal(goal: UnitQuaternion<f64>, end: UnitQuaternion<f64>) -> f64 {
    let mut vars = armless(Vec::new(), Vec::new());
    vars.goal_quats.push(goal);
    MatchEEQuatGoals::new(0).call(&[], &vars, &vec![(Vec::new(), vec![end])])
}

/// A state with nothing in it but one joint's limits, which is all that
/// `EachJointLimits` looks at.
pub fn limited(lower: f64, upper: f64) -> RelaxedIKVars {
    armless(vec![lower], vec![upper])
}

/// The published `EachJointLimits` of the joint of `limited`.
pub fn limits(x: f64, limited: &RelaxedIKVars) -> f64 {
    EachJointLimits::new(0).call(&[x], limited, &Vec::new())
}
