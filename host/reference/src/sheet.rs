//! Ours, no part of the published files: makes a `Robot` and `RelaxedIKVars`
//! from plain numbers laid out as document 01's section 'Arm sheet and lists'
//! says, and lays what the published functions answer out as lists. It takes
//! the place of loading from URDF and settings. Nothing is refused here: a
//! sheet that the paper would refuse may panic. `refusals` is to be asked
//! first.

use crate::groove::vars::RelaxedIKVars;
use crate::spacetime::arm::Arm;
use crate::spacetime::robot::Robot;
use crate::telescoping::TELESCOPING;
use nalgebra::{Quaternion, UnitQuaternion, Vector3, Vector6};

/// Floats a link: displacement, then offset w, i, j, k.
pub const LINK_FLOATS: usize = 7;
/// Floats a chain's goal: position, quaternion w first, six tolerances.
pub const GOAL_FLOATS: usize = 13;
/// Floats a chain's end pose: position, rotation w first.
pub const END_FLOATS: usize = 7;

/// The names by which `Arm::init` knows a joint's kind, by the code's tens.
const KINDS: [&str; 5] = ["fixed", "revolute", "continuous", "prismatic", TELESCOPING];
/// The names of its axes, by the code's units. It knows no "none", which is
/// how such a joint gets no axis.
const AXES: [&str; 7] = ["none", "x", "y", "z", "-x", "-y", "-z"];

/// Four floats as they came, w first. A sheet's quaternion is used unchanged,
/// not normalised again.
pub(crate) fn quaternion(q: &[f64]) -> UnitQuaternion<f64> {
    UnitQuaternion::new_unchecked(Quaternion::new(q[0], q[1], q[2], q[3]))
}

/// Sizes are the chain count, then the links of each chain; limits are lower,
/// upper for each joint. As in `from_urdf`, only links that are not fixed have
/// an axis, so a chain's length is its count of those.
pub fn robot(sizes: &[u16], codes: &[u16], floats: &[f64], limits: &[f64]) -> Robot {
    let num_chains = usize::from(sizes[0]);
    let mut arms = Vec::new();
    let mut chain_lengths = Vec::new();
    let mut links = codes.iter().zip(floats.chunks_exact(LINK_FLOATS));
    for &count in &sizes[1..=num_chains] {
        let mut axis_types = Vec::new();
        let mut joint_types = Vec::new();
        let mut displacements = Vec::new();
        let mut rot_offsets = Vec::new();
        for (&code, link) in links.by_ref().take(usize::from(count)) {
            let (kind, axis) = (usize::from(code / 10), usize::from(code % 10));
            joint_types.push(KINDS[kind].to_string());
            if kind != 0 {
                axis_types.push(AXES[axis].to_string());
            }
            displacements.push(Vector3::new(link[0], link[1], link[2]));
            rot_offsets.push(quaternion(&link[3..]));
        }
        chain_lengths.push(axis_types.len());
        arms.push(Arm::init(
            axis_types,
            displacements,
            rot_offsets,
            joint_types,
        ));
    }
    Robot {
        arms,
        num_chains,
        num_dofs: chain_lengths.iter().sum(),
        chain_lengths,
        lower_joint_limits: limits.iter().step_by(2).copied().collect(),
        upper_joint_limits: limits.iter().skip(1).step_by(2).copied().collect(),
    }
}

/// The state right after loading: no goals, no history.
pub fn loaded(robot: Robot) -> RelaxedIKVars {
    RelaxedIKVars {
        robot,
        init_state: Vec::new(),
        xopt: Vec::new(),
        prev_state: Vec::new(),
        prev_state2: Vec::new(),
        prev_state3: Vec::new(),
        goal_positions: Vec::new(),
        goal_quats: Vec::new(),
        tolerances: Vec::new(),
        init_ee_positions: Vec::new(),
        init_ee_quats: Vec::new(),
    }
}

/// The state right after a reset to `start`, with the goals given.
pub fn vars(robot: Robot, goals: &[f64], start: &[f64]) -> RelaxedIKVars {
    let mut vars = loaded(robot);
    set_goals(&mut vars, goals);
    vars.reset(start.to_vec());
    vars
}

/// The state with goals and history as a call is lent them.
pub fn lent(robot: Robot, goals: &[f64], history: &[f64]) -> RelaxedIKVars {
    let mut vars = loaded(robot);
    set_goals(&mut vars, goals);
    set_history(&mut vars, history);
    vars
}

pub fn set_goals(vars: &mut RelaxedIKVars, goals: &[f64]) {
    vars.goal_positions.clear();
    vars.goal_quats.clear();
    vars.tolerances.clear();
    for goal in goals.chunks_exact(GOAL_FLOATS) {
        let t = &goal[7..];
        vars.goal_positions
            .push(Vector3::new(goal[0], goal[1], goal[2]));
        vars.goal_quats.push(quaternion(&goal[3..7]));
        vars.tolerances
            .push(Vector6::new(t[0], t[1], t[2], t[3], t[4], t[5]));
    }
}

/// Four blocks of joints: current, then the three earlier ones.
pub fn history(vars: &RelaxedIKVars) -> Vec<f64> {
    [
        &vars.xopt[..],
        &vars.prev_state,
        &vars.prev_state2,
        &vars.prev_state3,
    ]
    .concat()
}

pub fn set_history(vars: &mut RelaxedIKVars, history: &[f64]) {
    let joints = vars.robot.num_dofs;
    let block = |at: usize| history[at * joints..][..joints].to_vec();
    vars.xopt = block(0);
    vars.prev_state = block(1);
    vars.prev_state2 = block(2);
    vars.prev_state3 = block(3);
}

/// Positions by three and rotations by four, chain after chain.
pub fn frames(robot: &Robot, joints: &[f64]) -> (Vec<f64>, Vec<f64>) {
    let (mut positions, mut rotations) = (Vec::new(), Vec::new());
    for (points, turns) in robot.get_frames_immutable(joints) {
        points
            .iter()
            .for_each(|p| positions.extend([p.x, p.y, p.z]));
        turns
            .iter()
            .for_each(|q| rotations.extend([q.w, q.i, q.j, q.k]));
    }
    (positions, rotations)
}

/// A pose as seven floats.
pub(crate) fn end(position: &Vector3<f64>, rotation: &UnitQuaternion<f64>) -> [f64; END_FLOATS] {
    let (p, q) = (position, rotation);
    [p.x, p.y, p.z, q.w, q.i, q.j, q.k]
}

/// Each chain's end pose at these joints.
pub fn ends(robot: &Robot, joints: &[f64]) -> Vec<f64> {
    let poses = robot.get_ee_pos_and_quat_immutable(joints);
    poses.iter().flat_map(|(p, q)| end(p, q)).collect()
}

/// The end poses that a reset keeps.
pub fn start_ends(vars: &RelaxedIKVars) -> Vec<f64> {
    let poses = vars.init_ee_positions.iter().zip(&vars.init_ee_quats);
    poses.flat_map(|(p, q)| end(p, q)).collect()
}
