//! Ours, no part of the published files: the tools of document 02, change 3. A
//! chain's end pose is its last published frame with the tool applied by the
//! steps of a published fixed link. The published master is given goal objectives
//! that see that pose; they, and all others, are called as published. Nothing is
//! refused here; `refusals` is to be asked first.

use crate::groove::objective::ObjectiveTrait;
use crate::groove::objective_master::ObjectiveMaster;
use crate::groove::vars::RelaxedIKVars;
use crate::sheet::{end, quaternion, LINK_FLOATS};
use crate::spacetime::robot::Robot;
use crate::strict::Pick;
use nalgebra::{UnitQuaternion, Vector3};

/// Floats of a tool: displacement, then quaternion, as a link has them.
pub const TOOL_FLOATS: usize = LINK_FLOATS;
/// Tool lists that a call is lent: as many as there can be chains.
pub const TOOLS: usize = 4;

type Pose = (Vector3<f64>, UnitQuaternion<f64>);
type Frames = Vec<(Vec<Vector3<f64>>, Vec<UnitQuaternion<f64>>)>;

/// A tool that is not refused.
#[derive(Clone, Copy, Debug)]
pub struct Tool {
    displacement: Vector3<f64>,
    offset: UnitQuaternion<f64>,
}

/// By chain.
pub type Tools = [Option<Tool>; TOOLS];

impl Tool {
    /// None for an empty list.
    pub fn of(list: &[f64]) -> Option<Self> {
        (!list.is_empty()).then(|| Self {
            displacement: Vector3::new(list[0], list[1], list[2]),
            offset: quaternion(&list[3..]),
        })
    }

    /// The pose behind the tool, as the published walk passes a fixed link.
    fn tip(&self, (point, rotation): Pose) -> Pose {
        let point = rotation * self.displacement + point;
        let Self { offset, .. } = *self;
        if offset.i == 0.0 && offset.j == 0.0 && offset.k == 0.0 {
            return (point, rotation);
        }
        (point, rotation * offset)
    }
}

/// Those of a call's four lists.
pub fn tools<L: AsRef<[f64]>>(lists: &[L; TOOLS]) -> Tools {
    std::array::from_fn(|chain| Tool::of(lists[chain].as_ref()))
}

/// A chain's end pose: a chain without a tool keeps its pose as it is.
fn tip(tool: &Option<Tool>, pose: Pose) -> Pose {
    tool.map_or(pose, |tool| tool.tip(pose))
}

/// Each chain's end pose at these joints.
fn tips(robot: &Robot, tools: &Tools, joints: &[f64]) -> Vec<Pose> {
    let poses = robot.get_ee_pos_and_quat_immutable(joints).into_iter();
    poses
        .zip(tools)
        .map(|(pose, tool)| tip(tool, pose))
        .collect()
}

/// The same as a list.
pub fn ends(robot: &Robot, tools: &Tools, joints: &[f64]) -> Vec<f64> {
    let tips = tips(robot, tools, joints);
    tips.iter().flat_map(|(p, q)| end(p, q)).collect()
}

/// The published reset, which then keeps these end poses.
pub fn reset(vars: &mut RelaxedIKVars, tools: &Tools, joints: &[f64]) {
    vars.reset(joints.to_vec());
    let tips = tips(&vars.robot, tools, joints);
    (vars.init_ee_positions, vars.init_ee_quats) = tips.into_iter().unzip();
}

/// A published objective of a chain's goal, which sees the tool's pose in the
/// place of the last frame's.
struct AtTip {
    objective: Box<dyn ObjectiveTrait + Send>,
    chain: usize,
    tool: Tool,
}

impl ObjectiveTrait for AtTip {
    fn call(&self, x: &[f64], v: &RelaxedIKVars, frames: &Frames) -> f64 {
        let mut frames = frames.clone();
        let (positions, rotations) = &mut frames[self.chain];
        if let (Some(p), Some(q)) = (positions.last_mut(), rotations.last_mut()) {
            (*p, *q) = self.tool.tip((*p, *q));
        }
        self.objective.call(x, v, &frames)
    }

    /// The master that `relaxed_ik` makes never asks.
    fn call_lite(&self, x: &[f64], v: &RelaxedIKVars, ee_poses: &Vec<Pose>) -> f64 {
        let mut ee_poses = ee_poses.clone();
        ee_poses[self.chain] = self.tool.tip(ee_poses[self.chain]);
        self.objective.call_lite(x, v, &ee_poses)
    }

    fn gradient_type(&self) -> usize {
        self.objective.gradient_type()
    }
}

/// The picked master whose goal objectives see these tools. Its weights stay.
pub fn with_tools(pick: Pick, mut master: ObjectiveMaster, tools: &Tools) -> ObjectiveMaster {
    let goal_objectives = pick.goal_objectives() * master.num_chains;
    let at_tip = |(at, objective)| {
        let chain = at / pick.goal_objectives();
        match tools.get(chain) {
            Some(Some(tool)) if at < goal_objectives => Box::new(AtTip {
                objective,
                chain,
                tool: *tool,
            }),
            _ => objective,
        }
    };
    let objectives = master.objectives.into_iter().enumerate();
    master.objectives = objectives.map(at_tip).collect();
    master
}
