//! Ours, no part of the published files: the one-block call's record, read
//! plainly from document 01's paragraph 'Separate copies'. Each copy is made
//! in full and walked afresh by the published function; nothing is raised and
//! put back, and nothing is kept from one walk to the next.

use crate::sheet::end;
use crate::spacetime::robot::Robot;

/// The joint number of the first walk, in which none is raised.
pub const NONE_RAISED: u16 = 65535;

/// Three parallel lists: the copy, the link, and seven floats of the pose
/// after that link in that copy's walk.
#[derive(Clone, Debug, Default, PartialEq)]
pub struct Record {
    pub joints: Vec<u16>,
    pub links: Vec<u16>,
    pub poses: Vec<f64>,
}

/// The block with a joint raised by the step.
fn copy(x: &[f64], joint: usize) -> Vec<f64> {
    let mut copy = x.to_vec();
    copy[joint] += 0.0000001;
    copy
}

/// The poses after every link of all chains, link after link.
fn walk(robot: &Robot, x: &[f64]) -> Vec<[f64; 7]> {
    let mut poses = Vec::new();
    for (positions, rotations) in robot.get_frames_immutable(x) {
        // A chain's first position and rotation are its base; the rotation at
        // the end is there twice.
        let after = positions.iter().zip(&rotations).skip(1);
        poses.extend(after.map(|(p, q)| end(p, q)));
    }
    poses
}

/// For each joint its link, and one past the last link of its chain, both
/// numbered across chains.
fn places(robot: &Robot) -> Vec<(usize, usize)> {
    let (mut places, mut start) = (Vec::new(), 0);
    for arm in &robot.arms {
        let chain_end = start + arm.joint_types.len();
        for (at, kind) in arm.joint_types.iter().enumerate() {
            if kind != "fixed" {
                places.push((start + at, chain_end));
            }
        }
        start = chain_end;
    }
    places
}

/// The record of the one-block call at these joints.
pub fn record(robot: &Robot, x: &[f64]) -> Record {
    let mut record = Record::default();
    let mut add = |joint: u16, link: usize, pose: &[f64; 7]| {
        record.joints.push(joint);
        record.links.push(link as u16);
        record.poses.extend(pose);
    };
    for (link, pose) in walk(robot, x).iter().enumerate() {
        add(NONE_RAISED, link, pose);
    }
    for (joint, (own, chain_end)) in places(robot).into_iter().enumerate() {
        let poses = walk(robot, &copy(x, joint));
        for (link, pose) in poses.iter().enumerate().take(chain_end).skip(own) {
            add(joint as u16, link, pose);
        }
    }
    record
}
