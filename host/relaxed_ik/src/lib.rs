//! The proved library for Rust programs: slices of numbers in, structs and
//! [`Refusal`]s out. All unsafe code is in [`bytes`].
//!
//! The calls keep no state. A [`Sheet`] is lent to each of them, with goals,
//! history, weights, tools and the pick of an [`ObjectiveList`] where they are
//! used; they answer from these alone. So nothing has to be loaded before: each
//! call looks at everything it is lent, and [`Sheet::load`], [`Sheet::set_goals`],
//! [`Sheet::set_tool`] and [`set_weights`] do only that. How long the frame lists
//! and the record are, [`Plan`] says.
//!
//! Lists that are written are lent as `&mut`, so they cannot share a byte with
//! another list of the call:
//!
//! ```compile_fail,E0499
//! # use relaxed_ik::Sheet;
//! # fn both(sheet: Sheet, joints: &[f64]) {
//! let mut list = [0.0; 64];
//! let _ = sheet.frames_into(joints, &mut list, &mut list);
//! # }
//! ```
//!
//! ```compile_fail,E0502
//! # use relaxed_ik::{Sheet, NO_TOOLS};
//! # fn over(sheet: Sheet) {
//! let mut joints = [0.0; 16];
//! let _ = sheet.poses_into(NO_TOOLS, &joints, &mut joints);
//! # }
//! ```
//!
//! Two links up 1, at rest, without a tool and with one that reaches 0.5 up:
//!
//! ```
//! use relaxed_ik::{Refusal, Sheet, NO_TOOLS};
//!
//! let up = [0.0, 0.0, 1.0, 1.0, 0.0, 0.0, 0.0];
//! let sheet = Sheet {
//!     sizes: &[1, 2],
//!     codes: &[13, 12],
//!     floats: &[up, up].concat(),
//!     limits: &[-3.0, 3.0, -3.0, 3.0],
//! };
//! let ends = sheet.poses(NO_TOOLS, &[0.0, 0.0])?;
//! assert_eq!(ends[0].position, [0.0, 0.0, 2.0]);
//! let tool = [0.0, 0.0, 0.5, 1.0, 0.0, 0.0, 0.0];
//! sheet.set_tool(0, &tool)?;
//! let ends = sheet.poses([&tool, &[], &[], &[]], &[0.0, 0.0])?;
//! assert_eq!(ends[0].position, [0.0, 0.0, 2.5]);
//! assert_eq!(sheet.set_tool(1, &tool), Err(Refusal::Tool));
//! assert_eq!(sheet.poses(NO_TOOLS, &[0.0, 65.0]), Err(Refusal::Joints));
//! # Ok::<(), Refusal>(())
//! ```

#![deny(unsafe_code)]

#[allow(unsafe_code)]
pub mod bytes;
pub mod leaves;
mod list;
#[cfg(feature = "objective")]
mod objective;
mod plan;
mod refusal;
mod tools;
mod weights;

pub use list::ObjectiveList;
#[cfg(feature = "objective")]
pub use objective::{Given, Record, RecordLists, Slopes, Walk, NONE_RAISED};
pub use plan::Plan;
pub use refusal::Refusal;
pub use tools::{Tools, MOST_CHAINS, NO_TOOLS, TOOL_FLOATS};
pub use weights::{set_weights, WEIGHTS};

use bytes::{of_floats, of_floats_mut, of_u16s};
use refusal::taken;

/// The static library that the program is linked with: its name, length and sum.
pub const LIBRARY: &str = env!("RELAXED_IK_LIBRARY");

/// Floats a link: displacement, then offset w, i, j, k.
pub const LINK_FLOATS: usize = 7;
/// Floats a chain's goal: position, rotation w first, six tolerances.
pub const GOAL_FLOATS: usize = 13;
/// Floats of a pose: position, rotation w first.
pub const POSE_FLOATS: usize = 7;
/// Blocks of a history: the current joints, then the three before them.
pub const HISTORY_BLOCKS: usize = 4;
/// How far the value of a revolute or continuous joint goes, either way: a slew ring
/// may count on through several turns.
pub const MOST_TURN: f64 = 64.0;
/// How far that of a prismatic or telescoping joint goes, either way.
pub const MOST_SLIDE: f64 = 8.0;

/// A position and a rotation, w first.
#[derive(Clone, Copy, Debug, PartialEq)]
pub struct Pose {
    pub position: [f64; 3],
    pub rotation: [f64; 4],
}

impl Pose {
    /// The vector, rotated as the pose is, by the library's own rotation.
    pub fn rotate(&self, v: [f64; 3]) -> [f64; 3] {
        leaves::rotate(self.rotation, v)
    }

    /// Seven floats for each pose.
    fn all(floats: &[f64]) -> Vec<Self> {
        let pose = |f: &[f64]| Self {
            position: [f[0], f[1], f[2]],
            rotation: [f[3], f[4], f[5], f[6]],
        };
        floats.chunks_exact(POSE_FLOATS).map(pose).collect()
    }
}

/// A chain of L links at its joints: L + 1 positions and L + 2 rotations, the
/// base first, the last rotation twice.
#[derive(Clone, Debug, PartialEq)]
pub struct Frames {
    pub positions: Vec<[f64; 3]>,
    pub rotations: Vec<[f64; 4]>,
}

/// What a reset answers: a history, four blocks of joints in one list, and the
/// end poses.
#[derive(Clone, Debug, PartialEq)]
pub struct Start {
    pub history: Vec<f64>,
    pub ends: Vec<Pose>,
}

/// The arms as every call is lent them.
#[derive(Clone, Copy, Debug)]
pub struct Sheet<'a> {
    /// The number of chains, then the links of each.
    pub sizes: &'a [u16],
    /// One a link: 0 fixed; 10, 20, 30, 40 plus axis for revolute, continuous,
    /// prismatic, telescoping; axis 0 none, 1 to 3 x, y, z, 4 to 6 their negatives.
    /// A prismatic joint slides along the base's axis, a telescoping one along its
    /// own, as the arm has turned it.
    pub codes: &'a [u16],
    /// Seven a link: displacement, offset w first.
    pub floats: &'a [f64],
    /// Two a joint: lower, upper; -999 and 999 for a joint that is free.
    pub limits: &'a [f64],
}

impl Sheet<'_> {
    fn lent(&self) -> bytes::Sheet<'_> {
        bytes::Sheet {
            sizes: of_u16s(self.sizes),
            codes: of_u16s(self.codes),
            floats: of_floats(self.floats),
            limits: of_floats(self.limits),
        }
    }

    // The counts are those of a sheet that is taken. Of another they are some
    // number no larger than its lists, and every call refuses it.

    pub fn chains(&self) -> usize {
        self.sizes.len().saturating_sub(1)
    }

    pub fn links(&self) -> usize {
        self.codes.len()
    }

    /// Links that are not fixed.
    pub fn joints(&self) -> usize {
        self.codes.iter().filter(|&&code| code != 0).count()
    }

    /// Looks at the sheet.
    pub fn load(&self) -> Result<(), Refusal> {
        taken(bytes::load(self.lent()))
    }

    /// Looks at goals, 13 floats a chain.
    pub fn set_goals(&self, goals: &[f64]) -> Result<(), Refusal> {
        taken(bytes::set_goals(self.lent(), of_floats(goals)))
    }

    /// Where every link stands, chain after chain.
    pub fn frames(&self, joints: &[f64]) -> Result<Vec<Frames>, Refusal> {
        let room = self.room();
        let mut positions = vec![0.0; room.positions];
        let mut rotations = vec![0.0; room.rotations];
        self.frames_into(joints, &mut positions, &mut rotations)?;
        let (mut points, mut turns) = (&positions[..], &rotations[..]);
        let mut chain = |&links: &u16| {
            let links = usize::from(links);
            let (own, rest) = points.split_at(3 * (links + 1));
            points = rest;
            let positions = own.chunks_exact(3).map(|p| [p[0], p[1], p[2]]);
            let (own, rest) = turns.split_at(4 * (links + 2));
            turns = rest;
            let rotations = own.chunks_exact(4).map(|q| [q[0], q[1], q[2], q[3]]);
            Frames {
                positions: positions.collect(),
                rotations: rotations.collect(),
            }
        };
        Ok(self.sizes[1..].iter().map(&mut chain).collect())
    }

    /// Positions by three and rotations by four, into lists at hand.
    pub fn frames_into(
        &self,
        joints: &[f64],
        positions: &mut [f64],
        rotations: &mut [f64],
    ) -> Result<(), Refusal> {
        taken(bytes::frames(
            self.lent(),
            of_floats(joints),
            of_floats_mut(positions),
            of_floats_mut(rotations),
        ))
    }

    /// The end pose of each chain: its tool's, where it has one.
    pub fn poses(&self, tools: Tools, joints: &[f64]) -> Result<Vec<Pose>, Refusal> {
        let mut ends = vec![0.0; POSE_FLOATS * self.chains()];
        self.poses_into(tools, joints, &mut ends)?;
        Ok(Pose::all(&ends))
    }

    /// Seven floats a chain, into a list at hand.
    pub fn poses_into(
        &self,
        tools: Tools,
        joints: &[f64],
        ends: &mut [f64],
    ) -> Result<(), Refusal> {
        taken(bytes::pose(
            self.lent(),
            tools.map(of_floats),
            of_floats(joints),
            of_floats_mut(ends),
        ))
    }

    /// Summed over the chains; one under six joints gives 0.
    pub fn manipulability(&self, joints: &[f64]) -> Result<f64, Refusal> {
        let mut value = [0.0];
        taken(bytes::manipulability(
            self.lent(),
            of_floats(joints),
            of_floats_mut(&mut value),
        ))?;
        Ok(value[0])
    }

    /// A new start: the history is the joints four times.
    pub fn reset(&self, tools: Tools, joints: &[f64]) -> Result<Start, Refusal> {
        let mut history = vec![0.0; HISTORY_BLOCKS * self.joints()];
        let mut ends = vec![0.0; POSE_FLOATS * self.chains()];
        taken(bytes::reset(
            self.lent(),
            tools.map(of_floats),
            of_floats(joints),
            of_floats_mut(&mut history),
            of_floats_mut(&mut ends),
        ))?;
        let ends = Pose::all(&ends);
        Ok(Start { history, ends })
    }

    /// The history with these joints in front and its last block gone.
    pub fn update(&self, history: &[f64], joints: &[f64]) -> Result<Vec<f64>, Refusal> {
        let mut new_history = vec![0.0; HISTORY_BLOCKS * self.joints()];
        self.update_into(history, joints, &mut new_history)?;
        Ok(new_history)
    }

    /// The same, into a list at hand.
    pub fn update_into(
        &self,
        history: &[f64],
        joints: &[f64],
        new_history: &mut [f64],
    ) -> Result<(), Refusal> {
        taken(bytes::update(
            self.lent(),
            of_floats(history),
            of_floats(joints),
            of_floats_mut(new_history),
        ))
    }
}
