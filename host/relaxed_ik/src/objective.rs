//! The objective and its slopes.

use crate::bytes::{self, of_floats, of_floats_mut, of_u16s_mut};
use crate::refusal::taken;
use crate::{ObjectiveList, Pose, Refusal, Sheet, Tools};

/// In a record, the joint of the first walk.
pub const NONE_RAISED: u16 = 65535;

/// The sheet, 13 floats of goal a chain, a history of four blocks, weights, tools,
/// and the list of objectives.
#[derive(Clone, Copy, Debug)]
pub struct Given<'a> {
    pub sheet: Sheet<'a>,
    pub goals: &'a [f64],
    pub history: &'a [f64],
    /// In the order of [`WEIGHTS`](crate::WEIGHTS); empty for the built-in ones.
    pub weights: &'a [f64],
    pub tools: Tools<'a>,
    pub list: ObjectiveList,
}

/// The objective's value and its slope for each joint.
#[derive(Clone, Debug, PartialEq)]
pub struct Slopes {
    pub value: f64,
    pub slopes: Vec<f64>,
}

/// One link that the one-block call walked.
#[derive(Clone, Copy, Debug, PartialEq)]
pub struct Walk {
    /// The joint that was raised, none in the first walk.
    pub raised: Option<u16>,
    pub link: u16,
    /// The pose after that link.
    pub pose: Pose,
}

/// What the one-block call walked, in order.
pub type Record = Vec<Walk>;

/// The same as three lists at hand: a u16 each for joint (65535 in the first
/// walk) and link, and seven floats, for each entry.
#[derive(Debug)]
pub struct RecordLists<'a> {
    pub joints: &'a mut [u16],
    pub links: &'a mut [u16],
    pub poses: &'a mut [f64],
}

/// A byte call on two blocks: joints, then scratch, value and slopes.
type TwoBlocks = fn(bytes::Given, &[u8], &mut [u8], &mut [u8], &mut [u8]) -> u32;

impl Given<'_> {
    fn lent(&self) -> bytes::Given<'_> {
        bytes::Given {
            sheet: self.sheet.lent(),
            goals: of_floats(self.goals),
            history: of_floats(self.history),
            weights: of_floats(self.weights),
            tools: self.tools.map(of_floats),
            strict: self.list.number(),
        }
    }

    pub fn objective(&self, joints: &[f64]) -> Result<f64, Refusal> {
        let mut value = [0.0];
        taken(bytes::objective(
            self.lent(),
            of_floats(joints),
            of_floats_mut(&mut value),
        ))?;
        Ok(value[0])
    }

    /// Slopes by steps of 1e-7, on two blocks.
    pub fn gradient(&self, joints: &[f64]) -> Result<Slopes, Refusal> {
        self.two_blocks(bytes::gradient, joints)
    }

    /// Slopes by steps of 1e-6 of the whole objective.
    pub fn gradient_finite_diff(&self, joints: &[f64]) -> Result<Slopes, Refusal> {
        self.two_blocks(bytes::gradient_finite_diff, joints)
    }

    fn two_blocks(&self, call: TwoBlocks, joints: &[f64]) -> Result<Slopes, Refusal> {
        let mut scratch = vec![0.0; self.sheet.joints()];
        let mut slopes = scratch.clone();
        let mut value = [0.0];
        taken(call(
            self.lent(),
            of_floats(joints),
            of_floats_mut(&mut scratch),
            of_floats_mut(&mut value),
            of_floats_mut(&mut slopes),
        ))?;
        let value = value[0];
        Ok(Slopes { value, slopes })
    }

    /// What `gradient` answers, on one block, and the links it walked.
    pub fn gradient_one_block(&self, joints: &[f64]) -> Result<(Slopes, Record), Refusal> {
        let room = self.sheet.room();
        let (mut raised, mut links) = (vec![0; room.entries], vec![0; room.entries]);
        let mut poses = vec![0.0; room.pose_floats()];
        let mut slopes = vec![0.0; self.sheet.joints()];
        let mut value = 0.0;
        let lists = RecordLists {
            joints: &mut raised,
            links: &mut links,
            poses: &mut poses,
        };
        self.gradient_one_block_into(joints, &mut value, &mut slopes, lists)?;
        let entries = raised.iter().zip(&links).zip(Pose::all(&poses));
        let walk = |((&raised, &link), pose)| Walk {
            raised: (raised != NONE_RAISED).then_some(raised),
            link,
            pose,
        };
        let record = entries.map(walk).collect();
        Ok((Slopes { value, slopes }, record))
    }

    /// The same, into lists at hand.
    pub fn gradient_one_block_into(
        &self,
        joints: &[f64],
        value: &mut f64,
        slopes: &mut [f64],
        record: RecordLists,
    ) -> Result<(), Refusal> {
        let record = bytes::Record {
            joints: of_u16s_mut(record.joints),
            links: of_u16s_mut(record.links),
            poses: of_floats_mut(record.poses),
        };
        taken(bytes::gradient_one_block(
            self.lent(),
            of_floats(joints),
            of_floats_mut(std::slice::from_mut(value)),
            of_floats_mut(slopes),
            record,
        ))
    }
}
