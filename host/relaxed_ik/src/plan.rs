//! How long the frame lists and the record have to be, known before any walk.

use crate::bytes::{self, of_floats, of_u16s, of_u16s_mut};
use crate::refusal::taken;
use crate::{ObjectiveList, Refusal, Sheet, POSE_FLOATS};

/// The lengths of the frame lists and of the one-block gradient's record, and how
/// many objectives there are. A list of the planned length is never refused as
/// too short; with one element fewer it always is, where no lower number holds.
#[derive(Clone, Copy, Debug, Default, PartialEq, Eq)]
pub struct Plan {
    /// Floats of the positions of [`Sheet::frames_into`].
    pub positions: usize,
    /// Floats of its rotations.
    pub rotations: usize,
    /// Objectives of the list that is picked.
    pub objectives: usize,
    /// Entries of the one-block gradient's record: u16s of its joints, and of
    /// its links.
    pub entries: usize,
}

impl Plan {
    /// From a sheet's sizes, codes and floats. Limits are not asked for.
    pub fn of(
        sizes: &[u16],
        codes: &[u16],
        floats: &[f64],
        list: ObjectiveList,
    ) -> Result<Self, Refusal> {
        let mut numbers = [0; 4];
        taken(bytes::sizing(
            of_u16s(sizes),
            of_u16s(codes),
            of_floats(floats),
            of_u16s_mut(&mut numbers),
            list.number(),
        ))?;
        let [positions, rotations, objectives, entries] = numbers.map(usize::from);
        Ok(Self {
            positions,
            rotations,
            objectives,
            entries,
        })
    }

    /// Floats of the record's poses.
    pub fn pose_floats(&self) -> usize {
        POSE_FLOATS * self.entries
    }
}

impl Sheet<'_> {
    /// How long the lists have to be, and how many objectives this list has. The
    /// limits are not looked at.
    pub fn plan(&self, list: ObjectiveList) -> Result<Plan, Refusal> {
        Plan::of(self.sizes, self.codes, self.floats, list)
    }

    /// The same for lists about to be lent: none for a sheet that is refused, as
    /// the call then answers the number, which may be a lower one.
    pub(crate) fn room(&self) -> Plan {
        // The lengths are the same for either list of objectives.
        self.plan(ObjectiveList::Tolerance).unwrap_or_default()
    }
}
