//! Ours, no part of the published files: how long the lists of a sheet are,
//! counted off what the published functions make of it, and off the record of
//! its separate copies. No length is worked out here.

use crate::record::record;
use crate::sheet;
use crate::strict::Pick;

/// The numbers of a plan: floats of the positions, floats of the rotations,
/// objectives, entries of the one-block call's record.
pub const PLAN: usize = 4;

/// The limits of a joint that has none; no length depends on them.
const FREE: [f64; 2] = [-999.0, 999.0];

/// The plan of a sheet that is not refused, with the objectives of the list picked.
pub fn plan(pick: Pick, sizes: &[u16], codes: &[u16], floats: &[f64]) -> [u16; PLAN] {
    let joints = codes.iter().filter(|&&code| code != 0).count();
    let robot = sheet::robot(sizes, codes, floats, &FREE.repeat(joints));
    let still = vec![0.0; robot.num_dofs];
    let (positions, rotations) = sheet::frames(&robot, &still);
    let master = pick.master(&robot.chain_lengths);
    let entries = record(&robot, &still).links;
    [
        positions.len(),
        rotations.len(),
        master.objectives.len(),
        entries.len(),
    ]
    .map(|length| u16::try_from(length).expect("a sheet is small"))
}
