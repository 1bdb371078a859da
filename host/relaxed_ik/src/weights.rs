//! The weights by which the objectives are summed.

use crate::bytes::{self, of_floats};
use crate::refusal::taken;
use crate::Refusal;

/// What each weight is of, in the order of the list.
pub const WEIGHTS: [&str; 8] = [
    "position",
    "rotation",
    "limits",
    "velocity",
    "acceleration",
    "jerk",
    "manipulability",
    "pairs",
];

/// Looks at a list before it is put to use: eight weights within 0..1000. No list
/// at all, by which the other calls take the built-in ones, is refused here.
pub fn set_weights(weights: &[f64]) -> Result<(), Refusal> {
    taken(bytes::set_weights(of_floats(weights)))
}
