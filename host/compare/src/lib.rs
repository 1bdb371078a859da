//! What `compare` runs: inputs drawn, the proved library and the reference
//! asked, the answers held together. `fuzz` shares the calls, their lists and
//! the reference's answers.

#![forbid(unsafe_code)]

pub mod arms;
pub mod calls;
mod found;
pub mod geometry;
pub mod judge;
#[cfg(feature = "objective")]
pub mod losses;
pub mod matrices;
pub mod numbers;
pub mod options;
mod progress;
pub mod report;
pub mod rotations;
pub mod run;
pub mod session;
mod shares;
pub mod sheets;
#[cfg(feature = "objective")]
pub mod slopes;
pub mod source;
mod state;
mod strict;
mod tally;
pub mod target;
mod tools;
mod trial;
pub mod weights;

pub use draw;
use target::Target;

/// Everything that is compared, by name. A further call is a further one.
pub fn targets() -> Vec<Target> {
    let mut all = numbers::targets();
    all.extend(geometry::targets());
    all.extend(rotations::targets());
    all.extend(matrices::targets());
    all.extend(arms::targets());
    #[cfg(feature = "objective")]
    {
        all.extend(losses::targets());
        all.extend(slopes::targets());
    }
    all
}
