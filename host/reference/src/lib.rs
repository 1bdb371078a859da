//! The published files of relaxed_ik_core (commit 1c48d2ae40, MIT, see
//! LICENSE), run on document 01's stand-ins. README.md lists every place where
//! a file differs from the published one. Ours are `sheet`, which makes the
//! published structures from plain numbers, `telescoping`, which walks the links that
//! the published arm does not know, `strict`, which picks the list of objectives,
//! `weights`, which sets other weights in it, `tools`, which puts tools behind the
//! last frames, `refusals`, which says which numbers the papers refuse, `record`,
//! which walks document 01's separate copies, `sizing`, which counts what all of
//! these make of a sheet, and `losses`, which asks the objectives for single losses.

#![forbid(unsafe_code)]
// The published files are left as they are written.
#![allow(dead_code, non_snake_case, unused, clippy::all)]

// Formatting leaves them alone too.
#[rustfmt::skip]
pub mod groove {
    pub mod objective;
    pub mod objective_master;
    pub mod vars;
}

#[rustfmt::skip]
pub mod spacetime {
    // Under another name: the published `robot.rs` asks for `spacetime::arm`, which is
    // ours and hands on to this one every chain that it knows.
    #[path = "arm.rs"]
    pub mod published_arm;
    pub use crate::telescoping as arm;
    pub mod robot;
}

#[rustfmt::skip]
pub mod utils_rust {
    pub mod transformations;
}

#[warn(dead_code, non_snake_case, unused, clippy::all)]
pub mod losses;
#[warn(dead_code, non_snake_case, unused, clippy::all)]
pub mod record;
#[warn(dead_code, non_snake_case, unused, clippy::all)]
pub mod refusals;
#[warn(dead_code, non_snake_case, unused, clippy::all)]
pub mod sheet;
#[warn(dead_code, non_snake_case, unused, clippy::all)]
pub mod sizing;
#[warn(dead_code, non_snake_case, unused, clippy::all)]
pub mod strict;
#[warn(dead_code, non_snake_case, unused, clippy::all)]
pub mod telescoping;
#[warn(dead_code, non_snake_case, unused, clippy::all)]
pub mod tools;
#[warn(dead_code, non_snake_case, unused, clippy::all)]
pub mod weights;
