//! The tools on the flanges of the chains' last links.

use crate::bytes::{self, of_floats};
use crate::refusal::taken;
use crate::{Refusal, Sheet};

/// The most chains that a sheet has.
pub const MOST_CHAINS: usize = 4;
/// Floats of a tool: displacement, then offset w, i, j, k.
pub const TOOL_FLOATS: usize = 7;

/// A list for each chain by its number: a tool, or empty for none. The end pose of
/// a chain with a tool is its last link's followed by the tool, as if by a fixed
/// link. One for a chain that is not loaded is refused, whatever it holds.
pub type Tools<'a> = [&'a [f64]; MOST_CHAINS];

pub const NO_TOOLS: Tools<'static> = [&[]; MOST_CHAINS];

impl Sheet<'_> {
    /// Looks at a tool of the chain with this number, from 0, before it is put to
    /// use. An empty list, by which the other calls take none, is refused here.
    pub fn set_tool(&self, chain: u32, tool: &[f64]) -> Result<(), Refusal> {
        taken(bytes::set_tool(self.lent(), of_floats(tool), chain))
    }
}
