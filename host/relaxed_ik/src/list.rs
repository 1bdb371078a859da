//! Which objectives are summed.

/// What a chain's goal makes; the other objectives are the same in both lists.
#[derive(Clone, Copy, Debug, Default, PartialEq, Eq)]
pub enum ObjectiveList {
    /// Six objectives, one for each tolerance of the goal.
    #[default]
    Tolerance,
    /// Two, of the end's distance from the goal's position and of the angle between
    /// their rotations. Tolerances count for nothing; goals are refused as ever.
    Strict,
}

impl ObjectiveList {
    /// As the library is told it, where any number but 0 is the strict list.
    pub(crate) fn number(self) -> u32 {
        match self {
            Self::Tolerance => 0,
            Self::Strict => 1,
        }
    }
}
