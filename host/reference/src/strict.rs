//! Ours, no part of the published files: the strict list of document 02, change 4.
//! The published master is given the published objectives of a goal without
//! tolerance, two for each chain, in the place of the six that have one; they, and
//! all others, are called as published.

use crate::groove::objective::{MatchEEPosGoals, MatchEEQuatGoals, ObjectiveTrait};
use crate::groove::objective_master::ObjectiveMaster;

/// Which list of objectives a call works with.
#[derive(Clone, Copy, Debug, PartialEq, Eq)]
pub enum Pick {
    Tolerance,
    Strict,
}

type Weighed = (Box<dyn ObjectiveTrait + Send>, f64);

/// A chain's two, with the weights that the paper gives them.
fn of_chain(chain: usize) -> [Weighed; 2] {
    [
        (Box::new(MatchEEPosGoals::new(chain)), 50.0),
        (Box::new(MatchEEQuatGoals::new(chain)), 10.0),
    ]
}

impl Pick {
    pub const BOTH: [Self; 2] = [Self::Tolerance, Self::Strict];

    /// As a byte call is given it.
    pub fn of(number: u32) -> Self {
        match number {
            0 => Self::Tolerance,
            _ => Self::Strict,
        }
    }

    /// The list begins with these for each chain, chain after chain.
    pub fn goal_objectives(self) -> usize {
        match self {
            Self::Tolerance => 6,
            Self::Strict => of_chain(0).len(),
        }
    }

    /// The published master, for the strict list with other objectives in front.
    pub fn master(self, chain_lengths: &[usize]) -> ObjectiveMaster {
        let mut master = ObjectiveMaster::relaxed_ik(chain_lengths);
        if self == Self::Strict {
            let front = ..Self::Tolerance.goal_objectives() * master.num_chains;
            let own = (0..master.num_chains).flat_map(of_chain);
            let (objectives, priors): (Vec<_>, Vec<_>) = own.unzip();
            master.objectives.splice(front, objectives);
            master.weight_priors.splice(front, priors);
        }
        master
    }
}
