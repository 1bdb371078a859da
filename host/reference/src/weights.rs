//! Ours, no part of the published files: the customer's weights of document 02,
//! change 2, set in the published master's list of priors. Nothing is refused
//! here; `refusals` is to be asked first.

use crate::groove::objective_master::ObjectiveMaster;
use crate::strict::Pick;

/// Position, rotation, limits, velocity, acceleration, jerk, manipulability,
/// pairs.
pub const WEIGHTS: usize = 8;

/// The published weights in that order, read off the published list: three
/// joints are the fewest that make an objective of every kind, and no two kinds
/// weigh the same.
pub fn built_in() -> [f64; WEIGHTS] {
    let mut priors = ObjectiveMaster::relaxed_ik(&[3]).weight_priors;
    priors.dedup();
    priors.try_into().expect("a weight for each kind")
}

/// A published master whose weights can be set over and over.
pub struct Weighted {
    pub master: ObjectiveMaster,
    published: Vec<f64>,
    /// Of each objective.
    kinds: Vec<usize>,
}

impl Weighted {
    /// With the weights as published. Those of either list tell the kinds.
    pub fn new(pick: Pick, chain_lengths: &[usize]) -> Self {
        let master = pick.master(chain_lengths);
        let (published, table) = (master.weight_priors.clone(), built_in());
        let kind = |prior: &f64| table.iter().position(|weight| weight == prior);
        let kinds = published.iter().map(kind);
        Self {
            kinds: kinds.map(|kind| kind.expect("a listed weight")).collect(),
            master,
            published,
        }
    }

    /// Each objective gets the weight of its kind; an empty list is none loaded,
    /// and the published weights serve.
    pub fn set(&mut self, weights: &[f64]) {
        let priors = &mut self.master.weight_priors;
        priors.clone_from(&self.published);
        if !weights.is_empty() {
            let own = self.kinds.iter().map(|&kind| weights[kind]);
            priors.splice(.., own);
        }
    }
}

/// The published master with these weights, or with its own for an empty list.
pub fn master(pick: Pick, chain_lengths: &[usize], weights: &[f64]) -> ObjectiveMaster {
    let mut weighted = Weighted::new(pick, chain_lengths);
    weighted.set(weights);
    weighted.master
}
