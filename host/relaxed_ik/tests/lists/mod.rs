//! Sheets written by hand, and lists that are lent with them.

// Each file of tests takes what it needs of these.
#![allow(dead_code)]

#[cfg(feature = "objective")]
use relaxed_ik::{Given, Record, Slopes};
use relaxed_ik::{Refusal, Sheet};
use std::borrow::Borrow;

pub const UP: [f64; 7] = [0.0, 0.0, 1.0, 1.0, 0.0, 0.0, 0.0];
/// A goal within reach, with a tolerance of each kind.
pub const GOAL: [f64; 13] = [
    0.3, -0.2, 1.5, 1.0, 0.0, 0.0, 0.0, 0.0, 0.1, 0.0, 0.0, 0.5, 3.2,
];
/// The weights that serve where none are lent.
pub const BUILT_IN: [f64; 8] = [50.0, 10.0, 0.1, 0.7, 0.5, 0.3, 1.0, 0.01];

/// A sheet that can be spoiled.
#[derive(Clone)]
pub struct Lists {
    pub sizes: Vec<u16>,
    pub codes: Vec<u16>,
    pub floats: Vec<f64>,
    pub limits: Vec<f64>,
}

/// Chains of links up 1, with wide limits, given by their codes.
pub fn chains<C: Borrow<[u16]>>(chains: &[C]) -> Lists {
    let codes = chains.concat();
    let joints = codes.iter().filter(|&&code| code != 0).count();
    let mut sizes = vec![chains.len() as u16];
    sizes.extend(chains.iter().map(|chain| chain.borrow().len() as u16));
    Lists {
        sizes,
        floats: UP.repeat(codes.len()),
        limits: [-3.0, 3.0].repeat(joints),
        codes,
    }
}

impl Lists {
    pub fn sheet(&self) -> Sheet<'_> {
        Sheet {
            sizes: &self.sizes,
            codes: &self.codes,
            floats: &self.floats,
            limits: &self.limits,
        }
    }

    /// One fault each, and the refusal that loading and sizing answer.
    pub fn faults(&self) -> Vec<(Refusal, Self)> {
        vec![
            (Refusal::Sizes, self.spoiled(|l| l.sizes.clear())),
            (Refusal::Sizes, self.spoiled(|l| l.sizes[1] = 17)),
            (Refusal::Lengths, self.spoiled(|l| l.codes.truncate(4))),
            (Refusal::Lengths, self.spoiled(|l| l.floats.truncate(34))),
            (Refusal::Code, self.spoiled(|l| l.codes[0] = 37)),
            (Refusal::Count, self.spoiled(|l| l.codes[0] = 0)),
            (Refusal::Link, self.spoiled(|l| l.floats[2] = 10.5)),
            (Refusal::Link, self.spoiled(|l| l.floats[3] = 0.9)),
            (Refusal::Link, self.spoiled(|l| l.floats[3] = f64::NAN)),
        ]
    }

    pub fn spoiled(&self, spoil: impl FnOnce(&mut Self)) -> Self {
        let mut lists = self.clone();
        spoil(&mut lists);
        lists
    }
}

#[cfg(feature = "objective")]
pub type Answers = [Result<Slopes, Refusal>; 4];

/// What the objective, without slopes, and the three gradients answer, and the record.
#[cfg(feature = "objective")]
pub fn answers(given: &Given, joints: &[f64]) -> (Answers, Record) {
    let alone = |value| Slopes {
        value,
        slopes: Vec::new(),
    };
    let (one_block, record) = match given.gradient_one_block(joints) {
        Ok((found, record)) => (Ok(found), record),
        Err(refusal) => (Err(refusal), Record::new()),
    };
    let answers = [
        given.objective(joints).map(alone),
        given.gradient(joints),
        given.gradient_finite_diff(joints),
        one_block,
    ];
    (answers, record)
}
