//! Lists that nothing is wrong with, to be spoilt in a place or two.

use reference::refusals::{List, Sheet};

pub const UP: [f64; 7] = [0.0, 0.0, 1.0, 1.0, 0.0, 0.0, 0.0];

pub struct Lists {
    pub sizes: Vec<u16>,
    pub codes: Vec<u16>,
    pub floats: Vec<f64>,
    pub limits: Vec<f64>,
    pub joints: Vec<f64>,
}

/// Chains given by their codes.
pub fn chains(codes: &[&[u16]]) -> Lists {
    let mut sizes = vec![codes.len() as u16];
    sizes.extend(codes.iter().map(|chain| chain.len() as u16));
    let codes = codes.concat();
    let joints = codes.iter().filter(|&&code| code != 0).count();
    Lists {
        sizes,
        floats: UP.repeat(codes.len()),
        limits: [-3.0, 3.0].repeat(joints),
        joints: vec![0.5; joints],
        codes,
    }
}

impl Lists {
    pub fn sheet(&self) -> Sheet<'_> {
        Sheet {
            sizes: List::of(&self.sizes),
            codes: List::of(&self.codes),
            floats: List::of(&self.floats),
            limits: List::of(&self.limits),
        }
    }
}
