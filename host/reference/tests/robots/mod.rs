//! Two chains, of six joints and of three, near a goal each.

use reference::sheet;
use reference::spacetime::robot::Robot;

pub const JOINTS: [f64; 9] = [0.1, -0.2, 0.3, 0.4, -0.5, 0.6, 0.7, 0.8, 0.9];

pub fn robot() -> Robot {
    let codes = [13, 12, 11, 13, 12, 11, 13, 32, 21];
    let link = [0.1, 0.0, 0.3, 0.8, 0.0, 0.6, 0.0];
    let limits = [-3.0, 3.0].repeat(codes.len());
    sheet::robot(&[2, 6, 3], &codes, &link.repeat(codes.len()), &limits)
}

pub fn goals() -> Vec<f64> {
    let ends = sheet::ends(&robot(), &JOINTS.map(|v| v + 0.01));
    let goals = ends.chunks_exact(7);
    let goals = goals.flat_map(|end| [end, &[0.0, 0.1, 0.0, 0.0, 0.5, 3.2]].concat());
    goals.collect()
}
