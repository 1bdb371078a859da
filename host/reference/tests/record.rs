//! The one-block call's record as document 01 lays it down.

use reference::groove::objective_master::ObjectiveMaster;
use reference::record::{record, Record, NONE_RAISED};
use reference::sheet;
use reference::spacetime::robot::Robot;

const UP: [f64; 7] = [0.0, 0.0, 1.0, 1.0, 0.0, 0.0, 0.0];
const BENT: [f64; 7] = [0.1, 0.0, 0.3, 0.8, 0.0, 0.6, 0.0];

/// Chains given by their codes, links bent in turn, with wide limits.
fn robot(chains: &[&[u16]]) -> Robot {
    let mut sizes = vec![chains.len() as u16];
    sizes.extend(chains.iter().map(|chain| chain.len() as u16));
    let codes = chains.concat();
    let links = codes.iter().enumerate();
    let floats: Vec<[f64; 7]> = links.map(|(at, _)| [UP, BENT][at % 2]).collect();
    let joints = codes.iter().filter(|&&code| code != 0).count();
    let limits = [-3.0, 3.0].repeat(joints);
    sheet::robot(&sizes, &codes, &floats.concat(), &limits)
}

/// Copies and links, without the poses.
fn walked(record: &Record) -> Vec<(u16, u16)> {
    assert_eq!(record.joints.len(), record.links.len());
    assert_eq!(record.poses.len(), 7 * record.links.len());
    let both = record.joints.iter().zip(&record.links);
    both.map(|(&joint, &link)| (joint, link)).collect()
}

fn pose(record: &Record, at: usize) -> [u64; 7] {
    std::array::from_fn(|part| record.poses[7 * at + part].to_bits())
}

/// The pose after a chain's link, by the lists of `frames`.
fn framed(robot: &Robot, x: &[f64], chain: usize, link: usize) -> [u64; 7] {
    let (positions, rotations) = &robot.get_frames_immutable(x)[chain];
    let (p, q) = (positions[link + 1], rotations[link + 1]);
    [p.x, p.y, p.z, q.w, q.i, q.j, q.k].map(f64::to_bits)
}

#[test]
fn fixed_revolute_revolute_fixed_walks_nine() {
    let record = record(&robot(&[&[0, 13, 12, 0]]), &[0.3, -0.5]);
    let first = NONE_RAISED;
    let expected = [
        (first, 0),
        (first, 1),
        (first, 2),
        (first, 3),
        (0, 1),
        (0, 2),
        (0, 3),
        (1, 2),
        (1, 3),
    ];
    assert_eq!(walked(&record), expected);
}

/// Links and joints go on counting from one chain to the next; a raised joint
/// is walked to the end of its own chain. A telescoping joint counts as others do.
#[test]
fn two_chains() {
    two_chains_of(&robot(&[&[13, 0, 31, 0], &[0, 12, 30]]));
    two_chains_of(&robot(&[&[13, 0, 41, 0], &[0, 12, 40]]));
    two_chains_of(&robot(&[&[42, 0, 46, 0], &[0, 12, 30]]));
}

fn two_chains_of(robot: &Robot) {
    let x = [0.3, -0.5, 0.7, -0.0];
    let record = record(robot, &x);
    let mut expected: Vec<(u16, u16)> = (0..7).map(|link| (NONE_RAISED, link)).collect();
    expected.extend([(0, 0), (0, 1), (0, 2), (0, 3), (1, 2), (1, 3)]);
    expected.extend([(2, 5), (2, 6), (3, 6)]);
    assert_eq!(walked(&record), expected);
    for (at, (joint, link)) in expected.into_iter().enumerate() {
        let mut copy = x;
        if joint != NONE_RAISED {
            copy[usize::from(joint)] += 1e-7;
        }
        let (chain, link) = if link < 4 { (0, link) } else { (1, link - 4) };
        let expected = framed(robot, &copy, chain, usize::from(link));
        assert_eq!(pose(&record, at), expected, "entry {at}");
    }
}

/// Every copy has a joint of its own raised: all end in another place than the
/// first walk.
#[test]
fn copies_are_separate() {
    let robot = robot(&[&[13, 12, 11, 15, 16]]);
    let x = [-0.0, 0.2, -0.0, 0.4, 0.5];
    let record = record(&robot, &x);
    let walked = walked(&record);
    assert_eq!(walked.len(), 5 + 5 + 4 + 3 + 2 + 1);
    for joint in 0..5 {
        let last = walked.iter().position(|&entry| entry == (joint, 4));
        assert_ne!(pose(&record, last.unwrap()), pose(&record, 4));
    }
}

/// A state made from lists answers as one that was reset and updated there.
#[test]
fn lent_goals_and_history_are_the_states() {
    let robot = robot(&[&[13, 12, 11, 0, 23, 15, 16, 33]]);
    let goals = [
        0.3, -0.2, 1.5, 1.0, 0.0, 0.0, 0.0, 0.0, 0.1, 0.0, 0.0, 0.5, 3.2,
    ];
    let block = |k: f64| [0.3, -0.5, 0.7, 0.2, -0.4, 0.6, 0.1].map(|v| v * k);
    let mut vars = sheet::vars(robot.clone(), &goals, &block(0.8));
    for k in [0.85, 0.9, 0.95] {
        vars.update(block(k).to_vec());
    }
    let lent = sheet::lent(robot, &goals, &sheet::history(&vars));
    assert_eq!(sheet::history(&lent), sheet::history(&vars));
    let master = ObjectiveMaster::relaxed_ik(&lent.robot.chain_lengths);
    let x = block(1.0);
    assert_eq!(master.call(&x, &lent), master.call(&x, &vars));
    assert_eq!(master.gradient(&x, &lent), master.gradient(&x, &vars));
    let (value, slopes) = master.gradient_finite_diff(&x, &lent);
    assert_eq!((value, slopes), master.gradient_finite_diff(&x, &vars));
}
