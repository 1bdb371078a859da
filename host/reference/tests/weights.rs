//! Weights set in the published list of priors, and what the published master
//! answers with them.

mod robots;

use reference::groove::vars::RelaxedIKVars;
use reference::sheet;
use reference::strict::Pick;
use reference::weights::{built_in, master, Weighted, WEIGHTS};
use robots::{goals, robot, JOINTS};

/// One weight a kind, no two the same.
const OWN: [f64; WEIGHTS] = [20.0, 60.0, 0.25, 3.0, 1000.0, 0.0, 7.5, 0.125];
const LENGTHS: [&[usize]; 5] = [&[2], &[3], &[7], &[6, 3], &[4, 4, 4, 4]];

fn vars() -> RelaxedIKVars {
    let mut vars = sheet::vars(robot(), &goals(), &JOINTS.map(|v| v * 0.9));
    vars.update(JOINTS.map(|v| v * 0.97).to_vec());
    vars
}

#[test]
fn the_built_in_weights_are_those_of_the_paper() {
    assert_eq!(built_in(), [50.0, 10.0, 0.1, 0.7, 0.5, 0.3, 1.0, 0.01]);
}

/// Every shape under either pick.
fn all(check: impl Fn(Pick, &[usize])) {
    for pick in Pick::BOTH {
        LENGTHS.iter().for_each(|lengths| check(pick, lengths));
    }
}

/// By the order of the papers' lists of objectives.
#[test]
fn every_objective_has_the_weight_of_its_kind() {
    all(|pick, lengths| {
        let joints: usize = lengths.iter().sum();
        let of_a_kind = pick.goal_objectives() / 2;
        let mut expected = Vec::new();
        for _ in lengths {
            expected.extend(vec![OWN[0]; of_a_kind]);
            expected.extend(vec![OWN[1]; of_a_kind]);
        }
        expected.extend(vec![OWN[2]; joints]);
        expected.extend(&OWN[3..7]);
        // Pairs of joints that are no neighbours.
        let pairs: usize = lengths.iter().map(|n| (n - 1) * (n - 2) / 2).sum();
        expected.extend(vec![OWN[7]; pairs]);
        let priors = master(pick, lengths, &OWN).weight_priors;
        assert_eq!(priors, expected, "{pick:?} {lengths:?}");
    });
}

#[test]
fn without_a_list_the_published_weights_serve() {
    all(|pick, lengths| {
        let published = pick.master(lengths).weight_priors;
        assert_eq!(master(pick, lengths, &[]).weight_priors, published);
        assert_eq!(master(pick, lengths, &built_in()).weight_priors, published);
        let mut weighted = Weighted::new(pick, lengths);
        weighted.set(&[0.0; WEIGHTS]);
        assert!(weighted.master.weight_priors.iter().all(|&v| v == 0.0));
        weighted.set(&[]);
        assert_eq!(weighted.master.weight_priors, published);
    });
}

/// The weighted sum of the published objectives, in the order of the list.
#[test]
fn the_value_is_the_weighted_sum() {
    let vars = vars();
    let lengths = &vars.robot.chain_lengths;
    let frames = vars.robot.get_frames_immutable(&JOINTS);
    for pick in Pick::BOTH {
        let master = master(pick, lengths, &OWN);
        let costs = master.objectives.iter();
        let costs = costs.map(|objective| objective.call(&JOINTS, &vars, &frames));
        let sum = costs
            .zip(&master.weight_priors)
            .fold(0.0, |sum, (cost, weight)| sum + weight * cost);
        let (value, slopes) = master.gradient(&JOINTS, &vars);
        assert_eq!(master.call(&JOINTS, &vars).to_bits(), sum.to_bits());
        assert_eq!(value.to_bits(), sum.to_bits());
        let published = pick.master(lengths).gradient(&JOINTS, &vars);
        assert_ne!((value, slopes), published);
    }
}

/// With every other weight 0, each kind still moves the value.
#[test]
fn every_kind_counts_alone() {
    let vars = vars();
    let kinds = Pick::BOTH.map(|pick| (0..WEIGHTS).map(move |kind| (pick, kind)));
    for (pick, kind) in kinds.into_iter().flatten() {
        let value = |weight: f64| {
            let mut weights = [0.0; WEIGHTS];
            weights[kind] = weight;
            master(pick, &vars.robot.chain_lengths, &weights).call(&JOINTS, &vars)
        };
        assert_eq!(value(-0.0), 0.0, "{pick:?} kind {kind}");
        assert_ne!(value(1.0), 0.0, "{pick:?} kind {kind}");
        assert_eq!(value(2.0), 2.0 * value(1.0), "{pick:?} kind {kind}");
    }
}
