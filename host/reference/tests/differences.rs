//! The small inputs of docs/DIFFERENCES.md, section 'What is refused': what the published functions do with each, and the number with which
//! the proved library refuses it.

use nalgebra::{Quaternion, UnitQuaternion, Vector3};
use reference::groove::vars::RelaxedIKVars;
use reference::sheet;
use reference::spacetime::arm::Arm;
use reference::spacetime::robot::Robot;
use reference::strict::Pick;
use reference::tools::{self, TOOLS};
use reference::weights;
use relaxed_ik::{Given, ObjectiveList, Sheet};
use std::panic;

/// What is lent to a call: two links up 1, turning about z, the goal where they end.
#[derive(Clone)]
struct Lists {
    sizes: Vec<u16>,
    codes: Vec<u16>,
    floats: Vec<f64>,
    limits: Vec<f64>,
    goals: Vec<f64>,
    blocks: [Vec<f64>; 4],
    joints: Vec<f64>,
    weights: Vec<f64>,
    tools: [Vec<f64>; TOOLS],
}

const LINK: [f64; 7] = [0.0, 0.0, 1.0, 1.0, 0.0, 0.0, 0.0];

/// Chains of so many links, all of them turning about z.
fn arms(chains: &[u16]) -> Lists {
    let links: usize = chains.iter().map(|n| usize::from(*n)).sum();
    let goal = [
        0.0, 0.0, 2.0, 1.0, 0.0, 0.0, 0.0, 0.0, 0.0, 0.0, 0.0, 0.0, 0.0,
    ];
    let mut sizes = vec![chains.len() as u16];
    sizes.extend(chains);
    Lists {
        sizes,
        codes: vec![13; links],
        floats: LINK.repeat(links),
        limits: [-3.0, 3.0].repeat(links),
        goals: goal.repeat(chains.len()),
        blocks: std::array::from_fn(|_| vec![0.0; links]),
        joints: vec![0.0; links],
        weights: Vec::new(),
        tools: Default::default(),
    }
}

/// An arm of lists that need not fit each other, as `Arm::init` takes them.
fn arm(lists: &Lists) -> Arm {
    let kinds = ["fixed", "revolute", "continuous", "prismatic"];
    let axes = ["none", "x", "y", "z", "-x", "-y", "-z"];
    let named = |names: &[&str], at: u16| {
        names
            .get(usize::from(at))
            .unwrap_or(&"unlisted")
            .to_string()
    };
    let moving = lists.codes.iter().filter(|code| **code >= 10);
    let links = lists.floats.chunks(7);
    let offset = |f: &[f64]| UnitQuaternion::new_unchecked(Quaternion::new(f[3], f[4], f[5], f[6]));
    Arm::init(
        moving.map(|code| named(&axes, code % 10)).collect(),
        links
            .clone()
            .map(|f| Vector3::new(f[0], f[1], f[2]))
            .collect(),
        links.map(offset).collect(),
        lists
            .codes
            .iter()
            .map(|code| named(&kinds, code / 10))
            .collect(),
    )
}

fn robot(lists: &Lists) -> Robot {
    if lists.sizes[0] != 1 {
        return sheet::robot(&lists.sizes, &lists.codes, &lists.floats, &lists.limits);
    }
    let arm = arm(lists);
    let every = |from: usize| lists.limits.iter().skip(from).step_by(2).copied().collect();
    Robot {
        num_chains: 1,
        num_dofs: arm.num_dof,
        chain_lengths: vec![arm.num_dof],
        arms: vec![arm],
        lower_joint_limits: every(0),
        upper_joint_limits: every(1),
    }
}

fn vars(lists: &Lists) -> RelaxedIKVars {
    let mut vars = sheet::loaded(robot(lists));
    sheet::set_goals(&mut vars, &lists.goals);
    let [xopt, prev_state, prev_state2, prev_state3] = lists.blocks.clone();
    RelaxedIKVars {
        xopt,
        prev_state,
        prev_state2,
        prev_state3,
        ..vars
    }
}

/// The published objective, or nothing if it panics.
fn published(lists: &Lists) -> Option<f64> {
    let lists = lists.clone();
    let run = move || {
        let vars = vars(&lists);
        let master = weights::master(Pick::Tolerance, &vars.robot.chain_lengths, &lists.weights);
        let master = tools::with_tools(Pick::Tolerance, master, &tools::tools(&lists.tools));
        master.call(&lists.joints, &vars)
    };
    panic::catch_unwind(run).ok()
}

/// The proved objective, or the number of its refusal.
fn proved(lists: &Lists) -> Result<f64, u32> {
    let sheet = Sheet {
        sizes: &lists.sizes,
        codes: &lists.codes,
        floats: &lists.floats,
        limits: &lists.limits,
    };
    let given = Given {
        sheet,
        goals: &lists.goals,
        history: &lists.blocks.concat(),
        weights: &lists.weights,
        tools: lists.tools.each_ref().map(|tool| &tool[..]),
        list: ObjectiveList::Tolerance,
    };
    given
        .objective(&lists.joints)
        .map_err(|refusal| refusal.number())
}

/// Refused with the number; the published objective panics.
#[track_caller]
fn panics(number: u32, lists: &Lists) {
    assert_eq!(proved(lists), Err(number));
    assert_eq!(published(lists), None);
}

/// Refused with the number; the published objective goes on and answers this.
#[track_caller]
fn goes_on(number: u32, lists: &Lists, value: f64) {
    assert_eq!(proved(lists), Err(number));
    let said = published(lists).expect("an answer");
    assert!(said == value || said.is_nan() && value.is_nan(), "{said}");
}

/// Two links up 1, changed.
fn with(change: impl Fn(&mut Lists)) -> Lists {
    let mut lists = arms(&[2]);
    change(&mut lists);
    lists
}

/// What two links up 1 cost.
const PLAIN: f64 = -181.73533528323662;

#[test]
fn plain_links_are_taken() {
    assert_eq!(proved(&arms(&[2])), Ok(PLAIN));
    assert_eq!(published(&arms(&[2])), Some(PLAIN));
}

#[test]
fn chains_and_links() {
    goes_on(1, &arms(&[]), -1.535335283236621);
    goes_on(1, &arms(&[2; 5]), -902.5353352832368);
    let mut long = arms(&[2]);
    long.sizes[1] = 17;
    long.codes.extend([0; 15]);
    long.floats.extend(LINK.repeat(15));
    goes_on(1, &long, 112368.26466471676);
}

#[test]
fn lengths_and_codes() {
    let mut short = arms(&[3]);
    short.codes.pop();
    panics(2, &short);
    goes_on(2, &with(|l| l.codes.push(0)), PLAIN);
    panics(2, &with(|l| l.floats.extend(LINK)));
    goes_on(2, &with(|l| l.floats.truncate(7)), 368.2646647167633);
    panics(3, &with(|l| l.codes[0] = 50));
    goes_on(3, &with(|l| l.codes[0] = 17), PLAIN);
}

#[test]
fn joints_of_chains() {
    // `chain_lengths[i]-2`: without checks for overflow the published loop counts to 2^64.
    if cfg!(debug_assertions) {
        panics(4, &arms(&[1]));
        panics(1, &arms(&[0]));
    }
    goes_on(4, &arms(&[9, 8]), 42257.87527990958);
    panics(4, &arms(&[2, 3]));
}

#[test]
fn limits() {
    let first = |l: f64, u: f64| with(move |lists| lists.limits[..2].copy_from_slice(&[l, u]));
    panics(5, &with(|l| l.limits.truncate(2)));
    goes_on(5, &with(|l| l.limits.extend([1.0, 2.0])), PLAIN);
    goes_on(5, &first(0.0, 0.0), f64::NAN);
    goes_on(5, &first(1.0, 1.0), f64::INFINITY);
    goes_on(5, &first(0.0, 0.0005), -179.83533528323665);
    goes_on(5, &first(3.0, -3.0), PLAIN);
    goes_on(5, &first(-101.0, 101.0), PLAIN);
    goes_on(5, &first(-999.0, 998.0), PLAIN);
    goes_on(5, &first(f64::NAN, 3.0), f64::NAN);
}

#[test]
fn links() {
    let offset = |q: [f64; 4]| with(move |l| l.floats[3..7].copy_from_slice(&q));
    goes_on(6, &with(|l| l.floats[0] = 11.0), 60368.264664716764);
    goes_on(6, &with(|l| l.floats[0] = f64::NAN), f64::NAN);
    goes_on(6, &offset([0.0, 0.0, 0.0, 2.0]), 815.2251048256993);
    goes_on(6, &offset([0.0; 4]), PLAIN);
}

#[test]
fn joints_and_history() {
    panics(7, &with(|l| l.joints.truncate(1)));
    panics(7, &with(|l| l.joints.push(0.0)));
    let above = with(|l| l.joints[0] = 64f64.next_up());
    goes_on(7, &above, 61862.33250041516);
    let slid = |value: f64| {
        with(move |l| {
            l.codes[0] = 33;
            l.joints[0] = value;
        })
    };
    goes_on(7, &slid(8f64.next_up()), 32837.87577582789);
    for taken in [with(|l| l.joints[0] = 64.0), slid(8.0)] {
        assert_eq!(proved(&taken).ok(), published(&taken));
    }
    goes_on(7, &with(|l| l.joints[0] = f64::NAN), f64::NAN);
    panics(7, &with(|l| l.blocks[0].truncate(1)));
    goes_on(7, &with(|l| l.blocks[3].push(0.0)), PLAIN);
    goes_on(7, &with(|l| l.blocks[0][0] = 65.0), 227969.76466471676);
    goes_on(7, &with(|l| l.blocks[3][0] = f64::NAN), PLAIN);
}

#[test]
fn goals() {
    panics(8, &with(|l| l.goals.clear()));
    goes_on(8, &with(|l| l.goals.extend_from_within(..)), PLAIN);
    goes_on(8, &with(|l| l.goals[0] = 101.0), 5100368.264664718);
    goes_on(8, &with(|l| l.goals[7] = 101.0), PLAIN);
    goes_on(8, &with(|l| l.goals[7] = f64::NAN), f64::NAN);
    goes_on(8, &with(|l| l.goals[3] = 2.0), PLAIN);
}

/// The built-in weights, that of the positions changed.
fn weighing(position: f64) -> Lists {
    with(|l| {
        l.weights = weights::built_in().to_vec();
        l.weights[0] = position;
    })
}

#[test]
fn own_weights() {
    goes_on(10, &weighing(-1.0), -28.735335283236623);
    goes_on(10, &weighing(1000.5), -3033.2353352832365);
    goes_on(10, &weighing(f64::NAN), f64::NAN);
}

/// A tool of chain 0 as long as a link, changed.
fn tooled(change: impl Fn(&mut Vec<f64>)) -> Lists {
    with(|l| {
        l.tools[0] = LINK.to_vec();
        change(&mut l.tools[0]);
    })
}

/// The source has no tools: the reference applies one by the steps of a fixed link.
#[test]
fn own_tools() {
    let reached = 368.2646647167633;
    let taken = tooled(|_| ());
    assert_eq!(proved(&taken), Ok(reached));
    assert_eq!(published(&taken), Some(reached));
    let offset = |q: [f64; 4]| tooled(move |tool| tool[3..].copy_from_slice(&q));
    goes_on(11, &tooled(|tool| tool[0] = 11.0), 60918.264664716764);
    goes_on(11, &tooled(|tool| tool[0] = f64::NAN), f64::NAN);
    goes_on(11, &offset([0.0, 0.0, 0.0, 2.0]), 1365.2251048256994);
    goes_on(11, &offset([0.0; 4]), reached);
    panics(11, &tooled(|tool| tool.truncate(6)));
    goes_on(11, &tooled(|tool| tool.push(0.0)), reached);
    // A chain that is not loaded is never asked for its tool.
    goes_on(11, &with(|l| l.tools[1] = LINK.to_vec()), PLAIN);
}

/// The published reset keeps its joints apart, and they outlast every update.
#[test]
fn the_start_is_kept_apart() {
    let mut vars = vars(&arms(&[2]));
    vars.reset(vec![0.5, 0.25]);
    for _ in 0..4 {
        vars.update(vec![1.0, 2.0]);
    }
    assert_eq!(vars.init_state, [0.5, 0.25]);
    assert_eq!(sheet::history(&vars), [1.0, 2.0].repeat(4));
}
