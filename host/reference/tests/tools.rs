//! End poses behind tools, and what the published objectives make of them: held
//! against published arms that have one fixed link more.

mod robots;

use nalgebra::{Quaternion, UnitQuaternion, Vector3};
use reference::groove::objective_master::ObjectiveMaster;
use reference::groove::vars::RelaxedIKVars;
use reference::record::record;
use reference::sheet;
use reference::spacetime::arm::Arm;
use reference::spacetime::robot::Robot;
use reference::strict::Pick;
use reference::tools::{ends, reset, tools, with_tools, Tools, TOOLS};
use robots::{goals, robot, JOINTS};

type List = Vec<f64>;

/// Tools of every kind: turning, turning nothing by either sign of w, of zeros of
/// both signs, hardly turning, and at the ends of the displacement.
const KINDS: [[f64; 7]; 7] = [
    [0.1, -0.2, 0.3, 0.8, 0.0, 0.6, 0.0],
    [0.1, -0.2, 0.3, 1.0, 0.0, 0.0, 0.0],
    [0.1, -0.2, 0.3, -1.0, -0.0, 0.0, -0.0],
    [-0.0, -0.0, -0.0, 1.0, -0.0, -0.0, -0.0],
    [0.1, -0.2, 0.3, 1.0, 5e-324, 0.0, 0.0],
    [10.0, -10.0, 10.0, 0.0, -0.0, -1.0, 0.0],
    [0.0, 0.0, 0.0, -0.6, 0.0, 0.0, 0.8],
];

/// On the first chain, on the second, on both, on none.
fn mounts(tool: [f64; 7]) -> [[List; TOOLS]; 4] {
    let (some, none) = (tool.to_vec(), Vec::new());
    [
        [some.clone(), none.clone()],
        [none.clone(), some.clone()],
        [some.clone(), some],
        [none.clone(), none],
    ]
    .map(|[first, second]| [first, second, Vec::new(), Vec::new()])
}

/// The arm with a fixed link more for a tool.
fn longer(arm: &Arm, tool: &[f64]) -> Arm {
    let (mut displacements, mut offsets) =
        (arm.displacements.clone(), arm.rot_offset_quats.clone());
    let mut kinds = arm.joint_types.clone();
    if let [x, y, z, w, i, j, k] = *tool {
        displacements.push(Vector3::new(x, y, z));
        offsets.push(UnitQuaternion::new_unchecked(Quaternion::new(w, i, j, k)));
        kinds.push("fixed".to_string());
    }
    Arm::init(arm.axis_types.clone(), displacements, offsets, kinds)
}

fn longer_robot(robot: &Robot, lists: &[List; TOOLS]) -> Robot {
    let arms = robot.arms.iter().zip(lists);
    Robot {
        arms: arms.map(|(arm, tool)| longer(arm, tool)).collect(),
        ..robot.clone()
    }
}

fn bits(floats: &[f64]) -> Vec<u64> {
    floats.iter().map(|v| v.to_bits()).collect()
}

/// Blocks of every sign, among them one that leaves every rotation at rest.
fn blocks() -> Vec<Vec<f64>> {
    let still = [0.0, -0.0].map(|v| vec![v; JOINTS.len()]);
    let turned = [1.0, -0.5, 2.5].map(|k| JOINTS.map(|v| v * k).to_vec());
    still.into_iter().chain(turned).collect()
}

/// Every kind of tool on every chain, at every block.
fn all(check: impl Fn([f64; 7], &[List; TOOLS], &[f64])) {
    for tool in KINDS {
        for lists in mounts(tool) {
            for block in blocks() {
                check(tool, &lists, &block);
            }
        }
    }
}

/// An end pose is the last frame of the arm with a fixed link more.
#[test]
fn a_tool_is_a_fixed_link_more() {
    let robot = robot();
    all(|tool, lists, block| {
        let longer = longer_robot(&robot, lists);
        let own = ends(&robot, &tools(lists), block);
        assert_eq!(bits(&own), bits(&sheet::ends(&longer, block)), "{tool:?}");
        let frames = longer.get_frames_immutable(block);
        for ((positions, rotations), end) in frames.iter().zip(own.chunks_exact(7)) {
            let (p, q) = (positions.last().unwrap(), rotations.last().unwrap());
            let last = [p.x, p.y, p.z, q.w, q.i, q.j, q.k];
            assert_eq!(bits(&last), bits(end), "{tool:?}");
        }
    });
}

/// A reset keeps these poses, and all else as published.
#[test]
fn a_reset_keeps_the_poses_behind_the_tools() {
    let robot = robot();
    all(|tool, lists, block| {
        let mut vars = sheet::loaded(robot.clone());
        reset(&mut vars, &tools(lists), block);
        let own = ends(&robot, &tools(lists), block);
        assert_eq!(bits(&sheet::start_ends(&vars)), bits(&own), "{tool:?}");
        let mut published = sheet::loaded(robot.clone());
        published.reset(block.to_vec());
        assert_eq!(sheet::history(&vars), sheet::history(&published));
        assert_eq!(vars.init_state, published.init_state);
    });
}

fn vars(robot: &Robot) -> RelaxedIKVars {
    let mut vars = sheet::vars(robot.clone(), &goals(), &JOINTS.map(|v| v * 0.9));
    vars.update(JOINTS.map(|v| v * 0.97).to_vec());
    vars
}

/// Either list begins with the goal objectives of each chain, which is told by their
/// weights.
#[test]
fn goal_objectives_come_first() {
    for pick in Pick::BOTH {
        for lengths in [&[2][..], &[6, 3], &[4, 4, 4, 4]] {
            let priors = pick.master(lengths).weight_priors;
            let front = pick.goal_objectives() * lengths.len();
            let of_goals = |weight: &f64| *weight == 50.0 || *weight == 10.0;
            assert!(priors[..front].iter().all(of_goals));
            assert!(!priors[front..].iter().any(of_goals));
        }
    }
}

/// The costs of all objectives: those of goals as on the arms with a fixed link
/// more, whose frames they see, all others as on the arms without.
fn costs(pick: Pick, robot: &Robot, lists: &[List; TOOLS], x: &[f64]) -> Vec<f64> {
    let (plain, longer) = (vars(robot), vars(&longer_robot(robot, lists)));
    let master = pick.master(&robot.chain_lengths);
    let front = pick.goal_objectives() * robot.num_chains;
    let cost = |at: usize| {
        let vars = if at < front { &longer } else { &plain };
        let frames = vars.robot.get_frames_immutable(x);
        master.objectives[at].call(x, vars, &frames)
    };
    (0..master.objectives.len()).map(cost).collect()
}

fn sum(weights: &[f64], costs: &[f64]) -> f64 {
    let both = weights.iter().zip(costs);
    both.fold(0.0, |sum, (weight, cost)| sum + weight * cost)
}

/// The value, and both slopes raised joint by joint, from costs as above.
fn goals_see_the_tool(pick: Pick) {
    let robot = robot();
    let vars = vars(&robot);
    all(|tool, lists, x| {
        let master = pick.master(&robot.chain_lengths);
        let weights = master.weight_priors.clone();
        let master = with_tools(pick, master, &tools(lists));
        assert_eq!(master.weight_priors, weights);
        let costs = |x: &[f64]| costs(pick, &robot, lists, x);
        let at_rest = costs(x);
        let value = sum(&weights, &at_rest);
        let raised = |step: f64| {
            (0..x.len()).map(move |joint| {
                let mut raised = x.to_vec();
                raised[joint] += step;
                raised
            })
        };
        let slope = |raised: Vec<f64>| {
            let costs = costs(&raised);
            let parts = weights.iter().zip(at_rest.iter().zip(&costs));
            parts.fold(0.0, |sum, (weight, (before, after))| {
                sum + weight * ((-before + after) / 0.0000001)
            })
        };
        let slopes: Vec<f64> = raised(0.0000001).map(slope).collect();
        let coarse = |raised: Vec<f64>| (-value + sum(&weights, &costs(&raised))) / 0.000001;
        let coarse: Vec<f64> = raised(0.000001).map(coarse).collect();
        assert_eq!(master.call(x, &vars).to_bits(), value.to_bits(), "{tool:?}");
        let (found, own) = master.gradient(x, &vars);
        assert_eq!(found.to_bits(), value.to_bits());
        assert_eq!(bits(&own), bits(&slopes), "{tool:?}");
        let (found, own) = master.gradient_finite_diff(x, &vars);
        assert_eq!(found.to_bits(), value.to_bits());
        assert_eq!(bits(&own), bits(&coarse), "{tool:?}");
    });
}

#[test]
fn goals_see_the_tool_and_nothing_else_does() {
    Pick::BOTH.into_iter().for_each(goals_see_the_tool);
}

/// Without a tool everything is the published answer; with one the value moves,
/// and the record does not look at it.
#[test]
fn without_tools_all_is_as_published() {
    let robot = robot();
    let vars = vars(&robot);
    let none: Tools = [None; TOOLS];
    let published = ObjectiveMaster::relaxed_ik(&robot.chain_lengths);
    let master = || ObjectiveMaster::relaxed_ik(&robot.chain_lengths);
    let own = with_tools(Pick::Tolerance, master(), &none);
    assert_eq!(own.call(&JOINTS, &vars), published.call(&JOINTS, &vars));
    assert_eq!(
        own.gradient(&JOINTS, &vars),
        published.gradient(&JOINTS, &vars)
    );
    assert_eq!(ends(&robot, &none, &JOINTS), sheet::ends(&robot, &JOINTS));
    for lists in &mounts(KINDS[0])[..3] {
        let own = with_tools(Pick::Tolerance, master(), &tools(lists));
        assert_ne!(own.call(&JOINTS, &vars), published.call(&JOINTS, &vars));
        let longer = record(&longer_robot(&robot, lists), &JOINTS);
        assert_ne!(record(&robot, &JOINTS), longer);
    }
}
