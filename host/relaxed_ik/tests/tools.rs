//! Tools: which are taken, which are refused, and what they do.

mod lists;

use lists::{chains, Lists, UP};
use relaxed_ik::{Refusal, Tools, MOST_CHAINS, NO_TOOLS, TOOL_FLOATS};

/// Turned about no axis of its own, and out of line.
const TOOL: [f64; TOOL_FLOATS] = [0.1, -0.2, 0.4, 0.5, 0.5, -0.5, 0.5];

/// Two arms, of four joints and of three, bent and out of line. Under six joints
/// there is no manipulability, which is the one thing that a link behind the last
/// would move.
fn arms() -> Lists {
    let mut lists = chains(&[vec![13, 12, 0, 11, 33], vec![12, 33, 11]]);
    lists.floats = [0.3, 0.2, 0.5, 0.8, 0.0, 0.6, 0.0].repeat(8);
    lists
}

const JOINTS: [f64; 7] = [0.3, -0.5, 0.7, 0.2, -0.4, 0.6, 0.1];

/// One tool on one chain.
fn on(chain: usize, tool: &[f64]) -> Tools<'_> {
    let mut tools = NO_TOOLS;
    tools[chain] = tool;
    tools
}

/// The tool with this value in this place.
fn with(at: usize, value: f64) -> [f64; TOOL_FLOATS] {
    let mut tool = UP;
    tool[at] = value;
    tool
}

/// The arms with a fixed link behind the last one of this chain.
fn lengthened(chain: usize, tool: &[f64]) -> Lists {
    arms().spoiled(|l| {
        let links: u16 = l.sizes[1..=chain + 1].iter().sum();
        let at = usize::from(links);
        l.sizes[chain + 1] += 1;
        l.codes.insert(at, 0);
        l.floats.splice(7 * at..7 * at, tool.iter().copied());
    })
}

/// Tools of every kind of arithmetic: turned, none of it, skipped with either sign of
/// w, zeros of both signs, and the ends of the ranges.
fn tools() -> Vec<[f64; TOOL_FLOATS]> {
    let near = [0.0, 0.0, 0.0, 1.0 + 4e-10, 0.0, 0.0, 0.0];
    vec![
        TOOL,
        UP,
        with(3, -1.0),
        [-0.0, 0.0, -0.0, 1.0, -0.0, 0.0, -0.0],
        [10.0, -10.0, 10.0, 0.0, 0.0, -1.0, 0.0],
        [0.0, 0.0, 0.0, 1.0, 5e-324, 0.0, 0.0],
        near,
    ]
}

#[test]
fn a_tool_is_ranged_as_a_link() {
    let lists = arms();
    for chain in 0..2 {
        for tool in tools() {
            assert_eq!(lists.sheet().set_tool(chain, &tool), Ok(()), "{tool:?}");
        }
        let beyond = 10.0f64.next_up();
        for (at, value) in (0..3).flat_map(|at| [beyond, -beyond, f64::NAN].map(|v| (at, v))) {
            let found = lists.sheet().set_tool(chain, &with(at, value));
            assert_eq!(found, Err(Refusal::Tool), "{value} in {at}");
        }
        for (at, value) in (3..7).flat_map(|at| [0.9, 1.1, f64::NAN].map(|v| (at, v))) {
            let found = lists.sheet().set_tool(chain, &with(at, value));
            assert_eq!(found, Err(Refusal::Tool), "{value} in {at}");
        }
    }
}

#[test]
fn a_tool_is_seven_floats_for_a_chain_that_is_loaded() {
    let lists = arms();
    for count in (0..20).filter(|&count| count != TOOL_FLOATS) {
        let found = lists.sheet().set_tool(0, &vec![0.5; count]);
        assert_eq!(found, Err(Refusal::Tool), "{count}");
    }
    for chain in [2, 3, 4, 65536, u32::MAX] {
        for tool in [&TOOL[..], &[], &[f64::NAN]] {
            let found = lists.sheet().set_tool(chain, tool);
            assert_eq!(found, Err(Refusal::Tool), "chain {chain}");
        }
    }
}

/// 6 before 11.
#[test]
fn the_arms_are_looked_at_first() {
    for (refusal, lists) in chains(&[&[13, 12, 0][..], &[31, 22]]).faults() {
        assert_eq!(lists.sheet().set_tool(7, &[]), Err(refusal));
        let found = lists.sheet().poses(on(3, &[0.0]), &[0.0; 4]);
        assert_eq!(found, Err(refusal));
    }
}

/// 7 before 11.
#[test]
fn the_ends_look_at_every_tool() {
    let lists = arms();
    let sheet = lists.sheet();
    let wrong = with(1, 10.5);
    for chain in 0..MOST_CHAINS {
        for tool in [&wrong[..], &TOOL[1..], &[0.5; 8], &TOOL, &[]] {
            let taken = tool.is_empty() || tool == TOOL && chain < 2;
            let expected = if taken { Ok(()) } else { Err(Refusal::Tool) };
            let tools = on(chain, tool);
            assert_eq!(sheet.poses(tools, &JOINTS).map(drop), expected);
            assert_eq!(sheet.reset(tools, &JOINTS).map(drop), expected);
            assert_eq!(sheet.poses(tools, &[9.0; 7]), Err(Refusal::Joints));
        }
    }
}

/// To the bit, and that chain alone; frames know no tool.
#[test]
fn a_tool_moves_the_end_as_a_fixed_link_would() {
    let lists = arms();
    let sheet = lists.sheet();
    let without = sheet.poses(NO_TOOLS, &JOINTS).unwrap();
    for (chain, tool) in (0..2).flat_map(|chain| tools().into_iter().map(move |t| (chain, t))) {
        let ends = sheet.poses(on(chain, &tool), &JOINTS).unwrap();
        let longer = lengthened(chain, &tool);
        let expected = longer.sheet().poses(NO_TOOLS, &JOINTS).unwrap();
        // With their bits, which tell the zeros apart.
        assert_eq!(format!("{ends:?}"), format!("{expected:?}"));
        assert_eq!(ends[1 - chain], without[1 - chain]);
        let start = sheet.reset(on(chain, &tool), &JOINTS).unwrap();
        assert_eq!(start.ends, ends);
        assert_eq!(start.history, JOINTS.repeat(4));
    }
    let frames = sheet.frames(&JOINTS).unwrap();
    let lasts = frames.iter().map(|f| f.positions.last().unwrap());
    assert!(without.iter().map(|end| &end.position).eq(lasts));
}

/// A quarter about y under the tool: up becomes forward.
#[test]
fn a_displacement_is_rotated_and_an_offset_without_axis_skipped() {
    let lists = chains(&[[12, 13]]);
    let quarter = std::f64::consts::FRAC_PI_2;
    let bent = [quarter, 0.0];
    let flange = lists.sheet().poses(NO_TOOLS, &bent).unwrap()[0];
    let end = lists.sheet().poses(on(0, &with(3, -1.0)), &bent).unwrap()[0];
    assert_eq!(end.rotation, flange.rotation, "w = -1 does not negate it");
    let moved = [0, 1, 2].map(|k| end.position[k] - flange.position[k]);
    let off = moved.iter().zip([1.0, 0.0, 0.0]);
    assert!(off.map(|(a, b)| (a - b).abs()).all(|d| d < 1e-12));
}

#[cfg(feature = "objective")]
mod objective {
    use super::lists::{answers, Answers, Lists, BUILT_IN, GOAL};
    use super::{arms, lengthened, on, tools, with, JOINTS, TOOL};
    use relaxed_ik::ObjectiveList::{self, Strict, Tolerance};
    use relaxed_ik::{Given, Record, Refusal, Tools, NO_TOOLS};

    fn asked(lists: &Lists, weights: &[f64], tools: Tools) -> (Answers, Record) {
        asked_by(Tolerance, lists, weights, tools)
    }

    /// What all four calls answer of the arms in motion, and the record.
    fn asked_by(
        list: ObjectiveList,
        lists: &Lists,
        weights: &[f64],
        tools: Tools,
    ) -> (Answers, Record) {
        let blocks = [0.0, 0.01, 0.03, 0.04].map(|by| JOINTS.map(|v| v - by));
        let given = Given {
            sheet: lists.sheet(),
            goals: &GOAL.repeat(2),
            history: &blocks.concat(),
            weights,
            tools,
            list,
        };
        answers(&given, &JOINTS)
    }

    /// Value and slopes of all four calls, to the bit, and one block as two.
    fn losses_go_by_the_tip(list: ObjectiveList) {
        let lists = arms();
        let (without, flange) = asked_by(list, &lists, &[], NO_TOOLS);
        for (chain, tool) in (0..2).flat_map(|chain| tools().into_iter().map(move |t| (chain, t))) {
            let (found, record) = asked_by(list, &lists, &[], on(chain, &tool));
            let (expected, _) = asked_by(list, &lengthened(chain, &tool), &[], NO_TOOLS);
            assert_eq!(found, expected, "{tool:?}");
            assert_eq!(found[1], found[3]);
            // No tool is walked.
            assert_eq!(record, flange);
        }
        assert_ne!(asked_by(list, &lists, &[], on(0, &TOOL)).0, without);
        assert_ne!(asked_by(list, &lists, &[], on(1, &TOOL)).0, without);
    }

    #[test]
    fn the_losses_go_by_the_tip() {
        losses_go_by_the_tip(Tolerance);
        losses_go_by_the_tip(Strict);
    }

    /// Without position and rotation a tool changes no bit.
    #[test]
    fn no_other_loss_looks_at_a_tool() {
        let mut weights = BUILT_IN;
        weights[..2].fill(0.0);
        let lists = arms();
        let (without, _) = asked(&lists, &weights, NO_TOOLS);
        for chain in 0..2 {
            assert_eq!(asked(&lists, &weights, on(chain, &TOOL)).0, without);
        }
    }

    #[test]
    fn every_call_refuses_a_wrong_tool() {
        let lists = arms();
        let refused = |tools: Tools| {
            let (found, _) = asked(&lists, &[], tools);
            assert_eq!(found, [(); 4].map(|()| Err(Refusal::Tool)), "{tools:?}");
        };
        for chain in 0..2 {
            refused(on(chain, &with(2, 10.0f64.next_up())));
            refused(on(chain, &with(3, 0.9)));
            refused(on(chain, &TOOL[1..]));
            refused(on(chain, &[0.5; 8]));
        }
        refused(on(2, &TOOL));
        refused(on(3, &[f64::NAN]));
        // 10 before 11.
        let (found, _) = asked(&lists, &[1.0; 9], on(2, &TOOL));
        assert_eq!(found, [(); 4].map(|()| Err(Refusal::Weights)));
    }

    /// Nothing is kept between calls: the tool lent is the one on the flange.
    #[test]
    fn the_tool_lent_serves() {
        let lists = arms();
        let both = || {
            let with = asked(&lists, &[], on(0, &TOOL)).0;
            (with, asked(&lists, &[], NO_TOOLS).0)
        };
        let before = both();
        assert_eq!(lists.sheet().set_tool(0, &with(0, 0.5)), Ok(()));
        assert_eq!(both(), before);
        assert_eq!(lists.sheet().set_tool(0, &[]), Err(Refusal::Tool));
        assert_eq!(lists.sheet().load(), Ok(()));
        assert_eq!(both(), before);
    }
}
