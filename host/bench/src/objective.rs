//! The losses, the objective and its slopes. As for the calls on arms, the
//! proved side is lent everything in bytes and checks it at each call, while
//! the reference's structures are made beforehand.

use crate::arms::{first, Chains, NO_TOOLS, TOLERANCE};
use crate::builds::all_have_strict;
use crate::leaves::unit;
use crate::{Draw, Rows, WITH_STRICT_GOALS, WITH_TOOLS, WITH_WEIGHTS};
use nalgebra::Vector3;
use reference::groove::objective::{groove_loss, swamp_groove_loss, swamp_loss};
use reference::groove::objective_master::ObjectiveMaster;
use reference::groove::vars::RelaxedIKVars;
use reference::strict::Pick;
use reference::tools::TOOLS;
use reference::weights::{self, WEIGHTS};
use reference::{losses as published, record, refusals, sheet, tools};
use relaxed_ik::bytes::{self, of_floats, set_weights, Given, Record, Tools};
use relaxed_ik::leaves;
use std::cell::RefCell;

/// Few enough for the slowest row, which takes half a millisecond a call.
const STATES: usize = 8;
/// Of each kind.
const TOLERANCES: [f64; 6] = [0.0, 0.1, 0.05, 0.0, 0.5, 3.2];
/// A crew's own, to which azimuth means more than depth.
const OWN: [f64; WEIGHTS] = [20.0, 60.0, 0.1, 0.7, 0.5, 0.3, 1.0, 0.01];
/// Picks the strict list of objectives.
const STRICT: u32 = 1;

pub fn losses(rows: &mut Rows, draw: &mut Draw) {
    let distances = draw.inputs(|d| d.between(-1.0, 1.0));
    rows.row(
        "groove_loss",
        &distances,
        |x| leaves::groove_loss(*x, 0.0, 0.1, 10.0),
        |x| groove_loss(*x, 0.0, 2, 0.1, 10.0, 2),
    );
    rows.row(
        "swamp_groove_loss",
        &distances,
        |x| leaves::swamp_groove_loss(*x, 0.0, -0.5, 0.5, 1.0, 1.0, 0.01, 100.0),
        |x| swamp_groove_loss(*x, 0.0, -0.5, 0.5, 1.0, 1.0, 0.01, 100.0, 20),
    );
    for power in [20, 30] {
        rows.row(
            &format!("swamp_loss, power {power}"),
            &distances,
            |x| leaves::swamp_loss(*x, 0.02, 1.5, 60.0, 0.0001, power),
            |x| swamp_loss(*x, 0.02, 1.5, 60.0, 0.0001, i32::from(power)),
        );
    }
    bounded_losses(rows, draw);
}

/// Under a tolerance, and between limits.
fn bounded_losses(rows: &mut Rows, draw: &mut Draw) {
    let bounded = draw.inputs(|d| [d.between(-1.0, 1.0), d.between(-1.0, 4.0)]);
    rows.row(
        "loss_position",
        &bounded,
        |[x, bound]| leaves::loss_position(*x, *bound),
        |[x, bound]| published::position(*x, *bound),
    );
    rows.row(
        "loss_rotation",
        &bounded,
        |[x, bound]| leaves::loss_rotation(*x, *bound),
        |[x, bound]| published::rotation(*x, *bound),
    );
    let limited = published::limited(-3.0, 3.0);
    let joints = draw.inputs(|d| d.between(-3.2, 3.2));
    rows.row(
        "loss_limits",
        &joints,
        |x| leaves::loss_limits(*x, -3.0, 3.0),
        |x| published::limits(*x, &limited),
    );
}

/// Without tolerance: an end near its goal. The reference's side makes the state that
/// the published objective looks at, and its time holds that.
pub fn strict_losses(rows: &mut Rows, draw: &mut Draw) {
    let points = draw.inputs(|d| (d.floats::<3>(-1.0, 1.0), d.floats::<3>(-1.0, 1.0)));
    let vector = |[x, y, z]: [f64; 3]| Vector3::new(x, y, z);
    rows.row(
        "loss_pos_goals",
        &points,
        |(goal, end)| leaves::loss_pos_goals(*goal, *end),
        |(goal, end)| published::position_goal(vector(*goal), vector(*end)),
    );
    let turns = draw.inputs(|d| (d.quaternion(), d.quaternion()));
    rows.row(
        "loss_quat_goals",
        &turns,
        |(goal, end)| leaves::loss_quat_goals(*goal, *end),
        |(goal, end)| published::rotation_goal(unit(goal), unit(end)),
    );
}

/// Joints near their history and goals, in numbers and in bytes.
struct State {
    vars: RelaxedIKVars,
    joints: Vec<f64>,
    history: Vec<f64>,
    /// The joints whose end poses are the goals.
    aim: Vec<f64>,
    goals_bytes: Vec<u8>,
    history_bytes: Vec<u8>,
    joints_bytes: Vec<u8>,
}

impl State {
    fn new(chains: &Chains, draw: &mut Draw) -> Self {
        let mut near = |block: &[f64], size: f64| -> Vec<f64> {
            let moved = block.iter().map(|v| v + draw.between(-size, size));
            moved.collect()
        };
        let joints = near(&vec![0.0; chains.robot.num_dofs], 3.0);
        let history = (0..4).flat_map(|_| near(&joints, 0.05)).collect();
        let aim = near(&joints, 0.1);
        Self::of(chains, &[None; TOOLS], [joints, history, aim])
    }

    /// The same, its goals behind tools.
    fn aimed(&self, chains: &Chains, tools: &tools::Tools) -> Self {
        let blocks = [&self.joints, &self.history, &self.aim];
        Self::of(chains, tools, blocks.map(Clone::clone))
    }

    fn of(chains: &Chains, tools: &tools::Tools, blocks: [Vec<f64>; 3]) -> Self {
        let [joints, history, aim] = blocks;
        let ends = tools::ends(&chains.robot, tools, &aim);
        let goals: Vec<f64> = ends
            .chunks_exact(7)
            .flat_map(|end| [end, &TOLERANCES].concat())
            .collect();
        Self {
            vars: sheet::lent(chains.robot.clone(), &goals, &history),
            goals_bytes: of_floats(&goals).to_vec(),
            history_bytes: of_floats(&history).to_vec(),
            joints_bytes: of_floats(&joints).to_vec(),
            joints,
            history,
            aim,
        }
    }
}

/// The outputs of every call, as long as it needs them.
struct Lists {
    scratch: Vec<u8>,
    value: Vec<u8>,
    slopes: Vec<u8>,
    record_joints: Vec<u8>,
    record_links: Vec<u8>,
    record_poses: Vec<u8>,
}

impl Lists {
    fn new(joints: usize, walked: usize) -> Self {
        Self {
            scratch: vec![0; 8 * joints],
            value: vec![0; 8],
            slopes: vec![0; 8 * joints],
            record_joints: vec![0; 2 * walked],
            record_links: vec![0; 2 * walked],
            record_poses: vec![0; 56 * walked],
        }
    }
}

/// The value and the last slope, so that the sums show both.
fn shown_bytes(answer: u32, value: &[u8], slopes: &[u8]) -> f64 {
    assert_eq!(answer, refusals::ACCEPTED);
    first(value) + first(&slopes[slopes.len() - 8..])
}

fn shown((value, slopes): (f64, Vec<f64>)) -> f64 {
    value + slopes[slopes.len() - 1]
}

pub fn rows(rows: &mut Rows, draw: &mut Draw, label: &str, chains: &Chains) {
    let states: Vec<State> = (0..STATES).map(|_| State::new(chains, draw)).collect();
    let walked = record::record(&chains.robot, &states[0].joints).links.len();
    let on = On {
        label,
        chains,
        states: &states,
        lists: &RefCell::new(Lists::new(chains.robot.num_dofs, walked)),
    };
    let (lengths, tolerance) = (&chains.robot.chain_lengths, Pick::Tolerance);
    Way::new("", tolerance.master(lengths)).four_rows(rows, &on);
    let weighted = Way {
        weights: &OWN,
        ..Way::new(WITH_WEIGHTS, weights::master(tolerance, lengths, &OWN))
    };
    weighted.two_rows(rows, &on);
    let (own, lent) = chains.tools();
    let master = tools::with_tools(tolerance, tolerance.master(lengths), &own);
    let at_tips = Way {
        tools: lent,
        ..Way::new(WITH_TOOLS, master)
    };
    let aimed: Vec<State> = states.iter().map(|s| s.aimed(chains, &own)).collect();
    let on_tips = On {
        states: &aimed,
        ..on
    };
    at_tips.two_rows(rows, &on_tips);
    if all_have_strict() {
        let strict = Way {
            strict: STRICT,
            ..Way::new(WITH_STRICT_GOALS, Pick::Strict.master(lengths))
        };
        strict.four_rows(rows, &on);
    }
}

/// Arms with states on them, and room for the answers.
struct On<'a> {
    label: &'a str,
    chains: &'a Chains,
    states: &'a [State],
    lists: &'a RefCell<Lists>,
}

/// What a call is lent besides the state, and its pick, beside a master that has both.
struct Way<'a> {
    /// In the names of its rows.
    words: &'a str,
    master: ObjectiveMaster,
    weights: &'a [f64],
    tools: Tools<'a>,
    strict: u32,
}

impl<'a> Way<'a> {
    /// Without weights and tools, by the tolerance list.
    fn new(words: &'a str, master: ObjectiveMaster) -> Self {
        Self {
            words,
            master,
            weights: &[],
            tools: NO_TOOLS,
            strict: TOLERANCE,
        }
    }

    fn given<'b>(&'b self, state: &'b State, chains: &'b Chains) -> Given<'b> {
        Given {
            sheet: chains.sheet(),
            goals: &state.goals_bytes,
            history: &state.history_bytes,
            weights: of_floats(self.weights),
            tools: self.tools,
            strict: self.strict,
        }
    }

    /// The objective and the slopes on one block.
    fn two_rows(&self, rows: &mut Rows, on: &On) {
        self.value_row(rows, on);
        self.one_block_row(rows, on);
    }

    /// The slopes on two blocks too.
    fn four_rows(&self, rows: &mut Rows, on: &On) {
        self.value_row(rows, on);
        let master = &self.master;
        self.two_blocks_row(rows, on, "gradient", bytes::gradient, |state| {
            master.gradient(&state.joints, &state.vars)
        });
        let coarse = bytes::gradient_finite_diff;
        self.two_blocks_row(rows, on, "gradient_finite_diff", coarse, |state| {
            master.gradient_finite_diff(&state.joints, &state.vars)
        });
        self.one_block_row(rows, on);
    }

    fn value_row(&self, rows: &mut Rows, on: &On) {
        rows.row(
            &format!("objective{}, {}", self.words, on.label),
            on.states,
            |state| {
                value(
                    &mut on.lists.borrow_mut(),
                    self.given(state, on.chains),
                    state,
                )
            },
            |state| self.master.call(&state.joints, &state.vars),
        );
    }

    fn two_blocks_row(
        &self,
        rows: &mut Rows,
        on: &On,
        name: &str,
        call: TwoBlocks,
        reference: impl Fn(&State) -> (f64, Vec<f64>),
    ) {
        rows.row(
            &format!("{name}{}, {}", self.words, on.label),
            on.states,
            |state| {
                let (lists, given) = (&mut on.lists.borrow_mut(), self.given(state, on.chains));
                two_blocks(call, lists, given, state)
            },
            |state| shown(reference(state)),
        );
    }

    /// The published gradient keeps no record; the ratio holds that too.
    fn one_block_row(&self, rows: &mut Rows, on: &On) {
        rows.row(
            &format!("gradient_one_block{}, {}", self.words, on.label),
            on.states,
            |state| {
                one_block(
                    &mut on.lists.borrow_mut(),
                    self.given(state, on.chains),
                    state,
                )
            },
            |state| shown(self.master.gradient(&state.joints, &state.vars)),
        );
    }
}

/// Nothing published looks at weights: the other side is the plain reading of
/// document 02 that the comparison uses.
pub fn setting(rows: &mut Rows, draw: &mut Draw) {
    let numbers = RefCell::new(Vec::new());
    let inputs = draw.inputs(|d| of_floats(&d.floats::<WEIGHTS>(0.0, 1000.0)).to_vec());
    rows.row(
        "set_weights",
        &inputs,
        |bytes| f64::from(set_weights(bytes)),
        |bytes| {
            let numbers: &mut Vec<f64> = &mut numbers.borrow_mut();
            f64::from(refusals::set_weights(refusals::f64s(bytes, numbers)))
        },
    );
}

fn value(lists: &mut Lists, given: Given, state: &State) -> f64 {
    let value = &mut lists.value;
    let answer = bytes::objective(given, &state.joints_bytes, value);
    assert_eq!(answer, refusals::ACCEPTED);
    first(value)
}

/// A call on two blocks: joints, then scratch, value and slopes.
type TwoBlocks = fn(Given, &[u8], &mut [u8], &mut [u8], &mut [u8]) -> u32;

fn two_blocks(call: TwoBlocks, lists: &mut Lists, given: Given, state: &State) -> f64 {
    let scratch = &mut lists.scratch;
    let (value, slopes) = (&mut lists.value, &mut lists.slopes);
    let answer = call(given, &state.joints_bytes, scratch, value, slopes);
    shown_bytes(answer, value, slopes)
}

fn one_block(lists: &mut Lists, given: Given, state: &State) -> f64 {
    let record = Record {
        joints: &mut lists.record_joints,
        links: &mut lists.record_links,
        poses: &mut lists.record_poses,
    };
    let (value, slopes) = (&mut lists.value, &mut lists.slopes);
    let answer = bytes::gradient_one_block(given, &state.joints_bytes, value, slopes, record);
    shown_bytes(answer, value, slopes)
}
