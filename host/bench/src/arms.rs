//! The byte calls on arms against the published functions. A call is lent the
//! sheet each time: it decodes and checks everything before it works, and
//! writes lists of bytes. The published function has its arms made beforehand,
//! so the ratio holds all of that too. Calls that do little else than check
//! have the plain reading of the refusals on the other side.

use crate::{Draw, Rows, WITH_TOOLS};
use reference::groove::vars::RelaxedIKVars;
use reference::refusals::{self, f64s, u16s};
use reference::sheet;
use reference::sizing::{plan, PLAN};
use reference::spacetime::robot::Robot;
use reference::strict::Pick;
use reference::tools::{self, TOOLS, TOOL_FLOATS};
use relaxed_ik::bytes::{self, of_floats, put_floats, put_u16s, Sheet, Tools};
use std::cell::RefCell;

pub const NO_TOOLS: Tools = [&[]; TOOLS];
/// The number that picks the tolerance list of objectives.
pub const TOLERANCE: u32 = 0;
/// A sonde as long as a link, turned on its flange.
const TOOL: [f64; TOOL_FLOATS] = [0.02, -0.01, 0.09, 0.8, 0.0, 0.0, 0.6];

/// Chains that turn at every link, axes in turn, in numbers and in bytes.
pub struct Chains {
    pub robot: Robot,
    sizes: Vec<u8>,
    codes: Vec<u8>,
    floats: Vec<u8>,
    limits: Vec<u8>,
}

impl Chains {
    /// Of so many joints each.
    pub fn new(joints: &[usize], draw: &mut Draw) -> Self {
        let mut sizes = vec![joints.len() as u16];
        sizes.extend(joints.iter().map(|&n| n as u16));
        let axes = |&n: &usize| (0..n).map(|at| 11 + (at % 6) as u16);
        let codes: Vec<u16> = joints.iter().flat_map(axes).collect();
        let mut floats = Vec::new();
        for _ in &codes {
            // Short enough for a manipulability below the cut at 1.
            floats.extend(draw.floats::<3>(-0.1, 0.1));
            floats.extend(draw.quaternion());
        }
        let limits = [-3.0, 3.0].repeat(codes.len());
        let mut chains = Self {
            robot: sheet::robot(&sizes, &codes, &floats, &limits),
            sizes: Vec::new(),
            codes: Vec::new(),
            floats: Vec::new(),
            limits: Vec::new(),
        };
        put_u16s(&sizes, &mut chains.sizes);
        put_u16s(&codes, &mut chains.codes);
        put_floats(&floats, &mut chains.floats);
        put_floats(&limits, &mut chains.limits);
        chains
    }

    pub fn sheet(&self) -> Sheet<'_> {
        Sheet {
            sizes: &self.sizes,
            codes: &self.codes,
            floats: &self.floats,
            limits: &self.limits,
        }
    }

    /// The tool on every chain, as the reference has it and in bytes.
    pub fn tools(&self) -> (tools::Tools, Tools<'static>) {
        let list = |at: usize| match at < self.robot.num_chains {
            true => &TOOL[..],
            false => &[],
        };
        let lists: [&'static [f64]; TOOLS] = std::array::from_fn(list);
        (tools::tools(&lists), lists.map(of_floats))
    }
}

pub fn first(bytes: &[u8]) -> f64 {
    f64::from_le_bytes(bytes[..8].try_into().expect("eight bytes"))
}

/// Few enough for a pass of about a millisecond.
const BLOCKS: usize = 256;

/// Joints with goals and a history, in numbers and in bytes: for either side
/// what it takes.
struct Block {
    joints: Vec<f64>,
    joints_bytes: Vec<u8>,
    history_bytes: Vec<u8>,
    goals_bytes: Vec<u8>,
}

impl Block {
    fn new(chains: &Chains, draw: &mut Draw) -> Self {
        let mut drawn =
            |count: usize| -> Vec<f64> { (0..count).map(|_| draw.between(-3.0, 3.0)).collect() };
        let count = chains.robot.num_dofs;
        let (joints, history) = (drawn(count), drawn(4 * count));
        let mut goals = Vec::new();
        for _ in &chains.robot.arms {
            goals.extend(draw.floats::<3>(-1.0, 1.0));
            goals.extend(draw.quaternion());
            goals.extend(draw.floats::<6>(0.0, 1.0));
        }
        let bytes = |floats: &[f64]| {
            let mut bytes = Vec::new();
            put_floats(floats, &mut bytes);
            bytes
        };
        Self {
            joints_bytes: bytes(&joints),
            history_bytes: bytes(&history),
            goals_bytes: bytes(&goals),
            joints,
        }
    }
}

/// The outputs of the calls, as long as they need them.
struct Outputs {
    positions: Vec<u8>,
    rotations: Vec<u8>,
    ends: Vec<u8>,
    history: Vec<u8>,
    value: [u8; 8],
}

impl Outputs {
    fn new(chains: &Chains) -> Self {
        let (arms, links) = (chains.robot.arms.len(), chains.robot.num_dofs);
        Self {
            positions: vec![0; 24 * (links + arms)],
            rotations: vec![0; 32 * (links + 2 * arms)],
            ends: vec![0; 56 * arms],
            history: vec![0; 32 * links],
            value: [0; 8],
        }
    }
}

/// The last float of an output, so that the sums show it.
fn last(answer: u32, bytes: &[u8]) -> f64 {
    assert_eq!(answer, refusals::ACCEPTED);
    first(&bytes[bytes.len() - 8..])
}

/// A sheet's lists decoded, in memory that is used again.
#[derive(Default)]
struct Decoded {
    sizes: Vec<u16>,
    codes: Vec<u16>,
    floats: Vec<f64>,
    limits: Vec<f64>,
}

impl Decoded {
    fn sheet<'a>(&'a mut self, chains: &Chains) -> refusals::Sheet<'a> {
        refusals::Sheet {
            sizes: u16s(&chains.sizes, &mut self.sizes),
            codes: u16s(&chains.codes, &mut self.codes),
            floats: f64s(&chains.floats, &mut self.floats),
            limits: f64s(&chains.limits, &mut self.limits),
        }
    }

    /// The plan of a sheet without limits.
    fn plan(&mut self, chains: &Chains) -> [u16; PLAN] {
        let sheet = refusals::Sheet {
            sizes: u16s(&chains.sizes, &mut self.sizes),
            codes: u16s(&chains.codes, &mut self.codes),
            floats: f64s(&chains.floats, &mut self.floats),
            limits: refusals::List::of(&[]),
        };
        let answer = refusals::sizing(&sheet, refusals::Room::of(PLAN));
        assert_eq!(answer, refusals::ACCEPTED);
        plan(Pick::Tolerance, &self.sizes, &self.codes, &self.floats)
    }
}

pub fn rows(rows: &mut Rows, draw: &mut Draw, label: &str, chains: &Chains) {
    checks(rows, draw, label, chains);
    let blocks: Vec<Block> = (0..BLOCKS).map(|_| Block::new(chains, draw)).collect();
    frames(rows, label, chains, &blocks);
    ends(rows, label, chains, &blocks);
    reset(rows, label, chains, &blocks);
    update(rows, label, chains, &blocks);
}

/// Nothing published checks a sheet or goals: the other side is the plain
/// reading of document 01 that the comparison uses, on the same bytes.
fn checks(rows: &mut Rows, draw: &mut Draw, label: &str, chains: &Chains) {
    let joints = &chains.robot.chain_lengths;
    // A sheet is a thousand bytes, so few of them stay near the processor.
    let sheets: Vec<(Chains, Block)> = (0..64)
        .map(|_| {
            let chains = Chains::new(joints, draw);
            let block = Block::new(&chains, draw);
            (chains, block)
        })
        .collect();
    let decoded = RefCell::new(Decoded::default());
    rows.row(
        &format!("load, {label}"),
        &sheets,
        |(chains, _)| f64::from(bytes::load(chains.sheet())),
        |(chains, _)| f64::from(refusals::load(&decoded.borrow_mut().sheet(chains))),
    );
    sizing(rows, label, &sheets);
    set_tool(rows, label, &sheets);
    let numbers = RefCell::new(Vec::new());
    rows.row(
        &format!("set_goals, {label}"),
        &sheets,
        |(chains, block)| f64::from(bytes::set_goals(chains.sheet(), &block.goals_bytes)),
        |(chains, block)| {
            let (decoded, numbers) = (&mut *decoded.borrow_mut(), &mut *numbers.borrow_mut());
            let goals = f64s(&block.goals_bytes, numbers);
            f64::from(refusals::set_goals(&decoded.sheet(chains), goals))
        },
    );
}

/// The last chain's.
fn set_tool(rows: &mut Rows, label: &str, sheets: &[(Chains, Block)]) {
    let decoded = RefCell::new((Decoded::default(), Vec::new()));
    let last = |chains: &Chains| chains.robot.num_chains as u32 - 1;
    rows.row(
        &format!("set_tool, {label}"),
        sheets,
        |(chains, _)| {
            let tool = of_floats(&TOOL);
            f64::from(bytes::set_tool(chains.sheet(), tool, last(chains)))
        },
        |(chains, _)| {
            let (decoded, tool) = &mut *decoded.borrow_mut();
            let tool = f64s(of_floats(&TOOL), tool);
            f64::from(refusals::set_tool(
                &decoded.sheet(chains),
                tool,
                last(chains),
            ))
        },
    );
}

/// The other side makes what it counts: frames, objectives, a record.
fn sizing(rows: &mut Rows, label: &str, sheets: &[(Chains, Block)]) {
    let (output, decoded) = (RefCell::new([0; 2 * PLAN]), RefCell::default());
    rows.row(
        &format!("sizing, {label}"),
        sheets,
        |(chains, _)| {
            let (output, sheet) = (&mut *output.borrow_mut(), chains.sheet());
            let answer = bytes::sizing(sheet.sizes, sheet.codes, sheet.floats, output, TOLERANCE);
            assert_eq!(answer, refusals::ACCEPTED);
            let [.., low, high] = *output;
            f64::from(u16::from_le_bytes([low, high]))
        },
        |(chains, _)| {
            let decoded: &mut Decoded = &mut decoded.borrow_mut();
            f64::from(decoded.plan(chains)[PLAN - 1])
        },
    );
}

fn frames(rows: &mut Rows, label: &str, chains: &Chains, blocks: &[Block]) {
    let outputs = RefCell::new(Outputs::new(chains));
    rows.row(
        &format!("frames, {label}"),
        blocks,
        |block| {
            let Outputs {
                positions,
                rotations,
                ..
            } = &mut *outputs.borrow_mut();
            let sheet = chains.sheet();
            last(
                bytes::frames(sheet, &block.joints_bytes, positions, rotations),
                rotations,
            )
        },
        |block| {
            let frames = chains.robot.get_frames_immutable(&block.joints);
            let (_, rotations) = &frames[frames.len() - 1];
            rotations[rotations.len() - 1].k
        },
    );
}

fn ends(rows: &mut Rows, label: &str, chains: &Chains, blocks: &[Block]) {
    let outputs = RefCell::new(Outputs::new(chains));
    rows.row(
        &format!("pose, {label}"),
        blocks,
        |block| {
            let ends = &mut outputs.borrow_mut().ends;
            let (sheet, joints) = (chains.sheet(), &block.joints_bytes);
            last(bytes::pose(sheet, NO_TOOLS, joints, ends), ends)
        },
        |block| {
            let ends = chains.robot.get_ee_pos_and_quat_immutable(&block.joints);
            ends[ends.len() - 1].1.k
        },
    );
    tips(rows, label, chains, blocks, &outputs);
    rows.row(
        &format!("manipulability, {label}"),
        blocks,
        |block| {
            let value = &mut outputs.borrow_mut().value;
            let answer = bytes::manipulability(chains.sheet(), &block.joints_bytes, value);
            last(answer, value)
        },
        |block| chains.robot.get_manipulability_immutable(&block.joints),
    );
}

/// The end poses with a tool on every chain.
fn tips(
    rows: &mut Rows,
    label: &str,
    chains: &Chains,
    blocks: &[Block],
    outputs: &RefCell<Outputs>,
) {
    let (own, lent) = chains.tools();
    rows.row(
        &format!("pose{WITH_TOOLS}, {label}"),
        blocks,
        |block| {
            let ends = &mut outputs.borrow_mut().ends;
            let (sheet, joints) = (chains.sheet(), &block.joints_bytes);
            last(bytes::pose(sheet, lent, joints, ends), ends)
        },
        |block| {
            let ends = tools::ends(&chains.robot, &own, &block.joints);
            ends[ends.len() - 1]
        },
    );
}

/// The published variables after a first reset.
fn started(chains: &Chains, blocks: &[Block]) -> RefCell<RelaxedIKVars> {
    let mut vars = sheet::loaded(chains.robot.clone());
    vars.reset(blocks[0].joints.clone());
    RefCell::new(vars)
}

fn reset(rows: &mut Rows, label: &str, chains: &Chains, blocks: &[Block]) {
    let (outputs, vars) = (RefCell::new(Outputs::new(chains)), started(chains, blocks));
    rows.row(
        &format!("reset, {label}"),
        blocks,
        |block| {
            let Outputs { history, ends, .. } = &mut *outputs.borrow_mut();
            let (sheet, joints) = (chains.sheet(), &block.joints_bytes);
            let answer = bytes::reset(sheet, NO_TOOLS, joints, history, ends);
            last(answer, ends)
        },
        |block| {
            let vars = &mut *vars.borrow_mut();
            vars.reset(block.joints.clone());
            vars.init_ee_quats[vars.init_ee_quats.len() - 1].k
        },
    );
}

/// The published update copies four blocks and looks at nothing; the checks are
/// put before it.
fn update(rows: &mut Rows, label: &str, chains: &Chains, blocks: &[Block]) {
    let (outputs, vars) = (RefCell::new(Outputs::new(chains)), started(chains, blocks));
    let decoded = RefCell::new((Decoded::default(), Vec::new(), Vec::new()));
    rows.row(
        &format!("update, {label}"),
        blocks,
        |block| {
            let history = &mut outputs.borrow_mut().history;
            let Block {
                history_bytes,
                joints_bytes,
                ..
            } = block;
            let answer = bytes::update(chains.sheet(), history_bytes, joints_bytes, history);
            assert_eq!(answer, refusals::ACCEPTED);
            first(history)
        },
        |block| {
            let (decoded, old, new) = &mut *decoded.borrow_mut();
            let (old, new) = (
                f64s(&block.history_bytes, old),
                f64s(&block.joints_bytes, new),
            );
            let room = refusals::Room::of(old.numbers.len());
            let answer = refusals::update(&decoded.sheet(chains), old, new, room);
            assert_eq!(answer, refusals::ACCEPTED);
            let vars = &mut *vars.borrow_mut();
            vars.update(block.joints.clone());
            vars.xopt[0]
        },
    );
}
