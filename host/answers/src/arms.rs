//! The byte calls: what they are lent, and what the reference answers.

use crate::record::{answer_bytes, float_bytes, u16_bytes, Record, FILL};
use reference::record::record;
use reference::refusals::{self, f64s, u16s, RecordRoom, Room};
use reference::sheet;
use reference::sizing::{plan, PLAN};
use reference::spacetime::robot::Robot;
use reference::strict::Pick;
use reference::tools::{self, tools, Tools, TOOLS};
use reference::weights;

/// By their numbers in the stored list.
#[derive(Clone, Copy, Debug, PartialEq)]
pub enum Call {
    Load,
    SetGoals,
    Pose,
    Manipulability,
    Update,
    Objective,
    Frames,
    Reset,
    Gradient,
    GradientFiniteDiff,
    GradientOneBlock,
    /// The leaves' numbers lie before it.
    Sizing = 41,
    SetWeights,
    SetTool,
}

/// Those whose records come before the leaves'.
pub const CALLS: [Call; 11] = [
    Call::Load,
    Call::SetGoals,
    Call::Pose,
    Call::Manipulability,
    Call::Update,
    Call::Objective,
    Call::Frames,
    Call::Reset,
    Call::Gradient,
    Call::GradientFiniteDiff,
    Call::GradientOneBlock,
];

/// The lists that are read, in the order of the byte calls.
#[derive(Clone, Copy, Debug, PartialEq)]
pub enum List {
    Sizes,
    Codes,
    Floats,
    Limits,
    Goals,
    History,
    Weights,
    /// That of chain 0, and the one that is set.
    Tool0,
    Tool1,
    Tool2,
    Tool3,
    Joints,
    /// The number of the chain whose tool is set, a u16.
    Chain,
    /// The pick of the strict list, a u16; 0 or no byte is the tolerance list.
    Strict,
}

use List::{
    Chain, Codes, Floats, Goals, History, Joints, Limits, Sizes, Strict, Tool0, Tool1, Tool2,
    Tool3, Weights,
};

/// By chain.
pub const TOOL_LISTS: [List; TOOLS] = [Tool0, Tool1, Tool2, Tool3];

/// How many there are.
const LISTS: usize = Strict as usize + 1;

impl Call {
    pub fn read(self) -> &'static [List] {
        match self {
            Call::Load => &[Sizes, Codes, Floats, Limits],
            Call::Sizing => &[Sizes, Codes, Floats, Strict],
            Call::SetGoals => &[Sizes, Codes, Floats, Limits, Goals],
            Call::SetWeights => &[Weights],
            Call::SetTool => &[Sizes, Codes, Floats, Limits, Tool0, Chain],
            Call::Pose | Call::Reset => &[
                Sizes, Codes, Floats, Limits, Tool0, Tool1, Tool2, Tool3, Joints,
            ],
            Call::Update => &[Sizes, Codes, Floats, Limits, History, Joints],
            Call::Objective
            | Call::Gradient
            | Call::GradientFiniteDiff
            | Call::GradientOneBlock => &[
                Sizes, Codes, Floats, Limits, Goals, History, Weights, Tool0, Tool1, Tool2, Tool3,
                Joints, Strict,
            ],
            _ => &[Sizes, Codes, Floats, Limits, Joints],
        }
    }

    /// Of each output how many numbers it needs, and the bytes of one.
    pub fn needs(self, counts: &Counts) -> Vec<(usize, usize)> {
        let Counts {
            chains,
            links,
            joints,
            walked,
        } = *counts;
        let floats: Vec<usize> = match self {
            Call::Load | Call::SetGoals | Call::SetWeights | Call::SetTool => vec![],
            Call::Pose => vec![7 * chains],
            Call::Manipulability | Call::Objective => vec![1],
            Call::Update => vec![4 * joints],
            Call::Frames => vec![3 * (links + chains), 4 * (links + 2 * chains)],
            Call::Reset => vec![4 * joints, 7 * chains],
            Call::Gradient | Call::GradientFiniteDiff => vec![joints, 1, joints],
            Call::Sizing => return vec![(PLAN, 2)],
            Call::GradientOneBlock => {
                return vec![
                    (1, 8),
                    (joints, 8),
                    (walked, 2),
                    (walked, 2),
                    (7 * walked, 8),
                ]
            }
        };
        floats.into_iter().map(|count| (count, 8)).collect()
    }
}

/// What a sheet of some shape has.
#[derive(Clone, Copy, Debug, Default)]
pub struct Counts {
    pub chains: usize,
    pub links: usize,
    pub joints: usize,
    /// Links that the one-block gradient walks.
    pub walked: usize,
}

/// The lists that a call is lent, as bytes.
#[derive(Clone, Debug, Default)]
pub struct Lent {
    pub bytes: [Vec<u8>; LISTS],
    pub counts: Counts,
}

impl Lent {
    pub fn get(&self, list: List) -> &[u8] {
        &self.bytes[list as usize]
    }

    pub fn set(&mut self, list: List, floats: &[f64]) {
        self.bytes[list as usize] = float_bytes(floats);
    }

    pub fn floats(&self, list: List) -> Vec<f64> {
        let mut floats = Vec::new();
        f64s(self.get(list), &mut floats);
        floats
    }

    /// A number that stands as a list of one u16, if it is there.
    fn number(&self, list: List) -> Option<u16> {
        let mut numbers = Vec::new();
        u16s(self.get(list), &mut numbers);
        numbers.first().copied()
    }

    /// The chain whose tool is set; one that no sheet has where none is lent.
    pub fn chain(&self) -> u32 {
        self.number(Chain).unwrap_or(u16::MAX).into()
    }

    /// The list of objectives that the call works with.
    pub fn pick(&self) -> Pick {
        Pick::of(self.number(Strict).unwrap_or(0).into())
    }

    pub fn set_pick(&mut self, number: u16) {
        self.bytes[Strict as usize] = u16_bytes(&[number]);
    }

    /// The tools that are lent.
    fn tools<'a>(&self, floats: &'a mut [Vec<f64>; TOOLS]) -> refusals::Tools<'a> {
        let mut tools = [refusals::List::NONE; TOOLS];
        for ((tool, list), floats) in tools.iter_mut().zip(TOOL_LISTS).zip(floats) {
            *tool = f64s(self.get(list), floats);
        }
        tools
    }
}

/// The record of a call that is lent these lists and outputs of so many bytes.
pub fn asked(call: Call, lent: &Lent, rooms: &[usize]) -> Record {
    let (number, written) = answer(call, lent, rooms);
    let mut lists: Vec<Vec<u8>> = call.read().iter().map(|&l| lent.get(l).to_vec()).collect();
    for (at, &room) in rooms.iter().enumerate() {
        let mut output = vec![FILL; room];
        if number == refusals::ACCEPTED {
            output[..written[at].len()].copy_from_slice(&written[at]);
        }
        lists.push(output);
    }
    Record {
        call: call as u16,
        number,
        lists,
        read: call.read().len(),
    }
}

/// The number, and what is written if that is 0.
fn answer(call: Call, lent: &Lent, rooms: &[usize]) -> (u32, Vec<Vec<u8>>) {
    let (mut sizes, mut codes) = (Vec::new(), Vec::new());
    let (mut floats, mut limits) = (Vec::new(), Vec::new());
    let (mut goals, mut history) = (Vec::new(), Vec::new());
    let (mut weights, mut joints) = (Vec::new(), Vec::new());
    let mut tool_lists = Default::default();
    let sheet = refusals::Sheet {
        sizes: u16s(lent.get(Sizes), &mut sizes),
        codes: u16s(lent.get(Codes), &mut codes),
        floats: f64s(lent.get(Floats), &mut floats),
        limits: f64s(lent.get(Limits), &mut limits),
    };
    let given = refusals::Given {
        sheet,
        goals: f64s(lent.get(Goals), &mut goals),
        history: f64s(lent.get(History), &mut history),
        weights: f64s(lent.get(Weights), &mut weights),
        tools: lent.tools(&mut tool_lists),
    };
    let block = f64s(lent.get(Joints), &mut joints);
    let number = refusal(call, &given, block, lent.chain(), rooms);
    if number != refusals::ACCEPTED || rooms.is_empty() {
        return (number, Vec::new());
    }
    if call == Call::Sizing {
        let plan = plan(lent.pick(), &sizes, &codes, &floats);
        return (number, vec![u16_bytes(&plan)]);
    }
    let robot = sheet::robot(&sizes, &codes, &floats, &limits);
    let given = Given {
        goals: &goals,
        history: &history,
        weights: &weights,
        tools: tools(&tool_lists),
        joints: &joints,
        pick: lent.pick(),
    };
    (number, written(call, robot, &given))
}

fn refusal(
    call: Call,
    given: &refusals::Given,
    joints: refusals::List<f64>,
    chain: u32,
    rooms: &[usize],
) -> u32 {
    let (sheet, tools) = (&given.sheet, &given.tools);
    let room = |at: usize| Room::of_bytes(rooms[at]);
    match call {
        Call::Load => refusals::load(sheet),
        Call::Sizing => refusals::sizing(sheet, Room::of_u16_bytes(rooms[0])),
        Call::SetGoals => refusals::set_goals(sheet, given.goals),
        Call::SetWeights => refusals::set_weights(given.weights),
        Call::SetTool => refusals::set_tool(sheet, tools[0], chain),
        Call::Pose => refusals::pose(sheet, tools, joints, room(0)),
        Call::Manipulability => refusals::manipulability(sheet, joints, room(0)),
        Call::Update => refusals::update(sheet, given.history, joints, room(0)),
        Call::Objective => refusals::objective(given, joints, room(0)),
        Call::Frames => refusals::frames(sheet, joints, room(0), room(1)),
        Call::Reset => refusals::reset(sheet, tools, joints, room(0), room(1)),
        Call::Gradient | Call::GradientFiniteDiff => {
            refusals::gradient(given, joints, room(0), room(1), room(2))
        }
        Call::GradientOneBlock => {
            let record = RecordRoom {
                joints: Room::of_u16_bytes(rooms[2]),
                links: Room::of_u16_bytes(rooms[3]),
                poses: room(4),
            };
            refusals::gradient_one_block(given, joints, room(0), room(1), record)
        }
    }
}

/// What a call is lent besides the arms; an empty list where it is lent none.
struct Given<'a> {
    goals: &'a [f64],
    history: &'a [f64],
    weights: &'a [f64],
    tools: Tools,
    joints: &'a [f64],
    pick: Pick,
}

/// What the published functions answer, laid out as bytes.
fn written(call: Call, robot: Robot, given: &Given) -> Vec<Vec<u8>> {
    let floats = |lists: &[&[f64]]| lists.iter().map(|list| answer_bytes(list)).collect();
    let joints = given.joints;
    match call {
        Call::Load | Call::SetGoals | Call::SetWeights | Call::SetTool => Vec::new(),
        Call::Pose => floats(&[&tools::ends(&robot, &given.tools, joints)]),
        Call::Manipulability => floats(&[&[robot.get_manipulability_immutable(joints)]]),
        Call::Frames => {
            let (positions, rotations) = sheet::frames(&robot, joints);
            floats(&[&positions, &rotations])
        }
        Call::Reset => {
            let mut vars = sheet::loaded(robot);
            tools::reset(&mut vars, &given.tools, joints);
            floats(&[&sheet::history(&vars), &sheet::start_ends(&vars)])
        }
        Call::Update => {
            let mut vars = sheet::loaded(robot);
            sheet::set_history(&mut vars, given.history);
            vars.update(joints.to_vec());
            floats(&[&sheet::history(&vars)])
        }
        _ => aimed(call, robot, given),
    }
}

/// The calls on goals, history, weights and tools. The one-block gradient is
/// `gradient`'s, its record that of walks of separate copies.
fn aimed(call: Call, robot: Robot, given: &Given) -> Vec<Vec<u8>> {
    let joints = given.joints;
    let walks = record(&robot, joints);
    let master = weights::master(given.pick, &robot.chain_lengths, given.weights);
    let master = tools::with_tools(given.pick, master, &given.tools);
    let vars = sheet::lent(robot, given.goals, given.history);
    if call == Call::Objective {
        return vec![answer_bytes(&[master.call(joints, &vars)])];
    }
    let (value, slopes) = match call {
        Call::GradientFiniteDiff => master.gradient_finite_diff(joints, &vars),
        _ => master.gradient(joints, &vars),
    };
    let (value, slopes) = (answer_bytes(&[value]), answer_bytes(&slopes));
    if call == Call::GradientOneBlock {
        let (raised, links) = (u16_bytes(&walks.joints), u16_bytes(&walks.links));
        return vec![value, slopes, raised, links, answer_bytes(&walks.poses)];
    }
    // The scratch list ends equal to the joints.
    vec![answer_bytes(joints), value, slopes]
}
