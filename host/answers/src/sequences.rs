//! Sequences of calls on the state: what each is asked, and what it must
//! answer. The published functions answer on one `RelaxedIKVars`; the rules of
//! the state (20, 21 and 22 before all else, what a load clears and what it keeps,
//! that a refused call changes nothing) are written here from the papers.

use crate::arms::{Lent, List};
use crate::cases::{lent, Fault, Shape, FAULTS, LARGE, SHAPES, SMALL};
use crate::record::{answer_bytes, u16_bytes, Record};
use draw::Draw;
use reference::groove::vars::RelaxedIKVars;
use reference::record::record;
use reference::refusals::{self, f64s, u16s, RecordRoom, Room, ACCEPTED};
use reference::sheet;
use reference::strict::Pick;
use reference::tools::{self, tools, TOOLS};
use reference::weights;

/// By their numbers in the stored list.
#[derive(Clone, Copy, Debug, PartialEq, Eq, PartialOrd, Ord)]
pub enum Step {
    /// A state with nothing loaded: a sequence begins.
    Empty,
    Load,
    SetGoals,
    Reset,
    Update,
    Frames,
    Pose,
    Manipulability,
    Objective,
    Gradient,
    GradientFiniteDiff,
    GradientOneBlock,
    /// No call: what the state keeps besides arms, weights and tools.
    Kept,
    /// Behind all others, which keep their numbers.
    SetWeights,
    SetTool,
}

use Step::*;

pub const STEPS: [Step; 15] = [
    Empty,
    Load,
    SetGoals,
    Reset,
    Update,
    Frames,
    Pose,
    Manipulability,
    Objective,
    Gradient,
    GradientFiniteDiff,
    GradientOneBlock,
    Kept,
    SetWeights,
    SetTool,
];

impl Step {
    /// The numbers that the step can answer, from the lists of document 01.
    pub fn numbers(self) -> &'static [u32] {
        match self {
            Empty | Kept => &[0],
            Load => &[0, 1, 2, 3, 4, 5, 6],
            SetGoals => &[0, 8, 20],
            SetWeights => &[0, 10],
            SetTool => &[0, 11, 20],
            Reset | Manipulability => &[0, 7, 20],
            Update => &[0, 7, 20, 22],
            Frames | Pose => &[0, 7, 9, 20],
            Objective => &[0, 7, 20, 21, 22],
            Gradient | GradientFiniteDiff | GradientOneBlock => &[0, 7, 9, 20, 21, 22],
        }
    }

    /// The lists that it is lent, outputs apart.
    fn read(self) -> &'static [List] {
        match self {
            Empty | Kept => &[],
            Load => &[List::Sizes, List::Codes, List::Floats, List::Limits],
            SetGoals => &[List::Goals],
            SetWeights => &[List::Weights],
            SetTool => &[List::Tool0, List::Chain],
            _ if self.aims() => &[List::Joints, List::Strict],
            _ => &[List::Joints],
        }
    }

    /// Whether it works with goals and history.
    fn aims(self) -> bool {
        matches!(
            self,
            Objective | Gradient | GradientFiniteDiff | GradientOneBlock
        )
    }
}

const SEQUENCES: usize = 60;
/// What an output holds before the call.
const FILL: f64 = 0.5;
const FILL_U16: u16 = 42405;
/// Room enough for every output.
const ENOUGH: usize = 4096;

/// What is kept between calls.
#[derive(Default)]
pub struct State {
    /// The sheet, and the published state over it: none before a load.
    arms: Option<(Lent, RelaxedIKVars)>,
    goals: Option<Vec<f64>>,
    started: bool,
    /// Empty for none loaded.
    weights: Vec<f64>,
    /// By chain, empty for none.
    tools: [Vec<f64>; TOOLS],
}

/// The outputs of a call: its value, and lists of floats or of u16s.
enum Output {
    Value(f64),
    Floats(Vec<f64>),
    Numbers(Vec<u16>),
}

use Output::{Floats, Numbers, Value};

/// A step with the lists of `lent`. Outputs are as long as they need be, but for
/// the last one, which is longer by `spare` numbers, or shorter.
pub struct Asked<'a> {
    pub step: Step,
    pub lent: &'a Lent,
    pub spare: isize,
}

impl State {
    /// 20 to 22.
    fn refusal(&self, step: Step) -> u32 {
        let aimed = step.aims();
        if self.arms.is_none() {
            20
        } else if aimed && self.goals.is_none() {
            21
        } else if (aimed || step == Update) && !self.started {
            22
        } else {
            ACCEPTED
        }
    }

    /// The number of a call on the state: 20 to 22, then those of the lists.
    fn number(&self, asked: &Asked) -> u32 {
        let step = asked.step;
        match self.refusal(step) {
            ACCEPTED => (),
            number => return number,
        }
        let Some((own, vars)) = &self.arms else {
            return 20;
        };
        let (mut a, mut b, mut c, mut d) = (vec![], vec![], vec![], vec![]);
        let sheet = sheet_of(own, (&mut a, &mut b), (&mut c, &mut d));
        let (mut goals, mut tool, mut joints) = (vec![], vec![], vec![]);
        let new_goals = f64s(asked.lent.get(List::Goals), &mut goals);
        let new_tool = f64s(asked.lent.get(List::Tool0), &mut tool);
        let joints = f64s(asked.lent.get(List::Joints), &mut joints);
        let kept = self.goals.clone().unwrap_or_default();
        let history = sheet::history(vars);
        let given = refusals::Given {
            sheet,
            goals: refusals::List::of(&kept),
            history: refusals::List::of(&history),
            weights: refusals::List::of(&self.weights),
            tools: self
                .tools
                .each_ref()
                .map(|tool| refusals::List::of(&tool[..])),
        };
        let (enough, last) = (Room::of(ENOUGH), Room::of(last_room(asked, own)));
        match step {
            SetGoals => refusals::set_goals(&sheet, new_goals),
            SetTool => refusals::set_tool(&sheet, new_tool, asked.lent.chain()),
            Reset => refusals::reset(&sheet, &given.tools, joints, enough, enough),
            Update => refusals::update(&sheet, given.history, joints, enough),
            Frames => refusals::frames(&sheet, joints, enough, last),
            Pose => refusals::pose(&sheet, &given.tools, joints, last),
            Manipulability => refusals::manipulability(&sheet, joints, enough),
            Objective => refusals::objective(&given, joints, enough),
            Gradient | GradientFiniteDiff => {
                refusals::gradient(&given, joints, enough, enough, last)
            }
            _ => {
                let record = RecordRoom {
                    joints: enough,
                    links: enough,
                    poses: last,
                };
                refusals::gradient_one_block(&given, joints, enough, enough, record)
            }
        }
    }

    /// An accepted call that changes the state.
    fn change(&mut self, asked: &Asked) {
        let lent = asked.lent;
        let (goals, joints) = (lent.floats(List::Goals), lent.floats(List::Joints));
        let Some((_, vars)) = &mut self.arms else {
            return;
        };
        match asked.step {
            SetGoals => {
                sheet::set_goals(vars, &goals);
                self.goals = Some(goals);
            }
            SetTool => self.tools[lent.chain() as usize] = lent.floats(List::Tool0),
            Reset => {
                tools::reset(vars, &tools(&self.tools), &joints);
                self.started = true;
            }
            Update => vars.update(joints),
            _ => (),
        }
    }

    /// What an accepted call writes.
    fn written(&self, step: Step, pick: Pick, joints: &[f64]) -> Vec<Output> {
        let Some((_, vars)) = &self.arms else {
            return vec![];
        };
        let (robot, tools) = (&vars.robot, tools(&self.tools));
        let weighted = || weights::master(pick, &robot.chain_lengths, &self.weights);
        let master = || tools::with_tools(pick, weighted(), &tools);
        match step {
            Frames => {
                let (positions, rotations) = sheet::frames(robot, joints);
                vec![Floats(positions), Floats(rotations)]
            }
            Pose => vec![Floats(tools::ends(robot, &tools, joints))],
            Manipulability => vec![Value(robot.get_manipulability_immutable(joints))],
            Objective => vec![Value(master().call(joints, vars))],
            Gradient | GradientFiniteDiff => {
                let (value, slopes) = match step {
                    Gradient => master().gradient(joints, vars),
                    _ => master().gradient_finite_diff(joints, vars),
                };
                vec![Value(value), Floats(joints.to_vec()), Floats(slopes)]
            }
            GradientOneBlock => {
                let (value, slopes) = master().gradient(joints, vars);
                let walks = record(robot, joints);
                vec![
                    Value(value),
                    Floats(joints.to_vec()),
                    Floats(slopes),
                    Numbers(walks.joints),
                    Numbers(walks.links),
                    Floats(walks.poses),
                ]
            }
            _ => vec![],
        }
    }

    /// Goals, the four blocks and the end poses at the last reset, each with
    /// zeros behind it.
    fn kept(&self) -> Vec<Vec<u8>> {
        let padded = |floats: &[f64], count: usize| {
            let mut floats = floats.to_vec();
            floats.resize(count, 0.0);
            answer_bytes(&floats)
        };
        let goals = self.goals.clone().unwrap_or_default();
        let none = [const { Vec::new() }; 5];
        let [a, b, c, d, ends] = match &self.arms {
            None => none,
            Some((_, vars)) => [
                vars.xopt.clone(),
                vars.prev_state.clone(),
                vars.prev_state2.clone(),
                vars.prev_state3.clone(),
                sheet::start_ends(vars),
            ],
        };
        let mut lists = vec![padded(&goals, 52)];
        lists.extend([a, b, c, d].map(|block| padded(&block, 16)));
        lists.push(padded(&ends, 28));
        lists
    }
}

fn sheet_of<'a>(
    lent: &Lent,
    numbers: (&'a mut Vec<u16>, &'a mut Vec<u16>),
    floats: (&'a mut Vec<f64>, &'a mut Vec<f64>),
) -> refusals::Sheet<'a> {
    refusals::Sheet {
        sizes: u16s(lent.get(List::Sizes), numbers.0),
        codes: u16s(lent.get(List::Codes), numbers.1),
        floats: f64s(lent.get(List::Floats), floats.0),
        limits: f64s(lent.get(List::Limits), floats.1),
    }
}

/// How many numbers the last output of a call needs on arms of this shape.
fn last_need(step: Step, lent: &Lent) -> usize {
    let counts = &lent.counts;
    match step {
        Frames => 4 * (counts.links + 2 * counts.chains),
        Pose => 7 * counts.chains,
        Gradient | GradientFiniteDiff => counts.joints,
        GradientOneBlock => 7 * counts.walked,
        _ => 1,
    }
}

fn last_room(asked: &Asked, own: &Lent) -> usize {
    last_need(asked.step, own).saturating_add_signed(asked.spare)
}

/// An output of so many numbers after the call: what was written, if anything,
/// at its front.
fn padded<T: Copy>(written: &[T], room: usize, fill: T) -> Vec<T> {
    let mut all = vec![fill; room];
    all[..written.len()].copy_from_slice(written);
    all
}

/// The outputs of a refused call: as long as arms of this shape ask, the last
/// one apart, and as they were. Its value is a NaN.
fn unwritten(step: Step, shape: &Lent, joints: &[f64]) -> Vec<Output> {
    let counts = &shape.counts;
    let floats = |count: usize| Floats(vec![FILL; count]);
    let numbers = |count: usize| Numbers(vec![FILL_U16; count]);
    match step {
        Frames => vec![floats(3 * (counts.links + counts.chains)), floats(0)],
        Pose => vec![floats(0)],
        Manipulability | Objective => vec![Value(f64::NAN)],
        Gradient | GradientFiniteDiff => {
            vec![Value(f64::NAN), floats(counts.joints), floats(0)]
        }
        GradientOneBlock => vec![
            Value(f64::NAN),
            Floats(joints.to_vec()),
            floats(counts.joints),
            numbers(counts.walked),
            numbers(counts.walked),
            floats(0),
        ],
        _ => vec![],
    }
}

/// The outputs as they are stored; the last one has the room that was asked.
fn outputs(state: &State, asked: &Asked, number: u32) -> Vec<Vec<u8>> {
    let (step, joints) = (asked.step, asked.lent.floats(List::Joints));
    let shape = state.arms.as_ref().map_or(asked.lent, |(own, _)| own);
    let all = match number {
        ACCEPTED => state.written(step, asked.lent.pick(), &joints),
        _ => unwritten(step, shape, &joints),
    };
    let last = all.len().saturating_sub(1);
    let mut lists = Vec::new();
    for (at, output) in all.into_iter().enumerate() {
        let room = |length: usize| match at == last {
            true => last_room(asked, shape),
            false => length,
        };
        lists.push(match output {
            Value(value) => answer_bytes(&[value]),
            Floats(list) => answer_bytes(&padded(&list, room(list.len()), FILL)),
            Numbers(list) => u16_bytes(&padded(&list, room(list.len()), FILL_U16)),
        });
    }
    lists
}

/// Where the pick is in a record, if its step takes one.
#[cfg(test)]
pub fn pick_place(record: &Record) -> Option<usize> {
    let step = STEPS.into_iter().find(|step| *step as u16 == record.call)?;
    step.read().iter().position(|list| *list == List::Strict)
}

/// Makes a step: its record, and the state after it.
pub fn play(state: &mut State, asked: &Asked) -> Record {
    let (step, lent) = (asked.step, asked.lent);
    let read = step.read();
    let mut lists: Vec<Vec<u8>> = read.iter().map(|&list| lent.get(list).to_vec()).collect();
    let number = match step {
        Empty => {
            *state = State::default();
            ACCEPTED
        }
        Kept => {
            lists.extend(state.kept());
            ACCEPTED
        }
        Load => load(state, lent),
        SetWeights => set_weights(state, lent),
        _ => {
            let number = state.number(asked);
            lists.extend(outputs(state, asked, number));
            if number == ACCEPTED {
                state.change(asked);
            }
            number
        }
    };
    Record {
        call: step as u16,
        number,
        lists,
        read: read.len(),
    }
}

/// The same with outputs of just the lengths that are needed.
pub fn play_exact(state: &mut State, step: Step, lent: &Lent) -> Record {
    let spare = 0;
    play(state, &Asked { step, lent, spare })
}

/// What a call on goals lacks behind a change that answered this number.
#[cfg(test)]
pub fn lacking_after(step: Step, number: u32, before: u32) -> u32 {
    match (step, number) {
        (Load, ACCEPTED) => 21,
        (SetGoals, ACCEPTED) if before == 21 => 22,
        (Reset, ACCEPTED) if before == 22 => ACCEPTED,
        _ => before,
    }
}

/// An accepted load clears goals, history and tools and keeps the weights; a
/// refused one leaves all as it was.
fn load(state: &mut State, lent: &Lent) -> u32 {
    let (mut a, mut b, mut c, mut d) = (vec![], vec![], vec![], vec![]);
    let number = refusals::load(&sheet_of(lent, (&mut a, &mut b), (&mut c, &mut d)));
    if number == ACCEPTED {
        let vars = sheet::loaded(sheet::robot(&a, &b, &c, &d));
        *state = State {
            arms: Some((lent.clone(), vars)),
            weights: std::mem::take(&mut state.weights),
            ..State::default()
        };
    }
    number
}

/// Needs no arms; a refused list leaves the one before it.
fn set_weights(state: &mut State, lent: &Lent) -> u32 {
    let mut weights = vec![];
    let number = refusals::set_weights(f64s(lent.get(List::Weights), &mut weights));
    if number == ACCEPTED {
        state.weights = weights;
    }
    number
}

/// The next step: what the state lacks is likelier than anything else.
fn next(state: &State, draw: &mut Draw) -> Step {
    let lacking = match state {
        State { arms: None, .. } => Some(Load),
        State { goals: None, .. } => Some(SetGoals),
        State { started: false, .. } => Some(Reset),
        _ => None,
    };
    match lacking {
        Some(step) if draw.below(3) == 0 => step,
        // These sequences set no weights and no tools.
        _ => draw.pick(&STEPS[1..SetWeights as usize]),
    }
}

/// Lists near those of the arms: other joints, both ends of a slide's range and
/// both zeros among them.
pub fn near(own: &Lent, draw: &mut Draw) -> Lent {
    let mut near = own.clone();
    let edge = draw.pick(&[8.0, -8.0, 0.0, -0.0]);
    let all = draw.below(8) == 0;
    let joints: Vec<f64> = own.floats(List::Joints);
    let other = |v: f64, draw: &mut Draw| match all {
        true => edge,
        false => v + draw.between(-0.05, 0.05),
    };
    let joints: Vec<f64> = joints.into_iter().map(|v| other(v, draw)).collect();
    near.set(List::Joints, &joints);
    near
}

/// A fault in a list that the step reads; a list with a part of a number at its
/// end is none that a call on the state can be lent.
fn fault(step: Step, lent: &mut Lent, draw: &mut Draw) {
    let reads = |fault: &&Fault| match step {
        Load => fault.0 < 7,
        SetGoals => fault.0 == 8,
        _ => fault.1 == List::Joints,
    };
    let faults: Vec<&Fault> = FAULTS.iter().filter(reads).collect();
    let mut wrong = lent.clone();
    draw.pick(&faults).2(&mut wrong);
    let whole = |list: List, unit: usize| wrong.get(list).len() % unit == 0;
    if whole(List::Sizes, 2) && whole(List::Floats, 8) {
        *lent = wrong;
    }
}

/// A sequence of steps, from an empty state on.
fn sequence(shapes: &[Shape], draw: &mut Draw, records: &mut Vec<Record>) {
    let mut state = State::default();
    let mut own = lent(draw.pick(shapes), draw);
    for at in 0..12 + draw.below(19) {
        let step = match at {
            0 => Empty,
            _ => next(&state, draw),
        };
        // Over arms most loads are refused, so that a sequence goes on.
        let wrong = match (step, &state.arms) {
            (Load, Some(_)) => draw.below(4) != 0,
            _ => draw.below(5) == 0,
        };
        let mut lists = match step {
            // What is done to a sheet there is meant for the small one.
            Load if wrong => lent(SMALL, draw),
            Load => lent(draw.pick(shapes), draw),
            _ => near(&own, draw),
        };
        if wrong {
            fault(step, &mut lists, draw);
        }
        let asked = Asked {
            step,
            lent: &lists,
            spare: draw.pick(&[0, 0, 0, 1, 2, -1]),
        };
        records.push(play(&mut state, &asked));
        if let (Load, Some((loaded, _))) = (step, &state.arms) {
            own = loaded.clone();
        }
    }
}

pub fn all(draw: &mut Draw) -> Vec<Record> {
    let mut records = Vec::new();
    for at in 0..SEQUENCES {
        let shapes: &[Shape] = match at % 20 {
            0 => &LARGE,
            1..=9 => &[SMALL, SHAPES[1]],
            _ => &SHAPES,
        };
        sequence(shapes, draw, &mut records);
    }
    records
}

/// A line for each step: how often it answers each of its numbers. An error
/// where one of them is never met, or another is.
pub fn counts(records: &[Record]) -> Result<String, String> {
    let mut lines = String::new();
    for step in STEPS {
        let own = || records.iter().filter(|record| record.call == step as u16);
        let count = |number: u32| own().filter(|record| record.number == number).count();
        let met: Vec<String> = step
            .numbers()
            .iter()
            .map(|&number| format!("{number}: {}", count(number)))
            .collect();
        lines += &format!("{step:?}: {}\n", met.join(", "));
        let known: usize = step.numbers().iter().map(|&number| count(number)).sum();
        if known != own().count() || step.numbers().iter().any(|&number| count(number) == 0) {
            return Err(format!("{lines}these are not the numbers of {step:?}"));
        }
    }
    Ok(lines)
}

#[cfg(test)]
mod tests {
    use super::*;

    #[test]
    fn every_number_is_met() {
        let lines = counts(&crate::records(crate::Kind::Sequences));
        assert!(lines.is_ok(), "{lines:?}");
    }
}
