//! The reference's answers to the byte calls.

use crate::calls::{number, Call};
use crate::sheets::{List as Name, TOOL_LISTS};
use reference::groove::objective_master::ObjectiveMaster;
use reference::groove::vars::RelaxedIKVars;
use reference::record::record;
use reference::refusals::{self, f64s, u16s, Given, List, RecordRoom, Room, Sheet};
use reference::sheet;
use reference::sizing;
use reference::strict::Pick;
use reference::tools::{self, Tools, TOOLS};
use reference::weights::{self, Weighted};
use relaxed_ik::bytes::{put_floats, put_u16s};

/// What a call writes to one of its outputs.
#[derive(Debug)]
pub enum Written {
    Floats(Vec<f64>),
    U16s(Vec<u16>),
}

use Written::{Floats, U16s};

impl Written {
    /// In place of what `bytes` held.
    pub fn put(&self, bytes: &mut Vec<u8>) {
        match self {
            Floats(floats) => put_floats(floats, bytes),
            U16s(numbers) => put_u16s(numbers, bytes),
        }
    }
}

/// The reference's answers. It sees nothing but the bytes that the call is
/// lent, and keeps the arms made last, since many cases share a sheet.
#[derive(Default)]
pub struct Judge {
    decoded: Decoded,
    kept: Kept,
}

impl Judge {
    /// The number, and what is written if that is 0.
    pub fn answer(&mut self, call: Call, read: &[&[u8]], rooms: &[usize]) -> (u32, Vec<Written>) {
        let lent = self.decoded.lend(call, read);
        let number = lent.number(call, rooms);
        if number != refusals::ACCEPTED || rooms.is_empty() {
            return (number, Vec::new());
        }
        if call == Call::Sizing {
            return (number, vec![U16s(lent.plan())]);
        }
        let made = self.kept.made(read, &lent.given.sheet);
        (number, made.written(call, &lent))
    }
}

/// The lists decoded, in memory that is used again.
#[derive(Default)]
struct Decoded {
    sizes: Vec<u16>,
    codes: Vec<u16>,
    floats: Vec<f64>,
    limits: Vec<f64>,
    goals: Vec<f64>,
    history: Vec<f64>,
    weights: Vec<f64>,
    tools: [Vec<f64>; TOOLS],
    tool: Vec<f64>,
    joints: Vec<f64>,
}

/// What a call is lent. A list that it does not read is empty.
struct Lent<'a> {
    given: Given<'a>,
    joints: List<'a, f64>,
    /// To be set, on the chain of this number.
    tool: (List<'a, f64>, u32),
    pick: Pick,
}

impl Decoded {
    fn lend(&mut self, call: Call, read: &[&[u8]]) -> Lent<'_> {
        let list = |name: Name| {
            let mut lent = call.read().iter().zip(read);
            lent.find(|(own, _)| **own == name)
                .map_or(&[][..], |(_, bytes)| bytes)
        };
        let mut tools = [List::NONE; TOOLS];
        for ((tool, name), floats) in tools.iter_mut().zip(TOOL_LISTS).zip(&mut self.tools) {
            *tool = f64s(list(name), floats);
        }
        let chain = match call {
            Call::SetTool => number(list(Name::Chain)),
            _ => 0,
        };
        Lent {
            given: Given {
                sheet: Sheet {
                    sizes: u16s(list(Name::Sizes), &mut self.sizes),
                    codes: u16s(list(Name::Codes), &mut self.codes),
                    floats: f64s(list(Name::Floats), &mut self.floats),
                    limits: f64s(list(Name::Limits), &mut self.limits),
                },
                goals: f64s(list(Name::Goals), &mut self.goals),
                history: f64s(list(Name::History), &mut self.history),
                weights: f64s(list(Name::Weights), &mut self.weights),
                tools,
            },
            joints: f64s(list(Name::Joints), &mut self.joints),
            tool: (f64s(list(Name::Tool), &mut self.tool), chain),
            pick: Pick::of(number(list(Name::Strict))),
        }
    }
}

impl Lent<'_> {
    /// 0 or the number of the refusal, for outputs of so many bytes.
    fn number(&self, call: Call, rooms: &[usize]) -> u32 {
        let (given, joints) = (&self.given, self.joints);
        let (sheet, tools) = (&given.sheet, &given.tools);
        let room = |at: usize| match call.unit(at) {
            2 => Room::of_u16_bytes(rooms[at]),
            _ => Room::of_bytes(rooms[at]),
        };
        match call {
            Call::Load => refusals::load(sheet),
            Call::Sizing => refusals::sizing(sheet, room(0)),
            Call::SetGoals => refusals::set_goals(sheet, given.goals),
            Call::SetWeights => refusals::set_weights(given.weights),
            Call::SetTool => refusals::set_tool(sheet, self.tool.0, self.tool.1),
            Call::Frames => refusals::frames(sheet, joints, room(0), room(1)),
            Call::Pose => refusals::pose(sheet, tools, joints, room(0)),
            Call::Manipulability => refusals::manipulability(sheet, joints, room(0)),
            Call::Reset => refusals::reset(sheet, tools, joints, room(0), room(1)),
            Call::Update => refusals::update(sheet, given.history, joints, room(0)),
            Call::Objective => refusals::objective(given, joints, room(0)),
            Call::Gradient | Call::GradientFiniteDiff => {
                refusals::gradient(given, joints, room(0), room(1), room(2))
            }
            Call::GradientOneBlock => {
                let record = RecordRoom {
                    joints: room(2),
                    links: room(3),
                    poses: room(4),
                };
                refusals::gradient_one_block(given, joints, room(0), room(1), record)
            }
        }
    }

    fn tools(&self) -> Tools {
        tools::tools(&self.given.tools.map(|tool| tool.numbers))
    }

    /// What sizing writes. The arms kept have the limits of some sheet, so it has
    /// its own made.
    fn plan(&self) -> Vec<u16> {
        let Sheet {
            sizes,
            codes,
            floats,
            ..
        } = self.given.sheet;
        sizing::plan(self.pick, sizes.numbers, codes.numbers, floats.numbers).to_vec()
    }
}

/// The arms made last, and the sheet that they were made from.
#[derive(Default)]
struct Kept {
    made: Option<Made>,
    from: [Vec<u8>; 4],
}

impl Kept {
    /// Those of this sheet.
    fn made(&mut self, read: &[&[u8]], sheet: &Sheet) -> &mut Made {
        if self.from.iter().zip(read).any(|(a, b)| a != b) {
            self.made = None;
        }
        self.made.get_or_insert_with(|| {
            for (kept, list) in self.from.iter_mut().zip(read) {
                kept.clear();
                kept.extend_from_slice(list);
            }
            Made::new(sheet)
        })
    }
}

/// The published structures for a sheet; the master of a pick once it is asked for.
struct Made {
    vars: RelaxedIKVars,
    masters: [Option<Weighted>; Pick::BOTH.len()],
}

impl Made {
    fn new(sheet: &Sheet) -> Self {
        let (sizes, codes) = (sheet.sizes.numbers, sheet.codes.numbers);
        let (floats, limits) = (sheet.floats.numbers, sheet.limits.numbers);
        Self {
            vars: sheet::loaded(sheet::robot(sizes, codes, floats, limits)),
            masters: [None, None],
        }
    }

    /// What a call writes that takes what it is lent.
    fn written(&mut self, call: Call, lent: &Lent) -> Vec<Written> {
        let (vars, joints) = (&mut self.vars, lent.joints.numbers);
        let floats = match call {
            Call::Load | Call::SetGoals | Call::SetWeights | Call::SetTool => Vec::new(),
            Call::Frames => {
                let (positions, rotations) = sheet::frames(&vars.robot, joints);
                vec![positions, rotations]
            }
            Call::Pose => vec![tools::ends(&vars.robot, &lent.tools(), joints)],
            Call::Manipulability => vec![vec![vars.robot.get_manipulability_immutable(joints)]],
            Call::Reset => {
                tools::reset(vars, &lent.tools(), joints);
                vec![sheet::history(vars), sheet::start_ends(vars)]
            }
            Call::Update => {
                sheet::set_history(vars, lent.given.history.numbers);
                vars.update(joints.to_vec());
                vec![sheet::history(vars)]
            }
            _ => {
                sheet::set_goals(vars, lent.given.goals.numbers);
                sheet::set_history(vars, lent.given.history.numbers);
                return self.aimed(call, lent);
            }
        };
        floats.into_iter().map(Floats).collect()
    }

    /// What the calls on goals and history write, by the master of their pick that has
    /// the weights and tools which they are lent.
    fn aimed(&mut self, call: Call, lent: &Lent) -> Vec<Written> {
        let (vars, joints) = (&self.vars, lent.joints.numbers);
        let (weights, tools) = (lent.given.weights.numbers, lent.tools());
        let lengths = &vars.robot.chain_lengths;
        if tools.iter().any(Option::is_some) {
            let master = weights::master(lent.pick, lengths, weights);
            let master = tools::with_tools(lent.pick, master, &tools);
            return aimed(call, &master, vars, joints);
        }
        let own = &mut self.masters[lent.pick as usize];
        let own = own.get_or_insert_with(|| Weighted::new(lent.pick, lengths));
        own.set(weights);
        aimed(call, &own.master, vars, joints)
    }
}

/// What the calls on goals and history write at these joints. The one-block
/// gradient is judged by `gradient` and by walks of separate copies.
fn aimed(call: Call, master: &ObjectiveMaster, vars: &RelaxedIKVars, x: &[f64]) -> Vec<Written> {
    let two_blocks = |(value, slopes): (f64, Vec<f64>)| {
        // The scratch list ends equal to the joints.
        vec![Floats(x.to_vec()), Floats(vec![value]), Floats(slopes)]
    };
    match call {
        Call::Objective => vec![Floats(vec![master.call(x, vars)])],
        Call::Gradient => two_blocks(master.gradient(x, vars)),
        Call::GradientFiniteDiff => two_blocks(master.gradient_finite_diff(x, vars)),
        Call::GradientOneBlock => {
            let (value, slopes) = master.gradient(x, vars);
            let record = record(&vars.robot, x);
            vec![
                Floats(vec![value]),
                Floats(slopes),
                U16s(record.joints),
                U16s(record.links),
                Floats(record.poses),
            ]
        }
        _ => panic!("{call:?} looks at no goals"),
    }
}

#[cfg(test)]
mod tests {
    use super::*;
    use crate::calls::exact;
    use crate::draw::Draw;
    use crate::sheets::{shape, Lists};

    /// The lengths that are taken are those of what the published functions
    /// give, and no shorter ones.
    #[test]
    fn an_exact_room_is_filled() {
        let (mut draw, mut judge) = (Draw::new(5), Judge::default());
        for _ in 0..300 {
            let mut lists = Lists::of(&shape(&mut draw), &mut draw);
            for call in Call::ALL {
                call.renew(&mut lists, &mut draw);
                let read = call.lent(&lists);
                let mut rooms = exact(call, &lists);
                let (number, written) = judge.answer(call, &read, &rooms);
                let mut bytes = Vec::new();
                let lengths = written.iter().map(|list| {
                    list.put(&mut bytes);
                    bytes.len()
                });
                let lengths: Vec<usize> = lengths.collect();
                assert_eq!((number, &lengths), (0, &rooms), "{call:?}");
                for at in 0..rooms.len() {
                    let unit = call.unit(at);
                    for change in [unit, 1] {
                        rooms[at] -= change;
                        assert_eq!(judge.answer(call, &read, &rooms).0, 9, "{call:?} {at}");
                        rooms[at] += change;
                    }
                    rooms[at] += 1;
                    assert_eq!(judge.answer(call, &read, &rooms).0, 9, "{call:?} {at}");
                    rooms[at] -= 1;
                }
            }
        }
    }
}
