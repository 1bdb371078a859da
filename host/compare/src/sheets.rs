//! Lists for the byte calls: sheets that document 01 takes, with joints,
//! histories, goals, weights, tools and a pick, and the ways to spoil them.

use crate::draw::kind::Kind;
use crate::draw::Draw;
use crate::{strict, tools, weights};
use reference::refusals::{self, f64s, reach, u16s, BLOCKS};
use reference::sheet;
use reference::spacetime::robot::Robot;
use reference::tools::{ends, Tool as Mounted, Tools, TOOLS, TOOL_FLOATS};
use relaxed_ik::bytes::{put_floats, put_u16s};

/// The lists that are read, in the order of the byte calls.
#[derive(Clone, Copy, Debug, PartialEq)]
pub enum List {
    Sizes,
    Codes,
    Floats,
    Limits,
    Goals,
    History,
    Weights,
    Tool0,
    Tool1,
    Tool2,
    Tool3,
    Joints,
    /// That is set.
    Tool,
    /// The number of the chain on which it is: no list of the call, but four bytes
    /// that stand for it here.
    Chain,
    /// The number that picks a list of objectives, in the same way.
    Strict,
}

use List::{
    Chain, Codes, Floats, Goals, History, Joints, Limits, Sizes, Strict, Tool, Tool0, Tool1, Tool2,
    Tool3, Weights,
};

/// How many there are.
const LISTS: usize = Strict as usize + 1;
/// Those of the tools that are lent, by chain.
pub const TOOL_LISTS: [List; TOOLS] = [Tool0, Tool1, Tool2, Tool3];

/// Fixed, then revolute, continuous, prismatic and telescoping about every axis.
pub const CODES: [u16; 29] = [
    0, 10, 11, 12, 13, 14, 15, 16, 20, 21, 22, 23, 24, 25, 26, 30, 31, 32, 33, 34, 35, 36, 40, 41,
    42, 43, 44, 45, 46,
];
/// How many of them the published arm knows: all but the telescoping ones.
const PUBLISHED: usize = 22;
const UNLISTED: [u16; 15] = [37, 9, 47, 65535, 1, 6, 7, 17, 19, 27, 29, 39, 49, 50, 256];
/// How far a joint that slides may go, and one that turns.
const SLIDE: f64 = reach(30);
const TURNS: f64 = reach(10);
/// How far links and tools go, but for some.
const REACHES: [f64; 5] = [10.0, 2.0, 1.0, 0.5, 0.2];
const IDENTITY: [f64; 4] = [1.0, 0.0, 0.0, 0.0];

/// The codes of each chain's links.
pub type Shape = Vec<Vec<u16>>;

/// One case's lists in bytes, and the counts that they were made for.
#[derive(Default)]
pub struct Lists {
    bytes: [Vec<u8>; LISTS],
    pub chains: usize,
    pub links: usize,
    pub joints: usize,
    /// Links that the one-block gradient walks.
    pub walked: usize,
    /// Whether joints are mostly zeros, to go with a sheet of zeros.
    still: bool,
}

impl Lists {
    pub fn get(&self, list: List) -> &[u8] {
        &self.bytes[list as usize]
    }

    pub fn set_floats(&mut self, list: List, floats: &[f64]) {
        put_floats(floats, &mut self.bytes[list as usize]);
    }

    pub fn set(&mut self, list: List, bytes: &[u8]) {
        self.bytes[list as usize] = bytes.to_vec();
    }

    /// Takes the counts from sizes and codes, as far as these reach.
    pub fn count(&mut self) {
        let (mut sizes, mut codes) = (Vec::new(), Vec::new());
        u16s(self.get(Sizes), &mut sizes);
        u16s(self.get(Codes), &mut codes);
        let (chains, links) = sizes.split_first().unwrap_or((&0, &[]));
        let mut left = &codes[..];
        self.chains = usize::from(*chains).min(links.len());
        (self.links, self.joints, self.walked) = (0, 0, 0);
        for &count in &links[..self.chains] {
            let (chain, rest) = left.split_at(usize::from(count).min(left.len()));
            self.links += chain.len();
            self.joints += chain.iter().filter(|&&code| code != 0).count();
            self.walked += chain.len() + again(chain);
            left = rest;
        }
    }

    /// Takes over another's, in the memory at hand.
    pub fn copy(&mut self, other: &Self) {
        for (to, from) in self.bytes.iter_mut().zip(&other.bytes) {
            to.clone_from(from);
        }
        (self.chains, self.links, self.joints) = (other.chains, other.links, other.joints);
        self.walked = other.walked;
        self.still = other.still;
    }

    /// A sheet of this shape, its numbers drawn. Goals, history and joints are
    /// left empty.
    pub fn of(shape: &Shape, draw: &mut Draw) -> Self {
        let reach = draw.pick(&REACHES);
        Self::with(shape, draw, |draw| link(draw, reach), limits)
    }

    /// A sheet of zeros, ones and half turns. With anything else in a formula
    /// the sign of a zero is soon lost.
    pub fn still(shape: &Shape, draw: &mut Draw) -> Self {
        let mut lists = Self::with(shape, draw, still_link, |_| [-3.0, 3.0]);
        lists.still = true;
        lists
    }

    /// A sheet of links up 1, with wide limits.
    pub fn plain(shape: &Shape, draw: &mut Draw) -> Self {
        Self::with(
            shape,
            draw,
            |_| [0.0, 0.0, 1.0, 1.0, 0.0, 0.0, 0.0],
            |_| [-3.0, 3.0],
        )
    }

    fn with(
        shape: &Shape,
        draw: &mut Draw,
        link: impl Fn(&mut Draw) -> [f64; 7],
        limits: impl Fn(&mut Draw) -> [f64; 2],
    ) -> Self {
        let mut sizes = vec![shape.len() as u16];
        sizes.extend(shape.iter().map(|chain| chain.len() as u16));
        let codes = shape.concat();
        let joints = codes.iter().filter(|&&code| code != 0).count();
        let mut lists = Self {
            chains: shape.len(),
            links: codes.len(),
            joints,
            walked: codes.len() + shape.iter().map(|chain| again(chain)).sum::<usize>(),
            ..Self::default()
        };
        put_u16s(&sizes, &mut lists.bytes[Sizes as usize]);
        put_u16s(&codes, &mut lists.bytes[Codes as usize]);
        let floats: Vec<[f64; 7]> = codes.iter().map(|_| link(draw)).collect();
        lists.set_floats(Floats, floats.as_flattened());
        let limits: Vec<[f64; 2]> = (0..joints).map(|_| limits(draw)).collect();
        lists.set_floats(Limits, limits.as_flattened());
        lists
    }

    /// Draws these anew: goals, history, weights, tools, joints, the pick. A call that
    /// works with weights or tools is lent none as often as some; those that set them
    /// have some.
    pub fn renew(&mut self, lists: &[List], draw: &mut Draw) {
        let lent = lists.contains(&Joints);
        let mounted = lists.contains(&Tool0) && draw.word() % 2 == 0;
        for &list in lists {
            match list {
                Weights => {
                    let some = !lent || draw.word() % 2 == 0;
                    let drawn = some.then(|| weights::drawn(draw));
                    self.set_floats(list, drawn.as_ref().map_or(&[], |list| list));
                }
                Tool => self.set_floats(list, &self.tool(draw)),
                Chain => {
                    let chain = draw.below(self.chains.max(1)) as u32;
                    self.set(list, &chain.to_le_bytes());
                }
                Strict => self.set(list, &strict::drawn(draw).to_le_bytes()),
                Tool0 | Tool1 | Tool2 | Tool3 => {
                    let loaded = (list as usize) < Tool0 as usize + self.chains;
                    let some = mounted && loaded && draw.word() % 4 != 0;
                    let drawn = some.then(|| self.tool(draw));
                    self.set_floats(list, drawn.as_ref().map_or(&[], |list| list));
                }
                _ => self.renew_block(list, draw),
            }
        }
    }

    /// Goals, history or joints.
    fn renew_block(&mut self, list: List, draw: &mut Draw) {
        if list == Goals {
            let goals: Vec<[f64; 13]> = (0..self.chains).map(|_| goal(draw)).collect();
            self.set_floats(list, goals.as_flattened());
            return;
        }
        let blocks = if list == History { BLOCKS } else { 1 };
        let value = match (self.still, draw.word() % 4) {
            (true, _) => still_joint,
            // All within a slide's range.
            (false, 0) => near_joint,
            (false, _) => joint,
        };
        let codes = self.joint_codes().repeat(blocks);
        let values: Vec<f64> = codes.iter().map(|&code| value(draw, code)).collect();
        self.set_floats(list, &values);
    }

    /// As far as the links that were counted reach.
    pub fn joint_codes(&self) -> Vec<u16> {
        let mut codes = Vec::new();
        u16s(self.get(Codes), &mut codes);
        codes.truncate(self.links);
        codes.retain(|&code| code != 0);
        codes
    }

    /// Every joint at this value, or as near to it as the joint goes.
    pub fn set_joints(&mut self, value: f64) {
        let codes = self.joint_codes().into_iter();
        let values: Vec<f64> = codes.map(|code| reached(value, code)).collect();
        self.set_floats(Joints, &values);
    }

    /// A tool that is taken.
    fn tool(&self, draw: &mut Draw) -> [f64; TOOL_FLOATS] {
        match self.still {
            true => still_link(draw),
            false => {
                let reach = draw.pick(&REACHES);
                link(draw, reach)
            }
        }
    }

    /// The published arms with their tools, if the sheet is taken.
    fn arms(&self) -> Option<(Robot, Tools)> {
        let (mut sizes, mut codes) = (Vec::new(), Vec::new());
        let (mut floats, mut limits) = (Vec::new(), Vec::new());
        let sheet = refusals::Sheet {
            sizes: u16s(self.get(Sizes), &mut sizes),
            codes: u16s(self.get(Codes), &mut codes),
            floats: f64s(self.get(Floats), &mut floats),
            limits: f64s(self.get(Limits), &mut limits),
        };
        if refusals::load(&sheet) != refusals::ACCEPTED {
            return None;
        }
        let tools = TOOL_LISTS.map(|list| Mounted::of(&self.floats(list)));
        Some((sheet::robot(&sizes, &codes, &floats, &limits), tools))
    }

    fn floats(&self, list: List) -> Vec<f64> {
        let mut floats = Vec::new();
        f64s(self.get(list), &mut floats);
        floats
    }

    /// Brings joints, history and goals near each other. Drawn apart, most
    /// losses lie far out, where their exponential is 0. A sheet that is
    /// refused stays as it is.
    pub fn aim(&mut self, draw: &mut Draw) {
        let Some((robot, tools)) = self.arms() else {
            return;
        };
        let (mut joints, mut goals) = (self.floats(Joints), self.floats(Goals));
        let codes = self.joint_codes();
        if draw.word() % 2 == 0 {
            let (lower, upper) = (&robot.lower_joint_limits, &robot.upper_joint_limits);
            let limits = lower.iter().zip(upper).zip(&codes);
            for (joint, ((lower, upper), &code)) in joints.iter_mut().zip(limits) {
                if draw.word() % 4 != 0 {
                    *joint = reached(between_limits(draw, *lower, *upper), code);
                }
            }
            self.set_floats(Joints, &joints);
        }
        if draw.word() % 4 != 0 {
            self.set_floats(History, &recent(draw, &joints, &codes));
        }
        let at = match draw.word() % 2 {
            0 => joints,
            _ => beside(draw, &joints, &codes, 0.1),
        };
        let ends = ends(&robot, &tools, &at);
        for (goal, end) in goals.chunks_exact_mut(13).zip(ends.chunks_exact(7)) {
            if draw.word() % 4 != 0 {
                goal[..7].copy_from_slice(&near_goal(draw, end));
            }
            goal[7..].fill_with(|| tolerance(draw));
        }
        self.set_floats(Goals, &goals);
    }

    /// Puts the goals where the ends are, with what becomes of their rotations. A
    /// sheet that is refused stays as it is.
    pub fn meet(&mut self, turn: impl Fn([f64; 4]) -> [f64; 4]) {
        let Some((robot, tools)) = self.arms() else {
            return;
        };
        let mut goals = self.floats(Goals);
        let ends = ends(&robot, &tools, &self.floats(Joints));
        for (goal, end) in goals.chunks_exact_mut(13).zip(ends.chunks_exact(7)) {
            for (part, at) in goal.iter_mut().zip(&end[..3]) {
                *part = at.clamp(-100.0, 100.0);
            }
            let q = turn(as_turn([end[3], end[4], end[5], end[6]]));
            goal[3..7].copy_from_slice(&q);
        }
        self.set_floats(Goals, &goals);
    }

    /// Puts floats at a place, as far as the list reaches.
    pub fn put(&mut self, list: List, at: usize, floats: &[f64]) {
        let places = self.bytes[list as usize].chunks_exact_mut(8).skip(at);
        for (place, float) in places.zip(floats) {
            place.copy_from_slice(&float.to_le_bytes());
        }
    }

    fn put_u16(&mut self, list: List, at: usize, number: u16) {
        if let Some(place) = self.bytes[list as usize].chunks_exact_mut(2).nth(at) {
            place.copy_from_slice(&number.to_le_bytes());
        }
    }

    /// A drawn place among the groups of so many floats; 0 if there are none.
    fn place(&self, list: List, group: usize, draw: &mut Draw) -> usize {
        let groups = self.bytes[list as usize].len() / (8 * group);
        group * draw.below(groups.max(1))
    }

    pub fn spoil(&mut self, damage: Damage, draw: &mut Draw) {
        if damage.list() == Some(Weights) && self.get(Weights).is_empty() {
            self.set_floats(Weights, &weights::drawn(draw));
        }
        match damage {
            Damage::Length(list, change) => {
                let list = self.spoilt(list, draw);
                let unit = if matches!(list, Sizes | Codes) { 2 } else { 8 };
                change.apply(&mut self.bytes[list as usize], unit, draw);
            }
            Damage::Code(code) => self.spoil_codes(&[code], draw),
            // Takes joints away and leaves the limits.
            Damage::Fixed => self.spoil_codes(&[0, 0], draw),
            Damage::Chains(count) => self.put_u16(Sizes, 0, count),
            Damage::Links(count) => {
                let at = 1 + draw.below(self.chains.max(1));
                self.put_u16(Sizes, at, count);
            }
            Damage::Displacement(list, value) => {
                self.spoil_row(list, 7, draw, |draw| (draw.below(3), vec![value]))
            }
            Damage::Offset(list, edge) => {
                self.spoil_row(list, 7, draw, |draw| (3, turn(draw, edge).to_vec()))
            }
            Damage::OffsetPart(list, value) => {
                self.spoil_row(list, 7, draw, |draw| (3 + draw.below(4), vec![value]))
            }
            Damage::Unloaded(bytes) => self.spoil_unloaded(bytes, draw),
            Damage::Unnumbered(chain) => {
                let chain = chain.max(self.chains as u32);
                self.set(Chain, &chain.to_le_bytes());
            }
            Damage::Pair(lower, upper) => {
                self.spoil_row(Limits, 2, draw, |_| (0, vec![lower, upper]))
            }
            Damage::Narrow(edge) => {
                self.spoil_row(Limits, 2, draw, |draw| (0, narrow(draw, edge).to_vec()))
            }
            Damage::Value(list, value) => self.spoil_row(list, 1, draw, |_| (0, vec![value])),
            Damage::Joint(list, value) => {
                let (at, codes) = (self.place(list, 1, draw), self.joint_codes());
                let code = codes.get(at % codes.len().max(1)).copied().unwrap_or(0);
                self.put(list, at, &[value(code)]);
            }
            Damage::GoalPart(value) => {
                let part = draw.pick(&[0, 1, 2, 7, 8, 9, 10, 11, 12]);
                self.spoil_row(Goals, 13, draw, |_| (part, vec![value]));
            }
            Damage::GoalTurn(edge) => {
                self.spoil_row(Goals, 13, draw, |draw| (3, turn(draw, edge).to_vec()))
            }
        }
    }

    /// The list that is meant: of the tools that are lent that of a drawn chain, which
    /// gets a tool if it has none.
    fn spoilt(&mut self, list: List, draw: &mut Draw) -> List {
        if list != Tool0 {
            return list;
        }
        let list = TOOL_LISTS[draw.below(self.chains.clamp(1, TOOLS))];
        if self.get(list).is_empty() {
            self.set_floats(list, &self.tool(draw));
        }
        list
    }

    /// Lends so many bytes of a tool for a chain that is not loaded; where all are,
    /// the last one's tool is too long by that.
    fn spoil_unloaded(&mut self, bytes: usize, draw: &mut Draw) {
        let at = match self.chains {
            chains @ 0..TOOLS => chains + draw.below(TOOLS - chains),
            _ => TOOLS - 1,
        };
        let mut tool = Vec::new();
        push(&mut tool, &self.tool(draw));
        let list = &mut self.bytes[TOOL_LISTS[at] as usize];
        if at < self.chains && list.is_empty() {
            list.extend(&tool);
        }
        list.extend(&tool[..bytes]);
    }

    /// Puts these in the place of codes that are drawn.
    fn spoil_codes(&mut self, codes: &[u16], draw: &mut Draw) {
        let first = draw.below(self.bytes[Codes as usize].len() / 2 + 1);
        for (at, &code) in codes.iter().enumerate() {
            self.put_u16(Codes, first + at, code);
        }
    }

    /// Draws a row of so many floats, then where in it to put which.
    fn spoil_row(
        &mut self,
        list: List,
        width: usize,
        draw: &mut Draw,
        wrong: impl FnOnce(&mut Draw) -> (usize, Vec<f64>),
    ) {
        let list = self.spoilt(list, draw);
        let at = self.place(list, width, draw);
        let (part, floats) = wrong(draw);
        self.put(list, at + part, &floats);
    }
}

/// From each joint's link to the chain's end, all counted.
fn again(chain: &[u16]) -> usize {
    let joints = chain.iter().enumerate().filter(|(_, &code)| code != 0);
    joints.map(|(at, _)| chain.len() - at).sum()
}

fn push(bytes: &mut Vec<u8>, floats: &[f64]) {
    for float in floats {
        bytes.extend_from_slice(&float.to_le_bytes());
    }
}

/// Where a drawn group lies: anywhere that is taken, or as near as floats
/// allow to the edge, on this side or on that.
#[derive(Clone, Copy, Debug, PartialEq)]
pub enum Edge {
    In,
    JustIn,
    JustOut,
}

#[derive(Clone, Copy, Debug)]
pub enum Change {
    Short,
    Long,
    Empty,
    ByteLess,
    ByteMore,
    TimesOver,
}

impl Change {
    /// Those that every list has.
    const ALL: [Self; 5] = [
        Self::Short,
        Self::Long,
        Self::Empty,
        Self::ByteLess,
        Self::ByteMore,
    ];

    fn kind(self) -> Kind {
        match self {
            Self::Short | Self::Empty => Kind::Short,
            Self::Long | Self::TimesOver => Kind::Long,
            Self::ByteLess | Self::ByteMore => Kind::Ragged,
        }
    }

    /// What is added is the list's own last number, so that only the length is
    /// wrong.
    fn apply(self, bytes: &mut Vec<u8>, unit: usize, draw: &mut Draw) {
        let length = bytes.len();
        match self {
            Self::Short => bytes.truncate(length.saturating_sub(unit)),
            Self::Long if length >= unit => bytes.extend_from_within(length - unit..),
            Self::Long => bytes.resize(length + unit, 0),
            Self::Empty => bytes.clear(),
            Self::ByteLess => bytes.truncate(length.saturating_sub(1)),
            Self::ByteMore => bytes.push(draw.word() as u8),
            Self::TimesOver => *bytes = bytes.repeat(draw.pick(&[2, 3, 9, 32])),
        }
    }
}

/// By the joint's code.
type JointValue = fn(u16) -> f64;

#[derive(Clone, Copy, Debug)]
pub enum Damage {
    Length(List, Change),
    Code(u16),
    Fixed,
    Chains(u16),
    Links(u16),
    /// Of a link or of a tool.
    Displacement(List, f64),
    Offset(List, Edge),
    OffsetPart(List, f64),
    Pair(f64, f64),
    Narrow(Edge),
    Value(List, f64),
    /// A value in a block of joints.
    Joint(List, JointValue),
    GoalPart(f64),
    GoalTurn(Edge),
    /// So many bytes of a tool for a chain that is not loaded.
    Unloaded(usize),
    /// This chain, or the first one that is not loaded.
    Unnumbered(u32),
}

impl Damage {
    /// The list that it is done to, if that is one for all of its kind.
    fn list(self) -> Option<List> {
        match self {
            Self::Length(list, _) | Self::Value(list, _) | Self::Joint(list, _) => Some(list),
            Self::Displacement(list, _) | Self::Offset(list, _) => Some(list),
            Self::OffsetPart(list, _) => Some(list),
            Self::Unloaded(_) => Some(Tool0),
            _ => None,
        }
    }

    /// Whether its number comes after that of the outputs.
    pub fn is_late(self) -> bool {
        matches!(self.list(), Some(Weights | Tool0))
    }
}

/// Pairs of limits at the border: taken.
const BORDER_PAIRS: [(f64, f64); 3] = [(-999.0, 999.0), (-100.0, 100.0), (5.0, 5.001)];
const OUTSIDE_PAIRS: [(f64, f64); 14] = [
    (-999.0, 999.0f64.next_up()),
    (-999.0, 999.0f64.next_down()),
    ((-999.0f64).next_up(), 999.0),
    ((-999.0f64).next_down(), 999.0),
    (999.0, -999.0),
    (999.0, 999.0),
    (-999.0, 100.0),
    (-100.0, 999.0),
    ((-100.0f64).next_down(), 0.0),
    (0.0, 100.0f64.next_up()),
    (100.0, 100.0),
    (0.5, -0.5),
    (0.0, 0.0),
    (1.0, 1.001),
];
const NAN_PAIRS: [(f64, f64); 4] = [
    (f64::NAN, 1.0),
    (-1.0, f64::NAN),
    (f64::NEG_INFINITY, 1.0),
    (-1.0, f64::INFINITY),
];

/// In no range.
const NO_NUMBERS: [f64; 3] = [f64::NAN, f64::INFINITY, f64::NEG_INFINITY];

/// At the ends of a range from -`end` to `end`, one ulp outside of it, and what
/// is in no range.
fn values(end: f64) -> Vec<(Kind, f64)> {
    let beyond = end.next_up();
    let mut all = [end, -end].map(|v| (Kind::Border, v)).to_vec();
    all.extend([beyond, -beyond].map(|v| (Kind::Outside, v)));
    all.extend(NO_NUMBERS.map(|v| (Kind::Nan, v)));
    all
}

/// The same for a joint by its code; besides them a turning joint's values beyond a
/// slide's range, and on a slide those that a turning joint alone may have.
const JOINT_VALUES: [(Kind, JointValue); 8] = [
    (Kind::Border, reach),
    (Kind::Border, |code| -reach(code)),
    (Kind::Border, |code| SLIDE.next_up().min(reach(code))),
    (Kind::Border, |code| (-SLIDE).next_down().max(-reach(code))),
    (Kind::Outside, |code| reach(code).next_up()),
    (Kind::Outside, |code| (-reach(code)).next_down()),
    (Kind::Outside, |code| TURNS.max(reach(code).next_up())),
    (Kind::Outside, |code| {
        (-TURNS).min((-reach(code)).next_down())
    }),
];

/// On either side of the edge.
const SIDES: [(Kind, Edge); 2] = [(Kind::Border, Edge::JustIn), (Kind::Outside, Edge::JustOut)];

/// Every damage to the lists that a call reads, by its kind. Some are none: at
/// the border, and where a count or a pair is already there.
pub fn damages(read: &[List]) -> Vec<(Kind, Damage)> {
    let mut all = Vec::new();
    for &list in read {
        // The tools of all chains are spoilt in the first one's name; no pick is wrong.
        if matches!(list, Tool1 | Tool2 | Tool3 | Chain | Strict) {
            continue;
        }
        let kind = |change: Change| match (list, change) {
            // None loaded: taken, but by the calls that set them.
            (Weights, Change::Empty) if read.len() > 1 => Kind::Border,
            (Tool0, Change::Empty) => Kind::Border,
            _ => change.kind(),
        };
        all.extend(Change::ALL.map(|change| (kind(change), Damage::Length(list, change))));
    }
    if read.contains(&Sizes) {
        all.extend(arm_damages());
    }
    if read.contains(&Limits) {
        all.extend(pair_damages());
    }
    for list in [Joints, History] {
        if read.contains(&list) {
            all.extend(JOINT_VALUES.map(|(kind, v)| (kind, Damage::Joint(list, v))));
            all.extend(NO_NUMBERS.map(|v| (Kind::Nan, Damage::Value(list, v))));
        }
    }
    if read.contains(&Goals) {
        let part = |(kind, v)| (kind, Damage::GoalPart(v));
        all.extend(values(100.0).into_iter().map(part));
        all.extend(SIDES.map(|(kind, edge)| (kind, Damage::GoalTurn(edge))));
        all.push((Kind::Nan, Damage::Value(Goals, f64::NAN)));
    }
    if read.contains(&Weights) {
        all.extend(weights::damages());
    }
    all.extend(tools::damages(read));
    all
}

/// Those to sizes, codes and floats.
fn arm_damages() -> Vec<(Kind, Damage)> {
    let mut all = Vec::new();
    all.extend(UNLISTED.map(|code| (Kind::Codes, Damage::Code(code))));
    all.push((Kind::Codes, Damage::Fixed));
    all.extend([0, 1, 2, 3, 4, 5, 65535].map(|count| (Kind::Counts, Damage::Chains(count))));
    all.extend([0, 1, 16, 17, 65535].map(|count| (Kind::Counts, Damage::Links(count))));
    all.extend(link_damages(Floats));
    all
}

/// Those to a link, or to a tool, which is ranged as one.
pub fn link_damages(list: List) -> Vec<(Kind, Damage)> {
    let part = |kind: Kind| move |v: f64| (kind, Damage::OffsetPart(list, v));
    let mut all = Vec::new();
    let displacement = |(kind, v)| (kind, Damage::Displacement(list, v));
    all.extend(values(10.0).into_iter().map(displacement));
    all.extend(SIDES.map(|(kind, edge)| (kind, Damage::Offset(list, edge))));
    all.extend([f64::NAN, f64::INFINITY].map(part(Kind::Nan)));
    all.extend([1e-4, 1.1].map(part(Kind::Outside)));
    all
}

/// Those to a pair of limits.
fn pair_damages() -> Vec<(Kind, Damage)> {
    let pair = |kind: Kind| move |(lower, upper)| (kind, Damage::Pair(lower, upper));
    let mut all = Vec::new();
    all.extend(SIDES.map(|(kind, edge)| (kind, Damage::Narrow(edge))));
    all.extend(BORDER_PAIRS.map(pair(Kind::Border)));
    all.extend(OUTSIDE_PAIRS.map(pair(Kind::Outside)));
    all.extend(NAN_PAIRS.map(pair(Kind::Nan)));
    all
}

/// How long an output is, against what the call needs.
#[derive(Clone, Copy, Debug)]
pub enum Fit {
    Exact,
    Long,
    Longer,
    Short,
    ByteLess,
    ByteMore,
    FourMore,
    Empty,
}

impl Fit {
    pub const ALL: [Self; 8] = [
        Self::Exact,
        Self::Long,
        Self::Longer,
        Self::Short,
        Self::ByteLess,
        Self::ByteMore,
        Self::FourMore,
        Self::Empty,
    ];

    /// Those that a list of floats cannot be lent with. Of u16s four bytes more
    /// are two numbers more, and taken.
    pub const WRONG: [Self; 5] = [
        Self::Short,
        Self::ByteLess,
        Self::ByteMore,
        Self::FourMore,
        Self::Empty,
    ];

    /// For so many numbers of so many bytes each.
    pub fn bytes(self, numbers: usize, unit: usize) -> usize {
        let exact = unit * numbers;
        match self {
            Self::Exact => exact,
            Self::Long => exact + unit,
            Self::Longer => exact + 5 * unit,
            Self::Short => exact.saturating_sub(unit),
            Self::ByteLess => exact.saturating_sub(1),
            Self::ByteMore => exact + 1,
            Self::FourMore => exact + 4,
            Self::Empty => 0,
        }
    }
}

/// A shape that is taken: 1 to 4 chains, 2 to 16 joints in all.
pub fn shape(draw: &mut Draw) -> Shape {
    let chains = draw.pick(&[1, 1, 1, 1, 2, 2, 3, 4]);
    let all = match draw.word() % 8 {
        0 => 16,
        1 => 7.max(2 * chains),
        2 => 6.max(2 * chains),
        _ => 2 * chains + draw.below(17 - 2 * chains),
    };
    let mut joints = vec![2; chains];
    for _ in 2 * chains..all {
        joints[draw.below(chains)] += 1;
    }
    let later = joints[1..].iter().max().copied().unwrap_or(0);
    let mut links: Vec<usize> = joints.iter().map(|&n| n + fixed(draw, 16 - n)).collect();
    // Chain 0 has as many links as a later one has joints, often just so.
    if links[0] < later || draw.word() % 2 == 0 {
        links[0] = joints[0].max(later);
    }
    let style = draw.word();
    let chain = |(&links, &joints): (&usize, &usize)| chain(draw, links, joints, style);
    links.iter().zip(&joints).map(chain).collect()
}

/// How many fixed links a chain gets, at most so many.
fn fixed(draw: &mut Draw, most: usize) -> usize {
    match draw.word() % 8 {
        0..=2 => 0,
        3..=6 => draw.below(3).min(most),
        _ => draw.below(most + 1),
    }
}

/// Fixed links anywhere, with a liking for the first and the last place.
fn chain(draw: &mut Draw, links: usize, joints: usize, style: u64) -> Vec<u16> {
    let mut codes = vec![0; links];
    let mut places: Vec<usize> = (0..links).collect();
    let mut left = joints;
    for end in [links - 1, 0] {
        if places.len() > left && draw.word() % 2 == 0 {
            places.retain(|&place| place != end);
        }
    }
    while left > 0 {
        let at = draw.below(places.len());
        codes[places.swap_remove(at)] = joint_code(draw, style);
        left -= 1;
    }
    codes
}

/// The style says which kinds a sheet has. Half of the styles know no telescoping
/// joint: their sheets are judged by the published walk alone.
fn joint_code(draw: &mut Draw, style: u64) -> u16 {
    let axis = 1 + draw.below(6) as u16;
    let turning = draw.pick(&[10, 20]);
    match style % 16 {
        0..=2 => turning + axis,
        3 => turning + draw.below(7) as u16,
        4 if draw.word() % 4 == 0 => 30 + draw.below(7) as u16,
        4 => turning + axis,
        5 => 30 + draw.below(7) as u16,
        6 | 7 => draw.pick(&CODES[1..PUBLISHED]),
        // A mast or two on a turning arm.
        8..=10 if draw.word() % 3 == 0 => 40 + draw.below(7) as u16,
        8..=10 => turning + axis,
        // Hardly anything but masts.
        11 if draw.word() % 4 == 0 => draw.pick(&CODES[1..]),
        11 | 12 => 40 + draw.below(7) as u16,
        _ => draw.pick(&CODES[1..]),
    }
}

/// Shapes that are refused by 1 or by 4, with lists as they should be for
/// them.
pub fn refused_shape(draw: &mut Draw) -> Shape {
    let of = |draw: &mut Draw, counts: &[usize]| -> Shape {
        let style = draw.word();
        counts.iter().map(|&n| chain(draw, n, n, style)).collect()
    };
    match draw.word() % 8 {
        // One joint in a chain, or none.
        0 | 1 => {
            let mut shape = shape(draw);
            let at = draw.below(shape.len());
            let mut keep = draw.below(2);
            for code in &mut shape[at] {
                if *code != 0 {
                    *code = if keep > 0 { *code } else { 0 };
                    keep = keep.saturating_sub(1);
                }
            }
            shape
        }
        // 17 joints, or a few more.
        2 | 3 => {
            let first = 9 + draw.below(7);
            let rest = 17 - first + draw.below(2) * draw.below(3);
            match rest {
                4.. if draw.word() % 2 == 0 => of(draw, &[first, 2, rest - 2]),
                2.. => of(draw, &[first, rest]),
                _ => of(draw, &[first, 2]),
            }
        }
        // A later chain with one joint more than chain 0 has links.
        4 | 5 => {
            let first = 2 + draw.below(6);
            match draw.word() % 2 {
                0 => of(draw, &[first, first + 1]),
                _ => of(draw, &[first.min(6), 2, first.min(6) + 1]),
            }
        }
        6 => match draw.word() % 2 {
            0 => Vec::new(),
            _ => of(draw, &[4, 3, 3, 3, 3]),
        },
        _ => {
            let mut shape = shape(draw);
            let at = draw.below(shape.len());
            let count = draw.pick(&[0, 17]);
            shape[at].resize(count, 0);
            shape
        }
    }
}

/// A zero of either sign.
fn zero(draw: &mut Draw) -> f64 {
    draw.pick(&[0.0, -0.0])
}

/// Displacement and offset.
fn link(draw: &mut Draw, reach: f64) -> [f64; 7] {
    let [x, y, z] = match draw.word() % 8 {
        // A link without length.
        0 => [zero(draw), zero(draw), zero(draw)],
        1 => [0.0; 3].map(|_: f64| match draw.word() % 8 {
            0 => 10.0,
            1 => -10.0,
            2 => draw.small(60),
            3 => draw.subnormal(),
            4 | 5 => zero(draw),
            _ => draw.between(-reach, reach),
        }),
        _ => [0.0; 3].map(|_: f64| draw.between(-reach, reach)),
    };
    let [w, i, j, k] = turn(draw, Edge::In);
    [x, y, z, w, i, j, k]
}

fn still_link(draw: &mut Draw) -> [f64; 7] {
    let mut link = [0.0; 7].map(|_: f64| zero(draw));
    if draw.word() % 4 == 0 {
        link[draw.below(3)] = draw.pick(&[1.0, -1.0]);
    }
    // Half of the offsets turn nothing, and are skipped.
    let part = draw.pick(&[0, 0, 0, 1, 2, 3]);
    link[3 + part] = draw.pick(&[1.0, -1.0]);
    link
}

fn is_turn([w, i, j, k]: [f64; 4]) -> bool {
    (0.999999999..=1.000000001).contains(&(w * w + i * i + j * j + k * k))
}

/// What many offsets make of a turn may be none any more.
fn as_turn(q: [f64; 4]) -> [f64; 4] {
    match is_turn(q) {
        true => q,
        false => {
            let length = (q[0] * q[0] + q[1] * q[1] + q[2] * q[2] + q[3] * q[3]).sqrt();
            q.map(|c| c / length)
        }
    }
}

fn unit(draw: &mut Draw) -> [f64; 4] {
    let q = [0.0; 4].map(|_: f64| draw.between(-1.0, 1.0));
    let size = (q[0] * q[0] + q[1] * q[1] + q[2] * q[2] + q[3] * q[3]).sqrt();
    let q = q.map(|c| c / size);
    // A draw of zeros would have no direction.
    if is_turn(q) {
        q
    } else {
        IDENTITY
    }
}

fn turn(draw: &mut Draw, edge: Edge) -> [f64; 4] {
    if edge != Edge::In {
        return edge_turn(draw, edge);
    }
    match draw.word() % 16 {
        // None, which is skipped whatever the zeros' signs.
        0..=3 => [1.0, zero(draw), zero(draw), zero(draw)],
        4 | 5 => [-1.0, zero(draw), zero(draw), zero(draw)],
        6 => edge_turn(draw, Edge::JustIn),
        // About one axis.
        7 => {
            let [a, b, ..] = unit(draw);
            let size = (a * a + b * b).sqrt();
            let mut q = [a / size, zero(draw), zero(draw), zero(draw)];
            q[1 + draw.below(3)] = b / size;
            if is_turn(q) {
                q
            } else {
                IDENTITY
            }
        }
        // Hardly any, which is not skipped.
        8 => {
            let mut q = [draw.pick(&[1.0, -1.0]), 0.0, 0.0, 0.0];
            q[1 + draw.below(3)] = match draw.word() % 2 {
                0 => draw.subnormal(),
                _ => draw.small(900) * 1e-12,
            };
            q
        }
        // By half.
        9 => {
            let mut q = [0.0; 4].map(|_: f64| zero(draw));
            q[1 + draw.below(3)] = draw.pick(&[1.0, -1.0]);
            q
        }
        _ => unit(draw),
    }
}

/// The largest part is moved by ulps across the tolerance's edge.
fn edge_turn(draw: &mut Draw, edge: Edge) -> [f64; 4] {
    let end = draw.pick(&[0.999999999f64, 1.000000001]);
    let mut q = match draw.word() % 4 {
        0 => [draw.pick(&[1.0, -1.0]), zero(draw), zero(draw), zero(draw)],
        _ => unit(draw),
    };
    q = q.map(|c| c * end.sqrt());
    let mut at = 0;
    for other in 1..4 {
        if q[other].abs() > q[at].abs() {
            at = other;
        }
    }
    let larger = |v: f64| v.signum() * v.abs().next_up();
    let smaller = |v: f64| v.signum() * v.abs().next_down();
    let (inwards, outwards): (&dyn Fn(f64) -> f64, &dyn Fn(f64) -> f64) = if end > 1.0 {
        (&smaller, &larger)
    } else {
        (&larger, &smaller)
    };
    while is_turn(q) {
        q[at] = outwards(q[at]);
    }
    let mut out = q;
    while !is_turn(q) {
        out = q;
        q[at] = inwards(q[at]);
    }
    match edge {
        Edge::JustOut => out,
        _ => q,
    }
}

fn limits(draw: &mut Draw) -> [f64; 2] {
    match draw.word() % 8 {
        0 | 1 => [-999.0, 999.0],
        2 => [-100.0, 100.0],
        3 => narrow(draw, Edge::JustIn),
        4 => {
            let end = draw.pick(&[SLIDE, TURNS]);
            [-end, end]
        }
        5 => {
            let lower = draw.between(-100.0, 99.9);
            [lower, draw.between(lower + 0.0011, 100.0)]
        }
        _ => [draw.between(-3.2, 0.0), draw.between(0.1, 3.2)],
    }
}

/// A pair about 0.001 apart. Beside a small number the difference rounds, so
/// some lie on the other side of the edge before that.
fn narrow(draw: &mut Draw, edge: Edge) -> [f64; 2] {
    let lower = match draw.word() % 8 {
        0 => zero(draw),
        1 => draw.small(60) * 1e-4,
        2 => draw.small(200) * 1e-12,
        3 => draw.between(-0.0009, 0.001),
        4 => draw.pick(&[1.0, 5.0, -100.0, 99.999, -5.001, -1.001]),
        5 => draw.subnormal(),
        _ => draw.between(-100.0, 99.99),
    };
    let apart = |upper: f64| upper - lower >= 0.001;
    let mut upper = lower + 0.001;
    for _ in 0..64 {
        if apart(upper) {
            upper = upper.next_down();
        }
    }
    for _ in 0..64 {
        if !apart(upper.next_up()) {
            upper = upper.next_up();
        }
    }
    match edge {
        Edge::JustOut => [lower, upper],
        _ if apart(upper.next_up()) && upper.next_up() <= 100.0 => [lower, upper.next_up()],
        _ => [5.0, 5.001],
    }
}

/// As far as the joint goes.
fn reached(value: f64, code: u16) -> f64 {
    let reach = reach(code);
    value.clamp(-reach, reach)
}

/// Half of a turning joint's values are those of one that has turned on.
fn joint(draw: &mut Draw, code: u16) -> f64 {
    match reach(code) == TURNS && draw.word() % 2 == 0 {
        true => far_joint(draw),
        false => near_joint(draw, code),
    }
}

/// Where any joint may be.
fn near_joint(draw: &mut Draw, _: u16) -> f64 {
    match draw.word() % 16 {
        0 => SLIDE,
        1 => -SLIDE,
        2 => 0.0,
        3 => -0.0,
        4 => draw.small(60),
        5 => draw.subnormal(),
        6 => {
            let quarter = std::f64::consts::FRAC_PI_2;
            draw.pick(&[quarter, -quarter, 2.0 * quarter, -2.0 * quarter])
        }
        7 | 8 => draw.between(-1.0, 1.0),
        _ => draw.between(-SLIDE, SLIDE),
    }
}

/// At the end of a turning joint's range, just beyond a slide's, where half of it begins
/// to be reduced, at so many half turns, or anywhere.
fn far_joint(draw: &mut Draw) -> f64 {
    let sign = draw.pick(&[1.0, -1.0]);
    match draw.word() % 8 {
        0 => sign * draw.pick(&[TURNS, TURNS.next_down()]),
        1 => sign * draw.pick(&[SLIDE, SLIDE.next_up(), SLIDE.next_down()]),
        2 => sign * draw.beside(9.0, 1),
        3 | 4 => draw.half_turns(20),
        _ => draw.between(-TURNS, TURNS),
    }
}

/// Mostly a zero; the sine of so many half turns is often one too.
fn still_joint(draw: &mut Draw, code: u16) -> f64 {
    match draw.word() % 8 {
        0 => joint(draw, code),
        1 if reach(code) == TURNS => draw.half_turns(20),
        _ => zero(draw),
    }
}

/// Position, quaternion, six tolerances.
#[allow(clippy::approx_constant)]
fn goal(draw: &mut Draw) -> [f64; 13] {
    let mut goal = [0.0; 13].map(|_: f64| match draw.word() % 8 {
        0 => draw.pick(&[100.0, -100.0]),
        1 => zero(draw),
        2 => draw.pick(&[0.01, 0.05, 3.14159260, 3.2]),
        3 => draw.small(60),
        _ => draw.between(-100.0, 100.0),
    });
    goal[3..7].copy_from_slice(&turn(draw, Edge::In));
    goal
}

/// Inside, at an end, or a little beyond.
fn between_limits(draw: &mut Draw, lower: f64, upper: f64) -> f64 {
    match draw.word() % 4 {
        0 => draw.pick(&[lower, upper]),
        1 => lower + (upper - lower) * draw.between(-0.05, 1.05),
        _ => draw.between(lower, upper),
    }
}

/// The joints moved by up to so much, as far as they go.
fn beside(draw: &mut Draw, joints: &[f64], codes: &[u16], size: f64) -> Vec<f64> {
    let moved = |(v, &code): (&f64, &u16)| reached(v + draw.between(-size, size), code);
    joints.iter().zip(codes).map(moved).collect()
}

/// A history that leads to these joints: at rest, or by steps of a size.
fn recent(draw: &mut Draw, joints: &[f64], codes: &[u16]) -> Vec<f64> {
    if draw.word() % 8 == 0 {
        return joints.repeat(BLOCKS);
    }
    let size = draw.pick(&[1e-9, 1e-6, 1e-3, 0.01, 0.05, 0.2]);
    let mut history = Vec::new();
    let mut block = joints.to_vec();
    for _ in 0..BLOCKS {
        block = beside(draw, &block, codes, size);
        history.extend_from_slice(&block);
    }
    history
}

/// An end pose, moved or not, turned or not, of either sign, and half a turn away.
fn near_goal(draw: &mut Draw, end: &[f64]) -> [f64; 7] {
    let size = draw.pick(&[0.0, 0.0, 1e-9, 1e-3, 0.01, 0.1, 1.0]);
    let mut goal = [0.0; 7];
    goal.copy_from_slice(end);
    for part in &mut goal[..3] {
        // Nothing is added for no size: a zero keeps its sign.
        if size > 0.0 {
            *part += draw.between(-size, size);
        }
        *part = part.clamp(-100.0, 100.0);
    }
    let mut q = [goal[3], goal[4], goal[5], goal[6]];
    if size > 0.0 && draw.word() % 2 == 0 {
        q = q.map(|c| c + draw.between(-size, size));
    }
    q = as_turn(q);
    if draw.word() % 4 == 0 {
        q = draw.turned(q);
    }
    goal[3..].copy_from_slice(if is_turn(q) { &q } else { &IDENTITY });
    goal
}

/// Of all three kinds, with the neighbours of where the kind changes.
#[allow(clippy::approx_constant)]
fn tolerance(draw: &mut Draw) -> f64 {
    let (groove, swamp) = (0.01f64, 3.14159260f64);
    match draw.word() % 8 {
        0 => draw.pick(&[0.0, -0.0, groove, -1.0, -100.0]),
        1 => draw.pick(&[groove, groove.next_down(), groove.next_up()]),
        2 => draw.pick(&[swamp, swamp.next_down(), swamp.next_up()]),
        3 => draw.pick(&[100.0, 3.2, std::f64::consts::PI]),
        4 => draw.between(groove, 0.1),
        5 => draw.between(groove, swamp),
        6 => draw.between(-groove, groove),
        _ => draw.between(groove, 100.0),
    }
}

#[cfg(test)]
mod tests {
    use super::*;
    use reference::refusals::{load, Sheet};

    fn loaded(lists: &Lists) -> u32 {
        let (mut sizes, mut codes) = (Vec::new(), Vec::new());
        let (mut floats, mut limits) = (Vec::new(), Vec::new());
        load(&Sheet {
            sizes: u16s(lists.get(Sizes), &mut sizes),
            codes: u16s(lists.get(Codes), &mut codes),
            floats: f64s(lists.get(Floats), &mut floats),
            limits: f64s(lists.get(Limits), &mut limits),
        })
    }

    #[test]
    fn drawn_sheets_are_taken_and_differ() {
        let mut draw = Draw::new(2);
        let (mut chains, mut joints) = ([false; 5], [false; 17]);
        let (mut codes, mut ends) = ([false; 47], [false; 2]);
        let mut edge = false;
        for _ in 0..20_000 {
            let shape = shape(&mut draw);
            let lists = Lists::of(&shape, &mut draw);
            assert_eq!(loaded(&lists), 0, "{shape:?}");
            assert_eq!(loaded(&Lists::still(&shape, &mut draw)), 0, "{shape:?}");
            chains[lists.chains] = true;
            joints[lists.joints] = true;
            for chain in &shape {
                chain.iter().for_each(|&code| codes[code as usize] = true);
                ends[0] |= chain[0] == 0;
                ends[1] |= chain[chain.len() - 1] == 0;
            }
            let count = |chain: &Vec<u16>| chain.iter().filter(|&&code| code != 0).count();
            edge |= shape[1..]
                .iter()
                .any(|chain| count(chain) == shape[0].len());
        }
        assert!(chains[1..].iter().all(|&met| met));
        assert!(joints[2..].iter().all(|&met| met));
        assert!(CODES.iter().all(|&code| codes[code as usize]));
        assert!(ends == [true; 2] && edge);
    }

    /// About half of the sheets are the published walk's alone, the others mix all
    /// kinds, and some have hardly anything but telescoping joints.
    #[test]
    fn half_of_the_sheets_telescope() {
        let mut draw = Draw::new(2);
        let (mut none, mut mixed, mut most) = (0, 0, 0);
        for _ in 0..20_000 {
            let codes = shape(&mut draw).concat();
            let joints = codes.iter().filter(|&&code| code != 0).count();
            match codes.iter().filter(|&&code| code >= 40).count() {
                0 => none += 1,
                masts if 2 * masts > joints => most += 1,
                _ => mixed += 1,
            }
        }
        assert!((10_000..12_000).contains(&none), "{none}");
        assert!(mixed > 4_000 && most > 2_000, "{mixed}, {most}");
        assert!(CODES[..PUBLISHED].iter().all(|&code| code < 40));
        assert!(CODES[PUBLISHED..].iter().all(|&code| code >= 40));
    }

    /// A slide stays within its range. Of a turning joint's values more than half do so
    /// too, many lie beyond, and those are met at which something changes.
    #[test]
    fn joints_are_drawn_by_their_code() {
        let mut draw = Draw::new(2);
        for &code in &CODES[1..] {
            let values: Vec<f64> = (0..50_000).map(|_| joint(&mut draw, code)).collect();
            assert!(values.iter().all(|v| v.abs() <= reach(code)), "{code}");
            let beyond = values.iter().filter(|v| v.abs() > SLIDE).count();
            let turns = reach(code) == TURNS;
            assert_eq!(
                (15_000..25_000).contains(&beyond),
                turns,
                "{code}, {beyond}"
            );
            // Half of these is 4.5, a whole turn, and two turns and a half.
            for angle in [9.0f64, 12.566370614359172, 31.41592653589793] {
                let around = [angle, angle.next_up(), angle.next_down()];
                let ends = [TURNS, TURNS.next_down(), SLIDE.next_up()];
                for v in around.into_iter().chain(ends) {
                    let met = values.contains(&v) && values.contains(&-v);
                    assert_eq!(met, turns, "{code}, {v:e}");
                }
            }
        }
    }

    #[test]
    fn refused_shapes_are_refused_for_their_shape() {
        let mut draw = Draw::new(2);
        let mut met = [0; 7];
        for _ in 0..20_000 {
            let shape = refused_shape(&mut draw);
            met[loaded(&Lists::of(&shape, &mut draw)) as usize] += 1;
        }
        assert!(met[1] > 1_000 && met[4] > 1_000, "{met:?}");
        assert_eq!(met[1] + met[4], 20_000, "{met:?}");
    }

    /// What lies on an edge lies on the side that is asked for.
    #[test]
    fn edges_are_just_in_and_just_out() {
        let mut draw = Draw::new(2);
        for _ in 0..20_000 {
            assert!(is_turn(turn(&mut draw, Edge::In)));
            assert!(is_turn(turn(&mut draw, Edge::JustIn)));
            assert!(!is_turn(turn(&mut draw, Edge::JustOut)));
            let [lower, upper] = narrow(&mut draw, Edge::JustIn);
            assert!(upper - lower >= 0.001 && upper <= 100.0 && lower >= -100.0);
            let [lower, upper] = narrow(&mut draw, Edge::JustOut);
            assert!(upper - lower < 0.001, "{lower:e} {upper:e}");
            assert!(upper.next_up() - lower >= 0.001, "{lower:e} {upper:e}");
        }
    }

    /// What is brought near is still taken.
    #[test]
    fn aimed_lists_are_taken() {
        let mut draw = Draw::new(2);
        let (mut kinds, mut weighted, mut mounted) = ([0; 3], 0, [0; 3]);
        for _ in 0..5_000 {
            let shape = shape(&mut draw);
            let mut lists = match draw.word() % 4 {
                0 => Lists::still(&shape, &mut draw),
                _ => Lists::of(&shape, &mut draw),
            };
            let own = [Goals, History, Weights, Tool0, Tool1, Tool2, Tool3, Joints];
            lists.renew(&own, &mut draw);
            lists.aim(&mut draw);
            let (mut sizes, mut codes) = (Vec::new(), Vec::new());
            let (mut floats, mut limits) = (Vec::new(), Vec::new());
            let (mut goals, mut history, mut joints) = (Vec::new(), Vec::new(), Vec::new());
            let mut weights = Vec::new();
            let mut tools: [Vec<f64>; TOOLS] = Default::default();
            for (list, floats) in TOOL_LISTS.into_iter().zip(&mut tools) {
                f64s(lists.get(list), floats);
            }
            let given = refusals::Given {
                sheet: Sheet {
                    sizes: u16s(lists.get(Sizes), &mut sizes),
                    codes: u16s(lists.get(Codes), &mut codes),
                    floats: f64s(lists.get(Floats), &mut floats),
                    limits: f64s(lists.get(Limits), &mut limits),
                },
                goals: f64s(lists.get(Goals), &mut goals),
                history: f64s(lists.get(History), &mut history),
                weights: f64s(lists.get(Weights), &mut weights),
                tools: tools.each_ref().map(|tool| refusals::List::of(&tool[..])),
            };
            let joints = f64s(lists.get(Joints), &mut joints);
            let value = refusals::Room::of(1);
            assert_eq!(refusals::objective(&given, joints, value), 0, "{shape:?}");
            weighted += usize::from(!weights.is_empty());
            // None, some or all of the chains have a tool.
            let count = tools.iter().filter(|tool| !tool.is_empty()).count();
            mounted[usize::from(count > 0) + usize::from(count == lists.chains)] += 1;
            for &t in goals.chunks_exact(13).flat_map(|goal| &goal[7..]) {
                #[allow(clippy::approx_constant)]
                let kind = usize::from(t > 0.01) + usize::from(t >= 3.14159260);
                kinds[kind] += 1;
            }
        }
        assert!(kinds.iter().all(|&met| met > 10_000), "{kinds:?}");
        assert!((2_000..3_000).contains(&weighted), "{weighted}");
        assert!(mounted.iter().all(|&met| met > 500), "{mounted:?}");
    }

    #[test]
    fn a_changed_length_is_just_that() {
        let mut draw = Draw::new(2);
        let changed = |change: Change, draw: &mut Draw| {
            let mut bytes = vec![1, 2, 3, 4];
            change.apply(&mut bytes, 2, draw);
            bytes
        };
        assert_eq!(changed(Change::Short, &mut draw), [1, 2]);
        assert_eq!(changed(Change::Long, &mut draw), [1, 2, 3, 4, 3, 4]);
        assert!(changed(Change::Empty, &mut draw).is_empty());
        assert_eq!(changed(Change::ByteLess, &mut draw), [1, 2, 3]);
        assert_eq!(changed(Change::ByteMore, &mut draw)[..4], [1, 2, 3, 4]);
        assert!(changed(Change::TimesOver, &mut draw).len() >= 8);
    }
}
