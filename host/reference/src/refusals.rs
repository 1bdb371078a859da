//! Ours, no part of the published files: the refusals 1 to 9 of document 01's
//! section 'From the input', 7 by the ranges of document 02's change 7, and 10 and 11
//! of its changes 2 and 3, written from the papers, apart from the proved code. Each
//! public call below answers 0 or the lowest number that applies.
//! The state numbers 20 to 22 are no concern here: a byte call keeps no state.

use crate::sheet::{END_FLOATS, GOAL_FLOATS, LINK_FLOATS};
use crate::sizing::PLAN;
use crate::tools::{TOOLS, TOOL_FLOATS};
use crate::weights::WEIGHTS;

/// The answer of a call that is not refused.
pub const ACCEPTED: u32 = 0;
/// A history's blocks: current, then three earlier ones.
pub const BLOCKS: usize = 4;

/// A list that is read. One that came as bytes may be ragged, which is a wrong
/// length whatever the count.
#[derive(Clone, Copy, Debug)]
pub struct List<'a, T> {
    pub numbers: &'a [T],
    pub ragged: bool,
}

impl<'a, T> List<'a, T> {
    pub fn of(numbers: &'a [T]) -> Self {
        Self {
            numbers,
            ragged: false,
        }
    }

    fn has(&self, count: usize) -> bool {
        !self.ragged && self.numbers.len() == count
    }

    /// Without a number.
    pub const NONE: Self = Self {
        numbers: &[],
        ragged: false,
    };

    /// Not a byte: a part of a number is one that is lent.
    fn is_none(&self) -> bool {
        self.has(0)
    }
}

/// A list that is written: how many floats it takes, or u16s.
#[derive(Clone, Copy, Debug)]
pub struct Room {
    pub numbers: usize,
    pub ragged: bool,
}

impl Room {
    pub fn of(numbers: usize) -> Self {
        Self {
            numbers,
            ragged: false,
        }
    }

    /// For floats.
    pub fn of_bytes(bytes: usize) -> Self {
        Self::of_units(bytes, 8)
    }

    pub fn of_u16_bytes(bytes: usize) -> Self {
        Self::of_units(bytes, 2)
    }

    fn of_units(bytes: usize, unit: usize) -> Self {
        Self {
            numbers: bytes / unit,
            ragged: bytes % unit != 0,
        }
    }

    /// Longer will do, ragged never.
    fn holds(&self, numbers: usize) -> bool {
        !self.ragged && self.numbers >= numbers
    }
}

/// The u16s of little-endian bytes, in place of what `numbers` held. A part of
/// a number at the end makes the list ragged.
pub fn u16s<'a>(bytes: &[u8], numbers: &'a mut Vec<u16>) -> List<'a, u16> {
    let whole = bytes.chunks_exact(2);
    let ragged = !whole.remainder().is_empty();
    numbers.clear();
    numbers.extend(whole.map(|b| u16::from_le_bytes([b[0], b[1]])));
    List { numbers, ragged }
}

/// The same with floats.
pub fn f64s<'a>(bytes: &[u8], numbers: &'a mut Vec<f64>) -> List<'a, f64> {
    let whole = bytes.chunks_exact(8);
    let ragged = !whole.remainder().is_empty();
    numbers.clear();
    numbers.extend(whole.map(|b| f64::from_le_bytes(b.try_into().expect("eight bytes"))));
    List { numbers, ragged }
}

/// What loading takes. The counts below mean something once refusals 1 and 2
/// do not apply.
#[derive(Clone, Copy, Debug)]
pub struct Sheet<'a> {
    pub sizes: List<'a, u16>,
    pub codes: List<'a, u16>,
    pub floats: List<'a, f64>,
    pub limits: List<'a, f64>,
}

impl Sheet<'_> {
    /// Links of each chain.
    fn links(&self) -> impl Iterator<Item = usize> + '_ {
        self.sizes.numbers[1..].iter().map(|&l| usize::from(l))
    }

    /// Joints of each chain: its links that are not fixed.
    fn joints(&self) -> impl Iterator<Item = usize> + '_ {
        let mut codes = self.codes.numbers.iter();
        self.links()
            .map(move |l| codes.by_ref().take(l).filter(|&&code| code != 0).count())
    }

    fn chains(&self) -> usize {
        self.links().count()
    }

    fn all_links(&self) -> usize {
        self.links().sum()
    }

    fn all_joints(&self) -> usize {
        self.joints().sum()
    }

    /// The joints' codes across chains, in the order of a block's values.
    fn joint_codes(&self) -> impl Iterator<Item = u16> + Clone + '_ {
        let codes = self.codes.numbers.iter().copied();
        codes.filter(|&code| code != 0)
    }

    /// Links that the one-block call walks: all of them once, then for each
    /// joint those from its link to its chain's end.
    fn walked(&self) -> usize {
        let mut codes = self.codes.numbers;
        let mut again = 0;
        for links in self.links() {
            let (chain, rest) = codes.split_at(links);
            let joints = chain.iter().enumerate().filter(|(_, &code)| code != 0);
            again += joints.map(|(at, _)| links - at).sum::<usize>();
            codes = rest;
        }
        self.all_links() + again
    }
}

/// By chain; empty for none.
pub type Tools<'a> = [List<'a, f64>; TOOLS];

/// What the objective and its slopes are lent besides the joints.
#[derive(Clone, Copy, Debug)]
pub struct Given<'a> {
    pub sheet: Sheet<'a>,
    pub goals: List<'a, f64>,
    pub history: List<'a, f64>,
    /// Empty for none loaded.
    pub weights: List<'a, f64>,
    pub tools: Tools<'a>,
}

/// The three lists of the one-block call's record.
#[derive(Clone, Copy, Debug)]
pub struct RecordRoom {
    pub joints: Room,
    pub links: Room,
    pub poses: Room,
}

/// NaN is within no range.
fn within(v: f64, low: f64, high: f64) -> bool {
    low <= v && v <= high
}

/// The squares' sum, w first, each step rounded.
fn is_turn(q: &[f64]) -> bool {
    let sum = q[0] * q[0] + q[1] * q[1] + q[2] * q[2] + q[3] * q[3];
    within(sum, 0.999999999, 1.000000001)
}

/// 1.
fn wrong_sizes(sizes: List<u16>) -> bool {
    match sizes.numbers {
        [] => true,
        [chains, links @ ..] => {
            !sizes.has(usize::from(*chains) + 1)
                || !(1..=4).contains(chains)
                || links.iter().any(|l| !(1..=16).contains(l))
        }
    }
}

/// 2.
fn wrong_arrays(sheet: &Sheet) -> bool {
    let links = sheet.all_links();
    !sheet.codes.has(links) || !sheet.floats.has(LINK_FLOATS * links)
}

/// 3. Document 02's change 6 adds the last seven.
fn unlisted(code: u16) -> bool {
    !matches!(code, 0 | 10..=16 | 20..=26 | 30..=36 | 40..=46)
}

/// 4. The pairs of every chain look at arm 0, hence the last clause.
fn wrong_joints(sheet: &Sheet) -> bool {
    let first_links = sheet.links().next().unwrap_or(0);
    sheet.joints().any(|n| n < 2)
        || sheet.all_joints() > 16
        || sheet.joints().skip(1).any(|n| n > first_links)
}

/// 5. The difference rounds before it is compared.
fn wrong_limits(sheet: &Sheet) -> bool {
    let allowed = |lower: f64, upper: f64| {
        lower == -999.0 && upper == 999.0
            || within(lower, -100.0, 100.0)
                && within(upper, -100.0, 100.0)
                && upper - lower >= 0.001
    };
    !sheet.limits.has(2 * sheet.all_joints())
        || !sheet
            .limits
            .numbers
            .chunks_exact(2)
            .all(|pair| allowed(pair[0], pair[1]))
}

/// Displacement and offset.
fn wrong_link(link: &[f64]) -> bool {
    !link[..3].iter().all(|&v| within(v, -10.0, 10.0)) || !is_turn(&link[3..])
}

/// 6.
fn wrong_links(sheet: &Sheet) -> bool {
    let mut links = sheet.floats.numbers.chunks_exact(LINK_FLOATS);
    links.any(wrong_link)
}

/// How far a joint of this code goes, either way. Document 02's change 7 lets one that
/// turns count on through several turns.
pub const fn reach(code: u16) -> f64 {
    match code {
        10..=16 | 20..=26 => 64.0,
        _ => 8.0,
    }
}

/// 7, for so many blocks of joints in one list.
fn wrong_blocks(list: List<f64>, sheet: &Sheet, blocks: usize) -> bool {
    let reaches = sheet.joint_codes().map(reach).cycle();
    let inside = |(&v, reach): (&f64, f64)| within(v, -reach, reach);
    !list.has(blocks * sheet.all_joints()) || !list.numbers.iter().zip(reaches).all(inside)
}

/// 8.
fn wrong_goals(goals: List<f64>, chains: usize) -> bool {
    let wrong = |goal: &[f64]| {
        !goal[..3].iter().all(|&v| within(v, -100.0, 100.0))
            || !is_turn(&goal[3..7])
            || !goal[7..].iter().all(|&v| within(v, -100.0, 100.0))
    };
    !goals.has(GOAL_FLOATS * chains) || goals.numbers.chunks_exact(GOAL_FLOATS).any(wrong)
}

/// 10.
fn wrong_weights(weights: List<f64>) -> bool {
    !weights.has(WEIGHTS) || !weights.numbers.iter().all(|&v| within(v, 0.0, 1000.0))
}

/// 11, for one tool: ranged as a link.
fn wrong_tool(tool: List<f64>) -> bool {
    !tool.has(TOOL_FLOATS) || wrong_link(tool.numbers)
}

/// 11, for the four lists of a call: behind the last chain none may have a byte.
fn wrong_tools(tools: &Tools, chains: usize) -> bool {
    let (loaded, behind) = tools.split_at(chains);
    let wrong = |tool: &List<f64>| !tool.is_none() && wrong_tool(*tool);
    loaded.iter().any(wrong) || !behind.iter().all(List::is_none)
}

/// 1 to 4, which sizes, codes and the lengths of their lists decide.
fn shape(sheet: &Sheet) -> u32 {
    if wrong_sizes(sheet.sizes) {
        1
    } else if wrong_arrays(sheet) {
        2
    } else if sheet.codes.numbers.iter().any(|&code| unlisted(code)) {
        3
    } else if wrong_joints(sheet) {
        4
    } else {
        ACCEPTED
    }
}

pub fn load(sheet: &Sheet) -> u32 {
    match shape(sheet) {
        ACCEPTED if wrong_limits(sheet) => 5,
        ACCEPTED if wrong_links(sheet) => 6,
        answer => answer,
    }
}

/// As at loading, but for 5: the sheet's limits are not looked at.
pub fn sizing(sheet: &Sheet, plan: Room) -> u32 {
    match shape(sheet) {
        ACCEPTED if wrong_links(sheet) => 6,
        ACCEPTED if !plan.holds(PLAN) => 9,
        answer => answer,
    }
}

pub fn set_goals(sheet: &Sheet, goals: List<f64>) -> u32 {
    match load(sheet) {
        ACCEPTED if wrong_goals(goals, sheet.chains()) => 8,
        answer => answer,
    }
}

/// Looks at the list alone, and takes no list for none.
pub fn set_weights(weights: List<f64>) -> u32 {
    match wrong_weights(weights) {
        true => 10,
        false => ACCEPTED,
    }
}

/// For a chain of this number, from 0 on; no list is not taken for none.
pub fn set_tool(sheet: &Sheet, tool: List<f64>, chain: u32) -> u32 {
    match load(sheet) {
        ACCEPTED if chain as usize >= sheet.chains() || wrong_tool(tool) => 11,
        answer => answer,
    }
}

/// 11 behind all other numbers of a call.
fn then_tools(answer: u32, sheet: &Sheet, tools: &Tools) -> u32 {
    match answer {
        ACCEPTED if wrong_tools(tools, sheet.chains()) => 11,
        answer => answer,
    }
}

/// A call on one block of joints; `fits` says whether its outputs are long
/// enough.
fn on_joints(sheet: &Sheet, joints: List<f64>, fits: impl FnOnce() -> bool) -> u32 {
    match load(sheet) {
        ACCEPTED if wrong_blocks(joints, sheet, 1) => 7,
        ACCEPTED if !fits() => 9,
        answer => answer,
    }
}

/// L links give L + 1 positions and L + 2 rotations.
pub fn frames(sheet: &Sheet, joints: List<f64>, positions: Room, rotations: Room) -> u32 {
    on_joints(sheet, joints, || {
        let (links, chains) = (sheet.all_links(), sheet.chains());
        positions.holds(3 * (links + chains)) && rotations.holds(4 * (links + 2 * chains))
    })
}

pub fn pose(sheet: &Sheet, tools: &Tools, joints: List<f64>, ends: Room) -> u32 {
    let fits = || ends.holds(END_FLOATS * sheet.chains());
    then_tools(on_joints(sheet, joints, fits), sheet, tools)
}

pub fn manipulability(sheet: &Sheet, joints: List<f64>, value: Room) -> u32 {
    on_joints(sheet, joints, || value.holds(1))
}

pub fn reset(sheet: &Sheet, tools: &Tools, joints: List<f64>, history: Room, ends: Room) -> u32 {
    let fits =
        || history.holds(BLOCKS * sheet.all_joints()) && ends.holds(END_FLOATS * sheet.chains());
    then_tools(on_joints(sheet, joints, fits), sheet, tools)
}

pub fn update(sheet: &Sheet, history: List<f64>, joints: List<f64>, renewed: Room) -> u32 {
    match load(sheet) {
        ACCEPTED if wrong_blocks(history, sheet, BLOCKS) => 7,
        ACCEPTED => on_joints(sheet, joints, || renewed.holds(BLOCKS * sheet.all_joints())),
        answer => answer,
    }
}

/// A call on goals, history, weights, tools and a block of joints, in the order of
/// the numbers: 7 comes before 8, though the goals are lent first, and the outputs
/// come before the weights, the weights before the tools.
fn on_goals(given: &Given, joints: List<f64>, fits: impl FnOnce() -> bool) -> u32 {
    let sheet = &given.sheet;
    let answer = match load(sheet) {
        ACCEPTED
            if wrong_blocks(given.history, sheet, BLOCKS) || wrong_blocks(joints, sheet, 1) =>
        {
            7
        }
        ACCEPTED if wrong_goals(given.goals, sheet.chains()) => 8,
        ACCEPTED if !fits() => 9,
        ACCEPTED if !given.weights.is_none() => set_weights(given.weights),
        answer => answer,
    };
    then_tools(answer, sheet, &given.tools)
}

pub fn objective(given: &Given, joints: List<f64>, value: Room) -> u32 {
    on_goals(given, joints, || value.holds(1))
}

/// The two-block gradient, and `gradient_finite_diff`, which has its lists.
pub fn gradient(given: &Given, joints: List<f64>, scratch: Room, value: Room, slopes: Room) -> u32 {
    on_goals(given, joints, || {
        let count = given.sheet.all_joints();
        scratch.holds(count) && value.holds(1) && slopes.holds(count)
    })
}

pub fn gradient_one_block(
    given: &Given,
    joints: List<f64>,
    value: Room,
    slopes: Room,
    record: RecordRoom,
) -> u32 {
    on_goals(given, joints, || {
        let walked = given.sheet.walked();
        value.holds(1)
            && slopes.holds(given.sheet.all_joints())
            && record.joints.holds(walked)
            && record.links.holds(walked)
            && record.poses.holds(END_FLOATS * walked)
    })
}
