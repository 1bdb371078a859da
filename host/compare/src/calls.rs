//! The byte calls: the lists of each, the lengths of its outputs, and the proved
//! library's answer.

use crate::draw::Draw;
use crate::sheets::{Fit, List, Lists};
use reference::sizing::PLAN;
use relaxed_ik::bytes;

// The reference answers every call; the feature says which ones the library
// has.
#[cfg_attr(not(feature = "objective"), allow(dead_code))]
#[derive(Clone, Copy, Debug, PartialEq)]
pub enum Call {
    Load,
    Sizing,
    SetGoals,
    SetWeights,
    SetTool,
    Frames,
    Pose,
    Manipulability,
    Reset,
    Update,
    Objective,
    Gradient,
    GradientFiniteDiff,
    GradientOneBlock,
}

impl Call {
    pub const ALL: [Self; 14] = [
        Self::Load,
        Self::Sizing,
        Self::SetGoals,
        Self::SetWeights,
        Self::SetTool,
        Self::Frames,
        Self::Pose,
        Self::Manipulability,
        Self::Reset,
        Self::Update,
        Self::Objective,
        Self::Gradient,
        Self::GradientFiniteDiff,
        Self::GradientOneBlock,
    ];

    pub fn name(self) -> &'static str {
        match self {
            Self::Load => "load",
            Self::Sizing => "sizing",
            Self::SetGoals => "set_goals",
            Self::SetWeights => "set_weights",
            Self::SetTool => "set_tool",
            Self::Frames => "frames",
            Self::Pose => "pose",
            Self::Manipulability => "manipulability",
            Self::Reset => "reset",
            Self::Update => "update",
            Self::Objective => "objective",
            Self::Gradient => "gradient",
            Self::GradientFiniteDiff => "gradient_finite_diff",
            Self::GradientOneBlock => "gradient_one_block",
        }
    }

    /// The lists it reads, the sheet's four first, but for sizing, which has no
    /// limits, and for setting weights, which has no sheet.
    pub fn read(self) -> &'static [List] {
        use List::{
            Chain, Codes, Floats, Goals, History, Joints, Limits, Sizes, Strict, Tool, Tool0,
            Tool1, Tool2, Tool3, Weights,
        };
        match self {
            Call::Load => &[Sizes, Codes, Floats, Limits],
            Call::Sizing => &[Sizes, Codes, Floats, Strict],
            Call::SetGoals => &[Sizes, Codes, Floats, Limits, Goals],
            Call::SetWeights => &[Weights],
            Call::SetTool => &[Sizes, Codes, Floats, Limits, Tool, Chain],
            Call::Pose | Call::Reset => &[
                Sizes, Codes, Floats, Limits, Tool0, Tool1, Tool2, Tool3, Joints,
            ],
            Call::Update => &[Sizes, Codes, Floats, Limits, History, Joints],
            _ if self.aims() => &[
                Sizes, Codes, Floats, Limits, Goals, History, Weights, Tool0, Tool1, Tool2, Tool3,
                Joints, Strict,
            ],
            _ => &[Sizes, Codes, Floats, Limits, Joints],
        }
    }

    /// What they hold.
    pub fn lent(self, lists: &Lists) -> Vec<&[u8]> {
        self.read().iter().map(|&list| lists.get(list)).collect()
    }

    /// Those after the sheet's.
    pub fn own(self) -> &'static [List] {
        match self {
            Call::SetWeights => self.read(),
            Call::Sizing => &self.read()[3..],
            _ => self.read().get(4..).unwrap_or_default(),
        }
    }

    /// Whether it looks how far joints are from goals and history.
    pub fn aims(self) -> bool {
        matches!(
            self,
            Call::Objective | Call::Gradient | Call::GradientFiniteDiff | Call::GradientOneBlock
        )
    }

    /// Draws its own lists anew.
    pub fn renew(self, lists: &mut Lists, draw: &mut Draw) {
        lists.renew(self.own(), draw);
        if self.aims() {
            lists.aim(draw);
        }
    }

    /// Numbers that its outputs need for lists of these counts.
    pub fn needs(self, lists: &Lists) -> Vec<usize> {
        let (chains, links, joints) = (lists.chains, lists.links, lists.joints);
        let walked = lists.walked;
        match self {
            Call::Load | Call::SetGoals | Call::SetWeights | Call::SetTool => vec![],
            Call::Sizing => vec![PLAN],
            Call::Frames => vec![3 * (links + chains), 4 * (links + 2 * chains)],
            Call::Pose => vec![7 * chains],
            Call::Manipulability => vec![1],
            Call::Reset => vec![4 * joints, 7 * chains],
            Call::Update => vec![4 * joints],
            Call::Objective => vec![1],
            Call::Gradient | Call::GradientFiniteDiff => vec![joints, 1, joints],
            Call::GradientOneBlock => vec![1, joints, walked, walked, 7 * walked],
        }
    }

    /// Bytes of an output's numbers: a plan and the record's joints and links are
    /// u16s.
    pub fn unit(self, output: usize) -> usize {
        match (self, output) {
            (Call::Sizing, _) | (Call::GradientOneBlock, 2 | 3) => 2,
            _ => 8,
        }
    }

    /// The proved library's answer.
    pub fn ask(self, read: &[&[u8]], write: &mut [&mut [u8]]) -> u32 {
        match (self, read) {
            (Call::SetWeights, [weights]) => bytes::set_weights(weights),
            (Call::Sizing, [sizes, codes, floats, strict]) => {
                bytes::sizing(sizes, codes, floats, write[0], number(strict))
            }
            (_, [sizes, codes, floats, limits, own @ ..]) => {
                let sheet = bytes::Sheet {
                    sizes,
                    codes,
                    floats,
                    limits,
                };
                self.ask_sheet(sheet, own, write)
            }
            _ => panic!("lists that do not belong to {self:?}"),
        }
    }

    fn ask_sheet(self, sheet: bytes::Sheet, own: &[&[u8]], write: &mut [&mut [u8]]) -> u32 {
        match (self, own, write) {
            (Call::Load, [], []) => bytes::load(sheet),
            (Call::SetGoals, [goals], []) => bytes::set_goals(sheet, goals),
            (Call::Frames, [joints], [positions, rotations]) => {
                bytes::frames(sheet, joints, positions, rotations)
            }
            (Call::SetTool, [tool, chain], []) => bytes::set_tool(sheet, tool, number(chain)),
            (Call::Pose, [tools @ .., joints], [ends]) => {
                bytes::pose(sheet, by_chain(tools), joints, ends)
            }
            (Call::Manipulability, [joints], [value]) => {
                bytes::manipulability(sheet, joints, value)
            }
            (Call::Reset, [tools @ .., joints], [history, ends]) => {
                bytes::reset(sheet, by_chain(tools), joints, history, ends)
            }
            (Call::Update, [history, joints], [renewed]) => {
                bytes::update(sheet, history, joints, renewed)
            }
            #[cfg(feature = "objective")]
            (_, [goals, history, weights, tools @ .., joints, strict], write) => {
                let given = bytes::Given {
                    sheet,
                    goals,
                    history,
                    weights,
                    tools: by_chain(tools),
                    strict: number(strict),
                };
                self.ask_given(given, joints, write)
            }
            _ => panic!("lists that do not belong to {self:?}"),
        }
    }

    #[cfg(feature = "objective")]
    fn ask_given(self, given: bytes::Given, joints: &[u8], write: &mut [&mut [u8]]) -> u32 {
        match (self, write) {
            (Call::Objective, [value]) => bytes::objective(given, joints, value),
            (Call::Gradient, [scratch, value, slopes]) => {
                bytes::gradient(given, joints, scratch, value, slopes)
            }
            (Call::GradientFiniteDiff, [scratch, value, slopes]) => {
                bytes::gradient_finite_diff(given, joints, scratch, value, slopes)
            }
            (Call::GradientOneBlock, [value, slopes, raised, links, poses]) => {
                let record = bytes::Record {
                    joints: raised,
                    links,
                    poses,
                };
                bytes::gradient_one_block(given, joints, value, slopes, record)
            }
            _ => panic!("lists that do not belong to {self:?}"),
        }
    }
}

/// The tools that a call is lent.
fn by_chain<'a>(lists: &[&'a [u8]]) -> bytes::Tools<'a> {
    lists.try_into().expect("a list for each chain")
}

/// A number that is lent as such; a list of its bytes stands for it here, and what
/// is missing of four is 0.
pub fn number(bytes: &[u8]) -> u32 {
    let mut four = [0; 4];
    four.iter_mut()
        .zip(bytes)
        .for_each(|(to, from)| *to = *from);
    u32::from_le_bytes(four)
}

pub fn exact(call: Call, lists: &Lists) -> Vec<usize> {
    fitted(call, lists, &[])
}

/// Lengths of these fits, the remaining outputs exact.
pub fn fitted(call: Call, lists: &Lists, fits: &[Fit]) -> Vec<usize> {
    let fits = fits.iter().copied().chain(std::iter::repeat(Fit::Exact));
    let needs = call.needs(lists).into_iter().zip(fits).enumerate();
    needs
        .map(|(at, (numbers, fit))| fit.bytes(numbers, call.unit(at)))
        .collect()
}
