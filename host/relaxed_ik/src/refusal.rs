//! The refusals by number.

use std::error::Error;
use std::fmt;

/// Why a call was refused. Where several hold, the call answers the one with
/// the lowest number.
#[derive(Clone, Copy, Debug, PartialEq, Eq, PartialOrd, Ord, Hash)]
#[non_exhaustive]
pub enum Refusal {
    Sizes = 1,
    Lengths = 2,
    Code = 3,
    Count = 4,
    Limits = 5,
    Link = 6,
    Joints = 7,
    Goals = 8,
    Room = 9,
    Weights = 10,
    Tool = 11,
}

impl Refusal {
    /// In the order of their numbers.
    pub const ALL: [Self; 11] = [
        Self::Sizes,
        Self::Lengths,
        Self::Code,
        Self::Count,
        Self::Limits,
        Self::Link,
        Self::Joints,
        Self::Goals,
        Self::Room,
        Self::Weights,
        Self::Tool,
    ];

    /// The number that a call answers.
    pub fn number(self) -> u32 {
        self as u32
    }

    /// None for 0, which is no refusal, and for numbers that no call answers.
    pub fn of_number(number: u32) -> Option<Self> {
        Self::ALL.into_iter().find(|r| r.number() == number)
    }

    /// What is asked for and was not met.
    pub fn words(self) -> &'static str {
        match self {
            Self::Sizes => "1 to 4 chains, each of 1 to 16 links",
            Self::Lengths => "one code and seven floats a link",
            Self::Code => "codes 0, 10 to 16, 20 to 26, 30 to 36 and 40 to 46",
            Self::Count => "at least 2 joints a chain, at most 16 in all, and no later chain with more joints than chain 0 has links",
            Self::Limits => "two limits a joint, either -999 and 999 or both within -100..100 and upper - lower >= 0.001",
            Self::Link => "displacements within -10..10 and offsets whose squares' sum is within 0.999999999..1.000000001",
            Self::Joints => "a value for each joint, in the joints and in each block of the history: within -64..64 for a revolute or continuous joint, within -8..8 for a prismatic or telescoping one",
            Self::Goals => "13 floats a chain: position and tolerances within -100..100, a rotation whose squares' sum is within 0.999999999..1.000000001",
            Self::Room => "lists to be written as long as what goes into them",
            Self::Weights => "eight weights within 0..1000",
            Self::Tool => "tools of loaded chains alone, each of seven floats: a displacement within -10..10 and an offset whose squares' sum is within 0.999999999..1.000000001",
        }
    }
}

impl fmt::Display for Refusal {
    fn fmt(&self, f: &mut fmt::Formatter) -> fmt::Result {
        write!(
            f,
            "refused, {}: the call takes {}",
            self.number(),
            self.words()
        )
    }
}

impl Error for Refusal {}

/// What a call answered. A number that no call has would break the library's
/// proved contract.
pub(crate) fn taken(number: u32) -> Result<(), Refusal> {
    match (number, Refusal::of_number(number)) {
        (0, _) => Ok(()),
        (_, Some(refusal)) => Err(refusal),
        _ => panic!("the library answered {number}, which is no number of its calls"),
    }
}
