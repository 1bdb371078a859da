//! The kinds of input.

/// A kind of input. Every name has `Edges`, and of the others those that make
/// sense for it.
#[derive(Clone, Copy, Debug, PartialEq)]
pub enum Kind {
    Edges,
    Range,
    Border,
    Signs,
    Small,
    Any,
    Valid,
    Shape,
    Counts,
    Codes,
    Short,
    Long,
    Ragged,
    Outside,
    Nan,
    Outputs,
    Several,
}

/// Kinds of draws, with the weight that each has among them.
pub type Kinds = &'static [(Kind, u64)];

/// Every kind with its name and what it is, in the order above.
pub const KINDS: [(Kind, &str, &str); 17] = [
    (
        Kind::Edges,
        "edges",
        "chosen inputs, run in full on top of the draws",
    ),
    (Kind::Range, "range", "numbers of the ranges in use"),
    (
        Kind::Border,
        "border",
        "where something changes: ends of ranges, bounds, ties, equal or touching arguments",
    ),
    (Kind::Signs, "signs", "zeros and ones of both signs"),
    (Kind::Small, "small", "tiny sizes, subnormals"),
    (
        Kind::Any,
        "any",
        "any floats: bit patterns, edges and their neighbours, infinities, NaNs",
    ),
    (Kind::Valid, "valid", "lists that are taken"),
    (
        Kind::Shape,
        "shape",
        "counts of links or joints that are refused, with lists to match",
    ),
    (Kind::Counts, "counts", "another count of chains or links"),
    (
        Kind::Codes,
        "codes",
        "a code that is not listed, or joints fewer than limits",
    ),
    (Kind::Short, "short", "a list that is too short"),
    (Kind::Long, "long", "a list one number too long"),
    (
        Kind::Ragged,
        "ragged",
        "a list one byte too short or too long",
    ),
    (
        Kind::Outside,
        "outside",
        "a number outside of its range, often by one ulp",
    ),
    (
        Kind::Nan,
        "nan",
        "a NaN or an infinity among numbers in range",
    ),
    (
        Kind::Outputs,
        "outputs",
        "an output of a wrong length, at times with wrong weights or tools",
    ),
    (
        Kind::Several,
        "several",
        "two or three faults, and outputs of any length",
    ),
];

impl Kind {
    pub fn name(self) -> &'static str {
        KINDS[self as usize].1
    }

    pub fn named(name: &str) -> Option<Self> {
        let found = KINDS.iter().find(|(_, known, _)| *known == name);
        found.map(|(kind, _, _)| *kind)
    }
}

#[cfg(test)]
mod tests {
    use super::*;

    #[test]
    fn kinds_are_found_by_their_names() {
        for (at, (kind, name, _)) in KINDS.iter().enumerate() {
            assert_eq!(*kind as usize, at);
            assert_eq!((kind.name(), Kind::named(name)), (*name, Some(*kind)));
        }
        assert_eq!(Kind::named("nothing"), None);
    }
}
