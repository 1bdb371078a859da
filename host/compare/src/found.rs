//! A case on which a call differs, as a sheet that `sonde` reads: the lists in
//! its lines, and in its comments both answers and what no line can hold.

use crate::calls::{number, Call};
use crate::judge::Written;
use crate::run::with_bits;
use crate::sheets::{List, TOOL_LISTS};
use crate::tally::Shown;
use reference::refusals::{f64s, u16s, BLOCKS};
use reference::sheet::{END_FLOATS, GOAL_FLOATS, LINK_FLOATS};
use sheet_text::{Text, PARTS};
use std::collections::BTreeMap;

/// What was lent to a call, answered and left.
pub struct Found<'a> {
    pub call: Call,
    /// Answered by the proved side and by the reference.
    pub numbers: [u32; 2],
    /// The lists that are read, as the call has them.
    pub read: Vec<&'a [u8]>,
    /// The outputs as they were left, and as they should have been.
    pub got: Vec<&'a [u8]>,
    pub expected: Vec<&'a [u8]>,
    /// What the reference writes.
    pub written: &'a [Written],
    pub read_changed: bool,
    pub outside_changed: bool,
}

impl Found<'_> {
    pub fn show(&self) -> Shown {
        let mut text = Text::default();
        let [proved, reference] = self.numbers;
        text.comment(&format!("answered: proved {proved}, reference {reference}"));
        self.outputs(&mut text);
        if self.read_changed {
            text.comment("a list lent for reading was changed");
        }
        if self.outside_changed {
            text.comment("a byte outside of the outputs was written");
        }
        sheet(&mut text, self.call.read(), &self.read);
        for (name, v) in self.figures() {
            text.filed(&name, v);
        }
        Shown::Sheet(text.finish())
    }

    /// Every output's length, and its numbers that differ.
    fn outputs(&self, text: &mut Text) {
        for (at, (got, expected)) in self.got.iter().zip(&self.expected).enumerate() {
            text.comment(&format!("output {at}, {} bytes", got.len()));
            let unit = self.call.unit(at);
            differing(text, unit, ("proved", got), ("reference", expected));
        }
    }

    /// The reference's answers that a sheet can have filed, so that `sonde` finds
    /// the difference again.
    fn figures(&self) -> Vec<(String, f64)> {
        let floats = |list: &Written| match list {
            Written::Floats(floats) => floats.clone(),
            Written::U16s(_) => Vec::new(),
        };
        let written: Vec<Vec<f64>> = self.written.iter().map(floats).collect();
        match (self.call, &written[..]) {
            (Call::Pose, [ends]) => poses(ends),
            (Call::Manipulability, [value]) => vec![("manipulability".to_string(), value[0])],
            (Call::Objective, [value]) => objective(value, &[]),
            (Call::Gradient, [_, value, slopes]) => objective(value, slopes),
            (Call::GradientOneBlock, [value, slopes, ..]) => objective(value, slopes),
            _ => Vec::new(),
        }
    }
}

fn poses(ends: &[f64]) -> Vec<(String, f64)> {
    let name = |at: usize| format!("{}.{}", chain(at / END_FLOATS), PARTS[at % END_FLOATS]);
    let named = ends.iter().enumerate().map(|(at, v)| (name(at), *v));
    named.collect()
}

fn objective(value: &[f64], slopes: &[f64]) -> Vec<(String, f64)> {
    let slopes = slopes.iter().enumerate();
    let mut figures = vec![("objective".to_string(), value[0])];
    figures.extend(slopes.map(|(joint, slope)| (format!("slope.{joint}"), *slope)));
    figures
}

/// A chain's name; the byte calls have none.
fn chain(at: usize) -> String {
    format!("c{at}")
}

/// The numbers in which two lists differ.
pub fn differing(text: &mut Text, unit: usize, first: (&str, &[u8]), second: (&str, &[u8])) {
    let ((one, first), (other, second)) = (first, second);
    let both = first.chunks(unit).zip(second.chunks(unit)).enumerate();
    for (number, (a, b)) in both.filter(|(_, (a, b))| a != b) {
        let (a, b) = (shown(a), shown(b));
        text.comment(&format!("  {number:<3} {one} {a}, {other} {b}"));
    }
}

/// Bits and value of a float, or a u16; bytes that are neither as they are.
fn shown(bytes: &[u8]) -> String {
    match bytes.len() {
        8 => with_bits(f64::from_le_bytes(bytes.try_into().expect("eight bytes"))),
        2 => u16::from_le_bytes([bytes[0], bytes[1]]).to_string(),
        _ => hexadecimal(bytes),
    }
}

fn hexadecimal(bytes: &[u8]) -> String {
    bytes.iter().map(|byte| format!("{byte:02x}")).collect()
}

/// The lists of a call, in the order of `names`, as a sheet. What the lines
/// cannot hold is in comments before them, byte for byte.
pub fn sheet(text: &mut Text, names: &[List], lists: &[&[u8]]) {
    let both = || names.iter().copied().zip(lists.iter().copied());
    let chains = match lists {
        [sizes, codes, floats, ..] => Chains::of([sizes, codes, floats]),
        _ => None,
    };
    let tools = match &chains {
        Some(chains) => chains.tools(names, lists),
        None => Tools::new(),
    };
    for (name, bytes) in both() {
        let held = match name {
            List::Sizes | List::Codes | List::Floats => chains.is_some(),
            List::Tool => tools.values().any(|(list, _)| *list == name),
            List::Chain => false,
            // A line says which list is picked, and no other number than these.
            List::Strict => number(bytes) <= 1,
            _ if TOOL_LISTS.contains(&name) => {
                bytes.is_empty() || tools.values().any(|(list, _)| *list == name)
            }
            _ => bytes.len() % 8 == 0,
        };
        if !held {
            let (length, bytes) = (bytes.len(), hexadecimal(bytes));
            text.comment(&format!("{name:?}, {length} bytes, in no line: {bytes}"));
        }
    }
    text.start();
    if let Some(chains) = chains {
        chains.write(text, &tools);
    }
    if both().any(|(name, bytes)| name == List::Strict && number(bytes) != 0) {
        text.strict_goals();
    }
    for (name, bytes) in both().filter(|(_, bytes)| bytes.len() % 8 == 0) {
        // A sheet without the line is lent none; to set none is another thing.
        let none = name == List::Weights && bytes.is_empty() && names.len() > 1;
        if !none {
            rows(text, name, bytes);
        }
    }
}

/// By chain, each with the list that it is of.
type Tools = BTreeMap<usize, (List, Vec<f64>)>;

/// Sizes, codes and floats that the lines of a sheet can hold.
struct Chains {
    sizes: Vec<u16>,
    codes: Vec<u16>,
    floats: Vec<f64>,
}

impl Chains {
    /// The counts have to be those of the lists; floats may be too few or too
    /// many.
    fn of([sizes, codes, floats]: [&[u8]; 3]) -> Option<Self> {
        let mut chains = Self {
            sizes: Vec::new(),
            codes: Vec::new(),
            floats: Vec::new(),
        };
        let ragged = u16s(sizes, &mut chains.sizes).ragged
            || u16s(codes, &mut chains.codes).ragged
            || f64s(floats, &mut chains.floats).ragged;
        let (count, links) = chains.sizes.split_first()?;
        let all: usize = links.iter().map(|&count| usize::from(count)).sum();
        let fits = usize::from(*count) == links.len() && all == chains.codes.len();
        let floating = chains.codes.is_empty() && !chains.floats.is_empty();
        (!ragged && fits && !floating).then_some(chains)
    }

    /// The tools that a line of a chain can hold, by chain: whole floats, and no line
    /// where none is lent. One that is to be set is on its chain, empty or not.
    fn tools(&self, names: &[List], lists: &[&[u8]]) -> Tools {
        let mut tools = Tools::new();
        let list = |name: List| {
            let mut both = names.iter().zip(lists);
            both.find(|(own, _)| **own == name).map(|(_, bytes)| *bytes)
        };
        let mut add = |at: usize, name: List, bytes: &[u8]| {
            let mut floats = Vec::new();
            if at + 1 < self.sizes.len() && !f64s(bytes, &mut floats).ragged {
                tools.insert(at, (name, floats));
            }
        };
        for (at, name) in TOOL_LISTS.into_iter().enumerate() {
            if let Some(bytes) = list(name).filter(|bytes| !bytes.is_empty()) {
                add(at, name, bytes);
            }
        }
        if let (Some(bytes), Some(chain)) = (list(List::Tool), list(List::Chain)) {
            add(number(chain) as usize, List::Tool, bytes);
        }
        tools
    }

    fn write(&self, text: &mut Text, tools: &Tools) {
        let mut at = 0;
        for (number, &links) in self.sizes[1..].iter().enumerate() {
            text.chain(&chain(number));
            for _ in 0..links {
                text.link(self.codes[at], self.link(at));
                at += 1;
            }
            if let Some((_, tool)) = tools.get(&number) {
                text.tool(tool);
            }
        }
    }

    /// A link's floats as far as there are any; the last has what is left.
    fn link(&self, at: usize) -> &[f64] {
        let count = self.floats.len();
        let start = count.min(LINK_FLOATS * at);
        let end = match at + 1 == self.codes.len() {
            true => count,
            false => count.min(start + LINK_FLOATS),
        };
        &self.floats[start..end]
    }
}

/// A list's lines. An empty one has a line without numbers, since a sheet without
/// goals or history is another thing; a sheet without limits is not.
fn rows(text: &mut Text, name: List, bytes: &[u8]) {
    let mut numbers = Vec::new();
    f64s(bytes, &mut numbers);
    let count = numbers.len();
    let (word, each) = match name {
        List::Limits => {
            numbers.chunks(2).for_each(|pair| text.limits(pair));
            return;
        }
        List::Weights => ("weights", count),
        List::Joints => ("joints", count),
        List::History if count % BLOCKS == 0 => ("history", count / BLOCKS),
        List::History => ("history", count),
        List::Goals => ("goal", GOAL_FLOATS),
        // In the lines of their chains, or in comments.
        _ => return,
    };
    if numbers.is_empty() {
        text.numbers(word, &[]);
    }
    for row in numbers.chunks(each.max(1)) {
        text.numbers(word, row);
    }
}
