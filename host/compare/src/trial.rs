//! One case of a byte call, compared whole: the number answered, what the
//! outputs hold, and every byte that the call was to leave alone, which is what
//! it reads, the outputs' tails, a refused call's outputs, and the bytes between
//! the lists.

use crate::calls::Call;
use crate::draw::Draw;
use crate::found::Found;
use crate::judge::{Judge, Written};
use crate::run::{matches, Run};
use crate::sheets::Lists;
use std::ops::Range;

/// Lists side by side in memory, at any address, with some bytes between them.
#[derive(Default)]
struct Memory {
    bytes: Vec<u8>,
    places: Vec<Range<usize>>,
}

impl Memory {
    fn clear(&mut self) {
        self.bytes.clear();
        self.places.clear();
    }

    /// Random bytes, up to this length.
    fn fill(&mut self, length: usize, draw: &mut Draw) {
        let start = self.bytes.len();
        self.bytes.resize(length, 0);
        for place in self.bytes[start..].chunks_mut(8) {
            let count = place.len();
            place.copy_from_slice(&draw.word().to_le_bytes()[..count]);
        }
    }

    fn gap(&mut self, draw: &mut Draw) {
        let length = self.bytes.len() + 1 + draw.below(16);
        self.fill(length, draw);
    }

    fn add(&mut self, list: &[u8], draw: &mut Draw) {
        self.gap(draw);
        let start = self.bytes.len();
        self.bytes.extend_from_slice(list);
        self.places.push(start..self.bytes.len());
    }

    fn add_room(&mut self, length: usize, draw: &mut Draw) {
        self.gap(draw);
        let start = self.bytes.len();
        self.fill(start + length, draw);
        self.places.push(start..self.bytes.len());
    }

    fn lists(&self) -> Vec<&[u8]> {
        let list = |place: &Range<usize>| &self.bytes[place.clone()];
        self.places.iter().map(list).collect()
    }

    fn rooms(&mut self) -> Vec<&mut [u8]> {
        let (mut rest, mut passed) = (&mut self.bytes[..], 0);
        let mut rooms = Vec::new();
        for place in &self.places {
            let (before, after) = rest.split_at_mut(place.end - passed);
            rooms.push(&mut before[place.start - passed..]);
            (rest, passed) = (after, place.end);
        }
        rooms
    }
}

/// Answers a call on these lists: the proved library, or in tests a wrong one.
type Ask = fn(Call, &[&[u8]], &mut [&mut [u8]]) -> u32;

/// What one case needs and the next one can use again.
pub struct Trial {
    pub call: Call,
    ask: Ask,
    judge: Judge,
    read: Memory,
    read_before: Vec<u8>,
    write: Memory,
    expected: Vec<u8>,
    /// One output's part of it.
    part: Vec<u8>,
}

impl Trial {
    pub fn new(call: Call, ask: Ask) -> Self {
        Self {
            call,
            ask,
            judge: Judge::default(),
            read: Memory::default(),
            read_before: Vec::new(),
            write: Memory::default(),
            expected: Vec::new(),
            part: Vec::new(),
        }
    }

    pub fn check(&mut self, run: &mut Run, lists: &Lists, rooms: &[usize]) {
        let (number, written) = self.prepare(&mut run.draw, lists, rooms);
        let answered = (self.ask)(self.call, &self.read.lists(), &mut self.write.rooms());
        let same = self.same(answered, number, &written);
        run.answer(number);
        run.case(same, || self.found(answered, number, &written).show());
    }

    /// Lays the lists out, and what the outputs are to hold; answers as the
    /// judge does.
    fn prepare(&mut self, draw: &mut Draw, lists: &Lists, rooms: &[usize]) -> (u32, Vec<Written>) {
        self.read.clear();
        for list in self.call.lent(lists) {
            self.read.add(list, draw);
        }
        self.read.gap(draw);
        self.read_before.clone_from(&self.read.bytes);
        self.write.clear();
        for &length in rooms {
            self.write.add_room(length, draw);
        }
        self.write.gap(draw);

        let (number, written) = self.judge.answer(self.call, &self.read.lists(), rooms);
        self.expected.clone_from(&self.write.bytes);
        for (list, place) in written.iter().zip(&self.write.places) {
            list.put(&mut self.part);
            assert!(self.part.len() <= place.len(), "room for what is written");
            self.expected[place.start..][..self.part.len()].copy_from_slice(&self.part);
        }
        (number, written)
    }

    /// Whether the call answered and left everything as it was to.
    fn same(&mut self, answered: u32, number: u32, written: &[Written]) -> bool {
        // The compiler may take it that nobody writes to what is only lent for
        // reading; this is to find out.
        let read = std::hint::black_box(&mut self.read.bytes);
        answered == number
            && *read == self.read_before
            && (self.write.bytes == self.expected || self.same_but_for_nans(written))
    }

    /// A NaN matches a NaN where a float is written, and nowhere else.
    #[cold]
    fn same_but_for_nans(&mut self, written: &[Written]) -> bool {
        for (list, place) in written.iter().zip(&self.write.places) {
            let Written::Floats(floats) = list else {
                continue;
            };
            for (at, &float) in floats.iter().enumerate() {
                let here = place.start + 8 * at..place.start + 8 * at + 8;
                let got = &self.write.bytes[here.clone()];
                let bits = got.try_into().expect("eight bytes");
                if float.is_nan() && matches(f64::from_le_bytes(bits), float) {
                    self.expected[here].copy_from_slice(got);
                }
            }
        }
        self.write.bytes == self.expected
    }

    /// What was lent, answered and left.
    fn found<'a>(&'a self, answered: u32, number: u32, written: &'a [Written]) -> Found<'a> {
        let part = |bytes: &'a [u8]| move |place: &Range<usize>| &bytes[place.clone()];
        let inside = |at: &usize| self.write.places.iter().any(|place| place.contains(at));
        let mut outside = (0..self.expected.len()).filter(|at| !inside(at));
        Found {
            call: self.call,
            numbers: [answered, number],
            read: self
                .read
                .places
                .iter()
                .map(part(&self.read_before))
                .collect(),
            got: self
                .write
                .places
                .iter()
                .map(part(&self.write.bytes))
                .collect(),
            expected: self.write.places.iter().map(part(&self.expected)).collect(),
            written,
            read_changed: self.read.bytes != self.read_before,
            outside_changed: outside.any(|at| self.write.bytes[at] != self.expected[at]),
        }
    }
}

#[cfg(test)]
mod tests {
    use super::*;
    use crate::draw::kind::Kind;
    use crate::run::Block;
    use crate::sheets::List;
    use crate::source::{kinds, Source, WRITTEN};
    use crate::tally::Shown;
    use relaxed_ik::bytes::{put_floats, put_u16s};
    use relaxed_ik::ObjectiveList;

    #[test]
    fn a_nan_matches_a_nan_where_it_is_written() {
        let nans = [f64::NAN, -f64::NAN].map(f64::to_le_bytes);
        let case = |got: [[u8; 8]; 2], expected: [[u8; 8]; 2]| {
            let mut trial = Trial::new(Call::Manipulability, Call::ask);
            trial.write.bytes = got.concat();
            trial.write.places.push(0..16);
            trial.expected = expected.concat();
            // One float is written, the other one is the tail.
            let wanted = f64::from_le_bytes(expected[0]);
            trial.same_but_for_nans(&[Written::Floats(vec![wanted])])
        };
        let [one, other] = nans;
        assert!(case([one, one], [other, one]));
        assert!(!case([one, other], [one, one]));
        assert!(!case([one, one], [0.0f64.to_le_bytes(), one]));
        assert!(!case([0.0f64.to_le_bytes(), one], [one, one]));
    }

    /// A case as a right call leaves it is found the same; one byte changed in
    /// an output, a tail, a gap or a list that is read, or another number, is
    /// found.
    #[test]
    fn one_wrong_byte_is_found() {
        let mut draw = Draw::new(7);
        for call in Call::ALL {
            let mut trial = Trial::new(call, Call::ask);
            for (kind, _) in kinds(call) {
                let mut source = Source::new(call, *kind);
                for _ in 0..20 {
                    let (lists, rooms) = source.next(&mut draw);
                    let (number, written) = trial.prepare(&mut draw, lists, &rooms);
                    trial.write.bytes.clone_from(&trial.expected);
                    assert!(trial.same(number, number, &written), "{call:?}");
                    assert!(!trial.same(number + 1, number, &written), "{call:?}");
                    wrong_bytes(&mut trial, &mut draw, number, &written);
                }
            }
        }
    }

    fn wrong_bytes(trial: &mut Trial, draw: &mut Draw, number: u32, written: &[Written]) {
        let at = draw.below(trial.expected.len());
        trial.write.bytes[at] ^= 1;
        let shown = trial.found(number, number, written).show();
        assert!(!trial.same(number, number, written), "{:?}", trial.call);
        let told = |line: &str| line.starts_with("#   ") || line.contains("outside");
        assert!(shown.text().lines().any(told), "{}", shown.text());
        trial.write.bytes[at] ^= 1;
        let at = draw.below(trial.read_before.len());
        trial.read.bytes[at] ^= 1;
        let shown = trial.found(number, number, written).show();
        assert!(!trial.same(number, number, written), "{:?}", trial.call);
        assert!(shown.text().contains("for reading was changed"));
    }

    #[test]
    fn lists_lie_apart() {
        let mut draw = Draw::new(3);
        let mut memory = Memory::default();
        memory.add(&[1, 2, 3], &mut draw);
        memory.add_room(5, &mut draw);
        memory.gap(&mut draw);
        assert_eq!(memory.lists()[0], [1, 2, 3]);
        let kept = memory.lists()[1].to_vec();
        let rooms = memory.rooms();
        assert_eq!(*rooms[1], kept);
        assert_eq!((rooms.len(), rooms[0].len()), (2, 3));
        assert!(memory.places[0].end < memory.places[1].start);
        assert!(memory.places[1].end < memory.bytes.len());
    }

    /// What no call answers.
    fn wrong(_: Call, _: &[&[u8]], _: &mut [&mut [u8]]) -> u32 {
        99
    }

    /// A list's bytes out of the text, as `sonde` reads it or from the comments.
    fn back(text: &str, name: List) -> Vec<u8> {
        let mark = format!("# {name:?}, ");
        if let Some(line) = text.lines().find(|line| line.starts_with(&mark)) {
            let digits = line.rsplit(' ').next().unwrap();
            let byte = |at: usize| u8::from_str_radix(&digits[at..at + 2], 16).unwrap();
            // Without bytes the last word is 'line:'.
            let length = if digits == "line:" { 0 } else { digits.len() };
            return (0..length).step_by(2).map(byte).collect();
        }
        let lists = sonde::text::parse(text.as_bytes()).unwrap().lists();
        let mut bytes = Vec::new();
        let tools = || lists.tools.iter();
        match name {
            List::Sizes => put_u16s(&lists.sizes, &mut bytes),
            List::Codes => put_u16s(&lists.codes, &mut bytes),
            List::Floats => put_floats(&lists.floats, &mut bytes),
            List::Limits => put_floats(&lists.limits, &mut bytes),
            List::Goals => put_floats(&lists.goals, &mut bytes),
            List::History => put_floats(&lists.history, &mut bytes),
            List::Weights => put_floats(&lists.weights, &mut bytes),
            List::Joints => put_floats(&lists.joints, &mut bytes),
            // The one chain that has one.
            List::Tool => put_floats(&lists.tools.concat(), &mut bytes),
            List::Chain => panic!("in no line"),
            List::Strict => {
                let picked = lists.list == ObjectiveList::Strict;
                bytes.extend(u32::from(picked).to_le_bytes());
            }
            _ => {
                let at = name as usize - List::Tool0 as usize;
                let none = Vec::new();
                put_floats(tools().nth(at).unwrap_or(&none), &mut bytes);
            }
        }
        bytes
    }

    /// Every call on inputs of every kind, with a wrong answer: the text is read
    /// by `sonde`'s reader, and no bit of the input is lost.
    #[test]
    fn a_difference_is_a_sheet_with_the_same_bits() {
        let mut in_comments = 0;
        for call in Call::ALL {
            for (kind, _) in WRITTEN {
                let (mut draw, mut source) = (Draw::new(3), Source::new(call, *kind));
                for _ in 0..40 {
                    let (lists, rooms) = source.next(&mut draw);
                    let text = difference(call, *kind, lists, &rooms);
                    sonde::text::parse(text.as_bytes()).unwrap();
                    for name in call.read() {
                        assert_eq!(back(&text, *name), lists.get(*name), "{text}");
                    }
                    in_comments += usize::from(text.contains("in no line"));
                }
            }
        }
        assert!(in_comments > 500, "{in_comments}");
    }

    /// The text of a case on which the wrong function is asked.
    fn difference(call: Call, kind: Kind, lists: &Lists, rooms: &[usize]) -> String {
        let block = Block {
            target: 0,
            kind,
            number: 0,
            draws: 0,
        };
        let mut run = Run::new(1, &block, 1);
        Trial::new(call, wrong).check(&mut run, lists, rooms);
        let kept = run.finish().kept;
        match &kept[0].shown {
            Shown::Sheet(text) => text.clone(),
            Shown::Lines(text) => panic!("no sheet: {text}"),
        }
    }

    /// Both answers are told, and the reference's filed.
    #[test]
    fn answers_are_told_and_filed() {
        for (call, figure) in [
            (Call::Load, None),
            (Call::Sizing, None),
            (Call::SetWeights, None),
            (Call::SetTool, None),
            (Call::Pose, Some("c0.x")),
            (Call::Manipulability, Some("manipulability")),
            (Call::Objective, Some("objective")),
            (Call::Gradient, Some("slope.1")),
            (Call::GradientOneBlock, Some("slope.1")),
        ] {
            let (mut draw, mut source) = (Draw::new(4), Source::new(call, Kind::Valid));
            let (lists, rooms) = source.next(&mut draw);
            let text = difference(call, Kind::Valid, lists, &rooms);
            assert!(text.starts_with("# answered: proved 99, reference 0\n"));
            assert_eq!(text.contains("# output 0, "), !rooms.is_empty());
            let filed = sonde::text::parse(text.as_bytes()).unwrap().filed;
            let names: Vec<&str> = filed.iter().map(|filed| &filed.name[..]).collect();
            match figure {
                Some(figure) => assert!(names.contains(&figure), "{names:?}"),
                None => assert!(names.is_empty(), "{names:?}"),
            }
        }
    }
}
