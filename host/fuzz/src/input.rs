//! A case as the fuzzer's bytes: the call, the lengths of its outputs, then
//! the lists that it reads, each after its length. Any bytes are a case: a
//! length beyond the end is cut, and what is missing is 0 or empty.

use compare::calls::Call;
use compare::sheets::{List, Lists};
use std::fmt;

/// The longest list or output, in bytes: lengths are u16s.
pub const MOST: usize = u16::MAX as usize;

pub struct Input {
    pub call: Call,
    /// The outputs' lengths in bytes.
    pub rooms: Vec<usize>,
    pub lists: Lists,
}

/// A length off the front, or 0 when the bytes are at their end.
fn length(bytes: &mut &[u8]) -> usize {
    let Some((&two, rest)) = bytes.split_first_chunk() else {
        *bytes = &[];
        return 0;
    };
    *bytes = rest;
    usize::from(u16::from_le_bytes(two))
}

fn put_length(length: usize, bytes: &mut Vec<u8>) {
    bytes.extend((length.min(MOST) as u16).to_le_bytes());
}

impl Input {
    pub fn read(bytes: &[u8]) -> Self {
        let (&first, mut rest) = bytes.split_first().unwrap_or((&0, &[]));
        let call = Call::ALL[usize::from(first) % Call::ALL.len()];
        let outputs = call.needs(&Lists::default()).len();
        let rooms = (0..outputs).map(|_| length(&mut rest)).collect();
        let mut lists = Lists::default();
        for &list in call.read() {
            let count = length(&mut rest).min(rest.len());
            let (own, later) = rest.split_at(count);
            lists.set(list, own);
            rest = later;
        }
        lists.count();
        Self { call, rooms, lists }
    }

    pub fn bytes(&self) -> Vec<u8> {
        let mut bytes = vec![self.call as u8];
        for &room in &self.rooms {
            put_length(room, &mut bytes);
        }
        for &list in self.call.read() {
            let own = self.lists.get(list);
            put_length(own.len(), &mut bytes);
            bytes.extend_from_slice(&own[..own.len().min(MOST)]);
        }
        bytes
    }

    /// The lists in the order of the call.
    pub fn read_lists(&self) -> Vec<&[u8]> {
        let lists = self.call.read().iter();
        lists.map(|&list| self.lists.get(list)).collect()
    }
}

/// Every number with its bits, so that nothing of a case is lost.
impl fmt::Display for Input {
    fn fmt(&self, f: &mut fmt::Formatter) -> fmt::Result {
        writeln!(f, "call {:?}", self.call)?;
        for &list in self.call.read() {
            let bytes = self.lists.get(list);
            let unit = if matches!(list, List::Sizes | List::Codes) {
                2
            } else {
                8
            };
            writeln!(f, "{list:?}, {} bytes", bytes.len())?;
            for number in bytes.chunks(unit) {
                writeln!(f, "  {}", shown(number))?;
            }
        }
        writeln!(f, "outputs of {:?} bytes", self.rooms)
    }
}

/// A float with its bits, a u16, or bytes that are neither.
pub fn shown(bytes: &[u8]) -> String {
    if let Ok(eight) = bytes.try_into() {
        let float = f64::from_le_bytes(eight);
        format!("{:016x} {float:e}", float.to_bits())
    } else if let Ok(two) = bytes.try_into() {
        u16::from_le_bytes(two).to_string()
    } else {
        format!("{bytes:02x?}")
    }
}

#[cfg(test)]
mod tests {
    use super::*;
    use compare::draw::Draw;
    use compare::source::{kind, Source};

    #[test]
    fn a_case_comes_back() {
        let mut draw = Draw::new(1);
        for call in Call::ALL {
            let (lists, rooms) = {
                let mut source = Source::new(call, kind(call, &mut draw));
                let (lists, rooms) = source.next(&mut draw);
                let mut copy = Lists::default();
                copy.copy(lists);
                (copy, rooms)
            };
            let bytes = Input {
                call,
                rooms: rooms.clone(),
                lists,
            }
            .bytes();
            let back = Input::read(&bytes);
            assert_eq!((back.call, &back.rooms), (call, &rooms));
            assert_eq!(back.bytes(), bytes);
        }
    }

    #[test]
    fn any_bytes_are_a_case() {
        let mut draw = Draw::new(2);
        for length in 0..600 {
            let bytes: Vec<u8> = (0..length).map(|_| draw.word() as u8).collect();
            let input = Input::read(&bytes);
            let lent: usize = input.read_lists().iter().map(|list| list.len()).sum();
            assert!(lent <= length, "{length} bytes make lists of {lent}");
        }
    }
}
