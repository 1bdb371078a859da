//! Memory between two stretches that can be neither read nor written. A list
//! lies flush with one of them, or anywhere, with drawn bytes around it: a
//! call that reaches one byte too far is stopped there, or has changed a byte.

use crate::input::shown;
use compare::draw::Draw;
use compare::run::matches;
use std::ffi::{c_int, c_long, c_void};
use std::fmt::Write as _;
use std::hint::black_box;
use std::ops::Range;

extern "C" {
    fn mmap(
        at: *mut c_void,
        length: usize,
        allow: c_int,
        flags: c_int,
        file: c_int,
        from: c_long,
    ) -> *mut c_void;
    fn mprotect(at: *mut c_void, length: usize, allow: c_int) -> c_int;
}

const ALLOW_NOTHING: c_int = 0;
const ALLOW_READ_WRITE: c_int = 3;
/// Private and of no file, as Linux numbers it.
const PRIVATE_ANONYMOUS: c_int = 0x22;
/// A whole number of pages whatever their size, and room for the longest list.
const SPAN: usize = 1 << 16;
/// Bytes on either side of a list that are looked at.
const GUARD: usize = 256;

pub struct Fence {
    memory: &'static mut [u8],
    list: Range<usize>,
    /// The list with its guards.
    window: Range<usize>,
    /// What the window is to hold after the call.
    expected: Vec<u8>,
}

impl Default for Fence {
    fn default() -> Self {
        // Safety: a new stretch of memory, of which nobody else knows and which
        // is never given back. Only its middle third can be used; the system
        // has filled it with zeros.
        let memory = unsafe {
            let null = std::ptr::null_mut();
            let all = mmap(null, 3 * SPAN, ALLOW_NOTHING, PRIVATE_ANONYMOUS, -1, 0);
            assert!(all as isize != -1, "no memory for a list");
            let middle = all.cast::<u8>().add(SPAN);
            let status = mprotect(middle.cast(), SPAN, ALLOW_READ_WRITE);
            assert!(status == 0, "no memory for a list");
            std::slice::from_raw_parts_mut(middle, SPAN)
        };
        Self {
            memory,
            list: 0..0,
            window: 0..0,
            expected: Vec::new(),
        }
    }
}

impl Fence {
    /// A list of so many drawn bytes, to be left as it is.
    pub fn room(&mut self, length: usize, draw: &mut Draw) {
        let free = SPAN - length;
        let start = match draw.word() % 4 {
            0 => 0,
            1 => draw.below(free + 1),
            _ => free,
        };
        self.list = start..start + length;
        self.window = start.saturating_sub(GUARD)..SPAN.min(start + length + GUARD);
        for place in self.memory[self.window.clone()].chunks_mut(8) {
            let count = place.len();
            place.copy_from_slice(&draw.word().to_le_bytes()[..count]);
        }
        self.expected.clear();
        let window = &self.memory[self.window.clone()];
        self.expected.extend_from_slice(window);
    }

    /// A list of these bytes, to be left as it is.
    pub fn lend(&mut self, bytes: &[u8], draw: &mut Draw) {
        self.room(bytes.len(), draw);
        self.memory[self.list.clone()].copy_from_slice(bytes);
        self.expect(bytes);
    }

    pub fn list(&self) -> &[u8] {
        &self.memory[self.list.clone()]
    }

    pub fn list_mut(&mut self) -> &mut [u8] {
        &mut self.memory[self.list.clone()]
    }

    /// What the list's front is to hold after the call.
    pub fn expect(&mut self, bytes: &[u8]) {
        let front = self.list.start - self.window.start;
        self.expected[front..front + bytes.len()].copy_from_slice(bytes);
    }

    /// Takes a NaN for any other among the first so many floats of the list.
    pub fn allow_nans(&mut self, floats: usize) {
        let front = self.list.start - self.window.start;
        let expected = self.expected[front..].chunks_exact_mut(8);
        let got = self.memory[self.list.clone()].chunks_exact(8);
        for (expected, got) in expected.zip(got).take(floats) {
            let [wanted, found] = [&*expected, got].map(float);
            if wanted.is_nan() && matches(wanted, found) {
                expected.copy_from_slice(got);
            }
        }
    }

    /// Whether list and guards are as they are to be.
    pub fn holds(&self) -> bool {
        // The compiler may take it that nobody writes to a list lent for
        // reading; this is to find out.
        black_box(&*self.memory)[self.window.clone()] == self.expected
    }

    /// Where they are not, in numbers of so many bytes.
    pub fn differences(&self, unit: usize) -> String {
        let mut text = String::new();
        for at in self.list.clone().step_by(unit) {
            let here = at..self.list.end.min(at + unit);
            let expected = &self.expected[here.start - self.window.start..][..here.len()];
            let found = &self.memory[here];
            if expected != found {
                let number = (at - self.list.start) / unit;
                let (found, expected) = (shown(found), shown(expected));
                let _ = writeln!(text, "    {number}: {found}, to be {expected}");
            }
        }
        for at in self.window.clone().filter(|at| !self.list.contains(at)) {
            if self.memory[at] != self.expected[at - self.window.start] {
                let away = at as isize - self.list.start as isize;
                let _ = writeln!(text, "    byte {away}, outside of the list, was written");
            }
        }
        text
    }
}

fn float(bytes: &[u8]) -> f64 {
    f64::from_le_bytes(bytes.try_into().expect("eight bytes"))
}

#[cfg(test)]
mod tests {
    use super::*;

    /// A byte changed in the list or beside it is found, and no other.
    #[test]
    fn a_changed_byte_is_found() {
        let (mut fence, mut draw) = (Fence::default(), Draw::new(3));
        for length in [0, 1, 8, 500, SPAN - 1] {
            for _ in 0..20 {
                fence.room(length, &mut draw);
                assert!(fence.holds() && fence.differences(8).is_empty());
                let window = fence.window.clone();
                let at = window.start + draw.below(window.len());
                fence.memory[at] ^= 1;
                assert!(!fence.holds() && !fence.differences(8).is_empty());
            }
        }
    }

    /// A NaN matches a NaN among the floats that are written, and only there.
    #[test]
    fn a_nan_matches_a_nan_that_is_written() {
        let (mut fence, mut draw) = (Fence::default(), Draw::new(3));
        let [one, other] = [f64::NAN, -f64::NAN].map(f64::to_le_bytes);
        for (floats, same) in [(2, true), (1, false), (0, false)] {
            fence.lend(&[one, one].concat(), &mut draw);
            fence.expect(&[other, other].concat());
            fence.allow_nans(floats);
            assert_eq!(fence.holds(), same);
        }
        fence.lend(&one, &mut draw);
        fence.expect(&1.0f64.to_le_bytes());
        fence.allow_nans(1);
        assert!(!fence.holds());
    }
}
