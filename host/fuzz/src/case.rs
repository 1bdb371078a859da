//! One case on both sides: the lists lie behind fences, the proved library is
//! called, and everything that it was lent is held against what the reference
//! says is written, and against what is to be left alone.

use crate::fence::Fence;
use crate::input::Input;
use crate::leaves;
use compare::draw::{fnv, Draw};
use compare::judge::{Judge, Written};
use std::fmt::Write as _;

/// The most lists that a call reads, and that it writes.
const READ: usize = 13;
const WRITTEN: usize = 5;

#[derive(Default)]
pub struct Trial {
    read: [Fence; READ],
    written: [Fence; WRITTEN],
    matrix: Fence,
    judge: Judge,
}

impl Trial {
    /// The number that both sides answer, or what differs.
    pub fn run(&mut self, input: &Input) -> Result<u32, String> {
        let mut draw = Draw::new(fnv(&input.bytes()));
        leaves::check(input, &mut self.matrix, &mut draw)?;
        self.lay_out(input, &mut draw);
        let (number, written) = self
            .judge
            .answer(input.call, &input.read_lists(), &input.rooms);
        self.expect(&written);
        let answered = self.ask(input);
        for (fence, list) in self.written.iter_mut().zip(&written) {
            if let Written::Floats(floats) = list {
                fence.allow_nans(floats.len());
            }
        }
        let (read, outputs) = (input.call.read().len(), input.rooms.len());
        let mut fences = self.read[..read].iter().chain(&self.written[..outputs]);
        if answered == number && fences.all(Fence::holds) {
            Ok(number)
        } else {
            Err(self.describe(input, answered, number))
        }
    }

    /// Where lists lie, and what is around and in the outputs, is drawn from the
    /// case itself: a case that is run again is the same.
    fn lay_out(&mut self, input: &Input, draw: &mut Draw) {
        for (fence, bytes) in self.read.iter_mut().zip(input.read_lists()) {
            fence.lend(bytes, draw);
        }
        for (fence, &length) in self.written.iter_mut().zip(&input.rooms) {
            fence.room(length, draw);
        }
    }

    fn expect(&mut self, written: &[Written]) {
        let mut bytes = Vec::new();
        for (fence, list) in self.written.iter_mut().zip(written) {
            list.put(&mut bytes);
            fence.expect(&bytes);
        }
    }

    fn ask(&mut self, input: &Input) -> u32 {
        let (read, outputs) = (input.call.read().len(), input.rooms.len());
        let read: Vec<&[u8]> = self.read[..read].iter().map(Fence::list).collect();
        let written = self.written[..outputs].iter_mut();
        let mut written: Vec<&mut [u8]> = written.map(Fence::list_mut).collect();
        input.call.ask(&read, &mut written)
    }

    fn describe(&self, input: &Input, answered: u32, number: u32) -> String {
        let mut text = format!("{input}answered {answered}, to be {number}\n");
        for (fence, list) in self.read.iter().zip(input.call.read()) {
            if !fence.holds() {
                let _ = write!(text, "  {list:?}, only read:\n{}", fence.differences(1));
            }
        }
        for (at, fence) in self.written[..input.rooms.len()].iter().enumerate() {
            if !fence.holds() {
                let differences = fence.differences(input.call.unit(at));
                let _ = write!(text, "  output {at}:\n{differences}");
            }
        }
        text
    }
}
