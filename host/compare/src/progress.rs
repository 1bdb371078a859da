//! The progress line, on standard error: rewritten in place on a terminal, else
//! a line every ten seconds.

use crate::run::Block;
use crate::tally::Tally;
use crate::target::Target;
use std::io::{IsTerminal, Write as _};
use std::time::{Duration, Instant};

/// Of some blocks.
#[derive(Clone, Copy, Debug, Default)]
struct Amounts {
    draws: u64,
    /// In full blocks.
    work: f64,
}

impl Amounts {
    fn add(&mut self, block: &Block, targets: &[Target]) {
        self.draws += block.draws;
        // Edges are not foreseen.
        self.work += block.draws as f64 / targets[block.target].pace.block as f64;
    }
}

pub struct Progress {
    planned: Amounts,
    done: Amounts,
    /// Of this run, without what was done before it was resumed.
    run: Amounts,
    /// Time that the run's draws took; edges are not in it.
    drawing: Duration,
    cases: u64,
    differences: u64,
    started: Instant,
    spoke: Instant,
    live: bool,
    /// Whether a line stands on the terminal.
    standing: bool,
}

impl Progress {
    /// With the blocks that are planned, of which the first are done.
    pub fn new(targets: &[Target], plan: &[Block], done: usize, differences: u64) -> Self {
        let sum = |blocks: &[Block]| {
            let mut amounts = Amounts::default();
            blocks.iter().for_each(|block| amounts.add(block, targets));
            amounts
        };
        let now = Instant::now();
        Self {
            planned: sum(plan),
            done: sum(&plan[..done]),
            run: Amounts::default(),
            drawing: Duration::ZERO,
            cases: 0,
            differences,
            started: now,
            spoke: now,
            live: std::io::stderr().is_terminal(),
            standing: false,
        }
    }

    /// One block more, and what was found in it.
    pub fn add(&mut self, targets: &[Target], block: &Block, found: &Tally) {
        self.done.add(block, targets);
        self.run.add(block, targets);
        if block.draws > 0 {
            self.drawing += found.time;
        }
        self.cases += found.cases;
        self.differences += found.differences;
        let pause = Duration::from_secs(if self.live { 1 } else { 10 });
        if self.spoke.elapsed() >= pause {
            self.spoke = Instant::now();
            self.tell();
        }
    }

    fn tell(&mut self) {
        let line = self.line(self.started.elapsed());
        let mut err = std::io::stderr().lock();
        // A progress line that cannot be written is no reason to stop.
        let _ = if self.live {
            write!(err, "\r\x1b[K{line}")
        } else {
            writeln!(err, "{line}")
        };
        self.standing = self.live;
    }

    fn line(&self, elapsed: Duration) -> String {
        let percent = 100.0 * self.done.draws as f64 / self.planned.draws.max(1) as f64;
        let rate = self.cases as f64 / elapsed.as_secs_f64().max(1e-9);
        let left = match self.left() {
            Some(left) => format!("{} left", clock(left)),
            None => "time left not known yet".to_string(),
        };
        format!(
            "{} of {} draws, {percent:.1} %, {rate:.0} cases a second, {left}, differences: {}",
            self.done.draws, self.planned.draws, self.differences
        )
    }

    /// By the work that is left, at the pace so far.
    fn left(&self) -> Option<Duration> {
        let pace = self.drawing.as_secs_f64() / self.run.work;
        let left = pace * (self.planned.work - self.done.work).max(0.0);
        (self.run.work > 0.0).then(|| Duration::from_secs_f64(left))
    }

    /// Takes the line off the terminal.
    pub fn clear(&mut self) {
        if self.standing {
            eprint!("\r\x1b[K");
            self.standing = false;
        }
    }
}

/// Hours, minutes and seconds.
pub fn clock(time: Duration) -> String {
    let seconds = time.as_secs();
    format!(
        "{}:{:02}:{:02}",
        seconds / 3600,
        seconds / 60 % 60,
        seconds % 60
    )
}

#[cfg(test)]
mod tests {
    use super::*;
    use crate::draw::kind::Kind;
    use crate::target::Pace;

    #[test]
    fn a_time_is_in_hours_minutes_and_seconds() {
        let clock = |seconds| clock(Duration::from_secs(seconds));
        assert_eq!(
            [0, 59, 61, 3600, 45_296].map(clock),
            ["0:00:00", "0:00:59", "0:01:01", "1:00:00", "12:34:56"]
        );
    }

    fn target(block: u64) -> Target {
        let pace = Pace {
            divisor: 1,
            share: 1,
            block,
        };
        Target::new("test", "a test", pace, &[(Kind::Range, 1)], |_| {})
    }

    fn block(target: usize, draws: u64) -> Block {
        Block {
            target,
            kind: Kind::Range,
            number: 0,
            draws,
        }
    }

    /// A slow draw counts for as much as many quick ones.
    #[test]
    fn time_left_is_by_work() {
        let targets = [target(1000), target(10)];
        let plan = [block(0, 1000), block(0, 1000), block(1, 10), block(1, 5)];
        let mut progress = Progress::new(&targets, &plan, 1, 2);
        assert!(progress
            .line(Duration::from_secs(1))
            .contains("not known yet"));
        let second = Duration::from_secs(1);
        let found = Tally {
            cases: 1000,
            differences: 1,
            time: 4 * second,
            ..Tally::default()
        };
        progress.add(&targets, &plan[1], &found);
        let line = progress.line(4 * second);
        let expected =
            "2000 of 2015 draws, 99.3 %, 250 cases a second, 0:00:06 left, differences: 3";
        assert_eq!(line, expected);
    }
}
