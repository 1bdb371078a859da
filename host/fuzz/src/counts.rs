//! How often each call answered each number.

use compare::calls::Call;
use std::fmt;
use std::time::{Duration, Instant};

/// 0, and the refusals.
const NUMBERS: usize = 12;
/// A progress line comes this often.
const PAUSE: Duration = Duration::from_secs(10);

pub struct Counts {
    started: Instant,
    spoke: Instant,
    of: [[u64; NUMBERS]; Call::ALL.len()],
}

impl Default for Counts {
    fn default() -> Self {
        let now = Instant::now();
        Self {
            started: now,
            spoke: now,
            of: [[0; NUMBERS]; Call::ALL.len()],
        }
    }
}

impl Counts {
    pub fn add(&mut self, call: Call, number: u32) {
        self.of[call as usize][number as usize] += 1;
    }

    /// How far the run is, if that was not said for a while.
    pub fn progress(&mut self) -> Option<String> {
        let due = self.spoke.elapsed() >= PAUSE;
        due.then(|| {
            self.spoke = Instant::now();
            self.so_far()
        })
    }

    fn so_far(&self) -> String {
        let all: u64 = self.of.as_flattened().iter().sum();
        let seconds = self.started.elapsed().as_secs_f64();
        let rate = all as f64 / seconds;
        format!("{all} executions in {seconds:.0} s, {rate:.0} a second")
    }
}

/// A Markdown table; a number that was never answered is left empty.
impl fmt::Display for Counts {
    fn fmt(&self, f: &mut fmt::Formatter) -> fmt::Result {
        writeln!(f, "{}\n", self.so_far())?;
        let numbers: Vec<String> = (0..NUMBERS).map(|number| format!(" {number} |")).collect();
        writeln!(f, "| call | executions | taken, % |{}", numbers.concat())?;
        writeln!(f, "|---|---|---|{}", "---|".repeat(NUMBERS))?;
        for (call, counts) in Call::ALL.iter().zip(&self.of) {
            let sum: u64 = counts.iter().sum();
            let share = 100.0 * counts[0] as f64 / sum.max(1) as f64;
            write!(f, "| {} | {sum} | {share:.0} |", call.name())?;
            for &count in counts {
                match count {
                    0 => write!(f, " |")?,
                    _ => write!(f, " {count} |")?,
                }
            }
            writeln!(f)?;
        }
        Ok(())
    }
}

#[cfg(test)]
mod tests {
    use super::*;

    #[test]
    fn shares_are_of_the_calls_own_executions() {
        let mut counts = Counts::default();
        for number in [0, 0, 9, 0] {
            counts.add(Call::Pose, number);
        }
        counts.add(Call::Load, 1);
        let text = counts.to_string();
        assert!(text.starts_with("5 executions in "));
        assert!(text.contains("| pose | 4 | 75 | 3 | | | | | | | | | 1 | | |"));
        assert!(text.contains("| load | 1 | 0 | | 1 | | | | | | | | | | |"));
        assert!(text.contains("| 9 | 10 | 11 |\n|---|---|"));
    }
}
