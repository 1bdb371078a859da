//! A run from its first block, or from the state that it was left in, to its
//! last.

use crate::draw::fnv;
use crate::options::Options;
use crate::progress::Progress;
use crate::report;
use crate::run::Block;
use crate::shares::plan;
use crate::state::{self, Settings, Tallies};
use crate::tally::{Difference, Tally};
use crate::target::Target;
use std::{env, fs};

pub struct Session {
    options: Options,
    /// What a state has to be of.
    settings: Settings,
    targets: Vec<Target>,
    plan: Vec<Block>,
    tallies: Tallies,
    done: usize,
}

/// A sum of this program's bytes, the proved library's among them.
pub fn checksum() -> Result<u64, String> {
    let bytes = env::current_exe().and_then(fs::read);
    let bytes = bytes.map_err(|error| format!("this program cannot read itself: {error}"))?;
    Ok(fnv(&bytes))
}

impl Session {
    pub fn new(options: &Options, targets: Vec<Target>, program: u64) -> Self {
        let mut settings = vec![("program", format!("{program:016x}"))];
        settings.extend(options.settings());
        let none = |target: &Target| (target.name, Tally::default());
        Self {
            options: options.clone(),
            settings,
            plan: plan(&targets, options.amount, &options.kinds),
            tallies: targets.iter().map(none).collect(),
            targets,
            done: 0,
        }
    }

    /// What was counted and found so far.
    pub fn tallies(&self) -> &Tallies {
        &self.tallies
    }

    /// Takes over the state, if there is one, and says so.
    pub fn resume(&mut self) -> Result<(), String> {
        let Some(path) = &self.options.state else {
            return Ok(());
        };
        if !state::load(path, &self.settings, &mut self.tallies)? {
            return Ok(());
        }
        let blocks: u64 = self.tallies.iter().map(|(_, tally)| tally.blocks).sum();
        self.done = usize::try_from(blocks).unwrap_or(usize::MAX);
        if !self.in_order() {
            let path = path.display();
            return Err(format!(
                "{path}: the blocks are not those that a run does first"
            ));
        }
        println!(
            "resumed: {} of {} blocks were done",
            self.done,
            self.plan.len()
        );
        for (name, tally) in &self.tallies {
            self.tell(name, &tally.kept)?;
        }
        Ok(())
    }

    /// Whether each name has done as many blocks as the first of the plan have.
    fn in_order(&self) -> bool {
        let Some(first) = self.plan.get(..self.done) else {
            return false;
        };
        let count = |at: usize| first.iter().filter(|block| block.target == at).count() as u64;
        let mut tallies = self.tallies.iter().enumerate();
        tallies.all(|(at, (_, tally))| tally.blocks == count(at))
    }

    /// Runs what is left, but at most so many blocks.
    pub fn work(&mut self, most: usize) -> Result<(), String> {
        let differences = self.tallies.iter().map(|(_, tally)| tally.differences);
        let differences = differences.sum();
        let mut progress = Progress::new(&self.targets, &self.plan, self.done, differences);
        let end = self.plan.len().min(self.done.saturating_add(most));
        while self.done < end {
            self.block(&mut progress)?;
        }
        progress.clear();
        Ok(())
    }

    fn block(&mut self, progress: &mut Progress) -> Result<(), String> {
        let block = self.plan[self.done];
        let target = &self.targets[block.target];
        let room = self.tallies[block.target].1.room();
        let found = target.run_block(&block, self.options.seed, room);
        if !found.kept.is_empty() {
            progress.clear();
            self.tell(target.name, &found.kept)?;
        }
        progress.add(&self.targets, &block, &found);
        self.tallies[block.target].1.add(found);
        self.done += 1;
        match &self.options.state {
            Some(path) => state::save(path, &self.settings, &self.tallies),
            None => Ok(()),
        }
    }

    /// Prints differences, and writes them to files if that is asked for.
    fn tell(&self, name: &str, kept: &[Difference]) -> Result<(), String> {
        for one in kept {
            println!("{}", report::difference(name, self.options.seed, one));
            if let Some(folder) = &self.options.differences {
                report::write(folder, name, self.options.seed, one)?;
            }
        }
        Ok(())
    }
}

#[cfg(test)]
mod tests {
    use super::*;
    use crate::draw::kind::Kind;
    use crate::run::Run;
    use crate::shares::Amount;
    use crate::target::Pace;
    use crate::targets;
    use std::path::{Path, PathBuf};
    use std::time::Duration;

    const QUICK: Pace = Pace {
        divisor: 1,
        share: 1,
        block: 50,
    };

    /// Wrong for about one draw in ten.
    fn wrong(run: &mut Run) {
        run.function(
            [[0.5]].into_iter(),
            |draw, _| [draw.between(0.0, 1.0)],
            |[x]| [x],
            |[x]| [if x < 0.9 { x } else { -x }],
        );
    }

    /// The same names as in the program, in small blocks, and a wrong one.
    fn some() -> Vec<Target> {
        let mut some = targets();
        some.retain(|target| ["sin", "load", "gradients_agree"].contains(&target.name));
        some.push(Target::leaf("wrong", "a test", &[(Kind::Range, 1)], wrong));
        some.iter_mut().for_each(|target| target.pace = QUICK);
        some
    }

    fn options(state: Option<&Path>) -> Options {
        Options {
            amount: Amount::Total(2_000),
            seed: 5,
            state: state.map(Path::to_path_buf),
            ..Options::default()
        }
    }

    /// Time differs from run to run.
    fn timeless(tallies: &Tallies) -> Tallies {
        let mut tallies = tallies.clone();
        tallies
            .iter_mut()
            .for_each(|(_, tally)| tally.time = Duration::ZERO);
        tallies
    }

    fn folder(name: &str) -> PathBuf {
        let folder = env::temp_dir().join(format!("compare_{name}_{}", std::process::id()));
        fs::create_dir_all(&folder).unwrap();
        folder
    }

    /// Stopped after some blocks, again and again, and resumed from the file.
    #[test]
    fn a_resumed_run_has_the_same_counts() {
        let mut whole = Session::new(&options(None), some(), 7);
        whole.work(usize::MAX).unwrap();
        let differences = whole.tallies.last().unwrap().1.differences;
        assert!(differences > 20, "{differences}");
        let folder = folder("resumed");
        let path = folder.join("run.state");
        let mut parts = 0;
        loop {
            let mut part = Session::new(&options(Some(&path)), some(), 7);
            part.resume().unwrap();
            if part.done == part.plan.len() {
                assert_eq!(timeless(&part.tallies), timeless(&whole.tallies));
                break;
            }
            part.work(7).unwrap();
            parts += 1;
        }
        assert!(parts > 5, "{parts}");
        fs::remove_dir_all(&folder).unwrap();
    }

    /// A name alone meets the same cases as among others.
    #[test]
    fn other_names_change_nothing() {
        let cases = |targets: Vec<Target>| {
            let options = Options {
                amount: Amount::Cases(300),
                ..options(None)
            };
            let mut session = Session::new(&options, targets, 7);
            session.work(usize::MAX).unwrap();
            timeless(&session.tallies)
        };
        let all = cases(some());
        for (at, target) in some().into_iter().enumerate() {
            assert_eq!(cases(vec![target])[0], all[at]);
        }
    }

    #[test]
    fn the_state_of_another_run_is_refused() {
        let folder = folder("refused");
        let path = folder.join("run.state");
        let mut first = Session::new(&options(Some(&path)), some(), 7);
        first.work(9).unwrap();
        let resume = |options: &Options, program| Session::new(options, some(), program).resume();
        assert_eq!(resume(&options(Some(&path)), 7), Ok(()));
        assert!(resume(&options(Some(&path)), 8)
            .unwrap_err()
            .contains("another run"));
        let other = Options {
            seed: 6,
            ..options(Some(&path))
        };
        assert!(resume(&other, 7).unwrap_err().contains("seed 5"));
        let text = fs::read_to_string(&path).unwrap();
        fs::write(&path, text.replacen("blocks ", "blocks 1", 1)).unwrap();
        let error = resume(&options(Some(&path)), 7).unwrap_err();
        assert!(error.contains("blocks"), "{error}");
        fs::remove_dir_all(&folder).unwrap();
    }

    #[test]
    fn differences_are_written_to_files() {
        let folder = folder("written");
        let options = Options {
            differences: Some(folder.clone()),
            ..options(None)
        };
        let mut session = Session::new(&options, some(), 7);
        session.work(usize::MAX).unwrap();
        let kept = session.tallies.last().unwrap().1.kept.len();
        assert_eq!(kept, crate::tally::MOST_KEPT);
        assert_eq!(fs::read_dir(&folder).unwrap().count(), kept);
        fs::remove_dir_all(&folder).unwrap();
    }
}
