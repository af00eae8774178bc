//! Whole jobs: each call reads its texts in order and answers.

use super::after::{self, Doubt};
use super::back;
use super::closing::{self, Graph};
use super::program::{self, Program};
use super::sheet::{self, Joined};
use super::suite::{self, Suite};
use crate::answer::{Answer, Outcome};

/// Both programs and the tests, read.
pub struct Job<'a> {
    pub old: Program<'a>,
    pub new: Program<'a>,
    pub suite: Suite<'a>,
}

impl<'a> Job<'a> {
    /// Reads the three texts in order; the first refusal is the answer.
    pub fn read(old: &'a [u8], new: &'a [u8], tests: &'a [u8]) -> Outcome<Job<'a>> {
        let old = program::read(old)?;
        let new = program::read(new)?;
        let suite = suite::read(tests, old.edges.len())?;
        Ok(Job { old, new, suite })
    }

    pub fn graphs(&self) -> (Graph<'_>, Graph<'_>) {
        closing::graphs(&self.old, &self.new)
    }

    /// Writes the sheet.
    pub fn sheet(&self, out: &mut [u8]) -> Answer {
        let (old, new) = self.graphs();
        match closing::close(&old, &new, |_, _| ()) {
            None => TOO_MANY,
            Some(closing) => sheet::write(self, &closing, out),
        }
    }

    /// Writes one test's record line.
    pub fn record(&self, test: usize, out: &mut [u8]) -> Answer {
        if test >= self.suite.len() {
            return UNNAMED;
        }
        let row = self.suite.row(test);
        let (old, new) = self.graphs();
        let mut joined = Joined::default();
        let Some(closing) = closing::close(&old, &new, |edge, other| joined.keep(row, edge, other))
        else {
            return TOO_MANY;
        };
        let repeated = suite::meet(row, &closing.danger);
        let doubt = repeated.then(|| Doubt::new(&old, &new, &closing));
        sheet::write_record(self, &joined, doubt.as_ref(), test, out)
    }

    /// Writes the probes.
    pub fn probes(&self, out: &mut [u8]) -> Answer {
        let (old, new) = self.graphs();
        match closing::close(&old, &new, |_, _| ()) {
            None => TOO_MANY,
            Some(closing) => sheet::write_probes(&after::probes(&new, &closing), out),
        }
    }

    /// Checks a sheet.
    pub fn check(&self, sheet: &[u8]) -> Answer {
        super::check::check(self, sheet)
    }
}

/// A call's own number names nothing.
pub const UNNAMED: Answer = Answer::new(6, 0);

/// More pairs than the limit exist.
const TOO_MANY: Answer = Answer::new(15, 0);

/// The answer of a call that may end early.
pub fn answer(outcome: Outcome<Answer>) -> Answer {
    outcome.unwrap_or_else(|refusal| refusal)
}

/// Reads the old program.
pub fn read_old(old: &[u8]) -> Answer {
    answer(program::read(old).map(|_| Answer::success(0)))
}

/// Reads the old, then the new program.
pub fn read_new(old: &[u8], new: &[u8]) -> Answer {
    let read = || {
        program::read(old)?;
        program::read(new)?;
        Ok(Answer::success(0))
    };
    answer(read())
}

/// Reads both programs, then the tests.
pub fn read_tests(old: &[u8], new: &[u8], tests: &[u8]) -> Answer {
    answer(Job::read(old, new, tests).map(|_| Answer::success(0)))
}

/// Writes the sheet.
pub fn sheet(old: &[u8], new: &[u8], tests: &[u8], out: &mut [u8]) -> Answer {
    answer(Job::read(old, new, tests).map(|job| job.sheet(out)))
}

/// Writes one test's record line.
pub fn record(old: &[u8], new: &[u8], tests: &[u8], test: usize, out: &mut [u8]) -> Answer {
    answer(Job::read(old, new, tests).map(|job| job.record(test, out)))
}

/// Writes a line for each new edge that needs a probe.
pub fn probes(old: &[u8], new: &[u8], tests: &[u8], out: &mut [u8]) -> Answer {
    answer(Job::read(old, new, tests).map(|job| job.probes(out)))
}

/// Writes the program of one side back: an accepted file, read and written,
/// is unchanged.
pub fn program(old: &[u8], new: &[u8], tests: &[u8], side: usize, out: &mut [u8]) -> Answer {
    answer(Job::read(old, new, tests).map(|_| back::write(&[old, new], side, out)))
}

/// Checks a sheet.
pub fn check(old: &[u8], new: &[u8], tests: &[u8], sheet: &[u8]) -> Answer {
    answer(Job::read(old, new, tests).map(|job| job.check(sheet)))
}
