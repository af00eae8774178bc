//! What the tests of whole jobs share: the calls of both implementations, and
//! jobs from texts.
#![allow(dead_code)]

use super::driving::bytes;
use rivetyellow_host::answer::Answer;
use rivetyellow_host::calls::{Calls, INDEPENDENT, LINKED};

pub fn all() -> impl Iterator<Item = Calls> {
    [Some(INDEPENDENT), LINKED].into_iter().flatten()
}

/// What a call writes, or its refusal.
pub type Written = Result<String, Answer>;

pub fn written(answer: Answer, out: &[u8]) -> Written {
    if !answer.is_success() {
        return Err(answer);
    }
    let text = String::from_utf8(out[..answer.place as usize].to_vec()).unwrap();
    Ok(text.replace('\n', ";"))
}

/// A job, its texts with `;` for byte 10.
pub struct Job {
    pub old: Vec<u8>,
    pub new: Vec<u8>,
    pub tests: Vec<u8>,
}

impl Job {
    pub fn new(old: &str, new: &str, tests: &str) -> Job {
        Job {
            old: bytes(old),
            new: bytes(new),
            tests: bytes(tests),
        }
    }

    pub fn sheet(&self, calls: &Calls) -> Written {
        let mut out = vec![b'#'; 65_536];
        let answer = (calls.sheet)(&self.old, &self.new, &self.tests, &mut out);
        written(answer, &out)
    }

    pub fn record(&self, calls: &Calls, test: usize) -> Written {
        let mut out = vec![b'#'; 2_048];
        let answer = (calls.record)(&self.old, &self.new, &self.tests, test, &mut out);
        written(answer, &out)
    }

    pub fn check(&self, calls: &Calls, sheet: &str) -> Answer {
        (calls.check)(&self.old, &self.new, &self.tests, &bytes(sheet))
    }

    pub fn program(&self, calls: &Calls, side: usize) -> Written {
        let mut out = vec![b'#'; 65_536];
        let answer = (calls.program)(&self.old, &self.new, &self.tests, side, &mut out);
        written(answer, &out)
    }

    pub fn probes(&self, calls: &Calls) -> Written {
        let mut out = vec![b'#'; 8_192];
        let answer = (calls.probes)(&self.old, &self.new, &self.tests, &mut out);
        written(answer, &out)
    }

    /// The lines of the new edges that need a probe.
    pub fn probed(&self, lines: &str) {
        for calls in all() {
            assert_eq!(self.probes(&calls).as_deref(), Ok(lines), "{}", calls.name);
        }
    }

    /// The sheet and each test's record line; the sheet passes the check.
    pub fn due(&self, sheet: &str, records: &[&str]) {
        for calls in all() {
            assert_eq!(self.sheet(&calls).as_deref(), Ok(sheet), "{}", calls.name);
            let passed = self.check(&calls, sheet);
            assert_eq!(passed, Answer::success(0), "{}", calls.name);
            for (test, line) in records.iter().enumerate() {
                let record = self.record(&calls, test);
                assert_eq!(record.as_deref(), Ok(*line), "{}", calls.name);
            }
        }
    }

    /// A text is refused.
    pub fn refused(&self, number: u32, place: u32) {
        let refusal = Answer::new(number, place);
        for calls in all() {
            assert_eq!(self.sheet(&calls), Err(refusal), "{}", calls.name);
            assert_eq!(self.check(&calls, ""), refusal, "{}", calls.name);
            assert_eq!(self.probes(&calls), Err(refusal), "{}", calls.name);
        }
    }
}
