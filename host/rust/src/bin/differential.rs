//! `differential SEED COUNT`: compares the linked library with the independent
//! implementation on COUNT generated jobs, every call of each, answers and
//! lent bytes. Exits 1 on a difference; the first one's job is left in
//! `differential-job`. It exits 1 too if COUNT is 20,000 or more and labels that
//! match with other bytes, or that nearly match, or what calls of several names,
//! probes or branches `*` show, were met too seldom. Without the library it exits 2 after the
//! statistics.

use rivetyellow_host::answer::{meaning, Answer};
use rivetyellow_host::calls::{Calls, INDEPENDENT, LINKED};
use rivetyellow_host::corners::{self, Shown};
use rivetyellow_host::generate::labels::parts;
use rivetyellow_host::generate::random::Random;
use rivetyellow_host::generate::sheets::{label, lists};
use rivetyellow_host::generate::{self, Generated};
use rivetyellow_host::independent::closing::{self, called, compare, Closing, Graph, Pairs};
use rivetyellow_host::independent::job::Job;
use rivetyellow_host::independent::program::Kind;
use rivetyellow_host::independent::suite::meet;
use rivetyellow_host::independent::text::Name;
use rivetyellow_host::lent::{front, pattern, Lent};
use rivetyellow_host::stars;
use std::collections::BTreeMap;
use std::time::Instant;
use std::{env, fs, process};

/// Where the first difference's job is written.
const DIRECTORY: &str = "differential-job";

const CALLS: [&str; 8] = [
    "read_old",
    "read_new",
    "read_tests",
    "sheet",
    "record",
    "check",
    "program",
    "probes",
];

/// Those of them that write.
const SHEET: usize = 3;
const RECORD: usize = 4;
const PROGRAM: usize = 6;
const PROBES: usize = 7;

/// Pairs whose labels match with other bytes; ends of edges with one word that
/// are not alike only because their labels, which nearly match, do not.
const OTHER_BYTES: &str = "pairs alike by labels of other bytes";
const OTHER_JOBS: &str = "accepted jobs with pairs alike by labels of other bytes";
const OTHER_CALLS: &str = "pairs of calls alike by labels of other bytes";
const BLANKS_ONLY: &str = "pairs alike by labels of blanks only, of other lengths";
const BLANK_MORE: &str = "ends not alike by labels equal once all blanks are dropped";
const BLANK_FOR_BYTE: &str = "ends not alike by labels with a blank for another byte";
const LONGER: &str = "ends not alike by labels of which one begins the other";

/// Pairs of calls, of which those of several names go on, or wait for the exits
/// of the callee at a place.
const SEVERAL_JOBS: &str = "accepted jobs with pairs of calls of several names";
const GOING: [&str; 4] = [
    "pairs of calls of one name that go on",
    "pairs of calls of two names that go on",
    "pairs of calls of three names that go on",
    "pairs of calls of four names that go on",
];
const STAYING: [&str; 4] = [
    "pairs of calls of several names that wait at the first",
    "pairs of calls of several names that wait at the second",
    "pairs of calls of several names that wait at the third",
    "pairs of calls of several names that wait at the fourth",
];
const REPEATED_NAME: &str = "pairs of calls with a name twice that go on";
const OWN_LATER: &str = "pairs of calls whose later callee is their own procedure";
const OWN_RETURNS: &str = "pairs of calls whose later callee is their own procedure, that go on";
/// Ends of edges with one word that are not alike only by their callees.
const OTHER_ORDER: &str = "ends not alike by the order of callees";
const OTHER_CALLEE: &str = "ends not alike by one of several callees";
const CALLEE_MORE: &str = "ends not alike by a callee more or less";
/// Refusals of a callee field.
const UNKNOWN: [&str; 4] = [
    "unknown callees, the first of them at place 1 of several",
    "unknown callees, the first of them at place 2",
    "unknown callees, the first of them at place 3",
    "unknown callees, the first of them at place 4",
];
const FIFTH: &str = "calls of five names or more";
const EMPTY_FIRST: &str = "empty names of several callees, at the front";
const EMPTY_INNER: &str = "empty names of several callees, between two";
const EMPTY_LAST: &str = "empty names of several callees, at the end";
const LONG_NAME: &str = "callees of 13 bytes among several";
/// Sheets by what they list of the callees of listed pairs.
const ENTRIES_MISSING: &str = "sheets that break rule 3 at a later callee alone";
const EXITS_CUT: &str = "sheets that pass without the exits of a later callee alone";
const LATER_CUT: &str = "sheets that pass without the entries of a later callee";
const EXITS_MISSING: &str = "sheets that break rule 4, without the exits of a later callee alone";

/// Outputs for probes: one byte too short, and of no bytes where there are none.
const BYTE_SHORT: &str = "outputs one byte too short for the probes";
const NO_BYTES: &str = "outputs of no bytes for no probes";

/// In so many jobs each of these must be met at least so often.
const ENOUGH: u64 = 20_000;
const MET: [(&str, u64); 37] = [
    (OTHER_BYTES, 10_000),
    (OTHER_JOBS, 1_000),
    (OTHER_CALLS, 1_000),
    (BLANKS_ONLY, 500),
    (BLANK_MORE, 500),
    (BLANK_FOR_BYTE, 500),
    (LONGER, 500),
    (SEVERAL_JOBS, 1_500),
    (GOING[0], 2_000),
    (GOING[1], 400),
    (GOING[2], 400),
    (GOING[3], 400),
    (STAYING[0], 500),
    (STAYING[1], 150),
    (STAYING[2], 80),
    (STAYING[3], 20),
    (REPEATED_NAME, 500),
    (OWN_LATER, 200),
    (OWN_RETURNS, 15),
    (OTHER_ORDER, 40),
    (OTHER_CALLEE, 20),
    (CALLEE_MORE, 60),
    (UNKNOWN[0], 20),
    (UNKNOWN[1], 20),
    (UNKNOWN[2], 5),
    (UNKNOWN[3], 3),
    (FIFTH, 50),
    (EMPTY_FIRST, 15),
    (EMPTY_INNER, 8),
    (EMPTY_LAST, 15),
    (LONG_NAME, 10),
    (ENTRIES_MISSING, 10),
    (EXITS_MISSING, 10),
    (EXITS_CUT, 80),
    (LATER_CUT, 60),
    (BYTE_SHORT, 500),
    (NO_BYTES, 1_500),
];

#[derive(Default)]
struct Statistics {
    /// Answers by call and number.
    answers: [[u64; 17]; CALLS.len()],
    /// False claims by rule.
    claims: [u64; 6],
    counts: BTreeMap<&'static str, u64>,
}

impl Statistics {
    fn count(&mut self, what: &'static str, holds: bool) {
        *self.counts.entry(what).or_default() += u64::from(holds);
    }

    /// What was met less often than it must be.
    fn unmet(&self) -> Vec<&'static str> {
        let met = |what| self.counts.get(what).copied().unwrap_or_default();
        let all = MET.iter().chain(&corners::MET).chain(&stars::MET);
        let unmet = all.filter(|(what, least)| met(what) < *least);
        unmet.map(|(what, _)| *what).collect()
    }

    /// Counts pairs and ends by their labels.
    fn labels(&mut self, old: &Graph, new: &Graph, closed: &Closing) {
        for &(n, m) in &closed.pairs.list {
            let (one, other) = (label(old, n), label(new, m));
            let call = old.kind(n) == Kind::Call;
            if one != other {
                self.count(OTHER_BYTES, true);
                self.count(OTHER_CALLS, call);
                self.count(BLANKS_ONLY, parts(one).is_empty());
            }
            if waits_at(old, new, &closed.pairs, (n, m)).is_some() {
                continue;
            }
            compare(old.leaving(n), new.leaving(m), |edge, other| {
                if let Some(other) = other.filter(|other| other.class != edge.class) {
                    self.near(old, new, edge.end, other.end);
                }
                true
            });
        }
    }

    /// Counts two nodes that are not alike.
    fn near(&mut self, old: &Graph, new: &Graph, n: u16, m: u16) {
        if old.kind(n) != new.kind(m) {
            return;
        }
        let (one, other) = (parts(label(old, n)), parts(label(new, m)));
        let names = |graph: &Graph, node| -> Vec<Name> {
            let procedures = &graph.program.procedures;
            let callees = graph.callees(node).iter();
            callees
                .map(|&callee| procedures[callee as usize].name)
                .collect()
        };
        let (called, others) = (names(old, n), names(new, m));
        if called != others {
            if one == other {
                self.other_callees(called, others);
            }
            return;
        }
        self.count(BLANK_MORE, one.concat() == other.concat());
        let (one, other) = (one.join(&b' '), other.join(&b' '));
        let blank = |(a, b): (&u8, &u8)| a == b || *a == b' ' || *b == b' ';
        let bytes = one.iter().zip(&other);
        let same = one.len() == other.len();
        self.count(BLANK_FOR_BYTE, same && bytes.clone().all(blank));
        self.count(LONGER, !same && bytes.clone().all(|(a, b)| a == b));
    }

    /// Counts calls that are not alike by the names of their callees.
    fn other_callees(&mut self, mut called: Vec<Name>, mut others: Vec<Name>) {
        let same = called.len() == others.len();
        let differing = called
            .iter()
            .zip(&others)
            .filter(|(one, other)| one != other);
        let one = same && called.len() > 1 && differing.count() == 1;
        self.count(OTHER_CALLEE, one);
        self.count(CALLEE_MORE, called.len().abs_diff(others.len()) == 1);
        called.sort();
        others.sort();
        self.count(OTHER_ORDER, called == others);
    }

    /// Counts pairs of calls by their callees.
    fn calls(&mut self, old: &Graph, new: &Graph, closed: &Closing) {
        let mut job = false;
        for &(n, m) in &closed.pairs.list {
            let callees = old.callees(n);
            let count = callees.len();
            if count == 0 {
                continue;
            }
            let waits = waits_at(old, new, &closed.pairs, (n, m));
            job |= count > 1;
            match waits {
                None => self.count(GOING[count - 1], true),
                Some(place) => self.count(STAYING[place], count > 1),
            }
            let twice = (1..count).any(|at| callees[..at].contains(&callees[at]));
            self.count(REPEATED_NAME, twice && waits.is_none());
            let own = callees[1..].contains(&old.procedure(n));
            self.count(OWN_LATER, own);
            self.count(OWN_RETURNS, own && waits.is_none());
        }
        self.count(SEVERAL_JOBS, job);
    }

    /// Counts an accepted job by its pairs.
    fn pairs(&mut self, old: &Graph, new: &Graph, closed: &Closing) {
        let (mut going, mut staying, mut other) = (false, false, false);
        let mut partners = BTreeMap::new();
        for &(n, m) in &closed.pairs.list {
            *partners.entry(n).or_insert(0) += 1;
            other |= label(old, n) != label(new, m);
            if old.kind(n) == Kind::Call {
                let waits = waits_at(old, new, &closed.pairs, (n, m)).is_some();
                going |= !waits;
                staying |= waits;
            }
        }
        let danger = closed.danger.iter().any(|&word| word != 0);
        let several = partners.values().any(|&count| count > 1);
        self.count(OTHER_JOBS, other);
        self.count("accepted jobs", true);
        self.count("accepted jobs with D lines", danger);
        self.count("accepted jobs without D lines", !danger);
        self.count("accepted jobs with several partners of a node", several);
        self.count("accepted jobs with C pairs that go on", going);
        self.count("accepted jobs with C pairs that do not", staying);
        self.count("accepted jobs with C pairs of both sorts", going && staying);
    }

    /// Counts the refusal of a program by the callee field of its line.
    fn refused(&mut self, text: &[u8], answer: Answer) {
        let line = text
            .split(|&byte| byte == b'\n')
            .nth(answer.place as usize - 1);
        let fields: Vec<&[u8]> = line
            .unwrap_or_default()
            .split(|&byte| byte == b',')
            .collect();
        let [b"N", b"C", _, field] = fields[..] else {
            return;
        };
        let names: Vec<&[u8]> = field.split(|&byte| byte == b'+').collect();
        let count = names.len();
        if answer.number == 9 {
            let known = |name: &&[u8]| {
                let procedure = [b"P,", *name].concat();
                text.split(|&byte| byte == b'\n')
                    .any(|line| line == procedure)
            };
            if let Some(place) = names.iter().position(|name| !known(name)) {
                self.count(UNKNOWN[place], count > 1);
            }
            return;
        }
        let empty: Vec<usize> = (0..count).filter(|&at| names[at].is_empty()).collect();
        if count > 1 && empty.len() == 1 {
            let place = match empty[0] {
                0 => EMPTY_FIRST,
                last if last == count - 1 => EMPTY_LAST,
                _ => EMPTY_INNER,
            };
            self.count(place, true);
        }
        let right = |name: &&[u8]| {
            let byte = |byte: &u8| byte.is_ascii_alphanumeric() || *byte == b'_';
            (1..=12).contains(&name.len()) && name.iter().all(byte)
        };
        self.count(FIFTH, count > 4 && names.iter().all(right));
        let long = names.iter().filter(|name| name.len() == 13).count() == 1;
        let others = names.iter().filter(|name| right(name)).count() == count - 1;
        self.count(LONG_NAME, (2..=4).contains(&count) && long && others);
    }

    /// Counts a sheet by what it lists of callees.
    fn sheet(&mut self, job: &Job, text: &[u8], answer: Answer) {
        let (old, new) = job.graphs();
        let sheet = lists(job, text);
        stars::tell_sheet(&old, &new, &sheet, answer, &mut |what, holds| {
            self.count(what, holds)
        });
        let listed = sheet.pairs;
        let is = |(n, m): (u16, u16)| listed.contains(&(n as usize, m as usize));
        let (mut first, mut later) = (false, false);
        let (mut exits_missing, mut entries_missing) = (false, false);
        for &(n, m) in &listed {
            let mut met = true;
            for (place, (entries, exits)) in called(&old, &new, (n as u16, m as u16)).enumerate() {
                if met && !is(entries) {
                    first |= place == 0;
                    later |= place > 0;
                }
                exits_missing |= met && place > 0 && is(entries) && !is(exits);
                entries_missing |= !met && place > 0 && !is(entries);
                met &= is(exits);
            }
        }
        let broken = |rule| answer == Answer::new(12, rule);
        self.count(ENTRIES_MISSING, broken(3) && later && !first);
        self.count(EXITS_MISSING, broken(4) && exits_missing);
        self.count(EXITS_CUT, answer.is_success() && exits_missing);
        self.count(LATER_CUT, answer.is_success() && entries_missing);
    }

    /// Counts a test by its record line.
    fn record(&mut self, shown: &Shown, row: &[u64], record: &[u8]) {
        let line = &record[..record.len() - 1];
        let marks = line.rsplit(|&byte| byte == b',').next().unwrap_or(&[]);
        shown.tell_test(row, marks, &mut |what, holds| self.count(what, holds));
        stars::tell_test(shown, row, marks, &mut |what, holds| {
            self.count(what, holds)
        });
        let has = |mark: u8| marks.contains(&mark);
        let left_off = !meet(row, &shown.closing.danger);
        self.count("repeated tests", !left_off);
        self.count("left-off tests", left_off);
        self.count("left-off tests with a mark 0", left_off && has(b'0'));
        self.count("left-off tests with a mark 1", left_off && has(b'1'));
        self.count("left-off tests with a mark ?", left_off && has(b'?'));
        let all = has(b'0') && has(b'1') && has(b'?');
        self.count("left-off tests with all three marks", left_off && all);
    }

    fn answer(&mut self, call: usize, answer: Answer) {
        self.answers[call][answer.number.min(16) as usize] += 1;
        if answer.number == 12 {
            self.claims[answer.place.min(5) as usize] += 1;
        }
    }

    fn print(&self) {
        print!("{:>6}", "answer");
        for call in CALLS {
            print!("{call:>12}");
        }
        println!();
        for number in (0..=12).chain(15..=16) {
            print!("{number:>6}");
            for call in 0..CALLS.len() {
                print!("{:>12}", self.answers[call][number]);
            }
            println!("  {}", meaning(number as u32));
        }
        for rule in 1..=5 {
            println!("{:>10} sheets break rule {rule} first", self.claims[rule]);
        }
        for (what, count) in &self.counts {
            println!("{count:>10} {what}");
        }
    }
}

/// The memory lent to the linked calls, and room for comparison.
#[derive(Default)]
struct Memory {
    texts: [Lent<u8>; 4],
    out: Lent<u8>,
    expected: Vec<u8>,
}

struct Comparison<'g> {
    job: &'g Generated,
    linked: Option<&'g Calls>,
    memory: &'g mut Memory,
    statistics: &'g mut Statistics,
    differences: Vec<String>,
}

impl<'g> Comparison<'g> {
    fn texts(&self) -> [&'g [u8]; 4] {
        let job = self.job;
        [&job.old, &job.new, &job.tests, &job.sheet]
    }

    fn differ(&mut self, what: String) {
        self.differences.push(what);
    }

    /// Compares the answers of a call, and tests that no input byte and no
    /// guard byte was changed.
    fn judge(&mut self, call: usize, expected: Answer, found: Option<Answer>) {
        self.statistics.answer(call, expected);
        let Some(found) = found else {
            return;
        };
        let name = CALLS[call];
        if found != expected {
            self.differ(format!("{name}: linked {found}, independent {expected}"));
        }
        for at in 0..4 {
            if self.memory.texts[at].slice() != self.texts()[at] {
                self.differ(format!("{name}: text {at} was changed"));
            }
            if !self.memory.texts[at].guarded() {
                self.differ(format!("{name}: guard of text {at} was changed"));
            }
        }
    }

    /// The calls that read.
    fn reads(&mut self) {
        let [old, new, tests, sheet] = self.texts();
        let expected = [
            (INDEPENDENT.read_old)(old),
            (INDEPENDENT.read_new)(old, new),
            (INDEPENDENT.read_tests)(old, new, tests),
            (INDEPENDENT.check)(old, new, tests, sheet),
        ];
        let found = self.linked.map(|linked| {
            let [old, new, tests, sheet] = &self.memory.texts;
            let (old, new, tests, sheet) = (old.slice(), new.slice(), tests.slice(), sheet.slice());
            [
                (linked.read_old)(old),
                (linked.read_new)(old, new),
                (linked.read_tests)(old, new, tests),
                (linked.check)(old, new, tests, sheet),
            ]
        });
        for (at, call) in [0, 1, 2, 5].into_iter().enumerate() {
            self.judge(call, expected[at], found.map(|found| found[at]));
        }
        for (text, answer) in [old, new].into_iter().zip(expected) {
            if matches!(answer.number, 2 | 9) {
                self.statistics.refused(text, answer);
                break;
            }
        }
        let passed = expected[3].is_success();
        self.statistics.count("sheets that pass", passed);
        if passed || expected[3].number == 12 {
            if let Ok(job) = Job::read(old, new, tests) {
                self.statistics.sheet(&job, sheet, expected[3]);
            }
        }
        if self.job.passes && !passed {
            self.differ(format!("a sheet made to pass is refused: {}", expected[3]));
        }
    }

    /// A call that writes, with its own number and an output of this length.
    fn writes(&mut self, call: usize, own: usize, length: usize, random: &mut Random) -> Answer {
        let mut expected_out = std::mem::take(&mut self.memory.expected);
        expected_out.clear();
        expected_out.extend((0..length).map(pattern));
        let expected = written_by(&INDEPENDENT, call, self.texts(), own, &mut expected_out);
        let written = match expected.is_success() {
            true => expected.place as usize,
            false => 0,
        };
        let kept = |(at, &byte): (usize, &u8)| byte == pattern(at);
        if !expected_out.iter().enumerate().skip(written).all(kept) {
            self.differ(format!("{}: independent writes too far", CALLS[call]));
        }
        let found = self.linked.map(|linked| {
            let Memory { texts, out, .. } = &mut *self.memory;
            out.fill(front(random), length, pattern);
            let texts = texts.each_ref().map(Lent::slice);
            written_by(linked, call, texts, own, out.slice_mut())
        });
        if found.is_some() {
            if self.memory.out.slice() != expected_out {
                self.differ(format!("{}: output differs, length {length}", CALLS[call]));
            }
            if !self.memory.out.guarded() {
                self.differ(format!("{}: guard of output was changed", CALLS[call]));
            }
        }
        self.judge(call, expected, found);
        self.memory.expected = expected_out;
        expected
    }

    /// A call that writes, with outputs long enough, then of another length.
    /// Gives what is written if the job is accepted.
    fn writes_twice(&mut self, call: usize, own: usize, random: &mut Random) -> Option<Vec<u8>> {
        let room = match self.job.old.len() {
            _ if call == RECORD => 1_100,
            _ if call == PROBES => 6_058,
            0..=2_000 => 8_192,
            _ => 65_536,
        };
        let mut answer = self.writes(call, own, room, random);
        if answer.number == 16 {
            answer = self.writes(call, own, 65_536, random);
        }
        if !answer.is_success() {
            let short = random.below(40);
            self.writes(call, own, short, random);
            return None;
        }
        let written = answer.place as usize;
        let text = self.memory.expected[..written].to_vec();
        let length = match random.below(6) {
            0 => written.saturating_sub(1),
            1 => random.below(written.max(1)),
            2 => 0,
            3 | 4 => written,
            _ => written + random.within(1, 20),
        };
        self.writes(call, own, length, random);
        if call == PROBES {
            self.statistics.count(BYTE_SHORT, length + 1 == written);
            self.statistics.count(NO_BYTES, length == 0 && written == 0);
        }
        Some(text)
    }

    fn run(&mut self, random: &mut Random) {
        if self.linked.is_some() {
            for at in 0..4 {
                let text = self.texts()[at];
                self.memory.texts[at].hold(front(random), text);
            }
        }
        self.reads();
        let sheet = self.writes_twice(SHEET, 0, random);
        let accepted = Job::read(&self.job.old, &self.job.new, &self.job.tests).ok();
        let tests = accepted.as_ref().map_or(0, |job| job.suite.len());
        let mut records = Vec::new();
        for test in 0..tests {
            if tests <= 14 || random.below(tests) < 3 {
                records.push((test, self.writes_twice(RECORD, test, random)));
            }
        }
        let beyond = [tests, tests + 1, usize::MAX, 1 << 32, 1 << 16, 256];
        let length = random.below(40);
        self.writes(RECORD, *random.pick(&beyond), length, random);
        self.programs(random);
        self.writes_twice(PROBES, 0, random);
        if let (Some(job), Some(sheet)) = (accepted, sheet) {
            self.own_sheet(&sheet);
            self.describe(&job, &records);
        }
    }

    /// The programs of both sides, and of a side that is none.
    fn programs(&mut self, random: &mut Random) {
        for side in 0..2 {
            if let Some(text) = self.writes_twice(PROGRAM, side, random) {
                if text != self.texts()[side] {
                    self.differ(format!("the program of side {side} is not its text"));
                }
            }
        }
        let none = [2, 3, 256, 1 << 16, 1 << 32, (1 << 32) + 1, usize::MAX];
        let length = random.below(2_000);
        self.writes(PROGRAM, *random.pick(&none), length, random);
    }

    /// The selector's sheet passes the check.
    fn own_sheet(&mut self, sheet: &[u8]) {
        let Generated {
            old, new, tests, ..
        } = self.job;
        for calls in [Some(&INDEPENDENT), self.linked].into_iter().flatten() {
            let answer = (calls.check)(old, new, tests, sheet);
            if answer != Answer::success(0) {
                self.differ(format!("{}: own sheet refused {answer}", calls.name));
            }
        }
    }

    /// Counts what an accepted job shows.
    fn describe(&mut self, job: &Job, records: &[(usize, Option<Vec<u8>>)]) {
        let (old, new) = job.graphs();
        let mut joined = Vec::new();
        let Some(closed) = closing::close(&old, &new, |e, f| joined.push((e, f))) else {
            return;
        };
        let shown = Shown::new(&old, &new, &closed, &joined);
        let statistics = &mut *self.statistics;
        statistics.labels(&old, &new, &closed);
        statistics.calls(&old, &new, &closed);
        statistics.pairs(&old, &new, &closed);
        shown.tell(&mut |what, holds| statistics.count(what, holds));
        stars::tell(&shown, &mut |what, holds| statistics.count(what, holds));
        for (test, record) in records {
            if let Some(record) = record {
                statistics.record(&shown, job.suite.row(*test), record);
            }
        }
    }
}

/// Makes a call that writes, with its own number.
fn written_by(
    calls: &Calls,
    call: usize,
    [old, new, tests, _]: [&[u8]; 4],
    own: usize,
    out: &mut [u8],
) -> Answer {
    match call {
        SHEET => (calls.sheet)(old, new, tests, out),
        RECORD => (calls.record)(old, new, tests, own, out),
        PROBES => (calls.probes)(old, new, tests, out),
        _ => (calls.program)(old, new, tests, own, out),
    }
}

/// The place of the first callee whose exits are no pair; none where a pair
/// may go on.
fn waits_at(old: &Graph, new: &Graph, pairs: &Pairs, pair: (u16, u16)) -> Option<usize> {
    called(old, new, pair).position(|(_, exits)| !pairs.contains(exits.0, exits.1))
}

/// Leaves the job of a difference as files.
fn keep(job: &Generated, differences: &[String]) -> std::io::Result<()> {
    fs::create_dir_all(DIRECTORY)?;
    let write = |name: &str, text: &[u8]| fs::write(format!("{DIRECTORY}/{name}"), text);
    write("old", &job.old)?;
    write("new", &job.new)?;
    write("tests", &job.tests)?;
    write("sheet", &job.sheet)?;
    write("differences", differences.join("\n").as_bytes())
}

fn argument(at: usize) -> Option<u64> {
    env::args().nth(at)?.parse().ok()
}

fn main() {
    let (Some(seed), Some(count)) = (argument(1), argument(2)) else {
        eprintln!("usage: differential SEED COUNT");
        process::exit(2);
    };
    let linked = LINKED;
    let mut statistics = Statistics::default();
    let mut memory = Memory::default();
    let mut differing = 0;
    let start = Instant::now();
    for number in 0..count {
        let mut random = Random::new(seed, number);
        let job = generate::job(&mut random);
        let mut comparison = Comparison {
            job: &job,
            linked: linked.as_ref(),
            memory: &mut memory,
            statistics: &mut statistics,
            differences: Vec::new(),
        };
        comparison.run(&mut random);
        let differences = comparison.differences;
        if differences.is_empty() {
            continue;
        }
        differing += 1;
        if differing <= 10 {
            println!("job {number} differs: {}", differences.join("; "));
        }
        if differing == 1 {
            if let Err(error) = keep(&job, &differences) {
                eprintln!("differential: {DIRECTORY}: {error}");
            }
        }
    }
    println!("seed {seed}, {count} jobs, {} s", start.elapsed().as_secs());
    statistics.print();
    let unmet = statistics.unmet();
    if count >= ENOUGH && !unmet.is_empty() {
        println!("met too seldom: {}", unmet.join(", "));
    }
    println!("{differing} jobs differ");
    if differing > 0 || (count >= ENOUGH && !unmet.is_empty()) {
        process::exit(1);
    }
    if linked.is_none() {
        println!("the library is not linked: nothing was compared");
        process::exit(2);
    }
}
