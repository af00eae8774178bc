//! Random sequences of calls of the lent job. Most go on from stage to stage
//! and ask for several things at stage 3; before some calls a text, a table,
//! the job or a length is spoilt, and made right again afterwards.

use super::damage::{self, damage, names_called, parts, spoil_program, twin, Part};
use super::limits::{self, formatted_ring, many_tests, ring};
use super::random::Random;
use super::{finish, mostly_right, Generated};
use crate::answer::Answer;
use crate::drive::{Bytes, Call, Driver, Table, Text, OUTPUT};
use crate::records::{self, joined_callees, CHECK, LABEL, PROBES, PROGRAM, RECORD, SHEET};
use std::ops::Range;

/// What was spoilt before a call, and the number that the call answered.
pub type Spoilt = (&'static str, u32);

/// What was met when a program was written back: it is not the text lent; an
/// edge was led elsewhere in the tables, or a call in text and tables; a text
/// was lent that has only the parts of the one that was read.
const MENDED: &str = "a program written that is not the text lent";
const EDGE_LED: &str = "an edge led elsewhere by the tables";
const CALL_LED: &str = "a call led elsewhere by text and tables";
const TWIN: &str = "another text of the same parts";

/// The numbers due for what is spoilt before a program is written back: 0
/// where there may be a text that leaves the tables and has the parts of the
/// one lent, 14 where there may be none.
pub const WRITTEN_BACK: [Spoilt; 22] = [
    (MENDED, 0),
    (damage::OTHER_BYTES, 0),
    (damage::LABEL_BYTE, 0),
    (damage::LABEL_BYTE, 14),
    (damage::NAME_BYTE, 0),
    (damage::NAME_BYTE, 14),
    (damage::CALLEE_BYTE, 14),
    (damage::PLUS_BYTE, 14),
    (damage::CALLEES_EXCHANGED, 14),
    (damage::WORD_BYTE, 14),
    (damage::RENAMED, 0),
    (damage::RENAMED, 14),
    (damage::NAMES_EXCHANGED, 14),
    (damage::CALLS_EXCHANGED, 0),
    (damage::OTHER_CALLEE, 14),
    (damage::OTHER_WORD, 14),
    (damage::BYTE_MORE, 14),
    (damage::BYTE_LESS, 14),
    (EDGE_LED, 0),
    (EDGE_LED, 14),
    (CALL_LED, 0),
    (TWIN, 0),
];

/// Drives one sequence; gives what was spoilt in it.
pub fn sequence(random: &mut Random, driver: &mut Driver) -> Vec<Spoilt> {
    let job = match random.one_in(100) {
        true => many_pairs(random),
        false => mostly_right(random),
    };
    let calls = random.within(8, 18);
    let mut maker = Maker {
        random,
        driver,
        written: None,
        spoilt: Vec::new(),
    };
    maker.begin(&job);
    while maker.driver.made.len() < calls && maker.driver.difference.is_none() {
        maker.next();
    }
    maker.spoilt
}

/// Rings with 4,096 pairs, or 4,097; some with a sheet of as many M lines.
fn many_pairs(random: &mut Random) -> Generated {
    if random.percent(50) {
        let texts = limits::many_pairs(random);
        return finish(random, texts);
    }
    let (old, new) = *random.pick(&[(46, 89), (63, 65), (65, 63)]);
    let tests = random.below(3);
    let new = match random.percent(40) {
        true => formatted_ring(random, new, b"turn"),
        false => ring(new),
    };
    Generated {
        old: ring(old).text(),
        new: new.text(),
        tests: many_tests(random, tests, 2 * old + 1, 50),
        sheet: Bytes::new(),
        passes: false,
    }
}

/// How something spoilt is made right again.
enum Mend {
    Text(Text, Bytes),
    Room(Table, usize),
    /// A number: what it was and what it is. If a call wrote another one
    /// there, it stays.
    Put(Table, usize, u64, u64),
}

struct Maker<'s> {
    random: &'s mut Random,
    driver: &'s mut Driver,
    /// The call that wrote last, and how many bytes.
    written: Option<(usize, usize)>,
    spoilt: Vec<Spoilt>,
}

/// Numbers that name nothing, or are cut to one that does.
const BEYOND: [usize; 8] = [
    2,
    256,
    512,
    1 << 16,
    1 << 32,
    (1 << 32) + 1,
    1 << 62,
    usize::MAX,
];

/// The texts of the two sides, and their tables.
const PROGRAMS: [Text; 2] = [Text::Old, Text::New];
const NODES: [Table; 2] = [Table::OldNodes, Table::NewNodes];
const LINKS: [Table; 2] = [Table::OldLinks, Table::NewLinks];

impl Maker<'_> {
    fn stage(&self) -> usize {
        self.driver.job().stage
    }

    fn begin(&mut self, job: &Generated) {
        self.driver.begin();
        self.lend(job);
        if self.random.one_in(12) {
            self.any();
        }
        if self.random.one_in(12) {
            self.driver.put(Table::Job, 0, 0);
            self.usual();
        }
        self.driver.call(Call::Reset);
    }

    fn lend(&mut self, job: &Generated) {
        let texts = [
            (Text::Old, &job.old),
            (Text::New, &job.new),
            (Text::Tests, &job.tests),
            (Text::Input, &job.sheet),
        ];
        for (text, bytes) in texts {
            self.driver.lend_text(text, bytes);
        }
    }

    /// One or a few calls.
    fn next(&mut self) {
        if self.stage() < 3 && self.random.percent(40) {
            return self.usual();
        }
        if self.stage() == 3 && self.random.percent(12) {
            return self.write_back();
        }
        match self.random.below(100) {
            0..=53 => self.usual(),
            54..=61 => self.any(),
            62..=92 => self.spoil(),
            93..=94 => {
                self.driver.call(Call::Reset);
            }
            95..=96 => {
                if let Some((what, _)) = self.spoil_one() {
                    self.usual_call();
                    self.count(what);
                }
            }
            _ => self.other_job(),
        }
    }

    /// The call of this stage; after a refusal what it is refused for may be
    /// made right.
    fn usual(&mut self) {
        let stage = self.stage();
        let answer = self.usual_call();
        if answer.number == 14 && self.random.percent(70) {
            self.driver.call(Call::Reset);
        } else if stage < 3 && !answer.is_success() {
            self.plain_text(stage);
        }
    }

    fn usual_call(&mut self) -> Answer {
        match self.stage() {
            0 => self.driver.call(Call::ReadOld),
            1 => self.driver.call(Call::ReadNew),
            2 => self.driver.call(Call::ReadTests),
            3 => self.request(),
            _ => self.driver.call(Call::Reset),
        }
    }

    /// A call of any stage.
    fn any(&mut self) {
        match self.random.below(9) {
            0 | 1 => self.driver.call(Call::ReadOld),
            2 | 3 => self.driver.call(Call::ReadNew),
            4 | 5 => self.driver.call(Call::ReadTests),
            _ => self.request(),
        };
    }

    /// Lends a plain text in place of the one that this stage refuses.
    fn plain_text(&mut self, stage: usize) {
        let program: &[u8] = b"P,up\nN,E,,\nN,C,wind,in+in\nN,X,,\nB,0,-,1\nB,1,-,2\n\
            P,in\nN,E,,\nN,S,turn,\nN,X,,\nB,3,-,4\nB,4,go,5\n";
        match stage {
            0 => self.driver.lend_text(Text::Old, program),
            1 => self.driver.lend_text(Text::New, program),
            _ => self.driver.lend_text(Text::Tests, b""),
        }
    }

    /// Lends texts of another job.
    fn other_job(&mut self) {
        let job = mostly_right(self.random);
        match self.random.below(6) {
            0 => self.driver.lend_text(Text::Old, &job.old),
            1 => self.driver.lend_text(Text::New, &job.new),
            2 => self.driver.lend_text(Text::Tests, &job.tests),
            _ => {
                self.lend(&job);
                if self.random.percent(60) {
                    self.driver.call(Call::Reset);
                }
            }
        }
        self.usual();
    }

    /// A number below `count` mostly, else one that names nothing.
    fn named(&mut self, count: usize) -> usize {
        match self.random.below(12) {
            0 => count,
            1 => *self.random.pick(&BEYOND),
            2 => count.saturating_add(*self.random.pick(&BEYOND)),
            _ => self.random.below(count.max(1)),
        }
    }

    /// A request, or a label shown.
    fn request(&mut self) -> Answer {
        let job = self.driver.job();
        let (a, b) = (self.named(3), self.named(3));
        match self.random.below(100) {
            0..=16 => self.writing(SHEET, a, b),
            17..=28 => self.writing(PROBES, a, b),
            29..=48 => {
                let test = self.named(job.tests.min(200));
                self.writing(RECORD, test, b)
            }
            49..=64 => {
                self.idle_output();
                self.driver.call(Call::Ask(CHECK, a, b))
            }
            65..=81 => {
                let side = self.named(2);
                let count = if side == 0 {
                    job.old_nodes
                } else {
                    job.new_nodes
                };
                let node = self.named(count.min(512));
                if self.random.percent(50) {
                    return self.driver.call(Call::Show(side, node));
                }
                self.idle_output();
                self.driver.call(Call::Ask(LABEL, side, node))
            }
            82..=94 => {
                let side = self.named(2);
                self.writing(PROGRAM, side, b)
            }
            _ => {
                let unknown = [6, 7, 8, 255, 256, 1 << 32, (1 << 32) + 1, usize::MAX];
                let number = *self.random.pick(&unknown);
                self.idle_output();
                self.driver.call(Call::Ask(number, a, b))
            }
        }
    }

    /// An output for a request that writes nothing.
    fn idle_output(&mut self) {
        let length = self.random.below(100);
        self.driver.lend(Table::Output, length);
    }

    /// A request that writes, with an output that is mostly long enough. The
    /// selector's own sheet may be the one that is checked later.
    fn writing(&mut self, request: usize, a: usize, b: usize) -> Answer {
        let length = match self.written {
            Some((last, written)) if last == request => match self.random.below(8) {
                0 | 1 => written.saturating_sub(1),
                2 => self.random.below(written.max(1)),
                3 => 0,
                4 | 5 => written,
                _ => written + self.random.within(1, 20),
            },
            _ if request == RECORD => *self.random.pick(&[1_045, 1_045, 60, 20]),
            _ if request == PROBES => *self.random.pick(&[6_058, 6_058, 60, 20, 0]),
            _ => *self.random.pick(&[4_096, 4_096, 4_096, 60, 20, 0]),
        };
        self.driver.lend(Table::Output, length);
        let mut answer = self.driver.call(Call::Ask(request, a, b));
        if answer.number == 16 && self.written.is_none() {
            self.driver.lend(Table::Output, OUTPUT);
            answer = self.driver.call(Call::Ask(request, a, b));
        }
        // Once there is a difference, calls are no longer made.
        if answer.is_success() && self.driver.difference.is_none() {
            let written = answer.place as usize;
            self.written = Some((request, written));
            if request == SHEET && self.random.percent(40) {
                let sheet = self.driver.written(written).to_vec();
                self.driver.lend_text(Text::Input, &sheet);
            }
            if request == PROGRAM && self.driver.written(written) != self.driver.text(PROGRAMS[a]) {
                self.spoilt.push((MENDED, 0));
            }
        }
        answer
    }

    // ---- programs written back from what is spoilt

    /// Spoils the text of a version, or of both, or text and tables so that
    /// they may be right together; writes a program, and makes it right.
    fn write_back(&mut self) {
        let mut mends = Vec::new();
        let side = self.random.below(2);
        let what = match self.random.below(8) {
            0 => self.lead_edge(side, &mut mends),
            1 => self.lead_call(side, &mut mends),
            2 => self.lend_twin(side, &mut mends),
            _ => None,
        };
        let what = what.unwrap_or_else(|| self.spoil_side(side, &mut mends));
        let more = self.random.below(8);
        match more {
            0 => {
                self.spoil_side(1 - side, &mut mends);
            }
            1 => mends.extend(self.spoil_table().map(|(_, mend)| mend)),
            _ => (),
        }
        let asked = match self.random.percent(60) {
            true => side,
            false => self.named(2),
        };
        self.writing(PROGRAM, asked, 0);
        if more > 1 {
            self.count(what);
        }
        while let Some(mend) = mends.pop() {
            self.mend(mend, false);
        }
    }

    fn spoil_side(&mut self, side: usize, mends: &mut Vec<Mend>) -> &'static str {
        let mut bytes = self.driver.text(PROGRAMS[side]).to_vec();
        mends.push(Mend::Text(PROGRAMS[side], bytes.clone()));
        let what = spoil_program(self.random, &mut bytes);
        self.driver.lend_text(PROGRAMS[side], &bytes);
        what
    }

    /// Puts a number into a table.
    fn exactly(&mut self, table: Table, at: usize, is: u64, mends: &mut Vec<Mend>) -> Option<()> {
        let was = self.driver.number(table, at)?;
        self.driver.put(table, at, is);
        mends.push(Mend::Put(table, at, was, is));
        Some(())
    }

    /// Reads a text with the same parts in place of this one, and lends this one
    /// then.
    fn lend_twin(&mut self, side: usize, mends: &mut Vec<Mend>) -> Option<&'static str> {
        let bytes = self.driver.text(PROGRAMS[side]).to_vec();
        let twin = twin(self.random, &bytes)?;
        self.driver.lend_text(PROGRAMS[side], &twin);
        for call in [Call::Reset, Call::ReadOld, Call::ReadNew, Call::ReadTests] {
            self.driver.call(call);
        }
        self.driver.lend_text(PROGRAMS[side], &bytes);
        mends.push(Mend::Text(PROGRAMS[side], twin));
        Some(TWIN)
    }

    /// Leads an edge to another node, in the tables alone.
    fn lead_edge(&mut self, side: usize, mends: &mut Vec<Mend>) -> Option<&'static str> {
        let job = self.driver.job();
        let edges = [job.old_edges, job.new_edges][side].min(1_024);
        let nodes = [job.old_nodes, job.new_nodes][side].min(512);
        let at = 448 + 5 * self.random.below(edges) + 3;
        let to = self.random.below(nodes) as u64;
        self.exactly(LINKS[side], at, to, mends)?;
        Some(EDGE_LED)
    }

    /// Leads a call to another procedure whose name is as long, in text and
    /// tables; where it names several, one of them.
    fn lead_call(&mut self, side: usize, mends: &mut Vec<Mend>) -> Option<&'static str> {
        let bytes = self.driver.text(PROGRAMS[side]).to_vec();
        let all = parts(&bytes);
        let called = names_called(&bytes, &all);
        if called.is_empty() {
            return None;
        }
        let place = self.random.pick(&called).clone();
        let names = all.iter().filter(|(part, _)| *part == Part::Name);
        let names: Vec<_> = names.map(|(_, name)| name.clone()).collect();
        let other = |name: &&Range<usize>| {
            name.len() == place.len() && bytes[(*name).clone()] != bytes[place.clone()]
        };
        let others: Vec<_> = names.iter().filter(other).cloned().collect();
        if others.is_empty() {
            return None;
        }
        let mut led = bytes.clone();
        led.copy_within(self.random.pick(&others).clone(), place.start);
        let mut nodes = led
            .split(|&byte| byte == b'\n')
            .filter(|line| line.starts_with(b"N"));
        let lines = led[..place.start].split(|&byte| byte == b'\n');
        let node = lines.filter(|line| line.starts_with(b"N")).count() - 1;
        let field = nodes.nth(node)?.rsplit(|&byte| byte == b',').next()?;
        let callees = field.split(|&byte| byte == b'+').map(|callee| {
            let procedure = names.iter().position(|name| led[name.clone()] == *callee);
            procedure.map(|number| number as u16)
        });
        let number = joined_callees(&callees.collect::<Option<Vec<u16>>>()?);
        mends.push(Mend::Text(PROGRAMS[side], bytes));
        self.driver.lend_text(PROGRAMS[side], &led);
        self.exactly(NODES[side], 4 * node + 3, number as u64, mends)?;
        Some(CALL_LED)
    }

    // ---- what is spoilt

    /// Spoils one thing or two, makes a call or two, and makes it right.
    fn spoil(&mut self) {
        let mut mends = Vec::new();
        let mut what = Vec::new();
        for _ in 0..1 + usize::from(self.random.one_in(6)) {
            if let Some((spoilt, mend)) = self.spoil_one() {
                what.push(spoilt);
                mends.push(mend);
            }
        }
        let stage = self.stage();
        if self.random.percent(88) {
            self.usual_call();
            if let [what] = what[..] {
                self.count(what);
            }
        } else {
            self.any();
        }
        if self.random.one_in(5) {
            self.usual_call();
        }
        let moved = self.stage() != stage;
        for mend in mends.into_iter().rev() {
            self.mend(mend, moved);
        }
    }

    /// Counts what was spoilt before the last call, if that gave a number.
    fn count(&mut self, what: &'static str) {
        match self.driver.made.last() {
            Some(made) if !matches!(made.call, Call::Reset | Call::Show(..)) => {
                self.spoilt.push((what, made.answer.number));
            }
            _ => (),
        }
    }

    /// A text that was accepted as it is stays, since the job goes by it.
    fn mend(&mut self, mend: Mend, moved: bool) {
        match mend {
            Mend::Text(text, bytes) if !moved => self.driver.lend_text(text, &bytes),
            Mend::Text(..) => (),
            Mend::Room(table, length) => self.driver.lend(table, length),
            Mend::Put(table, at, was, is) => {
                if self.driver.number(table, at) == Some(is) {
                    self.driver.put(table, at, was);
                }
            }
        }
    }

    fn spoil_one(&mut self) -> Option<(&'static str, Mend)> {
        match self.random.below(20) {
            0..=4 => Some(self.spoil_text()),
            5..=8 => Some(self.spoil_length()),
            9..=10 => self.spoil_job(),
            _ => self.spoil_table(),
        }
    }

    fn spoil_text(&mut self) -> (&'static str, Mend) {
        let read = self.stage().min(3);
        let text = match self.random.below(read + 1) {
            0 => Text::Old,
            1 => Text::New,
            2 => Text::Tests,
            _ => Text::Input,
        };
        let mut bytes = self.driver.text(text).to_vec();
        let mend = Mend::Text(text, bytes.clone());
        let what = match self.random.below(12) {
            0..=4 => {
                damage(self.random, &mut bytes);
                "a text damaged"
            }
            5..=6 if self.other_blank(&mut bytes) => "a label with a blank more or less",
            5..=8 if !bytes.is_empty() => {
                self.other_byte(&mut bytes);
                "a byte of a text changed for one like it"
            }
            9 => {
                bytes = self
                    .driver
                    .text(
                        *self
                            .random
                            .pick(&[Text::Old, Text::New, Text::Tests, Text::Input]),
                    )
                    .to_vec();
                "another text of the job"
            }
            10 if self.random.one_in(3) => {
                bytes.resize(65_537, b'7');
                "a text too long"
            }
            10 if text == Text::Tests => {
                let edges = self.driver.job().old_edges.min(1_024);
                bytes = many_tests(self.random, 201, edges, 10);
                "a line above the number allowed"
            }
            10 if text != Text::Input => {
                bytes = [b"P,up\n".to_vec(), b"N,S,hold,\n".repeat(513)].concat();
                "a line above the number allowed"
            }
            _ => {
                bytes.clear();
                "no bytes for a text"
            }
        };
        self.driver.lend_text(text, &bytes);
        (what, mend)
    }

    /// Changes a byte of a label for a blank, or a blank for a byte. The tables
    /// stay what reading leaves, and the label may match others now.
    fn other_blank(&mut self, bytes: &mut Bytes) -> bool {
        let labels = parts(bytes).into_iter();
        let labels: Vec<_> = labels.filter(|(part, _)| *part == Part::Label).collect();
        if labels.is_empty() || self.random.percent(30) {
            return false;
        }
        let (_, place) = self.random.pick(&labels).clone();
        let at = self.random.within(place.start, place.end - 1);
        bytes[at] = match bytes[at] {
            b' ' => *self.random.pick(b"a_!"),
            _ => b' ',
        };
        true
    }

    /// Changes a letter or digit for another. In a name or label the tables
    /// stay what reading leaves.
    fn other_byte(&mut self, bytes: &mut Bytes) {
        for _ in 0..8 {
            let at = self.random.below(bytes.len());
            if bytes[at].is_ascii_lowercase() {
                bytes[at] = b'a' + self.random.below(26) as u8;
                return;
            }
            if bytes[at].is_ascii_digit() && self.random.percent(30) {
                bytes[at] = b'0' + self.random.below(10) as u8;
                return;
            }
        }
    }

    fn spoil_length(&mut self) -> (&'static str, Mend) {
        let stage = self.stage();
        let lent = match stage {
            0 => vec![0, 2, 6],
            1 => vec![0, 1, 2, 3, 6],
            _ => vec![0, 1, 2, 3, 4, 5, 6],
        };
        let (table, mut fixed) = Table::FIXED[*self.random.pick(&lent)];
        if table == Table::Scratch && stage < 3 {
            fixed = records::READ_SCRATCH;
        }
        let was = self.driver.length(table);
        let (what, length) = match self.random.below(20) {
            0..=8 => ("a length one too short", fixed - 1),
            9..=11 => ("a length too short", self.random.below(fixed)),
            12 => ("no elements", 0),
            13..=16 => ("a length just long enough", fixed),
            _ => (
                "a length more than enough",
                fixed + self.random.within(1, 8),
            ),
        };
        self.driver.lend(table, length);
        (what, Mend::Room(table, was))
    }

    /// A number near to what was there, or any.
    fn other_number(&mut self, was: u64) -> u64 {
        match self.random.below(10) {
            0..=2 => was.wrapping_add(1),
            3 => was.wrapping_sub(1),
            4 => 0,
            5 => self.random.below(600) as u64,
            6 => was.wrapping_add(1 << 32),
            7 => u64::MAX,
            _ => was ^ 1 << self.random.below(64),
        }
    }

    fn put(&mut self, table: Table, at: usize) -> Option<Mend> {
        let was = self.driver.number(table, at)?;
        let is = self.other_number(was);
        self.driver.put(table, at, is);
        Some(Mend::Put(table, at, was, is))
    }

    fn spoil_job(&mut self) -> Option<(&'static str, Mend)> {
        let field = match self.random.one_in(10) {
            true => 0,
            false => self.random.within(1, 7),
        };
        let what = match field {
            0 => "the job's stage",
            _ => "a count of the job",
        };
        Some((what, self.put(Table::Job, field)?))
    }

    /// A number of a table that was read, within the counts mostly.
    fn spoil_table(&mut self) -> Option<(&'static str, Mend)> {
        let job = self.driver.job();
        let tables = match job.stage {
            0 | 1 => 5,
            2 => 10,
            _ => 14,
        };
        let (old, new) = (
            [job.old_procedures, job.old_nodes, job.old_edges],
            [job.new_procedures, job.new_nodes, job.new_edges],
        );
        let (table, base, count, width) = match self.random.below(tables) {
            0 | 1 => (Table::OldNodes, 0, old[1], 4),
            2 => (Table::OldLinks, 0, old[0], 7),
            3 => (Table::OldLinks, 448, old[2], 5),
            4 => (Table::OldLinks, 5_568, old[1], 1),
            5 | 6 => (Table::NewNodes, 0, new[1], 4),
            7 => (Table::NewLinks, 0, new[0], 7),
            8 => (Table::NewLinks, 448, new[2], 5),
            9 => (Table::NewLinks, 5_568, new[1], 1),
            10 | 11 => (Table::Tests, 0, job.tests, 2),
            _ => (Table::Rows, 0, job.tests, 16),
        };
        // A spoilt job may count anything.
        let end = width * count.min(1_024);
        let (what, at) = match self.random.below(10) {
            0 => ("a number just behind a table's rows", end),
            1 => (
                "a number behind a table's rows",
                end + self.random.below(50),
            ),
            _ if end == 0 => ("a number just behind a table's rows", 0),
            2 => ("the last number of a table's rows", end - 1),
            _ => ("a number of a table", self.random.below(end)),
        };
        Some((what, self.put(table, base + at)?))
    }
}
