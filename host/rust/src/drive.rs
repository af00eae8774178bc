//! The lent job driven step by step, by the independent implementation and
//! by the linked library side by side. After every call all lent memory of
//! the two is compared: job, tables, scratch, output, texts and guards.

use crate::answer::Answer;
use crate::lent::{pattern, Lent};
use crate::lent_calls::{LentCalls, INDEPENDENT, LINKED};
use crate::records::{self, Job, Node, Read, Request, Version};

pub type Bytes = Vec<u8>;

#[derive(Clone, Copy, PartialEq, Eq, Debug)]
pub enum Text {
    Old,
    New,
    Tests,
    Input,
}

#[derive(Clone, Copy, PartialEq, Eq, Debug)]
pub enum Table {
    Job,
    OldNodes,
    NewNodes,
    OldLinks,
    NewLinks,
    Tests,
    Rows,
    Scratch,
    Output,
}

impl Table {
    /// The tables that have a fixed length, and this.
    pub const FIXED: [(Table, usize); 7] = [
        (Table::OldNodes, records::NODES),
        (Table::NewNodes, records::NODES),
        (Table::OldLinks, records::LINKS),
        (Table::NewLinks, records::LINKS),
        (Table::Tests, records::TESTS),
        (Table::Rows, records::ROWS),
        (Table::Scratch, records::CALL_SCRATCH),
    ];
}

#[derive(Clone, Copy, PartialEq, Eq, Debug)]
pub enum Call {
    Reset,
    ReadOld,
    ReadNew,
    ReadTests,
    /// A request of stage 3, by its number, with its own two numbers.
    Ask(usize, usize, usize),
    /// Where the label of a node stands, by side and node.
    Show(usize, usize),
}

#[derive(Clone, PartialEq, Eq, Debug)]
pub enum Step {
    /// Lends this text from now on.
    Text(Text, Bytes),
    /// Lends so many elements of a table from now on.
    Room(Table, usize),
    /// Puts a number into a table, the numbers of its records being counted
    /// one after another.
    Put(Table, usize, u64),
    Call(Call),
}

/// How many elements there are beyond the fixed lengths.
pub const SPARE: usize = 8;

/// The longest output.
pub const OUTPUT: usize = 65_536;

/// What tables and the job hold at first.
pub const STALE: usize = 5;

/// All that is lent.
#[derive(Clone, Default)]
pub struct Memory {
    job: Lent<Job>,
    texts: [Lent<u8>; 4],
    nodes: [Lent<Node>; 2],
    links: [Lent<usize>; 2],
    tests: Lent<usize>,
    rows: Lent<u64>,
    scratch: Lent<usize>,
    out: Lent<u8>,
}

/// A field of a record, by its number.
fn job_field(job: &mut Job, at: usize) -> &mut usize {
    match at {
        0 => &mut job.stage,
        1 => &mut job.old_procedures,
        2 => &mut job.old_nodes,
        3 => &mut job.old_edges,
        4 => &mut job.new_procedures,
        5 => &mut job.new_nodes,
        6 => &mut job.new_edges,
        _ => &mut job.tests,
    }
}

fn node_field(node: &mut Node, at: usize) -> &mut usize {
    match at {
        0 => &mut node.kind,
        1 => &mut node.start,
        2 => &mut node.length,
        _ => &mut node.callees,
    }
}

impl Memory {
    /// Job and tables full of the number 5, no texts, an output of no bytes.
    fn begin(&mut self) {
        let mut job = Job::default();
        (0..8).for_each(|at| *job_field(&mut job, at) = STALE);
        let mut node = Node::default();
        (0..4).for_each(|at| *node_field(&mut node, at) = STALE);
        self.job.fill(3, 1, |_| job);
        self.texts.iter_mut().for_each(|text| text.hold(40, &[]));
        for version in 0..2 {
            self.nodes[version].fill(9, records::NODES + SPARE, |_| node);
            self.links[version].fill(10, records::LINKS + SPARE, |_| STALE);
        }
        self.tests.fill(11, records::TESTS + SPARE, |_| STALE);
        self.rows.fill(12, records::ROWS + SPARE, |_| STALE as u64);
        self.scratch
            .fill(13, records::CALL_SCRATCH + SPARE, |_| STALE);
        self.out.fill(37, OUTPUT + SPARE, pattern);
        for (table, length) in Table::FIXED {
            self.lend(table, length);
        }
        self.lend(Table::Output, 0);
    }

    fn lend(&mut self, table: Table, length: usize) {
        match table {
            Table::Job => (),
            Table::OldNodes => self.nodes[0].lend(length),
            Table::NewNodes => self.nodes[1].lend(length),
            Table::OldLinks => self.links[0].lend(length),
            Table::NewLinks => self.links[1].lend(length),
            Table::Tests => self.tests.lend(length),
            Table::Rows => self.rows.lend(length),
            Table::Scratch => self.scratch.lend(length),
            Table::Output => self.out.lend(length),
        }
    }

    fn length(&self, table: Table) -> usize {
        match table {
            Table::Job => 1,
            Table::OldNodes => self.nodes[0].slice().len(),
            Table::NewNodes => self.nodes[1].slice().len(),
            Table::OldLinks => self.links[0].slice().len(),
            Table::NewLinks => self.links[1].slice().len(),
            Table::Tests => self.tests.slice().len(),
            Table::Rows => self.rows.slice().len(),
            Table::Scratch => self.scratch.slice().len(),
            Table::Output => self.out.slice().len(),
        }
    }

    /// A number of the job or of a table of numbers; none past its end.
    fn number(&mut self, table: Table, at: usize) -> Option<&mut usize> {
        let nodes = match table {
            Table::Job if at < 8 => return Some(job_field(&mut self.job.all_mut()[0], at)),
            Table::OldNodes => &mut self.nodes[0],
            Table::NewNodes => &mut self.nodes[1],
            Table::OldLinks => return self.links[0].all_mut().get_mut(at),
            Table::NewLinks => return self.links[1].all_mut().get_mut(at),
            Table::Tests => return self.tests.all_mut().get_mut(at),
            Table::Scratch => return self.scratch.all_mut().get_mut(at),
            _ => return None,
        };
        let node = nodes.all_mut().get_mut(at / 4)?;
        Some(node_field(node, at % 4))
    }

    fn put(&mut self, table: Table, at: usize, value: u64) {
        if table == Table::Rows {
            if let Some(word) = self.rows.all_mut().get_mut(at) {
                *word = value;
            }
        } else if let Some(number) = self.number(table, at) {
            *number = value as usize;
        }
    }

    /// Fills scratch and output, and what stands behind them, so that a call
    /// finds no zeros there.
    fn soil(&mut self, with: usize) {
        let length = self.scratch.slice().len() + SPARE;
        let scratch = self.scratch.all_mut();
        let end = length.min(scratch.len());
        scratch[..end].fill(with);
        let length = self.out.slice().len() + SPARE;
        for (at, byte) in self.out.all_mut().iter_mut().take(length).enumerate() {
            *byte = pattern(at);
        }
    }

    /// Makes a call. Reset answers 0, and of a label number and place are its
    /// start and length.
    fn call(&mut self, calls: &LentCalls, call: Call) -> Answer {
        let Memory {
            job,
            texts: [old_text, new_text, tests_text, input],
            nodes: [old_nodes, new_nodes],
            links: [old_links, new_links],
            tests,
            rows,
            scratch,
            out,
        } = self;
        let job = &mut job.slice_mut()[0];
        let scratch = scratch.slice_mut();
        let old = || Version {
            text: old_text.slice(),
            nodes: old_nodes.slice(),
            links: old_links.slice(),
        };
        let new = || Version {
            text: new_text.slice(),
            nodes: new_nodes.slice(),
            links: new_links.slice(),
        };
        let read = || Read {
            old: old(),
            new: new(),
            text: tests_text.slice(),
            tests: tests.slice(),
            rows: rows.slice(),
        };
        match call {
            Call::Reset => {
                (calls.reset)(job);
                Answer::success(0)
            }
            Call::ReadOld => (calls.read_old)(
                job,
                old_text.slice(),
                old_nodes.slice_mut(),
                old_links.slice_mut(),
                scratch,
            ),
            Call::ReadNew => {
                let new_text = new_text.slice();
                let (nodes, links) = (new_nodes.slice_mut(), new_links.slice_mut());
                (calls.read_new)(job, old(), new_text, nodes, links, scratch)
            }
            Call::ReadTests => {
                let text = tests_text.slice();
                let (tests, rows) = (tests.slice_mut(), rows.slice_mut());
                (calls.read_tests)(job, old(), new(), text, tests, rows, scratch)
            }
            Call::Ask(number, a, b) => {
                let request = Request {
                    number,
                    a,
                    b,
                    input: input.slice(),
                };
                (calls.call)(job, read(), request, scratch, out.slice_mut())
            }
            Call::Show(side, node) => {
                Answer::unpacked((calls.label)(job, read(), side, node, scratch))
            }
        }
    }

    /// What is not as in another memory, guards included.
    fn differing(&self, other: &Memory) -> Vec<&'static str> {
        let same = [
            ("the job", self.job.same(&other.job)),
            ("the old text", self.texts[0].same(&other.texts[0])),
            ("the new text", self.texts[1].same(&other.texts[1])),
            ("the tests' text", self.texts[2].same(&other.texts[2])),
            ("the input", self.texts[3].same(&other.texts[3])),
            ("the old nodes", self.nodes[0].same(&other.nodes[0])),
            ("the new nodes", self.nodes[1].same(&other.nodes[1])),
            ("the old links", self.links[0].same(&other.links[0])),
            ("the new links", self.links[1].same(&other.links[1])),
            ("the tests", self.tests.same(&other.tests)),
            ("the rows", self.rows.same(&other.rows)),
            ("the scratch", self.scratch.same(&other.scratch)),
            ("the output", self.out.same(&other.out)),
        ];
        let differing = same.into_iter().filter(|(_, same)| !same);
        differing.map(|(what, _)| what).collect()
    }
}

/// A call that was made: the stage before it, and its answer.
#[derive(Clone, Copy)]
pub struct Made {
    pub stage: usize,
    pub call: Call,
    pub answer: Answer,
}

/// A sequence of steps as it is driven.
pub struct Driver {
    independent: Memory,
    linked: Option<(LentCalls, Memory)>,
    pub steps: Vec<Step>,
    pub made: Vec<Made>,
    /// The first difference: nothing is driven any further.
    pub difference: Option<String>,
}

impl Default for Driver {
    fn default() -> Driver {
        Driver::new()
    }
}

impl Driver {
    pub fn new() -> Driver {
        let mut driver = Driver {
            independent: Memory::default(),
            linked: LINKED.map(|calls| (calls, Memory::default())),
            steps: Vec::new(),
            made: Vec::new(),
            difference: None,
        };
        driver.begin();
        driver
    }

    pub fn is_linked(&self) -> bool {
        self.linked.is_some()
    }

    /// Begins a sequence.
    pub fn begin(&mut self) {
        self.independent.begin();
        if let Some((_, memory)) = &mut self.linked {
            memory.begin();
        }
        self.steps.clear();
        self.made.clear();
        self.difference = None;
    }

    pub fn job(&self) -> Job {
        self.independent.job.slice()[0]
    }

    /// All that is lent, as it is now.
    pub fn memory(&self) -> Memory {
        self.independent.clone()
    }

    /// What is no longer as it was then.
    pub fn changed(&self, then: &Memory) -> Vec<&'static str> {
        self.independent.differing(then)
    }

    /// How many elements of a table are lent.
    pub fn length(&self, table: Table) -> usize {
        self.independent.length(table)
    }

    pub fn text(&self, text: Text) -> &[u8] {
        self.independent.texts[text as usize].slice()
    }

    /// A number in a table; none past its end.
    pub fn number(&mut self, table: Table, at: usize) -> Option<u64> {
        if table == Table::Rows {
            return self.independent.rows.all().get(at).copied();
        }
        let number = self.independent.number(table, at)?;
        Some(*number as u64)
    }

    /// The first bytes of the output.
    pub fn written(&self, length: usize) -> &[u8] {
        &self.independent.out.slice()[..length]
    }

    /// Changes both memories alike.
    fn change(&mut self, change: impl Fn(&mut Memory)) {
        change(&mut self.independent);
        if let Some((_, memory)) = &mut self.linked {
            change(memory);
        }
    }

    pub fn lend_text(&mut self, text: Text, bytes: &[u8]) {
        self.step(&Step::Text(text, bytes.to_vec()));
    }

    pub fn lend(&mut self, table: Table, length: usize) {
        self.step(&Step::Room(table, length));
    }

    pub fn put(&mut self, table: Table, at: usize, value: u64) {
        self.step(&Step::Put(table, at, value));
    }

    /// Makes a call and gives the answer that is due.
    pub fn call(&mut self, call: Call) -> Answer {
        self.step(&Step::Call(call));
        let made = self.made.last();
        made.map_or(Answer::success(0), |made| made.answer)
    }

    /// Takes one step.
    pub fn step(&mut self, step: &Step) {
        if self.difference.is_some() {
            return;
        }
        self.steps.push(step.clone());
        // The guards before a text, so its alignment, change with each text.
        let front = 32 + 5 * self.steps.len() % 32;
        match step {
            Step::Text(text, bytes) => {
                self.change(|memory| memory.texts[*text as usize].hold(front, bytes));
            }
            Step::Room(table, length) => self.change(|memory| memory.lend(*table, *length)),
            Step::Put(table, at, value) => self.change(|memory| memory.put(*table, *at, *value)),
            Step::Call(call) => self.both(*call),
        }
    }

    /// Makes a call by both implementations and compares what they leave.
    fn both(&mut self, call: Call) {
        let stage = self.job().stage;
        let soil = self.steps.len();
        if call != Call::Reset {
            self.change(|memory| memory.soil(soil));
        }
        let answer = self.independent.call(&INDEPENDENT, call);
        self.made.push(Made {
            stage,
            call,
            answer,
        });
        let Some((calls, memory)) = &mut self.linked else {
            return;
        };
        let found = memory.call(calls, call);
        let differing = self.independent.differing(memory);
        if found != answer || !differing.is_empty() {
            let differing = differing.join(", ");
            self.difference = Some(format!(
                "{call:?} at stage {stage}: linked {found}, independent {answer}; differing: {differing}"
            ));
        }
    }

    /// Drives a whole sequence; gives its first difference.
    pub fn replay(&mut self, steps: &[Step]) -> Option<&str> {
        self.begin();
        steps.iter().for_each(|step| self.step(step));
        self.difference.as_deref()
    }
}

/// Leaves steps out as long as the sequence still differs.
pub fn shortened(steps: &[Step]) -> Vec<Step> {
    let mut driver = Driver::new();
    let mut steps = steps.to_vec();
    let mut at = steps.len();
    while at > 0 {
        at -= 1;
        let mut fewer = steps.clone();
        fewer.remove(at);
        if driver.replay(&fewer).is_some() {
            steps = fewer;
        }
    }
    steps
}
