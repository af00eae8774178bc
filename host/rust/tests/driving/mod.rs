//! What the tests of the lent job share: texts, and a driver that tests after
//! each call what holds of every one. After every call the memory of the
//! linked library, guards included, is compared with that of the independent
//! implementation.
#![allow(dead_code)]

use rivetyellow_host::answer::Answer;
use rivetyellow_host::drive::{Call, Driver, Table, Text};
use rivetyellow_host::lent::pattern;
use rivetyellow_host::records::{CHECK, LABEL, LINKS, NODES, PROBES, RECORD, ROWS, SHEET, TESTS};

// ---- the texts; `;` stands for byte 10

/// P2: the old program, the new one, the tests, the sheet, the record lines, the
/// probes. The edge 1 is dangerous, and from the new one all but the edge 0 can
/// be crossed.
pub const OLD: &str = "P,up;N,E,,;N,S,read layer,;N,S,set speed,;N,S,hold,;N,X,,;\
                   B,0,-,1;B,1,up,2;B,1,stop,3;B,2,ok,1;B,3,ok,4;";
pub const NEW: &str = "P,up;N,E,,;N,S,read layer,;N,S,set speed by layer,;N,S,hold,;N,X,,;\
                   B,0,-,1;B,1,up,2;B,1,stop,3;B,2,ok,1;B,3,ok,4;";
pub const P2_TESTS: &str = "T,t1,a8;T,t2,f8;";
pub const P2_SHEET: &str = "sheet,1;M,0,0;M,1,1;M,3,3;M,4,4;D,1;R,t2;end,4,1,1;";
pub const P2_RECORDS: [&str; 2] = ["V,t1,3,10101;", "V,t2,5,1????;"];
pub const P2_PROBES: &str = "Q,1;Q,2;Q,3;Q,4;";
pub const P7: &str = "sheet,1;M,0,0;D,0;R,t1;R,t2;end,1,1,2;";
pub const P8: &str = "sheet,1;M,0,0;M,1,1;M,3,3;M,4,4;R,t2;end,4,0,1;";

/// Two procedures with a node of each kind: the first calls the second.
pub const CALLS: &str = "P,up;N,E,,;N,C,wind,in;N,X,,;B,0,-,1;B,1,-,2;\
                     P,in;N,E,,;N,S,turn,;N,X,,;B,3,-,4;B,4,go,5;";
/// A test that crosses all its edges.
pub const ALL: &str = "T,all,f;";
/// Both versions the same: each node meets itself. (0,0) by rule 1; over the
/// edge 0 (1,1), a call, so by rule 2 (3,3); (4,4) and (5,5) by the edges 2
/// and 3; as the exits of `in` are a pair the call goes on, to (2,2). No
/// danger, so the test is left off, each mark is 1, and there are no probes.
pub const CALLS_SHEET: &str = "sheet,1;M,0,0;M,1,1;M,2,2;M,3,3;M,4,4;M,5,5;end,6,0,0;";
pub const CALLS_RECORD: &str = "V,all,4,1111;";

pub fn bytes(text: &str) -> Vec<u8> {
    text.replace(';', "\n").into_bytes()
}

// ---- the calls

pub const ASK_SHEET: Call = Call::Ask(SHEET, 0, 0);
pub const ASK_CHECK: Call = Call::Ask(CHECK, 0, 0);
pub const ASK_PROBES: Call = Call::Ask(PROBES, 0, 0);

pub const READS: [Call; 3] = [Call::ReadOld, Call::ReadNew, Call::ReadTests];

/// The bytes of the output, where no other number is said.
pub const ROOM: usize = 256;

// ---- driving

pub struct Drive {
    pub driver: Driver,
}

impl Drive {
    /// Tables, job and scratch full of the number 5, so that nothing is right
    /// by chance; an output of 256 bytes.
    pub fn begin(old: &str, new: &str, tests: &str, sheet: &str) -> Drive {
        let mut drive = Drive {
            driver: Driver::new(),
        };
        drive.text(Text::Old, old);
        drive.text(Text::New, new);
        drive.text(Text::Tests, tests);
        drive.text(Text::Input, sheet);
        drive.driver.lend(Table::Output, ROOM);
        drive
    }

    /// A fresh job, read up to a stage.
    pub fn at_stage(stage: usize, old: &str, new: &str, tests: &str, sheet: &str) -> Drive {
        let mut drive = Drive::begin(old, new, tests, sheet);
        drive.reset();
        READS[..stage].iter().for_each(|&read| drive.reads(read));
        drive
    }

    pub fn p2(stage: usize) -> Drive {
        Drive::at_stage(stage, OLD, NEW, P2_TESTS, P2_SHEET)
    }

    pub fn calls(stage: usize) -> Drive {
        Drive::at_stage(stage, CALLS, CALLS, ALL, CALLS_SHEET)
    }

    pub fn text(&mut self, text: Text, lines: &str) {
        self.driver.lend_text(text, &bytes(lines));
    }

    pub fn stage(&self) -> usize {
        self.driver.job().stage
    }

    pub fn numbers(&mut self, table: Table, from: usize, count: usize) -> Vec<u64> {
        (from..from + count)
            .map(|at| self.driver.number(table, at).unwrap())
            .collect()
    }

    /// A call. The scratch is zero afterwards, the library does the same.
    pub fn call(&mut self, call: Call) -> Answer {
        let answer = self.driver.call(call);
        assert_eq!(self.driver.difference, None);
        if call != Call::Reset {
            let length = self.driver.length(Table::Scratch);
            let scratch = self.numbers(Table::Scratch, 0, length);
            assert!(scratch.iter().all(|&number| number == 0), "{call:?}");
        }
        answer
    }

    /// A call that answers so and changes nothing but scratch; the output is
    /// untouched from the place `written` on.
    pub fn keeps(&mut self, call: Call, answer: Answer, written: usize) {
        let before = self.driver.memory();
        assert_eq!(
            self.call(call),
            answer,
            "{call:?} at stage {}",
            self.stage()
        );
        let changed = self.driver.changed(&before);
        let other = |what: &&str| *what != "the scratch" && *what != "the output";
        assert_eq!(changed.into_iter().find(other), None, "{call:?}");
        let length = self.driver.length(Table::Output);
        let output = self.driver.written(length).iter().enumerate();
        let untouched = |(at, &byte): (usize, &u8)| byte == pattern(at);
        assert!(output.skip(written).all(untouched), "{call:?}");
    }

    /// A refusal; the part of a label is then empty.
    pub fn refused(&mut self, call: Call, number: u32, place: u32) {
        let answer = match call {
            Call::Show(..) => Answer::new(0, 0),
            _ => Answer::new(number, place),
        };
        self.keeps(call, answer, 0);
    }

    pub fn all_refused(&mut self, calls: &[Call], number: u32) {
        calls.iter().for_each(|&call| self.refused(call, number, 0));
    }

    /// A reading call that succeeds moves the job on.
    pub fn reads(&mut self, call: Call) {
        let stage = self.stage();
        assert_eq!(self.call(call), Answer::success(0), "{call:?}");
        assert_eq!(self.stage(), stage + 1);
    }

    pub fn writes(&mut self, call: Call, lines: &str) {
        let lines = bytes(lines);
        self.keeps(call, Answer::success(lines.len()), lines.len());
        assert_eq!(self.driver.written(lines.len()), lines, "{call:?}");
    }

    pub fn passes(&mut self, call: Call) {
        self.keeps(call, Answer::success(0), 0);
    }

    /// A label is shown as a part of the text of its side.
    pub fn shows(&mut self, side: usize, node: usize, label: &str) {
        self.passes(Call::Ask(LABEL, side, node));
        let part = self.call(Call::Show(side, node));
        let text = self.driver.text([Text::Old, Text::New][side]);
        let shown = &text[part.number as usize..][..part.place as usize];
        assert_eq!(shown, label.as_bytes(), "side {side}, node {node}");
    }

    /// Reset always succeeds, leaves a fresh job and touches nothing else.
    pub fn reset(&mut self) {
        let before = self.driver.memory();
        self.call(Call::Reset);
        assert_eq!(self.numbers(Table::Job, 0, 8), [0; 8]);
        let changed = self.driver.changed(&before);
        assert!(changed.iter().all(|&what| what == "the job"), "{changed:?}");
    }

    /// All calls of stage 3 answer as they should: the job is right.
    pub fn serves(&mut self, sheet: &str, record: &str, probes: &str, label: &str) {
        self.writes(ASK_SHEET, sheet);
        self.writes(Call::Ask(RECORD, 0, 0), record);
        self.writes(ASK_PROBES, probes);
        self.text(Text::Input, sheet);
        self.passes(ASK_CHECK);
        self.shows(0, 1, label);
    }

    /// Each number in turn is changed, refused with 14, and put back.
    pub fn each_refused(&mut self, calls: &[Call], table: Table, places: &[usize]) {
        for &at in places {
            let was = self.driver.number(table, at).unwrap();
            self.driver.put(table, at, was + 1);
            self.all_refused(calls, 14);
            self.driver.put(table, at, was);
        }
    }

    /// Each table in turn is one too short: 14. The fixed length is enough.
    pub fn each_short(&mut self, calls: &[Call], lengths: &[(Table, usize)]) {
        for &(table, length) in lengths {
            let was = self.driver.length(table);
            for short in [length - 1, 1, 0] {
                self.driver.lend(table, short);
                self.all_refused(calls, 14);
            }
            self.driver.lend(table, was);
        }
    }

    /// 13 goes before 14: also where tables, scratch and output have one
    /// element.
    pub fn wrong_stage(&mut self, calls: &[Call]) {
        self.all_refused(calls, 13);
        let lengths = || Table::FIXED.into_iter().chain([(Table::Output, ROOM)]);
        lengths().for_each(|(table, _)| self.driver.lend(table, 1));
        self.all_refused(calls, 13);
        lengths().for_each(|(table, length)| self.driver.lend(table, length));
    }

    /// Another text than the one read: 14. So too where the job has counted
    /// nothing of it.
    pub fn another_text(&mut self, calls: &[Call], text: Text, lines: &str, counts: &[usize]) {
        let right = self.driver.text(text).to_vec();
        self.text(text, lines);
        self.all_refused(calls, 14);
        let was: Vec<u64> = counts
            .iter()
            .map(|&at| self.numbers(Table::Job, at, 1)[0])
            .collect();
        counts
            .iter()
            .for_each(|&at| self.driver.put(Table::Job, at, 0));
        self.all_refused(calls, 14);
        for (&at, was) in counts.iter().zip(was) {
            self.driver.put(Table::Job, at, was);
        }
        self.driver.lend_text(text, &right);
    }
}

/// The numbers that reading CALLS leaves: six records of nodes; two rows of
/// procedures, four of edges, six heads.
pub fn calls_nodes() -> Vec<usize> {
    (0..4 * 6).collect()
}

pub fn calls_links() -> Vec<usize> {
    let edges = 448..448 + 5 * 4;
    (0..7 * 2).chain(edges).chain(5_568..5_568 + 6).collect()
}

/// Places behind the rows that reading CALLS leaves.
pub const FREE_NODES: [usize; 2] = [4 * 6, 4 * NODES - 1];
pub const FREE_LINKS: [usize; 4] = [7 * 2, 448 + 5 * 4, 5_568 + 6, LINKS - 1];

/// The tables that a call is lent which reads the new program.
pub const TABLES_OF_NEW: [(Table, usize); 4] = [
    (Table::OldNodes, NODES),
    (Table::OldLinks, LINKS),
    (Table::NewNodes, NODES),
    (Table::NewLinks, LINKS),
];
pub const TABLES_OF_TESTS: [(Table, usize); 2] = [(Table::Tests, TESTS), (Table::Rows, ROWS)];

/// The counts of the job.
pub const COUNTS: [usize; 7] = [1, 2, 3, 4, 5, 6, 7];

pub fn versions() -> [(Table, Table); 2] {
    [
        (Table::OldNodes, Table::OldLinks),
        (Table::NewNodes, Table::NewLinks),
    ]
}

/// Changes numbers behind the counts of both versions.
pub fn free(drive: &mut Drive) {
    for (nodes, links) in versions() {
        for at in FREE_NODES {
            drive.driver.put(nodes, at, 78);
        }
        for at in FREE_LINKS {
            drive.driver.put(links, at, 78);
        }
    }
}
