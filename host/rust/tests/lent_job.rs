//! Fixed sequences of calls of the lent job. Each answer is due by the
//! requirements' section "The job" and is stated here beside its reason; the
//! tables are those of docs/MEMORY.md. After every call the memory of the
//! linked library, guards included, is compared with that of the independent
//! implementation.

mod driving;

use driving::*;
use rivetyellow_host::drive::{Call, Table, Text, STALE};
use rivetyellow_host::generate::limits::ring;
use rivetyellow_host::records::{
    CALL_SCRATCH, CHECK, LABEL, PROBES, READ_SCRATCH, RECORD, ROWS, SHEET, TESTS,
};

/// The calls of stage 3 for which 14 asks the same: requests, one of no number,
/// the label's part. A program that is written back is in programs.rs.
const OF_3: [Call; 7] = [
    ASK_SHEET,
    Call::Ask(RECORD, 0, 0),
    ASK_CHECK,
    Call::Ask(LABEL, 0, 1),
    ASK_PROBES,
    Call::Ask(6, 0, 0),
    Call::Show(0, 1),
];

// ---- 13

/// A job that was never reset: its stage is 5, which is no call's.
#[test]
fn never_reset() {
    let mut drive = Drive::begin(OLD, NEW, P2_TESTS, P2_SHEET);
    drive.wrong_stage(&READS);
    drive.wrong_stage(&OF_3);
}

/// At each stage every call that is not of it.
#[test]
fn not_of_this_stage() {
    for (stage, own) in READS.into_iter().enumerate() {
        let others: Vec<Call> = READS.into_iter().filter(|&read| read != own).collect();
        Drive::p2(stage).wrong_stage(&others);
        Drive::p2(stage).wrong_stage(&OF_3);
    }
    Drive::p2(3).wrong_stage(&READS);
}

/// A stage that is not so is that of other calls, not 14.
#[test]
fn a_stage_that_is_not_so() {
    let mut drive = Drive::calls(3);
    for stage in [0, 1, 2, 4, u64::MAX] {
        drive.driver.put(Table::Job, 0, stage);
        drive.all_refused(&OF_3, 13);
    }
}

// ---- texts that are refused, and the tables of those that are not

/// Programs that are refused: number, line, text. A refusal is of the first
/// offending line.
const REFUSED_PROGRAMS: [(u32, u32, &str); 8] = [
    // An empty program is line 1.
    (2, 1, ""),
    // A field is missing.
    (2, 3, "P,up;N,E,,;N,S,read layer;N,X,,;B,0,-,1;"),
    // N before the first P.
    (3, 1, "N,E,,;P,up;N,X,,;B,0,-,1;"),
    // Two procedures `up`.
    (5, 5, "P,up;N,E,,;N,X,,;B,0,-,1;P,up;N,E,,;N,X,,;B,2,-,3;"),
    // No node 2.
    (6, 4, "P,up;N,E,,;N,X,,;B,0,-,2;"),
    // `ok` twice at node 1.
    (
        7,
        7,
        "P,up;N,E,,;N,S,hold,;N,X,,;B,0,-,1;B,1,ok,2;B,1,ok,1;",
    ),
    // No X; the place is the P line.
    (8, 1, "P,up;N,E,,;"),
    // No procedure `no`; the place is the N line.
    (9, 3, "P,up;N,E,,;N,C,wind,no;N,X,,;B,0,-,1;B,1,-,2;"),
];

/// Tests of a program of five edges that are refused: a row has two digits,
/// of which the last three bits are spare.
const REFUSED_TESTS: [(u32, u32, &str); 5] = [
    // A field is missing.
    (2, 1, "T,t1;"),
    // Two tests `t1`.
    (5, 2, "T,t1,a8;T,t1,f8;"),
    // Too short.
    (10, 1, "T,t1,a;"),
    // A spare bit is 1.
    (10, 1, "T,t1,a9;"),
    // No lower-case digit.
    (10, 1, "T,t1,A8;"),
];

/// 513 nodes: the line of the last one, behind the P line, is one above the
/// number allowed.
fn too_many_nodes() -> String {
    format!("P,up;{}", "N,S,hold,;".repeat(513))
}

/// A refused text leaves stage, job and tables as they were, and the same
/// call succeeds with the right text.
#[test]
fn refused_texts() {
    let long = "x".repeat(65_537);
    let many = too_many_nodes();
    for (stage, text, right) in [(0, Text::Old, OLD), (1, Text::New, NEW)] {
        let mut drive = Drive::p2(stage);
        let others = [(1, 0, &long[..]), (4, 514, &many[..])];
        for (number, place, lines) in REFUSED_PROGRAMS.into_iter().chain(others) {
            drive.text(text, lines);
            drive.refused(READS[stage], number, place);
        }
        drive.text(text, right);
        drive.reads(READS[stage]);
    }
    let mut drive = Drive::p2(2);
    let others = [(1, 0, &long[..])];
    for (number, place, lines) in REFUSED_TESTS.into_iter().chain(others) {
        drive.text(Text::Tests, lines);
        drive.refused(Call::ReadTests, number, place);
    }
    drive.text(Text::Tests, P2_TESTS);
    drive.reads(Call::ReadTests);
}

/// P2 through all stages: the job and the tables hold what docs/MEMORY.md
/// lays out for these texts, and behind it what was there, the number 5.
#[test]
fn tables_of_p2() {
    let five = STALE as u64;
    let mut drive = Drive::p2(1);
    assert_eq!(drive.numbers(Table::Job, 0, 8), [1, 1, 5, 5, 0, 0, 0, 0]);
    let nodes = [
        [0, 9, 0, 0],
        [1, 15, 10, 0],
        [1, 31, 9, 0],
        [1, 46, 4, 0],
        [3, 56, 0, 0],
        [five; 4],
    ];
    assert_eq!(drive.numbers(Table::OldNodes, 0, 24), nodes.concat());
    let procedures = [2, 2, 1, 0, 0, 0, 4, five];
    assert_eq!(drive.numbers(Table::OldLinks, 0, 8), procedures);
    // The keys: `-` is 45, `up` 117 + 256 x 112, `stop` and `ok` likewise.
    let (up, stop, ok) = (28_789, 1_886_352_499, 27_503);
    let edges = [
        [0, 62, 45, 1, 0],
        [1, 70, up, 2, 0],
        [1, 79, stop, 3, 2],
        [2, 90, ok, 1, 0],
        [3, 99, ok, 4, 0],
        [five; 5],
    ];
    assert_eq!(drive.numbers(Table::OldLinks, 448, 30), edges.concat());
    let heads = [1, 3, 4, 5, 0, five];
    assert_eq!(drive.numbers(Table::OldLinks, 5_568, 6), heads);

    drive.reads(Call::ReadNew);
    assert_eq!(drive.numbers(Table::Job, 0, 8), [2, 1, 5, 5, 1, 5, 5, 0]);
    // The third label has nine bytes more; what stands behind it moves on.
    let nodes = [[1, 31, 18, 0], [1, 55, 4, 0], [3, 65, 0, 0], [five; 4]];
    assert_eq!(drive.numbers(Table::NewNodes, 8, 16), nodes.concat());
    assert_eq!(drive.numbers(Table::NewLinks, 448, 5), [0, 71, 45, 1, 0]);

    drive.reads(Call::ReadTests);
    assert_eq!(drive.numbers(Table::Job, 0, 8), [3, 1, 5, 5, 1, 5, 5, 2]);
    assert_eq!(drive.numbers(Table::Tests, 0, 5), [2, 2, 10, 2, five]);
    // a8 is the edges 0, 2 and 4, f8 all five; the lowest bit is edge 0.
    let mut rows = [0; 33];
    (rows[0], rows[16], rows[32]) = (21, 31, five);
    assert_eq!(drive.numbers(Table::Rows, 0, 33), rows);
}

/// Of the program with a call: the callee of the C is the procedure 1, so its
/// number is 2.
#[test]
fn tables_of_a_call() {
    let mut drive = Drive::calls(1);
    assert_eq!(drive.numbers(Table::OldNodes, 4, 4), [2, 15, 4, 2]);
    // `in` stands in line 7, behind three nodes and two edges.
    let row = [47, 2, 7, 3, 2, 3, 5];
    assert_eq!(drive.numbers(Table::OldLinks, 7, 7), row);
}

// ---- stage 3

/// The bytes of P2's sheet and record lines; the checks of its sheet, of P7,
/// of P8 (12, rule 4) and of a sheet whose third line has no form (2).
#[test]
fn p2_p7_p8() {
    let mut drive = Drive::p2(3);
    drive.serves(P2_SHEET, P2_RECORDS[0], P2_PROBES, "read layer");
    drive.writes(Call::Ask(RECORD, 1, 0), P2_RECORDS[1]);
    drive.text(Text::Input, P7);
    drive.passes(ASK_CHECK);
    drive.text(Text::Input, P8);
    drive.refused(ASK_CHECK, 12, 4);
    drive.text(Text::Input, "sheet,1;M,0,0;M,0;end,1,0,0;");
    drive.refused(ASK_CHECK, 2, 3);
    drive.text(Text::Input, &"x".repeat(65_537));
    drive.refused(ASK_CHECK, 1, 0);
    drive.text(Text::Input, "");
    drive.refused(ASK_CHECK, 11, 1);
}

/// The labels of every node of both sides; E and X have none.
#[test]
fn labels() {
    let mut drive = Drive::p2(3);
    for (side, third) in ["set speed", "set speed by layer"].into_iter().enumerate() {
        let all = ["", "read layer", third, "hold", ""];
        for (node, label) in all.into_iter().enumerate() {
            drive.shows(side, node, label);
        }
    }
}

/// A side, a node, a test that is not there: 6, place 0. A number is not cut
/// to one that is there, and 6 goes before 16.
#[test]
fn nothing_named() {
    let mut drive = Drive::p2(3);
    for room in [ROOM, 0] {
        drive.driver.lend(Table::Output, room);
        for (side, node) in [(2, 1), (0, 5), (1, 5), (0, 512), (1 << 32, 1), (0, 1 << 62)] {
            drive.refused(Call::Ask(LABEL, side, node), 6, 0);
            drive.refused(Call::Show(side, node), 6, 0);
        }
        for test in [2, 200, 1 << 32, usize::MAX] {
            drive.refused(Call::Ask(RECORD, test, 0), 6, 0);
        }
        // A request of no number that there is.
        for request in [6, 255, 1 << 32, usize::MAX] {
            drive.refused(Call::Ask(request, 0, 0), 6, 0);
        }
    }
}

/// Numbers that a request does not use are not looked at, and an input that
/// it does not use is not read: here one that is too long.
#[test]
fn not_used() {
    let mut drive = Drive::p2(3);
    drive.text(Text::Input, &"x".repeat(65_537));
    drive.writes(Call::Ask(SHEET, usize::MAX, 9), P2_SHEET);
    drive.writes(Call::Ask(RECORD, 1, usize::MAX), P2_RECORDS[1]);
    drive.writes(Call::Ask(PROBES, usize::MAX, 9), P2_PROBES);
    drive.passes(Call::Ask(LABEL, 1, 4));
    drive.text(Text::Input, P2_SHEET);
    drive.passes(Call::Ask(CHECK, 7, usize::MAX));
}

/// Outputs of no bytes and of one byte too few: 16, and nothing is written;
/// of just enough: success. Calls that write nothing need none.
#[test]
fn outputs() {
    let mut drive = Drive::p2(3);
    let all = [
        (ASK_SHEET, P2_SHEET),
        (Call::Ask(RECORD, 0, 0), P2_RECORDS[0]),
        (Call::Ask(RECORD, 1, 0), P2_RECORDS[1]),
        (ASK_PROBES, P2_PROBES),
    ];
    for (call, lines) in all {
        for length in [0, 1, lines.len() - 1] {
            drive.driver.lend(Table::Output, length);
            drive.refused(call, 16, 0);
        }
        drive.driver.lend(Table::Output, lines.len());
        drive.writes(call, lines);
    }
    drive.driver.lend(Table::Output, 0);
    drive.passes(ASK_CHECK);
    drive.passes(Call::Ask(LABEL, 0, 0));
}

/// More than 4,096 pairs: 15, given by sheet, record and probes, before 16 and
/// after 6, and never by the check. With 4,096 the sheet is written.
#[test]
fn too_many_pairs() {
    let text = |count| String::from_utf8(ring(count).text()).unwrap();
    // 127 edges are 32 digits, the last bit of which is spare.
    let tests = format!("T,all,{}e;", "f".repeat(31));
    let sheet = "sheet,1;M,0,0;D,0;R,all;end,1,1,1;";
    let mut drive = Drive::at_stage(3, &text(63), &text(65), &tests, sheet);
    drive.refused(ASK_SHEET, 15, 0);
    drive.refused(ASK_PROBES, 15, 0);
    drive.refused(Call::Ask(RECORD, 0, 0), 15, 0);
    drive.refused(Call::Ask(RECORD, 1, 0), 6, 0);
    drive.passes(ASK_CHECK);
    drive.driver.lend(Table::Output, 0);
    drive.all_refused(&[ASK_SHEET, ASK_PROBES], 15);

    let mut drive = Drive::at_stage(3, &text(46), &text(89), "", "");
    drive.refused(ASK_SHEET, 16, 0);
    drive.driver.lend(Table::Output, 65_536);
    let answer = drive.call(ASK_SHEET);
    assert_eq!(answer.number, 0);
    let written = drive.driver.written(answer.place as usize);
    assert!(written.ends_with(b"\nend,4096,0,0\n"));
}

// ---- reset

/// Reset at each stage, and of a fresh job. The tables stand as they did, and
/// the job can be read again over them, also with other texts.
#[test]
fn reset_at_each_stage() {
    for stage in 0..=3 {
        let mut drive = Drive::p2(stage);
        drive.reset();
        drive.reset();
        for text in [Text::Old, Text::New] {
            drive.text(text, CALLS);
        }
        drive.text(Text::Tests, ALL);
        READS.iter().for_each(|&read| drive.reads(read));
        drive.serves(CALLS_SHEET, CALLS_RECORD, "", "wind");
    }
}

/// Reset asks nothing of what is in the job.
#[test]
fn reset_of_any_job() {
    let mut drive = Drive::calls(3);
    for value in [0, 4, u64::MAX] {
        (0..8).for_each(|at| drive.driver.put(Table::Job, at, value));
        drive.reset();
    }
}

// ---- 14

/// Stage 0: a job that is not fresh, tables and scratch too short. 14 goes
/// before what is wrong in the text.
#[test]
fn lent_wrong_at_stage_0() {
    let mut drive = Drive::calls(0);
    let call = [Call::ReadOld];
    let tables = &TABLES_OF_NEW[..2];
    for lines in [CALLS, ""] {
        drive.text(Text::Old, lines);
        drive.each_refused(&call, Table::Job, &COUNTS);
        drive.each_short(&call, tables);
        drive.each_short(&call, &[(Table::Scratch, READ_SCRATCH)]);
    }
    // Just what is asked for is enough.
    drive.text(Text::Old, CALLS);
    drive.driver.lend(Table::Scratch, READ_SCRATCH);
    drive.reads(Call::ReadOld);
}

/// Stage 1: also every number that reading the old text left, and another old
/// text. What stands behind the counts is free.
#[test]
fn lent_wrong_at_stage_1() {
    let mut drive = Drive::calls(1);
    let call = [Call::ReadNew];
    for lines in [CALLS, ""] {
        drive.text(Text::New, lines);
        drive.each_refused(&call, Table::Job, &COUNTS);
        drive.each_refused(&call, Table::OldNodes, &calls_nodes());
        drive.each_refused(&call, Table::OldLinks, &calls_links());
        drive.each_short(&call, &TABLES_OF_NEW);
        drive.each_short(&call, &[(Table::Scratch, READ_SCRATCH)]);
        drive.another_text(&call, Text::Old, OLD, &[1, 2, 3]);
        drive.another_text(&call, Text::Old, "", &[1, 2, 3]);
    }
    for at in FREE_NODES {
        drive.driver.put(Table::OldNodes, at, 77);
    }
    for at in FREE_LINKS {
        drive.driver.put(Table::OldLinks, at, 77);
    }
    drive.text(Text::New, CALLS);
    drive.driver.lend(Table::Scratch, READ_SCRATCH);
    drive.reads(Call::ReadNew);
}

/// Stage 2: the same of both versions, and the tables of the tests.
#[test]
fn lent_wrong_at_stage_2() {
    let mut drive = Drive::calls(2);
    let call = [Call::ReadTests];
    for lines in [ALL, "T"] {
        drive.text(Text::Tests, lines);
        drive.each_refused(&call, Table::Job, &COUNTS);
        for (nodes, links) in versions() {
            drive.each_refused(&call, nodes, &calls_nodes());
            drive.each_refused(&call, links, &calls_links());
        }
        drive.each_short(&call, &TABLES_OF_NEW);
        drive.each_short(&call, &TABLES_OF_TESTS);
        drive.each_short(&call, &[(Table::Scratch, READ_SCRATCH)]);
        drive.another_text(&call, Text::Old, OLD, &[1, 2, 3]);
        drive.another_text(&call, Text::New, OLD, &[4, 5, 6]);
    }
    free(&mut drive);
    drive.text(Text::Tests, ALL);
    drive.driver.lend(Table::Scratch, READ_SCRATCH);
    drive.reads(Call::ReadTests);
}

/// Stage 3, every request, one of no number too, and the label's part: also
/// the tables of the tests, each word of a row, and another text of tests.
#[test]
fn lent_wrong_at_stage_3() {
    let mut drive = Drive::calls(3);
    drive.each_refused(&OF_3, Table::Job, &COUNTS);
    for (nodes, links) in versions() {
        drive.each_refused(&OF_3, nodes, &calls_nodes());
        drive.each_refused(&OF_3, links, &calls_links());
    }
    drive.each_refused(&OF_3, Table::Tests, &[0, 1]);
    let row: Vec<usize> = (0..16).collect();
    drive.each_refused(&OF_3, Table::Rows, &row);
    drive.each_short(&OF_3, &TABLES_OF_NEW);
    drive.each_short(&OF_3, &TABLES_OF_TESTS);
    // One length of scratch for all, labels included.
    drive.each_short(&OF_3, &[(Table::Scratch, CALL_SCRATCH)]);
    drive.driver.lend(Table::Scratch, READ_SCRATCH);
    drive.all_refused(&OF_3, 14);
    drive.driver.lend(Table::Scratch, CALL_SCRATCH);

    drive.another_text(&OF_3, Text::Old, OLD, &[1, 2, 3]);
    drive.another_text(&OF_3, Text::New, OLD, &[4, 5, 6]);
    drive.another_text(&OF_3, Text::Tests, "T,all,e;", &[7]);
    // A text that reading would refuse leaves no tables.
    drive.another_text(&OF_3, Text::Tests, "T,all,f", &[7]);

    free(&mut drive);
    for (table, at) in [(Table::Tests, 2), (Table::Tests, TESTS - 1)] {
        drive.driver.put(table, at, 78);
    }
    for (table, at) in [(Table::Rows, 16), (Table::Rows, ROWS - 1)] {
        drive.driver.put(table, at, 78);
    }
    drive.serves(CALLS_SHEET, CALLS_RECORD, "", "wind");
}

/// Another old text, nothing counted of it, and no tests: the counts of the
/// job alone do not make it right.
#[test]
fn nothing_counted() {
    let mut drive = Drive::calls(3);
    drive.text(Text::Old, OLD);
    drive.text(Text::Tests, "");
    for at in [1, 2, 3, 7] {
        drive.driver.put(Table::Job, at, 0);
    }
    drive.all_refused(&OF_3, 14);
}

/// No tests, and none counted, is what reading an empty text leaves: the rows
/// of the tests that were read lie behind the count.
#[test]
fn no_tests_counted() {
    let mut drive = Drive::calls(3);
    drive.text(Text::Tests, "");
    drive.all_refused(&OF_3, 14);
    drive.driver.put(Table::Job, 7, 0);
    drive.writes(ASK_SHEET, CALLS_SHEET);
    drive.refused(Call::Ask(RECORD, 0, 0), 6, 0);
}

/// Longer tables and scratch are taken, and what lies beyond stays.
#[test]
fn longer_than_asked() {
    let mut drive = Drive::begin(CALLS, CALLS, ALL, CALLS_SHEET);
    for (table, length) in Table::FIXED {
        drive.driver.lend(table, length + 5);
    }
    drive.reset();
    READS.iter().for_each(|&read| drive.reads(read));
    drive.serves(CALLS_SHEET, CALLS_RECORD, "", "wind");
}

/// 14 is told from the texts alone: a text with another label of the same
/// length leaves the same tables, and the calls go by the text that is lent.
/// So node 3 is no longer alike in both versions: the edge 2, which leads
/// there, is dangerous too, and both tests crossed it. The new edges after these
/// two are the same.
#[test]
fn another_label_of_this_length() {
    let mut drive = Drive::p2(3);
    let other = NEW.replace("hold", "hulk");
    drive.text(Text::New, &other);
    drive.shows(1, 3, "hulk");
    drive.shows(0, 3, "hold");
    let sheet = "sheet,1;M,0,0;M,1,1;D,1;D,2;R,t1;R,t2;end,2,2,2;";
    drive.serves(sheet, "V,t1,3,1????;", P2_PROBES, "read layer");
}
