//! Programs written back, by the whole-job call and over a lent job. Each
//! answer is due by request 1 of the change requests: an accepted file is
//! written unchanged; of the lent texts of the programs 14 asks only that some
//! text that differs from the lent one in other bytes than those of names,
//! callees, labels and words leaves these tables, and that text is written.
//! The library, where it is linked, must do as the independent implementation.

mod driving;
mod whole;

use driving::*;
use rivetyellow_host::answer::Answer;
use rivetyellow_host::calls::Calls;
use rivetyellow_host::drive::{Call, Table, Text};
use rivetyellow_host::generate::damage::{parts, spoil_program, twin};
use rivetyellow_host::generate::limits::ring;
use rivetyellow_host::generate::programs::{self, Pools};
use rivetyellow_host::generate::random::Random;
use rivetyellow_host::independent::{back, tables};
use rivetyellow_host::records::{
    Node, Version, CALL_SCRATCH, LABEL, LINKS, NODES, PROGRAM, READ_SCRATCH,
};
use whole::all;

// ---- whole jobs

/// A call with an output of this length: its answer and what is written. What
/// lies beyond stays.
fn program(calls: &Calls, texts: [&str; 3], side: usize, room: usize) -> (Answer, Vec<u8>) {
    let [old, new, tests] = texts.map(bytes);
    let mut out = vec![b'#'; room];
    let answer = (calls.program)(&old, &new, &tests, side, &mut out);
    let written = match answer.is_success() {
        true => answer.place as usize,
        false => 0,
    };
    assert!(out[written..].iter().all(|&byte| byte == b'#'));
    out.truncate(written);
    (answer, out)
}

/// Both sides are written unchanged, in an output just long enough and in a
/// longer one; in a shorter one not: 16. A side that is none is 6, before 16.
fn unchanged(old: &str, new: &str, tests: &str) {
    let texts = [old, new, tests];
    for calls in all() {
        for (side, text) in [old, new].into_iter().enumerate() {
            let text = bytes(text);
            let right = (Answer::success(text.len()), text.clone());
            for room in [text.len(), text.len() + 1, 65_536] {
                assert_eq!(program(&calls, texts, side, room), right, "{}", calls.name);
            }
            for room in [text.len() - 1, 1, 0] {
                let answer = program(&calls, texts, side, room).0;
                assert_eq!(answer, Answer::new(16, 0), "{}", calls.name);
            }
        }
        for side in [2, 3, u32::MAX as usize, 1 << 32, usize::MAX] {
            for room in [65_536, 0] {
                let answer = program(&calls, texts, side, room).0;
                assert_eq!(answer, Answer::new(6, 0), "{}", calls.name);
            }
        }
    }
}

/// A text is refused: for every side, one that is none too, and any output.
fn refused(old: &str, new: &str, tests: &str, number: u32, place: u32) {
    for calls in all() {
        for (side, room) in [(0, 65_536), (1, 65_536), (2, 65_536), (0, 0), (2, 0)] {
            let answer = program(&calls, [old, new, tests], side, room).0;
            assert_eq!(answer, Answer::new(number, place), "{}", calls.name);
        }
    }
}

const P1: &str = "P,up;N,E,,;N,X,,;B,0,-,1;";
const P6: &str = "P,up;N,E,,;N,C,wind,up;N,X,,;B,0,-,1;B,1,-,2;";

#[test]
fn the_examples() {
    unchanged(P1, P1, "");
    unchanged(OLD, NEW, P2_TESTS);
    unchanged(NEW, OLD, P2_TESTS);
    unchanged(P6, P1, "");
    unchanged(CALLS, OLD, ALL);
}

/// Nodes in any order, labels of blanks, words of any bytes that they may have.
#[test]
fn odd_bytes() {
    let odd = "P,_;N,X,,;N,S, ,;N,S,~!@#$%^&*()-+=,;N,C,  two  blanks ,_;N,E,,;\
               B,4,-,1;B,1,*,2;B,1,-,2;B,1,+,0;B,2,~~~~~~~~,3;B,3,-,4;";
    unchanged(odd, OLD, "");
    unchanged(OLD, odd, P2_TESTS);
}

/// One procedure with so many steps, each with so many edges to the next node.
fn steps(count: usize, edges: usize) -> String {
    let mut text = format!("P,p;N,E,,;{}N,X,,;B,0,-,1;", "N,S,s,;".repeat(count));
    for step in 1..=count {
        for word in 0..edges {
            text += &format!("B,{step},w{word},{};", step + 1);
        }
    }
    text
}

fn procedures(count: usize) -> String {
    let one = |at| format!("P,p{at};N,E,,;N,X,,;B,{},-,{};", 2 * at, 2 * at + 1);
    (0..count).map(one).collect()
}

/// Without its last line.
fn cut(text: &str) -> &str {
    &text[..1 + text[..text.len() - 1].rfind(';').unwrap()]
}

fn named(name: &str, label: &str, word: &str) -> String {
    format!("P,{name};N,E,,;N,S,{label},;N,X,,;B,0,-,1;B,1,{word},2;")
}

/// At the limits, and one above them: in the old program and in the new.
#[test]
fn limits() {
    let sizes = |count: usize| "x".repeat(count);
    // 1 + 8 x 128 edges are one too many.
    let edges = steps(128, 8);
    for text in [
        steps(510, 1),
        procedures(64),
        cut(&edges).to_string(),
        steps(1, 8),
        named(&sizes(12), "s", "w"),
        named("p", &sizes(60), "w"),
        named("p", "s", &sizes(8)),
    ] {
        unchanged(&text, OLD, "");
        unchanged(OLD, &text, "");
    }
    for (text, number, place) in [
        (steps(511, 1), 4, 514),
        (procedures(65), 4, 257),
        (edges, 4, 1_156),
        (steps(1, 9), 8, 1),
        (named(&sizes(13), "s", "w"), 2, 1),
        (named("p", &sizes(61), "w"), 2, 3),
        (named("p", "s", &sizes(9)), 2, 6),
        (sizes(65_537), 1, 0),
        (sizes(65_536), 2, 1),
        (String::new(), 2, 1),
    ] {
        refused(&text, OLD, "", number, place);
        refused(OLD, &text, "", number, place);
    }
}

/// The first refusal is the answer, in the order old, new, tests; the tests
/// are read though nothing of them is written.
#[test]
fn texts_in_order() {
    refused("x;", "y;y;", "z", 2, 1);
    refused(OLD, "P,up;N,E,,;N,X,,;B,0,-,1", "z", 2, 4);
    refused(OLD, OLD, "T,a,f;", 10, 1);
}

/// More than 4,096 pairs are no reason to refuse.
#[test]
fn many_pairs() {
    let text = |count| String::from_utf8(ring(count).text()).unwrap();
    unchanged(&text(63), &text(65), "");
}

// ---- the lent job

/// Three procedures: the first calls the second, and itself; none calls the
/// third.
const BACK: &str = "P,up;N,E,,;N,S,read layer,;N,C,call it,dn;N,C,again,up;N,X,,;\
                    B,0,-,1;B,1,ok,2;B,1,no,3;B,2,-,3;B,3,-,4;\
                    P,dn;N,E,,;N,S,hold,;N,X,,;B,5,-,6;B,6,ok,7;\
                    P,q1;N,E,,;N,X,,;B,8,-,9;";
/// Its names, callees, labels and words; a `#` for each other byte.
const PARTS: &str = "##up###########read layer######call it#dn#####again#up###########\
                     -#######ok#######no#######-#######-###\
                     ##dn###########hold############-#######ok###\
                     ##q1#################-###";
/// Two tests of its eight edges.
const BACK_TESTS: &str = "T,t1,ff;T,t2,80;";

const SIDES: [Text; 2] = [Text::Old, Text::New];
const NODES_OF: [Table; 2] = [Table::OldNodes, Table::NewNodes];
const LINKS_OF: [Table; 2] = [Table::OldLinks, Table::NewLinks];

fn ask(side: usize) -> Call {
    Call::Ask(PROGRAM, side, 0)
}

/// At stage 3, both versions the same text.
fn back() -> Drive {
    Drive::at_stage(3, BACK, BACK, BACK_TESTS, "")
}

fn lend_both(drive: &mut Drive, text: &str) {
    for side in SIDES {
        drive.text(side, text);
    }
}

/// Lends a text in place of the one read, of each version in turn. What is
/// written is then this, and of the other side what was read.
fn written(lent: &[u8], text: &str) {
    for (side, spoilt) in SIDES.into_iter().enumerate() {
        let mut drive = back();
        drive.driver.lend_text(spoilt, lent);
        drive.writes(ask(side), text);
        drive.writes(ask(1 - side), BACK);
        for none in [2, 1 << 32, (1 << 32) + 1, usize::MAX] {
            drive.refused(ask(none), 6, 0);
        }
        drive.driver.lend(Table::Output, text.len());
        drive.writes(ask(side), text);
        for short in [text.len() - 1, 0] {
            drive.driver.lend(Table::Output, short);
            drive.refused(ask(side), 16, 0);
            drive.refused(ask(2), 6, 0);
        }
    }
}

/// The same, and 14 is due: for either side, and before 6 and 16.
fn wrong(lent: &[u8]) {
    for side in SIDES {
        let mut drive = back();
        drive.driver.lend_text(side, lent);
        for room in [ROOM, 0] {
            drive.driver.lend(Table::Output, room);
            drive.all_refused(&[ask(0), ask(1), ask(2)], 14);
        }
        drive.text(side, BACK);
        drive.driver.lend(Table::Output, ROOM);
        drive.writes(ask(0), BACK);
    }
}

/// The text with one thing in place of another of the same length.
fn with(this: &str, that: &str) -> String {
    assert_eq!(BACK.matches(this).count(), 1, "{this}");
    assert_eq!(this.len(), that.len());
    BACK.replace(this, that)
}

#[test]
fn as_it_was_read() {
    written(&bytes(BACK), BACK);
}

/// All that is no part may be any bytes.
#[test]
fn other_bytes() {
    for other in [0, 255, b' ', b',', b'\n', b'7', b'N', b'#'] {
        let spoilt = |byte| if byte == b'#' { other } else { byte };
        let lent: Vec<u8> = PARTS.bytes().map(spoilt).collect();
        written(&lent, BACK);
    }
}

/// Commas, line ends, kinds, numbers, the first byte and the last.
#[test]
fn some_other_bytes() {
    written(&bytes(&BACK.replace(',', " ")), BACK);
    written(BACK.replace(';', ",").as_bytes(), BACK);
    let kinds = BACK.replace("N,E", "N,X").replace("N,S", "N,C");
    written(&bytes(&kinds), BACK);
    written(&bytes(&with("B,1,ok,2", "B,9,ok,0")), BACK);
    written(&bytes(&with("B,1,ok,2", "P,x,ok,-")), BACK);
    written(&bytes(&with("P,up;", "x,up;")), BACK);
    written(&bytes(&with(",9;", ",9,")), BACK);
    // The labels of an entry have no bytes: what stands there is no part.
    written(&bytes(&with("P,dn;N,E,,;", "P,dn;N,Edn;")), BACK);
}

/// Another label, or another name, is in the text that leaves these tables.
#[test]
fn other_parts() {
    for text in [
        with("read layer", "read lawye"),
        with("read layer", "          "),
        with("P,q1", "P,q2"),
        // The name and its call.
        with("P,dn", "P,dx").replace("call it,dn", "call it,dx"),
        // Two names, and the call: it calls the second procedure as before.
        with("P,dn", "P,??")
            .replace("P,q1", "P,dn")
            .replace("P,??", "P,q1")
            .replace("call it,dn", "call it,q1"),
    ] {
        written(&bytes(&text), &text);
    }
}

/// A part that would end elsewhere, or has bytes that it may not have.
#[test]
fn parts_that_are_none() {
    for byte in [",", ";", "\x1f", "\x7f"] {
        wrong(&bytes(&with("read layer", &format!("read{byte}layer"))));
        wrong(&bytes(&with("hold", &format!("hol{byte}"))));
    }
    for byte in [",", ";", "-", " ", "\0"] {
        wrong(&bytes(&with("P,q1", &format!("P,q{byte}"))));
        wrong(&bytes(&with("call it,dn", &format!("call it,d{byte}"))));
    }
    for byte in [",", ";", " ", "\0", "x"] {
        wrong(&bytes(&with("B,1,ok", &format!("B,1,o{byte}"))));
    }
    let mut lent = bytes(BACK);
    lent[15] = 255;
    wrong(&lent);
}

/// Names and callees that reading would refuse, or find to be others.
#[test]
fn names_and_callees() {
    // A name twice.
    wrong(&bytes(&with("P,q1", "P,dn")));
    // A name is no longer what its call says.
    wrong(&bytes(&with("P,dn", "P,dx")));
    wrong(&bytes(&with("call it,dn", "call it,dx")));
    // The call names another procedure than the tables.
    wrong(&bytes(&with("call it,dn", "call it,q1")));
    let swapped = with("P,dn", "P,??").replace("P,q1", "P,dn");
    wrong(&bytes(&swapped.replace("P,??", "P,q1")));
}

/// A word is in the tables too: another is not what they hold, also where it
/// would be right in a text.
#[test]
fn words() {
    wrong(&bytes(&with("B,1,ok", "B,1,on")));
    wrong(&bytes(&with("B,1,ok", "B,1,no")));
    wrong(&bytes(&with("B,0,-", "B,0,x")));
}

/// The length is that of the text that was read.
#[test]
fn lengths() {
    let right = bytes(BACK);
    wrong(&right[..right.len() - 1]);
    wrong(&right[1..]);
    wrong(&[&right[..], b"\n"].concat());
    wrong(&[&right[..], &right[..]].concat());
    wrong(&[&right[..], &[0; 65_536]].concat());
    wrong(b"");
}

/// Both versions spoilt: written right where both can be.
#[test]
fn both_versions() {
    let spoilt = BACK.replace(',', " ");
    let label = with("hold", "h,ld");
    for (old, new, right) in [
        (&spoilt, &spoilt, true),
        (&spoilt, &label, false),
        (&label, &spoilt, false),
        (&label, &label, false),
    ] {
        let mut drive = back();
        drive.text(Text::Old, old);
        drive.text(Text::New, new);
        for side in 0..2 {
            match right {
                true => drive.writes(ask(side), BACK),
                false => drive.refused(ask(side), 14, 0),
            }
        }
    }
}

/// Every other request asks for the texts that were read.
#[test]
fn other_requests() {
    for side in SIDES {
        let mut drive = back();
        drive.text(side, &with("P,up;", "x,up;"));
        let label = Call::Ask(LABEL, 0, 1);
        drive.all_refused(&[ASK_SHEET, ASK_CHECK, label, Call::Show(0, 1)], 14);
        drive.all_refused(&[ASK_PROBES, Call::Ask(6, 0, 0)], 14);
        drive.writes(ask(0), BACK);
    }
}

/// Of the tests' text 14 asks for the one that was read.
#[test]
fn text_of_the_tests() {
    let mut drive = back();
    for text in ["T,t1,ff;T;t2,80;", "T,t1,ff;", "", "T,t1,ff;T,t2,81;"] {
        drive.text(Text::Tests, text);
        drive.all_refused(&[ask(0), ask(1), ask(2)], 14);
    }
    // Another name as long leaves the same tables.
    drive.text(Text::Tests, "T,x1,ff;T,t2,80;");
    drive.writes(ask(0), BACK);
}

/// Tables that another text leaves are that text's: numbers are taken from
/// the tables, so the text lent need not be changed for an edge to lead
/// elsewhere. It stays in its procedure, and the number as long.
#[test]
fn edges_led_elsewhere() {
    // The edge `1,ok,2` is the edge 1.
    let end = 448 + 5 + 3;
    for (side, links) in LINKS_OF.into_iter().enumerate() {
        let mut drive = back();
        for (to, text) in [
            (3, with("B,1,ok,2", "B,1,ok,3")),
            (0, with("B,1,ok,2", "B,1,ok,0")),
            (2, BACK.to_string()),
        ] {
            drive.driver.put(links, end, to);
            drive.writes(ask(side), &text);
            drive.writes(ask(1 - side), BACK);
        }
        for to in [5, 8, 9, 10, 12, 1_000, 1 << 32, (1 << 32) + 2, u64::MAX] {
            drive.driver.put(links, end, to);
            drive.all_refused(&[ask(0), ask(1), ask(2)], 14);
        }
    }
}

/// A call led elsewhere, and another word, in the tables and in the text.
#[test]
fn tables_of_another_text() {
    for side in 0..2 {
        let mut drive = back();
        // The call of node 2; a callee's number is 1 + its procedure.
        let callee = 4 * 2 + 3;
        let other = with("call it,dn", "call it,q1");
        drive.driver.put(NODES_OF[side], callee, 3);
        drive.refused(ask(side), 14, 0);
        drive.text(SIDES[side], &other);
        drive.writes(ask(side), &other);
        drive.driver.put(NODES_OF[side], callee, 4);
        drive.refused(ask(side), 14, 0);
        drive.driver.put(NODES_OF[side], callee, 2);

        // The word of the edge 1, by its key: 111 + 256 x 110 is `on`.
        let key = 448 + 5 + 2;
        let other = with("B,1,ok", "B,1,on");
        drive.text(SIDES[side], BACK);
        drive.driver.put(LINKS_OF[side], key, 111 + 256 * 110);
        drive.refused(ask(side), 14, 0);
        drive.text(SIDES[side], &other);
        drive.writes(ask(side), &other);
        // `no` is there already at that node: reading would refuse it.
        drive.driver.put(LINKS_OF[side], key, 110 + 256 * 111);
        drive.text(SIDES[side], &with("B,1,ok", "B,1,no"));
        drive.refused(ask(side), 14, 0);
    }
}

/// At another stage: 13, before all else.
#[test]
fn not_of_this_stage() {
    let calls = [ask(0), ask(1), ask(2)];
    Drive::begin(BACK, BACK, BACK_TESTS, "").wrong_stage(&calls);
    for stage in 0..3 {
        Drive::at_stage(stage, BACK, BACK, BACK_TESTS, "").wrong_stage(&calls);
    }
    let mut drive = back();
    for stage in [0, 1, 2, 4, u64::MAX] {
        drive.driver.put(Table::Job, 0, stage);
        drive.all_refused(&calls, 13);
    }
}

/// 14 for tables and job as for the other requests, and for lengths. Of
/// CALLS's numbers only the ends of its edges 0 and 2 can be one higher: they
/// lead from an entry to a call or a step, and behind it stands the exit.
#[test]
fn lent_wrong() {
    let calls = [ask(0), ask(1), ask(2)];
    let free_ends = [448 + 3, 448 + 5 * 2 + 3];
    let links: Vec<usize> = calls_links()
        .into_iter()
        .filter(|at| !free_ends.contains(at))
        .collect();
    // What stands in the text, with its commas spoilt, is of no matter here.
    for spoilt in [false, true] {
        let mut drive = Drive::calls(3);
        if spoilt {
            lend_both(&mut drive, &CALLS.replace(',', "?"));
        }
        drive.each_refused(&calls, Table::Job, &COUNTS);
        for (nodes, table) in versions() {
            drive.each_refused(&calls, nodes, &calls_nodes());
            drive.each_refused(&calls, table, &links);
        }
        drive.each_refused(&calls, Table::Tests, &[0, 1]);
        let row: Vec<usize> = (0..16).collect();
        drive.each_refused(&calls, Table::Rows, &row);
        drive.each_short(&calls, &TABLES_OF_NEW);
        drive.each_short(&calls, &TABLES_OF_TESTS);
        drive.each_short(&calls, &[(Table::Scratch, CALL_SCRATCH)]);
        drive.driver.lend(Table::Scratch, READ_SCRATCH);
        drive.all_refused(&calls, 14);
        drive.driver.lend(Table::Scratch, CALL_SCRATCH);
        free(&mut drive);
        drive.writes(ask(0), CALLS);
        drive.writes(ask(1), CALLS);
    }
    // The entries' edges lead to the exits.
    let mut drive = Drive::calls(3);
    drive.driver.put(Table::OldLinks, free_ends[0], 2);
    drive.driver.put(Table::OldLinks, free_ends[1], 5);
    let text = CALLS.replace("B,0,-,1", "B,0,-,2");
    drive.writes(ask(0), &text.replace("B,3,-,4", "B,3,-,5"));
}

/// A text, its counts and its tables.
struct Known {
    text: Vec<u8>,
    counts: [usize; 3],
    nodes: Vec<Node>,
    links: Vec<usize>,
}

impl Known {
    fn new(text: Vec<u8>) -> Known {
        let mut nodes = vec![Node::default(); NODES];
        let mut links = vec![0; LINKS];
        let tables = tables::program(&text).unwrap();
        tables.store(&mut nodes, &mut links);
        let counts = tables.counts();
        Known {
            text,
            counts,
            nodes,
            links,
        }
    }

    /// Whether another text leaves the same tables.
    fn left_by(&self, text: &[u8]) -> bool {
        match tables::program(text) {
            Ok(other) => other.counts() == self.counts && other.left(&self.nodes, &self.links),
            Err(_) => false,
        }
    }

    /// What is written back of a lent text.
    fn back(&self, lent: &[u8]) -> Option<Vec<u8>> {
        let version = Version {
            text: lent,
            nodes: &self.nodes,
            links: &self.links,
        };
        back::text(&version, self.counts)
    }
}

/// Said otherwise, where the text that left the tables is known: written is
/// that one with the parts of the lent one, if it leaves the same tables.
#[test]
fn known_text_with_lent_parts() {
    let mut counts = [0; 2];
    for number in 0..20_000 {
        let mut random = Random::new(11, number);
        let known = Known::new(small_program(&mut random));
        let mut lent = known.text.clone();
        let what = spoil_program(&mut random, &mut lent);
        let mut due = known.text.clone();
        if lent.len() == due.len() {
            for (_, place) in parts(&known.text) {
                due[place.clone()].copy_from_slice(&lent[place]);
            }
        }
        let right = lent.len() == due.len() && known.left_by(&due);
        assert_eq!(known.back(&lent), right.then_some(due), "{number}: {what}");
        counts[usize::from(right)] += 1;
    }
    assert!(counts.iter().all(|&count| count > 5_000), "{counts:?}");
}

/// A program with other kinds and numbers but the same parts is written back
/// from this one's text.
#[test]
fn twins() {
    let mut counts = [0; 2];
    for number in 0..4_000 {
        let mut random = Random::new(12, number);
        let lent = small_program(&mut random);
        let Some(twin) = twin(&mut random, &lent) else {
            continue;
        };
        let known = Known::new(twin.clone());
        let kinds = |text: &[u8]| text.iter().position(|&byte| byte == b'E');
        counts[usize::from(kinds(&lent) != kinds(&twin))] += 1;
        assert_eq!(known.back(&lent), Some(twin), "{number}");
    }
    assert!(counts.iter().all(|&count| count > 100), "{counts:?}");
}

fn small_program(random: &mut Random) -> Vec<u8> {
    let pools = Pools::new(random);
    programs::program(random, &pools).text()
}

/// The number and the input that are not used are not looked at.
#[test]
fn not_used() {
    let mut drive = back();
    drive.text(Text::Input, &"x".repeat(65_537));
    drive.writes(Call::Ask(PROGRAM, 1, usize::MAX), BACK);
}

/// The largest programs, with no byte of a comma or a line's end left.
#[test]
fn limits_from_what_is_lent() {
    let edges = steps(128, 8);
    for text in [&steps(510, 1), &procedures(64), cut(&edges)] {
        let mut drive = Drive::at_stage(3, text, text, "", "");
        lend_both(&mut drive, &text.replace([',', ';'], "!"));
        for side in 0..2 {
            drive.driver.lend(Table::Output, text.len() - 1);
            drive.refused(ask(side), 16, 0);
            drive.driver.lend(Table::Output, text.len());
            drive.writes(ask(side), text);
        }
    }
}
