//! Blanks in labels, by the whole-job calls and over a lent job. Each answer is
//! due by request 2 of the change requests: labels are alike if they match
//! after dropping blanks (byte 32) at both ends and taking each inner run as
//! one; files and shown labels keep the bytes given; a stored sheet that passed
//! still passes, though a new one may differ or be refused with 15. The pairs of
//! labels are those of outside cases, and more. The library, where it is linked,
//! must do as the independent implementation.

mod driving;
mod whole;

use driving::*;
use rivetyellow_host::answer::Answer;
use rivetyellow_host::drive::{Call, Table, Text};
use rivetyellow_host::records::{LABEL, PROGRAM, RECORD};
use whole::*;

// ---- two labels

/// 58 and 59 letters, 59 blanks.
const L58: &str = "llllllllllllllllllllllllllllllllllllllllllllllllllllllllll";
const L59: &str = "lllllllllllllllllllllllllllllllllllllllllllllllllllllllllll";
const B59: &str = "                                                           ";

/// Two labels, and whether they match.
fn pairs() -> Vec<(String, String, bool)> {
    let pair = |(one, other, matching): &(&str, &str, bool)| {
        (one.to_string(), other.to_string(), *matching)
    };
    let fixed: Vec<_> = [
        // The same bytes.
        ("a", "a", true),
        ("a b", "a b", true),
        // An inner run is one blank, whatever its length.
        ("a b", "a  b", true),
        ("a      b", "a   b", true),
        ("a b c", "a   b  c", true),
        ("a a", "a  a", true),
        // Blanks at both ends are dropped.
        ("a", "a ", true),
        ("a", " a", true),
        ("a", "   a  ", true),
        (" a b", "a b ", true),
        (" a  b   ", "a b", true),
        // Of blanks only: nothing is left of either.
        (" ", " ", true),
        (" ", "   ", true),
        // A label of blanks only matches no other.
        (" ", "a", false),
        ("  ", "_", false),
        ("   ", "!", false),
        // One blank is not none.
        ("ab", "a b", false),
        ("set speed", "setspeed", false),
        ("a b c", "a bc", false),
        ("a b c", "ab c", false),
        ("a - b", "a -b", false),
        (" ab", "a b", false),
        // A blank at another place.
        ("a bc", "ab c", false),
        // Another byte for a blank: the next above it, and some more.
        ("a b", "a!b", false),
        ("a b", "a_b", false),
        ("a b", "a0b", false),
        ("a  b", "a ! b", false),
        ("a ", "a!", false),
        (" a", "!a", false),
        // All else is compared by bytes: no case is folded, no byte is left out.
        ("a b", "a B", false),
        ("a b", "b a", false),
        ("a", "aa", false),
        ("a a", "a a a", false),
        ("a b", "a", false),
        ("a b ", "a", false),
        ("set speed", "set speed by layer", false),
        ("a~b", "a b", false),
    ]
    .iter()
    .map(pair)
    .collect();
    let long = [
        // Up to 60 bytes: with a blank at the end 59 letters are 60 bytes.
        (L59.into(), format!("{L59} "), true),
        (L59.into(), format!(" {L59}"), true),
        (L58.into(), format!(" {L58} "), true),
        (format!("{L59}l"), format!("{L59} "), false),
        (format!("{L59}l"), format!("{L59}k"), false),
        ("a".into(), format!("{B59}a"), true),
        ("a".into(), format!("a{B59}"), true),
        (" ".into(), format!("{B59} "), true),
        ("a b".into(), format!("a{}b", &B59[..58]), true),
        ("ab".into(), format!("a{}b", &B59[..58]), false),
        (format!("{B59}a"), format!("{B59}b"), false),
        (format!("{B59}a"), format!("{B59} "), false),
    ];
    fixed.into_iter().chain(long).collect()
}

/// A step with this label, then another step.
fn step(label: &str) -> String {
    format!("P,up;N,E,,;N,S,{label},;N,S,z,;N,X,,;B,0,-,1;B,1,ok,2;B,2,ok,3;")
}

/// A call with this label.
fn call(label: &str) -> String {
    format!("P,up;N,E,,;N,C,{label},q;N,X,,;B,0,-,1;B,1,-,2;P,q;N,E,,;N,X,,;B,3,-,4;")
}

/// Both have three edges. The first test crosses them all, the second the last.
const TESTS: &str = "T,t0,e;T,t1,2;";

/// If the labels match each node meets itself, no edge is dangerous and each
/// crossed edge has one counterpart.
const STEP_SHEET: &str = "sheet,1;M,0,0;M,1,1;M,2,2;M,3,3;end,4,0,0;";
const CALL_SHEET: &str = "sheet,1;M,0,0;M,1,1;M,2,2;M,3,3;M,4,4;end,5,0,0;";
const ALL_MARKS: [&str; 2] = ["V,t0,3,111;", "V,t1,1,001;"];

/// If they do not, the ends of the edge 0 are not alike: it is dangerous, and
/// nothing behind it is met. The first test is repeated; the second is left off
/// and no edge has a counterpart. The same was due where the labels match with
/// other bytes, before the request. From the new edge 0 on all edges may be
/// crossed: each has a probe.
const PARTED: &str = "sheet,1;M,0,0;D,0;R,t0;end,1,1,1;";
const NO_MARKS: [&str; 2] = ["V,t0,3,???;", "V,t1,1,000;"];
const ALL_PROBES: &str = "Q,0;Q,1;Q,2;";

/// Sheet, record lines and check, in both directions.
#[test]
fn matching_or_not() {
    for (one, other, matching) in pairs() {
        for (old, new) in [(&one, &other), (&other, &one)] {
            for (program, whole) in [(step as fn(&str) -> _, STEP_SHEET), (call, CALL_SHEET)] {
                let job = Job::new(&program(old), &program(new), TESTS);
                let (sheet, records, probes) = match matching {
                    true => (whole, ALL_MARKS, ""),
                    false => (PARTED, NO_MARKS, ALL_PROBES),
                };
                job.due(sheet, &records);
                job.probed(probes);
                // Listing the pair is right only if it is alike: rule 2.
                let listed = match matching {
                    true => Answer::success(0),
                    false => Answer::new(12, 2),
                };
                for calls in all() {
                    let answer = job.check(&calls, whole);
                    assert_eq!(answer, listed, "{}: {old:?} {new:?}", calls.name);
                    // A stored sheet that passed still passes.
                    let answer = job.check(&calls, PARTED);
                    assert_eq!(answer, Answer::success(0), "{}", calls.name);
                }
            }
        }
    }
}

/// Programs written back and shown labels keep the bytes given.
#[test]
fn bytes_are_kept() {
    for (one, other, matching) in pairs() {
        for (program, whole) in [(step as fn(&str) -> _, STEP_SHEET), (call, CALL_SHEET)] {
            let (old, new) = (program(&one), program(&other));
            let job = Job::new(&old, &new, TESTS);
            for calls in all() {
                assert_eq!(job.program(&calls, 0).as_ref(), Ok(&old), "{}", calls.name);
                assert_eq!(job.program(&calls, 1).as_ref(), Ok(&new), "{}", calls.name);
            }
            let mut drive = Drive::at_stage(3, &old, &new, TESTS, PARTED);
            drive.shows(0, 1, &one);
            drive.shows(1, 1, &other);
            drive.writes(Call::Ask(PROGRAM, 0, 0), &old);
            drive.writes(Call::Ask(PROGRAM, 1, 0), &new);
            drive.passes(ASK_CHECK);
            let (sheet, records, probes) = match matching {
                true => (whole, ALL_MARKS, ""),
                false => (PARTED, NO_MARKS, ALL_PROBES),
            };
            drive.serves(sheet, records[0], probes, &one);
            drive.writes(Call::Ask(RECORD, 1, 0), records[1]);
        }
    }
}

/// All labels of up to four of these bytes against each other: they match if
/// the same parts stand between their blanks.
#[test]
fn all_short_labels() {
    let mut labels = vec![String::new()];
    let mut from = 0;
    for _ in 0..4 {
        let longest = labels[from..].to_vec();
        from = labels.len();
        let longer = |label: &String| [" ", "a", "!"].map(|byte| format!("{label}{byte}"));
        labels.extend(longest.iter().flat_map(longer));
    }
    labels.remove(0);
    assert_eq!(labels.len(), 3 + 9 + 27 + 81);
    let parts = |label: &str| -> Vec<String> {
        let parts = label.split(' ').filter(|part| !part.is_empty());
        parts.map(str::to_string).collect()
    };
    let mut matching = 0;
    for one in &labels {
        for other in &labels {
            let same = parts(one) == parts(other);
            matching += usize::from(same && one != other);
            let job = Job::new(&step(one), &step(other), "");
            let due = match same {
                true => STEP_SHEET,
                false => "sheet,1;M,0,0;D,0;end,1,1,0;",
            };
            for calls in all() {
                let sheet = job.sheet(&calls);
                let name = calls.name;
                assert_eq!(sheet.as_deref(), Ok(due), "{name}: {one:?} {other:?}");
            }
        }
    }
    assert_eq!(matching, 408);
}

/// A blank at each place of long labels: doubled it matches, moved by one byte
/// it does not.
#[test]
fn a_blank_at_each_place() {
    for at in 1..58 {
        let (front, back) = (&L58[..at], &L58[at..]);
        let one = format!("{front} {back}");
        let two = format!("{front}  {back}");
        let beside = format!("{front}l {}", &back[1..]);
        for (other, due) in [(&two, STEP_SHEET), (&beside, PARTED)] {
            for (old, new) in [(&one, other), (other, &one)] {
                let job = Job::new(&step(old), &step(new), TESTS);
                for calls in all() {
                    let sheet = job.sheet(&calls);
                    assert_eq!(sheet.as_deref(), Ok(due), "{}: {at}", calls.name);
                }
            }
        }
    }
}

// ---- only labels

/// Kind and callee are compared as before, whatever the blanks.
#[test]
fn kinds_and_callees() {
    let call = |label: &str, callee: &str| {
        format!(
            "P,up;N,E,,;N,C,{label},{callee};N,X,,;B,0,-,1;B,1,-,2;\
             P,q;N,E,,;N,X,,;B,3,-,4;P,qq;N,E,,;N,X,,;B,5,-,6;"
        )
    };
    let step = "P,up;N,E,,;N,S, a,;N,X,,;B,0,-,1;B,1,-,2;\
                P,q;N,E,,;N,X,,;B,3,-,4;P,qq;N,E,,;N,X,,;B,5,-,6;";
    let parted = "sheet,1;M,0,0;D,0;end,1,1,0;";
    Job::new(&call("a", "q"), &call("a ", "qq"), "").due(parted, &[]);
    Job::new(&call("a", "q"), step, "").due(parted, &[]);
    Job::new(step, &call(" a", "q"), "").due(parted, &[]);
    // An entry and an exit have no label; a step of blanks is neither.
    let blanks = "P,up;N,E,,;N,S, ,;N,X,,;B,0,-,1;B,1,x,2;";
    let none = "P,up;N,E,,;N,X,,;B,0,-,1;";
    Job::new(blanks, none, "").due(parted, &[]);
    Job::new(none, blanks, "").due(parted, &[]);
}

/// A name, callee or word has no blanks, and a label no other byte that may
/// look like one: such a line is malformed, in either version.
#[test]
fn malformed() {
    for (this, that, line) in [
        ("P,up", "P,up ", 1),
        ("P,up", "P, up", 1),
        ("N,C,a b,q", "N,C,a b, q", 3),
        ("N,C,a b,q", "N,C,a b,q ", 3),
        ("B,1,-,2", "B,1,- ,2", 6),
        ("B,1,-,2", "B,1, -,2", 6),
        ("B,1,-,2", "B,1,-, 2", 6),
        ("N,C,a b,q", "N,C,a\tb,q", 3),
        ("N,C,a b,q", "N,C,a b\t,q", 3),
        ("N,C,a b,q", "N,C,a\x1fb,q", 3),
        ("N,C,a b,q", "N,C,a\x7fb,q", 3),
        ("N,C,a b,q", "N,C,a\u{a0}b,q", 3),
        ("N,C,a b,q", "N,C,,q", 3),
        ("N,E,,", "N,E, ,", 2),
        ("N,X,,", "N,X,, ", 4),
    ] {
        let right = call("a b");
        let wrong = right.replacen(this, that, 1);
        assert_ne!(right, wrong, "{this}");
        Job::new(&wrong, &right, "").refused(2, line);
        Job::new(&right, &wrong, "").refused(2, line);
    }
}

/// It is the bytes given that are counted: 61 are malformed, though without
/// spare blanks there would be three at most.
#[test]
fn sixty_bytes() {
    for (label, other) in [
        (format!("{B59}a"), "a"),
        (format!("a{B59}"), "a"),
        (format!("{B59} "), " "),
        (format!("a{}b", &B59[..58]), "a b"),
    ] {
        assert_eq!(label.len(), 60);
        Job::new(&step(&label), &step(other), TESTS).due(STEP_SHEET, &ALL_MARKS);
        let longer = [format!("{label} "), format!(" {label}")];
        for longer in longer {
            Job::new(&step(&longer), &step(other), TESTS).refused(2, 3);
            Job::new(&step(other), &step(&longer), TESTS).refused(2, 3);
        }
    }
}

// ---- whole programs

/// A formatter moved blanks in P2's old program: nothing is repeated.
#[test]
fn a_formatter() {
    let new = OLD
        .replace("read layer", "  read  layer")
        .replace("set speed", "set      speed ")
        .replace("hold", " hold");
    let sheet = "sheet,1;M,0,0;M,1,1;M,2,2;M,3,3;M,4,4;end,5,0,0;";
    let records = ["V,t1,3,10101;", "V,t2,5,11111;"];
    Job::new(OLD, &new, P2_TESTS).due(sheet, &records);
    Job::new(&new, OLD, P2_TESTS).due(sheet, &records);
    // P2's change is found as before.
    let changed = new.replace("set      speed ", "set speed  by layer");
    Job::new(OLD, &changed, P2_TESTS).due(P2_SHEET, &P2_RECORDS);
    // So is one that takes the only blank away.
    let changed = new.replace("set      speed ", "setspeed");
    Job::new(OLD, &changed, P2_TESTS).due(P2_SHEET, &P2_RECORDS);
}

/// P3 with blanks: both new nodes match the old one, each with other bytes.
#[test]
fn two_partners() {
    let old = "P,a;N,E,,;N,S,wind up,;N,X,,;B,0,-,1;B,1,T,1;B,1,F,2;";
    let new = "P,a;N,E,,;N,S, wind up,;N,S,wind  up,;N,X,,;\
               B,0,-,1;B,1,T,2;B,1,F,3;B,2,T,1;B,2,F,3;";
    let sheet = "sheet,1;M,0,0;M,1,1;M,1,2;M,2,3;end,4,0,0;";
    Job::new(old, new, "T,e,e;T,a,a;").due(sheet, &["V,e,3,1????;", "V,a,2,10?0?;"]);
    // By the bytes the second one was no partner here: the edge 1 was dangerous
    // and the first test repeated. That sheet still passes.
    let new = new.replace(" wind up", "wind up");
    let job = Job::new(old, &new, "T,e,e;T,a,a;");
    job.due(sheet, &["V,e,3,1????;", "V,a,2,10?0?;"]);
    let stored = "sheet,1;M,0,0;M,1,1;M,2,3;D,1;R,e;end,3,1,1;";
    for calls in all() {
        let passed = job.check(&calls, stored);
        assert_eq!(passed, Answer::success(0), "{}", calls.name);
    }
}

/// A test that was left off may be repeated now: behind the edge 0, dangerous
/// before, an edge is met whose word the new node lacks.
#[test]
fn a_test_repeated_now() {
    let old = "P,a;N,E,,;N,S,a b,;N,S,c,;N,X,,;B,0,-,1;B,1,up,2;B,1,out,3;B,2,ok,3;";
    let new = "P,a;N,E,,;N,S,a  b,;N,S,c,;N,X,,;B,0,-,1;B,1,on,2;B,1,out,3;B,2,ok,3;";
    let sheet = "sheet,1;M,0,0;M,1,1;M,3,3;D,1;R,t;end,3,1,1;";
    // A row of the edge 1 alone, which no run has but a file may.
    let job = Job::new(old, new, "T,t,4;");
    // The word is gone, so no new edge has a probe; the edges 0 and 2 have
    // counterparts, which were not crossed.
    job.due(sheet, &["V,t,1,0000;"]);
    job.probed("");
    // Before, the edge 0 alone was dangerous and the test was left off.
    let stored = "sheet,1;M,0,0;D,0;end,1,1,0;";
    for calls in all() {
        let passed = job.check(&calls, stored);
        assert_eq!(passed, Answer::success(0), "{}", calls.name);
    }
}

/// A ring of steps with these labels in turn, each with a word to the next and
/// one to the exit.
fn ring(count: usize, labels: &[&str]) -> String {
    let mut text = "P,ring;N,E,,;".to_string();
    for step in 0..count {
        text += &format!("N,S,{},;", labels[step % labels.len()]);
    }
    text += "N,X,,;B,0,-,1;";
    for step in 0..count {
        text += &format!("B,{},T,{};", step + 1, (step + 1) % count + 1);
        text += &format!("B,{},F,{};", step + 1, count + 1);
    }
    text
}

const WINDS: [&str; 4] = ["wind up", " wind  up", "wind up   ", "   wind     up  "];

/// Rings of 63 and 65 steps have 4,097 pairs, and the new labels match the old
/// ones with other bytes: 15 now, from the sheet and record calls. By the bytes
/// the first entries were the only pair; that sheet still passes.
#[test]
fn too_many_pairs_now() {
    // 127 edges, the first one crossed.
    let tests = format!("T,t,8{};", "0".repeat(31));
    let stored = "sheet,1;M,0,0;D,0;R,t;end,1,1,1;";
    let refusal = Answer::new(15, 0);
    let (old, new) = (ring(63, &["wind up"]), ring(65, &["wind  up", "wind up "]));
    let job = Job::new(&old, &new, &tests);
    for calls in all() {
        assert_eq!(job.sheet(&calls), Err(refusal), "{}", calls.name);
        assert_eq!(job.record(&calls, 0), Err(refusal), "{}", calls.name);
        assert_eq!(job.probes(&calls), Err(refusal), "{}", calls.name);
        // 6 goes before 15, and 15 before 16.
        let unnamed = Err(Answer::new(6, 0));
        assert_eq!(job.record(&calls, 1), unnamed, "{}", calls.name);
        let answer = (calls.sheet)(&job.old, &job.new, &job.tests, &mut []);
        assert_eq!(answer, refusal, "{}", calls.name);
        let passed = job.check(&calls, stored);
        assert_eq!(passed, Answer::success(0), "{}", calls.name);
        let text = job.program(&calls, 1);
        assert_eq!(text.as_ref(), Ok(&new), "{}", calls.name);
    }
    let mut drive = Drive::at_stage(3, &old, &new, &tests, stored);
    for room in [ROOM, 0] {
        drive.driver.lend(Table::Output, room);
        drive.refused(ASK_SHEET, 15, 0);
        drive.refused(Call::Ask(RECORD, 0, 0), 15, 0);
        drive.refused(ASK_PROBES, 15, 0);
        drive.refused(Call::Ask(RECORD, 1, 0), 6, 0);
    }
    drive.passes(ASK_CHECK);
    drive.shows(1, 2, "wind up ");
    // With another label in the new ring there is one pair, as before, and all
    // of the ring lies after the new edge 0.
    let new = ring(65, &["windup"]);
    let record = format!("V,t,1,{};", "?".repeat(131));
    Job::new(&old, &new, &tests).due(stored, &[&record]);
}

/// Rings of 46 and 89 steps have 4,096: all are listed, ascending, no edge is
/// dangerous, and the sheet passes.
#[test]
fn as_many_pairs_as_may_be() {
    let mut sheet = "sheet,1;M,0,0;".to_string();
    for n in 1..=46 {
        (1..=89).for_each(|m| sheet += &format!("M,{n},{m};"));
    }
    sheet += "M,47,90;end,4096,0,0;";
    Job::new(&ring(46, &WINDS), &ring(89, &WINDS[1..]), "").due(&sheet, &[]);
}

// ---- the lent job

/// The text of a version may be another that leaves the same tables: labels as
/// long at the same places. Its bytes are those that are compared and shown.
#[test]
fn another_text_is_lent() {
    let old = step("a b");
    let mut drive = Drive::at_stage(3, &old, &step("a  b"), TESTS, PARTED);
    drive.serves(STEP_SHEET, ALL_MARKS[0], "", "a b");
    for (label, matching) in [
        (" a b", true),
        ("a b ", true),
        ("a !b", false),
        ("a b!", false),
        ("  ab", false),
        ("ab  ", false),
        ("    ", false),
        ("a  b", true),
    ] {
        drive.text(Text::New, &step(label));
        match matching {
            true => drive.serves(STEP_SHEET, ALL_MARKS[0], "", "a b"),
            false => drive.serves(PARTED, NO_MARKS[0], ALL_PROBES, "a b"),
        }
        drive.shows(1, 1, label);
    }
    // A label of another length is not what these tables hold: 14.
    for label in ["a b", "a   b", "a b  "] {
        drive.text(Text::New, &step(label));
        let asked = [ASK_SHEET, ASK_CHECK, Call::Ask(LABEL, 1, 1)];
        drive.all_refused(&asked, 14);
    }
}
