//! P1 to P8 and other cases worked out by hand.

use super::*;
use crate::answer::Answer;

/// Lines parted by blanks; `~` stands for a blank within a line.
fn text(lines: &str) -> Vec<u8> {
    let mut bytes = Vec::new();
    for line in lines.split_whitespace() {
        bytes.extend(line.replace('~', " ").bytes());
        bytes.push(b'\n');
    }
    bytes
}

const P1: &str = "P,up N,E,, N,X,, B,0,-,1";
const P2_OLD: &str = "P,main N,E,, N,S,read~layer, N,S,set~speed, N,S,hold, N,X,, \
                      B,0,-,1 B,1,up,2 B,1,stop,3 B,2,ok,1 B,3,ok,4";
const P2_NEW: &str = "P,main N,E,, N,S,read~layer, N,S,set~speed~by~layer, N,S,hold, N,X,, \
                      B,0,-,1 B,1,up,2 B,1,stop,3 B,2,ok,1 B,3,ok,4";
const P2_TESTS: &str = "T,t1,a8 T,t2,f8";
const P2_SHEET: &str = "sheet,1 M,0,0 M,1,1 M,3,3 M,4,4 D,1 R,t2 end,4,1,1";
const P6: &str = "P,up N,E,, N,C,wind,up N,X,, B,0,-,1 B,1,-,2";

/// The sheet of a job, which must be accepted.
fn sheet_of(old: &str, new: &str, tests: &str) -> Vec<u8> {
    let mut out = vec![b'#'; 65_536];
    let answer = sheet(&text(old), &text(new), &text(tests), &mut out);
    assert_eq!(answer.number, 0, "refused {answer}");
    out.truncate(answer.place as usize);
    out
}

fn record_of(old: &str, new: &str, tests: &str, test: usize) -> Vec<u8> {
    let mut out = vec![b'#'; 2_048];
    let answer = record(&text(old), &text(new), &text(tests), test, &mut out);
    assert_eq!(answer.number, 0, "refused {answer}");
    out.truncate(answer.place as usize);
    out
}

fn probes_of(old: &str, new: &str, tests: &str) -> Vec<u8> {
    let mut out = vec![b'#'; 8_192];
    let answer = probes(&text(old), &text(new), &text(tests), &mut out);
    assert_eq!(answer.number, 0, "refused {answer}");
    out.truncate(answer.place as usize);
    out
}

fn dangers(sheet: &[u8]) -> Vec<String> {
    String::from_utf8(sheet.to_vec())
        .unwrap()
        .lines()
        .filter(|line| line.starts_with('D'))
        .map(str::to_string)
        .collect()
}

#[test]
fn p1() {
    assert_eq!(sheet_of(P1, P1, ""), text("sheet,1 M,0,0 M,1,1 end,2,0,0"));
}

#[test]
fn p2() {
    assert_eq!(sheet_of(P2_OLD, P2_NEW, P2_TESTS), text(P2_SHEET));
    let first = record_of(P2_OLD, P2_NEW, P2_TESTS, 0);
    assert_eq!(first, text("V,t1,3,10101"));
    let second = record_of(P2_OLD, P2_NEW, P2_TESTS, 1);
    assert_eq!(second, text("V,t2,5,1????"));
    assert_eq!(probes_of(P2_OLD, P2_NEW, P2_TESTS), text("Q,1 Q,2 Q,3 Q,4"));
}

#[test]
fn p3() {
    let old = "P,a N,E,, N,S,wind, N,X,, B,0,-,1 B,1,T,1 B,1,F,2";
    let new = "P,a N,E,, N,S,wind, N,S,wind, N,X,, \
               B,0,-,1 B,1,T,2 B,1,F,3 B,2,T,1 B,2,F,3";
    let tests = "T,e,e T,a,a";
    assert_eq!(record_of(old, new, tests, 0), text("V,e,3,1????"));
    assert_eq!(record_of(old, new, tests, 1), text("V,a,2,10?0?"));
    assert!(dangers(&sheet_of(old, new, tests)).is_empty());
}

#[test]
fn p4() {
    let new = P2_OLD.replace("B,1,stop,3", "B,1,halt,3");
    assert_eq!(dangers(&sheet_of(P2_OLD, &new, "")), ["D,2"]);
    // The new node takes no edge for its word: nothing to start from.
    assert!(probes_of(P2_OLD, &new, "").is_empty());
    let second = record_of(P2_OLD, &new, P2_TESTS, 1);
    assert_eq!(second, text("V,t2,5,11010"));
}

#[test]
fn p5() {
    let new = format!("{P2_OLD} B,3,more,1");
    assert!(dangers(&sheet_of(P2_OLD, &new, "")).is_empty());
}

#[test]
fn p6() {
    assert_eq!(sheet_of(P6, P6, ""), text("sheet,1 M,0,0 M,1,1 end,2,0,0"));
}

#[test]
fn p7() {
    let listed = text("sheet,1 M,0,0 D,0 R,t1 R,t2 end,1,1,2");
    let answer = check(&text(P2_OLD), &text(P2_NEW), &text(P2_TESTS), &listed);
    assert_eq!(answer, Answer::success(0));
}

#[test]
fn p8() {
    let listed = text("sheet,1 M,0,0 M,1,1 M,3,3 M,4,4 R,t2 end,4,0,1");
    let answer = check(&text(P2_OLD), &text(P2_NEW), &text(P2_TESTS), &listed);
    assert_eq!(answer, Answer::new(12, 4));
}

/// P2's old program with blanks moved in the new one, then with labels that
/// nearly match.
#[test]
fn blanks_in_labels() {
    let new = P2_OLD.replace("read~layer", "~read~~~layer~~");
    let new = new
        .replace("set~speed", "set~~speed")
        .replace("hold", "hold~");
    assert_eq!(
        sheet_of(P2_OLD, &new, P2_TESTS),
        text("sheet,1 M,0,0 M,1,1 M,2,2 M,3,3 M,4,4 end,5,0,0")
    );
    let second = record_of(P2_OLD, &new, P2_TESTS, 1);
    assert_eq!(second, text("V,t2,5,11111"));
    for near in ["setspeed", "set~speed~b", "set_speed", "s~et~speed", "~~"] {
        let new = new.replace("set~~speed", near);
        assert_eq!(dangers(&sheet_of(P2_OLD, &new, "")), ["D,1"], "{near}");
    }
    let blank = P2_OLD.replace("hold", "~");
    let blanks = P2_OLD.replace("hold", "~~~");
    assert!(dangers(&sheet_of(&blank, &blanks, "")).is_empty());
    assert_eq!(dangers(&sheet_of(&blank, P2_OLD, "")), ["D,2"]);
}

/// A call of two procedures: both are met; with the second changed only its
/// entry is, and nothing behind the call; in another order the calls are not
/// alike.
#[test]
fn several_callees() {
    let old = "P,up N,E,, N,C,x,a+b N,X,, B,0,-,1 B,1,-,2 \
               P,a N,E,, N,S,s, N,X,, B,3,-,4 B,4,ok,5 \
               P,b N,E,, N,S,s, N,X,, B,6,-,7 B,7,ok,8";
    let tests = "T,a,b0 T,b,7c";
    assert_eq!(
        sheet_of(old, old, tests),
        text("sheet,1 M,0,0 M,1,1 M,2,2 M,3,3 M,4,4 M,5,5 M,6,6 M,7,7 M,8,8 end,9,0,0")
    );
    assert_eq!(record_of(old, old, tests, 1), text("V,b,5,011111"));
    let changed = old.replace("P,b N,E,, N,S,s,", "P,b N,E,, N,S,t,");
    assert_eq!(
        sheet_of(old, &changed, tests),
        text("sheet,1 M,0,0 M,1,1 M,3,3 M,4,4 M,5,5 M,6,6 D,4 R,b end,6,1,1")
    );
    assert_eq!(record_of(old, &changed, tests, 0), text("V,a,3,101100"));
    assert_eq!(record_of(old, &changed, tests, 1), text("V,b,5,0?11??"));
    assert_eq!(probes_of(old, &changed, tests), text("Q,1 Q,4 Q,5"));
    let exchanged = old.replace("a+b", "b+a");
    assert_eq!(
        sheet_of(old, &exchanged, ""),
        text("sheet,1 M,0,0 D,0 end,1,1,0")
    );
}

/// An old `*` against a name that leads elsewhere and a `*` that does not: both
/// are compared, and the probes start at the name. The other way round the name
/// takes `*` in the new version.
#[test]
fn the_branch_for_anything_else() {
    let text_of = |branches: &str| {
        format!("P,up N,E,, N,S,read, N,S,hold, N,X,, B,0,-,1 {branches} B,2,ok,3")
    };
    let (one, two) = (text_of("B,1,*,2"), text_of("B,1,a,3 B,1,*,2"));
    let tests = "T,t,e";
    assert_eq!(
        sheet_of(&one, &two, tests),
        text("sheet,1 M,0,0 M,1,1 M,2,2 M,3,3 D,1 R,t end,4,1,1")
    );
    assert_eq!(record_of(&one, &two, tests, 0), text("V,t,3,1???"));
    assert_eq!(probes_of(&one, &two, tests), text("Q,1"));
    // The rows hold 0, 2, 3 and 0, 1.
    let tests = "T,t,b T,u,c";
    assert_eq!(
        sheet_of(&two, &one, tests),
        text("sheet,1 M,0,0 M,1,1 M,2,2 M,3,3 D,1 R,u end,4,1,1")
    );
    assert_eq!(record_of(&two, &one, tests, 0), text("V,t,3,111"));
    assert_eq!(record_of(&two, &one, tests, 1), text("V,u,2,1??"));
    assert_eq!(probes_of(&two, &one, tests), text("Q,1 Q,2"));
}

#[track_caller]
fn program(lines: &str, number: u32, place: u32) {
    assert_eq!(
        read_old(&text(lines)),
        Answer::new(number, place),
        "{lines}"
    );
}

#[test]
fn refusals_of_programs() {
    assert_eq!(read_old(b""), Answer::new(2, 1));
    assert_eq!(read_old(b"P,a\nP,b"), Answer::new(2, 2));
    assert_eq!(read_old(b"P,a\n\n"), Answer::new(2, 2));
    program("P,a P,b", 8, 1);
    program("P,a P,b~c", 2, 2);
    program("P,a x", 2, 2);
    program("N,E,,", 3, 1);
    program("P,a N,E,, N,X,, B,0,-,1 N,S,a,", 3, 5);
    program("P,a N,E,, N,X,, B,0,-,1 P,a", 5, 5);
    program("P,a N,E,, N,X,, B,0,-,1 P,b N,E,, N,X,, B,0,-,3", 6, 8);
    program("P,a N,E,, N,X,, B,0,-,18446744073709551617", 6, 4);
    program("P,a N,E,, N,X,, B,00,-,1", 2, 4);
    program("P,a N,E,, N,X,, B,0,-,1 B,0,-,1", 7, 5);
    program("P,a N,E,, N,X,, B,0,-,1 B,0,x,1", 8, 1);
    program("P,a N,E,, N,X,, B,0,x,1", 8, 1);
    program("P,a N,E,, N,C,l,b N,X,, B,0,-,1 B,1,-,2", 9, 3);
    program("P,a N,E,, N,C,l,b N,X,, B,0,-,1 B,1,-,2 P,c", 8, 7);
    program("P,a N,E,, N,C,l,a+a+a+a N,X,, B,0,-,1 B,1,-,2", 0, 0);
    program("P,a N,E,, N,C,l,a+a+a+b N,X,, B,0,-,1 B,1,-,2", 9, 3);
    program("P,a N,E,, N,C,l,a+a+a+a+b N,X,, B,0,-,1 B,1,-,2", 2, 3);
    program("P,a N,E,, N,C,l,a+ N,X,, B,0,-,1 B,1,-,2", 2, 3);
    program("P,a N,X,, N,E,, B,1,-,1", 0, 0);
}

#[test]
fn refusals_of_tests() {
    let both = text(P2_OLD);
    let tests = |bytes: &[u8]| read_tests(&both, &both, bytes);
    assert_eq!(tests(b""), Answer::success(0));
    assert_eq!(tests(b"T,a,f8\nT,b,00\n"), Answer::success(0));
    assert_eq!(tests(b"T,a,f8"), Answer::new(2, 1));
    assert_eq!(tests(b"T,a,f,8\n"), Answer::new(2, 1));
    assert_eq!(tests(b"T,a,\n"), Answer::new(10, 1));
    assert_eq!(tests(b"T,a,F8\n"), Answer::new(10, 1));
    assert_eq!(tests(b"T,a,f4\n"), Answer::new(10, 1));
    assert_eq!(tests(b"T,a,f8\nT,a,\xff\n"), Answer::new(5, 2));
}

#[test]
fn refusals_of_sheets() {
    let (old, new, tests) = (text(P2_OLD), text(P2_NEW), text(P2_TESTS));
    let judged = |lines: &str| check(&old, &new, &tests, &text(lines));
    assert_eq!(judged(P2_SHEET), Answer::success(0));
    assert_eq!(judged(""), Answer::new(11, 1));
    assert_eq!(judged("sheet,1"), Answer::new(11, 2));
    assert_eq!(judged("M,0,0"), Answer::new(11, 1));
    assert_eq!(judged("sheet,1 sheet,1"), Answer::new(11, 2));
    assert_eq!(judged("sheet,1 M,0,0 M,0,0"), Answer::new(11, 3));
    assert_eq!(judged("sheet,1 M,0,5"), Answer::new(11, 2));
    assert_eq!(judged("sheet,1 D,1 M,0,0"), Answer::new(11, 3));
    assert_eq!(judged("sheet,1 R,t2 R,t1"), Answer::new(11, 3));
    assert_eq!(judged("sheet,1 R,t3"), Answer::new(11, 2));
    assert_eq!(judged("sheet,1 end,0,0,1"), Answer::new(11, 2));
    assert_eq!(judged("sheet,1 end,0,0,0 D,1"), Answer::new(11, 3));
    assert_eq!(judged("sheet,1 end,0,0,0 D,01"), Answer::new(2, 3));
    assert_eq!(judged("sheet,1 end,0,0,0"), Answer::new(12, 1));
    assert_eq!(judged("sheet,1 M,0,0 M,2,2 end,2,0,0"), Answer::new(12, 2));
    assert_eq!(judged("sheet,1 M,0,0 D,0 end,1,1,0"), Answer::new(12, 5));
}

#[test]
fn own_number_and_output() {
    let (old, new, tests) = (text(P2_OLD), text(P2_NEW), text(P2_TESTS));
    let mut out = [b'#'; 64];
    for test in [2, usize::MAX] {
        let answer = record(&old, &new, &tests, test, &mut out);
        assert_eq!(answer, Answer::new(6, 0));
    }
    let length = text(P2_SHEET).len();
    assert_eq!(
        sheet(&old, &new, &tests, &mut out[..length - 1]),
        Answer::new(16, 0)
    );
    assert_eq!(out, [b'#'; 64]);
    let answer = sheet(&old, &new, &tests, &mut out);
    assert_eq!(answer, Answer::success(length));
    assert_eq!(out[..length], text(P2_SHEET));
    assert!(out[length..].iter().all(|&byte| byte == b'#'));
    for (length, answer) in [(16, Answer::success(16)), (15, Answer::new(16, 0))] {
        let found = probes(&old, &new, &tests, &mut out[..length]);
        assert_eq!(found, answer);
    }
}

/// Entry, `count` equal steps in a ring, exit.
fn ring(count: usize) -> Vec<u8> {
    let mut lines = String::from("P,a\nN,E,,\n");
    for _ in 0..count {
        lines += "N,S,s,\n";
    }
    lines += "N,X,,\nB,0,-,1\n";
    for at in 0..count {
        lines += &format!("B,{},go,{}\n", at + 1, (at + 1) % count + 1);
    }
    lines += &format!("B,1,out,{}\n", count + 1);
    lines.into_bytes()
}

#[test]
fn pairs_at_the_limit() {
    let mut out = vec![0; 65_536];
    assert_eq!(sheet(&ring(46), &ring(89), b"", &mut out).number, 0);
    assert!(out.windows(12).any(|part| part == b"end,4096,1,0"));
    assert_eq!(
        sheet(&ring(63), &ring(65), b"", &mut out),
        Answer::new(15, 0)
    );
    assert_eq!(
        record(&ring(63), &ring(65), b"", 0, &mut out),
        Answer::new(6, 0)
    );
    assert_eq!(
        probes(&ring(63), &ring(65), b"", &mut out),
        Answer::new(15, 0)
    );
}
