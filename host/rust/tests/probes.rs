//! Probes, and the marks of repeated tests, by the whole-job calls and over a
//! lent job. Each answer is due by request 5 of the change requests: the start is
//! each new edge with the word of a dangerous edge at a pair that makes it
//! dangerous (`star.rs` has those where `*` is taken for the word); then come the
//! edges leaving its end, at a call the first callee's entry edge instead, from an
//! exit at every call of that procedure the next callee's entry edge or after the
//! last the call's edge. Old edges after a danger are found likewise. A repeated
//! test has `?` where the new edge has a probe or a crossed old counterpart lies
//! after a danger; other marks are as for tests left off. The library, where it is
//! linked, must do as the independent implementation.

mod driving;
mod whole;

use driving::*;
use rivetyellow_host::answer::Answer;
use rivetyellow_host::drive::{Call, Table, Text};
use rivetyellow_host::generate::limits::wide;
use rivetyellow_host::generate::random::Random;
use rivetyellow_host::records::{PROBES, RECORD};
use whole::*;

/// Sheet, record lines and probes of a job.
fn due(old: &str, new: &str, tests: &str, sheet: &str, records: &[&str], probes: &str) {
    let job = Job::new(old, new, tests);
    job.due(sheet, records);
    job.probed(probes);
}

// ---- the examples

/// P2. Probes are the job's, whether or not a row holds the dangerous edge, and
/// a test that is left off keeps its 0 and 1 where there is one.
#[test]
fn p2() {
    due(OLD, NEW, P2_TESTS, P2_SHEET, &P2_RECORDS, P2_PROBES);
    let sheet = "sheet,1;M,0,0;M,1,1;M,3,3;M,4,4;D,1;end,4,1,0;";
    due(OLD, NEW, "T,t1,a8;", sheet, &["V,t1,3,10101;"], P2_PROBES);
    due(OLD, NEW, "", sheet, &[], P2_PROBES);
}

/// P4: the word is gone, so there is nothing to start from. The old edge 4 lies
/// after the danger and has no counterpart, as node 3 is met by no other way.
#[test]
fn p4() {
    let new = OLD.replace("B,1,stop,3", "B,1,halt,3");
    let sheet = "sheet,1;M,0,0;M,1,1;M,2,2;D,2;R,t1;R,t2;end,3,1,2;";
    let records = ["V,t1,3,10000;", "V,t2,5,11010;"];
    due(OLD, &new, P2_TESTS, sheet, &records, "");
}

/// P1, P3, P5 and P6: no danger, no probe. An output of no bytes will do.
#[test]
fn no_danger() {
    let p1 = "P,up;N,E,,;N,X,,;B,0,-,1;";
    let wind = "P,up;N,E,,;N,S,wind,;N,X,,;B,0,-,1;B,1,T,1;B,1,F,2;";
    let winds = "P,up;N,E,,;N,S,wind,;N,S,wind,;N,X,,;\
                 B,0,-,1;B,1,T,2;B,1,F,3;B,2,T,1;B,2,F,3;";
    let p5 = format!("{OLD}B,3,more,1;");
    let p6 = "P,up;N,E,,;N,C,wind,up;N,X,,;B,0,-,1;B,1,-,2;";
    for (old, new) in [(p1, p1), (wind, winds), (winds, wind), (OLD, &p5), (p6, p6)] {
        let job = Job::new(old, new, "");
        job.probed("");
        for calls in all() {
            let answer = (calls.probes)(&job.old, &job.new, &job.tests, &mut []);
            assert_eq!(answer, Answer::success(0), "{}", calls.name);
        }
    }
}

// ---- ways back

/// Node 2 is changed, so the edge 1 is dangerous. Its edge 3 leads back to
/// node 1, or to the exit, in each version.
#[test]
fn ways_back() {
    let program = |label: &str, to: usize| {
        format!("P,up;N,E,,;N,S,a,;N,S,{label},;N,X,,;B,0,-,1;B,1,go,2;B,1,end,3;B,2,ok,{to};")
    };
    let sheet = "sheet,1;M,0,0;M,1,1;M,3,3;D,1;R,t0;R,t2;end,3,1,2;";
    let (back, on) = (1, 3);
    for (old, new, records, probes) in [
        // The old edge 2 lies after the danger exactly if the old version goes
        // back, the new one exactly if the new version does.
        (on, on, ["1?1?", "1?0?"], "Q,1;Q,3;"),
        (back, on, ["1???", "1?0?"], "Q,1;Q,3;"),
        (on, back, ["1???", "1???"], "Q,1;Q,2;Q,3;"),
        (back, back, ["1???", "1???"], "Q,1;Q,2;Q,3;"),
    ] {
        // The first crosses all four edges, the third not the edge 2.
        let [first, third] = records;
        let records = [
            &format!("V,t0,4,{first};"),
            "V,t1,2,1010;",
            &format!("V,t2,3,{third};"),
        ];
        let (old, new) = (program("b", old), program("c", new));
        due(&old, &new, "T,t0,f;T,t1,a;T,t2,d;", sheet, &records, probes);
    }
}

/// The new edge 1 is led into the entry: its edge, then all.
#[test]
fn into_an_entry() {
    let program = |to| format!("P,up;N,E,,;N,S,a,;N,X,,;B,0,-,1;B,1,x,{to};B,1,y,1;");
    let sheet = "sheet,1;M,0,0;M,1,1;D,1;R,t0;end,2,1,1;";
    let records = ["V,t0,3,???;", "V,t1,2,101;"];
    let tests = "T,t0,e;T,t1,a;";
    due(
        &program(2),
        &program(0),
        tests,
        sheet,
        &records,
        "Q,0;Q,1;Q,2;",
    );
    // The old one: the danger is followed by all old edges; the new edge 1 leads
    // to the exit, where the run ends.
    let sheet = "sheet,1;M,0,0;M,1,1;D,1;R,t0;end,2,1,1;";
    let records = ["V,t0,3,???;", "V,t1,2,101;"];
    due(&program(0), &program(2), tests, sheet, &records, "Q,1;");
    // Without the edge 2 in the row its counterpart was not crossed.
    let records = ["V,t0,2,??0;"];
    due(&program(0), &program(2), "T,t0,c;", sheet, &records, "Q,1;");
}

// ---- where an edge is dangerous

/// The old node 2 has two partners. At new node 2 the edge 3 has a counterpart,
/// the new edge 3; at new node 3 it is dangerous, and the start is the new edge 4
/// there alone.
#[test]
fn at_one_partner() {
    let old = "P,up;N,E,,;N,S,r,;N,S,a,;N,S,b,;N,X,,;B,0,-,1;B,1,x,2;B,1,y,2;B,2,ok,3;B,3,ok,4;";
    let new = "P,up;N,E,,;N,S,r,;N,S,a,;N,S,a,;N,S,b,;N,S,c,;N,X,,;\
               B,0,-,1;B,1,x,2;B,1,y,3;B,2,ok,4;B,3,ok,5;B,4,ok,6;B,5,ok,6;";
    // The old edges 3 and 4 lie after the danger; the new edge 5 is the
    // counterpart of 4.
    let sheet = "sheet,1;M,0,0;M,1,1;M,2,2;M,2,3;M,3,4;M,4,6;D,3;R,t0;R,t2;end,6,1,2;";
    let tests = "T,t0,f8;T,t1,c0;T,t2,10;T,t3,08;";
    let records = [
        "V,t0,5,111????;",
        "V,t1,2,1100000;",
        "V,t2,1,000??0?;",
        "V,t3,1,0000010;",
    ];
    due(old, new, tests, sheet, &records, "Q,4;Q,6;");
    // There the word is gone: nothing to start from.
    let gone = new.replace("B,3,ok,5", "B,3,no,5");
    let records = [
        "V,t0,5,111?0?0;",
        "V,t1,2,1100000;",
        "V,t2,1,000?000;",
        "V,t3,1,0000010;",
    ];
    due(old, &gone, tests, sheet, &records, "");
}

/// All dangers count, also such as the test did not cross: the edges 1 and 2 lead
/// to changed nodes, and the test crossed the edge 1. From the old node 3 the way
/// goes on to node 4, which stands in both versions and is met by the edge 3.
#[test]
fn every_danger() {
    let program = |p: &str, q: &str, to: usize| {
        format!(
            "P,up;N,E,,;N,S,choose,;N,S,{p},;N,S,{q},;N,S,r,;N,X,,;\
             B,0,-,1;B,1,x,2;B,1,y,3;B,1,z,4;B,2,ok,5;B,3,ok,{to};B,4,ok,5;"
        )
    };
    let sheet = "sheet,1;M,0,0;M,1,1;M,4,4;M,5,5;D,1;D,2;R,t;end,4,2,1;";
    // The row holds 0, 1, 3, 4 and 6. The old edge 6 comes after the danger 2.
    let (old, new) = (program("p", "q", 4), program("p now", "q now", 5));
    let probes = "Q,1;Q,2;Q,4;Q,5;";
    due(&old, &new, "T,t,da;", sheet, &["V,t,5,1??1???;"], probes);
    // Only the new version goes on to node 4, then the new edge 6 has a probe.
    let (old, new) = (program("p", "q", 5), program("p now", "q now", 4));
    let probes = "Q,1;Q,2;Q,4;Q,5;Q,6;";
    due(&old, &new, "T,t,da;", sheet, &["V,t,5,1??1???;"], probes);
    // Neither: its mark is that of a test left off.
    let (old, new) = (program("p", "q", 5), program("p now", "q now", 5));
    let probes = "Q,1;Q,2;Q,4;Q,5;";
    due(&old, &new, "T,t,da;", sheet, &["V,t,5,1??1??1;"], probes);
}

// ---- counterparts

/// Two old steps `turn` are one in the new version: its edge 3 has the old edges
/// 3 and 4 as counterparts. The danger is the old edge 5, to `hold`, and from
/// there the old version goes back to its second `turn`, so only the edge 4 lies
/// after it. The test crossed both: that is enough for `?`, though the edge 3 has
/// no other counterpart.
#[test]
fn one_counterpart_after_a_danger() {
    let old = "P,up;N,E,,;N,S,choose,;N,S,turn,;N,S,turn,;N,S,link,;N,S,hold,;N,X,,;\
               B,0,-,1;B,1,a,2;B,1,b,3;B,2,ok,4;B,3,ok,4;B,4,ok,5;B,4,out,6;B,5,ok,3;";
    let new = "P,up;N,E,,;N,S,choose,;N,S,turn,;N,S,link,;N,S,brake,;N,X,,;\
               B,0,-,1;B,1,a,2;B,1,b,2;B,2,ok,3;B,3,ok,4;B,3,out,5;B,4,ok,5;";
    let sheet = "sheet,1;M,0,0;M,1,1;M,2,2;M,3,2;M,4,3;M,6,5;D,5;R,t;R,u;end,6,1,2;";
    // The run 0, 1, 3, 5, 7, 4, 6; the same up to 5; a row of 0 and 6.
    let tests = "T,t,df;T,u,d4;T,v,82;";
    let records = ["V,t,7,110????;", "V,u,4,1101?0?;", "V,v,2,1000010;"];
    due(old, new, tests, sheet, &records, "Q,4;Q,6;");
}

/// P3 with a way out to a changed node, `G`: in the new version from both `wind`
/// nodes. Elsewhere a repeated test has the marks of one left off: the old edges 1
/// and 2 have two counterparts each.
#[test]
fn two_counterparts() {
    let old = "P,up;N,E,,;N,S,wind,;N,S,lift,;N,X,,;B,0,-,1;B,1,T,1;B,1,F,3;B,1,G,2;B,2,ok,3;";
    let new = "P,up;N,E,,;N,S,wind,;N,S,wind,;N,S,hold,;N,X,,;\
               B,0,-,1;B,1,T,2;B,1,F,4;B,1,G,3;B,2,T,1;B,2,F,4;B,2,G,3;B,3,ok,4;";
    let sheet = "sheet,1;M,0,0;M,1,1;M,1,2;M,3,4;D,3;R,t;R,u;R,v;end,4,1,3;";
    let tests = "T,t,f8;T,u,98;T,v,d8;T,w,c0;";
    let records = [
        "V,t,5,1???????;",
        "V,u,3,100?00??;",
        "V,v,4,1?0??0??;",
        "V,w,2,1?00?000;",
    ];
    due(old, new, tests, sheet, &records, "Q,3;Q,6;Q,7;");
}

// ---- calls

/// A changed step, a call with this field, a step behind it; the procedures `a`
/// and `b` of a step each, whose edges lead to these nodes.
fn calling(label: &str, field: &str, a: usize, b: usize) -> String {
    format!(
        "P,up;N,E,,;N,S,{label},;N,C,x,{field};N,S,after,;N,X,,;\
         B,0,-,1;B,1,ok,2;B,1,out,4;B,2,-,3;B,3,ok,4;\
         P,a;N,E,,;N,S,in a,;N,X,,;B,5,-,6;B,6,ok,{a};\
         P,b;N,E,,;N,S,in b,;N,X,,;B,8,-,9;B,9,ok,{b};"
    )
}

/// The danger is the edge 0, and the new run may cross what follows: the edges 1
/// and 2, then the first callee's entry edge; each next one's from the exit
/// before; behind the call, by the edges 3 and 4, only after the last exit. The
/// edges of `a` are 5 and 6, those of `b` 7 and 8.
#[test]
fn into_calls() {
    // Nodes that the steps of `a` and `b` lead to: their exits, or themselves.
    let (a, b, endless_a, endless_b) = (7, 10, 6, 9);
    for (field, a, b, probes) in [
        ("a", a, b, &[3, 4, 5, 6][..]),
        ("b", a, b, &[3, 4, 7, 8]),
        ("a+b", a, b, &[3, 4, 5, 6, 7, 8]),
        ("b+a+b+b", a, b, &[3, 4, 5, 6, 7, 8]),
        ("a", endless_a, b, &[5, 6]),
        ("a+b", endless_a, b, &[5, 6]),
        ("a+b", a, endless_b, &[5, 6, 7, 8]),
        ("b+a", endless_a, b, &[5, 6, 7, 8]),
        ("b+a", a, endless_b, &[7, 8]),
        ("a+a", a, b, &[3, 4, 5, 6]),
        // The exit of `up` is met by the edge 2, so a call of it returns.
        ("up", a, b, &[3, 4]),
        ("up+a", a, b, &[3, 4, 5, 6]),
        ("up+a", endless_a, b, &[5, 6]),
    ] {
        let old = calling("first", field, 7, 10);
        let new = calling("first now", field, a, b);
        let probes = [0, 1, 2].iter().chain(probes);
        let lines: String = probes.map(|edge| format!("Q,{edge};")).collect();
        due(&old, &new, "", "sheet,1;M,0,0;D,0;end,1,1,0;", &[], &lines);
    }
}

/// The step of `a` is changed. From its exit the run goes on at every call that
/// names it, at each place: behind the first call of `up`, behind its second one,
/// and to `b` in a procedure that nobody calls. From the exit of `b` it goes on to
/// `a`, and behind the call of that procedure, by the edge 8.
#[test]
fn at_every_call() {
    let program = |label: &str| {
        format!(
            "P,up;N,E,,;N,C,one,a;N,S,mid,;N,C,two,b+a;N,X,,;B,0,-,1;B,1,-,2;B,2,ok,3;B,3,-,4;\
             P,a;N,E,,;N,S,{label},;N,X,,;B,5,-,6;B,6,ok,7;P,b;N,E,,;N,X,,;B,8,-,9;\
             P,idle;N,E,,;N,C,x,a+b;N,X,,;B,10,-,11;B,11,-,12;"
        )
    };
    let sheet = "sheet,1;M,0,0;M,1,1;M,5,5;D,4;R,t;end,3,1,1;";
    let probes = "Q,1;Q,2;Q,3;Q,4;Q,5;Q,6;Q,8;";
    let records = ["V,t,9,1??????0?;"];
    due(
        &program("in"),
        &program("in now"),
        "T,t,ff8;",
        sheet,
        &records,
        probes,
    );
}

/// The same in the old version: the step of `b` is changed, and `b` never returns
/// now. In the old version `a` is called after it: its edges, which have
/// counterparts by the other call, lie after the danger, and so does the edge
/// behind that call.
#[test]
fn old_calls() {
    let program = |label: &str, to: usize| {
        format!(
            "P,up;N,E,,;N,S,choose,;N,C,one,a;N,C,both,b+a;N,X,,;\
             B,0,-,1;B,1,p,2;B,1,q,3;B,2,-,4;B,3,-,4;\
             P,a;N,E,,;N,S,s,;N,X,,;B,5,-,6;B,6,ok,7;\
             P,b;N,E,,;N,S,{label},;N,X,,;B,8,-,9;B,9,ok,{to};"
        )
    };
    // `a` has the edges 5 and 6, `b` 7 and 8; the edge 7 is dangerous. After it in
    // the old version come 8, 5 and 6, then 3 and 4, as the exit of `a` is behind
    // both calls.
    let sheet = "sheet,1;M,0,0;M,1,1;M,2,2;M,3,3;M,4,4;M,5,5;M,6,6;M,7,7;M,8,8;\
                 D,7;R,t;end,9,1,1;";
    let (old, new) = (program("u", 10), program("v", 9));
    // The first row holds all edges, the second all but 7.
    let records = ["V,t,9,111?0????;", "V,u,8,111101100;"];
    due(&old, &new, "T,t,ff8;T,u,fe8;", sheet, &records, "Q,7;Q,8;");
}

// ---- outputs and refusals

/// Just long enough, longer, and too short: then nothing is written.
#[test]
fn outputs() {
    let job = Job::new(OLD, NEW, P2_TESTS);
    let lines = bytes(P2_PROBES);
    for calls in all() {
        for room in 0..lines.len() + 3 {
            let mut out = vec![b'#'; room];
            let answer = (calls.probes)(&job.old, &job.new, &job.tests, &mut out);
            let mut left = vec![b'#'; room];
            let due = match left.get_mut(..lines.len()) {
                None => Answer::new(16, 0),
                Some(written) => {
                    written.copy_from_slice(&lines);
                    Answer::success(lines.len())
                }
            };
            assert_eq!((answer, out), (due, left), "{}: {room}", calls.name);
        }
    }
}

/// 1,024 new edges, all after the start: 6,058 bytes, the most there can be.
#[test]
fn as_many_as_may_be() {
    let new = wide(&mut Random::new(5, 0), 512, 1_024, 1).text();
    let old = bytes("P,up;N,E,,;N,X,,;B,0,-,1;");
    let lines: String = (0..1_024).map(|edge| format!("Q,{edge}\n")).collect();
    assert_eq!(lines.len(), 6_058);
    for calls in all() {
        let mut out = vec![b'#'; 6_058];
        let answer = (calls.probes)(&old, &new, b"", &mut out[..6_057]);
        assert_eq!(answer, Answer::new(16, 0), "{}", calls.name);
        assert!(out.iter().all(|&byte| byte == b'#'), "{}", calls.name);
        let answer = (calls.probes)(&old, &new, b"", &mut out);
        assert_eq!(answer, Answer::success(6_058), "{}", calls.name);
        assert_eq!(out, lines.as_bytes(), "{}", calls.name);
    }
}

/// As a sheet: the first text that is refused, then 15, then 16.
#[test]
fn refused() {
    for (old, new, tests, number, place) in [
        ("x;", "y;y;", "z", 2, 1),
        (OLD, "P,up;N,E,,;N,X,,;B,0,-,1", "z", 2, 4),
        (OLD, NEW, "T,a,f;", 10, 1),
        (OLD, NEW, "T,a,f8;T,a,f8;", 5, 2),
        ("", NEW, P2_TESTS, 2, 1),
    ] {
        let job = Job::new(old, new, tests);
        job.refused(number, place);
        for calls in all() {
            let answer = (calls.probes)(&job.old, &job.new, &job.tests, &mut []);
            assert_eq!(answer, Answer::new(number, place), "{}", calls.name);
        }
    }
}

// ---- the lent job

/// Request 5. Its numbers and the input are not looked at.
#[test]
fn request() {
    let mut drive = Drive::p2(3);
    drive.writes(ASK_PROBES, P2_PROBES);
    drive.writes(Call::Ask(RECORD, 1, 0), P2_RECORDS[1]);
    for input in ["", "x", &"x".repeat(65_537)] {
        drive.text(Text::Input, input);
        for (a, b) in [(1, 0), (0, 9), (200, 512), (usize::MAX, usize::MAX)] {
            drive.writes(Call::Ask(PROBES, a, b), P2_PROBES);
        }
    }
    for room in [15, 1, 0] {
        drive.driver.lend(Table::Output, room);
        drive.refused(ASK_PROBES, 16, 0);
    }
    drive.driver.lend(Table::Output, 16);
    drive.writes(ASK_PROBES, P2_PROBES);
}

/// It goes by the text that is lent: with blanks for ` by layer` the label is
/// that of the old version again, and there is no danger.
#[test]
fn another_text_is_lent() {
    let mut drive = Drive::p2(3);
    drive.text(Text::New, &NEW.replace(" by layer", "         "));
    drive.writes(ASK_PROBES, "");
    drive.writes(Call::Ask(RECORD, 1, 0), "V,t2,5,11111;");
    drive.driver.lend(Table::Output, 0);
    drive.writes(ASK_PROBES, "");
    drive.text(Text::New, NEW);
    drive.refused(ASK_PROBES, 16, 0);
}
