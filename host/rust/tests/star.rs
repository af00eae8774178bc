//! The branch `*`, by the whole-job calls and over a lent job. Each answer is due
//! by request 6 of the change requests: a run takes the edge with the chosen word,
//! or else `*`; pairs, dangers and counterparts are taken over all words, for each
//! the edge that the old node takes against the one that the new node takes, so
//! that an old `*` is compared with every branch that only the new node names, and
//! for all words that neither names with the new `*`; rule 4 of the check changes
//! alike; probes start at the new edge taken for a word that makes a danger. The
//! library, where it is linked, must do as the independent implementation.

mod driving;
mod whole;

use driving::*;
use rivetyellow_host::answer::Answer;
use rivetyellow_host::drive::{Call, Text};
use std::collections::BTreeSet;
use whole::*;

/// Sheet, record lines and probes of a job.
fn due(old: &str, new: &str, tests: &str, sheet: &str, records: &[&str], probes: &str) {
    let job = Job::new(old, new, tests);
    job.due(sheet, records);
    job.probed(probes);
}

type Branch = (&'static str, usize);

/// Nodes that a branch of a choice leads to.
const LIFT: usize = 2;
const HOLD: usize = 3;
const EXIT: usize = 4;

/// A choice with these branches: the edge 0 leads to it, then come its branches
/// in this order, then the edge of `lift` and that of `hold`, both to the exit.
fn choice(branches: &[Branch]) -> String {
    let mut text = "P,up;N,E,,;N,S,choose,;N,S,lift,;N,S,hold,;N,X,,;B,0,-,1;".to_string();
    for (word, to) in branches {
        text += &format!("B,1,{word},{to};");
    }
    text + "B,2,ok,4;B,3,ok,4;"
}

/// Sheets of a choice whose `lift` alone, or `hold` too, is met.
const LIFTS: &str = "M,0,0;M,1,1;M,2,2;M,4,4;";
const BOTH: &str = "M,0,0;M,1,1;M,2,2;M,3,3;M,4,4;";

// ---- against a new `*`

/// For `b`, which is no longer named, the new choice takes `*`: also to `hold`,
/// so the two are counterparts.
#[test]
fn name_gone() {
    let (old, new) = ([("a", LIFT), ("b", HOLD)], [("a", LIFT), ("*", HOLD)]);
    let sheet = format!("sheet,1;{BOTH}end,5,0,0;");
    // The rows hold 0, 2, 4 and 0, 1, 3.
    let records = ["V,t,3,10101;", "V,u,3,11010;"];
    due(
        &choice(&old),
        &choice(&new),
        "T,t,a8;T,u,d0;",
        &sheet,
        &records,
        "",
    );
}

/// `x` led where `*` leads, and goes: nothing is repeated. Both old branches have
/// the new `*` as their only counterpart.
#[test]
fn name_beside_star_gone() {
    let (old, new) = ([("x", HOLD), ("*", HOLD)], [("*", HOLD)]);
    let sheet = "sheet,1;M,0,0;M,1,1;M,3,3;M,4,4;end,4,0,0;";
    // The rows hold 0, 1, 4; 0, 2, 4; and 0.
    let records = ["V,t,3,1101;", "V,u,3,1101;", "V,v,1,1000;"];
    let tests = "T,t,c8;T,u,a8;T,v,80;";
    due(&choice(&old), &choice(&new), tests, sheet, &records, "");
}

/// One new `*` for three names: `a` and `b` lead to `lift` as it does, `c` does
/// not. So `c` is dangerous, the probes start at `*`, and `*` is the counterpart
/// of the other two all the same.
#[test]
fn star_alone_for_names() {
    let old = choice(&[("a", LIFT), ("b", LIFT), ("c", HOLD)]);
    let new = choice(&[("*", LIFT)]);
    let sheet = format!("sheet,1;{LIFTS}D,3;R,v;end,4,1,1;");
    // The rows hold 0, 1, 4; 0, 1, 2, 4; 0, 3, 5. Of the last the new edges 1 and
    // 2 have probes, and 3 has no counterpart.
    let tests = "T,t,c8;T,u,e8;T,v,94;";
    let records = ["V,t,3,1110;", "V,u,4,1110;", "V,v,3,1??0;"];
    due(&old, &new, tests, &sheet, &records, "Q,1;Q,2;");
}

/// Words for which the old choice takes no edge do no harm: a new `*` may be
/// added, and names.
#[test]
fn no_old_star() {
    let old = choice(&[("a", LIFT)]);
    let new = choice(&[("*", HOLD), ("a", LIFT), ("b", HOLD)]);
    let sheet = format!("sheet,1;{LIFTS}end,4,0,0;");
    due(&old, &new, "T,t,e;", &sheet, &["V,t,3,101010;"], "");
}

// ---- an old `*`

/// `*` against `*`: led elsewhere it is dangerous, and the probes start at the new
/// one. What `a` does is not touched.
#[test]
fn star_led_elsewhere() {
    let old = choice(&[("a", LIFT), ("*", HOLD)]);
    let new = choice(&[("a", LIFT), ("*", LIFT)]);
    let sheet = format!("sheet,1;{LIFTS}D,2;R,u;end,4,1,1;");
    // The rows hold 0, 1, 3 and 0, 2, 4. The edge of `lift` has a probe.
    let records = ["V,t,3,11010;", "V,u,3,10??0;"];
    due(&old, &new, "T,t,d0;T,u,a8;", &sheet, &records, "Q,2;Q,3;");
}

/// An old `*` alone against two names and `*`, all to `lift`: each is its
/// counterpart, so a test that crossed it has `?` at each.
#[test]
fn several_counterparts() {
    let old = choice(&[("*", LIFT)]);
    let new = choice(&[("a", LIFT), ("b", LIFT), ("*", LIFT)]);
    let sheet = format!("sheet,1;{LIFTS}end,4,0,0;");
    let records = ["V,t,3,1???10;", "V,u,1,100000;"];
    due(&old, &new, "T,t,e;T,u,8;", &sheet, &records, "");
}

/// The same with `b` to `hold`: that word alone makes `*` dangerous, and the
/// probes start there. For `a` and all other words the ends are a pair.
#[test]
fn one_name_parts() {
    let old = choice(&[("*", LIFT)]);
    let new = choice(&[("a", LIFT), ("b", HOLD), ("*", LIFT)]);
    let sheet = format!("sheet,1;{LIFTS}D,1;R,t;end,4,1,1;");
    // The old edges 1 and 2 lie after the danger, the new edges 2 and 5 have
    // probes.
    let records = ["V,t,3,1?????;", "V,u,1,100000;"];
    due(&old, &new, "T,t,e;T,u,8;", &sheet, &records, "Q,2;Q,5;");
    // Both names part: two starts.
    let new = choice(&[("a", EXIT), ("b", HOLD), ("*", LIFT)]);
    due(&old, &new, "T,t,e;T,u,8;", &sheet, &records, "Q,1;Q,2;Q,5;");
}

/// `*` is dangerous for the words that neither names, and `a` is its counterpart.
#[test]
fn other_words_part() {
    let old = choice(&[("*", LIFT)]);
    let new = choice(&[("a", LIFT), ("*", HOLD)]);
    let sheet = format!("sheet,1;{LIFTS}D,1;R,t;end,4,1,1;");
    due(&old, &new, "T,t,e;", &sheet, &["V,t,3,1????;"], "Q,2;Q,4;");
}

/// There are always words that no branch names, so an old `*` is dangerous where
/// the new choice has none: nothing to start from. A name to the same end is its
/// counterpart all the same, and the ends are a pair.
#[test]
fn star_gone() {
    let new = choice(&[("a", LIFT)]);
    let old = choice(&[("*", LIFT)]);
    let sheet = format!("sheet,1;{LIFTS}D,1;R,t;end,4,1,1;");
    due(&old, &new, "T,t,e;", &sheet, &["V,t,3,1??0;"], "");
    // Here `a` is named in the old version, too, and `hold` is not met. The rows
    // hold 0, 1, 3 and 0, 2, 4.
    let old = choice(&[("a", LIFT), ("*", HOLD)]);
    let sheet = format!("sheet,1;{LIFTS}D,2;R,u;end,4,1,1;");
    let records = ["V,t,3,1110;", "V,u,3,1000;"];
    due(&old, &new, "T,t,d0;T,u,a8;", &sheet, &records, "");
}

/// A named word is none that `*` is taken for: `a` is compared with `a` alone,
/// though the old `*` would not fit it, nor the new `*` the old `a`.
#[test]
fn names_of_both() {
    let both = [("a", LIFT), ("*", HOLD)];
    let sheet = format!("sheet,1;{BOTH}end,5,0,0;");
    let records = ["V,t,3,11010;", "V,u,3,10101;"];
    let text = choice(&both);
    due(&text, &text, "T,t,d0;T,u,a8;", &sheet, &records, "");
}

/// `!` comes before `*` by its byte, `-` behind it, and `**` begins with it: all
/// are names.
#[test]
fn names_near_a_star() {
    let named = choice(&[("!", LIFT), ("**", HOLD), ("-", LIFT)]);
    let stars = choice(&[("*", LIFT), ("**", HOLD)]);
    // The rows hold 0, 1, 3, 4 and 0, 2, 5.
    let sheet = format!("sheet,1;{BOTH}end,5,0,0;");
    let records = ["V,t,4,11010;", "V,u,3,10101;"];
    due(&named, &stars, "T,t,d8;T,u,a4;", &sheet, &records, "");
    // The other way round `*` has two counterparts, and is dangerous for want of
    // a new one. The rows hold 0, 1, 3 and 0, 2, 4.
    let sheet = format!("sheet,1;{BOTH}D,1;R,t;end,5,1,1;");
    let records = ["V,t,3,1?0??0;", "V,u,3,101001;"];
    due(&stars, &named, "T,t,d0;T,u,a8;", &sheet, &records, "");
}

// ---- eight branches

/// Seven names and `*`, to the exit, against seven other names and `*`: 15 words
/// to compare. Each old name has the new `*` as its only counterpart, the old `*`
/// has all eight new branches.
#[test]
fn eight_against_eight() {
    let words = |letter: char| (0..7).map(move |at| format!("B,1,{letter}{at},4;"));
    let program = |letter| -> String {
        let branches: String = words(letter).chain(["B,1,*,4;".to_string()]).collect();
        choice(&[]).replace("B,2,ok", &format!("{branches}B,2,ok"))
    };
    let (old, new) = (program('w'), program('v'));
    // The rows hold 0 and 1; 0 and 8, which is `*`; all three.
    let tests = "T,t,c00;T,u,808;T,v,c08;";
    let sheet = "sheet,1;M,0,0;M,1,1;M,4,4;end,3,0,0;";
    let records = [
        "V,t,2,10000000100;",
        "V,u,2,1????????00;",
        "V,v,3,1???????100;",
    ];
    due(&old, &new, tests, sheet, &records, "");
    // One of them leads to `lift`.
    let parted = new.replace("v3,4", "v3,2");
    let sheet = "sheet,1;M,0,0;M,1,1;M,4,4;D,8;R,u;R,v;end,3,1,2;";
    let records = [
        "V,t,2,10000000100;",
        "V,u,2,1?????????0;",
        "V,v,3,1?????????0;",
    ];
    due(&old, &parted, tests, sheet, &records, "Q,4;Q,9;");
}

// ---- several partners, ways back

/// The old choice has two partners: one names `a`, one has `*` alone. So its edge
/// 3 has two counterparts.
#[test]
fn at_one_partner() {
    let old = "P,up;N,E,,;N,S,r,;N,S,choose,;N,S,lift,;N,X,,;\
               B,0,-,1;B,1,x,2;B,1,y,2;B,2,a,3;B,3,ok,4;";
    let new = "P,up;N,E,,;N,S,r,;N,S,choose,;N,S,choose,;N,S,lift,;N,X,,;\
               B,0,-,1;B,1,x,2;B,1,y,3;B,2,a,4;B,3,*,4;B,4,ok,5;";
    let pairs = "M,0,0;M,1,1;M,2,2;M,2,3;M,3,4;M,4,5;";
    let sheet = format!("sheet,1;{pairs}end,6,0,0;");
    let records = ["V,t,5,111??1;", "V,u,2,110000;"];
    due(old, new, "T,t,f8;T,u,c0;", &sheet, &records, "");
    // That `*` leads to the exit: `a` is dangerous there, and the start is `*`.
    let parted = new.replace("B,3,*,4", "B,3,*,5");
    let sheet = format!("sheet,1;{pairs}D,3;R,t;end,6,1,1;");
    let records = ["V,t,5,111???;", "V,u,2,110000;"];
    due(old, &parted, "T,t,f8;T,u,c0;", &sheet, &records, "Q,4;");
}

/// A new name `stop` makes `*` dangerous, and leads to the exit: it is the only
/// probe. In the old version the way goes from `*` back to the choice, so that the
/// old edge 2, too, lies after the danger; or on to the exit, so that it does not.
#[test]
fn ways_back() {
    let program = |branches: &str, to: usize| {
        format!("P,up;N,E,,;N,S,choose,;N,S,lift,;N,X,,;B,0,-,1;{branches}B,2,ok,{to};")
    };
    let sheet = "sheet,1;M,0,0;M,1,1;M,2,2;M,3,3;D,1;R,t;end,4,1,1;";
    for (to, marks) in [(1, "1????"), (3, "1??1?")] {
        let old = program("B,1,*,2;B,1,end,3;", to);
        let new = program("B,1,*,2;B,1,stop,3;B,1,end,3;", to);
        let records = [&format!("V,t,4,{marks};"), "V,u,2,10010;"];
        due(&old, &new, "T,t,f;T,u,a;", sheet, &records, "Q,2;");
    }
}

// ---- calls

/// A call of `in`, whose first step has these branches: to the step `work` (6) or
/// to its exit (7). They are the edges from 4 on, and the edge of `work` comes
/// last.
fn calling(branches: &str) -> String {
    format!(
        "P,up;N,E,,;N,C,wind,in;N,S,after,;N,X,,;B,0,-,1;B,1,-,2;B,2,ok,3;\
         P,in;N,E,,;N,S,turn,;N,S,work,;N,X,,;B,4,-,5;{branches}B,6,ok,7;"
    )
}

/// The old `*` leads to the exit of `in`. Where for some word the new step does so
/// too the exits are a pair and the call goes on, though `*` be dangerous. The
/// tests cross all edges but that of `work`.
#[test]
fn within_a_call() {
    let behind = "M,0,0;M,1,1;M,2,2;M,3,3;M,4,4;M,5,5;M,7,7;";
    let waiting = "M,0,0;M,1,1;M,4,4;M,5,5;";
    for (new, pairs, end, marks, probes) in [
        // Three counterparts, no danger.
        (
            "B,5,a,7;B,5,b,7;B,5,*,7;",
            behind,
            "end,7,0,0;",
            "1111???0",
            "",
        ),
        // The word `a` parts. From there a run comes to `work`, to the exit, and
        // behind the call.
        (
            "B,5,a,6;B,5,*,7;",
            behind,
            "D,4;R,t;end,7,1,1;",
            "1??1???",
            "Q,1;Q,2;Q,4;Q,6;",
        ),
        // All words but `a` part, and the new run stops.
        ("B,5,a,7;", behind, "D,4;R,t;end,7,1,1;", "1??1?0", ""),
        // All words part: the call waits, and its edge is neither dangerous nor
        // joined.
        (
            "B,5,*,6;",
            waiting,
            "D,4;R,t;end,4,1,1;",
            "1??1??",
            "Q,1;Q,2;Q,4;Q,5;",
        ),
    ] {
        let (old, new) = (calling("B,5,*,7;"), calling(new));
        let sheet = format!("sheet,1;{pairs}{end}");
        let record = format!("V,t,5,{marks};");
        due(&old, &new, "T,t,f8;", &sheet, &[&record], probes);
    }
}

// ---- the check

fn judged(job: &Job, lines: &str, answer: Answer) {
    for calls in all() {
        let found = job.check(&calls, &format!("sheet,1;{lines}"));
        assert_eq!(found, answer, "{}: {lines}", calls.name);
    }
}

const PASSES: Answer = Answer::success(0);
const RULE_4: Answer = Answer::new(12, 4);
const RULE_5: Answer = Answer::new(12, 5);

/// An old `*` against `a`, `b` and `*`, each to a `lift` of its own: the ends are
/// asked for each word. If one is not listed, the edge 1 must be.
#[test]
fn rule_4_for_each_word() {
    let new = "P,up;N,E,,;N,S,choose,;N,S,lift,;N,S,lift,;N,S,lift,;N,X,,;\
               B,0,-,1;B,1,a,2;B,1,b,3;B,1,*,4;B,2,ok,5;B,3,ok,5;B,4,ok,5;";
    let job = Job::new(&choice(&[("*", LIFT)]), new, "T,t,e;");
    let pairs = "M,0,0;M,1,1;M,2,2;M,2,3;M,2,4;M,4,5;";
    job.due(&format!("sheet,1;{pairs}end,6,0,0;"), &["V,t,3,1??????;"]);
    for gone in ["M,2,2;", "M,2,3;", "M,2,4;"] {
        let pairs = pairs.replace(gone, "");
        judged(&job, &format!("{pairs}end,5,0,0;"), RULE_4);
        judged(&job, &format!("{pairs}D,2;R,t;end,5,1,1;"), RULE_4);
        judged(&job, &format!("{pairs}D,1;end,5,1,0;"), RULE_5);
        judged(&job, &format!("{pairs}D,1;R,t;end,5,1,1;"), PASSES);
    }
}

/// A new `*` for `a` and `b`, each from a `lift` of its own. If the ends of one
/// are not listed, just that edge must be.
#[test]
fn rule_4_for_each_name() {
    let old = "P,up;N,E,,;N,S,choose,;N,S,lift,;N,S,lift,;N,X,,;\
               B,0,-,1;B,1,a,2;B,1,b,3;B,2,ok,4;B,3,ok,4;";
    let job = Job::new(old, &choice(&[("*", LIFT)]), "T,t,d0;");
    let pairs = "M,0,0;M,1,1;M,2,2;M,3,2;M,4,4;";
    job.due(&format!("sheet,1;{pairs}end,5,0,0;"), &["V,t,3,1110;"]);
    let without = |gone: &str| pairs.replace(gone, "");
    let (one, other) = (without("M,2,2;"), without("M,3,2;"));
    for pairs in [&one, &other] {
        judged(&job, &format!("{pairs}end,4,0,0;"), RULE_4);
    }
    judged(&job, &format!("{one}D,2;end,4,1,0;"), RULE_4);
    judged(&job, &format!("{one}D,1;R,t;end,4,1,1;"), PASSES);
    // The test did not cross the edge 2.
    judged(&job, &format!("{other}D,2;end,4,1,0;"), PASSES);
    judged(&job, &format!("{other}D,1;R,t;end,4,1,1;"), RULE_4);
}

/// Sheets that were right while `*` was a plain word. They fail where a new name,
/// or the want of a new `*`, makes it dangerous; they pass where a `*` fits now:
/// listing too much is allowed.
#[test]
fn stored_sheets() {
    let old = choice(&[("*", LIFT)]);
    let new = choice(&[("b", HOLD), ("*", LIFT)]);
    let job = Job::new(&old, &new, "T,t,e;");
    judged(&job, &format!("{LIFTS}end,4,0,0;"), RULE_4);
    judged(&job, &format!("{LIFTS}D,1;R,t;end,4,1,1;"), PASSES);
    let (a, star) = (choice(&[("a", LIFT)]), choice(&[("*", LIFT)]));
    for (old, new, sheet) in [(&a, &star, "end,4,0,0;"), (&star, &a, "D,1;R,t;end,4,1,1;")] {
        let job = Job::new(old, new, "T,t,e;");
        job.due(&format!("sheet,1;{LIFTS}{sheet}"), &[]);
        judged(&job, "M,0,0;M,1,1;D,1;R,t;end,2,1,1;", PASSES);
    }
    // The ends are a pair by `a`, but `*` is not under D.
    judged(
        &Job::new(&star, &a, ""),
        &format!("{LIFTS}end,4,0,0;"),
        RULE_4,
    );
}

// ---- every small choice

/// Every choice of `a`, `b` and `*`, each to `lift`, to `hold` or not there.
fn choices() -> Vec<Vec<Branch>> {
    let mut all = vec![vec![]];
    for word in ["a", "b", "*"] {
        for shorter in all.clone() {
            for to in [LIFT, HOLD] {
                all.push([&shorter[..], &[(word, to)]].concat());
            }
        }
    }
    all.retain(|branches| !branches.is_empty());
    all
}

/// The edge taken for a word, and where it leads.
fn taken(branches: &[Branch], word: &str) -> Option<(usize, usize)> {
    let of = |word: &str| branches.iter().position(|branch| branch.0 == word);
    let at = of(word).or_else(|| of("*"))?;
    Some((1 + at, branches[at].1))
}

fn lines(kind: char, edges: &BTreeSet<usize>) -> String {
    edges.iter().map(|edge| format!("{kind},{edge};")).collect()
}

/// What the rules give for two choices.
#[derive(Default)]
struct Due {
    pairs: BTreeSet<usize>,
    dangers: BTreeSet<usize>,
    probes: BTreeSet<usize>,
}

/// By the words `a`, `b`, `*` and one that is named nowhere. A node meets only
/// itself. Behind a start lies the edge of its end.
fn rules(old: &[Branch], new: &[Branch]) -> Due {
    let mut due = Due::default();
    for word in ["a", "b", "*", "z"] {
        match (taken(old, word), taken(new, word)) {
            (Some((_, end)), Some((_, other))) if end == other => {
                due.pairs.extend([end, EXIT]);
            }
            (Some((edge, _)), other) => {
                due.dangers.insert(edge);
                due.probes.extend(other.map(|(start, _)| start));
                due.probes.extend(other.map(|(_, end)| new.len() + end - 1));
            }
            (None, _) => (),
        }
    }
    due.pairs.extend([0, 1]);
    due
}

/// Each against each; and a sheet with all pairs passes exactly if it has every
/// dangerous edge under D.
#[test]
fn every_choice() {
    let all = choices();
    assert_eq!(all.len(), 26);
    for (old, new) in all
        .iter()
        .flat_map(|old| all.iter().map(move |new| (old, new)))
    {
        let due = rules(old, new);
        let pairs = due.pairs.iter().map(|node| format!("M,{node},{node};"));
        let pairs: String = pairs.collect();
        let sheet = |dangers: &BTreeSet<usize>| {
            let (m, d) = (due.pairs.len(), dangers.len());
            format!("{pairs}{}end,{m},{d},0;", lines('D', dangers))
        };
        let job = Job::new(&choice(old), &choice(new), "");
        job.due(&format!("sheet,1;{}", sheet(&due.dangers)), &[]);
        job.probed(&lines('Q', &due.probes));
        for some in 0..1 << old.len() {
            let listed = (1..=old.len()).filter(|edge| some >> (edge - 1) & 1 == 1);
            let listed: BTreeSet<usize> = listed.collect();
            let answer = match listed.is_superset(&due.dangers) {
                true => PASSES,
                false => RULE_4,
            };
            judged(&job, &sheet(&listed), answer);
        }
    }
}

// ---- reading and writing back

/// An entry and a call have only `-`; `*` is a word like others where words are
/// counted, and may stand once.
#[test]
fn refused() {
    let right = choice(&[("*", LIFT)]);
    let nine: String = (0..8).map(|at| format!("B,1,w{at},4;")).collect();
    for (text, number, place) in [
        ("P,up;N,E,,;N,X,,;B,0,*,1;".to_string(), 8, 1),
        ("P,up;N,E,,;N,X,,;B,0,-,1;B,0,*,1;".to_string(), 8, 1),
        (
            "P,up;N,E,,;N,C,wind,up;N,X,,;B,0,-,1;B,1,*,2;".to_string(),
            8,
            1,
        ),
        (choice(&[("*", LIFT), ("a", LIFT), ("*", HOLD)]), 7, 10),
        (right.replace("B,2,ok", &format!("{nine}B,2,ok")), 8, 1),
    ] {
        Job::new(&text, &right, "").refused(number, place);
        Job::new(&right, &text, "").refused(number, place);
    }
}

/// Stored programs keep their bytes.
#[test]
fn written_back() {
    let old = choice(&[("a", LIFT), ("*", HOLD), ("**", LIFT)]);
    let new = choice(&[("*", HOLD)]);
    let job = Job::new(&old, &new, "");
    for calls in all() {
        for (side, text) in [&old, &new].into_iter().enumerate() {
            assert_eq!(job.program(&calls, side).as_deref(), Ok(&text[..]));
        }
    }
}

/// The same requests over a lent job.
#[test]
fn lent() {
    let old = choice(&[("*", LIFT)]);
    let new = choice(&[("a", LIFT), ("b", HOLD), ("*", LIFT)]);
    let sheet = format!("sheet,1;{LIFTS}D,1;R,t;end,4,1,1;");
    let mut drive = Drive::at_stage(3, &old, &new, "T,t,e;", &sheet);
    drive.serves(&sheet, "V,t,3,1?????;", "Q,2;Q,5;", "choose");
    let claim = format!("sheet,1;{LIFTS}R,t;end,4,0,1;");
    drive.text(Text::Input, &claim);
    drive.refused(ASK_CHECK, 12, 4);
    let broken = new.replace("B,0,-,1", "B,0,*,1");
    let mut drive = Drive::at_stage(1, &old, &broken, "", "");
    drive.refused(Call::ReadNew, 8, 1);
}
