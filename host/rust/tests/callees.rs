//! Calls of several procedures, by the whole-job calls and over a lent job.
//! Each answer is due by request 3 of the change requests: a callee field names
//! up to four procedures, repeats allowed, joined by `+` and called left to
//! right; for a pair of calls the entries of the first callee are a pair, those
//! of a later one if the exits of every callee before it are, and the pair goes
//! on after all exits met, in the checker too; a fifth name is malformed, an
//! unknown one is refused like a single one. Among the fields and changes are
//! those of the given cases (`given.rs`). The library, where it is linked, must
//! do as the independent implementation.

mod driving;
mod whole;

use driving::*;
use rivetyellow_host::answer::Answer;
use rivetyellow_host::drive::{Call, Table, Text};
use rivetyellow_host::generate::limits::long_calls;
use rivetyellow_host::records::{LABEL, PROGRAM, RECORD};
use std::collections::BTreeSet;
use whole::*;

// ---- callee fields

/// A call with this field and a step behind it; the procedures `a` to `d`, of
/// one step each. The procedure q of these has the nodes from 4 + 3 q on, and
/// the edges 3 + 2 q and 4 + 2 q.
fn program(field: &str) -> String {
    let mut text = format!("P,up;N,E,,;N,C,x,{field};N,S,after,;N,X,,;B,0,-,1;B,1,-,2;B,2,ok,3;");
    for (at, name) in ["a", "b", "c", "d"].into_iter().enumerate() {
        let first = 4 + 3 * at;
        text += &format!("P,{name};N,E,,;N,S,work in {name},;N,X,,;");
        text += &format!(
            "B,{first},-,{};B,{},ok,{};",
            first + 1,
            first + 1,
            first + 2
        );
    }
    text
}

/// Fields that are accepted: one to four names of procedures, in any order,
/// also of the calling one.
const ACCEPTED: [&str; 10] = [
    "a", "a+b", "b+a", "a+a", "a+b+c", "a+b+a+b", "a+a+a+a", "d+c+b+a", "a+up", "up+a",
];

/// Fields that are malformed.
const MALFORMED: [&str; 24] = [
    // A fifth name, known or not.
    "a+b+a+b+a",
    "a+b+c+d+e",
    "a+a+a+a+a",
    "a+b+c+d+a+b",
    // An empty name at each place.
    "",
    "+",
    "+a",
    "a+",
    "a++b",
    "+a+b",
    "a+b+",
    "a+b++c",
    "a+b+c+",
    "a+b+c+d+",
    // A name of 13 bytes.
    "a+nnnnnnnnnnnnn",
    "nnnnnnnnnnnnn+a",
    "a+b+c+nnnnnnnnnnnnn",
    // Bytes that no name has, and other joints.
    "a+ b",
    "a +b",
    "a-b",
    "a&b",
    "a+b ",
    "a*b+c",
    "a+b,c",
];

/// Fields with an unknown name at each place. Names are compared whole.
const UNKNOWN: [&str; 12] = [
    "e",
    "e+a",
    "a+e",
    "e+e",
    "a+b+e",
    "a+e+b",
    "a+b+a+e",
    "e+b+a+c",
    "a+aa",
    "a+A",
    "a+nnnnnnnnnnnn",
    "nnnnnnnnnnnn+nnnnnnnnnnnn+nnnnnnnnnnnn+nnnnnnnnnnnn",
];

/// The call is line 3, in the old program and in the new.
#[test]
fn fields() {
    let right = program("a");
    for field in ACCEPTED {
        let text = program(field);
        for calls in all() {
            let answer = (calls.read_old)(&bytes(&text));
            assert_eq!(answer, Answer::success(0), "{}: {field}", calls.name);
            let answer = (calls.read_new)(&bytes(&right), &bytes(&text));
            assert_eq!(answer, Answer::success(0), "{}: {field}", calls.name);
        }
    }
    let refused = MALFORMED.map(|field| (field, 2)).into_iter();
    for (field, number) in refused.chain(UNKNOWN.map(|field| (field, 9))) {
        let wrong = program(field);
        for calls in all() {
            let answer = (calls.read_old)(&bytes(&wrong));
            assert_eq!(answer, Answer::new(number, 3), "{}: {field}", calls.name);
        }
        Job::new(&wrong, &right, "").refused(number, 3);
        Job::new(&right, &wrong, "").refused(number, 3);
        for (stage, text) in [(0, Text::Old), (1, Text::New)] {
            let mut drive = Drive::at_stage(stage, &right, &right, "", "");
            drive.text(text, &wrong);
            drive.refused(READS[stage], number, 3);
        }
    }
    // Only a call has a callee.
    for (this, that, line) in [
        ("N,S,after,", "N,S,after,a+b", 4),
        ("N,S,after,", "N,S,after,+", 4),
        ("N,E,,", "N,E,,+", 2),
        ("N,X,,", "N,X,,a+b", 5),
        ("P,a", "P,a+b", 9),
    ] {
        let wrong = right.replacen(this, that, 1);
        assert_ne!(right, wrong, "{this}");
        Job::new(&wrong, &right, "").refused(2, line);
    }
}

/// 9 is of the first N line that has an unknown name at any place; it is told at
/// the end of the text, so 2 and 8 of later lines go before it.
#[test]
fn first_unknown() {
    let calls = |one: &str, other: &str| {
        format!(
            "P,up;N,E,,;N,C,x,{one};N,C,y,{other};N,X,,;B,0,-,1;B,1,-,2;B,2,-,3;\
             P,a;N,E,,;N,X,,;B,4,-,5;"
        )
    };
    for (one, other, line) in [
        ("a+a+a+no", "no", 3),
        ("no", "a+a+a+no", 3),
        ("a+a+a+a", "a+no", 4),
        ("a", "a+a+a+no", 4),
        ("a+a", "no+a+a", 4),
    ] {
        let text = calls(one, other);
        Job::new(&text, &text, "").refused(9, line);
        // The last procedure has no exit.
        let broken = format!("{text}P,b;N,E,,;");
        Job::new(&broken, &text, "").refused(8, 13);
        let malformed = format!("{text}P,b;N,E,,;N,C,z,a+;");
        Job::new(&malformed, &text, "").refused(2, 15);
    }
    // Callees may stand later in the file, all of them.
    let text = calls("a+up+a", "up+a");
    for calls in all() {
        let answer = (calls.read_old)(&bytes(&text));
        assert_eq!(answer, Answer::success(0), "{}", calls.name);
    }
}

/// Names of 12 bytes, four of them: a field of 51 bytes. A program that keeps
/// all other limits may be longer than 65,536 bytes: 1.
#[test]
fn limits() {
    let name = "n".repeat(12);
    let field = [&name[..]; 4].join("+");
    assert_eq!(field.len(), 51);
    let text = program(&field).replace("P,d", &format!("P,{name}"));
    // The procedure d has the nodes from 13 on; all meet.
    let sheet = "sheet,1;M,0,0;M,1,1;M,2,2;M,3,3;M,13,13;M,14,14;M,15,15;end,7,0,0;";
    Job::new(&text, &text, "").due(sheet, &[]);
    let longer = text.replacen("x,n", "x,nn", 1);
    Job::new(&longer, &text, "").refused(2, 3);
    let fifth = text.replacen("x,n", &format!("x,{name}+n"), 1);
    Job::new(&fifth, &text, "").refused(2, 3);

    let long = |length| {
        let text = long_calls(length).text();
        assert_eq!(text.len(), length);
        String::from_utf8(text).unwrap()
    };
    let (most, over) = (long(65_536), long(65_537));
    // 510 calls of the one procedure there is: the first is never left.
    Job::new(&most, &most, "").due("sheet,1;M,0,0;M,1,1;end,2,0,0;", &[]);
    for calls in all() {
        let job = Job::new(&most, &text, "");
        let written = job.program(&calls, 0);
        assert_eq!(
            written.map(|text| text.replace(';', "\n")),
            Ok(most.clone())
        );
    }
    Job::new(&over, &text, "").refused(1, 0);
    Job::new(&text, &over, "").refused(1, 0);
}

// ---- left to right

/// All fields of up to `most` of the first so many names, as numbers.
fn all_fields(names: usize, most: usize) -> Vec<Vec<usize>> {
    let mut fields: Vec<Vec<usize>> = (0..names).map(|name| vec![name]).collect();
    let mut from = 0;
    for _ in 1..most {
        let longest = fields[from..].to_vec();
        from = fields.len();
        for field in longest {
            fields.extend((0..names).map(|name| [&field[..], &[name]].concat()));
        }
    }
    fields
}

fn joined(field: &[usize]) -> String {
    let names: Vec<&str> = field
        .iter()
        .map(|&name| ["a", "b", "c", "d"][name])
        .collect();
    names.join("+")
}

/// What is done to one of the procedures `a` to `d`.
#[derive(Clone, Copy, PartialEq, Debug)]
enum Done {
    /// The new step has another label: the entries are a pair, and the edge of
    /// the entry is dangerous.
    Relabelled,
    /// In both versions the step leads to itself: entries and steps are pairs,
    /// no edge is dangerous, and there is no way to the exit.
    Endless,
    /// Only in the new one: entries and steps are pairs, and as a step and an
    /// exit are not alike the edge of the step is dangerous.
    EndlessNow,
    /// Only in the old one: the same.
    EndlessBefore,
}

/// The texts of both versions with something done to a procedure.
fn versions(field: &[usize], done: Option<(usize, Done)>) -> [String; 2] {
    let text = program(&joined(field));
    let Some((procedure, done)) = done else {
        return [text.clone(), text];
    };
    let step = 5 + 3 * procedure;
    let endless = text.replace(
        &format!("B,{step},ok,{};", step + 1),
        &format!("B,{step},ok,{step};"),
    );
    assert_ne!(endless, text);
    match done {
        Done::Relabelled => {
            let name = joined(&[procedure]);
            let label = format!("work in {name}");
            [text.clone(), text.replace(&label, &format!("{label} now"))]
        }
        Done::Endless => [endless.clone(), endless],
        Done::EndlessNow => [text, endless],
        Done::EndlessBefore => [endless, text],
    }
}

/// Nodes that meet themselves, edges that are joined with themselves, dangerous
/// edges; old edges after a danger, and new ones that have a probe.
#[derive(Default)]
struct Met {
    nodes: BTreeSet<usize>,
    joined: BTreeSet<usize>,
    dangers: BTreeSet<usize>,
    after_danger: BTreeSet<usize>,
    probes: BTreeSet<usize>,
}

/// The edges after this one of a procedure, itself included, where the procedure
/// `endless` does not return. Behind a step comes the exit, behind that at each
/// place of the procedure the next callee, behind the last the call's edge.
fn after(edge: usize, field: &[usize], endless: Option<usize>) -> BTreeSet<usize> {
    let mut after = BTreeSet::new();
    let mut left = vec![edge];
    while let Some(edge) = left.pop() {
        if !after.insert(edge) {
            continue;
        }
        let procedure = (edge - 3) / 2;
        if edge % 2 == 1 {
            left.push(edge + 1);
        } else if endless != Some(procedure) {
            for place in (0..field.len()).filter(|&place| field[place] == procedure) {
                match field.get(place + 1) {
                    Some(next) => left.push(3 + 2 * next),
                    None => after.extend([1, 2]),
                }
            }
        }
    }
    after
}

impl Met {
    /// Goes through the callees from left to right, and on behind the call if
    /// each of them returns.
    fn of(field: &[usize], done: Option<(usize, Done)>) -> Met {
        let mut met = Met::default();
        met.nodes.extend([0, 1]);
        met.joined.insert(0);
        for &procedure in field {
            let (entry, edge) = (4 + 3 * procedure, 3 + 2 * procedure);
            met.nodes.insert(entry);
            let done = done.filter(|done| done.0 == procedure).map(|done| done.1);
            if done == Some(Done::Relabelled) {
                met.dangers.insert(edge);
                return met;
            }
            met.nodes.insert(entry + 1);
            met.joined.insert(edge);
            match done {
                None => {
                    met.nodes.insert(entry + 2);
                    met.joined.insert(edge + 1);
                }
                Some(Done::Endless) => {
                    met.joined.insert(edge + 1);
                    return met;
                }
                Some(_) => {
                    met.dangers.insert(edge + 1);
                    return met;
                }
            }
        }
        met.nodes.extend([2, 3]);
        met.joined.extend([1, 2]);
        met
    }

    /// The same with what comes after the danger, if there is one. The new
    /// entry or step has the word of the dangerous edge.
    fn with_probes(field: &[usize], done: Option<(usize, Done)>) -> Met {
        let mut met = Met::of(field, done);
        if let (Some(&danger), Some((procedure, done))) = (met.dangers.first(), done) {
            let endless = |version| (done == version).then_some(procedure);
            met.after_danger = after(danger, field, endless(Done::EndlessBefore));
            met.probes = after(danger, field, endless(Done::EndlessNow));
        }
        met
    }

    /// The mark of a repeated test, or of one that is left off.
    fn mark(&self, edge: usize, crossed: bool, repeated: bool) -> char {
        let crossed = crossed && self.joined.contains(&edge);
        let doubt = self.probes.contains(&edge) || crossed && self.after_danger.contains(&edge);
        match (repeated && doubt, crossed) {
            (true, _) => '?',
            (_, true) => '1',
            _ => '0',
        }
    }

    fn due(&self, job: &Job) {
        let rows = ROWS.map(|(_, row)| row);
        let mut sheet = "sheet,1;".to_string();
        for node in &self.nodes {
            sheet += &format!("M,{node},{node};");
        }
        for edge in &self.dangers {
            sheet += &format!("D,{edge};");
        }
        let mut records = Vec::new();
        let mut count = 0;
        for (test, row) in rows.into_iter().enumerate() {
            let crossed = row.matches('1').count();
            let holds = |edge: usize| &row[edge..=edge] == "1";
            let repeated = self.dangers.iter().any(|&edge| holds(edge));
            if repeated {
                sheet += &format!("R,t{test};");
                count += 1;
            }
            let mark = |edge| self.mark(edge, holds(edge), repeated);
            let marks: String = (0..11).map(mark).collect();
            records.push(format!("V,t{test},{crossed},{marks};"));
        }
        let (nodes, dangers) = (self.nodes.len(), self.dangers.len());
        sheet += &format!("end,{nodes},{dangers},{count};");
        let records: Vec<&str> = records.iter().map(String::as_str).collect();
        job.due(&sheet, &records);
        let probes = self.probes.iter().map(|edge| format!("Q,{edge};"));
        job.probed(&probes.collect::<String>());
    }
}

/// Rows of the eleven edges, as they are written and by bits: all edges; the
/// first with those of `a`; the one behind the step behind the call.
const ROWS: [(&str, &str); 3] = [
    ("ffe", "11111111111"),
    ("980", "10011000000"),
    ("200", "00100000000"),
];

fn tests() -> String {
    let line = |(test, row): (usize, (&str, &str))| format!("T,t{test},{};", row.0);
    ROWS.into_iter().enumerate().map(line).collect()
}

/// The same program twice: all that is called is met, and what stands behind
/// the call. It is written back with its bytes.
#[test]
fn each_callee_returns() {
    let fields = all_fields(4, 4);
    assert_eq!(fields.len(), 4 + 16 + 64 + 256);
    for field in fields {
        let [old, new] = versions(&field, None);
        let job = Job::new(&old, &new, &tests());
        Met::with_probes(&field, None).due(&job);
        for calls in all() {
            assert_eq!(job.program(&calls, 0).as_ref(), Ok(&old), "{}", calls.name);
            assert_eq!(job.program(&calls, 1).as_ref(), Ok(&new), "{}", calls.name);
        }
    }
}

/// The exits of one procedure do not meet: where it is called, nothing behind
/// is met, neither later callees nor what stands behind the call.
#[test]
fn one_callee_does_not_return() {
    let all_done = [
        Done::Relabelled,
        Done::Endless,
        Done::EndlessNow,
        Done::EndlessBefore,
    ];
    for field in all_fields(4, 4) {
        for procedure in 0..3 {
            for done in all_done {
                let [old, new] = versions(&field, Some((procedure, done)));
                let job = Job::new(&old, &new, &tests());
                Met::with_probes(&field, Some((procedure, done))).due(&job);
            }
        }
    }
}

/// Two of these by hand, as their lines are due.
#[test]
fn by_hand() {
    // `b` has another label now: its entries are a pair, since the exits of `a`
    // are, and the edge 5 is dangerous; `c` and `d` are not entered. After it come
    // the step of `b`, then `c` and `d`, then what stands behind the call.
    let [old, new] = versions(&[0, 1, 2, 3], Some((1, Done::Relabelled)));
    let job = Job::new(&old, &new, &tests());
    job.probed("Q,1;Q,2;Q,5;Q,6;Q,7;Q,8;Q,9;Q,10;");
    job.due(
        "sheet,1;M,0,0;M,1,1;M,4,4;M,5,5;M,6,6;M,7,7;D,5;R,t0;end,6,1,1;",
        &[
            "V,t0,11,1??11??????;",
            "V,t1,3,10011000000;",
            "V,t2,1,00000000000;",
        ],
    );
    // `b` is endless in both: no danger, and all tests are left off.
    let [old, new] = versions(&[0, 1, 2], Some((1, Done::Endless)));
    Job::new(&old, &new, &tests()).due(
        "sheet,1;M,0,0;M,1,1;M,4,4;M,5,5;M,6,6;M,7,7;M,8,8;end,7,0,0;",
        &[
            "V,t0,11,10011110000;",
            "V,t1,3,10011000000;",
            "V,t2,1,00000000000;",
        ],
    );
}

/// Other names, another order, a name more or less: the calls are not alike,
/// the edge 0 is dangerous. A list that has the pair of calls breaks rule 2.
/// After the new edge 0 come all callees of the new call, then what stands behind
/// it: there a repeated test's mark is `?`, elsewhere no edge has a counterpart.
#[test]
fn other_callees() {
    let fields = [
        "a", "a+a", "a+b", "b+a", "a+c", "b", "a+b+c+d", "a+b+c+a", "d+c+b+a", "b+a+c+d", "c+a",
    ];
    for (at, old) in fields.into_iter().enumerate() {
        for (other, new) in fields.into_iter().enumerate() {
            if at == other {
                continue;
            }
            let job = Job::new(&program(old), &program(new), &tests());
            let called = |edge: usize| new.contains(["a", "b", "c", "d"][(edge - 3) / 2]);
            let probe = |edge: &usize| *edge < 3 || called(*edge);
            let marks = (0..11).map(|edge| if probe(&edge) { '?' } else { '0' });
            let marks: String = marks.collect();
            let records = [
                &format!("V,t0,11,{marks};"),
                &format!("V,t1,3,{marks};"),
                "V,t2,1,00000000000;",
            ];
            job.due("sheet,1;M,0,0;D,0;R,t0;R,t1;end,1,1,2;", &records);
            let probes = (0..11).filter(probe).map(|edge| format!("Q,{edge};"));
            job.probed(&probes.collect::<String>());
            for calls in all() {
                let listed = "sheet,1;M,0,0;M,1,1;D,0;D,1;R,t0;R,t1;end,2,2,2;";
                let answer = job.check(&calls, listed);
                assert_eq!(answer, Answer::new(12, 2), "{}: {old} {new}", calls.name);
            }
        }
    }
}

/// Callees are found by their names: in the new version `b` stands before `a`,
/// and has another number.
#[test]
fn by_name() {
    let old = "P,up;N,E,,;N,C,x,a+b;N,X,,;B,0,-,1;B,1,-,2;\
               P,a;N,E,,;N,X,,;B,3,-,4;P,b;N,E,,;N,S,s,;N,X,,;B,5,-,6;B,6,ok,7;";
    let new = "P,b;N,E,,;N,S,s,;N,X,,;B,0,-,1;B,1,ok,2;P,a;N,E,,;N,X,,;B,3,-,4;\
               P,up;N,E,,;N,C,x,a+b;N,X,,;B,5,-,6;B,6,-,7;";
    // The new one begins with `b`: the entries are a pair, the ends are not.
    Job::new(old, new, "").due("sheet,1;M,0,0;D,0;end,1,1,0;", &[]);
    let new = "P,up;N,E,,;N,C,x,a+b;N,X,,;B,0,-,1;B,1,-,2;\
               P,b;N,E,,;N,S,s,;N,X,,;B,3,-,4;B,4,ok,5;P,a;N,E,,;N,X,,;B,6,-,7;";
    // Old edges: 0 and 1 of `up`, 2 of `a`, 3 and 4 of `b`; the new one has
    // those of `b` first. The test crosses the edges of `up` and `a`.
    let sheet = "sheet,1;M,0,0;M,1,1;M,2,2;M,3,6;M,4,7;M,5,3;M,6,4;M,7,5;end,8,0,0;";
    Job::new(old, new, "T,t,e0;").due(sheet, &["V,t,3,11001;"]);
}

/// A call of the procedure that it stands in. Where there is no way past it,
/// the exits never meet.
#[test]
fn recursion() {
    let text = program("a+up");
    Job::new(&text, &text, &tests()).due(
        "sheet,1;M,0,0;M,1,1;M,4,4;M,5,5;M,6,6;end,5,0,0;",
        &[
            "V,t0,11,10011000000;",
            "V,t1,3,10011000000;",
            "V,t2,1,00000000000;",
        ],
    );
    // `a` is not entered.
    let text = program("up+a");
    Job::new(&text, &text, &tests()).due(
        "sheet,1;M,0,0;M,1,1;end,2,0,0;",
        &[
            "V,t0,11,10000000000;",
            "V,t1,3,10000000000;",
            "V,t2,1,00000000000;",
        ],
    );
}

/// With a way past the call the exits meet there, and so the call goes on.
#[test]
fn recursion_that_returns() {
    let with = |field: &str| {
        format!(
            "P,up;N,E,,;N,S,more,;N,C,again,{field};N,X,,;B,0,-,1;B,1,yes,2;B,1,no,3;B,2,-,3;\
             P,a;N,E,,;N,X,,;B,4,-,5;"
        )
    };
    // Five edges, the row of all is f8.
    for field in ["a+up", "up+a", "up+a+up+a", "a+up+up"] {
        let text = with(field);
        let sheet = "sheet,1;M,0,0;M,1,1;M,2,2;M,3,3;M,4,4;M,5,5;end,6,0,0;";
        Job::new(&text, &text, "T,t,f8;").due(sheet, &["V,t,5,11111;"]);
    }
    // The way past it has another word now: the edge 2 is dangerous, the exits
    // do not meet. The callee before is entered, one behind it is not. The test
    // did not cross the edge 2.
    for (field, sheet, record) in [
        (
            "a+up",
            "sheet,1;M,0,0;M,1,1;M,2,2;M,4,4;M,5,5;D,2;end,5,1,0;",
            "V,t,4,11001;",
        ),
        (
            "up+a",
            "sheet,1;M,0,0;M,1,1;M,2,2;D,2;end,3,1,0;",
            "V,t,4,11000;",
        ),
    ] {
        let old = with(field);
        let new = old.replace("B,1,no,3", "B,1,not,3");
        Job::new(&old, &new, "T,t,d8;").due(sheet, &[record]);
    }
}

/// The exits of every callee before it: those of `b` meet, since another call
/// names it alone, those of `a` do not; so `c` is not entered by the call of all
/// three, at whichever place `b` stands.
#[test]
fn every_callee_before() {
    let with = |field: &str| {
        format!(
            "P,up;N,E,,;N,S,choose,;N,C,one,b;N,C,all,{field};N,X,,;\
             B,0,-,1;B,1,p,2;B,1,q,3;B,1,r,4;B,2,-,4;B,3,-,4;\
             P,a;N,E,,;N,S,s,;N,X,,;B,5,-,6;B,6,ok,6;\
             P,b;N,E,,;N,S,s,;N,X,,;B,8,-,9;B,9,ok,10;\
             P,c;N,E,,;N,S,s,;N,X,,;B,11,-,12;B,12,ok,13;"
        )
    };
    let without = "sheet,1;M,0,0;M,1,1;M,2,2;M,3,3;M,4,4;M,5,5;M,6,6;\
                   M,8,8;M,9,9;M,10,10;end,10,0,0;";
    for field in ["a+b+c", "b+a+c", "a+c+b", "b+b+a+c"] {
        let text = with(field);
        // The edge 5 leaves the call, 10 and 11 are those of `c`.
        Job::new(&text, &text, "T,t,fff;").due(without, &["V,t,12,111110111100;"]);
    }
    // Before `a` it is entered, and the call does not go on all the same.
    let entered = "sheet,1;M,0,0;M,1,1;M,2,2;M,3,3;M,4,4;M,5,5;M,6,6;\
                   M,8,8;M,9,9;M,10,10;M,11,11;M,12,12;M,13,13;end,13,0,0;";
    for field in ["c+a+b", "b+c+a", "c+b+c+a"] {
        let text = with(field);
        let job = Job::new(&text, &text, "T,t,fff;");
        job.due(entered, &["V,t,12,111110111111;"]);
        // The list without `c` lacks entries that it asks for: rule 3.
        for calls in all() {
            let answer = job.check(&calls, without);
            assert_eq!(answer, Answer::new(12, 3), "{}: {field}", calls.name);
        }
    }
    // Listing `c` where it is not entered is allowed.
    let text = with("a+b+c");
    for calls in all() {
        let answer = Job::new(&text, &text, "").check(&calls, entered);
        assert_eq!(answer, Answer::success(0), "{}", calls.name);
    }
}

/// Calls within calls: each procedure calls the next two, and the last is a
/// step.
#[test]
fn deep() {
    let count = 20;
    let program = |end: usize| {
        let mut text = String::new();
        for at in 0..count {
            let node = match at + 2 < count {
                true => format!("C,x,p{}+p{}", at + 1, at + 2),
                false => "S,s,".to_string(),
            };
            let (first, to) = (3 * at, 3 * at + if at + 1 < count { 2 } else { end });
            text += &format!("P,p{at};N,E,,;N,{node};N,X,,;");
            text += &format!("B,{first},-,{};B,{},-,{to};", first + 1, first + 1);
        }
        text
    };
    let sheet = |nodes: &[usize]| {
        let lines: String = nodes
            .iter()
            .map(|node| format!("M,{node},{node};"))
            .collect();
        format!("sheet,1;{lines}end,{},0,0;", nodes.len())
    };
    // The last one returns: all nodes are met.
    let text = program(2);
    let nodes: Vec<usize> = (0..3 * count).collect();
    Job::new(&text, &text, "").due(&sheet(&nodes), &[]);
    // It does not: of the two that it calls each procedure's first one is
    // entered; the last but one returns, the last is entered behind it, and
    // no other exit is met.
    let text = program(1);
    let exits = |node: &usize| node % 3 < 2 || *node == 3 * (count - 2) + 2;
    let nodes: Vec<usize> = (0..3 * count).filter(exits).collect();
    Job::new(&text, &text, "").due(&sheet(&nodes), &[]);
}

/// First procedures of other names are a pair; a call of the old one is judged
/// by the procedures of its name.
#[test]
fn first_procedures_of_other_names() {
    let rest = "N,E,,;N,C,x,a+up;N,X,,;B,0,-,1;B,1,-,2;P,a;N,E,,;N,X,,;B,3,-,4;";
    let old = format!("P,up;{rest}");
    let new = format!("P,top;{rest}P,up;N,E,,;N,X,,;B,5,-,6;");
    // (0,0) by rule 1, (1,1) over the edge 0. The entries and exits of `a` meet,
    // so the entries of `up` are a pair: (0,5). From there the edge 0 leads to a
    // call and to an exit: it is dangerous. The exits of `up` do not meet.
    // The second test did not cross it; its edge 2 has the edge 2 as only
    // counterpart. It is dangerous at the new entry 5, so the start is the edge 3
    // there and not the edge 0; from the exit of `up` the call goes on, by the
    // edge 1. The old edges 0 and 2 lie after the danger, and were crossed.
    let job = Job::new(&old, &new, "T,t,e;T,u,2;");
    job.due(
        "sheet,1;M,0,0;M,0,5;M,1,1;M,3,3;M,4,4;D,0;R,t;end,5,1,1;",
        &["V,t,3,????;", "V,u,1,0010;"],
    );
    job.probed("Q,1;Q,3;");
}

/// P3 with calls: two new calls are partners of the old one.
#[test]
fn two_partners() {
    let rest = |first: usize| {
        let one = |at| format!("N,E,,;N,X,,;B,{at},-,{};", at + 1);
        format!("P,a;{}P,b;{}", one(first), one(first + 2))
    };
    let old = "P,up;N,E,,;N,S,more,;N,C,x,a+b+a;N,X,,;B,0,-,1;B,1,T,2;B,1,F,3;B,2,-,1;";
    let new = "P,up;N,E,,;N,S,more,;N,C,x,a+b+a;N,S,more,;N,C,x,a+b+a;N,X,,;\
               B,0,-,1;B,1,T,2;B,1,F,5;B,2,-,3;B,3,T,4;B,3,F,5;B,4,-,1;";
    let (old, new) = (format!("{old}{}", rest(4)), format!("{new}{}", rest(6)));
    // Old edges 1, 2 and 3 have two counterparts each.
    Job::new(&old, &new, "T,t,fc;T,u,a0;").due(
        "sheet,1;M,0,0;M,1,1;M,1,3;M,2,2;M,2,4;M,3,5;M,4,6;M,5,7;M,6,8;M,7,9;end,10,0,0;",
        &["V,t,6,1??????11;", "V,u,2,10?00?000;"],
    );
}

// ---- sheets of strangers

/// Every list of the entries and exits of `a`, `b` and `c`, for every field of
/// up to four of these names. All edges are listed under D but for that of the
/// call, so rule 3 asks for entries, and rule 4 for what the call leads to once
/// the exits of all callees are listed.
#[test]
fn all_lists() {
    let mut counts = [0; 3];
    for field in all_fields(3, 4) {
        let text = program(&joined(&field));
        let job = Job::new(&text, &text, "");
        for listed in 0..64 {
            let entries = |at: usize| listed >> (2 * at) & 1 == 1;
            let exits = |at: usize| listed >> (2 * at + 1) & 1 == 1;
            for (end, danger) in [(false, false), (true, false), (false, true)] {
                let mut nodes = vec![0, 1];
                nodes.extend(end.then_some(2));
                for at in 0..3 {
                    nodes.extend(entries(at).then_some(4 + 3 * at));
                    nodes.extend(exits(at).then_some(6 + 3 * at));
                }
                let mut sheet = "sheet,1;".to_string();
                for node in &nodes {
                    sheet += &format!("M,{node},{node};");
                }
                let edges = (0..11).filter(|&edge| edge != 1 || danger);
                for edge in edges.clone() {
                    sheet += &format!("D,{edge};");
                }
                sheet += &format!("end,{},{},0;", nodes.len(), edges.count());

                let returned = |before: &[usize]| before.iter().all(|&at| exits(at));
                let mut places = 0..field.len();
                let due = if places.any(|at| returned(&field[..at]) && !entries(field[at])) {
                    Answer::new(12, 3)
                } else if returned(&field) && !end && !danger {
                    Answer::new(12, 4)
                } else {
                    Answer::success(0)
                };
                counts[due.place.saturating_sub(2) as usize] += 1;
                for calls in all() {
                    let answer = job.check(&calls, &sheet);
                    let name = calls.name;
                    assert_eq!(answer, due, "{name}: {} {sheet}", joined(&field));
                }
            }
        }
    }
    // Rule 4 is broken first by the lists with all ends of the named procedures:
    // of 12 fields with one name 16 lists each, of 66 with two 4, of 42 with
    // three 1.
    assert_eq!(counts[2], 12 * 16 + 66 * 4 + 42);
    assert_eq!(counts.iter().sum::<usize>(), 120 * 64 * 3);
}

/// Lists of the whole program that lack one thing.
#[test]
fn lists_that_lack_one_thing() {
    let text = program("a+b");
    let job = Job::new(&text, &text, "");
    let whole = "sheet,1;M,0,0;M,1,1;M,2,2;M,3,3;M,4,4;M,5,5;M,6,6;M,7,7;M,8,8;M,9,9;end,10,0,0;";
    let judged = |sheet: &str, number: u32, place: u32| {
        for calls in all() {
            let answer = job.check(&calls, sheet);
            assert_eq!(
                answer,
                Answer::new(number, place),
                "{}: {sheet}",
                calls.name
            );
        }
    };
    judged(whole, 0, 0);
    let nine = whole.replace("end,10", "end,9");
    // The entries of either callee: rule 3.
    judged(&nine.replace("M,4,4;", ""), 12, 3);
    judged(&nine.replace("M,7,7;", ""), 12, 3);
    // The exits of either: the edge that leads there is neither listed nor has
    // listed ends, rule 4. Rule 3 holds, with the entries of `b` or without
    // where those are the exits of `a`.
    judged(&nine.replace("M,6,6;", ""), 12, 4);
    judged(&nine.replace("M,9,9;", ""), 12, 4);
    let eight = whole.replace("end,10", "end,8").replace("M,6,6;", "");
    judged(&eight.replace("M,7,7;", ""), 12, 4);
    // With that edge under D they pass; what follows need not be listed then.
    judged("sheet,1;M,0,0;M,1,1;M,4,4;M,5,5;D,4;end,4,1,0;", 0, 0);
    judged(
        "sheet,1;M,0,0;M,1,1;M,4,4;M,5,5;M,6,6;M,7,7;M,8,8;D,6;end,7,1,0;",
        0,
        0,
    );
    judged(
        "sheet,1;M,0,0;M,1,1;M,4,4;M,5,5;M,6,6;D,6;end,5,1,0;",
        12,
        3,
    );
}

// ---- the lent job

/// The number that has these procedures as callees in a node's record, by
/// docs/MEMORY.md: digits to the base 256, 1 + each, the first the lowest.
fn number(procedures: &[u64]) -> u64 {
    let from_last = procedures.iter().rev();
    from_last.fold(0, |number, procedure| 256 * number + 1 + procedure)
}

#[test]
fn tables() {
    // `up` is the procedure 0, `a` 1, `b` 2.
    assert_eq!(number(&[0, 1, 2, 1]), 0x02_03_02_01);
    for (field, procedures) in [
        ("up", &[0][..]),
        ("a", &[1]),
        ("a+b", &[1, 2]),
        ("b+a", &[2, 1]),
        ("a+a+up", &[1, 1, 0]),
        ("up+a+b+a", &[0, 1, 2, 1]),
        ("d+d+d+d", &[4, 4, 4, 4]),
    ] {
        let text = program(field);
        let mut drive = Drive::at_stage(2, &text, &text, "", "");
        for nodes in [Table::OldNodes, Table::NewNodes] {
            // The label stands behind `P,up;N,E,,;N,C,`; the step behind the
            // call has no callees.
            let record = drive.numbers(nodes, 4, 4);
            assert_eq!(record, [2, 15, 1, number(procedures)], "{field}");
            assert_eq!(drive.numbers(nodes, 8 + 3, 1), [0], "{field}");
        }
    }
}

/// A node's callees put as another number: 14, at every stage.
#[test]
fn other_numbers() {
    let text = program("a+b+a");
    let was = number(&[1, 2, 1]);
    let callees = 4 + 3;
    let requests = [
        ASK_SHEET,
        ASK_CHECK,
        ASK_PROBES,
        Call::Ask(LABEL, 0, 1),
        Call::Ask(PROGRAM, 0, 0),
    ];
    for (stage, calls) in [
        (1, &[Call::ReadNew][..]),
        (2, &[Call::ReadTests]),
        (3, &requests),
    ] {
        let mut drive = Drive::at_stage(stage, &text, &text, "", "");
        drive.driver.lend(Table::Output, text.len());
        for other in [
            // Another callee at each place; fewer, none, more, five.
            number(&[2, 2, 1]),
            number(&[1, 1, 1]),
            number(&[1, 2, 2]),
            number(&[1, 2]),
            number(&[1]),
            0,
            number(&[1, 2, 1, 1]),
            number(&[1, 2, 1, 1, 1]),
            // Procedures that are not there, a digit 0 before another.
            number(&[1, 2, 5]),
            number(&[1, 254, 1]),
            0x02_00_02,
            0x02_03_00,
            was + (1 << 32),
            u64::MAX,
        ] {
            assert_ne!(other, was);
            drive.driver.put(Table::OldNodes, callees, other);
            drive.all_refused(calls, 14);
        }
        drive.driver.put(Table::OldNodes, callees, was);
        // Nor has a node of another kind callees.
        drive.driver.put(Table::OldNodes, 8 + 3, was);
        drive.all_refused(calls, 14);
        drive.driver.put(Table::OldNodes, 8 + 3, 0);
        match calls {
            [read] => drive.reads(*read),
            _ => drive.writes(Call::Ask(PROGRAM, 0, 0), &text),
        }
    }
}

/// At stage 3, both versions this call.
fn lent(field: &str) -> Drive {
    let text = program(field);
    let mut drive = Drive::at_stage(3, &text, &text, &tests(), "");
    drive.driver.lend(Table::Output, 512);
    drive
}

/// All requests of stage 3 for a call of several names.
#[test]
fn requests() {
    let mut drive = lent("a+b+a");
    let sheet = "sheet,1;M,0,0;M,1,1;M,2,2;M,3,3;M,4,4;M,5,5;M,6,6;M,7,7;M,8,8;M,9,9;end,10,0,0;";
    drive.serves(sheet, "V,t0,11,11111110000;", "", "x");
    drive.writes(Call::Ask(RECORD, 2, 0), "V,t2,1,00100000000;");
    for side in 0..2 {
        drive.writes(Call::Ask(PROGRAM, side, 0), &program("a+b+a"));
    }
    drive.text(
        Text::Input,
        &sheet.replace("M,7,7;", "").replace("end,10", "end,9"),
    );
    drive.refused(ASK_CHECK, 12, 3);
    drive.text(
        Text::Input,
        &sheet.replace("M,9,9;", "").replace("end,10", "end,9"),
    );
    drive.refused(ASK_CHECK, 12, 4);
}

/// A text with the names in another order leaves another number there: 14.
/// One with other names for two procedures leaves the same tables, and the
/// calls go by the text that is lent: the callee fields are not the same.
#[test]
fn another_text_is_lent() {
    let mut drive = lent("a+b");
    let asked = [
        ASK_SHEET,
        ASK_CHECK,
        Call::Ask(LABEL, 1, 1),
        Call::Ask(PROGRAM, 1, 0),
    ];
    for field in ["b+a", "a+a", "a+c", "a+e", "a_b", "a-b", "+ab", "ab+"] {
        drive.text(Text::New, &program(field));
        drive.all_refused(&asked, 14);
    }
    let renamed = program("z+b").replace("P,a", "P,z");
    drive.text(Text::New, &renamed);
    drive.writes(ASK_SHEET, "sheet,1;M,0,0;D,0;R,t0;R,t1;end,1,1,2;");
    drive.writes(Call::Ask(PROGRAM, 1, 0), &renamed);
    // The names exchanged, in the call too, which calls the same procedures.
    let exchanged = program("b+a").replace("P,a", "P,?").replace("P,b", "P,a");
    let exchanged = exchanged.replace("P,?", "P,b");
    drive.text(Text::New, &exchanged);
    drive.writes(ASK_SHEET, "sheet,1;M,0,0;D,0;R,t0;R,t1;end,1,1,2;");
    drive.writes(Call::Ask(PROGRAM, 1, 0), &exchanged);
}

/// A program is written back from its tables and the callee field with all its
/// bytes, each `+` too: another byte in its place is 14.
#[test]
fn written_back() {
    let text = program("a+up+a+b");
    for side in 0..2 {
        let ask = Call::Ask(PROGRAM, side, 0);
        let spoilt = [Text::Old, Text::New][side];
        let mut drive = lent("a+up+a+b");
        let place = text.find("a+up").unwrap();
        for plus in [1, 4, 6] {
            for byte in [b',', b'\n', b' ', b'-', b'_', b'a', 0, 255] {
                let mut lent = bytes(&text);
                assert_eq!(lent[place + plus], b'+');
                lent[place + plus] = byte;
                drive.driver.lend_text(spoilt, &lent);
                drive.refused(ask, 14, 0);
            }
        }
        // Commas and line ends may be any bytes.
        for joint in [",", "+", "\0"] {
            let lent = text.replace([',', ';'], joint);
            drive.driver.lend_text(spoilt, lent.as_bytes());
            drive.writes(ask, &text);
        }
        // Text and tables of another call, as long.
        let other = program("up+a+b+a");
        drive.text(spoilt, &other);
        drive.refused(ask, 14, 0);
        let nodes = [Table::OldNodes, Table::NewNodes][side];
        drive.driver.put(nodes, 4 + 3, number(&[0, 1, 2, 1]));
        drive.writes(ask, &other);
    }
}
