//! Jobs at the limits and one above them.

use super::labels::{format_some, formatted, labelled, near, LABEL_LIMIT};
use super::model::{put_line, row, Bytes, Procedure, Program};
use super::random::Random;

/// Entry, `count` equal steps in a ring, exit. Two rings whose counts have no
/// common factor give all pairs of steps, and two more.
pub fn ring(count: usize) -> Program {
    let mut made = Procedure::new(b"ring");
    let entry = made.node(b'E', b"", b"");
    for _ in 0..count {
        made.node(b'S', b"turn", b"");
    }
    let exit = made.node(b'X', b"", b"");
    made.edge(entry, b"-", 1);
    for at in 0..count {
        made.edge(1 + at, b"go", 1 + (at + 1) % count);
    }
    for at in 0..count {
        made.edge(1 + at, b"out", exit);
    }
    Program {
        procedures: vec![made],
    }
}

fn word(at: usize) -> [u8; 8] {
    let mut word = *b"word_no_";
    word[7] = b'0' + at as u8;
    word
}

/// A label of 60 bytes.
fn label(number: usize) -> Bytes {
    format!("{number:0>60}").into_bytes()
}

/// Puts several runs of blanks into each label of 60 bytes, so that there are
/// some to move; labels that differ at their end stay such.
pub fn put_blanks(program: &mut Program) {
    for node in labelled(program) {
        for at in [3, 8, 9, 17, 21, 22, 23, 30, 38, 39, 47] {
            node.label[at] = b' ';
        }
    }
}

/// A ring whose steps have one label, its blanks moved in each.
pub fn formatted_ring(random: &mut Random, count: usize, label: &[u8]) -> Program {
    let mut made = ring(count);
    for node in labelled(&mut made) {
        node.label = formatted(random, label);
    }
    made
}

/// One procedure of `nodes` nodes and `edges` edges, its steps in groups of
/// `alike` equal labels.
pub fn wide(random: &mut Random, nodes: usize, edges: usize, alike: usize) -> Program {
    let mut made = Procedure::new(b"twelve_bytes");
    made.node(b'E', b"", b"");
    for step in 0..nodes - 2 {
        made.node(b'S', &label(step / alike), b"");
    }
    let exit = made.node(b'X', b"", b"");
    made.edge(0, b"-", 1);
    let mut leaving = vec![1; nodes];
    for from in 1..exit {
        made.edge(from, &word(0), from + 1);
    }
    while made.edges.len() < edges && nodes > 2 {
        let from = random.within(1, exit - 1);
        if leaving[from] < 8 {
            made.edge(from, &word(leaving[from]), random.within(1, exit));
            leaving[from] += 1;
        }
    }
    Program {
        procedures: vec![made],
    }
}

/// 512 nodes and 1,024 edges, the steps in groups of `alike` equal labels. A
/// word leads from every step of a group to some step of one other, so two
/// such programs pair nearly all steps of each group.
pub fn groups(random: &mut Random, alike: usize) -> Program {
    let mut made = Procedure::new(b"twelve_bytes");
    made.node(b'E', b"", b"");
    let steps = 510;
    for step in 0..steps {
        made.node(b'S', &label(step / alike), b"");
    }
    let exit = made.node(b'X', b"", b"");
    made.edge(0, b"-", 1);
    let count = steps.div_ceil(alike);
    let mut some_of = |group: usize| {
        let last = ((group + 1) * alike).min(steps);
        random.within(group * alike + 1, last)
    };
    for step in 0..steps {
        let group = step / alike;
        let next = match group + 1 == count {
            true => exit,
            false => some_of(group + 1),
        };
        made.edge(step + 1, b"next", next);
        made.edge(step + 1, b"back", some_of((7 * group + 3) % count));
    }
    for step in 1..=3 {
        made.edge(step, b"more", exit);
    }
    Program {
        procedures: vec![made],
    }
}

/// The steps of a group of `switches`, all of one label.
const GROUP: usize = 8;

/// 512 nodes and 1,024 edges, with a branch `*` on each step, or on nearly all.
/// The steps are in groups, and all branches of a group lead to the next one, each
/// `turn` places further there. Steps of nine groups have seven names beside `*`,
/// nine other steps one; these begin with a letter. If so told, every second group
/// without names has one for `*`. So two such programs whose letters differ pair
/// nearly all steps of each group, 3,958 pairs, and take `*` for the other's names.
pub fn switches(letter: u8, turn: usize, named: bool) -> Program {
    let mut made = Procedure::new(b"twelve_bytes");
    made.node(b'E', b"", b"");
    let steps = 510;
    for step in 0..steps {
        made.node(b'S', &label(step / GROUP), b"");
    }
    let exit = made.node(b'X', b"", b"");
    made.edge(0, b"-", 1);
    for step in 0..steps {
        let group = step / GROUP;
        let next = (group + 1) * GROUP;
        let to = |place: usize| match steps.saturating_sub(next).min(GROUP) {
            0 => exit,
            size => 1 + next + (step % GROUP + place + turn) % size,
        };
        let names = match step {
            _ if group == 1 || group.is_multiple_of(8) => 7,
            16..=24 => 1,
            _ => 0,
        };
        for at in 0..names {
            made.edge(step + 1, &[letter, b'0' + at as u8], to(at));
        }
        let one = named && names == 0 && !group.is_multiple_of(2);
        made.edge(step + 1, if one { b"next" } else { b"*" }, to(7));
    }
    Program {
        procedures: vec![made],
    }
}

/// `count` procedures of 8 nodes and 16 edges, each calling the next one.
pub fn deep(count: usize) -> Program {
    let name = |at: usize| format!("procedure_{at:0>2}").into_bytes();
    let procedures = (0..count)
        .map(|at| {
            let mut made = Procedure::new(&name(at));
            made.node(b'E', b"", b"");
            for inner in 1..7 {
                if inner == 2 && at + 1 < count {
                    made.node(b'C', &label(inner), &name(at + 1));
                } else {
                    made.node(b'S', &label(10 * at + inner), b"");
                }
            }
            made.node(b'X', b"", b"");
            for node in 0..7 {
                let step = made.nodes[node].kind == b'S';
                made.edge(node, if step { b"next" } else { b"-" }, node + 1);
            }
            let steps: Vec<usize> = (1..7).filter(|&n| made.nodes[n].kind == b'S').collect();
            for extra in 0..9 {
                let from = steps[extra % steps.len()];
                made.edge(from, &word(extra), 1 + (from + extra) % 7);
            }
            made
        })
        .collect();
    Program { procedures }
}

/// 64 procedures of 8 nodes and 16 edges: a ring of three equal steps, with an
/// equal call behind each that names the next four procedures; a step in its
/// place where there are not so many. From each step a word leads to the one
/// `on` places further in the ring, so for two programs that differ in this
/// each step has three partners, and each call.
pub fn fours(on: usize) -> Program {
    let name = |at: usize| format!("procedure_{at:0>2}").into_bytes();
    let procedures = (0..64)
        .map(|at| {
            let mut made = Procedure::new(&name(at));
            let entry = made.node(b'E', b"", b"");
            let names: Vec<Bytes> = (at + 1..64).take(4).map(name).collect();
            let calls = names.len() == 4;
            for _ in 0..3 {
                made.node(b'S', &label(at), b"");
                match calls {
                    true => made.node(b'C', &label(100 + at), &names.join(&b'+')),
                    false => made.node(b'S', &label(100 + at), b""),
                };
            }
            let exit = made.node(b'X', b"", b"");
            made.edge(entry, b"-", 1);
            // The steps are the nodes 1, 3 and 5.
            let step = |place: usize| 1 + 2 * (place % 3);
            for place in 0..3 {
                made.edge(step(place), b"go", step(place) + 1);
                made.edge(step(place) + 1, b"-", step(place + 1));
                made.edge(step(place), b"skip", step(place + on));
                made.edge(step(place), b"stay", step(place));
                made.edge(step(place), b"out", exit);
            }
            made
        })
        .collect();
    Program { procedures }
}

/// A program of this length, all its lines right: 510 calls of four names, one
/// after another.
pub fn long_calls(length: usize) -> Program {
    let name = b"twelve_bytes".to_vec();
    let mut made = Procedure::new(&name);
    made.node(b'E', b"", b"");
    for call in 0..510 {
        made.node(b'C', &label(call), &vec![name.clone(); 4].join(&b'+'));
    }
    made.node(b'X', b"", b"");
    for from in 0..511 {
        made.edge(from, b"-", from + 1);
    }
    let mut made = Program {
        procedures: vec![made],
    };
    // Labels are made shorter from the first on, to one byte each.
    let mut over = made.text().len() - length;
    for node in labelled(&mut made) {
        let cut = over.min(LABEL_LIMIT - 1);
        node.label.drain(..cut);
        over -= cut;
    }
    made
}

/// `count` procedures of an entry and an exit; the first also calls the last.
fn many(count: usize) -> Program {
    let name = |at: usize| format!("p{at}").into_bytes();
    let procedures = (0..count)
        .map(|at| {
            let mut made = Procedure::new(&name(at));
            made.node(b'E', b"", b"");
            if at == 0 {
                made.node(b'C', b"call", &name(count - 1));
                made.edge(1, b"-", 2);
            }
            let exit = made.node(b'X', b"", b"");
            made.edge(0, b"-", exit.min(1));
            made
        })
        .collect();
    Program { procedures }
}

/// `count` tests with names of 12 bytes and rows of any edges.
pub fn many_tests(random: &mut Random, count: usize, edges: usize, dense: usize) -> Bytes {
    let mut text = Bytes::new();
    for test in 0..count {
        let crossed: Vec<bool> = (0..edges).map(|_| random.percent(dense)).collect();
        let name = format!("test_{test:0>7}").into_bytes();
        put_line(&mut text, &[b"T", &name, &row(&crossed)]);
    }
    text
}

/// A procedure with one step that has `count` edges.
fn fan(count: usize) -> Procedure {
    let mut made = Procedure::new(b"fan");
    made.node(b'E', b"", b"");
    made.node(b'S', b"choose", b"");
    made.node(b'X', b"", b"");
    made.edge(0, b"-", 1);
    for at in 0..count {
        made.edge(1, &word(at), 1 + at % 2);
    }
    made
}

/// Three texts, with a fourth where the limit is a sheet's.
#[derive(Default, Clone)]
pub struct Texts {
    pub old: Bytes,
    pub new: Bytes,
    pub tests: Bytes,
    pub sheet: Option<Bytes>,
}

impl Texts {
    fn both(old: &Program, new: &Program) -> Texts {
        Texts {
            old: old.text(),
            new: new.text(),
            ..Texts::default()
        }
    }

    /// A changed program as old or new version, or as both.
    fn one_of(random: &mut Random, usual: &Program, changed: Bytes) -> Texts {
        let mut texts = Texts::both(usual, usual);
        match random.below(3) {
            0 => texts.old = changed,
            1 => texts.new = changed,
            _ => {
                texts.old = changed.clone();
                texts.new = changed;
            }
        }
        texts
    }
}

/// A job with many lines or pairs.
pub fn heavy(random: &mut Random) -> Texts {
    let over = random.below(2);
    match random.below(11) {
        0 => {
            let mut program = many(64 + over);
            match random.below(4) {
                // The last P line has a name twice, or follows a broken one.
                0 if over == 1 => program.procedures[64].name = b"p9".to_vec(),
                1 => program.procedures[63].edges.clear(),
                _ => (),
            }
            Texts::one_of(random, &many(64), program.text())
        }
        1 => {
            let edges = random.within(600, 1_024);
            let mut program = wide(random, 512 + over, edges, 1);
            let usual = wide(random, 512, 700, 2);
            if random.one_in(3) {
                // The last node stands after an edge: 3 comes before 4.
                let mut text = program.text();
                text.extend(b"N,S,late,\n");
                return Texts::one_of(random, &usual, text);
            }
            if random.one_in(3) {
                program.procedures[0].nodes[511].label = vec![b'x'; 61];
            }
            Texts::one_of(random, &usual, program.text())
        }
        2 => {
            let program = wide(random, 300, 1_024, 1);
            let mut text = program.text();
            if over == 1 {
                text.extend(*random.pick(&[
                    &b"B,1,other,2\n"[..],
                    b"B,999,other,2\n",
                    b"B,1,word_no_0,2\n",
                    b"B,01,o,2\n",
                    b"N,S,a,\n",
                ]));
            }
            Texts::one_of(random, &program, text)
        }
        3 => {
            let old = fan(8);
            let program = Program {
                procedures: vec![old],
            };
            let mut texts = Texts::both(&program, &program);
            texts.tests = many_tests(random, 200 + over, 9, 40);
            if over == 1 && random.percent(50) {
                texts.tests.truncate(texts.tests.len() - 17);
                texts.tests.extend(*random.pick(&[
                    &b"T,test_0000000,000\n"[..],
                    b"T,test_0000200,zz\n",
                    b"T,a b,000\n",
                ]));
            }
            texts
        }
        4 => {
            let (one, other) = *random.pick(&[
                (46, 89),
                (89, 46),
                (63, 65),
                (65, 63),
                (45, 91),
                (64, 64),
                (2, 510),
                (510, 510),
                (7, 509),
            ]);
            let (mut old, mut new) = (ring(one), ring(other));
            if random.percent(40) {
                new = formatted_ring(random, other, b"turn");
            }
            if random.percent(30) {
                old = formatted_ring(random, one, b"turn the drum");
                new = formatted_ring(random, other, b"turn the drum");
            }
            if random.one_in(6) {
                let label = &mut new.procedures[0].nodes[other].label;
                *label = near(random, label);
            }
            let mut texts = Texts::both(&old, &new);
            let count = random.below(4);
            texts.tests = many_tests(random, count, old.edges(), 50);
            texts
        }
        5 => {
            let alike = *random.pick(&[1, 2, 7, 8, 9]);
            let (mut old, mut new) = match random.percent(50) {
                true => (groups(random, alike), groups(random, alike)),
                false => {
                    let old = wide(random, 512, 1_024, alike);
                    (old.clone(), old)
                }
            };
            if random.percent(50) {
                put_blanks(&mut old);
                put_blanks(&mut new);
                format_some(random, &mut new, 100);
            }
            for _ in 0..random.below(6) {
                let edge = random.below(1_024);
                new.procedures[0].edges[edge].to = random.within(1, 511);
            }
            let mut texts = Texts::both(&old, &new);
            let dense = *random.pick(&[0, 1, 60, 100]);
            texts.tests = many_tests(random, 200, 1_024, dense);
            texts
        }
        6 => {
            let mut old = deep(64);
            let mut new = old.clone();
            if random.percent(50) {
                new.procedures[1..].reverse();
            }
            if random.percent(50) {
                let at = random.below(64);
                new.procedures[at].nodes[1].label[0] = b'x';
            }
            if random.percent(50) {
                put_blanks(&mut old);
                put_blanks(&mut new);
                format_some(random, &mut new, 100);
            }
            let mut texts = Texts::both(&old, &new);
            texts.tests = many_tests(random, 20, 1_024, 30);
            texts
        }
        7 => many_pairs(random),
        8 => many_callees(random),
        9 => many_switches(random),
        _ => long_text(random),
    }
}

/// A `*` on each step, some branches led elsewhere.
fn many_switches(random: &mut Random) -> Texts {
    let named = random.percent(50);
    let old = switches(b'w', random.below(GROUP), named);
    let letter = *random.pick(b"vw");
    let mut new = switches(letter, random.below(GROUP), random.percent(20));
    for _ in 0..random.below(4) {
        let edge = random.within(1, 1_023);
        new.procedures[0].edges[edge].to = random.within(1, 511);
    }
    let mut texts = Texts::both(&old, &new);
    let dense = *random.pick(&[0, 1, 60]);
    texts.tests = many_tests(random, 20, 1_024, dense);
    texts
}

/// 64 procedures whose calls name four each. In some new ones a procedure does
/// not return, or calls have their names in another order.
fn many_callees(random: &mut Random) -> Texts {
    let old = fours(1);
    let mut new = fours(random.within(1, 2));
    if random.percent(30) {
        new.procedures[1..].reverse();
    }
    let at = random.within(1, 63);
    match random.below(4) {
        0 => {
            // From its first step on nothing is alike.
            new.procedures[at].nodes[1].label[0] = b'x';
        }
        1 => {
            for node in labelled(&mut new).filter(|node| node.kind == b'C').take(9) {
                let mut names = node.callees();
                names.rotate_left(1);
                node.call(&names);
            }
        }
        _ => (),
    }
    let mut texts = Texts::both(&old, &new);
    texts.tests = many_tests(random, 20, 1_024, 3);
    texts
}

/// Sheets of 4,096 and 4,097 M lines for rings with 4,097 pairs.
pub fn many_pairs(random: &mut Random) -> Texts {
    let (old, mut new) = (ring(63), ring(65));
    if random.percent(40) {
        new = formatted_ring(random, 65, b"turn");
    }
    let mut texts = Texts::both(&old, &new);
    let mut pairs = vec![(0, 0)];
    pairs.extend((1..=63).flat_map(|n| (1..=65).map(move |m| (n, m))));
    pairs.push((64, 66));
    let mut dangers: Vec<usize> = Vec::new();
    match random.below(8) {
        0 => (),
        1..=4 => {
            // The exits are not listed, so every edge there is dangerous.
            pairs.retain(|&pair| pair != (64, 66));
            dangers.extend(64..127);
        }
        5 => pairs.retain(|&pair| pair != (64, 66)),
        6 => {
            pairs.remove(random.below(pairs.len()));
        }
        _ => {
            pairs.truncate(4_096);
            dangers.push(5);
        }
    }
    let mut sheet = b"sheet,1\n".to_vec();
    for (n, m) in &pairs {
        sheet.extend(format!("M,{n},{m}\n").bytes());
    }
    for edge in &dangers {
        sheet.extend(format!("D,{edge}\n").bytes());
    }
    if random.one_in(3) {
        sheet.extend(*random.pick(&[&b"M,0,0\n"[..], b"M,64,66\n", b"M,99999,0\n"]));
    }
    let end = format!("end,{},{},0\n", pairs.len(), dangers.len());
    sheet.extend(end.bytes());
    if random.one_in(3) {
        sheet.extend(*random.pick(&[&b"M,0,0\n"[..], b"M,0\n", b"M,9,99999\n"]));
    }
    texts.sheet = Some(sheet);
    texts
}

/// One text of 65,536 bytes or one more.
fn long_text(random: &mut Random) -> Texts {
    let usual = Program {
        procedures: vec![fan(4)],
    };
    if random.percent(30) {
        let long = long_calls(65_536 + random.below(2));
        return Texts::one_of(random, &usual, long.text());
    }
    let mut texts = Texts::both(&usual, &usual);
    texts.tests = many_tests(random, 3, 5, 50);
    let mut sheet = b"sheet,1\nM,0,0\nM,1,1\nM,2,2\n".to_vec();
    let length = 65_536 + random.below(2);
    let style = random.below(4);
    let which = random.below(4);
    let (text, front, back): (&mut Bytes, &[u8], &[u8]) = match which {
        0 => (&mut texts.old, b"B,1,w,", b"\n"),
        1 => (&mut texts.new, b"B,1,w,", b"\n"),
        2 => (&mut texts.tests, b"T,long,", b"\n"),
        _ => (&mut sheet, b"M,2,", b"\n"),
    };
    let padding = |taken: usize| vec![b'3'; length.saturating_sub(taken)];
    match style {
        0 | 1 => {
            let fill = padding(text.len() + front.len() + back.len());
            text.extend([front, &fill, back].concat());
        }
        2 => {
            let fill = padding(text.len());
            text.extend(fill);
        }
        _ => {
            let fill = padding(text.len() + 1);
            text.splice(0..0, [&fill[..], b"\n"].concat());
        }
    }
    if which == 3 {
        texts.sheet = Some(sheet);
    }
    texts
}

/// A small job at a limit of one line: names, labels, words, numbers, edges
/// of one step.
pub fn light(random: &mut Random) -> Texts {
    let over = random.below(2);
    let mut program = Program {
        procedures: vec![fan(3), many(1).procedures.remove(0)],
    };
    let usual = program.clone();
    let fan_of = &mut program.procedures[0];
    match random.below(7) {
        0 => {
            let count = 8 + over;
            *fan_of = fan(count);
            if random.one_in(3) {
                fan_of.edges[count].word = fan_of.edges[2].word.clone();
            }
        }
        1 => fan_of.name = vec![b'n'; 12 + over],
        2 => fan_of.nodes[1].label = long_label(random, LABEL_LIMIT + over),
        3 => {
            fan_of.edges[1].word = vec![b'w'; 8 + over];
        }
        4 => {
            let name = vec![b'c'; 12];
            let mut called = vec![name.clone(); random.within(1, 4)];
            let at = random.below(called.len());
            match random.below(3) {
                0 => called[at].extend(vec![b'c'; over]),
                1 if over == 1 => called = vec![name.clone(); 5],
                _ => (),
            }
            program.procedures[1].name = name;
            program.procedures[1].nodes[1].call(&called);
        }
        5 => {
            let mut texts = Texts::both(&usual, &usual);
            let edges = usual.edges();
            let name = vec![b't'; 12 + over];
            put_line(&mut texts.tests, &[b"T", &name, &row(&vec![true; edges])]);
            let last = format!("R,{}\nend,1,1,1\n", "t".repeat(12 + random.below(2)));
            texts.sheet = Some([b"sheet,1\nM,0,0\nD,0\n", last.as_bytes()].concat());
            return texts;
        }
        _ => return long_number(random, &usual),
    }
    Texts::one_of(random, &usual, program.text())
}

/// A label of this length. Without spare blanks it may be the usual one, or
/// have no bytes: it is the bytes given that are counted.
fn long_label(random: &mut Random, length: usize) -> Bytes {
    let mut label = vec![b' '; length];
    let usual = b"choose";
    match random.below(4) {
        0 => label.fill(b'l'),
        1 => (),
        2 => {
            let at = random.below(length - usual.len() + 1);
            label[at..at + usual.len()].copy_from_slice(usual);
        }
        _ => {
            label.fill(b'l');
            let at = random.below(length);
            label[at] = b' ';
        }
    }
    label
}

/// A number of any length in some field.
fn long_number(random: &mut Random, usual: &Program) -> Texts {
    let mut texts = Texts::both(usual, usual);
    let digits = random.within(1, 60);
    let mut number: Bytes = (0..digits).map(|_| b'0' + random.below(10) as u8).collect();
    match random.below(4) {
        // Small numbers that are right, too large by a power of two.
        0 => {
            let power = *random.pick(&[8, 16, 32, 64, 100]);
            let value = (1u128 << power) + random.below(4) as u128;
            number = value.to_string().into_bytes();
        }
        1 => number = [b"1".to_vec(), vec![b'0'; digits]].concat(),
        _ => (),
    }
    let mut line = Bytes::new();
    match random.below(5) {
        0 => put_line(&mut line, &[b"B", &number, b"w", b"1"]),
        1 => put_line(&mut line, &[b"B", b"4", b"w", &number]),
        2 => put_line(&mut line, &[b"M", &number, b"0"]),
        3 => put_line(&mut line, &[b"D", &number]),
        _ => put_line(&mut line, &[b"end", b"0", &number, b"0"]),
    }
    if line[0] == b'B' {
        let text = [usual.text(), line].concat();
        return Texts::one_of(random, usual, text);
    }
    texts.sheet = Some([b"sheet,1\n", &line[..]].concat());
    texts
}
