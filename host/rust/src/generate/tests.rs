//! Random test files.

use super::model::{put_line, row, Bytes, Program};
use super::random::Random;

const NAMES: [&[u8]; 14] = [
    b"t1",
    b"t2",
    b"t",
    b"T",
    b"main",
    b"up",
    b"_",
    b"0",
    b"00",
    b"long",
    b"twelve_bytes",
    b"t3",
    b"t4",
    b"t5",
];

/// The edges that a random run of the program crosses, in so many steps and
/// with so many calls open at most.
fn walk(random: &mut Random, program: &Program, steps: usize, deep: usize) -> Vec<bool> {
    let mut crossed = vec![false; program.edges()];
    let mut first = vec![0; program.procedures.len()];
    for at in 1..first.len() {
        first[at] = first[at - 1] + program.procedures[at - 1].edges.len();
    }
    // Each open call: where it stands, and how many of its callees were entered.
    let mut calls: Vec<(usize, usize, usize)> = Vec::new();
    let (mut own, mut node) = (0, program.procedures[0].find(b'E'));
    for _ in 0..steps {
        let kind = program.procedures[own].nodes[node].kind;
        if kind == b'C' {
            if calls.len() == deep {
                return crossed;
            }
            calls.push((own, node, 0));
        }
        if matches!(kind, b'C' | b'X') {
            let Some((caller, call, entered)) = calls.pop() else {
                return crossed;
            };
            let names = program.procedures[caller].nodes[call].callees();
            if let Some(name) = names.get(entered) {
                let Some(callee) = program.find(name) else {
                    return crossed;
                };
                calls.push((caller, call, entered + 1));
                (own, node) = (callee, program.procedures[callee].find(b'E'));
                continue;
            }
            // After the last callee the call's edge is crossed.
            (own, node) = (caller, call);
        }
        let procedure = &program.procedures[own];
        let leaving: Vec<usize> = (0..procedure.edges.len())
            .filter(|&edge| procedure.edges[edge].from == node)
            .collect();
        if leaving.is_empty() {
            return crossed;
        }
        let edge = *random.pick(&leaving);
        crossed[first[own] + edge] = true;
        node = procedure.edges[edge].to;
    }
    crossed
}

/// `count` tests with names of 12 bytes, each with the edges that a random run
/// of up to so many steps crosses; runs that cross fewer than so many are left
/// out.
pub fn runs(
    random: &mut Random,
    program: &Program,
    count: usize,
    steps: usize,
    fewest: usize,
) -> Bytes {
    let mut text = Bytes::new();
    let mut test = 0;
    while test < count {
        let crossed = walk(random, program, steps, usize::MAX);
        if crossed.iter().filter(|&&bit| bit).count() < fewest {
            continue;
        }
        let name = format!("test_{test:0>7}").into_bytes();
        put_line(&mut text, &[b"T", &name, &row(&crossed)]);
        test += 1;
    }
    text
}

/// A test file whose lines are right but for one in some files. Rows hold
/// whole runs, or any edges; of some the dangerous edges are taken away.
pub fn tests(random: &mut Random, old: &Program, dangers: &[usize]) -> Bytes {
    let mut names = NAMES.to_vec();
    random.shuffle(&mut names);
    let count = match random.below(12) {
        0 => 0,
        1..=8 => random.within(1, 4),
        _ => random.within(3, names.len()),
    };
    let wrong = random.one_in(14).then(|| random.below(count.max(1)));
    let mut text = Bytes::new();
    for (at, name) in names.iter().take(count).enumerate() {
        let mut crossed = vec![false; old.edges()];
        match random.below(10) {
            0..=5 => crossed = walk(random, old, 80, 8),
            6 => crossed.fill(true),
            7 => (),
            _ => crossed.fill_with(|| random.percent(40)),
        }
        if random.percent(50) {
            for &edge in dangers.iter().filter(|&&edge| edge < old.edges()) {
                crossed[edge] = false;
            }
        }
        let mut field = row(&crossed);
        if wrong == Some(at) {
            break_row(random, &mut field, crossed.len());
        }
        put_line(&mut text, &[b"T", name, &field]);
    }
    text
}

/// Makes a row wrong: its length, a digit or a spare bit.
fn break_row(random: &mut Random, field: &mut Bytes, edges: usize) {
    match random.below(8) {
        0 => field.push(b'0'),
        1 => {
            field.pop();
        }
        2 => field.clear(),
        3 => field.make_ascii_uppercase(),
        4 if !edges.is_multiple_of(4) => {
            let spare = random.below(4 - edges % 4);
            if let Some(last) = field.last_mut() {
                let value = (*last as char).to_digit(16).unwrap_or(0) as usize | 1 << spare;
                *last = b"0123456789abcdef"[value];
            }
        }
        5 => field.extend(std::iter::repeat_n(b'f', random.within(1, 70))),
        _ => {
            if !field.is_empty() {
                let at = random.below(field.len());
                field[at] = *random.pick(b"ABFGg/:`@ \x00\x7f\x80\xff\x0d,");
            }
        }
    }
}
