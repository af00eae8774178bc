//! Programs whose calls name several procedures, and their new versions.

use super::labels::LABEL_LIMIT;
use super::model::{Bytes, Procedure, Program};
use super::programs::{self, any_node, double_nodes, never_return, reformat, Pools};
use super::random::Random;

/// An old program and a new one.
pub fn versions(random: &mut Random, pools: &Pools) -> (Program, Program) {
    let count = random.within(3, 6);
    let names = programs::names(random, count);
    let procedures = (0..count).map(|own| procedure(random, pools, &names, own));
    let mut old = Program {
        procedures: procedures.collect(),
    };
    if random.percent(25) {
        let at = random.within(1, count - 1);
        never_return(random, &mut old.procedures[at]);
    }
    let mut new = old.clone();
    double_nodes(random, &mut new);
    for _ in 0..*random.pick(&[0, 1, 1, 1, 2, 3]) {
        change(random, pools, &mut new, &names);
    }
    reformat(random, &mut new);
    (old, new)
}

/// A few steps and calls one after another. A step has a word to the next node,
/// and mostly one to another, so that calls are passed by, too.
fn procedure(random: &mut Random, pools: &Pools, names: &[Bytes], own: usize) -> Procedure {
    let mut made = Procedure::new(&names[own]);
    made.node(b'E', b"", b"");
    let (inner, calls) = match own {
        0 => (random.within(1, 3), 70),
        _ if own + 1 == names.len() => (random.below(3), 5),
        _ => (random.below(4), 40),
    };
    for _ in 0..inner {
        let label = pools.label(random);
        match random.percent(calls) {
            true => made.node(b'C', &label, &called(random, names, own).join(&b'+')),
            false => made.node(b'S', &label, b""),
        };
    }
    let exit = made.node(b'X', b"", b"");
    for from in 0..exit {
        if made.nodes[from].kind != b'S' {
            made.edge(from, b"-", from + 1);
            continue;
        }
        made.edge(from, &pools.words[0], from + 1);
        if random.percent(60) {
            let to = random.within(1, exit);
            made.edge(from, &pools.words[1], to);
        }
    }
    made
}

/// The names of a call, mostly several and of later procedures.
fn called(random: &mut Random, names: &[Bytes], own: usize) -> Vec<Bytes> {
    let count = *random.pick(&[1, 2, 2, 3, 3, 4, 4]);
    let mut called: Vec<Bytes> = Vec::new();
    for at in 0..count {
        let name = match random.below(20) {
            0..=3 if at > 0 => random.pick(&called).clone(),
            4 if at > 0 => names[own].clone(),
            5 => random.pick(names).clone(),
            _ => names[random.within((own + 1).min(names.len() - 1), names.len() - 1)].clone(),
        };
        called.push(name);
    }
    called
}

/// Changes the names of a call, or a procedure that one calls.
fn change(random: &mut Random, pools: &Pools, program: &mut Program, names: &[Bytes]) {
    let kind = random.below(12);
    if kind >= 9 {
        return programs::change(random, pools, program);
    }
    let own = match random.percent(60) {
        true => 0,
        false => random.below(names.len()),
    };
    let Some(node) = any_node(random, &program.procedures[own], b"C") else {
        return;
    };
    let mut called = program.procedures[own].nodes[node].callees();
    let count = called.len();
    let at = random.below(count);
    match kind {
        0..=1 if count > 1 => called.swap(at, (at + 1) % count),
        2 if count > 1 => called.reverse(),
        0..=3 => called[at] = random.pick(names).clone(),
        4 if count > 1 => {
            called.remove(at);
        }
        4 | 5 if count < 4 => called.insert(at, random.pick(names).clone()),
        _ => {
            let Some(callee) = program.find(&called[at]) else {
                return;
            };
            let procedure = &mut program.procedures[callee];
            match (kind, any_node(random, procedure, b"SC")) {
                (6..=7, Some(node)) => {
                    let label = &mut procedure.nodes[node].label;
                    label.truncate(LABEL_LIMIT - 1);
                    label.insert(0, b'n');
                }
                _ => never_return(random, procedure),
            }
            return;
        }
    }
    program.procedures[own].nodes[node].call(&called);
}
