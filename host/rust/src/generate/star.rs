//! Two versions with switches: steps whose named branches stand beside `*`, the
//! branch for anything else. Names and `*` come and go between the versions, or
//! lead elsewhere, so that on either side `*` is taken for words that the other
//! side names.

use super::model::{Bytes, Edge, Procedure, Program};
use super::parting::callees;
use super::programs::{self, any_node, change, double_nodes, Pools};
use super::random::Random;

const STAR: &[u8] = b"*";

/// An old program and a new one.
pub fn versions(random: &mut Random, pools: &Pools) -> (Program, Program) {
    if random.percent(35) {
        let [old, new] = *random.pick(&[[1, 1], [1, 2], [2, 1], [2, 3], [3, 1]]);
        return (rings(random, old), rings(random, new));
    }
    let count = *random.pick(&[1, 1, 2, 2, 3]);
    let names = programs::names(random, count);
    let procedures = (0..count).map(|own| procedure(random, &names, own));
    let old = Program {
        procedures: procedures.collect(),
    };
    let mut new = old.clone();
    if random.percent(40) {
        double_nodes(random, &mut new);
    }
    for _ in 0..*random.pick(&[0, 1, 1, 2, 2, 3, 4]) {
        match random.one_in(8) {
            true => change(random, pools, &mut new),
            false => {
                let own = random.below(count);
                let _ = redraw(random, &mut new.procedures[own]);
            }
        }
    }
    match random.percent(50) {
        true => (old, new),
        false => (new, old),
    }
}

/// The words that switches name. One is below `*` and one begins with it.
const WORDS: [&[u8]; 6] = [b"a", b"b", b"c", b"!", b"**", b"-"];

/// The labels of steps: few, so that many ends are alike.
const LABELS: [&[u8]; 3] = [b"lift", b"hold", b"lower"];

/// Switches and calls one after another, with a way to each next node.
fn procedure(random: &mut Random, names: &[Bytes], own: usize) -> Procedure {
    let mut made = Procedure::new(&names[own]);
    made.node(b'E', b"", b"");
    let calls = if own + 1 < names.len() { 35 } else { 0 };
    for _ in 0..random.within(if own == 0 { 2 } else { 1 }, 5) {
        let label = *random.pick(&LABELS);
        match random.percent(calls) {
            true => made.node(b'C', label, &callees(random, &names[own + 1..])),
            false => made.node(b'S', label, b""),
        };
    }
    let exit = made.node(b'X', b"", b"");
    for from in 0..exit {
        match made.nodes[from].kind {
            b'S' => switch(random, &mut made, from),
            _ => made.edge(from, b"-", from + 1),
        }
    }
    if random.percent(30) {
        random.shuffle(&mut made.edges);
    }
    made
}

/// Gives a step some names, `*` beside them or alone, or no `*`. The first of
/// these branches leads to the next node.
fn switch(random: &mut Random, procedure: &mut Procedure, from: usize) {
    let mut words = WORDS.to_vec();
    random.shuffle(&mut words);
    words.truncate(*random.pick(&[0, 1, 1, 2, 2, 3, 4]));
    if words.is_empty() || random.percent(65) {
        words.insert(random.below(words.len() + 1), STAR);
    }
    let exit = procedure.nodes.len() - 1;
    for (at, word) in words.into_iter().enumerate() {
        let to = match at {
            0 => from + 1,
            _ => random.within(1, exit),
        };
        procedure.edge(from, word, to);
    }
}

/// The place of the edge `*` of a step, and those of its other edges.
fn branches(procedure: &Procedure, node: usize) -> (Option<usize>, Vec<usize>) {
    let edges = procedure.edges.iter().enumerate();
    let leaving = edges.filter(|(_, edge)| edge.from == node);
    let (stars, named): (Vec<_>, Vec<_>) = leaving.partition(|(_, edge)| edge.word == STAR);
    let named = named.into_iter().map(|(at, _)| at);
    (stars.first().map(|&(at, _)| at), named.collect())
}

/// Changes one switch: `*` or a name comes, goes, or leads elsewhere; all names
/// give way to `*`, or `*` to names.
fn redraw(random: &mut Random, procedure: &mut Procedure) -> Option<()> {
    let node = any_node(random, procedure, b"S")?;
    let (star, named) = branches(procedure, node);
    let any = random.below(procedure.nodes.len());
    let some_name = (!named.is_empty()).then(|| *random.pick(&named));
    match (random.below(12), star, some_name) {
        (0..=1, None, _) => procedure.edge(node, STAR, any),
        // The names stay without `*`, or one of them gives way to it.
        (0..=1, Some(gone), Some(_)) | (2..=3, Some(_), Some(gone)) => {
            procedure.edges.remove(gone);
        }
        (4..=5, Some(led), _) | (6, _, Some(led)) => procedure.edges[led].to = any,
        (7, None, Some(kept)) => {
            let to = procedure.edges[kept].to;
            procedure.edges.retain(|edge| edge.from != node);
            procedure.edge(node, STAR, to);
        }
        (7, Some(star), _) => {
            let to = procedure.edges.remove(star).to;
            for _ in 0..random.within(1, 3) {
                let end = if random.percent(70) { to } else { any };
                name(random, procedure, node, end);
            }
        }
        // What `*` led to gets a name, and `*` leads elsewhere.
        (8, Some(star), _) => {
            let to = std::mem::replace(&mut procedure.edges[star].to, any);
            name(random, procedure, node, to);
        }
        (_, Some(star), _) if random.percent(60) => {
            let to = procedure.edges[star].to;
            name(random, procedure, node, to);
        }
        _ => name(random, procedure, node, any),
    }
    Some(())
}

/// Names one branch more, if there is room for it.
fn name(random: &mut Random, procedure: &mut Procedure, from: usize, to: usize) {
    let has = |word: &[u8]| {
        let mut edges = procedure.edges.iter();
        edges.any(|edge| edge.from == from && edge.word == word)
    };
    let free: Vec<&[u8]> = WORDS.into_iter().filter(|word| !has(word)).collect();
    if !free.is_empty() {
        let at = random.below(procedure.edges.len() + 1);
        let word = random.pick(&free).to_vec();
        procedure.edges.insert(at, Edge { from, word, to });
    }
}

/// A ring of so many equal switches; from each some names and mostly `*` lead to
/// other steps, two of each label, and these on to another or the exit, by a
/// name or by `*`. So a switch has partners with other names.
fn rings(random: &mut Random, ring: usize) -> Program {
    let mut made = Procedure::new(b"switch");
    made.node(b'E', b"", b"");
    for _ in 0..ring {
        made.node(b'S', b"choose", b"");
    }
    let first = made.nodes.len();
    for label in LABELS.into_iter().flat_map(|label| [label; 2]) {
        made.node(b'S', label, b"");
    }
    let exit = made.node(b'X', b"", b"");
    made.edge(0, b"-", 1);
    for at in 0..ring {
        made.edge(1 + at, b"next", 1 + (at + 1) % ring);
        // Each word has a label that it mostly leads to; `*` has the first.
        for (word, often, usual) in [(STAR, 75, 0), (b"a", 50, 0), (b"b", 50, 1), (b"c", 35, 2)] {
            if random.percent(often) {
                let label = match random.percent(80) {
                    true => usual,
                    false => random.below(LABELS.len()),
                };
                made.edge(1 + at, word, first + 2 * label + random.below(2));
            }
        }
    }
    for step in first..exit {
        let to = match random.percent(25) {
            true => random.within(1, exit - 1),
            false => exit,
        };
        let word = if random.percent(65) { b"ok" } else { STAR };
        made.edge(step, word, to);
    }
    Program {
        procedures: vec![made],
    }
}
