//! Two versions that part somewhere within, and may come back to what they have
//! in common: both of them, one of them or neither.

use super::labels::LABEL_LIMIT;
use super::model::{Bytes, Edge, Procedure, Program};
use super::programs::{self, any_node, double_nodes, Pools};
use super::random::Random;

/// An old program and a new one.
pub fn versions(random: &mut Random, pools: &Pools) -> (Program, Program) {
    match random.below(10) {
        0..=2 => {
            let [old, new] = *random.pick(&[[1, 3], [2, 1], [3, 1], [3, 2]]);
            let [old_on, new_on] = *random.pick(&[[80, 10], [10, 80], [50, 50]]);
            (choices(random, old, old_on), choices(random, new, new_on))
        }
        3..=4 => (merging(random, 2), merging(random, 1)),
        _ => chains(random, pools),
    }
}

/// Procedures of which some part, with nodes doubled in one of the versions.
fn chains(random: &mut Random, pools: &Pools) -> (Program, Program) {
    let count = random.within(1, 4);
    let names = programs::names(random, count);
    let procedures = (0..count).map(|own| procedure(random, pools, &names, own));
    let mut old = Program {
        procedures: procedures.collect(),
    };
    let mut new = old.clone();
    match random.below(4) {
        0 => double_nodes(random, &mut old),
        1 | 2 => double_nodes(random, &mut new),
        _ => (),
    }
    for _ in 0..*random.pick(&[1, 1, 2, 3]) {
        part(random, &mut old, &mut new);
    }
    (old, new)
}

/// A choice between so many equal steps, of which each leads to the same node
/// and on to one with any label. From there the way mostly goes back to the last
/// of these steps if there are several, else to the exit. So an edge of the one
/// step of a new version has counterparts behind a danger and before it.
fn merging(random: &mut Random, steps: usize) -> Program {
    let mut made = Procedure::new(b"merge");
    made.node(b'E', b"", b"");
    made.node(b'S', b"choose", b"");
    for _ in 0..steps {
        made.node(b'S', b"turn", b"");
    }
    let link = made.node(b'S', b"link", b"");
    let label: &[u8] = if random.percent(50) {
        b"brake"
    } else {
        b"hold"
    };
    let parting = made.node(b'S', label, b"");
    let exit = made.node(b'X', b"", b"");
    made.edge(0, b"-", 1);
    made.edge(1, b"a", 2);
    made.edge(1, b"b", link - 1);
    for step in 2..link {
        made.edge(step, b"ok", link);
    }
    made.edge(link, b"ok", parting);
    made.edge(link, b"out", exit);
    let usual = if steps > 1 { link - 1 } else { exit };
    let to = match random.percent(70) {
        true => usual,
        false => random.below(exit + 1),
    };
    made.edge(parting, b"ok", to);
    made.edge(parting, b"out", exit);
    Program {
        procedures: vec![made],
    }
}

/// The words of a choice, each with the label that it mostly leads to.
const CHOICES: [(&[u8], &[u8]); 3] = [(b"a", b"lift"), (b"b", b"hold"), (b"c", b"lower")];

/// A ring of so many equal steps, from each of which the words of the choices
/// lead to other steps, two of each label. Of these so many in a hundred lead on
/// to another or back, the rest to the exit. So a step has partners with other
/// choices, and an edge counterparts behind a danger and before it.
fn choices(random: &mut Random, ring: usize, on: usize) -> Program {
    let mut made = Procedure::new(b"choose");
    made.node(b'E', b"", b"");
    for _ in 0..ring {
        made.node(b'S', b"choose", b"");
    }
    let first = made.nodes.len();
    for (_, label) in CHOICES.iter().flat_map(|choice| [choice; 2]) {
        made.node(b'S', label, b"");
    }
    let exit = made.node(b'X', b"", b"");
    made.edge(0, b"-", 1);
    for at in 0..ring {
        made.edge(1 + at, b"next", 1 + (at + 1) % ring);
        for (usual, (word, _)) in CHOICES.into_iter().enumerate() {
            let label = match random.below(8) {
                0 => continue,
                1 => random.below(CHOICES.len()),
                _ => usual,
            };
            made.edge(1 + at, word, first + 2 * label + random.below(2));
        }
    }
    for step in first..exit {
        let to = match random.percent(on) {
            true if random.one_in(6) => random.below(first),
            true => random.within(first, exit - 1),
            false => exit,
        };
        made.edge(step, b"ok", to);
    }
    Program {
        procedures: vec![made],
    }
}

/// Steps and calls one after another, nearly all with labels of their own. A
/// step has a word to the next node, mostly one to a later node or the exit, and
/// seldom one back.
fn procedure(random: &mut Random, pools: &Pools, names: &[Bytes], own: usize) -> Procedure {
    let mut made = Procedure::new(&names[own]);
    made.node(b'E', b"", b"");
    let inner = random.within(if own == 0 { 3 } else { 1 }, 6);
    let calls = if own + 1 < names.len() { 30 } else { 0 };
    for at in 0..inner {
        let label = match random.one_in(8) {
            true => pools.label(random),
            false => format!("step {at}").into_bytes(),
        };
        match random.percent(calls) {
            true => made.node(b'C', &label, &callees(random, &names[own + 1..])),
            false => made.node(b'S', &label, b""),
        };
    }
    let exit = made.node(b'X', b"", b"");
    for from in 0..exit {
        if made.nodes[from].kind != b'S' {
            made.edge(from, b"-", from + 1);
            continue;
        }
        made.edge(from, b"next", from + 1);
        if random.percent(60) {
            made.edge(from, b"on", random.within(from + 1, exit));
        }
        if random.one_in(6) {
            made.edge(from, b"back", random.below(from + 1));
        }
    }
    made
}

/// One to three later procedures.
pub fn callees(random: &mut Random, later: &[Bytes]) -> Bytes {
    let count = *random.pick(&[1, 1, 2, 2, 3]);
    let called: Vec<Bytes> = (0..count).map(|_| random.pick(later).clone()).collect();
    called.join(&b'+')
}

/// Makes the versions part in one procedure: at a node with another label in the
/// new one, which may lead elsewhere in each version, or at an edge that leads
/// elsewhere or has another word.
fn part(random: &mut Random, old: &mut Program, new: &mut Program) {
    let own = random.below(new.procedures.len());
    let (before, after) = (&mut old.procedures[own], &mut new.procedures[own]);
    let Some(node) = any_node(random, after, b"S") else {
        return;
    };
    let any = random.below(after.nodes.len());
    match random.below(6) {
        0..=3 => {
            let label = &mut after.nodes[node].label;
            label.truncate(LABEL_LIMIT - 1);
            label.insert(0, b'n');
            let back = random.below(before.nodes.len());
            lead(random, before, node, back);
            lead(random, after, node, any);
        }
        4 => lead(random, after, node, any),
        _ => {
            if let Some(edge) = any_edge(random, after, node) {
                edge.word = b"other".to_vec();
            }
        }
    }
}

/// Leads an edge of a node to another end, in most cases.
fn lead(random: &mut Random, procedure: &mut Procedure, node: usize, end: usize) {
    if random.percent(80) {
        if let Some(edge) = any_edge(random, procedure, node) {
            edge.to = end;
        }
    }
}

fn any_edge<'p>(
    random: &mut Random,
    procedure: &'p mut Procedure,
    node: usize,
) -> Option<&'p mut Edge> {
    let edges = procedure.edges.iter_mut();
    let mut leaving: Vec<&mut Edge> = edges.filter(|edge| edge.from == node).collect();
    let at = random.below(leaving.len().max(1));
    (at < leaving.len()).then(|| leaving.swap_remove(at))
}
