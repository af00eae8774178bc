//! Random programs and their new versions.

use super::labels::{self, format_some, formatted, labelled, near};
use super::model::{Bytes, Edge, Node, Procedure, Program};
use super::random::Random;

const NAMES: [&[u8]; 12] = [
    b"main",
    b"up",
    b"f",
    b"g",
    b"h",
    b"a_1",
    b"Z",
    b"_",
    b"0",
    b"fg",
    b"twelve_bytes",
    b"F",
];
const LABELS: [&[u8]; 18] = [
    b"a",
    b"b",
    b"ab",
    b"a b",
    b"a  b",
    b"a ",
    b" a b c",
    b"read layer",
    b"set speed",
    b"setspeed",
    b"set!speed",
    b"set speed by layer",
    b"set  speed by layer ",
    b"hold",
    b" ",
    b"  ",
    b"                                                            ",
    b"P;~!x",
];
const WORDS: [&[u8]; 14] = [
    b"T",
    b"F",
    b"ok",
    b"-",
    b"up",
    b"stop",
    b"*",
    b"+",
    b"0",
    b"1",
    b"t",
    b"o",
    b"eightbyt",
    b"~",
];

/// The labels and words of one job. Few labels make many nodes alike.
pub struct Pools {
    pub labels: Vec<Bytes>,
    pub words: Vec<Bytes>,
    /// How many in a hundred labels have their blanks moved, and how many
    /// others only nearly match.
    moved: usize,
    near: usize,
    /// How many in a hundred calls name several procedures.
    several: usize,
}

fn some(random: &mut Random, all: &[&[u8]], count: usize) -> Vec<Bytes> {
    let mut all: Vec<Bytes> = all.iter().map(|part| part.to_vec()).collect();
    random.shuffle(&mut all);
    all.truncate(count);
    all
}

impl Pools {
    pub fn new(random: &mut Random) -> Pools {
        let labels = random.within(1, 6);
        let words = random.within(2, 6);
        let mut pools = Pools {
            labels: some(random, &LABELS, labels),
            words: some(random, &WORDS, words),
            moved: *random.pick(&[0, 0, 0, 10, 60]),
            near: *random.pick(&[0, 0, 0, 5, 12]),
            several: *random.pick(&[0, 0, 20, 70]),
        };
        if random.one_in(8) {
            pools.labels[0] = labels::long(random);
        }
        if random.percent(30) {
            // All match the first one, or nearly.
            let first = match random.percent(60) {
                true => random.pick(&[&b"set speed"[..], b"a b c"]).to_vec(),
                false => pools.labels[0].clone(),
            };
            pools.labels.fill_with(|| match random.percent(60) {
                true => near(random, &first),
                false => formatted(random, &first),
            });
            pools.labels.push(first);
        }
        pools
    }

    pub fn label(&self, random: &mut Random) -> Bytes {
        let label = random.pick(&self.labels);
        if random.percent(self.moved) {
            return formatted(random, label);
        }
        if random.percent(self.near) {
            return near(random, label);
        }
        label.clone()
    }
}

/// Names of so many procedures.
pub fn names(random: &mut Random, count: usize) -> Vec<Bytes> {
    some(random, &NAMES, count)
}

/// A well-formed program of a few procedures.
pub fn program(random: &mut Random, pools: &Pools) -> Program {
    let count = match random.below(10) {
        0..=2 => 1,
        3..=6 => random.within(2, 3),
        _ => random.within(3, 6),
    };
    let names = names(random, count);
    let mut procedures: Vec<Procedure> = (0..count)
        .map(|at| procedure(random, pools, &names, at))
        .collect();
    if count > 1 && random.one_in(12) {
        let at = random.within(1, count - 1);
        never_return(random, &mut procedures[at]);
    }
    Program { procedures }
}

/// A name to call: in so many of a hundred a later procedure, if there is one.
/// Most calls of these return.
fn callee(random: &mut Random, names: &[Bytes], own: usize, later: usize) -> Bytes {
    if own + 1 < names.len() && random.percent(later) {
        return names[random.within(own + 1, names.len() - 1)].clone();
    }
    random.pick(names).clone()
}

/// The names of a call: one, or up to four. A later one may be there already,
/// or be the calling procedure.
fn callees(random: &mut Random, pools: &Pools, names: &[Bytes], own: usize) -> Vec<Bytes> {
    if !random.percent(pools.several) {
        return vec![callee(random, names, own, 80)];
    }
    let mut called = vec![callee(random, names, own, 92)];
    for _ in 0..random.within(1, 3) {
        let name = match random.below(24) {
            0..=4 => random.pick(&called).clone(),
            5 => names[own].clone(),
            _ => callee(random, names, own, 92),
        };
        called.push(name);
    }
    called
}

/// Leads every edge to the exit elsewhere.
pub fn never_return(random: &mut Random, procedure: &mut Procedure) {
    let exit = procedure.find(b'X');
    let others: Vec<usize> = (0..procedure.nodes.len())
        .filter(|&node| node != exit)
        .collect();
    for edge in procedure.edges.iter_mut().filter(|edge| edge.to == exit) {
        edge.to = *random.pick(&others);
    }
}

fn procedure(random: &mut Random, pools: &Pools, names: &[Bytes], own: usize) -> Procedure {
    let mut made = Procedure::new(&names[own]);
    made.node(b'E', b"", b"");
    let later = own + 1 < names.len();
    let inner = random.within(usize::from(own == 0), 6);
    for _ in 0..inner {
        let label = pools.label(random);
        // Without a later procedure a call is recursive, and seldom returns.
        if random.percent(if later { 40 } else { 4 }) {
            let called = callees(random, pools, names, own);
            made.node(b'C', &label, &called.join(&b'+'));
        } else {
            made.node(b'S', &label, b"");
        }
    }
    let exit = made.node(b'X', b"", b"");
    for from in 0..exit {
        let next = if random.percent(88) {
            from + 1
        } else {
            random.within(1, exit)
        };
        if made.nodes[from].kind != b'S' {
            made.edge(from, b"-", next);
            continue;
        }
        let count = match random.below(20) {
            0..=4 => 1,
            5..=13 => 2,
            14..=18 => 3,
            _ => 8,
        };
        let mut words = pools.words.clone();
        random.shuffle(&mut words);
        for (at, word) in words.iter().take(count).enumerate() {
            let to = match at {
                0 => next,
                _ if random.one_in(60) => 0,
                _ => random.within(1, exit),
            };
            made.edge(from, word, to);
        }
    }
    if random.percent(15) {
        shuffle_nodes(random, &mut made);
    }
    if random.percent(20) {
        random.shuffle(&mut made.edges);
    }
    made
}

fn shuffle_nodes(random: &mut Random, procedure: &mut Procedure) {
    let mut order: Vec<usize> = (0..procedure.nodes.len()).collect();
    random.shuffle(&mut order);
    let mut place = vec![0; order.len()];
    for (new, &old) in order.iter().enumerate() {
        place[old] = new;
    }
    procedure.nodes = order
        .iter()
        .map(|&old| procedure.nodes[old].clone())
        .collect();
    for edge in &mut procedure.edges {
        edge.from = place[edge.from];
        edge.to = place[edge.to];
    }
}

/// The new version: the old one with some changes.
pub fn version(random: &mut Random, pools: &Pools, old: &Program) -> Program {
    let mut new = old.clone();
    let changes = match random.below(10) {
        0 => 0,
        1..=4 => 1,
        5..=7 => random.within(2, 3),
        _ => random.within(3, 6),
    };
    double_nodes(random, &mut new);
    for _ in 0..changes {
        change(random, pools, &mut new);
    }
    reformat(random, &mut new);
    new
}

/// Doubles nodes of most programs.
pub fn double_nodes(random: &mut Random, program: &mut Program) {
    if random.percent(75) {
        for _ in 0..random.within(1, 4) {
            let own = match random.percent(50) {
                true => 0,
                false => random.below(program.procedures.len()),
            };
            let _ = double_node(random, &mut program.procedures[own]);
        }
    }
}

/// Blanks moved in every label or in some, then some labels made such that
/// they only nearly match.
pub fn reformat(random: &mut Random, program: &mut Program) {
    match random.below(12) {
        0..=2 => format_some(random, program, 100),
        3 => format_some(random, program, 30),
        _ => (),
    }
    if random.percent(45) {
        let mut nodes: Vec<&mut Node> = labelled(program).collect();
        random.shuffle(&mut nodes);
        for node in nodes.into_iter().take(random.within(1, 4)) {
            node.label = near(random, &node.label);
            // Byte 9 is no blank, and of no label.
            if random.one_in(40) {
                node.label.insert(random.below(node.label.len() + 1), b'\t');
            }
        }
    }
}

/// Nodes of these kinds.
fn nodes_of(procedure: &Procedure, kinds: &[u8]) -> Vec<usize> {
    (0..procedure.nodes.len())
        .filter(|&node| kinds.contains(&procedure.nodes[node].kind))
        .collect()
}

pub fn any_node(random: &mut Random, procedure: &Procedure, kinds: &[u8]) -> Option<usize> {
    let nodes = nodes_of(procedure, kinds);
    (!nodes.is_empty()).then(|| *random.pick(&nodes))
}

/// The places of a node's edges.
fn edges_of(procedure: &Procedure, node: usize) -> Vec<usize> {
    (0..procedure.edges.len())
        .filter(|&edge| procedure.edges[edge].from == node)
        .collect()
}

pub fn change(random: &mut Random, pools: &Pools, program: &mut Program) {
    match random.below(30) {
        0 => return reorder(random, program),
        1 => return rename(random, program),
        2 => return add_procedure(random, program),
        3 => return strand(random, pools, program),
        _ => (),
    }
    let names: Vec<Bytes> = program.procedures.iter().map(|p| p.name.clone()).collect();
    let own = random.below(names.len());
    let procedure = &mut program.procedures[own];
    let _ = match random.below(21) {
        0..=2 => relabel(random, pools, procedure),
        3..=4 => redirect(random, procedure),
        5 => rename_word(random, pools, procedure),
        6 => swap_words(random, procedure),
        7 => add_edge(random, pools, procedure),
        8 => remove_edge(random, procedure),
        9..=13 => double_node(random, procedure),
        14 => remove_node(random, procedure),
        15 => insert_node(random, pools, procedure),
        16..=17 => change_callees(random, pools, &names, own, procedure),
        18 => change_kind(random, pools, &names, own, procedure),
        19 => {
            shuffle_nodes(random, procedure);
            Some(())
        }
        _ => {
            random.shuffle(&mut procedure.edges);
            Some(())
        }
    };
}

fn reorder(random: &mut Random, program: &mut Program) {
    let first = usize::from(random.percent(80)).min(program.procedures.len());
    random.shuffle(&mut program.procedures[first..]);
}

fn rename(random: &mut Random, program: &mut Program) {
    let name = random.pick(&NAMES).to_vec();
    if program.find(&name).is_some() {
        return;
    }
    let at = random.below(program.procedures.len());
    let before = std::mem::replace(&mut program.procedures[at].name, name.clone());
    if random.percent(95) {
        for node in program.procedures.iter_mut().flat_map(|p| &mut p.nodes) {
            let mut names = node.callees();
            for called in names.iter_mut().filter(|called| **called == before) {
                *called = name.clone();
            }
            node.call(&names);
        }
    }
}

fn add_procedure(random: &mut Random, program: &mut Program) {
    let mut copy = random.pick(&program.procedures).clone();
    copy.name = random.pick(&NAMES).to_vec();
    if program.find(&copy.name).is_none() {
        program.procedures.push(copy);
    }
}

/// Changes a procedure that stands among the callees of a call such that its
/// exits may no longer meet.
fn strand(random: &mut Random, pools: &Pools, program: &mut Program) {
    let nodes = program.procedures.iter().flat_map(|p| &p.nodes);
    let several = nodes.filter(|node| node.callee.contains(&b'+'));
    let called: Vec<Bytes> = several.flat_map(Node::callees).collect();
    if called.is_empty() {
        return;
    }
    let name = random.pick(&called);
    let Some(at) = program.find(name) else {
        return;
    };
    let procedure = &mut program.procedures[at];
    match random.percent(50) {
        true => never_return(random, procedure),
        false => {
            let _ = relabel(random, pools, procedure);
        }
    }
}

fn relabel(random: &mut Random, pools: &Pools, procedure: &mut Procedure) -> Option<()> {
    let node = any_node(random, procedure, b"SC")?;
    let label = &mut procedure.nodes[node].label;
    match random.below(4) {
        // One label is then the beginning of the other.
        0 if label.len() < 60 => label.push(*random.pick(b" ax")),
        1 if label.len() > 1 => {
            label.pop();
        }
        2 => *label = random.pick(&LABELS).to_vec(),
        _ => *label = pools.label(random),
    }
    Some(())
}

fn redirect(random: &mut Random, procedure: &mut Procedure) -> Option<()> {
    if procedure.edges.is_empty() {
        return None;
    }
    let edge = random.below(procedure.edges.len());
    procedure.edges[edge].to = random.below(procedure.nodes.len());
    Some(())
}

/// A word that a node does not have.
fn free_word(
    random: &mut Random,
    pools: &Pools,
    procedure: &Procedure,
    node: usize,
) -> Option<Bytes> {
    let word = if random.percent(70) {
        random.pick(&pools.words).clone()
    } else {
        random.pick(&WORDS).to_vec()
    };
    let taken = |edge: &Edge| edge.from == node && edge.word == word;
    if procedure.edges.iter().any(taken) && !random.one_in(30) {
        return None;
    }
    Some(word)
}

fn rename_word(random: &mut Random, pools: &Pools, procedure: &mut Procedure) -> Option<()> {
    let node = any_node(random, procedure, b"S")?;
    let word = free_word(random, pools, procedure, node)?;
    let edges = edges_of(procedure, node);
    if edges.is_empty() {
        return None;
    }
    procedure.edges[*random.pick(&edges)].word = word;
    Some(())
}

fn swap_words(random: &mut Random, procedure: &mut Procedure) -> Option<()> {
    let node = any_node(random, procedure, b"S")?;
    let mut edges = edges_of(procedure, node);
    random.shuffle(&mut edges);
    let (&one, &other) = (edges.first()?, edges.get(1)?);
    let word = procedure.edges[one].word.clone();
    procedure.edges[one].word = std::mem::replace(&mut procedure.edges[other].word, word);
    Some(())
}

fn add_edge(random: &mut Random, pools: &Pools, procedure: &mut Procedure) -> Option<()> {
    let node = any_node(random, procedure, b"S")?;
    let word = free_word(random, pools, procedure, node)?;
    let to = random.below(procedure.nodes.len());
    let at = random.below(procedure.edges.len() + 1);
    procedure.edges.insert(
        at,
        Edge {
            from: node,
            word,
            to,
        },
    );
    Some(())
}

fn remove_edge(random: &mut Random, procedure: &mut Procedure) -> Option<()> {
    let node = any_node(random, procedure, b"S")?;
    let edges = edges_of(procedure, node);
    if edges.is_empty() || edges.len() < 2 && !random.one_in(10) {
        return None;
    }
    procedure.edges.remove(*random.pick(&edges));
    Some(())
}

/// A second node alike to one, with edges of its own; some edges now lead to
/// it. So one old node has several partners.
fn double_node(random: &mut Random, procedure: &mut Procedure) -> Option<()> {
    let inner = nodes_of(procedure, b"SC");
    // A node met by several edges, if there is one.
    let met = |node: usize| {
        procedure
            .edges
            .iter()
            .filter(|edge| edge.to == node)
            .count()
    };
    let often: Vec<usize> = inner
        .iter()
        .copied()
        .filter(|&node| met(node) > 1)
        .collect();
    let node = match (inner.is_empty(), often.is_empty()) {
        (true, _) => return None,
        (_, true) => *random.pick(&inner),
        _ => *random.pick(&often),
    };
    let copy = procedure.nodes.len();
    procedure.nodes.push(procedure.nodes[node].clone());
    for edge in edges_of(procedure, node) {
        let copied = Edge {
            from: copy,
            ..procedure.edges[edge].clone()
        };
        procedure.edges.push(copied);
    }
    let mut kept = false;
    for edge in &mut procedure.edges {
        if edge.to == node && (kept || edge.from != copy && random.percent(50)) {
            edge.to = copy;
        } else if edge.to == node {
            kept = random.percent(60);
        }
    }
    Some(())
}

fn remove_node(random: &mut Random, procedure: &mut Procedure) -> Option<()> {
    let node = any_node(random, procedure, b"SC")?;
    let next = procedure.edges.iter().find(|edge| edge.from == node)?.to;
    if next == node {
        return None;
    }
    procedure.nodes.remove(node);
    procedure.edges.retain(|edge| edge.from != node);
    for edge in &mut procedure.edges {
        if edge.to == node {
            edge.to = next;
        }
        edge.from -= usize::from(edge.from > node);
        edge.to -= usize::from(edge.to > node);
    }
    Some(())
}

fn insert_node(random: &mut Random, pools: &Pools, procedure: &mut Procedure) -> Option<()> {
    if procedure.edges.is_empty() {
        return None;
    }
    let edge = random.below(procedure.edges.len());
    let label = pools.label(random);
    let node = procedure.nodes.len();
    procedure.nodes.push(Node::new(b'S', &label, b""));
    let to = std::mem::replace(&mut procedure.edges[edge].to, node);
    let word = random.pick(&pools.words).clone();
    procedure.edge(node, &word, to);
    Some(())
}

/// Changes the names of a call: other ones, their order, one of them, one more
/// or less. Seldom there is a name that no procedure has, or a fifth one.
fn change_callees(
    random: &mut Random,
    pools: &Pools,
    names: &[Bytes],
    own: usize,
    procedure: &mut Procedure,
) -> Option<()> {
    let node = any_node(random, procedure, b"C")?;
    let mut called = procedure.nodes[node].callees();
    let count = called.len();
    let at = random.below(count);
    let name = match random.one_in(20) {
        true => random.pick(&NAMES).to_vec(),
        false => callee(random, names, own, 80),
    };
    match random.below(8) {
        0..=1 if count > 1 => called.swap(at, (at + 1) % count),
        2 if count > 1 => called.rotate_left(1),
        3..=4 => called[at] = name,
        5 if count > 1 => {
            called.remove(at);
        }
        6 if count < 4 || random.one_in(4) => called.insert(random.below(count + 1), name),
        _ => called = callees(random, pools, names, own),
    }
    procedure.nodes[node].call(&called);
    Some(())
}

fn change_kind(
    random: &mut Random,
    pools: &Pools,
    names: &[Bytes],
    own: usize,
    procedure: &mut Procedure,
) -> Option<()> {
    let node = any_node(random, procedure, b"SC")?;
    if procedure.nodes[node].kind == b'C' {
        procedure.nodes[node].kind = b'S';
        procedure.nodes[node].callee.clear();
        return Some(());
    }
    let edges = edges_of(procedure, node);
    if edges.len() != 1 {
        return None;
    }
    procedure.nodes[node].kind = b'C';
    let called = callees(random, pools, names, own);
    procedure.nodes[node].call(&called);
    procedure.edges[edges[0]].word = b"-".to_vec();
    Some(())
}
