//! The closing rules: pairs, dangerous edges and counterparts, taken over all
//! words. For each word a node takes the edge that has it, or else `*`.

use super::program::{Kind, Node, Program, NODE_LIMIT};
use super::suite::{place_of, Edges, ROW_WORDS};
use super::text::Word;

pub const PAIR_LIMIT: usize = 4_096;

/// The word of the branch for anything else, as it is packed, and as edges have
/// it where they are laid out: there it is below all others.
const STAR: Word = b'*' as Word;
const ELSE: Word = 0;

/// An edge as the closure meets it.
#[derive(Clone, Copy)]
pub struct Leaving {
    /// Packed, or `ELSE` for `*`.
    word: Word,
    pub end: u16,
    /// The class of its end.
    pub class: u16,
    pub edge: u16,
}

impl Leaving {
    /// Whether this is the branch for anything else.
    pub fn is_star(&self) -> bool {
        self.word == ELSE
    }
}

/// A program with its edges laid out by node, by word within a node, `*` first,
/// and a class for each node: two nodes are alike exactly if their classes are
/// equal.
/// Labels are compared without blanks at both ends, each inner run as one.
pub struct Graph<'p> {
    pub program: &'p Program<'p>,
    class: Vec<u16>,
    first: Vec<u16>,
    leaving: Vec<Leaving>,
}

impl<'p> Graph<'p> {
    fn new(program: &'p Program<'p>, class: Vec<u16>) -> Graph<'p> {
        let mut first = vec![0u16; program.nodes.len() + 1];
        for edge in &program.edges {
            first[edge.from as usize + 1] += 1;
        }
        for node in 1..first.len() {
            first[node] += first[node - 1];
        }
        let mut filled = vec![0u16; program.nodes.len()];
        let blank = Leaving {
            word: 0,
            end: 0,
            class: 0,
            edge: 0,
        };
        let mut leaving = vec![blank; program.edges.len()];
        for (number, edge) in program.edges.iter().enumerate() {
            let from = edge.from as usize;
            let start = first[from] as usize;
            let mut at = start + filled[from] as usize;
            filled[from] += 1;
            let word = if edge.word == STAR { ELSE } else { edge.word };
            while at > start && leaving[at - 1].word > word {
                leaving[at] = leaving[at - 1];
                at -= 1;
            }
            leaving[at] = Leaving {
                word,
                end: edge.to,
                class: class[edge.to as usize],
                edge: number as u16,
            };
        }
        Graph {
            program,
            class,
            first,
            leaving,
        }
    }

    pub fn kind(&self, node: u16) -> Kind {
        self.program.nodes[node as usize].kind
    }

    pub fn class(&self, node: u16) -> u16 {
        self.class[node as usize]
    }

    pub fn leaving(&self, node: u16) -> &[Leaving] {
        let node = node as usize;
        &self.leaving[self.first[node] as usize..self.first[node + 1] as usize]
    }

    /// Whether an edge is the branch for anything else.
    pub fn is_star(&self, edge: u16) -> bool {
        self.program.edges[edge as usize].word == STAR
    }

    /// The numbers of the procedures that a node calls.
    pub fn callees(&self, node: u16) -> &[u16] {
        self.program.callees(node)
    }

    /// The number of the procedure that a node is of.
    pub fn procedure(&self, node: u16) -> u16 {
        self.program.nodes[node as usize].procedure
    }

    /// Entry and exit of a procedure.
    pub fn ends(&self, procedure: u16) -> (u16, u16) {
        let procedure = &self.program.procedures[procedure as usize];
        (procedure.entry, procedure.exit)
    }
}

/// The pairs of entries and of exits of the procedures that two alike nodes
/// call, from left to right: alike calls name the same procedures.
pub fn called<'g>(
    old: &'g Graph,
    new: &'g Graph,
    (n, m): (u16, u16),
) -> impl Iterator<Item = ((u16, u16), (u16, u16))> + 'g {
    let callees = old.callees(n).iter().zip(new.callees(m));
    callees.map(|(&callee, &partner)| {
        let ((entry, exit), (new_entry, new_exit)) = (old.ends(callee), new.ends(partner));
        ((entry, new_entry), (exit, new_exit))
    })
}

/// Calls `meet` with the edges to compare of an old and a new node: for each
/// word the edge that the old node takes, and the one that the new node takes,
/// if any. A word for which the old node takes none is left out. All words that
/// neither node names go `*` against `*`, and count once. Ends, and answers
/// false, where `meet` answers false.
#[inline]
pub fn compare<'g>(
    old: &'g [Leaving],
    new: &'g [Leaving],
    mut meet: impl FnMut(&'g Leaving, Option<&'g Leaving>) -> bool,
) -> bool {
    let (star, named) = parted(old);
    let (other_star, others) = parted(new);
    let mut at = 0;
    for edge in named {
        while at < others.len() && others[at].word < edge.word {
            at += 1;
        }
        let same = others.get(at).filter(|other| other.word == edge.word);
        if !meet(edge, same.or(other_star)) {
            return false;
        }
    }
    let Some(star) = star else {
        return true;
    };
    // Words that only the new node names, then those that neither names.
    let mut at = 0;
    let unnamed = others.iter().filter(|other| {
        while at < named.len() && named[at].word < other.word {
            at += 1;
        }
        named.get(at).is_none_or(|edge| edge.word != other.word)
    });
    let mut compared = unnamed.map(Some).chain([other_star]);
    compared.all(|other| meet(star, other))
}

/// The edge `*` of a node, and the others.
#[inline]
fn parted(leaving: &[Leaving]) -> (Option<&Leaving>, &[Leaving]) {
    match leaving {
        [star, named @ ..] if star.is_star() => (Some(star), named),
        named => (None, named),
    }
}

/// Lays out both programs with classes in common.
pub fn graphs<'p>(old: &'p Program<'p>, new: &'p Program<'p>) -> (Graph<'p>, Graph<'p>) {
    let mut classes = Classes::with_limit(old.nodes.len() + new.nodes.len());
    let old_class = classes.of_program(old);
    let new_class = classes.of_program(new);
    (Graph::new(old, old_class), Graph::new(new, new_class))
}

/// Classes of nodes by open addressing, numbered as they are first met.
struct Classes<'p> {
    slots: Vec<u16>,
    /// Kind, label and callee field, which only a C has.
    keys: Vec<(Kind, Label<'p>, Option<&'p [u8]>)>,
    /// The labels of keys that are no part of their text, one after another.
    squeezed: Vec<u8>,
}

/// A label without spare blanks: a part of the text, or where it begins and
/// ends among those that were squeezed.
#[derive(Clone, Copy)]
enum Label<'p> {
    Part(&'p [u8]),
    Squeezed(usize, usize),
}

const FREE: u16 = u16::MAX;

impl<'p> Classes<'p> {
    fn with_limit(limit: usize) -> Classes<'p> {
        Classes {
            slots: vec![FREE; (2 * limit).next_power_of_two()],
            keys: Vec::with_capacity(limit),
            squeezed: Vec::new(),
        }
    }

    fn of_program(&mut self, program: &'p Program<'p>) -> Vec<u16> {
        program
            .nodes
            .iter()
            .map(|node| self.of_node(program, node))
            .collect()
    }

    fn of_node(&mut self, program: &'p Program<'p>, node: &Node<'p>) -> u16 {
        let field = match node.kind {
            Kind::Call => Some(program.calls[node.call as usize].field),
            _ => None,
        };
        let start = self.squeezed.len();
        let part = within_blanks(node.label);
        let label = match has_run(part) {
            false => Label::Part(part),
            true => {
                squeeze(part, &mut self.squeezed);
                Label::Squeezed(start, self.squeezed.len())
            }
        };
        let bytes = |label| match label {
            Label::Part(part) => part,
            Label::Squeezed(start, end) => &self.squeezed[start..end],
        };
        let own = bytes(label);
        let mask = self.slots.len() - 1;
        let mut slot = hash(node.kind, own, field) as usize & mask;
        loop {
            let class = self.slots[slot];
            if class == FREE {
                let class = self.keys.len() as u16;
                self.slots[slot] = class;
                self.keys.push((node.kind, label, field));
                return class;
            }
            let (kind, label, other) = self.keys[class as usize];
            if (kind, bytes(label), other) == (node.kind, own, field) {
                self.squeezed.truncate(start);
                return class;
            }
            slot = (slot + 1) & mask;
        }
    }
}

const BLANK: u8 = 32;

/// A label without the blanks at both ends.
fn within_blanks(mut label: &[u8]) -> &[u8] {
    while let [BLANK, rest @ ..] = label {
        label = rest;
    }
    while let [rest @ .., BLANK] = label {
        label = rest;
    }
    label
}

/// Whether a blank follows a blank, without leaving early.
fn has_run(label: &[u8]) -> bool {
    let pairs = label.iter().zip(label.iter().skip(1));
    pairs.fold(false, |found, (&one, &next)| {
        found | (one == BLANK) & (next == BLANK)
    })
}

/// Appends a label with each run of blanks as one; no run is at its end.
fn squeeze(label: &[u8], squeezed: &mut Vec<u8>) {
    let start = squeezed.len();
    squeezed.resize(start + label.len(), 0);
    let (mut end, mut last) = (start, 0);
    for &byte in label {
        squeezed[end] = byte;
        end += usize::from((byte != BLANK) | (last != BLANK));
        last = byte;
    }
    squeezed.truncate(end);
}

fn hash(kind: Kind, label: &[u8], field: Option<&[u8]>) -> u64 {
    let state = mixed(kind as u64, label);
    field.map_or(state, |field| mixed(state, field)) >> 32
}

/// A state of the hash with these bytes and their number mixed in.
fn mixed(state: u64, bytes: &[u8]) -> u64 {
    const FACTOR: u64 = 0x9e37_79b9_7f4a_7c15;
    let mix = |state: u64, word: u64| (state.rotate_left(23) ^ word).wrapping_mul(FACTOR);
    let mut state = mix(state, bytes.len() as u64);
    let mut chunks = bytes.chunks_exact(8);
    for chunk in &mut chunks {
        let mut word = [0; 8];
        word.copy_from_slice(chunk);
        state = mix(state, u64::from_le_bytes(word));
    }
    let rest = chunks
        .remainder()
        .iter()
        .fold(0, |word: u64, &byte| word << 8 | u64::from(byte));
    mix(state, rest)
}

/// A set of pairs: a bit for each, and a list in order of adding.
pub struct Pairs {
    stride: usize,
    bits: Vec<u64>,
    pub list: Vec<(u16, u16)>,
}

impl Pairs {
    pub fn new(old_nodes: usize, new_nodes: usize) -> Pairs {
        debug_assert!(old_nodes <= NODE_LIMIT && new_nodes <= NODE_LIMIT);
        let stride = new_nodes.div_ceil(64);
        Pairs {
            stride,
            bits: vec![0; old_nodes * stride],
            list: Vec::with_capacity((old_nodes * new_nodes).min(PAIR_LIMIT)),
        }
    }

    fn place(&self, old: u16, new: u16) -> (usize, u64) {
        (
            old as usize * self.stride + new as usize / 64,
            1 << (new % 64),
        )
    }

    pub fn contains(&self, old: u16, new: u16) -> bool {
        let (word, bit) = self.place(old, new);
        self.bits[word] & bit != 0
    }

    /// Adds a pair; false if it would be one above the limit.
    #[inline]
    pub fn add(&mut self, old: u16, new: u16) -> bool {
        let (word, bit) = self.place(old, new);
        if self.bits[word] & bit != 0 {
            return true;
        }
        if self.list.len() == PAIR_LIMIT {
            return false;
        }
        self.bits[word] |= bit;
        self.list.push((old, new));
        true
    }

    /// The new nodes paired with an old node, ascending.
    pub fn partners(&self, old: u16) -> impl Iterator<Item = u16> + '_ {
        let words = &self.bits[old as usize * self.stride..][..self.stride];
        words.iter().enumerate().flat_map(|(at, &word)| {
            let mut left = word;
            std::iter::from_fn(move || {
                if left == 0 {
                    return None;
                }
                let bit = left.trailing_zeros();
                left &= left - 1;
                Some(at as u16 * 64 + bit as u16)
            })
        })
    }
}

/// What the closing rules give.
pub struct Closing {
    pub pairs: Pairs,
    /// Dangerous edges, as a row.
    pub danger: Edges,
    /// New edges taken for a word that makes an old edge dangerous, at a pair
    /// that does.
    pub starts: Edges,
}

/// C pairs that wait for the exits of a callee to meet, by the old callee.
struct Waiting {
    newest: Vec<u16>,
    /// A waiting pair, the place of the callee in its call, and the entry
    /// before it in its list.
    entries: Vec<((u16, u16), u16, u16)>,
}

const NONE: u16 = u16::MAX;

impl Waiting {
    fn add(&mut self, procedure: usize, pair: (u16, u16), place: u16) {
        let newest = &mut self.newest[procedure];
        self.entries.push((pair, place, *newest));
        *newest = self.entries.len() as u16 - 1;
    }
}

/// Closes the rules; `join` is told each old edge and each of its new
/// counterparts once. `None` if there are more pairs than the limit.
pub fn close(old: &Graph, new: &Graph, join: impl FnMut(u16, u16)) -> Option<Closing> {
    let mut search = Search {
        old,
        new,
        pairs: Pairs::new(old.class.len(), new.class.len()),
        danger: [0; ROW_WORDS],
        starts: [0; ROW_WORDS],
        waiting: Waiting {
            newest: vec![NONE; old.program.procedures.len()],
            entries: Vec::new(),
        },
        join,
    };
    let mut within = search.pairs.add(old.ends(0).0, new.ends(0).0);
    let mut at = 0;
    while within && at < search.pairs.list.len() {
        let (n, m) = search.pairs.list[at];
        at += 1;
        within = match old.kind(n) {
            Kind::Entry | Kind::Step => search.go_on((n, m)),
            Kind::Call => search.call((n, m), 0),
            Kind::Exit => search.exits_met((n, m)),
        };
    }
    let Search {
        pairs,
        danger,
        starts,
        ..
    } = search;
    within.then_some(Closing {
        pairs,
        danger,
        starts,
    })
}

struct Search<'g, J> {
    old: &'g Graph<'g>,
    new: &'g Graph<'g>,
    pairs: Pairs,
    danger: Edges,
    starts: Edges,
    waiting: Waiting,
    join: J,
}

/// Each answers false if there are too many pairs.
impl<J: FnMut(u16, u16)> Search<'_, J> {
    /// Enters the callees of a pair of calls from this place on, each after the
    /// exits of the one before have met; the pair waits where they have not,
    /// and goes on after the last.
    fn call(&mut self, pair: (u16, u16), place: usize) -> bool {
        let callees = called(self.old, self.new, pair).enumerate();
        for (place, (entries, exits)) in callees.skip(place) {
            if !self.pairs.add(entries.0, entries.1) {
                return false;
            }
            if !self.pairs.contains(exits.0, exits.1) {
                let procedure = self.old.procedure(exits.0) as usize;
                self.waiting.add(procedure, pair, place as u16);
                return true;
            }
        }
        self.go_on(pair)
    }

    /// Leads the pairs of calls on that wait for these exits.
    fn exits_met(&mut self, (n, m): (u16, u16)) -> bool {
        let procedure = self.old.procedure(n) as usize;
        let mut entry = self.waiting.newest[procedure];
        if entry == NONE {
            return true;
        }
        // Every pair of the list waits for procedures of one name.
        let ((_, call), place, _) = self.waiting.entries[entry as usize];
        let partner = self.new.callees(call)[place as usize];
        if self.new.ends(partner).1 != m {
            return true;
        }
        self.waiting.newest[procedure] = NONE;
        while entry != NONE {
            let (pair, place, before) = self.waiting.entries[entry as usize];
            if !self.call(pair, place as usize + 1) {
                return false;
            }
            entry = before;
        }
        true
    }

    /// Rule 3 for one pair that may go on.
    #[inline]
    fn go_on(&mut self, (n, m): (u16, u16)) -> bool {
        let (old, new) = (self.old.leaving(n), self.new.leaving(m));
        compare(old, new, |edge, other| match other {
            Some(other) if other.class == edge.class => {
                (self.join)(edge.edge, other.edge);
                self.pairs.add(edge.end, other.end)
            }
            other => {
                let (word, bit) = place_of(edge.edge as usize);
                self.danger[word] |= bit;
                if let Some(start) = other {
                    let (word, bit) = place_of(start.edge as usize);
                    self.starts[word] |= bit;
                }
                true
            }
        })
    }
}
