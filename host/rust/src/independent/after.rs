//! The edges that lie after others, and the new edges that need a probe.

use super::closing::{Closing, Graph};
use super::program::{Kind, NODE_LIMIT};
use super::suite::{edges, place_of, Edges, ROW_WORDS};

/// The new edges that need a probe: those taken for a word that makes an old
/// edge dangerous, at a pair that does, and all that lie after them.
pub fn probes(new: &Graph, closing: &Closing) -> Edges {
    after(new, &closing.starts)
}

/// What makes a mark of a repeated test doubtful.
pub struct Doubt {
    /// New edges that need a probe.
    pub probes: Edges,
    /// Old edges after a dangerous one.
    pub after_danger: Edges,
}

impl Doubt {
    pub fn new(old: &Graph, new: &Graph, closing: &Closing) -> Doubt {
        Doubt {
            probes: probes(new, closing),
            after_danger: after(old, &closing.danger),
        }
    }
}

/// The edges that lie after these in a program, these included.
pub fn after(graph: &Graph, these: &Edges) -> Edges {
    let mut walk = Walk {
        graph,
        returns: Returns::new(graph),
        found: [0; ROW_WORDS],
        met: [0; NODE_WORDS],
        ends: Vec::new(),
    };
    for edge in edges(these) {
        walk.reach(edge as u16);
    }
    while let Some(end) = walk.ends.pop() {
        walk.go_on(end);
    }
    walk.found
}

const NODE_WORDS: usize = NODE_LIMIT / 64;

struct Walk<'g> {
    graph: &'g Graph<'g>,
    returns: Returns,
    found: Edges,
    /// The ends of found edges, as bits.
    met: [u64; NODE_WORDS],
    /// Those of them to go on from.
    ends: Vec<u16>,
}

impl Walk<'_> {
    fn reach(&mut self, edge: u16) {
        let (word, bit) = place_of(edge as usize);
        self.found[word] |= bit;
        let end = self.graph.program.edges[edge as usize].to;
        let (word, bit) = place_of(end as usize);
        if self.met[word] & bit == 0 {
            self.met[word] |= bit;
            self.ends.push(end);
        }
    }

    /// To the edges leaving a node. At a call to the entry edge of the first
    /// callee instead, at an exit to where the calls of its procedure go on.
    fn go_on(&mut self, end: u16) {
        let graph = self.graph;
        match graph.kind(end) {
            Kind::Entry | Kind::Step => {
                for leaving in graph.leaving(end) {
                    self.reach(leaving.edge);
                }
            }
            Kind::Call => self.reach(entry_edge(graph, graph.callees(end)[0])),
            Kind::Exit => {
                let mut at = self.returns.newest[graph.procedure(end) as usize];
                while at != NONE {
                    let (edge, before) = self.returns.entries[at as usize];
                    self.reach(edge);
                    at = before;
                }
            }
        }
    }
}

/// The one edge that leaves the entry of a procedure.
fn entry_edge(graph: &Graph, procedure: u16) -> u16 {
    graph.leaving(graph.ends(procedure).0)[0].edge
}

/// The edges that a run goes on to from the exit of each procedure, in lists.
struct Returns {
    newest: Vec<u16>,
    /// An edge, and the entry before it in its list.
    entries: Vec<(u16, u16)>,
}

const NONE: u16 = u16::MAX;

impl Returns {
    /// At every call, at each place where it names a procedure: the entry edge
    /// of the next callee, or after the last the edge of the call.
    fn new(graph: &Graph) -> Returns {
        let mut returns = Returns {
            newest: vec![NONE; graph.program.procedures.len()],
            entries: Vec::new(),
        };
        for call in 0..graph.program.nodes.len() as u16 {
            let callees = graph.callees(call);
            for (place, &callee) in callees.iter().enumerate() {
                let edge = match callees.get(place + 1) {
                    Some(&next) => entry_edge(graph, next),
                    None => graph.leaving(call)[0].edge,
                };
                returns.add(callee, edge);
            }
        }
        returns
    }

    fn add(&mut self, procedure: u16, edge: u16) {
        let newest = &mut self.newest[procedure as usize];
        self.entries.push((edge, *newest));
        *newest = self.entries.len() as u16 - 1;
    }
}
