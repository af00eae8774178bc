//! What a job shows of probes and of the marks of repeated tests: the corners
//! that generated jobs must meet.

use crate::independent::after::Doubt;
use crate::independent::closing::{called, compare, Closing, Graph};
use crate::independent::program::Kind;
use crate::independent::suite::{edges, holds, meet, Edges};

/// Jobs by their dangerous edges, and by counterparts that lie after a danger in
/// one version only.
const PROBES: &str = "jobs with probes";
const NO_PROBES: &str = "jobs with dangers and no probe";
const WORD_GONE: &str = "jobs with a danger by a word that is gone";
const ONE_PARTNER: &str = "jobs with a dangerous edge that has a counterpart elsewhere";
const ONE_START: &str = "jobs with a danger by a word gone at one partner only";
const OLD_LOOPS: &str = "jobs with a counterpart after a danger, and no probe";
const NEW_LOOPS: &str = "jobs with a probe whose counterparts lie after no danger";

/// Where edges lead that have a probe, or that lie after a danger.
const LEADS: [[&str; 7]; 2] = [
    [
        "jobs with probes into an entry",
        "jobs with probes into a call",
        "jobs with probes into a call, but not behind it",
        "jobs with probes into an exit, then a next callee",
        "jobs with probes into an exit, then behind the call",
        "jobs with probes into an exit of several calls",
        "jobs with probes into an exit of no call",
    ],
    [
        "jobs with edges after a danger into an entry",
        "jobs with edges after a danger into a call",
        "jobs with edges after a danger into a call, but not behind it",
        "jobs with edges after a danger into an exit, then a next callee",
        "jobs with edges after a danger into an exit, then behind the call",
        "jobs with edges after a danger into an exit of several calls",
        "jobs with edges after a danger into an exit of no call",
    ],
];

/// Repeated tests by their marks, and by what a mark would be were it not for
/// the probe or for the counterpart.
const DANGER_MISSED: &str = "repeated tests that crossed not all dangers";
const MARKS: [&str; 3] = [
    "repeated tests with a mark 0",
    "repeated tests with a mark 1",
    "repeated tests with a mark ?",
];
const ALL_MARKS: &str = "repeated tests with all three marks";
const PROBE_FOR_0: &str = "repeated tests with a ? for 0 by a probe";
const PROBE_FOR_1: &str = "repeated tests with a ? for 1 by a probe alone";
const AFTER_FOR_1: &str = "repeated tests with a ? for 1 by a counterpart alone";
const AFTER_BESIDE: &str = "repeated tests with a ? by one of two counterparts";
const SEVERAL: &str = "repeated tests with a ? by neither, as if left off";
/// Left-off tests keep their marks.
const KEPT: [&str; 2] = [
    "left-off tests with a mark 0 at a probe",
    "left-off tests with a mark 1 at a probe",
];

/// In 20,000 jobs each of these must be met at least so often.
pub const MET: [(&str, u64); 33] = [
    (PROBES, 3_000),
    (NO_PROBES, 200),
    (WORD_GONE, 400),
    (ONE_PARTNER, 300),
    (ONE_START, 20),
    (OLD_LOOPS, 600),
    (NEW_LOOPS, 250),
    (LEADS[0][0], 500),
    (LEADS[0][1], 1_500),
    (LEADS[0][2], 400),
    (LEADS[0][3], 800),
    (LEADS[0][4], 1_500),
    (LEADS[0][5], 1_200),
    (LEADS[0][6], 2_000),
    (LEADS[1][0], 350),
    (LEADS[1][1], 1_500),
    (LEADS[1][2], 400),
    (LEADS[1][3], 900),
    (LEADS[1][4], 1_500),
    (LEADS[1][5], 1_200),
    (LEADS[1][6], 2_000),
    (DANGER_MISSED, 800),
    (MARKS[0], 4_000),
    (MARKS[1], 2_000),
    (MARKS[2], 4_000),
    (ALL_MARKS, 1_500),
    (PROBE_FOR_0, 4_000),
    (PROBE_FOR_1, 200),
    (AFTER_FOR_1, 600),
    (AFTER_BESIDE, 25),
    (SEVERAL, 120),
    (KEPT[0], 6_000),
    (KEPT[1], 2_000),
];

/// An accepted job, its closing and its counterparts.
pub struct Shown<'g> {
    pub old: &'g Graph<'g>,
    pub new: &'g Graph<'g>,
    pub closing: &'g Closing,
    pub joined: &'g [(u16, u16)],
    doubt: Doubt,
}

/// The crossed counterparts of a new edge: there is one, one that has no other
/// counterpart, one after a danger, one that is not.
#[derive(Clone, Copy, Default)]
struct Crossed {
    some: bool,
    only: bool,
    after: bool,
    before: bool,
}

impl<'g> Shown<'g> {
    pub fn new(
        old: &'g Graph<'g>,
        new: &'g Graph<'g>,
        closing: &'g Closing,
        joined: &'g [(u16, u16)],
    ) -> Shown<'g> {
        Shown {
            old,
            new,
            closing,
            joined,
            doubt: Doubt::new(old, new, closing),
        }
    }

    fn probe(&self, edge: usize) -> bool {
        holds(&self.doubt.probes, edge)
    }

    fn after(&self, edge: u16) -> bool {
        holds(&self.doubt.after_danger, edge as usize)
    }

    /// Tells what the job shows.
    pub fn tell(&self, tell: &mut impl FnMut(&'static str, bool)) {
        let probes = edges(&self.doubt.probes).next().is_some();
        tell(PROBES, probes);
        let danger = edges(&self.closing.danger).next().is_some();
        tell(NO_PROBES, danger && !probes);
        self.tell_dangers(tell);
        self.tell_loops(tell);
        let versions = [
            (self.new, &self.doubt.probes),
            (self.old, &self.doubt.after_danger),
        ];
        for ((graph, all), names) in versions.into_iter().zip(LEADS) {
            for (name, leads) in names.into_iter().zip(leads(graph, all)) {
                tell(name, leads);
            }
        }
    }

    /// Dangers by whether the new node takes an edge for the word.
    fn tell_dangers(&self, tell: &mut impl FnMut(&'static str, bool)) {
        let (mut gone, mut started) = (Vec::new(), Vec::new());
        let pairs = &self.closing.pairs;
        for &(n, m) in &pairs.list {
            let mut exits = called(self.old, self.new, (n, m)).map(|(_, exits)| exits);
            if !exits.all(|(n, m)| pairs.contains(n, m)) {
                continue;
            }
            compare(self.old.leaving(n), self.new.leaving(m), |edge, other| {
                match other {
                    None => gone.push(edge.edge),
                    Some(other) if other.class != edge.class => started.push(edge.edge),
                    _ => (),
                }
                true
            });
        }
        tell(WORD_GONE, !gone.is_empty());
        tell(ONE_START, gone.iter().any(|edge| started.contains(edge)));
        let danger = |edge: u16| holds(&self.closing.danger, edge as usize);
        let mut joined = self.joined.iter();
        tell(ONE_PARTNER, joined.any(|&(edge, _)| danger(edge)));
    }

    /// Counterparts of which only one lies after a danger.
    fn tell_loops(&self, tell: &mut impl FnMut(&'static str, bool)) {
        let every = self.crossed(|_| true);
        let alone = |edge: usize| every[edge].before && !every[edge].after;
        tell(NEW_LOOPS, edges(&self.doubt.probes).any(alone));
        let mut others = (0..every.len()).filter(|&edge| !self.probe(edge));
        tell(OLD_LOOPS, others.any(|edge| every[edge].after));
    }

    /// Of each new edge what its crossed counterparts are.
    fn crossed(&self, crossed: impl Fn(u16) -> bool) -> Vec<Crossed> {
        let mut counterparts = vec![0; self.old.program.edges.len()];
        for &(old, _) in self.joined {
            counterparts[old as usize] += 1;
        }
        let mut all = vec![Crossed::default(); self.new.program.edges.len()];
        for &(old, new) in self.joined.iter().filter(|joined| crossed(joined.0)) {
            let one = &mut all[new as usize];
            one.some = true;
            one.only |= counterparts[old as usize] == 1;
            one.after |= self.after(old);
            one.before |= !self.after(old);
        }
        all
    }

    /// Tells what a test shows, by its row and its marks.
    pub fn tell_test(&self, row: &[u64], marks: &[u8], tell: &mut impl FnMut(&'static str, bool)) {
        let has = |mark: u8| marks.contains(&mark);
        let at_probe = |mark: u8| (0..marks.len()).any(|f| self.probe(f) && marks[f] == mark);
        if !meet(row, &self.closing.danger) {
            tell(KEPT[0], at_probe(b'0'));
            tell(KEPT[1], at_probe(b'1'));
            return;
        }
        let mut dangers = edges(&self.closing.danger);
        tell(DANGER_MISSED, dangers.any(|edge| !holds(row, edge)));
        for (name, mark) in MARKS.into_iter().zip(*b"01?") {
            tell(name, has(mark));
        }
        tell(ALL_MARKS, b"01?".iter().all(|&mark| has(mark)));
        let crossed = self.crossed(|edge| holds(row, edge as usize));
        let any = |is: fn(bool, &Crossed) -> bool| {
            let mut all = crossed.iter().enumerate();
            all.any(|(edge, crossed)| is(self.probe(edge), crossed))
        };
        tell(PROBE_FOR_0, any(|probe, by| probe && !by.some));
        tell(PROBE_FOR_1, any(|probe, by| probe && by.only && !by.after));
        tell(AFTER_FOR_1, any(|probe, by| !probe && by.only && by.after));
        tell(
            AFTER_BESIDE,
            any(|probe, by| !probe && by.before && by.after),
        );
        tell(
            SEVERAL,
            any(|probe, by| !probe && by.some && !by.only && !by.after),
        );
    }
}

/// Where these edges lead, in the order of `LEADS`.
fn leads(graph: &Graph, all: &Edges) -> [bool; 7] {
    let mut leads = [false; 7];
    let mut met = vec![false; graph.program.nodes.len()];
    for edge in edges(all) {
        let end = graph.program.edges[edge].to;
        if std::mem::replace(&mut met[end as usize], true) {
            continue;
        }
        match graph.kind(end) {
            Kind::Entry => leads[0] = true,
            Kind::Step => (),
            Kind::Call => {
                leads[1] = true;
                leads[2] |= !holds(all, graph.leaving(end)[0].edge as usize);
            }
            Kind::Exit => {
                let (next, last, calls) = named(graph, graph.procedure(end));
                leads[3] |= next;
                leads[4] |= last;
                leads[5] |= calls > 1;
                leads[6] |= calls == 0;
            }
        }
    }
    leads
}

/// Whether calls name a procedure before another one, whether as the last, and
/// how many name it.
fn named(graph: &Graph, procedure: u16) -> (bool, bool, usize) {
    let (mut next, mut last, mut calls) = (false, false, 0);
    for node in 0..graph.program.nodes.len() as u16 {
        if let Some((at_last, before)) = graph.callees(node).split_last() {
            let (is_before, is_last) = (before.contains(&procedure), *at_last == procedure);
            next |= is_before;
            last |= is_last;
            calls += usize::from(is_before || is_last);
        }
    }
    (next, last, calls)
}
