//! The tables that reading leaves in lent memory, laid out as docs/MEMORY.md
//! says. A text is judged by the readers first, so splitting its lines at
//! the commas is enough here.

use super::program::{self, Program};
use super::suite::{self, Suite};
use crate::answer::Outcome;
use crate::records::{joined_callees, Node};

/// Where edges and heads of chains begin in the links.
pub const EDGES: usize = 448;
const HEADS: usize = 5_568;

/// Words of a test's row.
const ROW: usize = 16;

/// The lines of an accepted text, each with its place.
pub fn lines(text: &[u8]) -> impl Iterator<Item = (usize, Vec<&[u8]>)> {
    let mut start = 0;
    text.split_inclusive(|&byte| byte == b'\n')
        .map(move |line| {
            let at = start;
            start += line.len();
            let fields = line[..line.len() - 1].split(|&byte| byte == b',');
            (at, fields.collect())
        })
}

/// The number that a field of an accepted text writes.
fn number(field: &[u8]) -> usize {
    field
        .iter()
        .fold(0, |value, &digit| 10 * value + usize::from(digit - b'0'))
}

/// A word's bytes as digits to the base 256, the first the lowest.
fn key(word: &[u8]) -> usize {
    word.iter()
        .rev()
        .fold(0, |key, &byte| 256 * key + usize::from(byte))
}

/// Stores numbers from a place on.
fn store<T: Copy>(table: &mut [T], at: usize, row: &[T]) {
    table[at..at + row.len()].copy_from_slice(row);
}

/// Whether these numbers stand there.
fn stands<T: PartialEq>(table: &[T], at: usize, row: &[T]) -> bool {
    &table[at..at + row.len()] == row
}

/// A program with the rows of its tables.
pub struct Tables<'a> {
    pub program: Program<'a>,
    pub nodes: Vec<Node>,
    procedures: Vec<usize>,
    edges: Vec<usize>,
    heads: Vec<usize>,
}

/// Reads a program and lays its tables out.
pub fn program(text: &[u8]) -> Outcome<Tables<'_>> {
    let mut tables = Tables {
        program: program::read(text)?,
        nodes: Vec::new(),
        procedures: Vec::new(),
        edges: Vec::new(),
        heads: Vec::new(),
    };
    for (at, (start, fields)) in lines(text).enumerate() {
        match fields[0] {
            b"P" => tables.procedure(start, at + 1, fields[1]),
            b"N" => tables.node(start, fields[1], fields[2]),
            _ => tables.edge(start, fields[1], fields[2], fields[3]),
        }
    }
    Ok(tables)
}

impl Tables<'_> {
    fn procedure(&mut self, start: usize, line: usize, name: &[u8]) {
        let number = self.procedures.len() / 7;
        let procedure = self.program.procedures[number];
        self.procedures.extend([
            start + 2,
            name.len(),
            line,
            self.nodes.len(),
            self.edges.len() / 5,
            usize::from(procedure.entry),
            usize::from(procedure.exit),
        ]);
    }

    fn node(&mut self, start: usize, kind: &[u8], label: &[u8]) {
        let kind = match kind {
            b"E" => 0,
            b"S" => 1,
            b"C" => 2,
            _ => 3,
        };
        let callees = self.program.callees(self.nodes.len() as u16);
        self.nodes.push(Node {
            kind,
            start: start + 4,
            length: label.len(),
            callees: joined_callees(callees),
        });
        self.heads.push(0);
    }

    fn edge(&mut self, start: usize, from: &[u8], word: &[u8], to: &[u8]) {
        let node = number(from);
        let place = start + 3 + from.len();
        let row = [node, place, key(word), number(to), self.heads[node]];
        self.edges.extend(row);
        self.heads[node] = self.edges.len() / 5;
    }

    /// Procedures, nodes and edges.
    pub fn counts(&self) -> [usize; 3] {
        let program = &self.program;
        [
            program.procedures.len(),
            program.nodes.len(),
            program.edges.len(),
        ]
    }

    /// Stores the rows; what lies beyond the counts stays.
    pub fn store(&self, nodes: &mut [Node], links: &mut [usize]) {
        store(nodes, 0, &self.nodes);
        store(links, 0, &self.procedures);
        store(links, EDGES, &self.edges);
        store(links, HEADS, &self.heads);
    }

    /// Whether storing the rows would change nothing.
    pub fn left(&self, nodes: &[Node], links: &[usize]) -> bool {
        stands(nodes, 0, &self.nodes)
            && stands(links, 0, &self.procedures)
            && stands(links, EDGES, &self.edges)
            && stands(links, HEADS, &self.heads)
    }
}

/// Tests with the rows of their tables.
pub struct TestTables<'a> {
    pub suite: Suite<'a>,
    names: Vec<usize>,
    rows: Vec<u64>,
}

/// Reads tests against the number of old edges and lays their tables out.
pub fn tests(text: &[u8], edges: usize) -> Outcome<TestTables<'_>> {
    let mut tables = TestTables {
        suite: suite::read(text, edges)?,
        names: Vec::new(),
        rows: Vec::new(),
    };
    for (test, (start, fields)) in lines(text).enumerate() {
        tables.names.extend([start + 2, fields[1].len()]);
        let mut row = [0; ROW];
        store(&mut row, 0, tables.suite.row(test));
        tables.rows.extend(row);
    }
    Ok(tables)
}

impl TestTables<'_> {
    /// Stores the rows; what lies beyond the count stays.
    pub fn store(&self, tests: &mut [usize], rows: &mut [u64]) {
        store(tests, 0, &self.names);
        store(rows, 0, &self.rows);
    }

    /// Whether storing the rows would change nothing.
    pub fn left(&self, tests: &[usize], rows: &[u64]) -> bool {
        stands(tests, 0, &self.names) && stands(rows, 0, &self.rows)
    }
}
