//! The reader of program files.

use super::text::{limited, packed, Cursor, Name, Names, Word};
use crate::answer::{Answer, Outcome};

pub const PROCEDURE_LIMIT: usize = 64;
pub const NODE_LIMIT: usize = 512;
pub const EDGE_LIMIT: usize = 1_024;
/// The most procedures that a call names.
pub const CALLEE_LIMIT: usize = 4;

/// The word `-` as it is packed.
const DASH: Word = b'-' as Word;

#[derive(Clone, Copy, PartialEq, Eq, Debug)]
pub enum Kind {
    Entry,
    Step,
    Call,
    Exit,
}

/// Fewest and most edges leaving a node, by kind.
const LEAVING: [(u16, u16); 4] = [(1, 1), (1, 8), (1, 1), (0, 0)];

#[derive(Clone, Copy)]
pub struct Node<'a> {
    pub kind: Kind,
    /// Empty at an entry or exit.
    pub label: &'a [u8],
    /// The number of its procedure.
    pub procedure: u16,
    /// At a C node the number of its call.
    pub call: u16,
}

/// A call: the callee field of a C node, and the procedures that it names.
#[derive(Clone, Copy)]
pub struct Call<'a> {
    pub field: &'a [u8],
    callees: [u16; CALLEE_LIMIT],
    count: usize,
}

impl Call<'_> {
    /// The numbers of the callees from left to right.
    pub fn callees(&self) -> &[u16] {
        &self.callees[..self.count]
    }
}

#[derive(Clone, Copy)]
pub struct Edge {
    pub from: u16,
    pub to: u16,
    pub word: Word,
}

#[derive(Clone, Copy)]
pub struct Procedure {
    pub name: Name,
    pub entry: u16,
    pub exit: u16,
}

pub struct Program<'a> {
    pub procedures: Vec<Procedure>,
    pub nodes: Vec<Node<'a>>,
    pub edges: Vec<Edge>,
    pub calls: Vec<Call<'a>>,
}

impl Program<'_> {
    /// The numbers of the procedures that a node calls, from left to right;
    /// none where it is no C.
    pub fn callees(&self, node: u16) -> &[u16] {
        let node = &self.nodes[node as usize];
        match node.kind {
            Kind::Call => self.calls[node.call as usize].callees(),
            _ => &[],
        }
    }
}

/// A line of one of the three kinds.
enum Line<'a> {
    Procedure(Name),
    /// Kind, label and callee field.
    Node(Kind, &'a [u8], &'a [u8]),
    Edge(u32, Word, u32),
}

fn line<'a>(cursor: &mut Cursor<'a>) -> Option<Line<'a>> {
    let kind = cursor.byte()?;
    cursor.eat(b',')?;
    let line = match kind {
        b'P' => Line::Procedure(cursor.name()?.0),
        b'N' => node(cursor)?,
        b'B' => {
            let from = cursor.number()?;
            cursor.eat(b',')?;
            let word = cursor.word()?;
            cursor.eat(b',')?;
            Line::Edge(from, word, cursor.number()?)
        }
        _ => return None,
    };
    cursor.eat(b'\n')?;
    Some(line)
}

fn node<'a>(cursor: &mut Cursor<'a>) -> Option<Line<'a>> {
    let kind = match cursor.byte()? {
        b'E' => Kind::Entry,
        b'S' => Kind::Step,
        b'C' => Kind::Call,
        b'X' => Kind::Exit,
        _ => return None,
    };
    cursor.eat(b',')?;
    let label = match kind {
        Kind::Step | Kind::Call => cursor.label()?,
        Kind::Entry | Kind::Exit => &[],
    };
    cursor.eat(b',')?;
    let field = match kind {
        Kind::Call => callee_field(cursor)?,
        _ => &[],
    };
    Some(Line::Node(kind, label, field))
}

/// One to four names joined by `+`. What follows a fourth one is left, so a
/// fifth is refused where the line should end.
fn callee_field<'a>(cursor: &mut Cursor<'a>) -> Option<&'a [u8]> {
    let rest = cursor.rest();
    let mut length = cursor.name()?.1.len();
    for _ in 1..CALLEE_LIMIT {
        if cursor.eat(b'+').is_none() {
            break;
        }
        length += 1 + cursor.name()?.1.len();
    }
    Some(&rest[..length])
}

/// The end of a node's list of edges.
const NONE: u16 = u16::MAX;

/// What is kept of the procedure being read.
struct Open {
    line: u32,
    first_node: usize,
    first_edge: usize,
    entries: u32,
    exits: u32,
    entry: u16,
    exit: u16,
    /// The edge of an entry or call has another word than `-`.
    word_broken: bool,
}

struct Reader<'a> {
    program: Program<'a>,
    names: Names,
    open: Option<Open>,
    /// The line of each call.
    call_lines: Vec<u32>,
    /// The number of edges leaving each node.
    leaving: Vec<u16>,
    /// The newest edge of each node, and the one before each edge.
    newest: Vec<u16>,
    before: Vec<u16>,
}

/// Reads a program, or answers its refusal.
pub fn read(text: &[u8]) -> Outcome<Program<'_>> {
    limited(text)?;
    if text.is_empty() {
        return Err(Answer::new(2, 1));
    }
    // The shortest N line has 6 bytes, the shortest B line 8.
    let nodes = (text.len() / 6).min(NODE_LIMIT);
    let edges = (text.len() / 8).min(EDGE_LIMIT);
    let mut reader = Reader {
        program: Program {
            procedures: Vec::new(),
            nodes: Vec::with_capacity(nodes),
            edges: Vec::with_capacity(edges),
            calls: Vec::new(),
        },
        names: Names::with_limit(PROCEDURE_LIMIT),
        open: None,
        call_lines: Vec::new(),
        leaving: Vec::with_capacity(nodes),
        newest: Vec::with_capacity(nodes),
        before: Vec::with_capacity(edges),
    };
    let mut cursor = Cursor::new(text);
    let mut number = 0;
    while !cursor.at_end() {
        number += 1;
        match line(&mut cursor) {
            None => return Err(Answer::new(2, number)),
            Some(Line::Procedure(name)) => reader.procedure(name, number)?,
            Some(Line::Node(kind, label, field)) => reader.node(kind, label, field, number)?,
            Some(Line::Edge(from, word, to)) => reader.edge(from, word, to, number)?,
        }
    }
    reader.finish()
}

impl<'a> Reader<'a> {
    fn procedure(&mut self, name: Name, line: u32) -> Outcome<()> {
        self.close()?;
        if self.program.procedures.len() == PROCEDURE_LIMIT {
            return Err(Answer::new(4, line));
        }
        if self.names.add(name).is_none() {
            return Err(Answer::new(5, line));
        }
        self.program.procedures.push(Procedure {
            name,
            entry: 0,
            exit: 0,
        });
        self.open = Some(Open {
            line,
            first_node: self.program.nodes.len(),
            first_edge: self.program.edges.len(),
            entries: 0,
            exits: 0,
            entry: 0,
            exit: 0,
            word_broken: false,
        });
        Ok(())
    }

    fn node(&mut self, kind: Kind, label: &'a [u8], field: &'a [u8], line: u32) -> Outcome<()> {
        let number = self.program.nodes.len();
        let open = match &mut self.open {
            Some(open) if open.first_edge == self.program.edges.len() => open,
            _ => return Err(Answer::new(3, line)),
        };
        if number == NODE_LIMIT {
            return Err(Answer::new(4, line));
        }
        match kind {
            Kind::Entry => {
                open.entries += 1;
                open.entry = number as u16;
            }
            Kind::Exit => {
                open.exits += 1;
                open.exit = number as u16;
            }
            Kind::Call | Kind::Step => (),
        }
        self.program.nodes.push(Node {
            kind,
            label,
            procedure: self.program.procedures.len() as u16 - 1,
            call: self.program.calls.len() as u16,
        });
        if kind == Kind::Call {
            self.program.calls.push(Call {
                field,
                callees: [0; CALLEE_LIMIT],
                count: 0,
            });
            self.call_lines.push(line);
        }
        self.leaving.push(0);
        self.newest.push(NONE);
        Ok(())
    }

    fn edge(&mut self, from: u32, word: Word, to: u32, line: u32) -> Outcome<()> {
        let Some(open) = &mut self.open else {
            return Err(Answer::new(3, line));
        };
        let number = self.program.edges.len();
        if number == EDGE_LIMIT {
            return Err(Answer::new(4, line));
        }
        let here = open.first_node as u32..self.program.nodes.len() as u32;
        if !here.contains(&from) || !here.contains(&to) {
            return Err(Answer::new(6, line));
        }
        let node = from as usize;
        let mut other = self.newest[node];
        while other != NONE {
            if self.program.edges[other as usize].word == word {
                return Err(Answer::new(7, line));
            }
            other = self.before[other as usize];
        }
        if word != DASH && matches!(self.program.nodes[node].kind, Kind::Entry | Kind::Call) {
            open.word_broken = true;
        }
        self.before.push(self.newest[node]);
        self.newest[node] = number as u16;
        self.leaving[node] += 1;
        self.program.edges.push(Edge {
            from: from as u16,
            to: to as u16,
            word,
        });
        Ok(())
    }

    /// Tests the procedure being read, and keeps its entry and exit.
    fn close(&mut self) -> Outcome<()> {
        let Some(open) = &self.open else {
            return Ok(());
        };
        let in_table = |node: usize| {
            let (fewest, most) = LEAVING[self.program.nodes[node].kind as usize];
            (fewest..=most).contains(&self.leaving[node])
        };
        if open.entries != 1
            || open.exits != 1
            || open.word_broken
            || !(open.first_node..self.program.nodes.len()).all(in_table)
        {
            return Err(Answer::new(8, open.line));
        }
        if let Some(procedure) = self.program.procedures.last_mut() {
            procedure.entry = open.entry;
            procedure.exit = open.exit;
        }
        Ok(())
    }

    fn finish(mut self) -> Outcome<Program<'a>> {
        self.close()?;
        for (call, &line) in self.program.calls.iter_mut().zip(&self.call_lines) {
            for name in call.field.split(|&byte| byte == b'+') {
                let Some(procedure) = self.names.find(packed(name)) else {
                    return Err(Answer::new(9, line));
                };
                call.callees[call.count] = procedure as u16;
                call.count += 1;
            }
        }
        Ok(self.program)
    }
}
