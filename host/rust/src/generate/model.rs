//! Programs, tests and sheets as values, and their texts.

use std::collections::BTreeSet;

pub type Bytes = Vec<u8>;

#[derive(Clone)]
pub struct Node {
    /// E, S, C or X.
    pub kind: u8,
    pub label: Bytes,
    /// The callee field: names joined by `+`.
    pub callee: Bytes,
}

impl Node {
    pub fn new(kind: u8, label: &[u8], callee: &[u8]) -> Node {
        Node {
            kind,
            label: label.to_vec(),
            callee: callee.to_vec(),
        }
    }

    /// The names that a call has.
    pub fn callees(&self) -> Vec<Bytes> {
        let names = self.callee.split(|&byte| byte == b'+');
        names.map(<[u8]>::to_vec).collect()
    }

    pub fn call(&mut self, names: &[Bytes]) {
        self.callee = names.join(&b'+');
    }
}

/// An edge; its ends are numbered within the procedure.
#[derive(Clone)]
pub struct Edge {
    pub from: usize,
    pub word: Bytes,
    pub to: usize,
}

#[derive(Clone, Default)]
pub struct Procedure {
    pub name: Bytes,
    pub nodes: Vec<Node>,
    pub edges: Vec<Edge>,
}

impl Procedure {
    pub fn new(name: &[u8]) -> Procedure {
        Procedure {
            name: name.to_vec(),
            ..Procedure::default()
        }
    }

    pub fn node(&mut self, kind: u8, label: &[u8], callee: &[u8]) -> usize {
        self.nodes.push(Node::new(kind, label, callee));
        self.nodes.len() - 1
    }

    pub fn edge(&mut self, from: usize, word: &[u8], to: usize) {
        self.edges.push(Edge {
            from,
            word: word.to_vec(),
            to,
        });
    }

    /// The node of a kind that stands first, or 0.
    pub fn find(&self, kind: u8) -> usize {
        let found = self.nodes.iter().position(|node| node.kind == kind);
        found.unwrap_or(0)
    }
}

#[derive(Clone, Default)]
pub struct Program {
    pub procedures: Vec<Procedure>,
}

/// Writes fields parted by commas and ends the line.
pub fn put_line(text: &mut Bytes, fields: &[&[u8]]) {
    text.extend(fields.join(&b','));
    text.push(b'\n');
}

fn decimal(number: usize) -> Bytes {
    number.to_string().into_bytes()
}

impl Program {
    pub fn text(&self) -> Bytes {
        let mut text = Bytes::new();
        let mut first = 0;
        for procedure in &self.procedures {
            put_line(&mut text, &[b"P", &procedure.name]);
            for node in &procedure.nodes {
                put_line(&mut text, &[b"N", &[node.kind], &node.label, &node.callee]);
            }
            for edge in &procedure.edges {
                let (from, to) = (decimal(first + edge.from), decimal(first + edge.to));
                put_line(&mut text, &[b"B", &from, &edge.word, &to]);
            }
            first += procedure.nodes.len();
        }
        text
    }

    pub fn edges(&self) -> usize {
        self.procedures.iter().map(|p| p.edges.len()).sum()
    }

    pub fn find(&self, name: &[u8]) -> Option<usize> {
        self.procedures.iter().position(|p| p.name == name)
    }
}

/// The row field that holds these edges.
pub fn row(crossed: &[bool]) -> Bytes {
    let mut text = Bytes::new();
    for four in crossed.chunks(4) {
        let mut value = 0;
        for (at, &bit) in four.iter().enumerate() {
            value |= usize::from(bit) << (3 - at);
        }
        text.push(b"0123456789abcdef"[value]);
    }
    text
}

/// A sheet's lists.
#[derive(Clone, Default)]
pub struct Sheet {
    pub pairs: BTreeSet<(usize, usize)>,
    pub dangers: BTreeSet<usize>,
    pub repeated: BTreeSet<usize>,
}

impl Sheet {
    /// The sheet's lines, with counts that are right.
    pub fn lines(&self, name: impl Fn(usize) -> Bytes) -> Vec<Bytes> {
        let mut lines = vec![b"sheet,1".to_vec()];
        for (old, new) in &self.pairs {
            lines.push(format!("M,{old},{new}").into_bytes());
        }
        for edge in &self.dangers {
            lines.push(format!("D,{edge}").into_bytes());
        }
        for &test in &self.repeated {
            lines.push([&b"R,"[..], &name(test)].concat());
        }
        let counts = [self.pairs.len(), self.dangers.len(), self.repeated.len()];
        lines.push(format!("end,{},{},{}", counts[0], counts[1], counts[2]).into_bytes());
        lines
    }
}

/// Lines as a text.
pub fn joined(lines: &[Bytes]) -> Bytes {
    let mut text = Bytes::new();
    for line in lines {
        text.extend(line);
        text.push(b'\n');
    }
    text
}
