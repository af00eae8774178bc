//! The writers of sheet, record and probe lines.

use super::after::Doubt;
use super::closing::Closing;
use super::job::Job;
use super::suite::{edges, holds, meet, Edges};
use crate::answer::Answer;

pub const FIRST_LINE: &[u8] = b"sheet,1\n";

/// Numbers below 1,024 as decimals: their bytes from the lowest, and how many.
const DECIMAL: [(u32, u8); 1_024] = {
    let mut table = [(0, 0); 1_024];
    let mut number = 0;
    while number < 1_024 {
        let mut rest = number as u32;
        let mut bytes = 0;
        let mut length = 0;
        loop {
            bytes = bytes << 8 | (b'0' as u32 + rest % 10);
            length += 1;
            rest /= 10;
            if rest == 0 {
                break;
            }
        }
        table[number] = (bytes, length);
        number += 1;
    }
    table
};

fn digits(number: usize) -> usize {
    match DECIMAL.get(number) {
        Some(&(_, length)) => length as usize,
        None => number.ilog10() as usize + 1,
    }
}

/// An output whose length was found to be enough.
struct Writer<'o> {
    out: &'o mut [u8],
    at: usize,
}

impl Writer<'_> {
    fn put(&mut self, bytes: &[u8]) {
        self.out[self.at..self.at + bytes.len()].copy_from_slice(bytes);
        self.at += bytes.len();
    }

    fn byte(&mut self, byte: u8) {
        self.out[self.at] = byte;
        self.at += 1;
    }

    fn decimal(&mut self, number: usize) {
        let length = digits(number);
        let mut rest = number;
        for at in (self.at..self.at + length).rev() {
            self.out[at] = b'0' + (rest % 10) as u8;
            rest /= 10;
        }
        self.at += length;
    }

    /// A line for each of these edges, ascending.
    fn edges(&mut self, kind: &[u8; 2], all: &Edges) {
        for edge in edges(all) {
            self.put(kind);
            self.decimal(edge);
            self.byte(b'\n');
        }
    }

    /// `M,old,new` for one old node and its partners, ascending. Each line is
    /// stored as 16 bytes: it has 6 or more and the end line 10 or more, so
    /// this stays within what is written, and the next line covers the rest.
    fn pairs(&mut self, old: u16, partners: impl Iterator<Item = u16>) {
        let (bytes, length) = DECIMAL[old as usize];
        let comma = 16 + 8 * u32::from(length);
        let front = 0x2c4d | u128::from(bytes) << 16 | u128::from(b',') << comma;
        let start = comma + 8;
        for new in partners {
            let (bytes, length) = DECIMAL[new as usize];
            let end = start + 8 * u32::from(length);
            let line = front | u128::from(bytes) << start | u128::from(b'\n') << end;
            self.out[self.at..self.at + 16].copy_from_slice(&line.to_le_bytes());
            self.at += end as usize / 8 + 1;
        }
    }
}

/// Writes the sheet, or answers 16.
pub fn write(job: &Job, closing: &Closing, out: &mut [u8]) -> Answer {
    let Closing { pairs, danger, .. } = closing;
    let repeated = |&test: &usize| meet(job.suite.row(test), danger);
    let mut count = [pairs.list.len(), 0, 0];
    let mut length = FIRST_LINE.len();
    for &(old, new) in &pairs.list {
        length += 4 + digits(old as usize) + digits(new as usize);
    }
    for edge in edges(danger) {
        count[1] += 1;
        length += 3 + digits(edge);
    }
    for test in (0..job.suite.len()).filter(repeated) {
        count[2] += 1;
        length += 3 + job.suite.name(test).len();
    }
    length += 7 + count.iter().map(|&lines| digits(lines)).sum::<usize>();
    if out.len() < length {
        return Answer::new(16, 0);
    }

    let mut writer = Writer {
        out: &mut out[..length],
        at: 0,
    };
    writer.put(FIRST_LINE);
    for old in 0..job.old.nodes.len() as u16 {
        writer.pairs(old, pairs.partners(old));
    }
    writer.edges(b"D,", danger);
    for test in (0..job.suite.len()).filter(repeated) {
        writer.put(b"R,");
        writer.put(job.suite.name(test));
        writer.byte(b'\n');
    }
    writer.put(b"end");
    for lines in count {
        writer.byte(b',');
        writer.decimal(lines);
    }
    writer.byte(b'\n');
    Answer::success(length)
}

/// Writes a line `Q,edge` for each of these edges, or answers 16.
pub fn write_probes(probes: &Edges, out: &mut [u8]) -> Answer {
    let length = edges(probes).map(|edge| 3 + digits(edge)).sum();
    if out.len() < length {
        return Answer::new(16, 0);
    }
    let out = &mut out[..length];
    Writer { out, at: 0 }.edges(b"Q,", probes);
    Answer::success(length)
}

/// The counterparts of the old edges that one test crossed.
#[derive(Default)]
pub struct Joined {
    pub edges: Vec<(u16, u16)>,
}

/// Writes one test's record line, or answers 16. Of a repeated test some marks
/// are in doubt.
pub fn write_record(
    job: &Job,
    joined: &Joined,
    doubt: Option<&Doubt>,
    test: usize,
    out: &mut [u8],
) -> Answer {
    let name = job.suite.name(test);
    let row = job.suite.row(test);
    let crossed = row.iter().map(|word| word.count_ones() as usize).sum();
    let marks = job.new.edges.len();
    let length = 5 + name.len() + digits(crossed) + marks;
    if out.len() < length {
        return Answer::new(16, 0);
    }

    let mut writer = Writer {
        out: &mut out[..length],
        at: 0,
    };
    writer.put(b"V,");
    writer.put(name);
    writer.byte(b',');
    writer.decimal(crossed);
    writer.byte(b',');
    let field = &mut writer.out[writer.at..writer.at + marks];
    mark(field, joined, job.old.edges.len());
    if let Some(doubt) = doubt {
        mark_doubt(field, joined, doubt);
    }
    writer.at += marks;
    writer.byte(b'\n');
    Answer::success(length)
}

/// The marks of a left-off test.
fn mark(field: &mut [u8], joined: &Joined, old_edges: usize) {
    let mut counterparts = vec![0u16; old_edges];
    for &(old, _) in &joined.edges {
        counterparts[old as usize] += 1;
    }
    field.fill(b'0');
    for &(old, new) in &joined.edges {
        let mark = &mut field[new as usize];
        if counterparts[old as usize] == 1 {
            *mark = b'1';
        } else if *mark == b'0' {
            *mark = b'?';
        }
    }
}

/// A repeated test's mark is `?` where the new edge has a probe, or where a
/// crossed old counterpart lies after a danger.
fn mark_doubt(field: &mut [u8], joined: &Joined, doubt: &Doubt) {
    for edge in edges(&doubt.probes) {
        field[edge] = b'?';
    }
    for &(old, new) in &joined.edges {
        if holds(&doubt.after_danger, old as usize) {
            field[new as usize] = b'?';
        }
    }
}

impl Joined {
    /// Keeps a counterpart if the row holds the old edge.
    pub fn keep(&mut self, row: &[u64], old: u16, new: u16) {
        if holds(row, old as usize) {
            self.edges.push((old, new));
        }
    }
}
