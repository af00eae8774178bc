//! The reader of test files, and rows of coverage.

use super::text::{limited, Cursor, Name, Names};
use crate::answer::{Answer, Outcome};

pub const TEST_LIMIT: usize = 200;

/// Edges as bits: edge 0 is the lowest bit of the first word.
pub const ROW_WORDS: usize = 16;
pub type Edges = [u64; ROW_WORDS];

/// The word and the bit of an edge.
pub fn place_of(edge: usize) -> (usize, u64) {
    (edge / 64, 1 << (edge % 64))
}

/// Whether a row holds an edge.
pub fn holds(row: &[u64], edge: usize) -> bool {
    let (word, bit) = place_of(edge);
    row[word] & bit != 0
}

/// The edges that a row holds, ascending.
pub fn edges(row: &[u64]) -> impl Iterator<Item = usize> + '_ {
    row.iter().enumerate().flat_map(|(at, &word)| {
        let mut left = word;
        std::iter::from_fn(move || {
            if left == 0 {
                return None;
            }
            let bit = left.trailing_zeros();
            left &= left - 1;
            Some(at * 64 + bit as usize)
        })
    })
}

/// The lowest dangerous edge that a row holds; the search ends at the first
/// word that has one. Words past the end of a slice are 0, and those past
/// `ROW_WORDS` are not looked at.
pub fn first_danger(row: &[u64], danger: &[u64]) -> Option<usize> {
    let words = row.iter().zip(danger).take(ROW_WORDS);
    let mut common = words.map(|(row, danger)| row & danger).enumerate();
    let (at, word) = common.find(|&(_, word)| word != 0)?;
    Some(64 * at + word.trailing_zeros() as usize)
}

/// Whether a row holds a dangerous edge.
pub fn meet(row: &[u64], danger: &[u64]) -> bool {
    first_danger(row, danger).is_some()
}

pub struct Suite<'a> {
    names: Names,
    parts: Vec<&'a [u8]>,
    /// The tests' rows one after another, `width` words each.
    rows: Vec<u64>,
    width: usize,
}

impl<'a> Suite<'a> {
    pub fn len(&self) -> usize {
        self.parts.len()
    }

    pub fn is_empty(&self) -> bool {
        self.parts.is_empty()
    }

    pub fn name(&self, test: usize) -> &'a [u8] {
        self.parts[test]
    }

    pub fn row(&self, test: usize) -> &[u64] {
        &self.rows[test * self.width..][..self.width]
    }

    pub fn find(&self, name: Name) -> Option<usize> {
        self.names.find(name)
    }
}

/// The four edges of a lower-case hexadecimal digit, whose highest bit is the
/// lowest edge; 255 for another byte.
const DIGIT: [u8; 256] = {
    let mut table = [255; 256];
    let mut value = 0u8;
    while value < 16 {
        let edges = value.reverse_bits() >> 4;
        table[b"0123456789abcdef"[value as usize] as usize] = edges;
        value += 1;
    }
    table
};

/// Appends the row that these digits write; false if one is no digit or a
/// spare bit is 1.
fn push_row(rows: &mut Vec<u64>, digits: &[u8], edges: usize) -> bool {
    let mut all = 0;
    let mut last = 0;
    for chunk in digits.chunks(16) {
        // The first digit has the lowest edges. Where one is no digit the row
        // is of no use.
        last = 0;
        for &byte in chunk.iter().rev() {
            let four = DIGIT[byte as usize];
            all |= four;
            last = last << 4 | u64::from(four);
        }
        rows.push(last);
    }
    let used = edges % 64;
    let spare = if used == 0 { 0 } else { u64::MAX << used };
    all < 16 && last & spare == 0
}

/// Reads a test file against the number of old edges.
pub fn read(text: &[u8], edges: usize) -> Outcome<Suite<'_>> {
    limited(text)?;
    let digits = edges.div_ceil(4);
    let width = edges.div_ceil(64);
    // The shortest line that is right has 5 bytes and its row.
    let room = (text.len() / (5 + digits)).min(TEST_LIMIT);
    let mut suite = Suite {
        names: Names::with_limit(room + 1),
        parts: Vec::with_capacity(room),
        rows: Vec::with_capacity((room + 1) * width),
        width,
    };
    let mut cursor = Cursor::new(text);
    let mut number = 0;
    while !cursor.at_end() {
        number += 1;
        let Some((name, part, row)) = line(&mut cursor, digits) else {
            return Err(Answer::new(2, number));
        };
        if suite.parts.len() == TEST_LIMIT {
            return Err(Answer::new(4, number));
        }
        if suite.names.add(name).is_none() {
            return Err(Answer::new(5, number));
        }
        if row.len() != digits || !push_row(&mut suite.rows, row, edges) {
            return Err(Answer::new(10, number));
        }
        suite.parts.push(part);
    }
    Ok(suite)
}

/// A line's packed name, name and row field.
fn line<'a>(cursor: &mut Cursor<'a>, digits: usize) -> Option<(Name, &'a [u8], &'a [u8])> {
    cursor.eat(b'T')?;
    cursor.eat(b',')?;
    let (name, part) = cursor.name()?;
    cursor.eat(b',')?;
    let rest = cursor.rest();
    let length = match rest.get(digits) {
        // The field ends where it should unless it ends before.
        Some(b'\n') if !ends_within(&rest[..digits]) => digits,
        _ => {
            let end = rest.iter().position(|&b| b == b'\n' || b == b',')?;
            if rest[end] == b',' {
                return None;
            }
            end
        }
    };
    cursor.pass(length + 1);
    Some((name, part, &rest[..length]))
}

/// Whether a comma or byte 10 is among these bytes, without leaving early.
fn ends_within(bytes: &[u8]) -> bool {
    bytes
        .iter()
        .fold(false, |found, &b| found | (b == b'\n') | (b == b','))
}
