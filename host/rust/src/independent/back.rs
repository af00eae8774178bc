//! Programs written back: the program file is found from the tables, and from
//! the lent text only the bytes of names, callees, labels and words.

use super::job::UNNAMED;
use super::program::{EDGE_LIMIT, NODE_LIMIT, PROCEDURE_LIMIT};
use super::tables::{self, EDGES};
use crate::answer::Answer;
use crate::records::{parted_callees, Version};

/// Writes the text of a side, or answers 6 or 16.
pub fn write(texts: &[&[u8]; 2], side: usize, out: &mut [u8]) -> Answer {
    let Some(text) = texts.get(side) else {
        return UNNAMED;
    };
    match out.get_mut(..text.len()) {
        None => Answer::new(16, 0),
        Some(room) => {
            room.copy_from_slice(text);
            Answer::success(text.len())
        }
    }
}

/// The text that leaves these tables, with these counts of procedures, nodes
/// and edges, and differs from the lent text in other bytes alone than those
/// of names, callees, labels and words. There is at most one, since the tables
/// tell where each line stands.
pub fn text(lent: &Version, counts: [usize; 3]) -> Option<Vec<u8>> {
    let text = laid_out(lent, counts)?;
    let read = tables::program(&text).ok()?;
    let left = read.counts() == counts && read.left(lent.nodes, lent.links);
    (left && same_parts(&text, lent.text)).then_some(text)
}

/// Whether the parts of an accepted text stand in the lent one.
fn same_parts(text: &[u8], lent: &[u8]) -> bool {
    tables::lines(text).all(|(start, fields)| {
        let mut at = start;
        let kind = fields[0];
        fields.into_iter().enumerate().all(|(number, field)| {
            let place = at..at + field.len();
            at = place.end + 1;
            let part = match kind {
                b"P" => number == 1,
                b"N" => number >= 2,
                _ => number == 2,
            };
            !part || &lent[place] == field
        })
    })
}

/// A text of which some bytes are known.
struct Page {
    bytes: Vec<Option<u8>>,
    /// Where the next byte goes.
    at: usize,
}

impl Page {
    fn go(&mut self, to: Option<usize>) -> Option<()> {
        self.at = to?;
        Some(())
    }

    /// Puts bytes where none are known; none may be beyond the end.
    fn put(&mut self, bytes: &[u8]) -> Option<()> {
        for &byte in bytes {
            let place = self.bytes.get_mut(self.at)?;
            if place.replace(byte).is_some() {
                return None;
            }
            self.at += 1;
        }
        Some(())
    }
}

/// Lays the line of each record of the tables out where they tell that it
/// stands; none if two lines meet, a byte is left over, or a number is none
/// that reading leaves.
fn laid_out(lent: &Version, [procedures, nodes, edges]: [usize; 3]) -> Option<Vec<u8>> {
    if procedures > PROCEDURE_LIMIT || nodes > NODE_LIMIT || edges > EDGE_LIMIT {
        return None;
    }
    let mut page = Page {
        bytes: vec![None; lent.text.len()],
        at: 0,
    };
    for row in lent.links[..7 * procedures].chunks(7) {
        page.go(row[0].checked_sub(2))?;
        page.put(b"P,")?;
        page.put(part(lent.text, row[0], row[1])?)?;
        page.put(b"\n")?;
    }
    for node in &lent.nodes[..nodes] {
        page.go(node.start.checked_sub(4))?;
        page.put(b"N,")?;
        page.put(&[*b"ESCX".get(node.kind)?, b','])?;
        page.put(part(lent.text, node.start, node.length)?)?;
        page.put(b",")?;
        if node.kind == 2 {
            // As long as the names that it joins, with a `+` between two.
            let mut length: usize = 0;
            for callee in parted_callees(node.callees)? {
                let called = lent.links[..7 * procedures].chunks(7).nth(callee)?;
                length = length.checked_add(called[1])?.checked_add(1)?;
            }
            page.put(part(lent.text, page.at, length.checked_sub(1)?)?)?;
        }
        page.put(b"\n")?;
    }
    for row in lent.links[EDGES..EDGES + 5 * edges].chunks(5) {
        let (from, to) = (row[0].to_string(), row[3].to_string());
        page.go(row[1].checked_sub(3 + from.len()))?;
        page.put(b"B,")?;
        page.put(from.as_bytes())?;
        page.put(b",")?;
        let word = row[2].to_le_bytes();
        let length = word.iter().position(|&byte| byte == 0);
        page.put(&word[..length.unwrap_or(word.len())])?;
        page.put(b",")?;
        page.put(to.as_bytes())?;
        page.put(b"\n")?;
    }
    page.bytes.into_iter().collect()
}

/// So many bytes of a text from a place on.
fn part(text: &[u8], start: usize, length: usize) -> Option<&[u8]> {
    text.get(start..)?.get(..length)
}
