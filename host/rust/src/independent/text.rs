//! Lines and fields: a cursor that reads each form in one pass.
//!
//! In a line 2 is tested before all else, so a line whose form breaks at any
//! byte, its missing byte 10 included, is refused without finding its end.

use crate::answer::{Answer, Outcome};

pub const TEXT_LIMIT: usize = 65_536;
pub const NAME_LIMIT: usize = 12;
pub const LABEL_LIMIT: usize = 60;
pub const WORD_LIMIT: usize = 8;

/// A name packed into one number: its bytes are never 0, so packing is exact.
pub type Name = u128;
/// A word packed likewise.
pub type Word = u64;

const NAME: u8 = 1;
const LABEL: u8 = 2;
const WORD: u8 = 4;

/// The classes of each byte.
const CLASS: [u8; 256] = {
    let mut table = [0; 256];
    let mut b = 0;
    while b < 256 {
        let byte = b as u8;
        let mut class = 0;
        if byte.is_ascii_alphanumeric() || byte == b'_' {
            class |= NAME;
        }
        if byte >= 32 && byte <= 126 && byte != b',' {
            class |= LABEL;
        }
        if byte >= 33 && byte <= 126 && byte != b',' {
            class |= WORD;
        }
        table[b] = class;
        b += 1;
    }
    table
};

fn is(byte: u8, class: u8) -> bool {
    CLASS[byte as usize] & class != 0
}

/// Refuses a text above the limit.
pub fn limited(text: &[u8]) -> Outcome<()> {
    if text.len() > TEXT_LIMIT {
        return Err(Answer::new(1, 0));
    }
    Ok(())
}

/// A name's bytes as one number.
pub fn packed(name: &[u8]) -> Name {
    name.iter()
        .fold(0, |packed, &byte| packed << 8 | Name::from(byte))
}

/// A place in a text. Each reading function answers `None` where the form
/// does not go on so.
pub struct Cursor<'a> {
    text: &'a [u8],
    at: usize,
}

impl<'a> Cursor<'a> {
    pub fn new(text: &'a [u8]) -> Cursor<'a> {
        Cursor { text, at: 0 }
    }

    pub fn at_end(&self) -> bool {
        self.at == self.text.len()
    }

    /// The rest of the text.
    pub fn rest(&self) -> &'a [u8] {
        &self.text[self.at..]
    }

    /// Goes on past `count` bytes of the rest.
    pub fn pass(&mut self, count: usize) {
        self.at += count;
    }

    pub fn byte(&mut self) -> Option<u8> {
        let byte = *self.text.get(self.at)?;
        self.at += 1;
        Some(byte)
    }

    pub fn eat(&mut self, wanted: u8) -> Option<()> {
        if self.text.get(self.at) == Some(&wanted) {
            self.at += 1;
            return Some(());
        }
        None
    }

    pub fn eat_all(&mut self, wanted: &[u8]) -> Option<()> {
        if self.rest().starts_with(wanted) {
            self.at += wanted.len();
            return Some(());
        }
        None
    }

    /// The bytes of a class from here on.
    fn span(&mut self, class: u8) -> &'a [u8] {
        let rest = self.rest();
        let length = rest
            .iter()
            .position(|&byte| !is(byte, class))
            .unwrap_or(rest.len());
        self.at += length;
        &rest[..length]
    }

    /// A decimal number of any length. Values from `u32::MAX` on are given as
    /// `u32::MAX`, which is above every count there is.
    pub fn number(&mut self) -> Option<u32> {
        let first = self.byte()?;
        if !first.is_ascii_digit() {
            return None;
        }
        let mut value = u32::from(first - b'0');
        if value == 0 {
            // A digit here would follow a leading zero; the caller's next
            // byte is a comma or byte 10, so it is refused there.
            return Some(0);
        }
        while let Some(&byte) = self.text.get(self.at) {
            if !byte.is_ascii_digit() {
                break;
            }
            value = value
                .saturating_mul(10)
                .saturating_add(u32::from(byte - b'0'));
            self.at += 1;
        }
        Some(value)
    }

    pub fn name(&mut self) -> Option<(Name, &'a [u8])> {
        let part = self.span(NAME);
        if part.is_empty() || part.len() > NAME_LIMIT {
            return None;
        }
        Some((packed(part), part))
    }

    pub fn word(&mut self) -> Option<Word> {
        let part = self.span(WORD);
        if part.is_empty() || part.len() > WORD_LIMIT {
            return None;
        }
        Some(
            part.iter()
                .fold(0, |packed: Word, &byte| packed << 8 | Word::from(byte)),
        )
    }

    pub fn label(&mut self) -> Option<&'a [u8]> {
        let part = self.span(LABEL);
        (!part.is_empty() && part.len() <= LABEL_LIMIT).then_some(part)
    }
}

/// Names with numbers in order of adding, by open addressing.
pub struct Names {
    slots: Vec<u16>,
    names: Vec<Name>,
}

const FREE: u16 = u16::MAX;

impl Names {
    /// Room for `limit` names, half the slots staying free.
    pub fn with_limit(limit: usize) -> Names {
        Names {
            slots: vec![FREE; (2 * limit).next_power_of_two()],
            names: Vec::with_capacity(limit),
        }
    }

    fn slot(&self, name: Name) -> usize {
        let mixed = (name as u64 ^ (name >> 64) as u64).wrapping_mul(0x9e37_79b9_7f4a_7c15);
        let mask = self.slots.len() - 1;
        let mut slot = (mixed >> 40) as usize & mask;
        while self.slots[slot] != FREE && self.names[self.slots[slot] as usize] != name {
            slot = (slot + 1) & mask;
        }
        slot
    }

    /// Adds a name; `None` if it is there already.
    pub fn add(&mut self, name: Name) -> Option<usize> {
        let slot = self.slot(name);
        if self.slots[slot] != FREE {
            return None;
        }
        let number = self.names.len();
        self.slots[slot] = number as u16;
        self.names.push(name);
        Some(number)
    }

    pub fn find(&self, name: Name) -> Option<usize> {
        match self.slots[self.slot(name)] {
            FREE => None,
            number => Some(number as usize),
        }
    }
}
