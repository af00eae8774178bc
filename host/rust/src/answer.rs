//! Answers: a number and a place.

use std::fmt;

/// What a call answers: 0 and the bytes written, or a refusal and its place.
#[derive(Clone, Copy, PartialEq, Eq, Debug)]
pub struct Answer {
    pub number: u32,
    pub place: u32,
}

/// A result of its own, or the refusal that ends the job.
pub type Outcome<T> = Result<T, Answer>;

impl Answer {
    pub const fn new(number: u32, place: u32) -> Answer {
        Answer { number, place }
    }

    /// 0 and the bytes written.
    pub const fn success(written: usize) -> Answer {
        Answer::new(0, written as u32)
    }

    /// The form in which the exported calls return an answer.
    pub const fn packed(self) -> u64 {
        ((self.number as u64) << 32) | self.place as u64
    }

    pub const fn unpacked(word: u64) -> Answer {
        Answer::new((word >> 32) as u32, word as u32)
    }

    pub const fn is_success(self) -> bool {
        self.number == 0
    }
}

impl fmt::Display for Answer {
    fn fmt(&self, f: &mut fmt::Formatter<'_>) -> fmt::Result {
        write!(f, "{},{}", self.number, self.place)
    }
}

/// What each number means, in words.
pub fn meaning(number: u32) -> &'static str {
    match number {
        0 => "success",
        1 => "text too long",
        2 => "line malformed",
        3 => "line out of place",
        4 => "line above the number allowed",
        5 => "name twice",
        6 => "number names nothing",
        7 => "same word twice at one node",
        8 => "procedure's entry, exit, edges or `-` broken",
        9 => "unknown callee",
        10 => "coverage row wrong",
        11 => "sheet order, count, number or name wrong",
        12 => "sheet claim false",
        13 => "call not of this stage",
        14 => "lent memory wrong",
        15 => "more than 4,096 pairs",
        16 => "output too short",
        _ => "unknown number",
    }
}
