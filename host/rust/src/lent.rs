//! Memory lent to a call, between guards.

use crate::generate::random::Random;
use crate::records::{Job, Node};

/// The most guard elements on either side.
const GUARD: usize = 64;

/// An element of lent memory; its guards depend on their places.
pub trait Element: Copy + PartialEq {
    fn guard(at: usize) -> Self;
}

impl Element for u8 {
    fn guard(at: usize) -> u8 {
        (at as u8).wrapping_mul(37) ^ 0x5a
    }
}

impl Element for usize {
    fn guard(at: usize) -> usize {
        at.wrapping_mul(0x9e37_79b9_7f4a_7c15) ^ 0x5a5a
    }
}

impl Element for u64 {
    fn guard(at: usize) -> u64 {
        usize::guard(at) as u64
    }
}

impl Element for Node {
    fn guard(at: usize) -> Node {
        Node {
            kind: at % 4,
            start: usize::guard(at),
            length: at,
            callees: !at,
        }
    }
}

impl Element for Job {
    fn guard(at: usize) -> Job {
        Job {
            stage: at % 4,
            old_nodes: usize::guard(at),
            tests: !at,
            ..Job::default()
        }
    }
}

/// What an output holds before a call.
pub fn pattern(at: usize) -> u8 {
    (at as u8).wrapping_mul(101) ^ 0xa7
}

/// How many guard bytes stand before a text or an output: any alignment.
pub fn front(random: &mut Random) -> usize {
    random.within(GUARD / 2, GUARD)
}

/// Elements with guards before and after them, of which the first `length`
/// are lent.
#[derive(Clone, Default)]
pub struct Lent<T> {
    elements: Vec<T>,
    start: usize,
    room: usize,
    length: usize,
}

impl<T: Element> Lent<T> {
    /// Sets up room for elements, after so many guards; all of them are lent.
    fn reserve(&mut self, front: usize, room: usize) {
        (self.start, self.room, self.length) = (front, room, room);
        self.elements.clear();
        self.elements
            .extend((0..front + room + GUARD).map(T::guard));
    }

    /// Lends a copy of these elements.
    pub fn hold(&mut self, front: usize, copied: &[T]) {
        self.reserve(front, copied.len());
        self.slice_mut().copy_from_slice(copied);
    }

    /// Lends elements that hold what is given for their places.
    pub fn fill(&mut self, front: usize, room: usize, held: impl Fn(usize) -> T) {
        self.reserve(front, room);
        for (at, element) in self.slice_mut().iter_mut().enumerate() {
            *element = held(at);
        }
    }

    /// Lends the first `length` elements, or all where there are fewer.
    pub fn lend(&mut self, length: usize) {
        self.length = length.min(self.room);
    }

    pub fn slice(&self) -> &[T] {
        &self.elements[self.start..self.start + self.length]
    }

    pub fn slice_mut(&mut self) -> &mut [T] {
        &mut self.elements[self.start..self.start + self.length]
    }

    /// The elements, lent or not.
    pub fn all(&self) -> &[T] {
        &self.elements[self.start..self.start + self.room]
    }

    pub fn all_mut(&mut self) -> &mut [T] {
        &mut self.elements[self.start..self.start + self.room]
    }

    /// Whether all elements are as in another memory, guards included.
    pub fn same(&self, other: &Lent<T>) -> bool {
        self.elements == other.elements
    }

    /// Whether every guard is as it was.
    pub fn guarded(&self) -> bool {
        (0..self.start)
            .chain(self.start + self.room..self.elements.len())
            .all(|at| self.elements[at] == T::guard(at))
    }
}
