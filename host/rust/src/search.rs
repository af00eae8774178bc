//! The search for the lowest dangerous edge in a row, of the linked library
//! and of the independent implementation. An edge is the bit `edge % 64` of
//! the word `edge / 64`; a word past the end of a slice is 0, and words from
//! 16 on are not looked at.

use crate::independent::suite;

/// What a search answers if there is no edge.
pub const NO_EDGE: usize = 1_024;

/// One implementation's search.
pub struct Search {
    pub name: &'static str,
    /// In a row, for an edge of these dangerous ones.
    pub first_danger: fn(&[u64], &[u64]) -> usize,
}

/// The independent implementation.
pub const INDEPENDENT: Search = Search {
    name: "independent",
    first_danger: |row, dangers| suite::first_danger(row, dangers).unwrap_or(NO_EDGE),
};

/// The linked library, if it was built in.
#[cfg(linked)]
pub const LINKED: Option<Search> = Some(Search {
    name: "linked",
    first_danger: linked::first_danger,
});
#[cfg(not(linked))]
pub const LINKED: Option<Search> = None;

#[cfg(linked)]
mod linked {
    extern "C" {
        fn row_search(
            row: *const u64,
            row_len: usize,
            dangers: *const u64,
            dangers_len: usize,
        ) -> usize;
    }

    /// Searches a row. The call reads only the two slices and keeps no
    /// pointer, which is what makes this safe.
    pub fn first_danger(row: &[u64], dangers: &[u64]) -> usize {
        unsafe { row_search(row.as_ptr(), row.len(), dangers.as_ptr(), dangers.len()) }
    }
}
