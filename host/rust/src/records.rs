//! The records that are lent to the calls of the lent job, and what a call
//! is given of them. Lengths and layout are those of docs/MEMORY.md.

/// The job record: its stage and the counts of what was read.
#[repr(C)]
#[derive(Clone, Copy, PartialEq, Eq, Debug, Default)]
pub struct Job {
    pub stage: usize,
    pub old_procedures: usize,
    pub old_nodes: usize,
    pub old_edges: usize,
    pub new_procedures: usize,
    pub new_nodes: usize,
    pub new_edges: usize,
    pub tests: usize,
}

/// A node: its kind (E 0, S 1, C 2, X 3), where its label stands and how
/// long it is, and the procedures that it calls.
#[repr(C)]
#[derive(Clone, Copy, PartialEq, Eq, Debug, Default)]
pub struct Node {
    pub kind: usize,
    pub start: usize,
    pub length: usize,
    /// Digits to the base 256, 1 + each procedure, the first the lowest; 0
    /// where it is no C.
    pub callees: usize,
}

/// The number that has these callees as its digits.
pub fn joined_callees(callees: &[u16]) -> usize {
    let from_last = callees.iter().rev();
    from_last.fold(0, |number, &callee| 256 * number + 1 + usize::from(callee))
}

/// The callees that are the digits of a number; none if one of its digits is 0.
pub fn parted_callees(mut number: usize) -> Option<Vec<usize>> {
    let mut callees = Vec::new();
    while number > 0 {
        callees.push((number % 256).checked_sub(1)?);
        number /= 256;
    }
    Some(callees)
}

/// Records of nodes, and numbers of links, of each version.
pub const NODES: usize = 512;
pub const LINKS: usize = 6_080;
/// Numbers of tests, and words of their rows.
pub const TESTS: usize = 400;
pub const ROWS: usize = 3_200;
/// Numbers of scratch of a call that reads, and of one of stage 3.
pub const READ_SCRATCH: usize = 8_128;
pub const CALL_SCRATCH: usize = 16_912;

/// A version as it is lent once it was read: its text and its tables.
#[derive(Clone, Copy)]
pub struct Version<'m> {
    pub text: &'m [u8],
    pub nodes: &'m [Node],
    pub links: &'m [usize],
}

/// All that was read, as it is lent at stage 3.
#[derive(Clone, Copy)]
pub struct Read<'m> {
    pub old: Version<'m>,
    pub new: Version<'m>,
    pub text: &'m [u8],
    pub tests: &'m [usize],
    pub rows: &'m [u64],
}

/// The numbers of the requests.
pub const SHEET: usize = 0;
pub const RECORD: usize = 1;
pub const CHECK: usize = 2;
pub const LABEL: usize = 3;
pub const PROGRAM: usize = 4;
pub const PROBES: usize = 5;

/// A request: its number, its own two numbers and the text it comes with.
#[derive(Clone, Copy)]
pub struct Request<'m> {
    pub number: usize,
    pub a: usize,
    pub b: usize,
    pub input: &'m [u8],
}
