//! The search for a dangerous edge in a row: the lowest that the row holds, or
//! none. The library, where it is linked, and the independent implementation
//! must answer as a search does that tries one edge after another.

use rivetyellow_host::generate::random::Random;
use rivetyellow_host::search::{Search, INDEPENDENT, LINKED, NO_EDGE};

const WORDS: usize = 16;
const EDGES: usize = 64 * WORDS;
const NONE: [u64; WORDS] = [0; WORDS];
const ALL: [u64; WORDS] = [u64::MAX; WORDS];

/// A word past the end is 0.
fn holds(words: &[u64], edge: usize) -> bool {
    let word = words.get(edge / 64).copied().unwrap_or(0);
    word >> (edge % 64) & 1 == 1
}

fn edge_by_edge(row: &[u64], dangers: &[u64]) -> Option<usize> {
    (0..EDGES).find(|&edge| holds(row, edge) && holds(dangers, edge))
}

fn searches() -> impl Iterator<Item = Search> {
    [Some(INDEPENDENT), LINKED].into_iter().flatten()
}

/// Every search answers this edge.
fn found(row: &[u64], dangers: &[u64], due: Option<usize>) {
    assert_eq!(edge_by_edge(row, dangers), due, "{row:x?} {dangers:x?}");
    for Search { name, first_danger } in searches() {
        let edge = first_danger(row, dangers);
        assert_eq!(
            edge,
            due.unwrap_or(NO_EDGE),
            "{name}: {row:x?} {dangers:x?}"
        );
    }
}

/// The same with the two sets changed over.
fn found_either_way(row: &[u64], dangers: &[u64], due: Option<usize>) {
    found(row, dangers, due);
    found(dangers, row, due);
}

fn set(edges: impl IntoIterator<Item = usize>) -> [u64; WORDS] {
    let mut words = NONE;
    for edge in edges {
        words[edge / 64] |= 1 << (edge % 64);
    }
    words
}

// ---- fixed cases

#[test]
fn one_edge_alone() {
    for edge in [0, 1, 63, 64, 127, 1_022, 1_023] {
        found(&set([edge]), &set([edge]), Some(edge));
    }
}

/// Every edge in turn is the only dangerous one, the only one crossed, or the
/// only one that is both.
#[test]
fn one_edge_in_common() {
    let mut random = Random::new(4, 0);
    for edge in 0..EDGES {
        let one = set([edge]);
        found_either_way(&one, &ALL, Some(edge));
        let mut row = [(); WORDS].map(|_| random.draw());
        let mut dangers = row.map(|word| !word);
        row[edge / 64] |= one[edge / 64];
        dangers[edge / 64] |= one[edge / 64];
        found_either_way(&row, &dangers, Some(edge));
    }
}

#[test]
fn lowest_of_several() {
    found(&ALL, &ALL, Some(0));
    found(&set([0, 1_023]), &set([0, 1_023]), Some(0));
    found(&set([1, 62]), &set([1, 62]), Some(1));
    found(&set([63, 64]), &set([63, 64]), Some(63));
    found(&set([64, 127, 128]), &set([64, 127, 128]), Some(64));
    found(&set([1_022, 1_023]), &set([1_022, 1_023]), Some(1_022));
    // Lower edges that are in one of the sets only.
    found_either_way(&set([0, 5, 70, 1_023]), &set([1, 6, 70, 1_023]), Some(70));
    for first in 0..EDGES {
        found_either_way(&set(first..EDGES), &ALL, Some(first));
    }
}

#[test]
fn none_in_common() {
    found_either_way(&NONE, &NONE, None);
    found_either_way(&ALL, &NONE, None);
    // Beside the edge, and in another word.
    found_either_way(&set([0]), &set([1]), None);
    found_either_way(&set([63]), &set([64]), None);
    found_either_way(&set([7]), &set([64 + 7]), None);
    found_either_way(&set([1_022]), &set([1_023]), None);
    found_either_way(&set([0, 512, 1_023]), &set([1, 511, 1_022]), None);
    for edge in 0..EDGES {
        let others = set((0..EDGES).filter(|&other| other != edge));
        found_either_way(&others, &set([edge]), None);
    }
}

/// Slices of any length: what lies behind either of them, and what lies behind
/// 16 words, is not looked at.
#[test]
fn lengths() {
    found(&[], &[], None);
    found_either_way(&[], &ALL, None);
    let long = [u64::MAX; WORDS + 2];
    for word in 0..long.len() {
        for bit in [0, 31, 63] {
            let mut one = [0; WORDS + 2];
            one[word] = 1 << bit;
            let edge = Some(64 * word + bit);
            for a in 0..=long.len() {
                for b in 0..=long.len() {
                    let within = word < a.min(b).min(WORDS);
                    let due = edge.filter(|_| within);
                    found_either_way(&long[..a], &one[..b], due);
                }
            }
        }
    }
}

// ---- random cases

const CASES: usize = 10_000;

/// A row's words, of a random length: each edge crossed one time in 2 to the
/// `sparse`.
fn random_row(random: &mut Random, sparse: usize) -> Vec<u64> {
    let length = match random.percent(70) {
        true => WORDS,
        false => random.within(0, WORDS + 2),
    };
    let mut word = || (0..sparse).fold(u64::MAX, |word, _| word & random.draw());
    (0..length).map(|_| word()).collect()
}

/// Cases by where their edge is: in the first word, in one between, in the
/// last, nowhere.
#[test]
fn random_rows() {
    let mut random = Random::new(4, 1);
    let mut met = [0; 4];
    for _ in 0..CASES {
        let [sparse, sparse_dangers] = [(); 2].map(|_| random.within(0, 6));
        let row = random_row(&mut random, sparse);
        let mut dangers = random_row(&mut random, sparse_dangers);
        // In half of the cases no edge before some word is in both.
        if random.one_in(2) {
            let word = *random.pick(&[WORDS / 2, WORDS - 1, WORDS - 1, WORDS]);
            for (danger, row) in dangers.iter_mut().zip(&row).take(word) {
                *danger &= !row;
            }
        }
        let due = edge_by_edge(&row, &dangers);
        found_either_way(&row, &dangers, due);
        met[match due.map(|edge| edge / 64) {
            Some(0) => 0,
            Some(word) if word < WORDS - 1 => 1,
            Some(_) => 2,
            None => 3,
        }] += 1;
    }
    assert_eq!(met.iter().sum::<usize>(), CASES);
    assert!(met.iter().all(|&cases| cases >= 500), "{met:?}");
}
