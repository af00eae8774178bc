//! Labels whose blanks are moved, so that they match, and labels that nearly
//! match.

use super::model::{Bytes, Node, Program};
use super::random::Random;

pub const LABEL_LIMIT: usize = 60;

/// The parts of a label between its blanks. Two labels match if these are
/// equal.
pub fn parts(label: &[u8]) -> Vec<Bytes> {
    let parts = label.split(|&byte| byte == b' ');
    let parts = parts.filter(|part| !part.is_empty());
    parts.map(<[u8]>::to_vec).collect()
}

/// A label with its blanks moved: at both ends and in each inner run there
/// are others, up to what a label may have.
pub fn formatted(random: &mut Random, label: &[u8]) -> Bytes {
    laid_out(random, &parts(label))
}

/// The label of these parts, with any blanks. What is too long is cut off.
fn laid_out(random: &mut Random, parts: &[Bytes]) -> Bytes {
    let bytes: usize = parts.iter().map(Vec::len).sum();
    let inner = parts.len().saturating_sub(1);
    let room = LABEL_LIMIT.saturating_sub(bytes + inner);
    let spare = match random.below(10) {
        0 | 1 => 0,
        2..=6 => random.within(1, 4).min(room),
        7 => room,
        _ => random.below(room + 1),
    };
    // Before each part and at the end.
    let mut blanks = vec![1; parts.len() + 1];
    blanks[0] = 0;
    blanks[parts.len()] = 0;
    let one = random.below(blanks.len());
    let spread = random.percent(60);
    for _ in 0..spare {
        blanks[if spread {
            random.below(parts.len() + 1)
        } else {
            one
        }] += 1;
    }
    let mut label = Bytes::new();
    for (at, &count) in blanks.iter().enumerate() {
        label.extend(std::iter::repeat_n(b' ', count));
        label.extend(parts.get(at).into_iter().flatten());
    }
    label.truncate(LABEL_LIMIT);
    if label.is_empty() {
        label.push(b' ');
    }
    label
}

/// The byte next to the blank, and some that look like one.
const OTHERS: &[u8] = b"!!_-.~";

/// A label that nearly matches: a blank less or more between two bytes, or
/// another byte for one, a byte or part less or more at an end, two parts
/// changed about, another byte. Its other blanks may be moved too.
pub fn near(random: &mut Random, label: &[u8]) -> Bytes {
    let mut parts = parts(label);
    let count = parts.len();
    let inner = (count > 1).then(|| random.below(count - 1));
    let at = random.below(count.max(1));
    match (random.below(32), inner) {
        _ if count == 0 => parts.push(vec![*random.pick(b"!_a")]),
        (0..=7, Some(first)) => {
            let next = parts.remove(first + 1);
            parts[first].extend(next);
        }
        (8..=15, Some(first)) => {
            let next = parts.remove(first + 1);
            parts[first].push(*random.pick(OTHERS));
            parts[first].extend(next);
        }
        (16, Some(first)) => parts.swap(first, first + 1),
        (17, Some(_)) => {
            parts.pop();
        }
        (18, _) => parts.push(b"a".to_vec()),
        (19, _) => parts[count - 1].push(b'a'),
        (20, _) if parts[count - 1].len() > 1 => {
            parts[count - 1].pop();
        }
        (21, _) => {
            let byte = random.below(parts[at].len());
            parts[at][byte] ^= 1;
        }
        // A blank within a part, or for a byte of it.
        (kind, _) if parts[at].len() > 1 => {
            let byte = random.within(1, parts[at].len() - 1);
            let mut rest = parts[at].split_off(byte);
            if kind % 2 == 0 {
                rest.remove(0);
            }
            parts.insert(at + 1, rest);
        }
        _ => parts[at].push(*random.pick(OTHERS)),
    }
    parts.iter_mut().flatten().for_each(|byte| {
        // Neither a comma nor a byte above those of labels.
        if matches!(*byte, b',' | 127) {
            *byte = b'!';
        }
    });
    match random.percent(50) {
        true => laid_out(random, &parts),
        false => {
            let mut label = parts.join(&b' ');
            label.truncate(LABEL_LIMIT);
            label
        }
    }
}

/// A label of parts of a few bytes, up to the limit.
pub fn long(random: &mut Random) -> Bytes {
    let length = random.within(50, LABEL_LIMIT);
    let mut label = Bytes::new();
    while label.len() < length {
        let part = random.within(1, 9);
        label.extend((0..part).map(|_| b'a' + random.below(3) as u8));
        label.push(b' ');
    }
    label.truncate(length);
    label
}

/// The nodes of a program that have labels.
pub fn labelled(program: &mut Program) -> impl Iterator<Item = &mut Node> {
    let nodes = program.procedures.iter_mut().flat_map(|p| &mut p.nodes);
    nodes.filter(|node| matches!(node.kind, b'S' | b'C'))
}

/// Moves the blanks of `count` in a hundred labels.
pub fn format_some(random: &mut Random, program: &mut Program, count: usize) {
    for node in labelled(program) {
        if random.percent(count) {
            node.label = formatted(random, &node.label);
        }
    }
}
