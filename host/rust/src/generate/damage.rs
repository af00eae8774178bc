//! Damage to a text at byte, field or line.

use super::model::Bytes;
use super::random::Random;
use super::sheets::NUMBERS;
use crate::independent;
use std::ops::Range;

const BYTES: &[u8] = b"\n\n,,\x00\r \t0019azAZ_-*~\x7f\x80\xffPNBTMDRESCX";

const LINES: [&[u8]; 26] = [
    b"P,f",
    b"P,new",
    b"P,main",
    b"P,",
    b"P",
    b"P,a b",
    b"P,thirteenbytes",
    b"N,E,,",
    b"N,X,,",
    b"N,S,a,",
    b"N,S,,",
    b"N,C,a,f",
    b"N,C,a,nobody",
    b"N,C,a,",
    b"N,C,a,f+f",
    b"N,C,a,f+nobody",
    b"N,C,a,f+",
    b"N,C,a,f+f+f+f+f",
    b"N,Q,,",
    b"N,E,a,",
    b"B,0,-,1",
    b"B,1,ok,1",
    b"T,t1,f",
    b"",
    b"x",
    b"B,1,T,0",
];

const FIELDS: [&[u8]; 20] = [
    b"",
    b"-",
    b"a",
    b"f",
    b"main",
    b"nobody",
    b"f+main",
    b"main+",
    b"E",
    b"S",
    b"C",
    b"X",
    b"EE",
    b"ninebytes",
    b"thirteenbytes",
    b"twelve_bytes",
    b"a b",
    b"\xc3\xa9",
    b"e\te",
    b"a label of sixty-one bytes is one byte more than the limit...",
];

fn lines(text: &[u8]) -> Vec<Bytes> {
    text.split_inclusive(|&byte| byte == b'\n')
        .map(<[u8]>::to_vec)
        .collect()
}

/// Damages a text in one place.
pub fn damage(random: &mut Random, text: &mut Bytes) {
    match random.below(20) {
        0..=5 => damage_byte(random, text),
        6..=11 => damage_field(random, text),
        12..=18 => damage_line(random, text),
        _ => damage_twice(random, text),
    }
}

/// Repeats a line with its last field changed: two faults in one line, of
/// which the first in order is due.
fn damage_twice(random: &mut Random, text: &mut Bytes) {
    let mut lines = lines(text);
    if lines.is_empty() {
        return;
    }
    let at = random.below(lines.len());
    let line = &lines[at];
    let field = line
        .iter()
        .rposition(|&byte| byte == b',')
        .map_or(0, |comma| comma + 1);
    let other = *random.pick(&[
        &b"600"[..],
        b"0",
        b"00",
        b"99999999999999999999",
        b"",
        b"zz",
    ]);
    let repeated = [&line[..field], other, b"\n"].concat();
    let place = if random.percent(70) {
        at + 1
    } else {
        lines.len()
    };
    lines.insert(place, repeated);
    *text = lines.concat();
}

fn damage_byte(random: &mut Random, text: &mut Bytes) {
    if text.is_empty() {
        text.push(*random.pick(BYTES));
        return;
    }
    let at = random.below(text.len());
    match random.below(6) {
        0 => {
            text.remove(at);
        }
        1 => text.insert(at, *random.pick(BYTES)),
        2 => text[at] ^= 1 << random.below(8),
        3 => {
            text.pop();
        }
        _ => text[at] = *random.pick(BYTES),
    }
}

fn damage_field(random: &mut Random, text: &mut Bytes) {
    let mut lines = lines(text);
    if lines.is_empty() {
        return;
    }
    let line = random.below(lines.len());
    let other_line = random.below(lines.len());
    let parts = |line: &Bytes| -> Vec<Bytes> {
        let body = line.strip_suffix(b"\n").unwrap_or(line);
        body.split(|&byte| byte == b',')
            .map(<[u8]>::to_vec)
            .collect()
    };
    let others = parts(&lines[other_line]);
    let mut fields = parts(&lines[line]);
    let at = random.below(fields.len());
    let other = random.below(fields.len());
    match random.below(8) {
        0 => {
            fields.remove(at);
        }
        1 => fields.insert(at, random.pick(&FIELDS).to_vec()),
        2 => fields.swap(at, other),
        3 => fields[at] = random.pick(&others).clone(),
        4 => fields[at] = random.pick(&NUMBERS).to_vec(),
        5 => fields[at] = random.below(40).to_string().into_bytes(),
        _ => fields[at] = random.pick(&FIELDS).to_vec(),
    }
    lines[line] = fields.join(&b',');
    lines[line].push(b'\n');
    *text = lines.concat();
}

fn damage_line(random: &mut Random, text: &mut Bytes) {
    let mut lines = lines(text);
    let count = lines.len();
    let at = random.below(count.max(1));
    let to = random.below(count.max(1));
    match random.below(8) {
        6 if count > 0 => {
            // A P line repeated at the end is a name twice.
            let names: Vec<usize> = (0..count).filter(|&at| lines[at][0] == b'P').collect();
            let at = if names.is_empty() {
                at
            } else {
                *random.pick(&names)
            };
            let line = lines[at].clone();
            lines.push(line);
        }
        0 | 1 if count > 0 => {
            lines.remove(at);
        }
        2 if count > 0 => {
            let line = lines[at].clone();
            lines.insert(to, line);
        }
        3 if count > 0 => lines.swap(at, to),
        4 if count > 0 => {
            let line = lines.remove(at);
            lines.insert(to.min(count - 1), line);
        }
        5 if count > 0 => lines.truncate(at),
        _ => {
            let line = [*random.pick(&LINES), b"\n"].concat();
            lines.insert(if random.percent(50) { at } else { count }, line);
        }
    }
    *text = lines.concat();
}

/// Damages the callee field of a call: an empty name, a fifth one, one of 13
/// bytes, one that no procedure has, at any place; another byte for a `+`.
pub fn damage_callees(random: &mut Random, text: &mut Bytes) {
    let callees = places(&parts(text), Part::Callee);
    let split = |place: &Range<usize>| -> Vec<Bytes> {
        let names = text[place.clone()].split(|&byte| byte == b'+');
        names.map(<[u8]>::to_vec).collect()
    };
    let place = match random.percent(50) {
        true => callees.iter().max_by_key(|place| split(place).len()),
        false => callees.get(random.below(callees.len().max(1))),
    };
    let Some(place) = place else {
        return;
    };
    let mut names = split(place);
    let count = names.len();
    let at = match random.one_in(3) {
        true => count - 1,
        false => random.below(count),
    };
    let before = random.below(count + 1);
    let mut joint = b'+';
    match random.below(12) {
        0..=1 => names.insert(before, Bytes::new()),
        2 => names[at].clear(),
        // Names that may all be known; the fifth is one too many.
        3..=4 => {
            let last = random.within(5, 6);
            while names.len() < last {
                names.insert(random.below(names.len() + 1), names[at].clone());
            }
        }
        5 => names[at] = b"thirteenbytes".to_vec(),
        6..=7 => names[at] = b"nobody".to_vec(),
        8..=9 => names.insert(before, b"nobody".to_vec()),
        10 => names[at].push(*random.pick(b"+ -*\0")),
        _ => {
            names.insert(before, names[at].clone());
            joint = *random.pick(b"-,* _\n\t&");
        }
    }
    text.splice(place.clone(), names.join(&joint));
}

// ---- a program text that was read, spoilt before it is written back

/// What is taken from a program text when it is written back.
#[derive(Clone, Copy, PartialEq, Eq)]
pub enum Part {
    Name,
    Callee,
    Label,
    Word,
}

/// A part and where it stands.
pub type Placed = (Part, Range<usize>);

/// The parts of a program text.
pub fn parts(text: &[u8]) -> Vec<Placed> {
    let mut parts = Vec::new();
    let mut at = 0;
    for line in text.split_inclusive(|&byte| byte == b'\n') {
        let body = line.strip_suffix(b"\n").unwrap_or(line);
        for (number, field) in body.split(|&byte| byte == b',').enumerate() {
            let place = at..at + field.len();
            at = place.end + 1;
            let part = match (line[0], number) {
                (b'P', 1) => Part::Name,
                (b'N', 2) => Part::Label,
                (b'N', 3) => Part::Callee,
                (b'B', 2) => Part::Word,
                _ => continue,
            };
            if !field.is_empty() {
                parts.push((part, place));
            }
        }
    }
    parts
}

/// What is spoilt.
pub const OTHER_BYTES: &str = "bytes of no part changed";
pub const LABEL_BYTE: &str = "a byte of a label changed";
pub const NAME_BYTE: &str = "a byte of a name changed";
pub const CALLEE_BYTE: &str = "a byte of a callee changed";
pub const PLUS_BYTE: &str = "a `+` between two callees changed";
pub const CALLEES_EXCHANGED: &str = "two callees of a call exchanged";
pub const WORD_BYTE: &str = "a byte of a word changed";
pub const RENAMED: &str = "a byte of a name changed, in its calls too";
pub const NAMES_EXCHANGED: &str = "two names exchanged";
pub const CALLS_EXCHANGED: &str = "two names exchanged, in their calls too";
pub const OTHER_CALLEE: &str = "another name as a callee";
pub const OTHER_WORD: &str = "another word for a word";
pub const BYTE_MORE: &str = "a byte more";
pub const BYTE_LESS: &str = "a byte less";

/// Bytes that end a part or may not stand in one, beside some that may.
const PART_BYTES: &[u8] = b",\n\x00\x1f\x7f\xff ,\n 07_-*";

/// Spoils a program text that was accepted, and says what of it.
pub fn spoil_program(random: &mut Random, text: &mut Bytes) -> &'static str {
    let parts = parts(text);
    let spoilt = match random.below(27) {
        0..=3 => spoil_byte(random, text, &parts, Part::Label).then_some(LABEL_BYTE),
        4..=5 => spoil_byte(random, text, &parts, Part::Name).then_some(NAME_BYTE),
        6..=7 => spoil_byte(random, text, &parts, Part::Callee).then_some(CALLEE_BYTE),
        8..=9 => spoil_byte(random, text, &parts, Part::Word).then_some(WORD_BYTE),
        10..=11 => rename(random, text, &parts).then_some(RENAMED),
        12 => exchange(random, text, &parts, false).then_some(NAMES_EXCHANGED),
        13 => exchange(random, text, &parts, true).then_some(CALLS_EXCHANGED),
        14 => {
            let called = names_called(text, &parts);
            let names = places(&parts, Part::Name);
            replace(random, text, &called, &names).then_some(OTHER_CALLEE)
        }
        15 => {
            let words = places(&parts, Part::Word);
            replace(random, text, &words, &words).then_some(OTHER_WORD)
        }
        16 => {
            let at = match random.percent(50) {
                true => text.len(),
                false => random.below(text.len() + 1),
            };
            text.insert(at, *random.pick(BYTES));
            Some(BYTE_MORE)
        }
        17 if !text.is_empty() => {
            let at = match random.percent(50) {
                true => text.len() - 1,
                false => random.below(text.len()),
            };
            text.remove(at);
            Some(BYTE_LESS)
        }
        18..=19 => spoil_plus(random, text, &parts).then_some(PLUS_BYTE),
        20 => exchange_callees(random, text, &parts).then_some(CALLEES_EXCHANGED),
        _ => None,
    };
    spoilt.unwrap_or_else(|| {
        spoil_others(random, text, &parts);
        OTHER_BYTES
    })
}

/// The places of a sort of parts.
fn places(parts: &[Placed], sort: Part) -> Vec<Range<usize>> {
    let of = parts.iter().filter(|(part, _)| *part == sort);
    of.map(|(_, place)| place.clone()).collect()
}

/// The places of the names that the calls have; those of one call are next to
/// each other.
pub fn names_called(text: &[u8], parts: &[Placed]) -> Vec<Range<usize>> {
    let mut names = Vec::new();
    for field in places(parts, Part::Callee) {
        let mut start = field.start;
        for name in text[field].split(|&byte| byte == b'+') {
            names.push(start..start + name.len());
            start += name.len() + 1;
        }
    }
    names
}

/// Where the bytes stand that are in no part.
fn other_places(text: &[u8], parts: &[Placed]) -> Vec<usize> {
    let mut others = Vec::new();
    let mut at = 0;
    for (_, place) in parts {
        others.extend(at..place.start);
        at = place.end;
    }
    others.extend(at..text.len());
    others
}

/// Changes one byte that is in no part, some, or all.
fn spoil_others(random: &mut Random, text: &mut Bytes, parts: &[Placed]) {
    let mut others = other_places(text, parts);
    random.shuffle(&mut others);
    let count = match random.below(4) {
        0 => random.below(others.len() + 1),
        1 => others.len(),
        _ => 1,
    };
    let same = random.percent(40).then(|| *random.pick(BYTES));
    for &at in others.iter().take(count) {
        text[at] = same.unwrap_or(*random.pick(BYTES));
    }
}

/// Another byte than this one, mostly of the sort that a part has.
fn other_byte(random: &mut Random, byte: u8) -> u8 {
    let other = match random.percent(50) {
        true => b'a' + random.below(26) as u8,
        false => *random.pick(PART_BYTES),
    };
    if other == byte {
        return byte ^ 1;
    }
    other
}

/// Changes one byte of a part of this sort.
fn spoil_byte(random: &mut Random, text: &mut Bytes, parts: &[Placed], sort: Part) -> bool {
    let places = places(parts, sort);
    if places.is_empty() {
        return false;
    }
    let place = random.pick(&places).clone();
    let at = random.within(place.start, place.end - 1);
    text[at] = other_byte(random, text[at]);
    true
}

/// Changes a `+` between two callees, for a byte that a name may have, too.
fn spoil_plus(random: &mut Random, text: &mut Bytes, parts: &[Placed]) -> bool {
    let fields = places(parts, Part::Callee).into_iter().flatten();
    let pluses: Vec<usize> = fields.filter(|&at| text[at] == b'+').collect();
    if pluses.is_empty() {
        return false;
    }
    let at = *random.pick(&pluses);
    text[at] = other_byte(random, text[at]);
    true
}

/// Exchanges two names next to each other in a call that are not the same.
fn exchange_callees(random: &mut Random, text: &mut Bytes, parts: &[Placed]) -> bool {
    let names = names_called(text, parts);
    let both: Vec<_> = names
        .windows(2)
        .filter(|two| two[0].end + 1 == two[1].start)
        .map(|two| two[0].start..two[1].end)
        .collect();
    if both.is_empty() {
        return false;
    }
    let both = random.pick(&both).clone();
    let mut exchanged: Vec<&[u8]> = text[both.clone()].split(|&byte| byte == b'+').collect();
    exchanged.reverse();
    let exchanged = exchanged.join(&b'+');
    let other = text[both.clone()] != exchanged[..];
    text[both].copy_from_slice(&exchanged);
    other
}

/// Changes one byte of a name, and of every callee that is this name.
fn rename(random: &mut Random, text: &mut Bytes, parts: &[Placed]) -> bool {
    let names = places(parts, Part::Name);
    if names.is_empty() {
        return false;
    }
    let place = random.pick(&names).clone();
    let name = text[place.clone()].to_vec();
    let at = random.below(name.len());
    let byte = other_byte(random, name[at]);
    for callee in names_called(text, parts) {
        if text[callee.clone()] == name {
            text[callee.start + at] = byte;
        }
    }
    text[place.start + at] = byte;
    true
}

/// Exchanges two names of the same length, in callees too if so told.
fn exchange(random: &mut Random, text: &mut Bytes, parts: &[Placed], calls: bool) -> bool {
    let names = places(parts, Part::Name);
    let Some((one, other)) = as_long(random, &names, &names) else {
        return false;
    };
    let (one, other) = (text[one].to_vec(), text[other].to_vec());
    let mut changed = names;
    if calls {
        changed.extend(names_called(text, parts));
    }
    for place in changed {
        if text[place.clone()] == one {
            text[place].copy_from_slice(&other);
        } else if text[place.clone()] == other {
            text[place].copy_from_slice(&one);
        }
    }
    true
}

/// Puts one of these parts where another as long stands that is not the same.
fn replace(
    random: &mut Random,
    text: &mut Bytes,
    spoilt: &[Range<usize>],
    by: &[Range<usize>],
) -> bool {
    for _ in 0..8 {
        if let Some((to, from)) = as_long(random, spoilt, by) {
            if text[to.clone()] != text[from.clone()] {
                text.copy_within(from, to.start);
                return true;
            }
        }
    }
    false
}

/// Another program with the same parts at the same places: kinds or numbers
/// differ, and it is accepted too.
pub fn twin(random: &mut Random, text: &[u8]) -> Option<Bytes> {
    let accepted = |text: &[u8]| independent::read_old(text).is_success();
    if !accepted(text) {
        return None;
    }
    let others = other_places(text, &parts(text));
    let numbers: Vec<usize> = others
        .into_iter()
        .filter(|&at| text[at].is_ascii_digit())
        .collect();
    for _ in 0..12 {
        let mut twin = text.to_vec();
        if random.one_in(3) {
            exchange_ends(random, &mut twin, &numbers);
        } else {
            for _ in 0..random.within(1, 3) {
                twin[*random.pick(&numbers)] = b'0' + random.below(10) as u8;
            }
        }
        if twin != text && accepted(&twin) {
            return Some(twin);
        }
    }
    None
}

/// Exchanges an entry and an exit whose numbers have one digit, also in the
/// edges.
fn exchange_ends(random: &mut Random, text: &mut Bytes, numbers: &[usize]) {
    let starts = (0..text.len()).filter(|&at| at == 0 || text[at - 1] == b'\n');
    let nodes = starts.filter(|&at| text[at] == b'N').take(10);
    let kinds: Vec<usize> = nodes.map(|at| at + 2).collect();
    let of = |kind: u8| -> Vec<usize> {
        let nodes = 0..kinds.len();
        nodes.filter(|&node| text[kinds[node]] == kind).collect()
    };
    let (entries, exits) = (of(b'E'), of(b'X'));
    if entries.is_empty() || exits.is_empty() {
        return;
    }
    let (one, other) = (*random.pick(&entries), *random.pick(&exits));
    text.swap(kinds[one], kinds[other]);
    let (one, other) = (b'0' + one as u8, b'0' + other as u8);
    for &at in numbers {
        if text[at - 1] == b',' && !text[at + 1].is_ascii_digit() {
            text[at] = match text[at] {
                digit if digit == one => other,
                digit if digit == other => one,
                digit => digit,
            };
        }
    }
}

/// Two different places of the same length.
fn as_long(
    random: &mut Random,
    ones: &[Range<usize>],
    others: &[Range<usize>],
) -> Option<(Range<usize>, Range<usize>)> {
    if ones.is_empty() {
        return None;
    }
    let one = random.pick(ones).clone();
    let others: Vec<_> = others
        .iter()
        .filter(|other| other.len() == one.len() && **other != one)
        .collect();
    if others.is_empty() {
        return None;
    }
    Some((one, (*random.pick(&others)).clone()))
}
