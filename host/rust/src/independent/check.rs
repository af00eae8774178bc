//! The sheet checker: reads a sheet's layout, then judges its claims.

use super::closing::{called, compare, Graph, Pairs, PAIR_LIMIT};
use super::job::Job;
use super::sheet::FIRST_LINE;
use super::suite::{holds, meet, place_of, ROW_WORDS};
use super::text::{limited, Cursor, Name};
use crate::answer::{Answer, Outcome};

/// A line of one of the five forms.
enum Line {
    First,
    Pair(u32, u32),
    Danger(u32),
    Repeated(Name),
    End([u32; 3]),
}

fn line(cursor: &mut Cursor) -> Option<Line> {
    let line = match cursor.byte()? {
        b'M' => {
            cursor.eat(b',')?;
            let old = cursor.number()?;
            cursor.eat(b',')?;
            Line::Pair(old, cursor.number()?)
        }
        b'D' => {
            cursor.eat(b',')?;
            Line::Danger(cursor.number()?)
        }
        b'R' => {
            cursor.eat(b',')?;
            Line::Repeated(cursor.name()?.0)
        }
        b'e' => {
            cursor.eat_all(b"nd")?;
            let mut counts = [0; 3];
            for count in &mut counts {
                cursor.eat(b',')?;
                *count = cursor.number()?;
            }
            Line::End(counts)
        }
        b's' => {
            cursor.eat_all(&FIRST_LINE[1..FIRST_LINE.len() - 1])?;
            Line::First
        }
        _ => return None,
    };
    cursor.eat(b'\n')?;
    Some(line)
}

/// How far a sheet has come; lines of a kind never stand before those of an
/// earlier one.
#[derive(Clone, Copy, PartialEq, Eq, PartialOrd, Ord)]
enum Part {
    Start,
    Pairs,
    Dangers,
    Repeated,
    Ended,
}

/// What a sheet lists.
struct Listed {
    pairs: Pairs,
    danger: [u64; ROW_WORDS],
    repeated: Vec<bool>,
}

struct Reader<'j> {
    job: &'j Job<'j>,
    listed: Listed,
    part: Part,
    counts: [u32; 3],
    /// One past the newest D edge and R test.
    next_edge: u32,
    next_test: usize,
}

fn read<'j>(job: &'j Job<'j>, text: &[u8]) -> Outcome<Listed> {
    limited(text)?;
    let mut reader = Reader {
        job,
        listed: Listed {
            pairs: Pairs::new(job.old.nodes.len(), job.new.nodes.len()),
            danger: [0; ROW_WORDS],
            repeated: vec![false; job.suite.len()],
        },
        part: Part::Start,
        counts: [0; 3],
        next_edge: 0,
        next_test: 0,
    };
    let mut cursor = Cursor::new(text);
    let mut number = 0;
    while !cursor.at_end() {
        number += 1;
        let Some(line) = line(&mut cursor) else {
            return Err(Answer::new(2, number));
        };
        if matches!(line, Line::Pair(..)) && reader.counts[0] as usize == PAIR_LIMIT {
            return Err(Answer::new(4, number));
        }
        if reader.take(line).is_none() {
            return Err(Answer::new(11, number));
        }
    }
    if reader.part != Part::Ended {
        return Err(Answer::new(11, number + 1));
    }
    Ok(reader.listed)
}

impl Reader<'_> {
    /// Takes a line in; `None` if its order, number, count or name is wrong.
    fn take(&mut self, line: Line) -> Option<()> {
        let from_first = Part::Pairs..Part::Ended;
        let right = match line {
            Line::First => self.part == Part::Start,
            Line::Pair(..) => self.part == Part::Pairs,
            Line::Danger(_) => from_first.contains(&self.part) && self.part <= Part::Dangers,
            Line::Repeated(_) | Line::End(_) => from_first.contains(&self.part),
        };
        if !right {
            return None;
        }
        match line {
            Line::First => self.part = Part::Pairs,
            Line::Pair(old, new) => self.pair(old, new)?,
            Line::Danger(edge) => {
                if edge < self.next_edge || edge as usize >= self.job.old.edges.len() {
                    return None;
                }
                let (word, bit) = place_of(edge as usize);
                self.listed.danger[word] |= bit;
                self.next_edge = edge + 1;
                self.counts[1] += 1;
                self.part = Part::Dangers;
            }
            Line::Repeated(name) => {
                let test = self.job.suite.find(name)?;
                if test < self.next_test {
                    return None;
                }
                self.listed.repeated[test] = true;
                self.next_test = test + 1;
                self.counts[2] += 1;
                self.part = Part::Repeated;
            }
            Line::End(counts) => {
                if counts != self.counts {
                    return None;
                }
                self.part = Part::Ended;
            }
        }
        Some(())
    }

    fn pair(&mut self, old: u32, new: u32) -> Option<()> {
        if old as usize >= self.job.old.nodes.len() || new as usize >= self.job.new.nodes.len() {
            return None;
        }
        let pair = (old as u16, new as u16);
        if self
            .listed
            .pairs
            .list
            .last()
            .is_some_and(|&last| last >= pair)
        {
            return None;
        }
        self.listed.pairs.add(pair.0, pair.1);
        self.counts[0] += 1;
        Some(())
    }
}

/// Checks a sheet's text against a job that was read.
pub fn check(job: &Job, text: &[u8]) -> Answer {
    let listed = match read(job, text) {
        Ok(listed) => listed,
        Err(refusal) => return refusal,
    };
    let (old, new) = job.graphs();
    match first_broken(job, &old, &new, &listed) {
        None => Answer::success(0),
        Some(rule) => Answer::new(12, rule),
    }
}

/// The first of the five rules that the sheet breaks.
fn first_broken(job: &Job, old: &Graph, new: &Graph, listed: &Listed) -> Option<u32> {
    let Listed {
        pairs,
        danger,
        repeated,
    } = listed;
    let all = |holds: &dyn Fn(u16, u16) -> bool| pairs.list.iter().all(|&(n, m)| holds(n, m));
    if !pairs.contains(old.ends(0).0, new.ends(0).0) {
        return Some(1);
    }
    if !all(&|n, m| old.class(n) == new.class(m)) {
        return Some(2);
    }
    if !all(&|n, m| entered(old, new, pairs, n, m)) {
        return Some(3);
    }
    if !all(&|n, m| covered(old, new, listed, n, m)) {
        return Some(4);
    }
    let left_off = |test: usize| !repeated[test] && meet(job.suite.row(test), danger);
    if (0..job.suite.len()).any(left_off) {
        return Some(5);
    }
    None
}

/// Rule 3 for one listed pair: the entries of a callee are listed if the exits
/// of all before it are.
fn entered(old: &Graph, new: &Graph, pairs: &Pairs, n: u16, m: u16) -> bool {
    for (entries, exits) in called(old, new, (n, m)) {
        if !pairs.contains(entries.0, entries.1) {
            return false;
        }
        if !pairs.contains(exits.0, exits.1) {
            break;
        }
    }
    true
}

/// Rule 4 for one listed pair: it may go on if the exits of all its callees are
/// listed, and then for every word the old edge taken is listed under D, or the
/// new node takes one and the ends are listed.
fn covered(old: &Graph, new: &Graph, listed: &Listed, n: u16, m: u16) -> bool {
    let pairs = &listed.pairs;
    let mut callees = called(old, new, (n, m));
    if !callees.all(|(_, exits)| pairs.contains(exits.0, exits.1)) {
        return true;
    }
    compare(old.leaving(n), new.leaving(m), |edge, other| {
        let kept = other.is_some_and(|other| pairs.contains(edge.end, other.end));
        kept || holds(&listed.danger, edge.edge as usize)
    })
}
