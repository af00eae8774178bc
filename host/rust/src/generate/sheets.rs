//! Sheets to check: the selector's, strangers' and broken ones.

use super::model::{joined, Bytes, Sheet};
use super::random::Random;
use crate::independent::closing::{called, compare, Graph, Leaving};
use crate::independent::job::Job;
use crate::independent::suite::holds;
use std::collections::{BTreeMap, BTreeSet};

const PAIR_LIMIT: usize = 4_096;

/// A sheet's text, and whether the check must pass it.
pub struct Made {
    pub text: Bytes,
    pub passes: bool,
}

/// A stranger's sheet that passes. Its list may hold more pairs than the
/// closing rules give, or fewer where it cuts at an edge; some cut only at the
/// exits of one callee. Some sheets were stored when labels matched only if
/// their bytes were equal; they still pass.
pub fn stranger(random: &mut Random, job: &Job) -> Sheet {
    let (old, new) = job.graphs();
    let mut sheet = Sheet::default();
    sheet
        .pairs
        .insert((old.ends(0).0 as usize, new.ends(0).0 as usize));
    let stored = random.one_in(4);
    let cut = match random.percent(30) {
        true => exit_called(random, &old),
        false => None,
    };
    let listed = |n: u16, m: u16| {
        let stored_so = !stored || label(&old, n) == label(&new, m);
        stored_so && Some(n) != cut
    };
    let mut alike = all_alike(&old, &new);
    alike.retain(|&(n, m)| listed(n as u16, m as u16));
    match random.below(4) {
        0 if alike.len() <= PAIR_LIMIT => sheet.pairs.extend(&alike),
        1 => {
            for _ in 0..random.within(1, 4) {
                sheet.pairs.insert(*random.pick(&alike));
            }
        }
        _ => (),
    }
    let kept = match cut {
        Some(_) => 100,
        None => *random.pick(&[0, 60, 90, 100]),
    };
    let all_entries = random.one_in(3);
    close(&old, &new, &mut sheet.pairs, all_entries, |n, m| {
        random.percent(kept) && listed(n, m)
    });
    complete(job, &old, &new, &mut sheet);
    if random.percent(40) {
        for _ in 0..random.within(1, 3) {
            sheet.dangers.insert(random.below(job.old.edges.len()));
        }
        complete(job, &old, &new, &mut sheet);
    }
    if random.percent(40) && !job.suite.is_empty() {
        sheet.repeated.insert(random.below(job.suite.len()));
    }
    sheet
}

/// Every pair of nodes that are alike.
pub fn all_alike(old: &Graph, new: &Graph) -> Vec<(usize, usize)> {
    let mut pairs = Vec::new();
    for n in 0..old.program.nodes.len() as u16 {
        for m in 0..new.program.nodes.len() as u16 {
            if old.class(n) == new.class(m) {
                pairs.push((n as usize, m as usize));
            }
        }
    }
    pairs
}

/// The bytes of a node's label.
pub fn label<'p>(graph: &Graph<'p>, node: u16) -> &'p [u8] {
    graph.program.nodes[node as usize].label
}

/// The exit of a procedure that some call names, one of several names if
/// there is such a call.
fn exit_called(random: &mut Random, graph: &Graph) -> Option<u16> {
    let calls = graph.program.calls.iter();
    let most = calls.clone().map(|call| call.callees().len()).max()?;
    let several: Vec<_> = calls
        .filter(|call| call.callees().len() > 1 || most == 1)
        .collect();
    let call = *random.pick(&several);
    let callee = *random.pick(call.callees());
    Some(graph.ends(callee).1)
}

/// Adds the ends that rule 3 of the closing gives, of those that are kept, and
/// the entries of callees: those that the list asks for, or all.
fn close(
    old: &Graph,
    new: &Graph,
    pairs: &mut BTreeSet<(usize, usize)>,
    all_entries: bool,
    mut kept: impl FnMut(u16, u16) -> bool,
) {
    let wide = |(n, m): (u16, u16)| (n as usize, m as usize);
    let mut work: Vec<(usize, usize)> = pairs.iter().copied().collect();
    let mut calls = Vec::new();
    while !work.is_empty() {
        while let Some((n, m)) = work.pop() {
            let (n, m) = (n as u16, m as u16);
            if !old.callees(n).is_empty() {
                calls.push((n, m));
            }
            compare(old.leaving(n), new.leaving(m), |edge, other| {
                if let Some(other) = other.filter(|other| other.class == edge.class) {
                    let ends = (edge.end, other.end);
                    // Also above the limit: whoever made the list asks how long
                    // it is.
                    if kept(ends.0, ends.1) && pairs.insert(wide(ends)) {
                        work.push(wide(ends));
                    }
                }
                true
            });
        }
        for &call in &calls {
            for (entries, exits) in called(old, new, call) {
                if pairs.insert(wide(entries)) {
                    work.push(wide(entries));
                }
                if !all_entries && !pairs.contains(&wide(exits)) {
                    break;
                }
            }
        }
    }
}

/// Adds the D and R lines that rules 4 and 5 ask for.
fn complete(job: &Job, old: &Graph, new: &Graph, sheet: &mut Sheet) {
    for &(n, m) in &sheet.pairs {
        let (n, m) = (n as u16, m as u16);
        let met = |(n, m): (u16, u16)| sheet.pairs.contains(&(n as usize, m as usize));
        if !called(old, new, (n, m)).all(|(_, exits)| met(exits)) {
            continue;
        }
        compare(old.leaving(n), new.leaving(m), |edge, other| {
            if !other.is_some_and(|other| met((edge.end, other.end))) {
                sheet.dangers.insert(edge.edge as usize);
            }
            true
        });
    }
    for test in 0..job.suite.len() {
        let row = job.suite.row(test);
        if sheet.dangers.iter().any(|&edge| holds(row, edge)) {
            sheet.repeated.insert(test);
        }
    }
}

/// The lists of the selector's sheet, from its text.
pub fn lists(job: &Job, text: &[u8]) -> Sheet {
    let mut sheet = Sheet::default();
    for line in text.split(|&byte| byte == b'\n') {
        let fields: Vec<&[u8]> = line.split(|&byte| byte == b',').collect();
        let number = |at: usize| -> usize {
            let digits = fields[at].iter();
            digits.fold(0, |value, &digit| 10 * value + usize::from(digit - b'0'))
        };
        match fields[0] {
            b"M" => {
                sheet.pairs.insert((number(1), number(2)));
            }
            b"D" => {
                sheet.dangers.insert(number(1));
            }
            b"R" => {
                let test = (0..job.suite.len()).find(|&test| job.suite.name(test) == fields[1]);
                sheet.repeated.extend(test);
            }
            _ => (),
        }
    }
    sheet
}

/// A sheet for a job whose texts are accepted; `own` is the selector's.
pub fn sheet(random: &mut Random, job: &Job, own: Option<&[u8]>) -> Made {
    let name = |test: usize| job.suite.name(test).to_vec();
    let mut sheet = match own {
        Some(text) if random.percent(60) => lists(job, text),
        _ => stranger(random, job),
    };
    if random.percent(25) && drop_word(random, job, &mut sheet) {
        let text = joined(&sheet.lines(name));
        return Made {
            text,
            passes: false,
        };
    }
    let mut passes = sheet.pairs.len() <= PAIR_LIMIT;
    if random.percent(30) {
        for _ in 0..random.within(1, 2) {
            change_lists(random, job, &mut sheet);
        }
        passes = false;
    }
    let mut lines = sheet.lines(name);
    if random.percent(25) {
        for _ in 0..random.within(1, 2) {
            change_lines(random, job, &mut lines);
        }
        passes = false;
    }
    let mut text = joined(&lines);
    if random.one_in(80) {
        text.pop();
        passes = false;
    }
    Made { text, passes }
}

/// One line more or less, with counts mended: the layout stays right.
fn change_lists(random: &mut Random, job: &Job, sheet: &mut Sheet) {
    fn drop_one<T: Ord + Copy>(random: &mut Random, set: &mut BTreeSet<T>) {
        if !set.is_empty() {
            let at = random.below(set.len());
            let item = *set.iter().nth(at).expect("a place in the set");
            set.remove(&item);
        }
    }
    let (old, new) = (job.old.nodes.len(), job.new.nodes.len());
    if random.percent(60) && drop_called(random, job, sheet) {
        return;
    }
    match random.below(9) {
        0..=2 => drop_one(random, &mut sheet.pairs),
        3 => drop_one(random, &mut sheet.dangers),
        4 => drop_one(random, &mut sheet.repeated),
        5 => {
            sheet.pairs.insert((random.below(old), random.below(new)));
        }
        6 => {
            sheet.dangers.insert(random.below(job.old.edges.len()));
        }
        at => {
            // The entries of the first procedures, or of any.
            let any =
                |random: &mut Random, count: usize| if at == 7 { 0 } else { random.below(count) };
            let old = any(random, job.old.procedures.len());
            let name = job.old.procedures[old].name;
            let same = job.new.procedures.iter().find(|p| p.name == name);
            let new = same.unwrap_or(&job.new.procedures[0]).entry;
            let old = job.old.procedures[old].entry;
            sheet.pairs.remove(&(old as usize, new as usize));
        }
    }
}

/// Drops what rule 4 asks for one word where a `*` is taken on either side: the
/// listed ends, or the D line.
fn drop_word(random: &mut Random, job: &Job, sheet: &mut Sheet) -> bool {
    let (old, new) = job.graphs();
    let (mut ends, mut dangers) = (Asked::new(), Asked::new());
    for &(n, m) in &sheet.pairs {
        let (leaving, others) = (old.leaving(n as u16), new.leaving(m as u16));
        let mut words = 0;
        compare(leaving, others, |edge, _| {
            words += usize::from(edge.is_star());
            true
        });
        compare(leaving, others, |edge, other| {
            let met = other.map(|other| (edge.end as usize, other.end as usize));
            let met = met.filter(|met| sheet.pairs.contains(met));
            let asked = match (met, sheet.dangers.contains(&(edge.edge as usize))) {
                (Some(met), false) => ends.entry(met).or_default(),
                (None, true) => dangers.entry((edge.edge as usize, 0)).or_default(),
                _ => return true,
            };
            asked.0 += 1;
            asked.1 |= edge.is_star() && words > 1;
            asked.2 |= edge.is_star() || other.is_some_and(Leaving::is_star);
            true
        });
    }
    match (one_asked(random, &ends), one_asked(random, &dangers)) {
        (Some(met), danger) if danger.is_none() || random.percent(60) => sheet.pairs.remove(&met),
        (_, Some((danger, _))) => sheet.dangers.remove(&danger),
        _ => false,
    }
}

/// Of each thing how many words ask for it, whether one of several that an old
/// `*` is taken for does, and whether any does for which a `*` is taken.
type Asked = BTreeMap<(usize, usize), (usize, bool, bool)>;

/// A thing that a word asks for which a `*` is taken for, mostly one of several
/// words; and, if it can be, that no other word asks for.
fn one_asked(random: &mut Random, all: &Asked) -> Option<(usize, usize)> {
    let several = all.values().any(|asked| asked.1) && random.percent(80);
    let by_star = || {
        all.iter()
            .filter(|(_, asked)| asked.2 && (asked.1 || !several))
    };
    let fewest = by_star().map(|(_, asked)| asked.0).min()?;
    let fewest = by_star().filter(|(_, asked)| asked.0 == fewest);
    let one = *random.pick(&fewest.collect::<Vec<_>>());
    Some(*one.0)
}

/// Drops the entries or the exits of one callee, or both, that a listed pair
/// of calls has; of calls with several names where there are such, and then
/// mostly of a later one.
fn drop_called(random: &mut Random, job: &Job, sheet: &mut Sheet) -> bool {
    let callees = |&(n, m): &(usize, usize)| {
        let (old, new) = (job.old.callees(n as u16), job.new.callees(m as u16));
        old.iter().zip(new).collect::<Vec<_>>()
    };
    let most = sheet.pairs.iter().map(|pair| callees(pair).len()).max();
    let several = most > Some(1);
    let calls: Vec<_> = sheet
        .pairs
        .iter()
        .map(callees)
        .filter(|callees| callees.len() > usize::from(several))
        .collect();
    if calls.is_empty() || !several && random.percent(60) {
        return false;
    }
    let call = random.pick(&calls);
    let from = usize::from(several && random.percent(80));
    let (&old, &new) = call[random.within(from, call.len() - 1)];
    let (old, new) = (
        job.old.procedures[old as usize],
        job.new.procedures[new as usize],
    );
    let entries = (old.entry as usize, new.entry as usize);
    let exits = (old.exit as usize, new.exit as usize);
    let dropped = match random.below(5) {
        0..=1 => vec![entries],
        2..=3 => vec![exits],
        _ => vec![entries, exits],
    };
    sheet.pairs.retain(|pair| !dropped.contains(pair));
    true
}

/// Changes the lines: order, numbers, counts, lines more and less.
fn change_lines(random: &mut Random, job: &Job, lines: &mut Vec<Bytes>) {
    if lines.is_empty() {
        return;
    }
    let at = random.below(lines.len());
    let other = random.below(lines.len());
    match random.below(12) {
        0 => {
            lines.remove(at);
        }
        1 => lines.swap(at, other),
        2 if at + 1 < lines.len() => lines.swap(at, at + 1),
        3 => {
            let line = lines[at].clone();
            lines.insert(other, line);
        }
        4..=6 => change_number(random, job, &mut lines[at]),
        7 => {
            let last = lines.len() - 1;
            change_number(random, job, &mut lines[last]);
        }
        8 => {
            let line = any_line(random, job);
            lines.insert(at, line);
        }
        9 => {
            let line = any_line(random, job);
            lines.push(line);
        }
        10 => {
            lines.pop();
        }
        _ => {
            let line = any_line(random, job);
            lines[at] = line;
        }
    }
}

/// Numbers that a wrapping or shortening reader would take for small ones.
pub const NUMBERS: [&[u8]; 16] = [
    b"0",
    b"1",
    b"2",
    b"00",
    b"01",
    b"",
    b"-1",
    b"+1",
    b"4294967296",
    b"4294967297",
    b"18446744073709551616",
    b"18446744073709551617",
    b"65536",
    b"65537",
    b"340282366920938463463374607431768211457",
    b"1 ",
];

fn change_number(random: &mut Random, job: &Job, line: &mut Bytes) {
    let mut fields: Vec<Bytes> = line.split(|&b| b == b',').map(<[u8]>::to_vec).collect();
    if fields.len() < 2 {
        return;
    }
    let at = random.within(1, fields.len() - 1);
    let value = std::str::from_utf8(&fields[at])
        .ok()
        .and_then(|field| field.parse::<usize>().ok())
        .unwrap_or(0);
    let limits = [
        job.old.nodes.len(),
        job.new.nodes.len(),
        job.old.edges.len(),
    ];
    fields[at] = match random.below(5) {
        0 => (value + 1).to_string().into_bytes(),
        1 => value.saturating_sub(1).to_string().into_bytes(),
        2 => random.pick(&limits).to_string().into_bytes(),
        3 => random.pick(&NUMBERS).to_vec(),
        _ => random.below(12).to_string().into_bytes(),
    };
    *line = fields.join(&b',');
}

fn any_line(random: &mut Random, job: &Job) -> Bytes {
    let nodes = job.old.nodes.len() + 1;
    match random.below(12) {
        0..=2 => format!("M,{},{}", random.below(nodes), random.below(nodes)).into_bytes(),
        3..=4 => format!("D,{}", random.below(job.old.edges.len() + 1)).into_bytes(),
        5..=6 if !job.suite.is_empty() => {
            let name = job.suite.name(random.below(job.suite.len()));
            [b"R,", name].concat()
        }
        7 => b"R,nobody".to_vec(),
        8 => b"sheet,1".to_vec(),
        9 => b"end,0,0,0".to_vec(),
        10 => random
            .pick(&[
                &b""[..],
                b"sheet,2",
                b"sheet",
                b"M,0",
                b"M,0,0,0",
                b"D",
                b"D,",
                b"R,",
                b"R,a-b",
                b"R,thirteenbytes",
                b"end,1,1",
                b"end",
                b"m,0,0",
                b"V,t1,3,10101",
                b"sheet,1 ",
                b"M,0,0\r",
                b" M,0,0",
            ])
            .to_vec(),
        _ => format!("end,{},{},0", random.below(9), random.below(3)).into_bytes(),
    }
}
