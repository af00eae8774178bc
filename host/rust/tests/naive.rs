//! The independent implementation against the rules written down plainly:
//! lines split at commas, sets of pairs closed by repeated passes.

use rivetyellow_host::answer::{Answer, Outcome};
use rivetyellow_host::generate::{self, random::Random, Generated};
use rivetyellow_host::independent;
use std::collections::{BTreeMap, BTreeSet};

type Field<'a> = &'a [u8];

/// Kind, label, callee field.
type Node<'a> = (u8, Field<'a>, Field<'a>);

struct Program<'a> {
    /// Name, nodes from and to.
    procedures: Vec<(Field<'a>, usize, usize)>,
    nodes: Vec<Node<'a>>,
    edges: Vec<(usize, Field<'a>, usize)>,
}

/// Lines without byte 10, and whether the last one lacks it.
fn lines(text: &[u8]) -> (Vec<Field<'_>>, bool) {
    let mut lines: Vec<Field> = text.split(|&b| b == 10).collect();
    let rest = lines.pop().unwrap_or(&[]);
    if rest.is_empty() {
        return (lines, false);
    }
    lines.push(rest);
    (lines, true)
}

fn is_name(field: Field) -> bool {
    let right = |b: &u8| b.is_ascii_alphanumeric() || *b == b'_';
    (1..=12).contains(&field.len()) && field.iter().all(right)
}

/// One to four names joined by `+`.
fn is_callees(field: Field) -> bool {
    callees(field).len() <= 4 && callees(field).into_iter().all(is_name)
}

fn callees(field: Field) -> Vec<Field> {
    field.split(|&b| b == b'+').collect()
}

fn is_label(field: Field) -> bool {
    (1..=60).contains(&field.len()) && field.iter().all(|b| (32..=126).contains(b))
}

fn is_word(field: Field) -> bool {
    (1..=8).contains(&field.len()) && field.iter().all(|b| (33..=126).contains(b))
}

fn is_number(field: Field) -> bool {
    let digits = !field.is_empty() && field.iter().all(u8::is_ascii_digit);
    digits && (field.len() == 1 || field[0] != b'0')
}

/// The number below `limit` that a field writes.
fn named(field: Field, limit: usize) -> Option<usize> {
    (0..limit).find(|n| n.to_string().as_bytes() == field)
}

fn refuse<T>(number: u32, place: usize) -> Outcome<T> {
    Err(Answer::new(number, place as u32))
}

fn read_program(text: &[u8]) -> Outcome<Program<'_>> {
    if text.len() > 65_536 {
        return refuse(1, 0);
    }
    if text.is_empty() {
        return refuse(2, 1);
    }
    let (lines, cut) = lines(text);
    let mut p = Program {
        procedures: vec![],
        nodes: vec![],
        edges: vec![],
    };
    let mut p_line = 0;
    let mut first_edge = 0;
    for (at, line) in lines.iter().enumerate() {
        let place = at + 1;
        let f: Vec<Field> = line.split(|&b| b == b',').collect();
        let formed = match f[..] {
            [b"P", name] => is_name(name),
            [b"N", b"E" | b"X", b"", b""] => true,
            [b"N", b"S", label, b""] => is_label(label),
            [b"N", b"C", label, field] => is_label(label) && is_callees(field),
            [b"B", from, word, to] => is_number(from) && is_word(word) && is_number(to),
            _ => false,
        };
        if !formed || cut && place == lines.len() {
            return refuse(2, place);
        }
        match f[0] {
            b"P" => {
                whole(&p, p_line)?;
                if p.procedures.len() == 64 {
                    return refuse(4, place);
                }
                if p.procedures.iter().any(|other| other.0 == f[1]) {
                    return refuse(5, place);
                }
                p.procedures.push((f[1], p.nodes.len(), p.nodes.len()));
                p_line = place;
                first_edge = p.edges.len();
            }
            b"N" => {
                if p.procedures.is_empty() || p.edges.len() > first_edge {
                    return refuse(3, place);
                }
                if p.nodes.len() == 512 {
                    return refuse(4, place);
                }
                p.nodes.push((f[1][0], f[2], f[3]));
                p.procedures.last_mut().unwrap().2 += 1;
            }
            _ => {
                let Some(&(_, low, high)) = p.procedures.last() else {
                    return refuse(3, place);
                };
                if p.edges.len() == 1_024 {
                    return refuse(4, place);
                }
                let node = |field| named(field, high).filter(|&n| n >= low);
                let (Some(from), Some(to)) = (node(f[1]), node(f[3])) else {
                    return refuse(6, place);
                };
                if p.edges.iter().any(|e| e.0 == from && e.1 == f[2]) {
                    return refuse(7, place);
                }
                p.edges.push((from, f[2], to));
            }
        }
    }
    whole(&p, p_line)?;
    for (at, line) in lines.iter().enumerate() {
        let f: Vec<Field> = line.split(|&b| b == b',').collect();
        let known = |name: &Field| p.procedures.iter().any(|other| other.0 == *name);
        if f[0] == b"N" && f[1] == b"C" && !callees(f[3]).iter().all(known) {
            return refuse(9, at + 1);
        }
    }
    Ok(p)
}

/// The test of the last procedure read.
fn whole(p: &Program, line: usize) -> Outcome<()> {
    let Some(&(_, low, high)) = p.procedures.last() else {
        return Ok(());
    };
    let count = |kind| p.nodes[low..high].iter().filter(|n| n.0 == kind).count();
    let mut right = count(b'E') == 1 && count(b'X') == 1;
    for n in low..high {
        let leaving: Vec<_> = p.edges.iter().filter(|e| e.0 == n).collect();
        let dashed = leaving.iter().all(|e| e.1 == b"-");
        right &= match p.nodes[n].0 {
            b'S' => (1..=8).contains(&leaving.len()),
            b'X' => leaving.is_empty(),
            _ => leaving.len() == 1 && dashed,
        };
    }
    if right {
        Ok(())
    } else {
        refuse(8, line)
    }
}

impl Program<'_> {
    fn end(&self, procedure: usize, kind: u8) -> usize {
        let (_, low, high) = self.procedures[procedure];
        (low..high).find(|&n| self.nodes[n].0 == kind).unwrap()
    }

    /// The node of this kind of each procedure that a node calls, in order.
    fn called(&self, node: usize, kind: u8) -> Vec<usize> {
        let (b'C', _, field) = self.nodes[node] else {
            return vec![];
        };
        let number = |name| self.procedures.iter().position(|p| p.0 == name).unwrap();
        let callees = callees(field).into_iter();
        callees.map(|name| self.end(number(name), kind)).collect()
    }
}

/// The edges of a node, each with its word.
type Leaving<'a> = Vec<(Field<'a>, usize)>;

/// Those of each node.
fn leaving<'a>(p: &Program<'a>) -> Vec<Leaving<'a>> {
    let of = |node| {
        let edges = p.edges.iter().enumerate().filter(|(_, e)| e.0 == node);
        edges.map(|(at, e)| (e.1, at)).collect()
    };
    (0..p.nodes.len()).map(of).collect()
}

/// The edge of a node that is taken for a word: the one that has it, or else
/// `*`.
fn taken(leaving: &Leaving, word: Field) -> Option<usize> {
    let of = |word: Field| leaving.iter().find(|edge| edge.0 == word);
    of(word).or_else(|| of(b"*")).map(|edge| edge.1)
}

/// A word that no file can name, as it has nine bytes: it stands for all words
/// that neither of two nodes names.
const NO_WORD: Field = b"no_branch";

/// For each word for which the old node takes an edge that edge, and the one
/// that the new node takes.
fn compared(old: &Leaving, new: &Leaving) -> Vec<(usize, Option<usize>)> {
    let words = old.iter().chain(new).map(|edge| edge.0);
    let edges = words.chain([NO_WORD]).filter_map(|word| {
        let edge = taken(old, word)?;
        Some((edge, taken(new, word)))
    });
    edges.collect()
}

type Pair = (usize, usize);

/// The pairs of these nodes of each procedure that two nodes call, in order.
fn called(old: &Program, new: &Program, (n, m): Pair, kind: u8) -> Vec<Pair> {
    let others = new.called(m, kind);
    old.called(n, kind).into_iter().zip(others).collect()
}

/// The entries that a pair asks for: those of the first callee, and of a later
/// one if the exits of every callee before it are a pair.
fn entries(old: &Program, new: &Program, pairs: &Pairs, pair: Pair) -> Vec<Pair> {
    let exits = called(old, new, pair, b'X');
    let entries = called(old, new, pair, b'E').into_iter().enumerate();
    let asked = |at: usize| exits[..at].iter().all(|before| pairs.contains(before));
    let entries = entries.filter(|(at, _)| asked(*at));
    entries.map(|(_, entry)| entry).collect()
}

type Tests<'a> = Vec<(Field<'a>, Vec<bool>)>;

fn read_tests(text: &[u8], edges: usize) -> Outcome<Tests<'_>> {
    if text.len() > 65_536 {
        return refuse(1, 0);
    }
    let (lines, cut) = lines(text);
    let mut tests: Tests = vec![];
    for (at, line) in lines.iter().enumerate() {
        let place = at + 1;
        let f: Vec<Field> = line.split(|&b| b == b',').collect();
        let formed = f.len() == 3 && f[0] == b"T" && is_name(f[1]);
        if !formed || cut && place == lines.len() {
            return refuse(2, place);
        }
        if tests.len() == 200 {
            return refuse(4, place);
        }
        if tests.iter().any(|test| test.0 == f[1]) {
            return refuse(5, place);
        }
        let mut bits = vec![];
        for &digit in f[2] {
            let Some(value) = b"0123456789abcdef".iter().position(|&d| d == digit) else {
                return refuse(10, place);
            };
            bits.extend((0..4).map(|bit| value >> (3 - bit) & 1 == 1));
        }
        let spare = bits.len() > edges && bits[edges..].contains(&true);
        if f[2].len() != edges.div_ceil(4) || spare {
            return refuse(10, place);
        }
        bits.truncate(edges);
        tests.push((f[1], bits));
    }
    Ok(tests)
}

type Pairs = BTreeSet<Pair>;

/// A label without blanks at its ends, and one blank for each inner run.
fn plain(label: Field) -> String {
    let mut label = String::from_utf8(label.to_vec()).unwrap();
    while label.contains("  ") {
        label = label.replace("  ", " ");
    }
    let label = label.strip_prefix(' ').unwrap_or(&label);
    label.strip_suffix(' ').unwrap_or(label).to_string()
}

fn alike(one: Node, other: Node) -> bool {
    one.0 == other.0 && plain(one.1) == plain(other.1) && one.2 == other.2
}

fn may_go_on(old: &Program, new: &Program, pairs: &Pairs, pair: Pair) -> bool {
    let exits = called(old, new, pair, b'X');
    exits.iter().all(|exits| pairs.contains(exits))
}

type Edges = BTreeSet<usize>;

/// What the closing rules give.
struct Closed {
    pairs: Pairs,
    dangers: Edges,
    /// New edges taken for a word that makes a danger.
    starts: Edges,
    /// Counterparts.
    joined: BTreeSet<(usize, usize)>,
}

/// `None` above the limit.
fn close(old: &Program, new: &Program) -> Option<Closed> {
    let from = [leaving(old), leaving(new)];
    let mut closed = Closed {
        pairs: all_pairs(old, new, &from)?,
        dangers: Edges::new(),
        starts: Edges::new(),
        joined: BTreeSet::new(),
    };
    for &(n, m) in &closed.pairs {
        if !may_go_on(old, new, &closed.pairs, (n, m)) {
            continue;
        }
        for (e, other) in compared(&from[0][n], &from[1][m]) {
            match other {
                Some(f) if alike(old.nodes[old.edges[e].2], new.nodes[new.edges[f].2]) => {
                    closed.joined.insert((e, f));
                }
                other => {
                    closed.dangers.insert(e);
                    closed.starts.extend(other);
                }
            }
        }
    }
    Some(closed)
}

/// Passes over the pairs until one adds nothing.
fn all_pairs(old: &Program, new: &Program, from: &[Vec<Leaving>; 2]) -> Option<Pairs> {
    let mut pairs = Pairs::from([(old.end(0, b'E'), new.end(0, b'E'))]);
    loop {
        let mut found = pairs.clone();
        for &(n, m) in &pairs {
            found.extend(entries(old, new, &pairs, (n, m)));
            if !may_go_on(old, new, &pairs, (n, m)) {
                continue;
            }
            for (e, other) in compared(&from[0][n], &from[1][m]) {
                let ends = other.map(|f| (old.edges[e].2, new.edges[f].2));
                let new_ends = ends.filter(|ends| !found.contains(ends));
                found.extend(new_ends.filter(|&(n, m)| alike(old.nodes[n], new.nodes[m])));
            }
        }
        if found.len() > 4_096 {
            return None;
        }
        if found == pairs {
            return Some(pairs);
        }
        pairs = found;
    }
}

/// The edges that a run may cross next after this one.
fn next(p: &Program, edge: usize) -> Edges {
    let leaving = |node| (0..p.edges.len()).filter(move |&e| p.edges[e].0 == node);
    let end = p.edges[edge].2;
    match p.nodes[end].0 {
        b'C' => leaving(p.called(end, b'E')[0]).collect(),
        b'X' => {
            let mut edges = Edges::new();
            for call in 0..p.nodes.len() {
                let (entries, exits) = (p.called(call, b'E'), p.called(call, b'X'));
                for place in (0..exits.len()).filter(|&place| exits[place] == end) {
                    edges.extend(leaving(*entries.get(place + 1).unwrap_or(&call)));
                }
            }
            edges
        }
        _ => leaving(end).collect(),
    }
}

/// The edges after these, these included.
fn after(p: &Program, these: &Edges) -> Edges {
    let mut edges = these.clone();
    let mut latest = these.clone();
    while !latest.is_empty() {
        let follow: Edges = latest.iter().flat_map(|&edge| next(p, edge)).collect();
        latest = follow.difference(&edges).copied().collect();
        edges.extend(&latest);
    }
    edges
}

fn write_probes(new: &Program, closed: &Closed) -> Vec<u8> {
    let probes = after(new, &closed.starts).into_iter();
    probes
        .flat_map(|f| format!("Q,{f}\n").into_bytes())
        .collect()
}

fn write_sheet(closed: &Closed, tests: &Tests) -> Vec<u8> {
    let Closed { pairs, dangers, .. } = closed;
    let mut text = b"sheet,1\n".to_vec();
    for (n, m) in pairs {
        text.extend(format!("M,{n},{m}\n").bytes());
    }
    for e in dangers {
        text.extend(format!("D,{e}\n").bytes());
    }
    let mut repeated = 0;
    for (name, row) in tests {
        if dangers.iter().any(|&e| row[e]) {
            repeated += 1;
            text.extend([b"R,", *name, b"\n"].concat());
        }
    }
    text.extend(format!("end,{},{},{repeated}\n", pairs.len(), dangers.len()).bytes());
    text
}

fn write_record(
    old: &Program,
    new: &Program,
    closed: &Closed,
    (name, row): &(Field, Vec<bool>),
) -> Vec<u8> {
    let Closed {
        dangers,
        starts,
        joined,
        ..
    } = closed;
    let crossed = row.iter().filter(|&&bit| bit).count();
    let mut text = [b"V,", *name, format!(",{crossed},").as_bytes()].concat();
    let mut counterparts: BTreeMap<usize, usize> = BTreeMap::new();
    for &(e, _) in joined {
        *counterparts.entry(e).or_default() += 1;
    }
    let repeated = dangers.iter().any(|&e| row[e]);
    let (probes, after_danger) = (after(new, starts), after(old, dangers));
    for f in 0..new.edges.len() {
        let met: Vec<usize> = joined
            .iter()
            .filter(|j| j.1 == f && row[j.0])
            .map(|j| j.0)
            .collect();
        let doubt = probes.contains(&f) || met.iter().any(|e| after_danger.contains(e));
        text.push(if repeated && doubt {
            b'?'
        } else if met.is_empty() {
            b'0'
        } else if met.iter().any(|e| counterparts[e] == 1) {
            b'1'
        } else {
            b'?'
        });
    }
    text.push(b'\n');
    text
}

/// Checks a sheet where nodes are alike in this sense.
fn check(
    old: &Program,
    new: &Program,
    tests: &Tests,
    text: &[u8],
    alike: fn(Node, Node) -> bool,
) -> Answer {
    match layout(old, new, tests, text) {
        Err(refusal) => refusal,
        Ok((pairs, dangers, repeated)) => {
            let other = |&(n, m): &(usize, usize)| !alike(old.nodes[n], new.nodes[m]);
            let unlike = pairs.iter().any(other);
            claims(old, new, tests, &pairs, unlike, &dangers, &repeated)
        }
    }
}

#[allow(clippy::type_complexity)]
fn layout(
    old: &Program,
    new: &Program,
    tests: &Tests,
    text: &[u8],
) -> Outcome<(Pairs, BTreeSet<usize>, BTreeSet<usize>)> {
    if text.len() > 65_536 {
        return refuse(1, 0);
    }
    let (lines, cut) = lines(text);
    let (mut pairs, mut dangers, mut repeated) = (Vec::new(), Vec::new(), Vec::new());
    let (mut rank, mut ms) = (0, 0);
    for (at, line) in lines.iter().enumerate() {
        let place = at + 1;
        let f: Vec<Field> = line.split(|&b| b == b',').collect();
        let (formed, kind) = match f[..] {
            [b"sheet", b"1"] => (true, 1),
            [b"M", old, new] => (is_number(old) && is_number(new), 2),
            [b"D", edge] => (is_number(edge), 3),
            [b"R", name] => (is_name(name), 4),
            [b"end", m, d, r] => (is_number(m) && is_number(d) && is_number(r), 5),
            _ => (false, 0),
        };
        if !formed || cut && place == lines.len() {
            return refuse(2, place);
        }
        ms += usize::from(kind == 2);
        if ms > 4_096 && kind == 2 {
            return refuse(4, place);
        }
        let strict = kind == 1 || kind == 5;
        let mut right = kind >= rank && !(strict && kind == rank);
        right &= (kind == 1) == (place == 1) && rank != 5;
        right &= match kind {
            1 => true,
            2 => match (named(f[1], old.nodes.len()), named(f[2], new.nodes.len())) {
                (Some(n), Some(m)) => {
                    pairs.push((n, m));
                    true
                }
                _ => false,
            },
            3 => {
                dangers.extend(named(f[1], old.edges.len()));
                named(f[1], old.edges.len()).is_some()
            }
            4 => {
                let test = tests.iter().position(|test| test.0 == f[1]);
                repeated.extend(test);
                test.is_some()
            }
            _ => {
                let counts = [pairs.len(), dangers.len(), repeated.len()];
                (0..3).all(|at| f[at + 1] == counts[at].to_string().as_bytes())
            }
        };
        right &= ascending(&pairs) && ascending(&dangers) && ascending(&repeated);
        if !right {
            return refuse(11, place);
        }
        rank = kind;
    }
    if rank != 5 {
        return refuse(11, lines.len() + 1);
    }
    let sets = (
        pairs.into_iter().collect(),
        dangers.into_iter().collect(),
        repeated.into_iter().collect(),
    );
    Ok(sets)
}

/// Whether the newest of a list is above the one before.
fn ascending<T: Ord>(all: &[T]) -> bool {
    all.len() < 2 || all[all.len() - 2] < all[all.len() - 1]
}

fn claims(
    old: &Program,
    new: &Program,
    tests: &Tests,
    pairs: &Pairs,
    unlike: bool,
    dangers: &BTreeSet<usize>,
    repeated: &BTreeSet<usize>,
) -> Answer {
    let broken = |rule| Answer::new(12, rule);
    if !pairs.contains(&(old.end(0, b'E'), new.end(0, b'E'))) {
        return broken(1);
    }
    if unlike {
        return broken(2);
    }
    for &pair in pairs {
        let mut entries = entries(old, new, pairs, pair).into_iter();
        if !entries.all(|entries| pairs.contains(&entries)) {
            return broken(3);
        }
    }
    let (from_old, from_new) = (leaving(old), leaving(new));
    for &(n, m) in pairs {
        if !may_go_on(old, new, pairs, (n, m)) {
            continue;
        }
        for (e, other) in compared(&from_old[n], &from_new[m]) {
            let ends = |f: usize| (old.edges[e].2, new.edges[f].2);
            let listed = other.is_some_and(|f| pairs.contains(&ends(f)));
            if !listed && !dangers.contains(&e) {
                return broken(4);
            }
        }
    }
    for (at, (_, row)) in tests.iter().enumerate() {
        if dangers.iter().any(|&e| row[e]) && !repeated.contains(&at) {
            return broken(5);
        }
    }
    Answer::new(0, 0)
}

/// The answer to a call that writes, and the output afterwards.
fn written(made: Option<Vec<u8>>, mut out: Vec<u8>) -> (Answer, Vec<u8>) {
    match made {
        None => (Answer::new(15, 0), out),
        Some(text) if text.len() > out.len() => (Answer::new(16, 0), out),
        Some(text) => {
            out[..text.len()].copy_from_slice(&text);
            (Answer::success(text.len()), out)
        }
    }
}

/// The program file, line by line from what was read.
fn write_program(p: &Program) -> Vec<u8> {
    let mut text = vec![];
    for &(name, from, to) in &p.procedures {
        text.extend([b"P,", name, b"\n"].concat());
        for &(kind, label, callee) in &p.nodes[from..to] {
            text.extend([b"N,", &[kind][..], b",", label, b",", callee, b"\n"].concat());
        }
        for (n, word, m) in p.edges.iter().filter(|e| (from..to).contains(&e.0)) {
            text.extend(format!("B,{n},").bytes());
            text.extend(*word);
            text.extend(format!(",{m}\n").bytes());
        }
    }
    text
}

/// A job, and the numbers of its own that a call is given.
struct Trial<'g> {
    number: u64,
    job: &'g Generated,
    test: usize,
    side: usize,
    /// The output before a call.
    blank: Vec<u8>,
}

/// Jobs by what they show.
#[derive(Default)]
struct Met {
    accepted: usize,
    /// With a sheet that passes, and labels that match with other bytes.
    stored: usize,
    several: usize,
    probed: usize,
    /// With a branch `*` in each version.
    stars: usize,
}

impl Trial<'_> {
    fn texts(&self) -> [&[u8]; 3] {
        [&self.job.old, &self.job.new, &self.job.tests]
    }

    /// What the calls that write answer, and their outputs afterwards: sheet,
    /// record, probes, program.
    fn writes(&self) -> [(Answer, Vec<u8>); 4] {
        let [old, new, tests] = self.texts();
        let after = |call: &dyn Fn(&mut [u8]) -> Answer| {
            let mut out = self.blank.clone();
            (call(&mut out), out)
        };
        [
            after(&|out| independent::sheet(old, new, tests, out)),
            after(&|out| independent::record(old, new, tests, self.test, out)),
            after(&|out| independent::probes(old, new, tests, out)),
            after(&|out| independent::program(old, new, tests, self.side, out)),
        ]
    }

    /// The calls that read.
    fn reads(&self) {
        let [old, new, _] = self.texts();
        let answer_of = |read: Outcome<()>| read.err().unwrap_or(Answer::success(0));
        let due = answer_of(read_program(old).map(|_| ()));
        assert_eq!(independent::read_old(old), due, "{}", self.number);
        let both = read_program(old).and_then(|_| read_program(new));
        let due = answer_of(both.map(|_| ()));
        assert_eq!(independent::read_new(old, new), due, "{}", self.number);
    }

    fn refused(&self, refusal: Answer) {
        let [old, new, tests] = self.texts();
        let read = independent::read_tests(old, new, tests);
        let checked = independent::check(old, new, tests, &self.job.sheet);
        assert_eq!([read, checked], [refusal; 2], "{}", self.number);
        for written in self.writes() {
            assert_eq!(written, (refusal, self.blank.clone()), "{}", self.number);
        }
    }

    fn accepted(&self, p: &Program, q: &Program, suite: &Tests, met: &mut Met) {
        let [old, new, tests] = self.texts();
        let read = independent::read_tests(old, new, tests);
        assert_eq!(read, Answer::success(0), "{}", self.number);
        let closed = close(p, q);
        let closed = closed.as_ref();
        let output = |made: Option<Vec<u8>>| written(made, self.blank.clone());
        let unnamed = || (Answer::new(6, 0), self.blank.clone());
        let due = [
            output(closed.map(|closed| write_sheet(closed, suite))),
            suite.get(self.test).map_or_else(unnamed, |test| {
                output(closed.map(|closed| write_record(p, q, closed, test)))
            }),
            output(closed.map(|closed| write_probes(q, closed))),
            [p, q]
                .get(self.side)
                .map_or_else(unnamed, |program| output(Some(write_program(program)))),
        ];
        assert_eq!(self.writes(), due, "{}", self.number);
        met.accepted += 1;
        met.several += usize::from(p.nodes.iter().any(|node| node.2.contains(&b'+')));
        met.probed += usize::from(due[2].0.is_success() && due[2].0.place > 0);
        let star = |p: &Program| p.edges.iter().any(|e| e.1 == b"*");
        met.stars += usize::from(star(p) && star(q));
    }

    /// The check. A sheet that passed when labels were compared by their bytes
    /// still passes.
    fn checked(&self, p: &Program, q: &Program, suite: &Tests, met: &mut Met) {
        let [old, new, tests] = self.texts();
        let sheet = &self.job.sheet;
        let due = check(p, q, suite, sheet, alike);
        let answer = independent::check(old, new, tests, sheet);
        assert_eq!(answer, due, "{}", self.number);
        let before = check(p, q, suite, sheet, |one, other| one == other);
        if before == Answer::success(0) {
            assert_eq!(due, before, "{}", self.number);
            met.stored += usize::from(p.nodes.iter().any(|&one| {
                let mut others = q.nodes.iter();
                others.any(|&other| alike(one, other) && one != other)
            }));
        }
    }
}

fn read_all<'t>(
    [old, new, tests]: [&'t [u8]; 3],
) -> Outcome<(Program<'t>, Program<'t>, Tests<'t>)> {
    let old = read_program(old)?;
    let new = read_program(new)?;
    let tests = read_tests(tests, old.edges.len())?;
    Ok((old, new, tests))
}

#[test]
fn plain_rules() {
    let mut met = Met::default();
    for number in 0..5_000 {
        let mut random = Random::new(77, number);
        let job = &generate::job(&mut random);
        // Plain passes over the largest jobs take too long here.
        if (12_001..60_000).contains(&job.old.len()) && random.percent(70) {
            continue;
        }
        let trial = Trial {
            number,
            job,
            blank: vec![b'#'; random.below(600)],
            test: random.below(4),
            side: random.below(3),
        };
        trial.reads();
        match read_all(trial.texts()) {
            Err(refusal) => trial.refused(refusal),
            Ok((p, q, suite)) => {
                trial.checked(&p, &q, &suite, &mut met);
                trial.accepted(&p, &q, &suite, &mut met);
            }
        }
    }
    assert!(met.accepted > 2_000, "{}", met.accepted);
    assert!(met.stored > 400, "{}", met.stored);
    assert!(met.several > 700, "{}", met.several);
    assert!(met.probed > 500, "{}", met.probed);
    assert!(met.stars > 600, "{}", met.stars);
}
