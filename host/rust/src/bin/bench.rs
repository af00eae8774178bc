//! `bench`: the linked library and the independent implementation on the
//! largest jobs, and on the search in a row alone, in turn, in one run. Prints
//! the median time of each and how many times the library's is the other's.

use rivetyellow_host::calls::{Calls, INDEPENDENT, LINKED};
use rivetyellow_host::generate::labels::format_some;
use rivetyellow_host::generate::limits::{
    deep, formatted_ring, fours, groups, many_tests, put_blanks, ring, switches, wide,
};
use rivetyellow_host::generate::model::{joined, put_line, row, Edge, Program, Sheet};
use rivetyellow_host::generate::random::Random;
use rivetyellow_host::generate::sheets::all_alike;
use rivetyellow_host::generate::tests::runs;
use rivetyellow_host::independent::job::Job;
use rivetyellow_host::independent::suite::{place_of, ROW_WORDS};
use rivetyellow_host::search::{self, Search, NO_EDGE};
use std::hint::black_box;
use std::time::{Duration, Instant};

/// Runs of a case: at least the fewest, more while the time lasts.
const FEWEST: usize = 200;
const MOST: usize = 2_000;
const TIME: Duration = Duration::from_millis(1_000);

// ---- jobs

struct Texts {
    old: Vec<u8>,
    new: Vec<u8>,
    tests: Vec<u8>,
}

impl Texts {
    fn new(old: &Program, new: &Program, tests: Vec<u8>) -> Texts {
        Texts {
            old: old.text(),
            new: new.text(),
            tests,
        }
    }
}

/// A sheet that lists every alike pair, every edge and every test.
fn largest_sheet(texts: &Texts) -> Vec<u8> {
    let job = Job::read(&texts.old, &texts.new, &texts.tests).expect("a job that is accepted");
    let (old, new) = job.graphs();
    let mut sheet = Sheet::default();
    sheet.pairs.extend(all_alike(&old, &new));
    sheet.dangers.extend(0..job.old.edges.len());
    sheet.repeated.extend(0..job.suite.len());
    joined(&sheet.lines(|test| job.suite.name(test).to_vec()))
}

/// The selector's sheet.
fn own_sheet(texts: &Texts) -> Vec<u8> {
    let mut out = vec![0; 65_536];
    let answer = (INDEPENDENT.sheet)(&texts.old, &texts.new, &texts.tests, &mut out);
    assert!(answer.is_success(), "refused: {answer}");
    out.truncate(answer.place as usize);
    out
}

// ---- cases of jobs

/// A case is run by one implementation at the given turn.
type Run<'t> = Box<dyn Fn(&Calls, usize) -> u64 + 't>;

fn write_sheet(texts: &Texts) -> Run<'_> {
    Box::new(|calls, _| {
        let mut out = [0; 65_536];
        let answer = (calls.sheet)(&texts.old, &texts.new, &texts.tests, &mut out);
        assert!(answer.is_success(), "{} refuses: {answer}", calls.name);
        black_box(&out);
        answer.packed()
    })
}

/// All record lines, one at each turn.
fn write_records(texts: &Texts, count: usize) -> Run<'_> {
    Box::new(move |calls, turn| {
        let mut out = [0; 1_100];
        let test = turn % count;
        let answer = (calls.record)(&texts.old, &texts.new, &texts.tests, test, &mut out);
        assert!(answer.is_success(), "{} refuses: {answer}", calls.name);
        black_box(&out);
        answer.packed()
    })
}

/// The lines of all new edges that need a probe.
fn write_probes(texts: &Texts) -> Run<'_> {
    Box::new(|calls, _| {
        let mut out = [0; 6_058];
        let answer = (calls.probes)(&texts.old, &texts.new, &texts.tests, &mut out);
        assert!(answer.is_success(), "{} refuses: {answer}", calls.name);
        black_box(&out);
        answer.packed()
    })
}

/// Checks a sheet.
fn check(texts: &Texts, sheet: Vec<u8>) -> Run<'_> {
    Box::new(move |calls, _| {
        let answer = (calls.check)(&texts.old, &texts.new, &texts.tests, &sheet);
        assert!(answer.is_success(), "{} refuses: {answer}", calls.name);
        answer.packed()
    })
}

/// The jobs of the cases.
struct Jobs {
    full: Texts,
    groups: Texts,
    rings: Texts,
    deep: Texts,
    formatted: Texts,
    rings_formatted: Texts,
    calls_of_four: Texts,
    parted: Texts,
    groups_parted: Texts,
    /// The word leads to the exit.
    calls_parted: Texts,
    switches: Texts,
    switches_parted: Texts,
}

impl Jobs {
    fn new(random: &mut Random) -> Jobs {
        let distinct = wide(random, 512, 1_024, 1);
        let tests = many_tests(random, 200, 1_024, 30);
        let grouped = [groups(random, 8), groups(random, 8)];
        Jobs {
            full: Texts::new(&distinct, &distinct, tests.clone()),
            groups: Texts::new(&grouped[0], &grouped[1], tests.clone()),
            rings: Texts::new(&ring(46), &ring(89), Vec::new()),
            deep: Texts::new(&deep(64), &deep(64), Vec::new()),
            formatted: formatted(random, distinct.clone(), tests),
            rings_formatted: rings_formatted(random),
            calls_of_four: calls_of_four(random, |edge| edge.word = b"wait".to_vec()),
            parted: parted(random, &distinct, &distinct),
            groups_parted: parted(random, &grouped[0], &grouped[1]),
            calls_parted: calls_of_four(random, |edge| edge.to = 7),
            switches: switched(random),
            switches_parted: switches_parted(random),
        }
    }
}

/// The new edges of one word at steps of one label lead back to the first step.
/// The old ones are dangerous, nearly all edges lie after them, and 200 tests
/// crossed them, which are all repeated.
fn parted(random: &mut Random, old: &Program, new: &Program) -> Texts {
    let before = &old.procedures[0];
    let danger = &before.edges[923];
    let label = &before.nodes[danger.from].label;
    let mut new = new.clone();
    let after = &mut new.procedures[0];
    for edge in &mut after.edges {
        if edge.word == danger.word && after.nodes[edge.from].label == *label {
            edge.to = 1;
        }
    }
    let parts = |edge: &Edge| edge.word == danger.word && before.nodes[edge.from].label == *label;
    repeated(random, old, &new, parts)
}

/// 200 tests that crossed these dangerous edges, and some others.
fn repeated(
    random: &mut Random,
    old: &Program,
    new: &Program,
    parts: impl Fn(&Edge) -> bool,
) -> Texts {
    let mut tests = Vec::new();
    for test in 0..200 {
        let edges = old.procedures[0].edges.iter();
        let crossed = edges.map(|edge| parts(edge) || random.percent(30));
        let row = row(&crossed.collect::<Vec<bool>>());
        let name = format!("test_{test:0>7}").into_bytes();
        put_line(&mut tests, &[b"T", &name, &row]);
    }
    let texts = Texts::new(old, new, tests);
    let sheet = own_sheet(&texts);
    assert!(sheet.ends_with(b",200\n"), "a test that is not repeated");
    texts
}

/// Each `*` is taken for names of the other version: an old one for seven new
/// names and all other words, a new one for seven old names or one. No edge is
/// dangerous.
fn switched(random: &mut Random) -> Texts {
    let (old, new) = (switches(b'w', 0, true), switches(b'v', 3, false));
    let texts = Texts::new(&old, &new, many_tests(random, 200, 1_024, 30));
    let sheet = own_sheet(&texts);
    assert!(sheet.ends_with(b"\nend,3958,0,0\n"), "other pairs");
    texts
}

/// The same, and one new name of eight switches leads back to the first step: it
/// makes their old `*` dangerous, which 200 tests crossed.
fn switches_parted(random: &mut Random) -> Texts {
    let (old, mut new) = (switches(b'w', 0, true), switches(b'v', 3, false));
    let parting = 193..=200;
    for edge in &mut new.procedures[0].edges {
        if parting.contains(&edge.from) && edge.word == b"v3" {
            edge.to = 1;
        }
    }
    let parts = |edge: &Edge| parting.contains(&edge.from) && edge.word == b"*";
    repeated(random, &old, &new, parts)
}

/// Blanks moved in every label.
fn formatted(random: &mut Random, mut blanks: Program, tests: Vec<u8>) -> Texts {
    put_blanks(&mut blanks);
    let mut moved = blanks.clone();
    format_some(random, &mut moved, 100);
    Texts::new(&blanks, &moved, tests)
}

fn rings_formatted(random: &mut Random) -> Texts {
    let label = b"turn the drum until one layer of rope is on";
    let rings = [46, 89].map(|steps| formatted_ring(random, steps, label));
    Texts::new(&rings[0], &rings[1], Vec::new())
}

/// Each step and each call has three partners. In one procedure a word is
/// changed, so a part of the tests is repeated.
fn calls_of_four(random: &mut Random, change: impl Fn(&mut Edge)) -> Texts {
    let old = fours(1);
    let mut new = fours(2);
    let changed = new.procedures[20].edges.iter_mut();
    changed.filter(|edge| edge.word == b"stay").for_each(change);
    let rows = runs(random, &old, 200, 2_000, 40);
    Texts::new(&old, &new, rows)
}

type Cases<'t> = Vec<(&'static str, Run<'t>)>;

fn largest_cases(jobs: &Jobs) -> Cases<'_> {
    let full = &jobs.full;
    vec![
        (
            "read: 512 nodes, 1,024 edges, 200 tests",
            Box::new(|calls, _| (calls.read_tests)(&full.old, &full.new, &full.tests).packed()),
        ),
        (
            "sheet: 512 nodes, 1,024 edges, 200 tests",
            write_sheet(full),
        ),
        (
            "sheet: the same, 8 partners of each step",
            write_sheet(&jobs.groups),
        ),
        (
            "sheet: rings 46 x 89, 4,096 pairs",
            write_sheet(&jobs.rings),
        ),
        (
            "sheet: 64 procedures deep in calls",
            write_sheet(&jobs.deep),
        ),
        (
            "check: the largest sheet",
            check(&jobs.groups, largest_sheet(&jobs.groups)),
        ),
        ("record: one line of 200", write_records(full, 200)),
        (
            "record: the same, 8 partners of each step",
            write_records(&jobs.groups, 200),
        ),
    ]
}

fn formatted_cases(jobs: &Jobs) -> Cases<'_> {
    vec![
        (
            "sheet: 512 nodes, blanks moved in labels",
            write_sheet(&jobs.formatted),
        ),
        (
            "check: this sheet",
            check(&jobs.formatted, own_sheet(&jobs.formatted)),
        ),
        (
            "sheet: rings 46 x 89, blanks moved in labels",
            write_sheet(&jobs.rings_formatted),
        ),
    ]
}

fn calling_cases(jobs: &Jobs) -> Cases<'_> {
    let fours = &jobs.calls_of_four;
    vec![
        (
            "sheet: 64 procedures, calls of four each",
            write_sheet(fours),
        ),
        ("check: this sheet", check(fours, own_sheet(fours))),
        (
            "record: one line of 200, calls of four each",
            write_records(fours, 200),
        ),
    ]
}

fn parted_cases(jobs: &Jobs) -> Cases<'_> {
    vec![
        (
            "record: one line of 200 repeated tests",
            write_records(&jobs.parted, 200),
        ),
        (
            "record: the same, 8 partners of each step",
            write_records(&jobs.groups_parted, 200),
        ),
        ("probes: 512 nodes, 1,024 edges", write_probes(&jobs.parted)),
        (
            "probes: the same, 8 partners of each step",
            write_probes(&jobs.groups_parted),
        ),
        (
            "probes: 64 procedures, calls of four each",
            write_probes(&jobs.calls_parted),
        ),
    ]
}

fn star_cases(jobs: &Jobs) -> Cases<'_> {
    let switches = &jobs.switches;
    vec![
        ("sheet: 512 nodes, * against names", write_sheet(switches)),
        ("check: this sheet", check(switches, own_sheet(switches))),
        (
            "record: one line of 200, * against names",
            write_records(switches, 200),
        ),
        (
            "record: 200 repeated tests, * against names",
            write_records(&jobs.switches_parted, 200),
        ),
        (
            "probes: 512 nodes, * against names",
            write_probes(&jobs.switches_parted),
        ),
    ]
}

// ---- cases of the search

type Row = [u64; ROW_WORDS];

/// The rows that are searched, and how many times a run searches them all: one
/// search takes some nanoseconds.
const ROWS: usize = 200;
const PASSES: usize = 20;

/// The dangerous edges.
const DANGERS: [usize; 8] = [0, 70, 191, 320, 517, 700, 901, 1_023];

fn set(edges: &[usize]) -> Row {
    let mut row = [0; ROW_WORDS];
    for (word, bit) in edges.iter().map(|&edge| place_of(edge)) {
        row[word] |= bit;
    }
    row
}

/// Rows that hold about half of the edges that are not dangerous, and these.
fn dense_rows(random: &mut Random, dangers: &Row, held: &[usize]) -> Vec<Row> {
    let held = set(held);
    let row = |_| std::array::from_fn(|at| random.draw() & !dangers[at] | held[at]);
    (0..ROWS).map(row).collect()
}

/// Searches all rows; each search must answer this edge.
fn search_all(search: &Search, rows: &[Row], dangers: &Row, due: usize) -> u64 {
    let mut right = 0;
    for _ in 0..PASSES {
        let (rows, dangers) = (black_box(rows), black_box(dangers));
        for row in rows {
            right += usize::from((search.first_danger)(row, dangers) == due);
        }
    }
    assert_eq!(right, PASSES * ROWS, "{}: a wrong edge", search.name);
    right as u64
}

/// The cases: which dangerous edges the rows hold.
const SEARCHED: [(&str, &[usize]); 3] = [
    ("rows that hold dangerous edge 0", &[0]),
    ("rows that hold dangerous edge 1,023 only", &[1_023]),
    ("rows that hold no dangerous edge", &[]),
];

/// Measures all cases in turn, each by both implementations.
fn measure_search(random: &mut Random) -> Measured {
    let dangers = &set(&DANGERS);
    let cases = SEARCHED.map(|(_, held)| {
        let due = held.first().copied().unwrap_or(NO_EDGE);
        (dense_rows(random, dangers, held), due)
    });
    let linked = search::LINKED;
    let searches = both(&search::INDEPENDENT, &linked);
    let mut runs = Vec::new();
    for (rows, due) in &cases {
        for &search in &searches {
            runs.push(move |_| search_all(black_box(search), rows, dangers, *due));
        }
    }
    measure("search", &runs)
}

/// Prints the times for all rows, and how many times as long those without a
/// dangerous edge take as those with edge 0.
fn print_search(measured: &Measured) {
    print_head("search in a row, 200 rows over 1,024 edges", "ns");
    let Measured { medians, turns } = measured;
    let cases: Vec<&[f64]> = medians.chunks(medians.len() / SEARCHED.len()).collect();
    for ((name, _), times) in SEARCHED.iter().zip(&cases) {
        print_line(name, times, 1e9 / PASSES as f64, *turns);
    }
    let pairs = cases[2].iter().zip(cases[0]);
    let longer: Vec<f64> = pairs.map(|(none, first)| none / first).collect();
    println!(
        "{:<44}{:>14}{:>16}",
        "no dangerous edge, times as long as edge 0",
        shown(longer.get(1), 2),
        shown(longer.first(), 2)
    );
}

// ---- measuring

/// The independent implementation, and the library if it is linked.
fn both<'a, T>(independent: &'a T, linked: &'a Option<T>) -> Vec<&'a T> {
    [Some(independent), linked.as_ref()]
        .into_iter()
        .flatten()
        .collect()
}

/// The median seconds of each run.
struct Measured {
    medians: Vec<f64>,
    turns: usize,
}

/// Makes these runs in turn; at each turn all must answer the same.
fn measure(name: &str, runs: &[impl Fn(usize) -> u64]) -> Measured {
    let mut times: Vec<Vec<Duration>> = vec![Vec::new(); runs.len()];
    let start = Instant::now();
    let mut turns = 0;
    while turns < FEWEST || start.elapsed() < TIME && turns < MOST {
        let mut answers = Vec::new();
        for (run, times) in runs.iter().zip(&mut times) {
            let begin = Instant::now();
            answers.push(black_box(run(turns)));
            times.push(begin.elapsed());
        }
        let same = answers.iter().all(|&answer| answer == answers[0]);
        assert!(same, "{name}: answers differ");
        turns += 1;
    }
    let medians = times.into_iter().map(median).collect();
    Measured { medians, turns }
}

fn median(mut times: Vec<Duration>) -> f64 {
    times.sort();
    times[times.len() / 2].as_secs_f64()
}

fn print_head(title: &str, unit: &str) {
    let (linked, independent) = (format!("linked {unit}"), format!("independent {unit}"));
    println!(
        "{title:<44}{linked:>14}{independent:>16}{:>9}{:>7}",
        "ratio", "runs"
    );
}

/// A line of a table: times of the independent implementation, and of the
/// library if it is linked, with so many of its units to the second.
fn print_line(name: &str, times: &[f64], units: f64, runs: usize) {
    let times: Vec<f64> = times.iter().map(|time| time * units).collect();
    let (own, other) = (times.first(), times.get(1));
    let ratio = other.map(|other| other / times[0]);
    println!(
        "{name:<44}{:>14}{:>16}{:>9}{runs:>7}",
        shown(other, 1),
        shown(own, 1),
        shown(ratio.as_ref(), 2)
    );
}

fn shown(number: Option<&f64>, digits: usize) -> String {
    number.map_or("-".to_string(), |number| format!("{number:.digits$}"))
}

fn main() {
    let mut random = Random::new(1, 1);
    let jobs = Jobs::new(&mut random);
    print_head("case", "us");
    let linked = LINKED;
    let cases = [
        largest_cases(&jobs),
        formatted_cases(&jobs),
        calling_cases(&jobs),
        parted_cases(&jobs),
        star_cases(&jobs),
    ];
    for (name, run) in cases.iter().flatten() {
        let by = |calls| move |turn| run(black_box(calls), turn);
        let runs: Vec<_> = both(&INDEPENDENT, &linked).into_iter().map(by).collect();
        let Measured { medians, turns } = measure(name, &runs);
        print_line(name, &medians, 1e6, turns);
    }
    println!();
    print_search(&measure_search(&mut random));
    if linked.is_none() {
        println!("the library is not linked");
    }
}
