//! Runs of generated jobs, played step by step as the requirements say, against
//! what sheets and record lines promise. A run takes the edge with the chosen
//! word, or else `*`, and also words are chosen that no file names. A test that is
//! left off goes the same way in both versions, and its marks 0 and 1 are true;
//! so are those of a repeated test whose old run ended. A test that a stranger's
//! sheet leaves off goes the same way if the sheet passes the check. The library,
//! where it is linked, and the independent implementation must each keep this.

mod driving;
mod whole;

use rivetyellow_host::calls::Calls;
use rivetyellow_host::generate::labels::parts;
use rivetyellow_host::generate::model::{joined, put_line, row, Bytes, Sheet};
use rivetyellow_host::generate::programs::Pools;
use rivetyellow_host::generate::random::Random;
use rivetyellow_host::generate::{mostly_right, sheets, star};
use rivetyellow_host::independent::job::Job;
use rivetyellow_host::independent::program::{Kind, Program};
use rivetyellow_host::independent::suite::holds;
use rivetyellow_host::independent::text::Word;
use std::collections::BTreeMap;
use whole::all;

const DASH: Word = b'-' as Word;
const STAR: Word = b'*' as Word;
/// Of a byte that no file can have in a word.
const UNNAMED: Word = 1;

// ---- versions and meanings

/// A program, and for each node the number of its label: labels that match have
/// one number, in both versions.
struct Version<'p> {
    program: &'p Program<'p>,
    label: Vec<usize>,
}

/// For each label and state a meaning gives the next state, an output and a word.
struct Meaning {
    seed: u64,
    /// The words to choose from, by label; those of the old version more often.
    words: Vec<Vec<Word>>,
}

/// Both versions, and for each label words that may be chosen there.
fn versions<'p>(job: &'p Job<'p>) -> ([Version<'p>; 2], Vec<Vec<Word>>) {
    let mut numbers: BTreeMap<Vec<Bytes>, usize> = BTreeMap::new();
    let mut words: Vec<Vec<Word>> = Vec::new();
    let versions = [(&job.old, 3), (&job.new, 1)].map(|(program, often)| {
        let label = program.nodes.iter().map(|node| {
            let next = numbers.len();
            *numbers.entry(parts(node.label)).or_insert(next)
        });
        let label: Vec<usize> = label.collect();
        words.resize(numbers.len(), vec![UNNAMED, STAR]);
        for edge in &program.edges {
            let words = &mut words[label[edge.from as usize]];
            words.extend(std::iter::repeat_n(edge.word, often));
        }
        Version { program, label }
    });
    (versions, words)
}

impl Meaning {
    fn act(&self, label: usize, state: u64) -> (u64, u64, Word) {
        let mut random = Random::new(self.seed ^ state, label as u64);
        let (next, output) = (random.draw(), random.draw());
        (next, output, *random.pick(&self.words[label]))
    }
}

// ---- runs

#[derive(Clone, Copy, PartialEq, Debug)]
enum Status {
    Going,
    /// For want of an edge.
    Stopped,
    Ended,
}

struct Run<'v> {
    version: &'v Version<'v>,
    node: u16,
    word: Option<Word>,
    /// The open calls, each with how many of its callees were entered.
    calls: Vec<(u16, usize)>,
    state: u64,
    outputs: Vec<u64>,
    crossed: Vec<bool>,
    status: Status,
}

impl<'v> Run<'v> {
    fn new(version: &'v Version<'v>, state: u64) -> Run<'v> {
        Run {
            version,
            node: version.program.procedures[0].entry,
            word: None,
            calls: Vec::new(),
            state,
            outputs: Vec::new(),
            crossed: vec![false; version.program.edges.len()],
            status: Status::Going,
        }
    }

    fn step(&mut self, meaning: &Meaning) {
        let node = self.node as usize;
        match (self.version.program.nodes[node].kind, self.word) {
            (Kind::Entry, _) => self.cross(self.node, DASH),
            (Kind::Step | Kind::Call, None) => {
                let (state, output, word) = meaning.act(self.version.label[node], self.state);
                self.state = state;
                self.outputs.push(output);
                self.word = Some(word);
            }
            (Kind::Step, Some(word)) => self.cross(self.node, word),
            (Kind::Call, Some(_)) => self.call(self.node, 0),
            (Kind::Exit, _) => match self.calls.pop() {
                Some((call, entered)) => self.call(call, entered),
                None => self.status = Status::Ended,
            },
        }
    }

    /// Enters the next callee of a call, or crosses its edge after the last.
    fn call(&mut self, call: u16, entered: usize) {
        let program = self.version.program;
        match program.callees(call).get(entered) {
            None => self.cross(call, DASH),
            Some(&callee) => {
                self.calls.push((call, entered + 1));
                self.stand(program.procedures[callee as usize].entry);
            }
        }
    }

    /// Crosses the edge of a node that has the word, or else `*`.
    fn cross(&mut self, node: u16, word: Word) {
        let edges = &self.version.program.edges;
        let of = |word| {
            let mut edges = edges.iter();
            edges.position(|edge| edge.from == node && edge.word == word)
        };
        match of(word).or_else(|| of(STAR)) {
            None => self.status = Status::Stopped,
            Some(edge) => {
                self.crossed[edge] = true;
                self.stand(edges[edge].to);
            }
        }
    }

    fn stand(&mut self, node: u16) {
        self.node = node;
        self.word = None;
    }

    fn in_step(&self, other: &Run) -> bool {
        let at = |run: &Run| {
            let node = run.node as usize;
            let nodes = &run.version.program.nodes;
            (nodes[node].kind, run.version.label[node], run.calls.len())
        };
        let output = self.outputs.last() == other.outputs.last();
        let outputs = output && self.outputs.len() == other.outputs.len();
        outputs && at(self) == at(other) && self.status == other.status
    }
}

/// Steps of a run, and more of a new one after the old run ended.
const STEPS: usize = 300;
const MORE: usize = 2_000;

/// Runs of both versions, of one meaning and starting state.
struct Both<'v> {
    old: Run<'v>,
    new: Run<'v>,
    /// They are in step until the old run stops, ends, or is left.
    same: bool,
    /// The old run took `*` for another word.
    star: bool,
}

fn play<'v>(versions: &'v [Version<'v>; 2], meaning: &Meaning, state: u64) -> Both<'v> {
    let [mut old, mut new] = versions.each_ref().map(|version| Run::new(version, state));
    let (mut same, mut star) = (true, false);
    for _ in 0..STEPS {
        let (node, word) = (old.node, old.word);
        old.step(meaning);
        if old.status == Status::Stopped {
            break;
        }
        if new.status == Status::Going {
            new.step(meaning);
        }
        same &= old.in_step(&new);
        let kind = old.version.program.nodes[node as usize].kind;
        star |= kind == Kind::Step && word.is_some_and(|word| !names(&old, node, word));
        if old.status == Status::Ended {
            break;
        }
    }
    Both {
        old,
        new,
        same,
        star,
    }
}

fn names(run: &Run, node: u16, word: Word) -> bool {
    let mut edges = run.version.program.edges.iter();
    edges.any(|edge| edge.from == node && edge.word == word)
}

// ---- promises

/// Runs by what they show.
#[derive(Default, Debug)]
struct Met {
    left_off: usize,
    left_off_ended: usize,
    /// Left off, with a `*` taken for another word.
    left_off_star: usize,
    marked: usize,
    repeated_ended: usize,
    /// Repeated, as they part.
    parted: usize,
    strangers: usize,
    strangers_star: usize,
    refused: usize,
}

/// A job whose tests are runs, each with just the edges that it crossed.
struct Trial<'t, 'v> {
    number: u64,
    texts: [&'t [u8]; 3],
    runs: &'t mut [Both<'v>],
    meaning: &'t Meaning,
}

fn name(run: usize) -> Bytes {
    format!("run_{run}").into_bytes()
}

impl Trial<'_, '_> {
    /// Whether the sheet lists this run; none if there are too many pairs.
    fn repeated(&self, calls: &Calls) -> Option<Vec<bool>> {
        let [old, new, tests] = self.texts;
        let mut out = vec![0; 65_536];
        let answer = (calls.sheet)(old, new, tests, &mut out);
        if !answer.is_success() {
            assert_eq!(answer.number, 15, "{} {}", calls.name, self.number);
            return None;
        }
        let sheet = &out[..answer.place as usize];
        let lines: Vec<&[u8]> = sheet.split(|&byte| byte == b'\n').collect();
        let listed = |run| lines.contains(&&[b"R,", &name(run)[..]].concat()[..]);
        Some((0..self.runs.len()).map(listed).collect())
    }

    fn marks(&self, calls: &Calls, run: usize) -> Bytes {
        let [old, new, tests] = self.texts;
        let mut out = vec![0; 1_100];
        let answer = (calls.record)(old, new, tests, run, &mut out);
        assert!(answer.is_success(), "{} {}", calls.name, self.number);
        let line = &out[..answer.place as usize - 1];
        line.rsplit(|&byte| byte == b',').next().unwrap().to_vec()
    }

    /// Sheet and record lines.
    fn selected(&mut self, calls: &Calls, met: &mut Met) {
        let Some(repeated) = self.repeated(calls) else {
            return;
        };
        for (at, repeated) in repeated.into_iter().enumerate() {
            let marks = self.marks(calls, at);
            let what = format!("{}: job {}, run {at}", calls.name, self.number);
            let run = &mut self.runs[at];
            assert!(run.same || repeated, "{what}: left off, and parts");
            let ended = run.old.status == Status::Ended;
            if repeated && ended {
                for _ in 0..MORE {
                    if run.new.status == Status::Going {
                        run.new.step(self.meaning);
                    }
                }
            }
            if !repeated || ended {
                for (edge, mark) in marks.iter().enumerate() {
                    let crossed = run.new.crossed[edge];
                    let untrue = if crossed { b'0' } else { b'1' };
                    assert_ne!(*mark, untrue, "{what}, edge {edge}");
                }
                met.marked += usize::from(marks.contains(&b'1') && marks.contains(&b'0'));
            }
            met.left_off += usize::from(!repeated);
            met.left_off_ended += usize::from(!repeated && ended);
            met.left_off_star += usize::from(!repeated && run.star);
            met.repeated_ended += usize::from(repeated && ended);
            met.parted += usize::from(!run.same);
        }
    }

    /// A stranger's sheet. If it passes, what it leaves off goes the same way.
    fn checked(&self, calls: &Calls, sheet: &Sheet, met: &mut Met) {
        let [old, new, tests] = self.texts;
        let text = joined(&sheet.lines(name));
        if !(calls.check)(old, new, tests, &text).is_success() {
            met.refused += 1;
            return;
        }
        for (at, run) in self.runs.iter().enumerate() {
            if !sheet.repeated.contains(&at) {
                let what = (calls.name, self.number, at);
                assert!(run.same, "{what:?}: a sheet that passes leaves it off");
                met.strangers += 1;
                met.strangers_star += usize::from(run.star);
            }
        }
    }
}

/// A stranger's sheet; some have a pair or a D line less than they need. Only the
/// tests are listed that hold an edge under D.
fn stranger(random: &mut Random, job: &Job) -> Sheet {
    let mut sheet = sheets::stranger(random, job);
    if random.percent(30) {
        let at = random.below(sheet.pairs.len());
        let pair = sheet.pairs.iter().nth(at).copied();
        sheet.pairs.retain(|&one| Some(one) != pair);
    }
    if random.percent(30) && !sheet.dangers.is_empty() {
        let at = random.below(sheet.dangers.len());
        let edge = sheet.dangers.iter().nth(at).copied();
        sheet.dangers.retain(|&one| Some(one) != edge);
    }
    let held = |test: &usize| {
        let row = job.suite.row(*test);
        sheet.dangers.iter().any(|&edge| holds(row, edge))
    };
    sheet.repeated.retain(held);
    sheet
}

// ---- jobs

/// Runs of a job.
const RUNS: usize = 8;

/// Two programs, in half of the jobs such with switches.
fn programs(random: &mut Random, number: u64) -> [Bytes; 2] {
    if number.is_multiple_of(2) {
        let pools = Pools::new(random);
        let (old, new) = star::versions(random, &pools);
        return [old.text(), new.text()];
    }
    let job = mostly_right(random);
    [job.old, job.new]
}

/// Plays runs of a job, if it is accepted and not too large.
fn try_job(number: u64, met: &mut Met) {
    let mut random = Random::new(91, number);
    let [old, new] = programs(&mut random, number);
    let Ok(job) = Job::read(&old, &new, b"") else {
        return;
    };
    if old.len() > 3_000 {
        return;
    }
    let (versions, words) = versions(&job);
    let seed = random.draw();
    let meaning = Meaning { seed, words };
    let mut run = |_| play(&versions, &meaning, random.draw());
    let mut runs: Vec<Both> = (0..RUNS).map(&mut run).collect();
    let mut tests = Bytes::new();
    for (at, run) in runs.iter().enumerate() {
        put_line(&mut tests, &[b"T", &name(at), &row(&run.old.crossed)]);
    }
    let job = Job::read(&old, &new, &tests).expect("tests that are accepted");
    let strangers = [(); 3].map(|_| stranger(&mut random, &job));
    let mut trial = Trial {
        number,
        texts: [&old, &new, &tests],
        runs: &mut runs,
        meaning: &meaning,
    };
    for calls in all() {
        for sheet in &strangers {
            trial.checked(&calls, sheet, met);
        }
        trial.selected(&calls, met);
    }
}

#[test]
fn promises() {
    let mut met = Met::default();
    for number in 0..4_000 {
        try_job(number, &mut met);
    }
    let enough = met.left_off > 8_000
        && met.left_off_ended > 3_000
        && met.left_off_star > 1_500
        && met.marked > 10_000
        && met.repeated_ended > 3_000
        && met.parted > 4_000
        && met.strangers > 5_000
        && met.strangers_star > 700
        && met.refused > 2_000;
    assert!(enough, "{met:?}");
}
