//! `lent_differential SEED COUNT`: drives COUNT generated sequences of calls
//! of the lent job through the linked library and the independent
//! implementation, and compares answers and all lent memory after each call.
//! Exits 1 on a difference; the first one's sequence, shortened, is printed.
//! So it does if COUNT is 20,000 or more and a call never gave one of its
//! numbers, or a spoilt program was never written right, or never refused.
//! Without the library it exits 2 after the statistics.

use rivetyellow_host::answer::meaning;
use rivetyellow_host::drive::{shortened, Call, Driver, Made, Step};
use rivetyellow_host::generate::random::Random;
use rivetyellow_host::generate::sequences::{sequence, Spoilt, WRITTEN_BACK};
use std::collections::BTreeMap;
use std::time::Instant;
use std::{env, process};

const CALLS: [&str; 10] = [
    "read_old",
    "read_new",
    "read_tests",
    "sheet",
    "record",
    "check",
    "label",
    "program",
    "probes",
    "unknown",
];

/// The numbers that each of them gives, beside 13 and 14.
const GIVEN: [&[usize]; 10] = [
    &[0, 1, 2, 3, 4, 5, 6, 7, 8, 9],
    &[0, 1, 2, 3, 4, 5, 6, 7, 8, 9],
    &[0, 1, 2, 4, 5, 10],
    &[0, 15, 16],
    &[0, 6, 15, 16],
    &[0, 1, 2, 4, 11, 12],
    &[0, 6],
    &[0, 6, 16],
    &[0, 15, 16],
    &[6],
];

/// So many sequences meet them all.
const ENOUGH: u64 = 20_000;

/// The column of a call that answers number and place.
fn column(call: Call) -> Option<usize> {
    match call {
        Call::Reset | Call::Show(..) => None,
        Call::ReadOld => Some(0),
        Call::ReadNew => Some(1),
        Call::ReadTests => Some(2),
        Call::Ask(request, ..) => Some(3 + request.min(6)),
    }
}

#[derive(Default)]
struct Statistics {
    /// Answers by number and call.
    answers: [[u64; CALLS.len()]; 17],
    /// Calls of each column, labels shown and resets, by the stage before.
    stages: [[u64; CALLS.len() + 2]; 5],
    /// Labels shown and refused.
    shown: [u64; 2],
    /// What was spoilt: how often, and how often the answer was 0 and 14.
    spoilt: BTreeMap<&'static str, [u64; 3]>,
    calls: u64,
    /// Sequences that reached stage 3, and that asked for three things there.
    reached: u64,
    several: u64,
}

impl Statistics {
    fn add(&mut self, made: &[Made], spoilt: &[Spoilt]) {
        self.calls += made.len() as u64;
        let served = made.iter().filter(|made| {
            made.stage == 3 && matches!(made.call, Call::Ask(..)) && made.answer.number < 13
        });
        let served = served.count();
        self.several += u64::from(served >= 3);
        self.reached += u64::from(made.iter().any(|made| made.stage == 3));
        for made in made {
            let stage = made.stage.min(4);
            match (column(made.call), made.call) {
                (Some(column), _) => {
                    self.answers[made.answer.number.min(16) as usize][column] += 1;
                    self.stages[stage][column] += 1;
                }
                (None, Call::Reset) => self.stages[stage][CALLS.len() + 1] += 1,
                (None, _) => {
                    self.stages[stage][CALLS.len()] += 1;
                    let refused = made.answer.number == 0;
                    self.shown[usize::from(refused)] += 1;
                }
            }
        }
        for (what, number) in spoilt {
            let counts = self.spoilt.entry(what).or_default();
            counts[0] += 1;
            counts[1] += u64::from(*number == 0);
            counts[2] += u64::from(*number == 14);
        }
    }

    /// The numbers that a call gives but never gave, with what was spoilt.
    fn unmet(&self) -> Vec<String> {
        let mut unmet = Vec::new();
        for (what, number) in WRITTEN_BACK {
            let [_, success, lent] = self.spoilt.get(what).copied().unwrap_or_default();
            if (if number == 0 { success } else { lent }) == 0 {
                unmet.push(format!("{what}: {number}"));
            }
        }
        for (column, given) in GIVEN.iter().enumerate() {
            for &number in given.iter().chain(&[13, 14]) {
                if self.answers[number][column] == 0 {
                    unmet.push(format!("{} {number}", CALLS[column]));
                }
            }
        }
        unmet
    }

    fn print(&self) {
        print!("{:>6}", "answer");
        CALLS.iter().for_each(|call| print!("{call:>12}"));
        println!();
        for (number, row) in self.answers.iter().enumerate() {
            print!("{number:>6}");
            row.iter().for_each(|count| print!("{count:>12}"));
            println!("  {}", meaning(number as u32));
        }
        print!("{:>6}", "stage");
        let all = CALLS.iter().chain(&["shown", "reset"]);
        all.for_each(|call| print!("{call:>12}"));
        println!();
        for (stage, row) in self.stages.iter().enumerate() {
            match stage {
                4 => print!("{:>6}", "other"),
                _ => print!("{stage:>6}"),
            }
            row.iter().for_each(|count| print!("{count:>12}"));
            println!();
        }
        let [shown, refused] = self.shown;
        println!("{shown:>10} labels shown, {refused} refused");
        for (what, [all, success, lent]) in &self.spoilt {
            println!("{all:>10} {what}: {success} times 0, {lent} times 14");
        }
        println!("{:>10} calls", self.calls);
        println!("{:>10} sequences reach stage 3", self.reached);
        println!(
            "{:>10} sequences are served three times there",
            self.several
        );
    }
}

/// A step in words; of a long text only its length.
fn in_words(step: &Step) -> String {
    match step {
        Step::Text(text, bytes) if bytes.len() <= 400 => {
            format!("text {text:?} {:?}", String::from_utf8_lossy(bytes))
        }
        Step::Text(text, bytes) => format!("text {text:?}, {} bytes", bytes.len()),
        Step::Room(table, length) => format!("lend {length} of {table:?}"),
        Step::Put(table, at, value) => format!("put {value} into {table:?} at {at}"),
        Step::Call(call) => format!("call {call:?}"),
    }
}

fn report(number: u64, steps: &[Step]) {
    let steps = shortened(steps);
    let mut driver = Driver::new();
    let difference = driver.replay(&steps).unwrap_or("none when driven again");
    println!("sequence {number}, shortened: {difference}");
    steps
        .iter()
        .for_each(|step| println!("  {}", in_words(step)));
}

fn argument(at: usize) -> Option<u64> {
    env::args().nth(at)?.parse().ok()
}

fn main() {
    let (Some(seed), Some(count)) = (argument(1), argument(2)) else {
        eprintln!("usage: lent_differential SEED COUNT");
        process::exit(2);
    };
    let mut statistics = Statistics::default();
    let mut driver = Driver::new();
    let mut differing = 0;
    let start = Instant::now();
    for number in 0..count {
        let mut random = Random::new(seed, number);
        let spoilt = sequence(&mut random, &mut driver);
        statistics.add(&driver.made, &spoilt);
        let Some(difference) = &driver.difference else {
            continue;
        };
        differing += 1;
        if differing <= 10 {
            println!("sequence {number} differs: {difference}");
        }
        if differing == 1 {
            report(number, &driver.steps);
        }
    }
    let seconds = start.elapsed().as_secs();
    println!("seed {seed}, {count} sequences, {seconds} s");
    statistics.print();
    let unmet = statistics.unmet();
    if !unmet.is_empty() {
        println!("never given: {}", unmet.join(", "));
    }
    println!("{differing} sequences differ");
    if differing > 0 || (count >= ENOUGH && !unmet.is_empty()) {
        process::exit(1);
    }
    if !driver.is_linked() {
        println!("the library is not linked: nothing was compared");
        process::exit(2);
    }
}
