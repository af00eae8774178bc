//! Jobs to compare implementations on. A job is fixed by seed and number.

pub mod calling;
pub mod damage;
pub mod labels;
pub mod limits;
pub mod model;
pub mod parting;
pub mod programs;
pub mod random;
pub mod sequences;
pub mod sheets;
pub mod star;
pub mod tests;

use crate::independent::closing;
use crate::independent::job::Job;
use crate::independent::suite::holds;
use limits::Texts;
use model::{Bytes, Program};
use random::Random;

/// The four texts of a job.
pub struct Generated {
    pub old: Bytes,
    pub new: Bytes,
    pub tests: Bytes,
    pub sheet: Bytes,
    /// The sheet was made so that its check must pass.
    pub passes: bool,
}

/// Programs and tests, few of them at a limit or above it.
fn texts(random: &mut Random) -> Texts {
    match random.below(1_000) {
        0..=5 => limits::heavy(random),
        6..=39 => limits::light(random),
        40..=189 => calling(random),
        190..=289 => parting(random),
        290..=389 => star(random),
        _ => small(random),
    }
}

/// Makes a job whose texts are mostly right.
pub fn mostly_right(random: &mut Random) -> Generated {
    let texts = texts(random);
    finish(random, texts)
}

/// Makes a job.
pub fn job(random: &mut Random) -> Generated {
    let mut texts = texts(random);
    if random.percent(25) {
        for _ in 0..random.within(1, 2) {
            let text = match random.below(5) {
                0 | 1 => &mut texts.old,
                2 | 3 => &mut texts.new,
                _ => &mut texts.tests,
            };
            damage::damage(random, text);
        }
    }
    if random.percent(5) {
        let text = match random.percent(50) {
            true => &mut texts.old,
            false => &mut texts.new,
        };
        damage::damage_callees(random, text);
    }
    finish(random, texts)
}

/// Programs of a few nodes, the new one a version of the old, and tests.
fn small(random: &mut Random) -> Texts {
    let pools = programs::Pools::new(random);
    let old = programs::program(random, &pools);
    let new = match random.below(20) {
        0 => programs::program(random, &pools),
        1 => old.clone(),
        _ => programs::version(random, &pools, &old),
    };
    with_tests(random, &old, &new)
}

/// Programs whose calls name several procedures, and tests.
fn calling(random: &mut Random) -> Texts {
    let pools = programs::Pools::new(random);
    let (old, new) = calling::versions(random, &pools);
    with_tests(random, &old, &new)
}

/// Programs that part within, and tests.
fn parting(random: &mut Random) -> Texts {
    let pools = programs::Pools::new(random);
    let (old, new) = parting::versions(random, &pools);
    with_tests(random, &old, &new)
}

/// Programs with switches, and tests.
fn star(random: &mut Random) -> Texts {
    let pools = programs::Pools::new(random);
    let (old, new) = star::versions(random, &pools);
    with_tests(random, &old, &new)
}

fn with_tests(random: &mut Random, old: &Program, new: &Program) -> Texts {
    let (old_text, new_text) = (old.text(), new.text());
    let dangers = dangers(&old_text, &new_text);
    let tests = tests::tests(random, old, &dangers);
    Texts {
        old: old_text,
        new: new_text,
        tests,
        sheet: None,
    }
}

/// The dangerous edges, none where the texts are refused.
fn dangers(old: &[u8], new: &[u8]) -> Vec<usize> {
    let Ok(job) = Job::read(old, new, b"") else {
        return Vec::new();
    };
    let (old, new) = job.graphs();
    let Some(closing) = closing::close(&old, &new, |_, _| ()) else {
        return Vec::new();
    };
    (0..job.old.edges.len())
        .filter(|&edge| holds(&closing.danger, edge))
        .collect()
}

/// Adds a sheet.
fn finish(random: &mut Random, texts: Texts) -> Generated {
    let Texts {
        old,
        new,
        tests,
        sheet,
    } = texts;
    let mut made = match (sheet, Job::read(&old, &new, &tests)) {
        (Some(text), _) => sheets::Made {
            text,
            passes: false,
        },
        (None, Ok(job)) => {
            let mut out = vec![0; 65_536];
            let answer = crate::independent::sheet(&old, &new, &tests, &mut out);
            let own = answer.is_success().then(|| &out[..answer.place as usize]);
            sheets::sheet(random, &job, own)
        }
        (None, Err(_)) => sheets::Made {
            text: random
                .pick(&[&b""[..], b"sheet,1\nM,0,0\nend,1,0,0\n", b"x"])
                .to_vec(),
            passes: false,
        },
    };
    if random.one_in(12) {
        damage::damage(random, &mut made.text);
        made.passes = false;
    }
    Generated {
        old,
        new,
        tests,
        sheet: made.text,
        passes: made.passes,
    }
}
