//! The lent job: the calls on a job record and lent tables, by the section
//! "The job" of the requirements.

use super::back;
use super::job::{self, answer, UNNAMED};
use super::tables::{self, Tables, TestTables};
use crate::answer::{Answer, Outcome};
use crate::records::{Job, Node, Read, Request, Version};
use crate::records::{CALL_SCRATCH, LINKS, NODES, READ_SCRATCH, ROWS, TESTS};
use crate::records::{CHECK, LABEL, PROBES, PROGRAM, RECORD, SHEET};

/// 13 where the call is not of the job's stage.
fn of_stage(job: &Job, stage: usize) -> Outcome<()> {
    match job.stage == stage {
        true => Ok(()),
        false => Err(Answer::new(13, 0)),
    }
}

const LENT_WRONG: Answer = Answer::new(14, 0);

/// 14 where this does not hold.
fn lent_right(holds: bool) -> Outcome<()> {
    match holds {
        true => Ok(()),
        false => Err(LENT_WRONG),
    }
}

/// The job after this stage, by the counts of both versions and of the tests.
fn job_at(stage: usize, old: [usize; 3], new: [usize; 3], tests: usize) -> Job {
    Job {
        stage,
        old_procedures: old[0],
        old_nodes: old[1],
        old_edges: old[2],
        new_procedures: new[0],
        new_nodes: new[1],
        new_edges: new[2],
        tests,
    }
}

/// 14 where the tables of a version are too short.
fn long_enough(lent: &Version) -> Outcome<()> {
    lent_right(lent.nodes.len() >= NODES && lent.links.len() >= LINKS)
}

/// A version whose tables are long enough and what reading its text leaves,
/// or 14.
fn version<'m>(lent: &Version<'m>) -> Outcome<Tables<'m>> {
    long_enough(lent)?;
    let tables = tables::program(lent.text).map_err(|_| LENT_WRONG)?;
    lent_right(tables.left(lent.nodes, lent.links))?;
    Ok(tables)
}

/// The text of a version whose tables are long enough and what reading that
/// text leaves, the lent one being like it in all that is taken from it; or
/// 14.
fn program(lent: &Version, counts: [usize; 3]) -> Outcome<Vec<u8>> {
    long_enough(lent)?;
    back::text(lent, counts).ok_or(LENT_WRONG)
}

/// Tests whose tables are long enough and what reading their text against so
/// many old edges leaves, or 14.
fn tests<'m>(lent: &Read<'m>, edges: usize) -> Outcome<TestTables<'m>> {
    lent_right(lent.tests.len() >= TESTS && lent.rows.len() >= ROWS)?;
    let tables = tables::tests(lent.text, edges).map_err(|_| LENT_WRONG)?;
    lent_right(tables.left(lent.tests, lent.rows))?;
    Ok(tables)
}

/// Makes the job a fresh one.
pub fn reset(job: &mut Job) {
    *job = Job::default();
}

/// Reads the old program.
pub fn read_old(
    job: &mut Job,
    old: &[u8],
    nodes: &mut [Node],
    links: &mut [usize],
    scratch: &mut [usize],
) -> Answer {
    scratch.fill(0);
    let mut read = || {
        of_stage(job, 0)?;
        lent_right(nodes.len() >= NODES && links.len() >= LINKS)?;
        lent_right(scratch.len() >= READ_SCRATCH && *job == Job::default())?;
        let tables = tables::program(old)?;
        tables.store(nodes, links);
        *job = job_at(1, tables.counts(), [0; 3], 0);
        Ok(Answer::success(0))
    };
    answer(read())
}

/// Reads the new program.
pub fn read_new(
    job: &mut Job,
    old: Version,
    new: &[u8],
    nodes: &mut [Node],
    links: &mut [usize],
    scratch: &mut [usize],
) -> Answer {
    scratch.fill(0);
    let mut read = || {
        of_stage(job, 1)?;
        lent_right(nodes.len() >= NODES && links.len() >= LINKS)?;
        lent_right(scratch.len() >= READ_SCRATCH)?;
        let old = version(&old)?.counts();
        lent_right(*job == job_at(1, old, [0; 3], 0))?;
        let tables = tables::program(new)?;
        tables.store(nodes, links);
        *job = job_at(2, old, tables.counts(), 0);
        Ok(Answer::success(0))
    };
    answer(read())
}

/// Reads the tests.
pub fn read_tests(
    job: &mut Job,
    old: Version,
    new: Version,
    text: &[u8],
    tests: &mut [usize],
    rows: &mut [u64],
    scratch: &mut [usize],
) -> Answer {
    scratch.fill(0);
    let mut read = || {
        of_stage(job, 2)?;
        lent_right(tests.len() >= TESTS && rows.len() >= ROWS)?;
        lent_right(scratch.len() >= READ_SCRATCH)?;
        let (old, new) = (version(&old)?.counts(), version(&new)?.counts());
        lent_right(*job == job_at(2, old, new, 0))?;
        let tables = tables::tests(text, old[2])?;
        tables.store(tests, rows);
        *job = job_at(3, old, new, tables.suite.len());
        Ok(Answer::success(0))
    };
    answer(read())
}

/// What was read, at stage 3: both versions and the tests, or 13 or 14.
fn held<'m>(job: &Job, lent: &Read<'m>, scratch: usize) -> Outcome<Held<'m>> {
    of_stage(job, 3)?;
    lent_right(scratch >= CALL_SCRATCH)?;
    let (old, new) = (version(&lent.old)?, version(&lent.new)?);
    let tests = tests(lent, old.program.edges.len())?;
    let count = tests.suite.len();
    lent_right(*job == job_at(3, old.counts(), new.counts(), count))?;
    Ok(Held {
        nodes: [old.nodes, new.nodes],
        read: job::Job {
            old: old.program,
            new: new.program,
            suite: tests.suite,
        },
    })
}

/// The programs to write back, at stage 3, or 13 or 14: of the texts of both
/// versions 14 asks less here, of all else the same.
fn programs(job: &Job, lent: &Read, scratch: usize) -> Outcome<[Vec<u8>; 2]> {
    of_stage(job, 3)?;
    lent_right(scratch >= CALL_SCRATCH)?;
    let old = program(
        &lent.old,
        [job.old_procedures, job.old_nodes, job.old_edges],
    )?;
    let new = program(
        &lent.new,
        [job.new_procedures, job.new_nodes, job.new_edges],
    )?;
    let tests = tests(lent, job.old_edges)?;
    lent_right(job.tests == tests.suite.len())?;
    Ok([old, new])
}

struct Held<'m> {
    nodes: [Vec<Node>; 2],
    read: job::Job<'m>,
}

impl Held<'_> {
    /// The record of a node by side, or 6.
    fn node(&self, side: usize, node: usize) -> Outcome<Node> {
        let nodes = self.nodes.get(side).ok_or(UNNAMED)?;
        nodes.get(node).copied().ok_or(UNNAMED)
    }
}

/// Serves a request of stage 3.
pub fn call(
    job: &mut Job,
    lent: Read,
    request: Request,
    scratch: &mut [usize],
    out: &mut [u8],
) -> Answer {
    scratch.fill(0);
    let Request {
        number,
        a,
        b,
        input,
    } = request;
    let mut serve = || {
        if number == PROGRAM {
            let [old, new] = programs(job, &lent, scratch.len())?;
            return Ok(back::write(&[&old, &new], a, out));
        }
        let held = held(job, &lent, scratch.len())?;
        Ok(match number {
            SHEET => held.read.sheet(out),
            RECORD => held.read.record(a, out),
            CHECK => held.read.check(input),
            PROBES => held.read.probes(out),
            LABEL => held.node(a, b).map(|_| Answer::success(0))?,
            _ => UNNAMED,
        })
    };
    answer(serve())
}

/// Where a label stands in the text of its side and how long it is, packed;
/// 0 when refused.
pub fn label(job: &mut Job, lent: Read, side: usize, node: usize, scratch: &mut [usize]) -> u64 {
    scratch.fill(0);
    let part = held(job, &lent, scratch.len()).and_then(|held| held.node(side, node));
    part.map_or(0, |node| (node.start as u64) << 32 | node.length as u64)
}
