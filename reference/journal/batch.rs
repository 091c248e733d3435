//! Holding the program against the evaluator, many journals at a time.

use std::io;
use std::path::Path;
use std::thread;
use std::time::Duration;

use crate::counts::Counts;
use crate::generate::{Journal, journal};
use crate::program::{Run, run};
use crate::session::{Outcome, outcomes};

pub type Records = Vec<Vec<u8>>;

/// Journals down one process.
const BATCH: u64 = 64;

pub const PATIENCE: Duration = Duration::from_secs(30);
pub const SHORT_PATIENCE: Duration = Duration::from_secs(5);

/// Records on which the program and the evaluator differ.
pub struct Found {
    pub records: Records,
    /// Journals made and compared until then.
    pub journals: u64,
}

/// Puts so many journals of its seed through the program, up to the first difference. While the
/// program is at one batch, the next is made.
pub fn search(
    program: &Path,
    count: u64,
    seed: u64,
    counts: &mut Counts,
) -> io::Result<Option<Found>> {
    let mut made = Vec::new();
    let mut next = 0;
    while next < count || !made.is_empty() {
        let batch = std::mem::take(&mut made);
        let before = next - batch.len() as u64;
        let found = thread::scope(|threads| {
            let found = threads.spawn(|| first_difference(program, &batch));
            while next < count && (made.len() as u64) < BATCH {
                made.push(journal(seed, next, counts));
                next += 1;
            }
            found.join().expect("the thread that runs the program")
        })?;
        if let Some((at, records)) = found {
            return Ok(Some(Found {
                records,
                journals: before + at as u64 + 1,
            }));
        }
    }
    Ok(None)
}

/// Puts journals through the program. The good ones go down one process, each led by a begin;
/// a bad one has a process of its own. Gives the first that differs and its records.
fn first_difference(program: &Path, journals: &[Journal]) -> io::Result<Option<(usize, Records)>> {
    let good = || journals.iter().filter(|journal| !journal.bad);
    let input: Vec<u8> = good().flat_map(|j| &j.records).flatten().copied().collect();
    let expected = good().flat_map(|journal| &journal.outcomes);
    let run_of_good = run(program, &input, PATIENCE)?;
    if let Some(call) = difference(expected, false, &run_of_good) {
        return Ok(Some(records_up_to(program, journals, call)?));
    }
    for (at, journal) in journals
        .iter()
        .enumerate()
        .filter(|(_, journal)| journal.bad)
    {
        let run = run(program, &journal.records.concat(), PATIENCE)?;
        if difference(&journal.outcomes, true, &run).is_some() {
            return Ok(Some((at, journal.records.clone())));
        }
    }
    Ok(None)
}

/// The good journal with this call, if it differs alone; else all good ones up to its end.
fn records_up_to(
    program: &Path,
    journals: &[Journal],
    call: usize,
) -> io::Result<(usize, Records)> {
    let mut so_far = Records::new();
    for (at, journal) in journals
        .iter()
        .enumerate()
        .filter(|(_, journal)| !journal.bad)
    {
        so_far.extend(journal.records.iter().cloned());
        if so_far.len() > call {
            let alone = differs(program, &journal.records)?;
            return Ok((
                at,
                if alone {
                    journal.records.clone()
                } else {
                    so_far
                },
            ));
        }
    }
    Ok((journals.len(), so_far))
}

/// Whether the program and the evaluator differ on these records.
pub fn differs(program: &Path, records: &[Vec<u8>]) -> io::Result<bool> {
    let input = records.concat();
    let (expected, bad) = outcomes(&input);
    let run = run(program, &input, SHORT_PATIENCE)?;
    Ok(difference(&expected, bad.is_some(), &run).is_some())
}

/// The number of the first outcome that differs. A program that gives all outcomes but ends in
/// another way than it should differs after the last.
pub fn difference<'a>(
    expected: impl IntoIterator<Item = &'a Outcome>,
    bad: bool,
    run: &Run,
) -> Option<usize> {
    let mut left = &run.output[..];
    let mut count = 0;
    for outcome in expected {
        match left.strip_prefix(&outcome.bytes()[..]) {
            Some(rest) => left = rest,
            None => return Some(count),
        }
        count += 1;
    }
    let lines = run.errors.iter().filter(|byte| **byte == b'\n').count();
    let one_line = lines == 1 && run.errors.ends_with(b"\n");
    let ended_right = if bad {
        run.status == Some(1) && one_line
    } else {
        run.status == Some(0)
    };
    (!left.is_empty() || run.hung || !ended_right).then_some(count)
}
