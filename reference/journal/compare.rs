//! `compare COUNT SEED PROGRAM`: random journals through the evaluator and the program.

use std::io;
use std::path::Path;
use std::process::ExitCode;
use std::time::Instant;

use journal::batch::{Records, SHORT_PATIENCE, difference, differs, search};
use journal::counts::Counts;
use journal::generate::journal;
use journal::program::{converse, run};
use journal::session::outcomes;
use journal::shrink::shrink;
use journal::words::{print_journal, print_outcome};

fn main() -> ExitCode {
    let arguments: Vec<String> = std::env::args().collect();
    let [_, count, seed, program] = &arguments[..] else {
        eprintln!("compare COUNT SEED PROGRAM");
        return ExitCode::from(2);
    };
    let (Ok(count), Ok(seed)) = (count.parse(), seed.parse()) else {
        eprintln!("COUNT and SEED are numbers");
        return ExitCode::from(2);
    };
    match compare(count, seed, Path::new(program)) {
        Ok(true) => ExitCode::SUCCESS,
        Ok(false) => ExitCode::from(1),
        Err(error) => {
            eprintln!("{program}: {error}");
            ExitCode::from(2)
        }
    }
}

fn compare(count: u64, seed: u64, program: &Path) -> io::Result<bool> {
    let start = Instant::now();
    if let Some(call) = first_silence(seed, program)? {
        println!("call {call} has no outcome before the next call is sent");
        return Ok(false);
    }
    let mut counts = Counts::default();
    if let Some(found) = search(program, count, seed, &mut counts)? {
        println!(
            "a difference: journal {} of seed {seed}",
            found.journals - 1
        );
        report(program, found.records)?;
        return Ok(false);
    }
    counts.print();
    println!("no difference, {:.1} s", start.elapsed().as_secs_f64());
    Ok(true)
}

/// Talks to the program call by call, for the first few journals of its seed.
fn first_silence(seed: u64, program: &Path) -> io::Result<Option<usize>> {
    let made = (0..16).map(|number| journal(seed, number, &mut Counts::default()));
    let calls: Vec<(Vec<u8>, Vec<u8>)> = made
        .filter(|made| !made.bad)
        .flat_map(|made| made.records.into_iter().zip(made.outcomes))
        .map(|(record, outcome)| (record, outcome.bytes()))
        .collect();
    converse(program, &calls, SHORT_PATIENCE)
}

/// Shrinks the records and prints them with both outcomes of the call that differs.
fn report(program: &Path, records: Records) -> io::Result<()> {
    if !differs(program, &records)? {
        println!("it did not come again; the records as they were:");
        print_journal(&records);
        return Ok(());
    }
    let bad = outcomes(&records.concat()).1.is_some();
    let records = shrink(records, &mut |candidate| {
        let still = outcomes(&candidate.concat()).1.is_some() == bad;
        still && differs(program, candidate).unwrap_or(false)
    });
    print_journal(&records);
    let input = records.concat();
    let (expected, bad) = outcomes(&input);
    let run = run(program, &input, SHORT_PATIENCE)?;
    let Some(at) = difference(&expected, bad.is_some(), &run) else {
        println!("it did not come again");
        return Ok(());
    };
    let before: usize = expected[..at]
        .iter()
        .map(|outcome| outcome.bytes().len())
        .sum();
    println!("call {at}, by the rules:");
    match (expected.get(at), bad) {
        (Some(outcome), _) => print_outcome(&outcome.bytes()),
        (None, Some(bad)) => println!("      bad journal: {}", bad.words()),
        (None, None) => println!("      the end, with status 0"),
    }
    println!(
        "by the program (status {:?}, hung {}):",
        run.status, run.hung
    );
    print_outcome(&run.output[before.min(run.output.len())..]);
    let errors = String::from_utf8_lossy(&run.errors);
    if !errors.is_empty() {
        println!("its standard error: {}", errors.trim_end());
    }
    Ok(())
}
