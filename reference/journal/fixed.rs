//! `fixed COUNT SEED DIRECTORY`: a small set of journals out of COUNT that shows much, and the
//! outcomes by the rules, as two files.

use std::collections::BTreeSet;
use std::fs;
use std::path::Path;
use std::process::ExitCode;

use journal::counts::Counts;
use journal::generate::{Journal, journal};
use journal::session::Outcome;

/// Bytes of both files together.
const MOST_BYTES: usize = 200_000;

fn main() -> ExitCode {
    let arguments: Vec<String> = std::env::args().collect();
    let [_, count, seed, directory] = &arguments[..] else {
        eprintln!("fixed COUNT SEED DIRECTORY");
        return ExitCode::from(2);
    };
    let (Ok(count), Ok(seed)) = (count.parse(), seed.parse()) else {
        eprintln!("COUNT and SEED are numbers");
        return ExitCode::from(2);
    };
    match write(count, seed, Path::new(directory)) {
        Ok(()) => ExitCode::SUCCESS,
        Err(error) => {
            eprintln!("{directory}: {error}");
            ExitCode::from(1)
        }
    }
}

fn write(count: u64, seed: u64, directory: &Path) -> std::io::Result<()> {
    let mut input = Vec::new();
    let mut outcomes = Vec::new();
    let mut counts = Counts::default();
    let mut shown = BTreeSet::new();
    for number in 0..count {
        let mut own = Counts::default();
        let made = journal(seed, number, &mut own);
        let (records, given) = bytes(&made);
        let new: Vec<String> = traits(&made, &own)
            .into_iter()
            .filter(|t| !shown.contains(t))
            .collect();
        // A trait not shown yet is worth some bytes, and no journal is worth very many.
        let length = records.len() + given.len();
        let fits = input.len() + outcomes.len() + length <= MOST_BYTES;
        if made.bad || !fits || length > 12_000 || length > 1000 * new.len() {
            continue;
        }
        journal(seed, number, &mut counts);
        shown.extend(new);
        input.extend(records);
        outcomes.extend(given);
    }
    fs::create_dir_all(directory)?;
    fs::write(directory.join("journals"), &input)?;
    fs::write(directory.join("outcomes"), &outcomes)?;
    counts.print();
    println!(
        "{} bytes of journals, {} bytes of outcomes",
        input.len(),
        outcomes.len()
    );
    Ok(())
}

fn bytes(made: &Journal) -> (Vec<u8>, Vec<u8>) {
    (
        made.records.concat(),
        made.outcomes.iter().flat_map(Outcome::bytes).collect(),
    )
}

/// What a journal shows: refusals with their places, sizes of replies, records, conditions,
/// operators and depths of piles.
fn traits(made: &Journal, own: &Counts) -> BTreeSet<String> {
    let outcomes = made.outcomes.iter().map(|outcome| match outcome {
        Outcome::Done => "done".to_string(),
        Outcome::Refused(refusal) => format!("{} at {}", refusal.number(), refusal.place()),
        Outcome::Replied(reply) => {
            let certain = reply.certain.len().min(20);
            let possible = reply.possible.len().min(20);
            format!("{certain} certain, {possible} possible")
        }
    });
    let names = own.records.keys().chain(own.conditions.keys());
    let piles = own.piles.keys().map(|depth| format!("pile {depth}"));
    let names = names.map(|name| name.to_string());
    outcomes.chain(names).chain(piles).collect()
}
