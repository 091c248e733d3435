//! `evaluate`: a journal on standard input, its outcomes on standard output.
//! `evaluate time`: the least time of each ask in it instead.

use std::io::{self, Read, Write};
use std::process::ExitCode;
use std::time::{Duration, Instant};

use journal::calls::{Bad, Call};
use journal::session::{Outcome, Session};

enum Stop {
    Bad(Bad),
    Broken(io::Error),
}

impl From<Bad> for Stop {
    fn from(bad: Bad) -> Stop {
        Stop::Bad(bad)
    }
}

impl From<io::Error> for Stop {
    fn from(error: io::Error) -> Stop {
        Stop::Broken(error)
    }
}

fn main() -> ExitCode {
    let ended = match std::env::args().nth(1).as_deref() {
        None => evaluate(),
        Some("time") => time(),
        Some(_) => {
            eprintln!("evaluate [time] < JOURNAL");
            return ExitCode::from(2);
        }
    };
    match ended {
        Ok(()) => ExitCode::SUCCESS,
        Err(Stop::Bad(bad)) => {
            eprintln!("bad journal: {}", bad.words());
            ExitCode::from(1)
        }
        Err(Stop::Broken(error)) => {
            eprintln!("{error}");
            ExitCode::from(1)
        }
    }
}

fn evaluate() -> Result<(), Stop> {
    let mut input = io::stdin().lock();
    let mut output = io::stdout().lock();
    let mut session = Session::default();
    while let Some(call) = next_call(&mut input)? {
        let outcome = session.carry_out(&call)?;
        output.write_all(&outcome.bytes())?;
        output.flush()?;
    }
    Ok(())
}

/// Up to 2,000 rounds or one second for each ask.
fn time() -> Result<(), Stop> {
    let mut input = io::stdin().lock();
    let mut session = Session::default();
    let mut number = 0;
    while let Some(call) = next_call(&mut input)? {
        if let Call::Ask(_) = call {
            let start = Instant::now();
            let mut least = Duration::MAX;
            let mut rounds = 0;
            while rounds < 2000 && start.elapsed() < Duration::from_secs(1) {
                let round = Instant::now();
                std::hint::black_box(session.carry_out(std::hint::black_box(&call))?);
                least = least.min(round.elapsed());
                rounds += 1;
            }
            let outcome = match session.carry_out(&call)? {
                Outcome::Done => "done".to_string(),
                Outcome::Refused(r) => format!("refused {} at {}", r.number(), r.place()),
                Outcome::Replied(r) => {
                    format!("{} certain, {} possible", r.certain.len(), r.possible.len())
                }
            };
            println!("ask {number}: {outcome}: {} ns", least.as_nanos());
            number += 1;
        } else {
            session.carry_out(&call)?;
        }
    }
    Ok(())
}

/// The next call, or nothing where the journal ends.
fn next_call(input: &mut impl Read) -> Result<Option<Call>, Stop> {
    let mut head = [0; 4];
    match fill(input, &mut head)? {
        0 => return Ok(None),
        4 => {}
        _ => return Err(Bad::CutOff.into()),
    }
    let mut body = vec![0; u16::from_le_bytes([head[0], head[1]]) as usize];
    if fill(input, &mut body)? < body.len() {
        return Err(Bad::CutOff.into());
    }
    Ok(Some(Call::read(
        u16::from_le_bytes([head[2], head[3]]),
        &body,
    )?))
}

/// Reads until the buffer is full or the input ends; the count of bytes read.
fn fill(input: &mut impl Read, buffer: &mut [u8]) -> io::Result<usize> {
    let mut count = 0;
    while count < buffer.len() {
        match input.read(&mut buffer[count..])? {
            0 => break,
            more => count += more,
        }
    }
    Ok(count)
}
