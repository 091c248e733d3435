//! Running the program that is held against the evaluator.

use std::io::{self, Read, Write};
use std::path::Path;
use std::process::{Child, Command, Stdio};
use std::sync::mpsc::{self, Receiver, RecvTimeoutError};
use std::thread;
use std::time::{Duration, Instant};

pub struct Run {
    pub output: Vec<u8>,
    pub errors: Vec<u8>,
    pub status: Option<i32>,
    /// Whether it was ended because nothing came for too long.
    pub hung: bool,
}

/// Runs the program on the input, for as long as something comes within the given patience.
pub fn run(program: &Path, input: &[u8], patience: Duration) -> io::Result<Run> {
    let mut child = Command::new(program)
        .stdin(Stdio::piped())
        .stdout(Stdio::piped())
        .stderr(Stdio::piped())
        .spawn()?;
    let mut to_child = child.stdin.take().expect("a pipe to the program");
    let mut output = child.stdout.take().expect("a pipe from the program");
    let mut errors = child.stderr.take().expect("a pipe from the program");
    thread::scope(|threads| {
        // The program may end before it has read all: then the rest need not be written.
        threads.spawn(move || to_child.write_all(input));
        let (sender, chunks) = mpsc::channel();
        threads.spawn(move || {
            let mut buffer = vec![0; 1 << 16];
            while let Ok(count @ 1..) = output.read(&mut buffer) {
                if sender.send(buffer[..count].to_vec()).is_err() {
                    break;
                }
            }
        });
        let errors = threads.spawn(move || {
            let mut bytes = Vec::new();
            errors.read_to_end(&mut bytes).map(|_| bytes)
        });
        let mut output = Vec::new();
        let mut hung = false;
        loop {
            match chunks.recv_timeout(patience) {
                Ok(chunk) => output.extend(chunk),
                Err(RecvTimeoutError::Disconnected) => break,
                Err(RecvTimeoutError::Timeout) => {
                    hung = true;
                    child.kill()?;
                    break;
                }
            }
        }
        let (status, late) = end(&mut child, patience)?;
        let errors = errors.join().expect("the thread of standard error")?;
        Ok(Run {
            output,
            errors,
            status,
            hung: hung || late,
        })
    })
}

/// Waits for the end, and makes one where none comes.
fn end(child: &mut Child, patience: Duration) -> io::Result<(Option<i32>, bool)> {
    let start = Instant::now();
    while start.elapsed() < patience {
        if let Some(status) = child.try_wait()? {
            return Ok((status.code(), false));
        }
        thread::sleep(Duration::from_micros(100));
    }
    child.kill()?;
    Ok((child.wait()?.code(), true))
}

/// Sends one call after another, each only when the outcome of the one before has come. Gives
/// the number of the first call whose outcome did not come in time. A wrong outcome ends it: that
/// is for others to find.
pub fn converse(
    program: &Path,
    calls: &[(Vec<u8>, Vec<u8>)],
    patience: Duration,
) -> io::Result<Option<usize>> {
    let mut child = Command::new(program)
        .stdin(Stdio::piped())
        .stdout(Stdio::piped())
        .spawn()?;
    let mut to_child = child.stdin.take().expect("a pipe to the program");
    let mut output = child.stdout.take().expect("a pipe from the program");
    let (sender, chunks) = mpsc::channel();
    thread::spawn(move || {
        let mut buffer = vec![0; 1 << 16];
        while let Ok(count @ 1..) = output.read(&mut buffer) {
            if sender.send(buffer[..count].to_vec()).is_err() {
                break;
            }
        }
    });
    let mut silent = None;
    for (number, (call, outcome)) in calls.iter().enumerate() {
        match hear(&chunks, outcome, to_child.write_all(call).is_ok(), patience) {
            Heard::Outcome => {}
            Heard::Other => break,
            Heard::Nothing => {
                silent = Some(number);
                break;
            }
        }
    }
    drop(to_child);
    end(&mut child, patience)?;
    Ok(silent)
}

enum Heard {
    Outcome,
    Other,
    Nothing,
}

/// Waits for the outcome of a call that was sent.
fn hear(chunks: &Receiver<Vec<u8>>, outcome: &[u8], sent: bool, patience: Duration) -> Heard {
    let mut left = outcome;
    while sent && !left.is_empty() {
        match chunks.recv_timeout(patience) {
            Ok(chunk) => match left.strip_prefix(&chunk[..]) {
                Some(rest) => left = rest,
                None => return Heard::Other,
            },
            Err(_) => return Heard::Nothing,
        }
    }
    if sent { Heard::Outcome } else { Heard::Nothing }
}
