//! Holds the proved reader, compiled, against the reader of this folder on many byte strings.
//! Arguments: how many strings, and a seed.

mod reader;
mod strings;

use reader::Kind;
use strings::Random;

unsafe extern "C" {
    fn reader_number(query: *const u8, length: usize) -> u8;
    fn reader_place(query: *const u8, length: usize) -> usize;
    fn reader_kind(query: *const u8, length: usize, column: usize) -> u8;
}

/// The columns that the compiled reader has, too.
fn tables() -> [Vec<Kind>; 4] {
    use Kind::{Number, Prefix};
    [vec![Prefix, Number, Number], vec![Number, Number], vec![], vec![]]
}

/// Number, place or count, and the kinds of the result, by the reader of this folder.
fn expected(query: &[u8], tables: &[Vec<Kind>; 4]) -> (u8, usize, [u8; 9]) {
    let mut kinds = [0; 9];
    match reader::read(query, tables) {
        Err((number, place)) => (number, place as usize, kinds),
        Ok((count, listed)) => {
            for (at, kind) in listed.iter().enumerate() {
                kinds[at] = if *kind == Kind::Number { 1 } else { 2 };
            }
            (0, count as usize, kinds)
        }
    }
}

/// The same by the compiled reader. Each call reads the bytes that it is handed and nothing else.
fn found(query: &[u8]) -> (u8, usize, [u8; 9]) {
    let (start, length) = (query.as_ptr(), query.len());
    let number = unsafe { reader_number(start, length) };
    let place = unsafe { reader_place(start, length) };
    let mut kinds = [0; 9];
    if number == 0 {
        for (column, kind) in kinds.iter_mut().enumerate() {
            *kind = unsafe { reader_kind(start, length, column) };
        }
    }
    (number, place, kinds)
}

fn main() {
    let arguments: Vec<u64> = std::env::args().skip(1).filter_map(|a| a.parse().ok()).collect();
    let count = arguments.first().copied().unwrap_or(1_000_000);
    let seed = arguments.get(1).copied().unwrap_or(47_110);
    let tables = tables();
    let mut random = Random(seed);
    let mut reached = [0u64; 21];
    let mut places = [[0u64; 16]; 21];
    let started = std::time::Instant::now();
    for turn in 0..count {
        let query = strings::string(&mut random, &tables);
        let (want, got) = (expected(&query, &tables), found(&query));
        if want != got {
            println!("string {turn} differs: {want:?} and {got:?}: {query:02X?}");
            std::process::exit(1);
        }
        reached[want.0 as usize] += 1;
        places[want.0 as usize][want.1.min(15)] += 1;
    }
    let seconds = started.elapsed().as_secs_f64();
    println!("{count} strings, seed {seed}, {seconds:.1} s, no difference");
    for (number, times) in reached.iter().enumerate().filter(|(_, times)| **times > 0) {
        let at = places[number].iter().filter(|p| **p > 0).count();
        println!("{number:>3} {times:>9} at {at} places or counts");
    }
}
