//! Damage done to the bytes of a query, and bytes that never were a query.

use crate::queries::Records;
use crate::random::Random;

/// The query with one to three things wrong in it.
pub fn damaged(random: &mut Random, mut records: Records) -> Vec<u8> {
    let times = random.pick(&[1, 1, 1, 2, 3]);
    for _ in 0..times {
        if records.is_empty() {
            break;
        }
        let at = random.below(records.len());
        match random.below(12) {
            0 => {
                records.remove(at);
            }
            1 => records.insert(at, records[at].clone()),
            2 => {
                let other = random.below(records.len());
                records.swap(at, other);
            }
            3 => {
                let length = records[at].len();
                records[at].truncate(random.below(length + 1));
            }
            4 => {
                let place = random.below(records[at].len() + 1);
                records[at].insert(place, random.byte());
            }
            5 if !records[at].is_empty() => {
                // The length of the body.
                let byte = random.below(records[at].len().min(2));
                let change = random.pick(&[1u8, 255, 2, 254, 4, 252]);
                records[at][byte] = records[at][byte].wrapping_add(change);
            }
            6 if records[at].len() > 2 => {
                // The kind.
                let kind = random.from_to(0, 8) as u8;
                records[at][2] = kind;
            }
            _ if !records[at].is_empty() => change_a_byte(random, &mut records[at]),
            _ => {}
        }
    }
    let mut bytes = records.concat();
    match random.below(12) {
        0 => bytes.truncate(random.below(bytes.len() + 1)),
        1 => bytes.extend(vec![0; random.from_to(1, 5)]),
        2 => bytes.push(random.byte()),
        _ => {}
    }
    bytes
}

fn change_a_byte(random: &mut Random, record: &mut [u8]) {
    // The body more often than the head.
    let first = if record.len() > 4 && random.percent(80) {
        4
    } else {
        0
    };
    let at = random.from_to(first, record.len() - 1);
    record[at] = match random.below(4) {
        0 => record[at] ^ 1 << random.below(8),
        1 => random.byte(),
        2 => random.pick(&[
            0, 1, 2, 3, 4, 5, 6, 7, 8, 9, 15, 16, 0x2F, 0x30, 0x39, 0x3A, 255,
        ]),
        _ => record[at].wrapping_add(random.pick(&[1u8, 255])),
    };
}

/// Bytes that have little or nothing to do with a query.
pub fn garbage(random: &mut Random) -> Vec<u8> {
    let length = match random.below(6) {
        0 => return Vec::new(),
        1 => random.pick(&[1023, 1024, 1025, 1026, 1280, 2000, 4000, 65_525]),
        _ => random.from_to(1, 40),
    };
    let small = random.percent(60);
    (0..length)
        .map(|_| {
            if small {
                random.byte() % 7
            } else {
                random.byte()
            }
        })
        .collect()
}
