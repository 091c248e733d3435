//! Journals and outcomes as lines: bytes in hexadecimal, and words.

use crate::bytes::Bytes;
use crate::calls::{Call, Written};
use crate::policy::{Columns, Policy, Sign, Test};

/// Prints each record of a journal.
pub fn print_journal(records: &[Vec<u8>]) {
    for (number, record) in records.iter().enumerate() {
        println!("call {number}");
        let call = Bytes(record)
            .record()
            .map(|(kind, body)| Call::read(kind, body));
        match call {
            Some(Ok(Call::Ask(ask))) => {
                println!("  {}", hexadecimal(&record[..14]));
                println!(
                    "      ask: broker {}, {} workspace cells, {} reply bytes",
                    ask.broker, ask.workspace_cells, ask.reply_bytes
                );
                print_records(&ask.query, query_words);
            }
            Some(Ok(call)) => {
                println!("  {}", hexadecimal(record));
                println!("      {}", words(&call));
            }
            Some(Err(bad)) => {
                println!("  {}", hexadecimal(record));
                println!("      {}", bad.words());
            }
            None => println!("  {}\n      cut off", hexadecimal(record)),
        }
    }
}

/// Prints the records of one outcome, from the start of these bytes.
pub fn print_outcome(bytes: &[u8]) {
    let mut left = Bytes(bytes);
    let mut end = 0;
    while let Some((kind, body)) = left.record() {
        if end > 0 && !matches!(kind, 0x21 | 0x22) {
            break;
        }
        end += 4 + body.len();
    }
    if end == 0 {
        println!("      none: {}", hexadecimal(bytes));
    }
    print_records(&bytes[..end], outcome_words);
}

/// One line for each record; what is no whole record as it is.
fn print_records(bytes: &[u8], words: fn(u16, &[u8]) -> String) {
    let mut left = Bytes(bytes);
    while !left.is_empty() {
        let before = left.0;
        match left.record() {
            Some((kind, body)) => {
                println!("      {}", hexadecimal(&before[..4 + body.len()]));
                println!("          {}", words(kind, body));
            }
            None => {
                println!("      {}", hexadecimal(before));
                return;
            }
        }
    }
}

fn outcome_words(kind: u16, body: &[u8]) -> String {
    match (kind, body) {
        (0x20, [a, b, c, d]) => {
            let certain = u16::from_le_bytes([*a, *b]);
            let possible = u16::from_le_bytes([*c, *d]);
            format!("{certain} certain, {possible} possible")
        }
        (0x21, _) => "certain".to_string(),
        (0x22, _) => "possible".to_string(),
        (0x23, [number, place]) => format!("refused with {number} at {place}"),
        (0x24, _) => "done".to_string(),
        _ => "no outcome".to_string(),
    }
}

fn query_words(kind: u16, body: &[u8]) -> String {
    match kind {
        1 => format!("table {body:?}"),
        2 => {
            let mut left = Bytes(body);
            let mut words = "select".to_string();
            while let Some((kind, body)) = left.record() {
                words += &format!("; {}", condition_words(kind, body));
            }
            words
        }
        3 => format!("project {body:?}"),
        4 => "product".to_string(),
        5 => "union".to_string(),
        6 => "difference".to_string(),
        _ => "of no kind".to_string(),
    }
}

fn condition_words(kind: u16, body: &[u8]) -> String {
    let operator = |byte: u8| match byte {
        1 => "equal",
        2 => "unequal",
        3 => "less",
        4 => "at most",
        5 => "covers",
        6 => "shorter",
        _ => "(no operator)",
    };
    match (kind, body) {
        (0x10, [o, left, right]) => format!("column {left} {} column {right}", operator(*o)),
        (0x11, [o, left, a, b, c, d]) => {
            let number = u32::from_le_bytes([*a, *b, *c, *d]);
            format!("column {left} {} {number}", operator(*o))
        }
        (0x12, [o, left, digits @ ..]) => {
            format!(
                "column {left} {} \"{}\"",
                operator(*o),
                String::from_utf8_lossy(digits)
            )
        }
        (0x13, _) => "and".to_string(),
        (0x14, _) => "or".to_string(),
        (0x15, _) => "not".to_string(),
        _ => "of no kind or form".to_string(),
    }
}

fn words(call: &Call) -> String {
    match call {
        Call::Begin => "begin".to_string(),
        Call::Declare {
            table,
            kind,
            domain,
        } => {
            let kind = match kind {
                1 => "a number".to_string(),
                2 => "a prefix".to_string(),
                other => format!("kind {other}"),
            };
            format!("declare table {table}: {kind} in domain {domain}")
        }
        Call::Open { memory_cells } => format!("open with {memory_cells} cells"),
        Call::Store { table, cells } => {
            let cells: Vec<String> = cells.iter().map(cell_words).collect();
            format!("store into table {table}: {}", cells.join(", "))
        }
        Call::Strike { table, row } => format!("strike table {table} row {row}"),
        Call::Amend {
            table,
            row,
            column,
            cell,
        } => {
            format!(
                "amend table {table} row {row} column {column}: {}",
                cell_words(cell)
            )
        }
        Call::Rule { filter, rule } => {
            let sign = match rule.sign {
                Sign::Allow => "allow",
                Sign::Prohibit => "prohibit",
            };
            let test = match rule.test {
                Test::Always => "always".to_string(),
                Test::Holds { column, number } => format!("where column {column} holds {number}"),
            };
            format!(
                "rule of filter {filter}: {sign} broker {} table {} column {} {test}",
                rule.broker, rule.table, rule.column
            )
        }
        Call::Consent { register, entry } => format!(
            "consent in register {register}: key {}, shown {}, linked {}",
            entry.key,
            columns_words(entry.shown),
            columns_words(entry.linked)
        ),
        Call::Combine(policy) => format!("combine {}", policy_words(policy)),
        Call::Ask(_) => "ask".to_string(),
    }
}

fn cell_words(cell: &Written) -> String {
    match cell {
        Written::Number(number) => number.to_string(),
        Written::Prefix(digits) => format!("\"{}\"", String::from_utf8_lossy(digits)),
    }
}

fn columns_words(columns: Columns) -> String {
    let held: Vec<u8> = (0..8)
        .filter(|column| columns.0 >> column & 1 == 1)
        .collect();
    format!("{held:?}")
}

fn policy_words(policy: &Policy) -> String {
    match policy {
        Policy::Filter(number) => format!("filter {number}"),
        Policy::Consents(number) => format!("register {number}"),
        Policy::Both(one, other) => {
            format!("both({}, {})", policy_words(one), policy_words(other))
        }
        Policy::Either(one, other) => {
            format!("either({}, {})", policy_words(one), policy_words(other))
        }
    }
}

fn hexadecimal(bytes: &[u8]) -> String {
    let bytes: Vec<String> = bytes.iter().map(|byte| format!("{byte:02X}")).collect();
    bytes.join(" ")
}
