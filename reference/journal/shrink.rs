//! Making a journal smaller while a difference remains.

use std::time::{Duration, Instant};

use crate::ask::Ask;
use crate::bytes::{Bytes, record};
use crate::calls::{Call, Written};
use crate::policy::{Rule, Test};

type Records = Vec<Vec<u8>>;

/// The smallest records found within a minute or so for which the difference remains.
pub fn shrink(records: Records, remains: &mut dyn FnMut(&Records) -> bool) -> Records {
    let start = Instant::now();
    let mut best = records;
    loop {
        let before = best.clone();
        for step in [drop_records, drop_columns, simplify_calls, lower_bytes] {
            step(&mut best, &mut |candidate| {
                start.elapsed() < Duration::from_secs(90) && remains(candidate)
            });
        }
        if best == before {
            return best;
        }
    }
}

type Remains<'a> = &'a mut dyn FnMut(&Records) -> bool;

/// Takes the candidate if the difference remains.
fn attempt(best: &mut Records, candidate: Records, remains: Remains) -> bool {
    let better = candidate != *best && remains(&candidate);
    if better {
        *best = candidate;
    }
    better
}

fn drop_records(best: &mut Records, remains: Remains) {
    let mut count = best.len().div_ceil(2);
    while count > 0 {
        let mut at = best.len().saturating_sub(count);
        loop {
            let mut candidate = best.clone();
            candidate.drain(at..(at + count).min(best.len()));
            attempt(best, candidate, remains);
            if at == 0 {
                break;
            }
            at = at.saturating_sub(count);
        }
        count /= 2;
    }
}

/// Drops a table's last column from its declares and its stores.
fn drop_columns(best: &mut Records, remains: Remains) {
    for wanted in 0..4 {
        loop {
            let declared = best.iter().rposition(|record| {
                matches!(call(record), Some(Call::Declare { table, .. }) if table == wanted)
            });
            let Some(declared) = declared else { break };
            let mut candidate = best.clone();
            for record in &mut candidate {
                if let Some(Call::Store { table, mut cells }) = call(record)
                    && table == wanted
                {
                    cells.pop();
                    *record = Call::Store { table, cells }.write();
                }
            }
            candidate.remove(declared);
            if !attempt(best, candidate, remains) {
                break;
            }
        }
    }
}

/// Smaller queries, policies and prefixes; usual lengths.
fn simplify_calls(best: &mut Records, remains: Remains) {
    for at in 0..best.len() {
        loop {
            let better = smaller(&best[at]).into_iter().any(|record| {
                let mut candidate = best.clone();
                candidate[at] = record;
                attempt(best, candidate, remains)
            });
            if !better {
                break;
            }
        }
    }
}

fn call(bytes: &[u8]) -> Option<Call> {
    let (kind, body) = Bytes(bytes).record()?;
    Call::read(kind, body).ok()
}

/// Calls that say less than this one.
fn smaller(bytes: &[u8]) -> Vec<Vec<u8>> {
    let Some(read) = call(bytes) else {
        return Vec::new();
    };
    let simpler: Vec<Call> = match read {
        Call::Ask(ask) => {
            let mut asks: Vec<Ask> = smaller_queries(&ask.query)
                .into_iter()
                .map(|query| Ask {
                    query,
                    ..ask.clone()
                })
                .collect();
            if ask.workspace_cells != 122_880 {
                asks.push(Ask {
                    workspace_cells: 122_880,
                    ..ask.clone()
                });
            }
            if ask.reply_bytes != 43_016 {
                asks.push(Ask {
                    reply_bytes: 43_016,
                    ..ask.clone()
                });
            }
            asks.into_iter().map(Call::Ask).collect()
        }
        Call::Store { table, cells } => (0..cells.len())
            .filter_map(|at| {
                let mut cells = cells.clone();
                cells[at] = shorter(&cells[at])?;
                Some(Call::Store { table, cells })
            })
            .collect(),
        Call::Amend {
            table,
            row,
            column,
            cell,
        } => shorter(&cell)
            .map(|cell| Call::Amend {
                table,
                row,
                column,
                cell,
            })
            .into_iter()
            .collect(),
        Call::Rule { filter, rule } if rule.test != Test::Always => {
            let test = Test::Always;
            let rule = Rule { test, ..rule };
            vec![Call::Rule { filter, rule }]
        }
        Call::Combine(_) => {
            let steps: Records = bytes[4..].iter().map(|step| vec![*step]).collect();
            return smaller_trees(&steps, |step| if step[0] >= 0x20 { 2 } else { 0 })
                .into_iter()
                .map(|steps| record(0x38, &steps.concat()))
                .collect();
        }
        _ => Vec::new(),
    };
    simpler.iter().map(Call::write).collect()
}

fn shorter(cell: &Written) -> Option<Written> {
    match cell {
        Written::Prefix(digits) if !digits.is_empty() => {
            Some(Written::Prefix(digits[..digits.len() - 1].to_vec()))
        }
        _ => None,
    }
}

/// Queries in which a record with its parts gives way to one of its parts, and selects in which
/// a condition does.
fn smaller_queries(query: &[u8]) -> Vec<Vec<u8>> {
    let Some(records) = split(query) else {
        return (0..query.len())
            .map(|at| [&query[..at], &query[at + 1..]].concat())
            .collect();
    };
    let mut found = smaller_trees(&records, |record| match record[2] {
        2 | 3 => 1,
        4..=6 => 2,
        _ => 0,
    });
    for (at, one) in records.iter().enumerate() {
        let mut with = |body: Vec<u8>| {
            let mut records = records.clone();
            records[at] = record(u16::from_le_bytes([one[2], one[3]]), &body);
            found.push(records);
        };
        if one[2] == 2
            && let Some(conditions) = split(&one[4..])
        {
            let parts = |condition: &Vec<u8>| match condition[2] {
                0x13 | 0x14 => 2,
                0x15 => 1,
                _ => 0,
            };
            for conditions in smaller_trees(&conditions, parts) {
                with(conditions.concat());
            }
        }
        if one[2] == 3 {
            for column in 0..one.len() - 4 {
                let mut body = one[4..].to_vec();
                body.remove(column);
                with(body);
            }
        }
    }
    found.into_iter().map(|records| records.concat()).collect()
}

/// The records that these bytes are, if they are whole.
fn split(bytes: &[u8]) -> Option<Records> {
    let mut bytes = Bytes(bytes);
    let mut records = Records::new();
    while !bytes.is_empty() {
        let (kind, body) = bytes.record()?;
        records.push(record(kind, body));
    }
    Some(records)
}

/// Trees written parts first, each smaller by one node and all its parts but one. Also the
/// subtrees themselves, the smallest first.
fn smaller_trees(nodes: &Records, parts: impl Fn(&Vec<u8>) -> usize) -> Vec<Records> {
    let mut starts: Vec<usize> = Vec::new();
    let mut stack: Vec<usize> = Vec::new();
    for (at, node) in nodes.iter().enumerate() {
        let mut start = at;
        for _ in 0..parts(node) {
            start = stack.pop().unwrap_or(start);
        }
        stack.push(start);
        starts.push(start);
    }
    let mut found = Vec::new();
    let last = nodes.len().saturating_sub(1);
    for (at, start) in starts.iter().enumerate() {
        if at < last {
            found.push(nodes[*start..=at].to_vec());
        }
    }
    for (at, start) in starts.iter().enumerate() {
        // The parts of this node end at the node before it, and where that part starts.
        let mut end = at;
        for _ in 0..parts(&nodes[at]) {
            if end == 0 || end <= *start {
                break;
            }
            let part = starts[end - 1]..end;
            end = part.start;
            let mut tree = nodes[..*start].to_vec();
            tree.extend_from_slice(&nodes[part]);
            tree.extend_from_slice(&nodes[at + 1..]);
            found.push(tree);
        }
    }
    found
}

/// Lower bytes in the bodies.
fn lower_bytes(best: &mut Records, remains: Remains) {
    for at in 0..best.len() {
        for byte in 4..best[at].len() {
            let now = best[at][byte];
            let mut lower = vec![0, 1, b'0', b'4', now / 2, now.saturating_sub(1)];
            lower.retain(|lower| *lower < now);
            for lower in lower {
                let mut candidate = best.clone();
                candidate[at][byte] = lower;
                if attempt(best, candidate, remains) {
                    break;
                }
            }
        }
    }
}
