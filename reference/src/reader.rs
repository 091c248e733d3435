//! A second reader of queries, by the rules of queries. It shares no code with the proved reader.

#[derive(Clone, Copy, PartialEq, Eq, Debug)]
pub enum Kind {
    Number,
    Prefix,
}

/// A refusal: its number and its place.
pub type Refused = (u8, u8);

/// A query that passes: the count of its records, and the kinds of its relation.
pub type Passed = (u8, Vec<Kind>);

enum Side {
    Column(u8),
    Number,
    Prefix,
}

struct Comparison {
    operator: u8,
    left: u8,
    right: Side,
}

/// Splits off one record: its kind, its body and the rest.
fn split(bytes: &[u8]) -> Option<(u16, &[u8], &[u8])> {
    if bytes.len() < 4 {
        return None;
    }
    let length = u16::from_le_bytes([bytes[0], bytes[1]]) as usize;
    let kind = u16::from_le_bytes([bytes[2], bytes[3]]);
    let behind = &bytes[4..];
    if behind.len() < length {
        return None;
    }
    Some((kind, &behind[..length], &behind[length..]))
}

/// The right side of a comparison, if the body has the form of its kind.
fn side(kind: u16, body: &[u8]) -> Option<Side> {
    match kind {
        0x10 if body.len() == 3 => Some(Side::Column(body[2])),
        0x11 if body.len() == 6 => Some(Side::Number),
        0x12 if (2..=10).contains(&body.len()) && body[2..].iter().all(u8::is_ascii_digit) => {
            Some(Side::Prefix)
        }
        _ => None,
    }
}

/// The comparisons of a select's body, if it has the form of one condition.
fn comparisons(body: &[u8]) -> Option<Vec<Comparison>> {
    let mut found = Vec::new();
    let mut truths = 0i32;
    let mut count = 0;
    let mut rest = body;
    while !rest.is_empty() {
        let (kind, inner, behind) = split(rest)?;
        rest = behind;
        count += 1;
        if (0x13..=0x15).contains(&kind) {
            let takes = if kind == 0x15 { 1 } else { 2 };
            if !inner.is_empty() || truths < takes {
                return None;
            }
            truths += 1 - takes;
            continue;
        }
        let right = side(kind, inner)?;
        if !(1..=6).contains(&inner[0]) {
            return None;
        }
        found.push(Comparison { operator: inner[0], left: inner[1], right });
        truths += 1;
    }
    ((1..=15).contains(&count) && truths == 1).then_some(found)
}

fn named(comparison: &Comparison, width: usize) -> bool {
    let right = match comparison.right {
        Side::Column(right) => (right as usize) < width,
        _ => true,
    };
    (comparison.left as usize) < width && right
}

fn fits(comparison: &Comparison, kinds: &[Kind]) -> bool {
    let left = kinds[comparison.left as usize];
    let right = match comparison.right {
        Side::Column(right) => kinds[right as usize],
        Side::Number => Kind::Number,
        Side::Prefix => Kind::Prefix,
    };
    let taken = match comparison.operator {
        1 | 2 => true,
        3 | 4 => left == Kind::Number,
        _ => left == Kind::Prefix,
    };
    taken && left == right
}

/// Whether the body has the form of a record's kind. A select has its own question.
fn formed(kind: u16, body: &[u8]) -> bool {
    match kind {
        1 => body.len() == 1,
        3 => (1..=8).contains(&body.len()),
        _ => body.is_empty(),
    }
}

/// What one record makes of the stack, or the number of the question that it fails.
fn step(kind: u16, body: &[u8], tables: &[Vec<Kind>; 4], stack: &mut Vec<Vec<Kind>>) -> Result<(), u8> {
    if !(1..=6).contains(&kind) {
        return Err(14);
    }
    let conditions = if kind == 2 { comparisons(body).ok_or(15)? } else { Vec::new() };
    if kind != 2 && !formed(kind, body) {
        return Err(15);
    }
    let takes = [0, 1, 1, 2, 2, 2][kind as usize - 1];
    if stack.len() < takes {
        return Err(16);
    }
    let taken = stack.split_off(stack.len() - takes);
    let made = match kind {
        1 => match tables.get(body[0] as usize) {
            Some(columns) if !columns.is_empty() => columns.clone(),
            _ => return Err(17),
        },
        2 => {
            let kinds = &taken[0];
            if !conditions.iter().all(|c| named(c, kinds.len())) {
                return Err(17);
            }
            if !conditions.iter().all(|c| fits(c, kinds)) {
                return Err(18);
            }
            kinds.clone()
        }
        3 => {
            let listed = body.iter().map(|c| taken[0].get(*c as usize).copied());
            listed.collect::<Option<Vec<Kind>>>().ok_or(17)?
        }
        4 => {
            let joined = taken.concat();
            if joined.len() > 8 {
                return Err(19);
            }
            joined
        }
        _ => {
            if taken[0] != taken[1] {
                return Err(18);
            }
            taken[0].clone()
        }
    };
    stack.push(made);
    Ok(())
}

/// Puts the questions to a query over the columns of four tables.
pub fn read(query: &[u8], tables: &[Vec<Kind>; 4]) -> Result<Passed, Refused> {
    if query.is_empty() || query.len() > 1024 {
        return Err((11, 0));
    }
    let mut stack = Vec::new();
    let mut rest = query;
    let mut count = 0u8;
    while !rest.is_empty() {
        if count == 15 {
            return Err((12, 15));
        }
        let (kind, body, behind) = split(rest).ok_or((13, count))?;
        step(kind, body, tables, &mut stack).map_err(|number| (number, count))?;
        rest = behind;
        count += 1;
    }
    match stack.len() {
        1 => Ok((count, stack.remove(0))),
        _ => Err((20, count)),
    }
}
