//! Byte strings made from a seed: random bytes, well-formed queries, and damaged ones.

use crate::reader::Kind;

/// SplitMix64.
pub struct Random(pub u64);

impl Random {
    pub fn next(&mut self) -> u64 {
        self.0 = self.0.wrapping_add(0x9E37_79B9_7F4A_7C15);
        let mut z = self.0;
        z = (z ^ (z >> 30)).wrapping_mul(0xBF58_476D_1CE4_E5B9);
        z = (z ^ (z >> 27)).wrapping_mul(0x94D0_49BB_1331_11EB);
        z ^ (z >> 31)
    }

    /// A number below `n`.
    pub fn below(&mut self, n: usize) -> usize {
        (self.next() % n as u64) as usize
    }

    fn byte(&mut self) -> u8 {
        self.next() as u8
    }
}

fn put(out: &mut Vec<u8>, kind: u16, body: &[u8]) {
    out.extend((body.len() as u16).to_le_bytes());
    out.extend(kind.to_le_bytes());
    out.extend(body);
}

/// One comparison that fits the kinds. Now and then its prefix has a digit too many.
fn comparison(random: &mut Random, kinds: &[Kind], out: &mut Vec<u8>) {
    let left = random.below(kinds.len());
    let kind = kinds[left];
    let operators: [u8; 4] = if kind == Kind::Number { [1, 2, 3, 4] } else { [1, 2, 5, 6] };
    let mut body = vec![operators[random.below(4)], left as u8];
    let same: Vec<usize> = (0..kinds.len()).filter(|c| kinds[*c] == kind).collect();
    if random.below(3) == 0 {
        body.push(same[random.below(same.len())] as u8);
        put(out, 0x10, &body);
    } else if kind == Kind::Number {
        body.extend((random.next() as u32).to_le_bytes());
        put(out, 0x11, &body);
    } else {
        let digits = if random.below(64) == 0 { 9 } else { random.below(9) };
        for _ in 0..digits {
            body.push(0x30 + random.below(10) as u8);
        }
        put(out, 0x12, &body);
    }
}

/// One condition of about `size` conditions.
fn condition(random: &mut Random, kinds: &[Kind], size: usize, out: &mut Vec<u8>) {
    match random.below(4) {
        0 if size > 1 => {
            condition(random, kinds, size - 1, out);
            put(out, 0x15, &[]);
        }
        1 | 2 if size > 2 => {
            let left = 1 + random.below(size - 2);
            condition(random, kinds, left, out);
            condition(random, kinds, size - 1 - left, out);
            put(out, 0x13 + random.below(2) as u16, &[]);
        }
        _ => comparison(random, kinds, out),
    }
}

/// A tree of about `size` records, and the kinds of its relation. Unions and differences project
/// their right part to kinds of the left one where they can; the others may not fit.
pub fn tree(random: &mut Random, tables: &[Vec<Kind>; 4], size: usize, out: &mut Vec<u8>) -> Vec<Kind> {
    if size <= 1 {
        let known: Vec<usize> = (0..4).filter(|t| !tables[*t].is_empty()).collect();
        let table = known[random.below(known.len())];
        put(out, 1, &[table as u8]);
        return tables[table].clone();
    }
    if size == 2 || random.below(2) == 0 {
        let kinds = tree(random, tables, size - 1, out);
        if random.below(2) == 0 {
            let mut body = Vec::new();
            let conditions = 1 + random.below(15);
            condition(random, &kinds, conditions, &mut body);
            put(out, 2, &body);
            return kinds;
        }
        let width = 1 + random.below(8);
        let body: Vec<u8> = (0..width).map(|_| random.below(kinds.len()) as u8).collect();
        put(out, 3, &body);
        return body.iter().map(|c| kinds[*c as usize]).collect();
    }
    let left_size = 1 + random.below(size - 2);
    let left = tree(random, tables, left_size, out);
    let right = tree(random, tables, size - 1 - left_size, out);
    if left.len() + right.len() <= 8 && random.below(3) > 0 {
        put(out, 4, &[]);
        return [left, right].concat();
    }
    let picked: Option<Vec<u8>> =
        left.iter().map(|k| right.iter().position(|r| r == k).map(|c| c as u8)).collect();
    if let Some(picked) = picked {
        if left != right {
            put(out, 3, &picked);
        }
    }
    put(out, 4 + random.below(3) as u16, &[]);
    left
}

/// Where the records of a string begin, as far as it can be split.
fn starts(bytes: &[u8]) -> Vec<usize> {
    let mut at = 0;
    let mut found = Vec::new();
    while at + 4 <= bytes.len() {
        found.push(at);
        at += 4 + u16::from_le_bytes([bytes[at], bytes[at + 1]]) as usize;
    }
    found
}

/// Damages a string in one place.
pub fn damage(random: &mut Random, bytes: &mut Vec<u8>) {
    if bytes.is_empty() {
        return;
    }
    let at = random.below(bytes.len());
    let heads = starts(bytes);
    let head = if heads.is_empty() { 0 } else { heads[random.below(heads.len())] };
    let end = heads.iter().copied().find(|h| *h > head).unwrap_or(bytes.len());
    match random.below(9) {
        0 => bytes[at] = random.byte(),
        1 => bytes[at] ^= 1 << random.below(8),
        2 => bytes[at] = bytes[at].wrapping_add(1),
        3 => bytes.truncate(at),
        4 => drop(bytes.drain(head..end)),
        5 => {
            let copy = bytes[head..end].to_vec();
            bytes.splice(head..head, copy);
        }
        6 => bytes[head] = bytes[head].wrapping_add(random.below(5) as u8).wrapping_sub(2),
        7 => bytes.insert(at, random.byte()),
        _ => bytes.push(random.byte()),
    }
}

/// A long string of selects, around the greatest length and the greatest counts of records and of
/// conditions.
fn long(random: &mut Random, tables: &[Vec<Kind>; 4]) -> Vec<u8> {
    let mut out = Vec::new();
    let kinds = tree(random, tables, 1, &mut out);
    for _ in 0..random.below(20) {
        let mut body = Vec::new();
        for _ in 0..1 + random.below(17) {
            comparison(random, &kinds, &mut body);
        }
        for _ in 0..body.len().min(random.below(16)) {
            put(&mut body, 0x13, &[]);
        }
        if random.below(2) == 0 {
            body.clear();
            condition(random, &kinds, 15, &mut body);
            let count = 13 + random.below(4);
            while starts(&body).len() < count {
                put(&mut body, 0x15, &[]);
            }
        }
        put(&mut out, 2, &body);
    }
    out
}

/// The next string.
pub fn string(random: &mut Random, tables: &[Vec<Kind>; 4]) -> Vec<u8> {
    let mut out = Vec::new();
    let sort = random.below(16);
    if sort == 0 {
        let most = if random.below(8) == 0 { 1100 } else { 40 };
        out.extend((0..random.below(most)).map(|_| random.byte()));
        return out;
    }
    if sort == 1 {
        return long(random, tables);
    }
    let size = 1 + random.below(17);
    tree(random, tables, size, &mut out);
    if sort < 11 {
        for _ in 0..1 + random.below(3) {
            damage(random, &mut out);
        }
    }
    out
}
