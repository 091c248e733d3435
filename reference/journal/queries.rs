//! Random queries that are well-formed over the columns of a book, and some that just are not.

use crate::book::{Column, TABLES};
use crate::bytes::record;
use crate::cells::Kind;
use crate::random::Random;

/// The few values, keys and brokers that one journal uses, so that many are equal.
#[derive(Clone)]
pub struct Pools {
    pub numbers: Vec<u32>,
    pub prefixes: Vec<Vec<u8>>,
    pub brokers: Vec<u16>,
}

/// A query as its records.
pub type Records = Vec<Vec<u8>>;

pub struct Queries<'a> {
    pub random: &'a mut Random,
    pub columns: &'a [Vec<Column>; TABLES],
    pub pools: &'a Pools,
}

impl Queries<'_> {
    /// A well-formed query, in nearly all cases.
    pub fn query(&mut self) -> Records {
        if self.tables().is_empty() {
            return vec![table(self.random.below(TABLES))];
        }
        let kinds = self.some_kinds();
        let budget = match self.random.below(20) {
            0..5 => self.random.from_to(1, 3),
            5..13 => self.random.from_to(4, 8),
            _ => self.random.from_to(9, 15),
        };
        let records = if budget > 4 && self.random.percent(25) {
            self.two_parts(&kinds, &kinds, budget, 5)
        } else {
            self.relation(&kinds, budget)
        };
        match self.random.below(40) {
            0 => self.filled_up(records, &kinds, 15),
            _ => records,
        }
    }

    /// Queries at the edges of what is let in, on either side.
    pub fn edge(&mut self) -> Records {
        if self.tables().is_empty() {
            return vec![table(self.random.below(TABLES))];
        }
        let kinds = self.some_kinds();
        let budget = self.random.from_to(1, 9);
        let mut records = self.relation(&kinds, budget);
        match self.random.below(12) {
            0 => self.filled_up(records, &kinds, 15),
            1 => self.filled_up(records, &kinds, 16),
            2 => {
                let conditions = self.random.from_to(14, 16);
                records.push(self.select_of(&kinds, conditions));
                records
            }
            3 => {
                // Two relations, with or without a record that takes both.
                let others = self.some_kinds();
                let budget = self.random.from_to(1, 4);
                records.extend(self.relation(&others, budget));
                match self.random.below(4) {
                    0 => {}
                    1 => records.push(record(4, &[])),
                    2 => records.push(record(5, &[])),
                    _ => records.push(record(6, &[])),
                }
                records
            }
            4 => {
                // A product of some relation with itself, soon too wide.
                let budget = self.random.pick(&[1, 1, 3]);
                let again = self.relation(&kinds, budget);
                records = again.clone();
                let times = self.random.from_to(8 / (kinds.len() + 1), 8 / kinds.len());
                for _ in 0..times {
                    records.extend(again.clone());
                    records.push(record(4, &[]));
                }
                records
            }
            5 => {
                let kind = self.random.from_to(2, 6) as u16;
                let body = if kind == 2 {
                    self.select_of(&kinds, 1)[4..].to_vec()
                } else if kind == 3 {
                    vec![0]
                } else {
                    vec![]
                };
                let place = self.random.below(records.len() + 1);
                records.insert(place, record(kind, &body));
                records
            }
            6 => {
                let last = self.random.from_to(7, 9);
                self.of_length_near_1024(last)
            }
            7 => {
                let count = self.random.from_to(7, 9);
                let listed: Vec<u8> = (0..count)
                    .map(|_| self.random.below(kinds.len() + 1) as u8)
                    .collect();
                records.push(record(3, &listed));
                records
            }
            8..11 => {
                let mut body = self.loose_comparison(kinds.len());
                for _ in 0..self.random.below(3) {
                    if self.random.percent(40) {
                        body.extend(self.loose_comparison(kinds.len()));
                    } else {
                        body.extend(self.comparison(&kinds));
                    }
                    body.extend(record(0x13, &[]));
                }
                records.push(record(2, &body));
                records
            }
            _ => {
                let conditions = self.random.from_to(1, 15);
                records.push(self.select_of(&kinds, conditions));
                records
            }
        }
    }

    /// A comparison that need not fit, and now and then names a column too many.
    fn loose_comparison(&mut self, width: usize) -> Vec<u8> {
        let beyond = self.random.one_in(5) as usize;
        let operator = match self.random.below(12) {
            0 => self.random.pick(&[0, 7]),
            _ => self.random.from_to(1, 6) as u8,
        };
        let mut body = vec![operator, self.random.below(width + beyond) as u8];
        match self.random.below(3) {
            0 => {
                body.push(self.random.below(width + beyond) as u8);
                record(0x10, &body)
            }
            1 => {
                body.extend(self.random.pick(&self.pools.numbers).to_le_bytes());
                record(0x11, &body)
            }
            _ => {
                body.extend(self.random.pick(&self.pools.prefixes));
                record(0x12, &body)
            }
        }
    }

    fn tables(&self) -> Vec<usize> {
        (0..TABLES)
            .filter(|table| !self.columns[*table].is_empty())
            .collect()
    }

    fn kinds_of(&self, table: usize) -> Vec<Kind> {
        self.columns[table]
            .iter()
            .map(|column| column.kind)
            .collect()
    }

    /// The kinds of a table, or of a few of its columns.
    fn some_kinds(&mut self) -> Vec<Kind> {
        let tables = self.tables();
        // Table 3 is the one with pseudonyms.
        let table = if tables.contains(&3) && self.random.percent(40) {
            3
        } else {
            self.random.pick(&tables)
        };
        let kinds = self.kinds_of(table);
        if self.random.percent(55) {
            return kinds;
        }
        let width = self.random.from_to(1, kinds.len().min(3));
        (0..width).map(|_| self.random.pick(&kinds)).collect()
    }

    /// A relation of these kinds, of about so many records at most.
    fn relation(&mut self, kinds: &[Kind], budget: usize) -> Records {
        if budget < 2 {
            return self.leaf(kinds);
        }
        match self.random.below(100) {
            0..6 => self.leaf(kinds),
            6..36 => {
                let mut records = self.relation(kinds, budget - 1);
                let conditions = match self.random.below(10) {
                    0..5 => 1,
                    5..9 => self.random.from_to(2, 5),
                    _ => self.random.from_to(5, 15),
                };
                records.push(self.select_of(kinds, conditions));
                records
            }
            36..54 => self.project(kinds, budget),
            54..62 if kinds.len() >= 2 => {
                let split = self.random.from_to(1, kinds.len() - 1);
                self.two_parts(&kinds[..split], &kinds[split..], budget, 4)
            }
            62..74 => self.two_parts(kinds, kinds, budget, 5),
            _ => self.two_parts(kinds, kinds, budget, 6),
        }
    }

    fn two_parts(&mut self, left: &[Kind], right: &[Kind], budget: usize, kind: u16) -> Records {
        if budget < 3 {
            return if kind == 4 {
                self.leaf(&[left, right].concat())
            } else {
                self.leaf(left)
            };
        }
        let share = self.random.from_to(1, budget - 2);
        let mut records = self.relation(left, share);
        records.extend(self.relation(right, budget - 1 - share));
        records.push(record(kind, &[]));
        records
    }

    /// A project of a table or of two tables side by side.
    fn project(&mut self, kinds: &[Kind], budget: usize) -> Records {
        let tables = self.tables();
        let one = self.random.pick(&tables);
        let mut source = self.kinds_of(one);
        if self.random.percent(35) {
            let other = self.random.pick(&tables);
            let other = self.kinds_of(other);
            if source.len() + other.len() <= 8 {
                source.extend(other);
            }
        }
        match self.listed(&source, kinds) {
            Some(listed) => {
                let mut records = if source.len() > 1 && self.random.percent(30) {
                    let split = self.random.from_to(1, source.len() - 1);
                    self.two_parts(&source[..split], &source[split..], budget - 1, 4)
                } else {
                    self.relation(&source, budget - 1)
                };
                records.push(record(3, &listed));
                records
            }
            None => self.leaf(kinds),
        }
    }

    /// A table of these kinds, or else a project of one, or else products of such.
    fn leaf(&mut self, kinds: &[Kind]) -> Records {
        let tables = self.tables();
        let same: Vec<usize> = tables
            .iter()
            .copied()
            .filter(|t| self.kinds_of(*t) == kinds)
            .collect();
        if !same.is_empty() {
            return vec![table(self.random.pick(&same))];
        }
        let rich: Vec<usize> = tables
            .iter()
            .copied()
            .filter(|t| kinds.iter().all(|kind| self.kinds_of(*t).contains(kind)))
            .collect();
        if rich.is_empty() {
            if kinds.len() < 2 {
                return vec![table(self.random.pick(&tables))];
            }
            let mut records = self.leaf(&kinds[..1]);
            records.extend(self.leaf(&kinds[1..]));
            records.push(record(4, &[]));
            return records;
        }
        let from = self.random.pick(&rich);
        let source = self.kinds_of(from);
        let listed = self.listed(&source, kinds).unwrap_or_default();
        vec![table(from), record(3, &listed)]
    }

    /// Columns of the source that have the wanted kinds.
    fn listed(&mut self, source: &[Kind], wanted: &[Kind]) -> Option<Vec<u8>> {
        let mut listed = Vec::new();
        for kind in wanted {
            let places: Vec<usize> = (0..source.len()).filter(|c| source[*c] == *kind).collect();
            if places.is_empty() {
                return None;
            }
            listed.push(self.random.pick(&places) as u8);
        }
        Some(listed)
    }

    /// A select of so many condition records.
    fn select_of(&mut self, kinds: &[Kind], count: usize) -> Vec<u8> {
        record(2, &self.conditions(kinds, count))
    }

    fn conditions(&mut self, kinds: &[Kind], count: usize) -> Vec<u8> {
        if count <= 1 {
            return self.comparison(kinds);
        }
        if count == 2 || self.random.percent(25) {
            let mut body = self.conditions(kinds, count - 1);
            body.extend(record(0x15, &[]));
            return body;
        }
        let share = self.random.from_to(1, count - 2);
        let mut body = self.conditions(kinds, share);
        body.extend(self.conditions(kinds, count - 1 - share));
        body.extend(record(
            if self.random.percent(50) { 0x13 } else { 0x14 },
            &[],
        ));
        body
    }

    fn comparison(&mut self, kinds: &[Kind]) -> Vec<u8> {
        let left = self.random.below(kinds.len());
        let kind = kinds[left];
        let operators: &[u8] = match kind {
            Kind::Number => &[1, 2, 3, 4],
            Kind::Prefix => &[1, 2, 5, 6],
        };
        let operator = self.random.pick(operators);
        let mut body = vec![operator, left as u8];
        if self.random.percent(45) {
            let same: Vec<usize> = (0..kinds.len()).filter(|c| kinds[*c] == kind).collect();
            body.push(self.random.pick(&same) as u8);
            return record(0x10, &body);
        }
        match kind {
            Kind::Number => {
                let number = self.random.pick(&self.pools.numbers);
                let near = match self.random.below(8) {
                    0 => number.wrapping_add(1),
                    1 => number.wrapping_sub(1),
                    _ => number,
                };
                body.extend(near.to_le_bytes());
                record(0x11, &body)
            }
            Kind::Prefix => {
                let mut digits = self.random.pick(&self.pools.prefixes);
                match self.random.below(6) {
                    0 => digits.truncate(digits.len() / 2),
                    1 if digits.len() < 8 => digits.push(b'0' + self.random.below(10) as u8),
                    _ => {}
                }
                digits.truncate(8);
                body.extend(digits);
                record(0x12, &body)
            }
        }
    }

    /// More records on top until there are so many.
    fn filled_up(&mut self, mut records: Records, kinds: &[Kind], count: usize) -> Records {
        let leaf = self.leaf(kinds).len();
        while records.len() + leaf < count {
            records.extend(self.leaf(kinds));
            records.push(record(if self.random.percent(70) { 5 } else { 6 }, &[]));
        }
        while records.len() < count {
            records.push(self.select_of(kinds, 1));
        }
        records
    }

    /// Well-formed but for the length: 1,017 bytes and the last project's columns.
    fn of_length_near_1024(&mut self, last: usize) -> Records {
        let tables = self.tables();
        let from = self.random.pick(&tables);
        let kinds = self.kinds_of(from);
        let mut records = vec![table(from)];
        for _ in 0..9 {
            let mut body = self.ten_bytes(&kinds);
            for _ in 0..7 {
                body.extend(self.ten_bytes(&kinds));
                body.extend(record(
                    if self.random.percent(20) { 0x13 } else { 0x14 },
                    &[],
                ));
            }
            records.push(record(2, &body));
        }
        let listed: Vec<u8> = (0..last)
            .map(|_| self.random.below(kinds.len()) as u8)
            .collect();
        records.push(record(3, &listed));
        records
    }

    /// A comparison with a number or with four digits: ten bytes either way.
    fn ten_bytes(&mut self, kinds: &[Kind]) -> Vec<u8> {
        let left = self.random.below(kinds.len());
        let mut body = vec![self.random.from_to(1, 2) as u8, left as u8];
        match kinds[left] {
            Kind::Number => {
                body.extend(self.random.pick(&self.pools.numbers).to_le_bytes());
                record(0x11, &body)
            }
            Kind::Prefix => {
                body.extend(*b"4711");
                record(0x12, &body)
            }
        }
    }
}

/// A table record.
pub fn table(number: usize) -> Vec<u8> {
    record(1, &[number as u8])
}
