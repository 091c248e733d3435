//! Rows: stores, strikes and amends, at the edges too.

use super::Maker;
use crate::book::TABLES;
use crate::calls::{Call, Written};
use crate::cells::Kind;

impl Maker<'_> {
    /// A number of the pool, now and then another.
    fn cell(&mut self, kind: Kind) -> Written {
        let odd = self.random.one_in(60);
        match kind {
            Kind::Number if odd => Written::Number(self.random.below(300) as u32),
            Kind::Number => Written::Number(self.number()),
            Kind::Prefix if odd => {
                let length = self.random.from_to(0, 8);
                Written::Prefix(
                    (0..length)
                        .map(|_| b'0' + self.random.below(10) as u8)
                        .collect(),
                )
            }
            Kind::Prefix => Written::Prefix(self.random.pick(&self.pools.prefixes)),
        }
    }

    pub(super) fn row(&mut self, table: usize) -> Vec<Written> {
        let kinds: Vec<Kind> = self.columns()[table]
            .iter()
            .map(|column| column.kind)
            .collect();
        kinds.into_iter().map(|kind| self.cell(kind)).collect()
    }

    pub(super) fn rows(&mut self, big: bool) {
        let big_table = self.random.pick(&[0, 3]);
        for table in 0..TABLES {
            if self.columns()[table].is_empty() && !self.random.one_in(20) {
                continue;
            }
            let count = match self.random.below(100) {
                _ if big && table == big_table => {
                    self.random.pick(&[31, 60, 100, 200, 255, 256, 257, 260])
                }
                0..5 => 0,
                5..35 => self.random.from_to(1, 4),
                _ => self.random.from_to(4, 12),
            };
            for number in 0..count {
                let mut cells = self.row(table);
                if big && self.random.percent(70) {
                    self.spread(&mut cells, number as u32);
                }
                self.call(Call::Store {
                    table: table as u8,
                    cells,
                });
                if self.random.one_in(50) {
                    self.odd_store();
                }
            }
        }
        if self.random.one_in(8) {
            self.odd_store();
        }
    }

    /// Makes the rows of a big table differ.
    pub(super) fn spread(&mut self, cells: &mut [Written], number: u32) {
        if let Some(cell) = cells.last_mut() {
            *cell = match cell {
                Written::Number(_) => Written::Number(number),
                Written::Prefix(_) => Written::Prefix(format!("{number:08}").into_bytes()),
            };
        }
    }

    fn bad_prefix(&mut self) -> Written {
        let mut digits = self.random.pick(&self.pools.prefixes);
        if self.random.percent(50) {
            digits.push(self.random.pick(&[b'/', b':', 0, 255, b' ', b'a']));
        } else {
            digits.resize(self.random.pick(&[9, 9, 10, 255]), b'4');
        }
        Written::Prefix(digits)
    }

    fn odd_store(&mut self) {
        let declared: Vec<usize> = (0..TABLES)
            .filter(|table| !self.columns()[*table].is_empty())
            .collect();
        let table = if declared.is_empty() {
            0
        } else {
            self.random.pick(&declared)
        };
        let mut cells = self.row(table);
        let mut table = table as u8;
        match self.random.below(9) {
            0 => table = self.random.pick(&[4, 5, 255]),
            1 => cells.clear(),
            2 => {
                cells.pop();
            }
            3 => {
                let cell = self.random.pick(&[Kind::Number, Kind::Prefix]);
                cells.push(self.cell(cell));
            }
            4 => {
                let cell = self.random.pick(&[
                    Written::Number(0),
                    Written::Prefix(vec![]),
                    Written::Prefix(vec![b'4'; 8]),
                    Written::Prefix(vec![b'4'; 255]),
                ]);
                cells.resize(self.random.pick(&[9, 16]), cell);
            }
            5 | 6 if !cells.is_empty() => {
                let at = self.random.below(cells.len());
                let other = match cells[at] {
                    Written::Number(_) => Kind::Prefix,
                    Written::Prefix(_) => Kind::Number,
                };
                cells[at] = self.cell(other);
            }
            7 if !cells.is_empty() => {
                let at = self.random.below(cells.len());
                cells[at] = self.bad_prefix();
            }
            8 => {
                cells = vec![self.bad_prefix()];
                table = self.random.below(6) as u8;
            }
            _ => {}
        }
        self.call(Call::Store { table, cells });
    }

    pub(super) fn change(&mut self) {
        match self.random.below(10) {
            0..3 => self.amend(),
            3 | 4 => self.strike(),
            5 => {
                let table = self.random.below(TABLES);
                let cells = self.row(table);
                self.call(Call::Store {
                    table: table as u8,
                    cells,
                });
            }
            6 => self.odd_store(),
            7 => self.rule(),
            8 => self.consent(),
            _ => self.combine(),
        }
    }

    /// A row of the table, or one at the edge or beyond.
    fn row_number(&mut self, table: u8) -> u16 {
        let count = if (table as usize) < TABLES {
            self.count(table as usize)
        } else {
            0
        };
        match self.random.below(8) {
            0 => count as u16,
            1 => self.random.pick(&[255, 256, 257, 65_535]),
            _ => self.random.below(count.max(1)) as u16,
        }
    }

    fn some_table(&mut self) -> u8 {
        if self.random.one_in(15) {
            return self.random.pick(&[4, 5, 255]);
        }
        let used: Vec<usize> = (0..TABLES).filter(|table| self.count(*table) > 0).collect();
        if used.is_empty() {
            0
        } else {
            self.random.pick(&used) as u8
        }
    }

    fn strike(&mut self) {
        let table = self.some_table();
        let row = self.row_number(table);
        self.call(Call::Strike { table, row });
    }

    fn amend(&mut self) {
        let table = self.some_table();
        let row = self.row_number(table);
        let columns = self
            .columns()
            .get(table as usize)
            .cloned()
            .unwrap_or_default();
        let column = match self.random.below(10) {
            0 => columns.len(),
            1 => self.random.pick(&[7, 8, 255]),
            _ => self.random.below(columns.len().max(1)),
        };
        let kind = match columns.get(column) {
            Some(column) if !self.random.one_in(8) => column.kind,
            _ => self.random.pick(&[Kind::Number, Kind::Prefix]),
        };
        let cell = if self.random.one_in(12) {
            self.bad_prefix()
        } else {
            self.cell(kind)
        };
        self.call(Call::Amend {
            table,
            row,
            column: column as u8,
            cell,
        });
    }
}
