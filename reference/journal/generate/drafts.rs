//! Declares, good and bad.

use super::Maker;
use crate::book::TABLES;
use crate::calls::Call;
use crate::cells::Kind;

impl Maker<'_> {
    pub(super) fn draft(&mut self) {
        let base = self.kinds();
        for table in 0..TABLES as u8 {
            let share = match table {
                0 => 92,
                3 => 85,
                _ => 35,
            };
            if !self.random.percent(share) {
                continue;
            }
            let mut kinds = if self.random.percent(65) {
                base.clone()
            } else {
                self.kinds()
            };
            if table == 3 && self.random.percent(90) {
                kinds[0] = Kind::Number;
            }
            for kind in kinds {
                self.declare(table, kind);
                if self.random.one_in(40) {
                    self.odd_declare();
                }
            }
        }
        if self.random.one_in(40) {
            let table = self.random.below(TABLES) as u8;
            for _ in 0..9 {
                self.declare(table, Kind::Number);
            }
            self.odd_declare();
        }
        if self.random.one_in(4) {
            self.odd_declare();
        }
    }

    fn kinds(&mut self) -> Vec<Kind> {
        let width = match self.random.below(40) {
            0..8 => 1,
            8..24 => 2,
            24..34 => 3,
            34..38 => 4,
            _ => self.random.from_to(5, 8),
        };
        let one = self
            .random
            .pick(&[Kind::Number, Kind::Number, Kind::Prefix]);
        (0..width)
            .map(|_| {
                if self.random.percent(50) {
                    one
                } else {
                    self.random.pick(&[Kind::Number, Kind::Prefix])
                }
            })
            .collect()
    }

    /// Numbers have odd domains and prefixes even ones, most of the time.
    pub(super) fn declare(&mut self, table: u8, kind: Kind) {
        let masked_only = if table == 3 { 12 } else { 40 };
        let parity = if kind == Kind::Number { 1 } else { 2 };
        let domain = if self.random.percent(masked_only) {
            0
        } else {
            match self.random.below(10) {
                0..7 => parity,
                7..9 => parity + 2,
                _ if parity == 1 => 15,
                _ => 14,
            }
        };
        let kind = if kind == Kind::Number { 1 } else { 2 };
        self.call(Call::Declare {
            table,
            kind,
            domain,
        });
    }

    fn odd_declare(&mut self) {
        let full: Vec<usize> = (0..TABLES)
            .filter(|t| self.columns()[*t].len() == 8)
            .collect();
        let table = if full.is_empty() || self.random.percent(50) {
            self.random.below(TABLES) as u8
        } else {
            self.random.pick(&full) as u8
        };
        let kind = self.random.pick(&[1, 2]);
        let domain = self.random.from_to(0, 15) as u8;
        let call = match self.random.below(6) {
            0 => Call::Declare {
                table: self.random.pick(&[4, 5, 255]),
                kind,
                domain,
            },
            1 => Call::Declare {
                table,
                kind: self.random.pick(&[0, 3, 255]),
                domain,
            },
            2 => Call::Declare {
                table,
                kind,
                domain: self.random.pick(&[16, 17, 255]),
            },
            3 => Call::Declare {
                table: self.random.pick(&[3, 4]),
                kind: self.random.pick(&[0, 1, 3]),
                domain: self.random.pick(&[0, 15, 16]),
            },
            _ => Call::Declare {
                table,
                kind,
                domain: self.random.pick(&[1, 2, 3, 4]),
            },
        };
        self.call(call);
    }
}
