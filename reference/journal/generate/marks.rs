//! Rules, consents and combinations.

use super::Maker;
use crate::book::TABLES;
use crate::calls::Call;
use crate::cells::{Cell, Kind};
use crate::policy::{Columns, Entry, Policy, Rule, Sign, Test};
use crate::session::Stage;
use crate::view::view;

impl Maker<'_> {
    pub(super) fn policies(&mut self) {
        let filter = if self.random.percent(85) {
            0
        } else {
            self.random.below(4) as u8
        };
        if self.random.percent(85) {
            self.show_most(filter);
        }
        for _ in 0..self.random.pick(&[0, 1, 2, 4]) {
            self.rule();
        }
        if self.random.one_in(25) {
            for _ in 0..17 {
                self.rule();
            }
        }
        let register = if self.random.percent(75) {
            0
        } else {
            self.random.below(4) as u8
        };
        for number in self.pools.numbers.clone() {
            if self.random.percent(85) {
                self.consent_for(register, number);
            }
        }
        for _ in 0..self.random.pick(&[0, 0, 1, 2]) {
            self.consent();
        }
        if self.random.one_in(60) {
            let first = self.random.below(10) as u32;
            for key in first..first + 66 {
                self.consent_for(register, key);
            }
            for _ in 0..3 {
                self.consent();
            }
        }
        if self.random.percent(80) {
            self.combine();
        }
    }

    /// Rules that show some broker nearly all of one or two tables.
    fn show_most(&mut self, filter: u8) {
        let broker = self.random.pick(&self.pools.brokers);
        let tables: Vec<usize> = (0..TABLES)
            .filter(|table| !self.columns()[*table].is_empty())
            .collect();
        for table in tables {
            if self.random.percent(25) {
                continue;
            }
            for column in 0..self.columns()[table].len() as u8 {
                let tested = self.random.percent(40);
                let test = if tested {
                    self.test(table as u8)
                } else {
                    Test::Always
                };
                if self.random.percent(88) {
                    let rule = Rule {
                        broker,
                        table: table as u8,
                        column,
                        sign: Sign::Allow,
                        test,
                    };
                    self.call(Call::Rule { filter, rule });
                }
                if self.random.percent(20) {
                    let test = self.test(table as u8);
                    let sign = Sign::Prohibit;
                    let rule = Rule {
                        broker,
                        table: table as u8,
                        column,
                        sign,
                        test,
                    };
                    self.call(Call::Rule { filter, rule });
                }
            }
        }
    }

    /// A test that holds on some rows of the table, in most cases.
    fn test(&mut self, table: u8) -> Test {
        let columns = self
            .columns()
            .get(table as usize)
            .cloned()
            .unwrap_or_default();
        let numbers: Vec<usize> = (0..columns.len())
            .filter(|c| columns[*c].kind == Kind::Number)
            .collect();
        let column = match self.random.below(40) {
            0 => self.random.pick(&[7, 8, 9, 255]),
            1..36 if !numbers.is_empty() => self.random.pick(&numbers) as u8,
            _ => self.random.pick(&[0, 1, 2, 3]),
        };
        Test::Holds {
            column,
            number: self.number(),
        }
    }

    pub(super) fn rule(&mut self) {
        let table = match self.random.below(30) {
            0 => self.random.pick(&[4, 5, 255]),
            _ => self.random.pick(&[0, 0, 0, 1, 2, 3, 3]),
        };
        let column = match self.random.below(30) {
            0 => self.random.pick(&[7, 8, 9, 255]),
            _ => self.random.pick(&[0, 0, 1, 1, 2, 3]),
        };
        let rule = Rule {
            broker: self.random.pick(&self.pools.brokers),
            table,
            column,
            sign: if self.random.percent(75) {
                Sign::Allow
            } else {
                Sign::Prohibit
            },
            test: if self.random.percent(50) {
                Test::Always
            } else {
                self.test(table)
            },
        };
        let filter = if self.random.percent(70) {
            0
        } else {
            self.random.below(4) as u8
        };
        self.call(Call::Rule { filter, rule });
    }

    pub(super) fn consent(&mut self) {
        let register = if self.random.percent(70) {
            0
        } else {
            self.random.below(4) as u8
        };
        let key = if self.random.percent(80) {
            self.number()
        } else {
            self.random.below(70) as u32
        };
        self.consent_for(register, key);
    }

    fn consent_for(&mut self, register: u8, key: u32) {
        let (shown, linked) = match self.random.below(10) {
            0..3 => (0xFF, self.random.byte()),
            3..5 => (0, 0xFF),
            5..7 => (self.random.byte(), 0xFF),
            7 => (self.random.byte(), 0),
            _ => (self.random.byte() & self.random.byte(), self.random.byte()),
        };
        let entry = Entry {
            key,
            shown: Columns(shown),
            linked: Columns(linked),
        };
        self.call(Call::Consent { register, entry });
    }

    pub(super) fn combine(&mut self) {
        let policy = self.combination();
        self.call(Call::Combine(policy));
    }

    /// Combines anew until the broker sees some cells and not others, best with pseudonyms.
    pub(super) fn tell_apart(&mut self, broker: u16) {
        if self.worth_of_view(&self.session.policy, broker) == 2 {
            return;
        }
        for least in [2, 2, 2, 2, 1, 1, 1, 1] {
            let policy = self.combination();
            if self.worth_of_view(&policy, broker) >= least {
                return self.call(Call::Combine(policy));
            }
        }
    }

    /// 0 where all cells are shown or none is, 2 where some are linked as well.
    fn worth_of_view(&self, policy: &Policy, broker: u16) -> usize {
        let Stage::Book(book) = &self.session.stage else {
            return 0;
        };
        let drawn = view(book, &self.session.policies, policy, broker);
        let cells = || drawn.iter().flatten().flatten();
        let shown = cells().any(|cell| matches!(cell, Cell::Value(_)));
        let hidden = cells().any(|cell| matches!(cell, Cell::Variable(_)));
        let linked = cells().any(|cell| matches!(cell, Cell::Pseudonym(_)));
        match (shown, hidden, linked) {
            (true, _, true) => 2,
            (true, true, false) => 1,
            _ => 0,
        }
    }

    fn combination(&mut self) -> Policy {
        match self.random.below(10) {
            0..3 => Policy::Consents(0),
            3 => Policy::Filter(0),
            4..6 => Policy::Both(Box::new(Policy::Filter(0)), Box::new(Policy::Consents(0))),
            6 => Policy::Either(Box::new(Policy::Filter(0)), Box::new(Policy::Consents(0))),
            _ => {
                let leaves = self.random.from_to(1, 8);
                self.pile(leaves)
            }
        }
    }

    fn pile(&mut self, leaves: usize) -> Policy {
        if leaves == 1 {
            let number = self.random.pick(&[0, 0, 0, 1, 2, 3]);
            return if self.random.percent(50) {
                Policy::Filter(number)
            } else {
                Policy::Consents(number)
            };
        }
        // One side is often a single leaf, which makes deep piles.
        let share = match self.random.below(4) {
            0 => 1,
            1 => leaves - 1,
            _ => self.random.from_to(1, leaves - 1),
        };
        let one = Box::new(self.pile(share));
        let other = Box::new(self.pile(leaves - share));
        if self.random.percent(50) {
            Policy::Both(one, other)
        } else {
            Policy::Either(one, other)
        }
    }
}
