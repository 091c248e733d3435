//! Random journals.

mod asks;
mod contents;
mod drafts;
mod endings;
mod marks;

use crate::ask::Ask;
use crate::book::{Column, TABLES};
use crate::bytes::{Bytes, record};
use crate::calls::{Call, Written};
use crate::cells::Kind;
use crate::counts::Counts;
use crate::policy::{Columns, Entry, Policy};
use crate::queries::{Pools, table};
use crate::random::Random;
use crate::session::{Outcome, Session, Stage};

/// A journal as its records, and the outcomes that the evaluator gives.
#[derive(Clone)]
pub struct Journal {
    pub records: Vec<Vec<u8>>,
    pub outcomes: Vec<Outcome>,
    /// Whether it ends badly.
    pub bad: bool,
}

/// The journal of this number among those of its seed.
pub fn journal(seed: u64, number: u64, counts: &mut Counts) -> Journal {
    let mut random = Random::new(seed, number);
    let pools = pools(&mut random);
    let bad = random.one_in(25);
    let mut maker = Maker {
        random,
        pools,
        session: Session::default(),
        journal: Journal {
            records: Vec::new(),
            outcomes: Vec::new(),
            bad,
        },
        counts,
    };
    maker.counts.journals += 1;
    maker.counts.bad_journals += bad as u64;
    if !bad || maker.random.percent(50) {
        maker.call(Call::Begin);
    }
    maker.book_and_asks();
    while maker.random.one_in(12) {
        maker.call(Call::Begin);
        maker.book_and_asks();
    }
    if bad {
        maker.bad_record();
    }
    maker.journal
}

fn pools(random: &mut Random) -> Pools {
    let digits = |random: &mut Random, count: usize| -> Vec<u8> {
        (0..count)
            .map(|_| b'0' + random.pick(&[0, 4, 7, 9]))
            .collect()
    };
    let count = random.from_to(2, 4);
    let numbers = (0..count)
        .map(|_| match random.below(8) {
            0 => random.pick(&[0, u32::MAX, 256, 65_535, 65_536]),
            1 => random.draw() as u32,
            _ => random.from_to(1, 5) as u32,
        })
        .collect();
    let mut prefixes: Vec<Vec<u8>> = vec![];
    for _ in 0..random.from_to(2, 4) {
        let length = random.pick(&[0, 1, 1, 2, 2, 3, 4, 5, 7, 8, 8]);
        let mut prefix = digits(random, length);
        if let Some(first) = prefixes.first()
            && random.percent(60)
        {
            // One that covers an earlier one or is covered by it.
            prefix = first.clone();
            prefix.truncate(length);
            let more = digits(random, length.saturating_sub(prefix.len()));
            prefix.extend(more);
        }
        prefixes.push(prefix);
    }
    let brokers = match random.below(10) {
        0..6 => vec![7],
        6..9 => vec![7, random.pick(&[8, 0, 65_535, 263])],
        _ => vec![random.draw() as u16, random.draw() as u16],
    };
    Pools {
        numbers,
        prefixes,
        brokers,
    }
}

struct Maker<'a> {
    random: Random,
    pools: Pools,
    session: Session,
    journal: Journal,
    counts: &'a mut Counts,
}

impl Maker<'_> {
    /// Appends a call that may stand here.
    fn call(&mut self, call: Call) {
        let record = call.write();
        let (kind, body) = Bytes(&record).record().expect("a whole record");
        let read = Call::read(kind, body).expect("a call");
        assert_eq!(read, call);
        let outcome = self.session.carry_out(&read).expect("a call in its place");
        self.counts.see(&call, &outcome, &self.session);
        self.journal.records.push(record);
        self.journal.outcomes.push(outcome);
    }

    fn book_and_asks(&mut self) {
        match self.random.below(4000) {
            0 => self.longest_reply(),
            1..14 => self.products_of_about_512_rows(),
            14..34 => self.many_linked_cells(),
            _ => self.small_book_and_asks(),
        }
    }

    /// Two tables of 256 rows of eight prefixes of eight digits: their union is the longest reply.
    fn longest_reply(&mut self) {
        for table in [0, 1] {
            for _ in 0..8 {
                self.call(Call::Declare {
                    table,
                    kind: 2,
                    domain: 0,
                });
            }
        }
        self.call(Call::Open { memory_cells: 8192 });
        for row in 0..512 {
            let cells = vec![Written::Prefix(format!("{row:08}").into_bytes()); 8];
            self.call(Call::Store {
                table: (row / 256) as u8,
                cells,
            });
        }
        self.call(Call::Combine(Policy::Consents(0)));
        let query = [table(0), table(1), record(5, &[])].concat();
        for (workspace_cells, reply_bytes) in [
            (122_880, 43_016),
            (122_879, 43_016),
            (u32::MAX, 43_015),
            (122_880, u32::MAX),
        ] {
            let query = query.clone();
            self.call(Call::Ask(Ask {
                broker: 0,
                query,
                workspace_cells,
                reply_bytes,
            }));
        }
    }

    /// High answers of 512 rows and of one row more.
    fn products_of_about_512_rows(&mut self) {
        let sizes = [
            (16, 32),
            (32, 16),
            (19, 27),
            (27, 19),
            (3, 171),
            (2, 256),
            (256, 2),
        ];
        let (left, right) = self.random.pick(&sizes);
        for table in [0, 3] {
            self.declare(table, Kind::Number);
        }
        self.policies();
        let memory_cells = self.random.pick(&[8192, 10_000]);
        self.call(Call::Open { memory_cells });
        for (table, count) in [(0, left), (3, right)] {
            for number in 0..count {
                self.call(Call::Store {
                    table,
                    cells: vec![Written::Number(number)],
                });
            }
        }
        for _ in 0..self.random.from_to(1, 3) {
            let broker = self.random.pick(&self.pools.brokers);
            let query = [table(0), table(3), record(4, &[])].concat();
            let workspace_cells = self.random.pick(&[122_880, 122_880, 122_879, 200_000]);
            self.call(Call::Ask(Ask {
                broker,
                query,
                workspace_cells,
                reply_bytes: 43_016,
            }));
            self.change();
        }
        self.ask();
    }

    /// A table 3 with so many linked cells that the indices need two bytes.
    fn many_linked_cells(&mut self) {
        for _ in 0..self.random.from_to(3, 8) {
            self.call(Call::Declare {
                table: 3,
                kind: 1,
                domain: 1,
            });
        }
        let memory_cells = self.random.pick(&[8192, 8192, 4000]);
        self.call(Call::Open { memory_cells });
        self.policies();
        for key in self.pools.numbers.clone() {
            let shown = Columns(self.random.below(2) as u8);
            let entry = Entry {
                key,
                shown,
                linked: Columns(0xFF),
            };
            self.call(Call::Consent { register: 0, entry });
        }
        for number in 0..self.random.from_to(60, 256) {
            let mut cells = self.row(3);
            self.spread(&mut cells, number as u32);
            self.call(Call::Store { table: 3, cells });
        }
        self.call(Call::Combine(Policy::Consents(0)));
        for _ in 0..self.random.from_to(2, 4) {
            self.ask();
            self.change();
        }
    }

    fn small_book_and_asks(&mut self) {
        if self.random.percent(15) {
            self.policies();
        }
        self.draft();
        let early = self.random.percent(50);
        if early {
            self.policies();
        }
        let big = self.random.one_in(50);
        let memory_cells = match self.random.below(20) {
            _ if big => self.random.pick(&[8191, 8192, 8192, 8200, 10_000]),
            0..12 => 8192,
            12..16 => self.random.from_to(96, 500) as u32,
            16..19 => self.random.pick(&[0, 31, 32, 63, 64, 95, 96, 97, 127, 128]),
            _ => self
                .random
                .pick(&[8200, 8223, 8224, u32::MAX, 1 << 16, 1 << 31]),
        };
        self.call(Call::Open { memory_cells });
        self.rows(big);
        if !early {
            self.policies();
        }
        for _ in 0..self.random.from_to(2, 5) {
            self.ask();
            for _ in 0..self.random.pick(&[0, 0, 1, 1, 2, 3]) {
                self.change();
            }
        }
    }

    fn columns(&self) -> [Vec<Column>; TABLES] {
        match &self.session.stage {
            Stage::Draft(draft) => draft.columns.clone(),
            Stage::Book(book) => book.columns.clone(),
        }
    }

    fn count(&self, table: usize) -> usize {
        match &self.session.stage {
            Stage::Draft(_) => 0,
            Stage::Book(book) => book.rows[table].len(),
        }
    }

    fn number(&mut self) -> u32 {
        self.random.pick(&self.pools.numbers)
    }
}
