//! Asks: queries that tell much, and lengths at the edges.

use super::Maker;
use crate::ask::{Ask, Reply};
use crate::calls::Call;
use crate::damage::{damaged, garbage};
use crate::queries::Queries;

impl Maker<'_> {
    pub(super) fn ask(&mut self) {
        let broker = if self.random.one_in(20) {
            self.random.pick(&[6, 7, 8, 263, 519, 65_535])
        } else {
            self.random.pick(&self.pools.brokers)
        };
        if self.random.percent(60) {
            self.tell_apart(broker);
        }
        let query = match self.random.below(100) {
            0..78 => self.telling_query(broker),
            78..86 => self.queries(|queries| queries.edge()).concat(),
            86..97 => {
                let query = self.queries(|queries| queries.query());
                damaged(&mut self.random, query)
            }
            _ => garbage(&mut self.random),
        };
        let ask = Ask {
            broker,
            query,
            workspace_cells: 122_880,
            reply_bytes: 43_016,
        };
        let ask = self.with_a_workspace(ask);
        let ask = self.with_a_reply_buffer(ask);
        self.call(Call::Ask(ask));
    }

    fn queries<T>(&mut self, draw: impl FnOnce(&mut Queries) -> T) -> T {
        let columns = self.columns();
        draw(&mut Queries {
            random: &mut self.random,
            columns: &columns,
            pools: &self.pools,
        })
    }

    fn reply(&self, ask: &Ask) -> Option<Reply> {
        self.session.ask(ask)?.ok()
    }

    /// A query drawn again a few times until its reply has certain and possible rows.
    fn telling_query(&mut self, broker: u16) -> Vec<u8> {
        let mut best = (0, Vec::new());
        for _ in 0..self.random.pick(&[1, 12, 12, 12]) {
            let query = self.queries(|queries| queries.query()).concat();
            let ask = Ask {
                broker,
                query,
                workspace_cells: 24_000,
                reply_bytes: 43_016,
            };
            let worth = match self.reply(&ask) {
                None => 1,
                Some(reply) => match (reply.certain.is_empty(), reply.possible.is_empty()) {
                    (true, true) => 2,
                    (false, true) => 3,
                    (true, false) => 4,
                    (false, false) => 5,
                },
            };
            if worth > best.0 {
                best = (worth, ask.query);
            }
            if worth == 5 {
                break;
            }
        }
        best.1
    }

    fn with_a_workspace(&mut self, ask: Ask) -> Ask {
        let workspace_cells = match self.random.below(40) {
            0..22 => 122_880,
            22 | 23 => 200_000,
            24 | 25 => 1920,
            26 => u32::MAX,
            27..29 => self
                .random
                .pick(&[0, 239, 240, 479, 480, 719, 720, 122_879]),
            29..34 => 240 * self.random.from_to(1, 12) as u32,
            34 => 240 * self.random.from_to(1, 12) as u32 - 1,
            _ => return self.with_an_exact_workspace(ask),
        };
        Ask {
            workspace_cells,
            ..ask
        }
    }

    /// The least workspace that will do, or one cell less.
    fn with_an_exact_workspace(&mut self, ask: Ask) -> Ask {
        let with = |rows: usize| Ask {
            workspace_cells: 240 * rows as u32,
            ..ask.clone()
        };
        if self.reply(&with(512)).is_none() {
            return ask;
        }
        let (mut least, mut enough) = (0, 512);
        while least < enough {
            let middle = (least + enough) / 2;
            match self.reply(&with(middle)) {
                Some(_) => enough = middle,
                None => least = middle + 1,
            }
        }
        let exact = with(enough);
        let less = if self.random.percent(40) { 1 } else { 0 };
        Ask {
            workspace_cells: exact.workspace_cells.saturating_sub(less),
            ..exact
        }
    }

    fn with_a_reply_buffer(&mut self, ask: Ask) -> Ask {
        let exact = |maker: &Self| {
            maker
                .reply(&ask)
                .map_or(8, |reply| reply.bytes.len() as u32)
        };
        let reply_bytes = match self.random.below(40) {
            0..28 => 43_016,
            28 => 4096,
            29 => 50_000,
            30 => u32::MAX,
            31 => self.random.pick(&[0, 7, 8, 43_015]),
            32 => self.random.below(60) as u32,
            33..37 => exact(self),
            37..39 => exact(self) - 1,
            _ => exact(self) + 1,
        };
        Ask { reply_bytes, ..ask }
    }
}
