//! Records with which a journal ends badly.

use super::Maker;
use crate::bytes::record;
use crate::calls::Call;
use crate::session::{Stage, outcomes};

impl Maker<'_> {
    /// A record with which the journal ends badly.
    pub(super) fn bad_record(&mut self) {
        let record = match self.random.below(16) {
            0..4 => self.out_of_place(),
            4 | 5 => self.cut_off(),
            6 | 7 => self.of_unknown_kind(),
            8 | 9 => self.longer_or_shorter(),
            _ => self.wrong_form(),
        };
        self.journal.records.push(record);
        if self.random.percent(30) {
            // No call after the bad one has an outcome.
            for _ in 0..3 {
                let more = self.whole_record();
                self.journal.records.push(more);
            }
        }
        if outcomes(&self.journal.records.concat()).1.is_none() {
            // It was not bad, or is no longer with what follows.
            self.journal.records.push(vec![0xFF]);
        }
        self.journal.outcomes = outcomes(&self.journal.records.concat()).0;
    }

    /// A call of the draft where the book is open, or one of the book at the start.
    fn out_of_place(&mut self) -> Vec<u8> {
        let open = matches!(self.session.stage, Stage::Book(_));
        if open && self.random.percent(50) {
            let declare = Call::Declare {
                table: 0,
                kind: 1,
                domain: 0,
            };
            let open = Call::Open { memory_cells: 64 };
            return self.random.pick(&[declare, open]).write();
        }
        let of_the_book: Vec<Vec<u8>> = (self.journal.records.iter())
            .filter(|record| matches!(record[2], 0x33..=0x35 | 0x39))
            .cloned()
            .collect();
        self.call(Call::Begin);
        let strike = Call::Strike { table: 0, row: 0 }.write();
        if of_the_book.is_empty() || self.random.percent(25) {
            strike
        } else {
            self.random.pick(&of_the_book)
        }
    }

    fn cut_off(&mut self) -> Vec<u8> {
        let mut record = self.whole_record();
        record.truncate(self.random.from_to(1, record.len() - 1));
        record
    }

    fn of_unknown_kind(&mut self) -> Vec<u8> {
        let mut record = self.whole_record();
        if self.random.percent(70) {
            let kinds = [0, 1, 0x20, 0x24, 0x2F, 0x3A, 0x40, 0xFF];
            record[2] = self.random.pick(&kinds);
        } else {
            record[3] = self.random.pick(&[1, 0x30, 0xFF]);
        }
        record
    }

    /// A call whose body is one byte longer or shorter; an ask and a combine may bear it.
    fn longer_or_shorter(&mut self) -> Vec<u8> {
        let mut body = self.whole_record()[4..].to_vec();
        let kind = self.random.from_to(0x30, 0x38) as u16;
        let of_kind: Vec<Vec<u8>> = (self.journal.records.iter())
            .filter(|record| record[2] as u16 == kind)
            .cloned()
            .collect();
        if !of_kind.is_empty() {
            body = self.random.pick(&of_kind)[4..].to_vec();
        }
        if self.random.percent(50) {
            body.push(self.random.pick(&[0, 1, 2, 255]));
        } else {
            body.pop();
        }
        record(kind, &body)
    }

    fn whole_record(&mut self) -> Vec<u8> {
        let known = self.journal.records.len();
        let at = self.random.below(known);
        self.journal.records[at].clone()
    }

    fn wrong_form(&mut self) -> Vec<u8> {
        let forms: [(u16, &[u8]); 24] = [
            (0x30, &[0]),
            (0x33, &[]),
            (0x33, &[0, 0]),
            (0x33, &[0, 3, 0, 0, 0, 0]),
            (0x33, &[0, 1, 0, 0, 0]),
            (0x33, &[0, 2]),
            (0x33, &[0, 2, 3, 0x34, 0x37]),
            (0x34, &[0, 0]),
            (0x34, &[0, 0, 0, 0]),
            (0x35, &[0, 0, 0, 0]),
            (0x35, &[0, 0, 0, 0, 2, 0, 2, 0]),
            (0x35, &[0, 0, 0, 0, 0]),
            (0x36, &[4, 7, 0, 0, 0, 1]),
            (0x36, &[0, 7, 0, 0, 0, 2]),
            (0x36, &[0, 7, 0, 0, 0]),
            (0x36, &[0, 7, 0, 0, 0, 1, 0, 1, 0, 0]),
            (0x36, &[0, 7, 0, 0, 0, 1, 0, 1, 0, 0, 0, 0]),
            (0x37, &[4, 0, 0, 0, 0, 0, 0]),
            (0x37, &[0, 0, 0, 0, 0, 0]),
            (0x37, &[0, 0, 0, 0, 0, 0, 0, 0]),
            (0x38, &[0, 0x10]),
            (0x38, &[0, 0x20]),
            (0x38, &[4]),
            (0x39, &[7, 0, 0, 0, 0, 0, 0, 0, 0]),
        ];
        match self.random.below(30) {
            0 => record(0x38, &[]),
            1 => record(0x38, &[0x14]),
            // Steps that are right but for their number.
            2 | 9 | 10 => record(0x38, &[&[0; 9][..], &[0x20; 8][..]].concat()),
            3 => record(0x33, &[&[0][..], &[2, 0].repeat(17)[..]].concat()),
            4 => record(0x38, &[0, 0, 0x22]),
            5 => record(0x31, &[0, 1]),
            6 => record(0x31, &[0, 1, 0, 0]),
            7 => record(0x32, &[64, 0, 0]),
            8 => record(0x32, &[64, 0, 0, 0, 0]),
            _ => {
                let (kind, body) = self.random.pick(&forms);
                record(kind, body)
            }
        }
    }
}
