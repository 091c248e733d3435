//! An ask and its reply.

use crate::answer::{Answer, answer};
use crate::book::Book;
use crate::bytes::record;
use crate::cells::{Cell, Row, Value};
use crate::policy::{Policies, Policy};
use crate::query::read;
use crate::refusal::Refusal;
use crate::view::view;

/// What an ask is handed beside the book and the policy. The workspace and the reply buffer
/// count by their lengths.
#[derive(Clone, PartialEq, Eq, Debug)]
pub struct Ask {
    pub broker: u16,
    pub workspace_cells: u32,
    pub reply_bytes: u32,
    pub query: Vec<u8>,
}

#[derive(Clone, PartialEq, Eq, Debug)]
pub struct Reply {
    pub certain: Vec<Row>,
    pub possible: Vec<Row>,
    pub bytes: Vec<u8>,
}

impl Ask {
    pub fn put(&self, book: &Book, policies: &Policies, policy: &Policy) -> Result<Reply, Refusal> {
        let query = read(&self.query, &book.columns)?;
        let view = view(book, policies, policy, self.broker);
        let most = (self.workspace_cells as usize / 240).min(512);
        let Answer { low: certain, high } = answer(&query, &view, most)?;
        let possible: Vec<Row> = high
            .into_iter()
            .filter(|row| !certain.contains(row))
            .collect();
        let bytes = reply_bytes(&certain, &possible);
        if bytes.len() > self.reply_bytes as usize {
            return Err(Refusal::ReplyTooLong(query.record + 1));
        }
        Ok(Reply {
            certain,
            possible,
            bytes,
        })
    }
}

fn reply_bytes(certain: &[Row], possible: &[Row]) -> Vec<u8> {
    let count = |rows: &[Row]| (rows.len() as u16).to_le_bytes();
    let mut bytes = record(0x20, &[count(certain), count(possible)].concat());
    for row in certain {
        bytes.extend(record(0x21, &row_bytes(row)));
    }
    for row in possible {
        bytes.extend(record(0x22, &row_bytes(row)));
    }
    bytes
}

fn row_bytes(row: &Row) -> Vec<u8> {
    let mut bytes = Vec::new();
    for cell in row {
        match cell {
            Cell::Value(Value::Number(number)) => {
                bytes.push(1);
                bytes.extend(number.to_le_bytes());
            }
            Cell::Value(Value::Prefix(prefix)) => {
                bytes.extend([2, prefix.digits().len() as u8]);
                bytes.extend(prefix.digits());
            }
            Cell::Variable(variable) => {
                bytes.extend([3, variable.table, variable.row, variable.column]);
            }
            Cell::Pseudonym(pseudonym) => {
                bytes.extend([4, pseudonym.domain]);
                bytes.extend(pseudonym.index.to_le_bytes());
            }
        }
    }
    bytes
}
