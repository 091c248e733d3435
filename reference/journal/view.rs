//! What one broker sees of a book.

use crate::book::{Book, TABLES};
use crate::cells::{Cell, Pseudonym, Row, Value, Variable};
use crate::policy::{Mark, Policies, Policy, Question};

pub type View = [Vec<Row>; TABLES];

pub fn view(book: &Book, policies: &Policies, policy: &Policy, broker: u16) -> View {
    let mut domains: [LinkedCells; 16] = Default::default();
    let mut view = View::default();
    for (table, rows) in book.rows.iter().enumerate() {
        for (number, row) in rows.iter().enumerate() {
            let mut cells = Row::with_capacity(row.len());
            for (column, value) in row.iter().enumerate() {
                let place = Variable {
                    table: table as u8,
                    row: number as u8,
                    column: column as u8,
                };
                let question = Question {
                    broker,
                    table: place.table,
                    row,
                    column: place.column,
                };
                let domain = book.columns[table][column].domain;
                cells.push(match policies.mark(policy, &question) {
                    Mark::Shown => Cell::Value(*value),
                    Mark::Linked if domain != 0 => Cell::Pseudonym(Pseudonym {
                        domain,
                        index: domains[domain as usize].index(*value),
                    }),
                    Mark::Linked | Mark::Hidden => Cell::Variable(place),
                });
            }
            view[table].push(cells);
        }
    }
    view
}

/// The linked cells of one domain counted so far, and the first of each value.
#[derive(Default)]
struct LinkedCells {
    count: u16,
    firsts: Vec<(Value, u16)>,
}

impl LinkedCells {
    /// Counts one more linked cell and gives the index of its pseudonym.
    fn index(&mut self, value: Value) -> u16 {
        let here = self.count;
        self.count += 1;
        match self.firsts.iter().find(|(known, _)| *known == value) {
            Some((_, first)) => *first,
            None => {
                self.firsts.push((value, here));
                here
            }
        }
    }
}
