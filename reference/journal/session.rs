//! Carrying out the calls of a journal.

use crate::ask::{Ask, Reply};
use crate::book::{Book, Draft};
use crate::bytes::{Bytes, record};
use crate::calls::{Bad, Call, Written};
use crate::cells::Value;
use crate::policy::{Policies, Policy};
use crate::refusal::Refusal;

#[derive(Clone, Debug)]
pub enum Stage {
    Draft(Draft),
    Book(Book),
}

#[derive(Clone, Debug)]
pub struct Session {
    pub stage: Stage,
    pub policies: Policies,
    pub policy: Policy,
}

impl Default for Session {
    fn default() -> Session {
        Session {
            stage: Stage::Draft(Draft::default()),
            policies: Policies::default(),
            policy: Policy::Filter(0),
        }
    }
}

#[derive(Clone, PartialEq, Eq, Debug)]
pub enum Outcome {
    Done,
    Refused(Refusal),
    Replied(Reply),
}

impl Outcome {
    pub fn bytes(&self) -> Vec<u8> {
        match self {
            Outcome::Done => record(0x24, &[]),
            Outcome::Refused(refusal) => refusal.record(),
            Outcome::Replied(reply) => reply.bytes.clone(),
        }
    }
}

impl From<Result<(), Refusal>> for Outcome {
    fn from(result: Result<(), Refusal>) -> Outcome {
        match result {
            Ok(()) => Outcome::Done,
            Err(refusal) => Outcome::Refused(refusal),
        }
    }
}

impl Session {
    pub fn carry_out(&mut self, call: &Call) -> Result<Outcome, Bad> {
        let outcome = match (call, &mut self.stage) {
            (Call::Begin, _) => {
                *self = Session::default();
                Outcome::Done
            }
            (Call::Rule { filter, rule }, _) => {
                self.policies.filters[*filter as usize].add(*rule).into()
            }
            (Call::Consent { register, entry }, _) => self.policies.registers[*register as usize]
                .set(*entry)
                .into(),
            (Call::Combine(policy), _) => {
                self.policy = policy.clone();
                Outcome::Done
            }
            (
                Call::Declare {
                    table,
                    kind,
                    domain,
                },
                Stage::Draft(draft),
            ) => draft.declare(*table, *kind, *domain).into(),
            (Call::Open { memory_cells }, Stage::Draft(draft)) => {
                self.stage = Stage::Book(draft.open(*memory_cells));
                Outcome::Done
            }
            (Call::Store { table, cells }, Stage::Book(book)) => store(book, *table, cells).into(),
            (Call::Strike { table, row }, Stage::Book(book)) => book.strike(*table, *row).into(),
            (
                Call::Amend {
                    table,
                    row,
                    column,
                    cell,
                },
                Stage::Book(book),
            ) => amend(book, *table, *row, *column, cell).into(),
            (Call::Ask(ask), Stage::Book(_)) => match self.ask(ask) {
                Some(Ok(reply)) => Outcome::Replied(reply),
                Some(Err(refusal)) => Outcome::Refused(refusal),
                None => return Err(Bad::OutOfPlace),
            },
            _ => return Err(Bad::OutOfPlace),
        };
        Ok(outcome)
    }

    /// Puts an ask, where the book is open.
    pub fn ask(&self, ask: &Ask) -> Option<Result<Reply, Refusal>> {
        match &self.stage {
            Stage::Draft(_) => None,
            Stage::Book(book) => Some(ask.put(book, &self.policies, &self.policy)),
        }
    }
}

fn store(book: &mut Book, table: u8, cells: &[Written]) -> Result<(), Refusal> {
    let cells: Vec<Value> = cells.iter().map(Written::make).collect::<Result<_, _>>()?;
    book.store(table, &cells)
}

fn amend(book: &mut Book, table: u8, row: u16, column: u8, cell: &Written) -> Result<(), Refusal> {
    book.amend(table, row, column, cell.make()?)
}

/// The outcomes of a journal, and why it ends badly if it does.
pub fn outcomes(journal: &[u8]) -> (Vec<Outcome>, Option<Bad>) {
    let mut session = Session::default();
    let mut bytes = Bytes(journal);
    let mut outcomes = Vec::new();
    while !bytes.is_empty() {
        let next = bytes.record().ok_or(Bad::CutOff);
        let call = next.and_then(|(kind, body)| Call::read(kind, body));
        match call.and_then(|call| session.carry_out(&call)) {
            Ok(outcome) => outcomes.push(outcome),
            Err(bad) => return (outcomes, Some(bad)),
        }
    }
    (outcomes, None)
}
