//! The calls of a journal, as records.

use crate::ask::Ask;
use crate::bytes::{Bytes, record};
use crate::cells::{Prefix, Value};
use crate::policy::{Columns, Entry, Policy, Rule, Sign, Test};
use crate::refusal::Refusal;

/// A cell as a journal writes it: the bytes of a prefix need not be digits.
#[derive(Clone, PartialEq, Eq, Debug)]
pub enum Written {
    Number(u32),
    Prefix(Vec<u8>),
}

impl Written {
    pub fn make(&self) -> Result<Value, Refusal> {
        match self {
            Written::Number(number) => Ok(Value::Number(*number)),
            Written::Prefix(bytes) => Ok(Value::Prefix(Prefix::make(bytes)?)),
        }
    }
}

#[derive(Clone, PartialEq, Eq, Debug)]
pub enum Call {
    Begin,
    Declare {
        table: u8,
        kind: u8,
        domain: u8,
    },
    Open {
        memory_cells: u32,
    },
    Store {
        table: u8,
        cells: Vec<Written>,
    },
    Strike {
        table: u8,
        row: u16,
    },
    Amend {
        table: u8,
        row: u16,
        column: u8,
        cell: Written,
    },
    Rule {
        filter: u8,
        rule: Rule,
    },
    Consent {
        register: u8,
        entry: Entry,
    },
    Combine(Policy),
    Ask(Ask),
}

/// Why a journal ends badly.
#[derive(Clone, Copy, PartialEq, Eq, Debug)]
pub enum Bad {
    CutOff,
    UnknownKind,
    WrongForm,
    OutOfPlace,
}

impl Bad {
    pub fn words(self) -> &'static str {
        match self {
            Bad::CutOff => "a record is cut off",
            Bad::UnknownKind => "a record is of no known kind",
            Bad::WrongForm => "a body has not the form of its kind",
            Bad::OutOfPlace => "a call stands where it may not stand",
        }
    }
}

impl Call {
    pub fn read(kind: u16, body: &[u8]) -> Result<Call, Bad> {
        if !(0x30..=0x39).contains(&kind) {
            return Err(Bad::UnknownKind);
        }
        let mut bytes = Bytes(body);
        let call = read_form(kind, &mut bytes).ok_or(Bad::WrongForm)?;
        bytes.end(call).ok_or(Bad::WrongForm)
    }

    pub fn write(&self) -> Vec<u8> {
        let mut body = Vec::new();
        let kind = match self {
            Call::Begin => 0x30,
            Call::Declare {
                table,
                kind,
                domain,
            } => {
                body.extend([table, kind, domain]);
                0x31
            }
            Call::Open { memory_cells } => {
                body.extend(memory_cells.to_le_bytes());
                0x32
            }
            Call::Store { table, cells } => {
                body.push(*table);
                for cell in cells {
                    write_cell(cell, &mut body);
                }
                0x33
            }
            Call::Strike { table, row } => {
                body.push(*table);
                body.extend(row.to_le_bytes());
                0x34
            }
            Call::Amend {
                table,
                row,
                column,
                cell,
            } => {
                body.push(*table);
                body.extend(row.to_le_bytes());
                body.push(*column);
                write_cell(cell, &mut body);
                0x35
            }
            Call::Rule { filter, rule } => {
                body.push(*filter);
                body.extend(rule.broker.to_le_bytes());
                body.extend([rule.table, rule.column, (rule.sign == Sign::Allow) as u8]);
                if let Test::Holds { column, number } = rule.test {
                    body.push(column);
                    body.extend(number.to_le_bytes());
                }
                0x36
            }
            Call::Consent { register, entry } => {
                body.push(*register);
                body.extend(entry.key.to_le_bytes());
                body.extend([entry.shown.0, entry.linked.0]);
                0x37
            }
            Call::Combine(policy) => {
                write_steps(policy, &mut body);
                0x38
            }
            Call::Ask(ask) => {
                body.extend(ask.broker.to_le_bytes());
                body.extend(ask.workspace_cells.to_le_bytes());
                body.extend(ask.reply_bytes.to_le_bytes());
                body.extend(&ask.query);
                0x39
            }
        };
        record(kind, &body)
    }
}

/// The call of a known kind. Bytes that are left over are the caller's to see.
fn read_form(kind: u16, bytes: &mut Bytes) -> Option<Call> {
    Some(match kind {
        0x30 => Call::Begin,
        0x31 => Call::Declare {
            table: bytes.one()?,
            kind: bytes.one()?,
            domain: bytes.one()?,
        },
        0x32 => Call::Open {
            memory_cells: bytes.four()?,
        },
        0x33 => {
            let table = bytes.one()?;
            let mut cells = Vec::new();
            while !bytes.is_empty() {
                cells.push(read_cell(bytes)?);
            }
            if cells.len() > 16 {
                return None;
            }
            Call::Store { table, cells }
        }
        0x34 => Call::Strike {
            table: bytes.one()?,
            row: bytes.two()?,
        },
        0x35 => Call::Amend {
            table: bytes.one()?,
            row: bytes.two()?,
            column: bytes.one()?,
            cell: read_cell(bytes)?,
        },
        0x36 => {
            let filter = number_to_3(bytes.one()?)?;
            Call::Rule {
                filter,
                rule: read_rule(bytes)?,
            }
        }
        0x37 => {
            let register = number_to_3(bytes.one()?)?;
            let entry = Entry {
                key: bytes.four()?,
                shown: Columns(bytes.one()?),
                linked: Columns(bytes.one()?),
            };
            Call::Consent { register, entry }
        }
        0x38 => Call::Combine(read_steps(bytes)?),
        0x39 => Call::Ask(Ask {
            broker: bytes.two()?,
            workspace_cells: bytes.four()?,
            reply_bytes: bytes.four()?,
            query: bytes.take(bytes.0.len())?.to_vec(),
        }),
        _ => return None,
    })
}

fn number_to_3(number: u8) -> Option<u8> {
    (number <= 3).then_some(number)
}

fn read_cell(bytes: &mut Bytes) -> Option<Written> {
    match bytes.one()? {
        1 => Some(Written::Number(bytes.four()?)),
        2 => {
            let count = bytes.one()?;
            Some(Written::Prefix(bytes.take(count as usize)?.to_vec()))
        }
        _ => None,
    }
}

fn write_cell(cell: &Written, body: &mut Vec<u8>) {
    match cell {
        Written::Number(number) => {
            body.push(1);
            body.extend(number.to_le_bytes());
        }
        Written::Prefix(bytes) => {
            body.extend([2, bytes.len() as u8]);
            body.extend(bytes);
        }
    }
}

fn read_rule(bytes: &mut Bytes) -> Option<Rule> {
    Some(Rule {
        broker: bytes.two()?,
        table: bytes.one()?,
        column: bytes.one()?,
        sign: match bytes.one()? {
            0 => Sign::Prohibit,
            1 => Sign::Allow,
            _ => return None,
        },
        test: if bytes.is_empty() {
            Test::Always
        } else {
            Test::Holds {
                column: bytes.one()?,
                number: bytes.four()?,
            }
        },
    })
}

fn read_steps(bytes: &mut Bytes) -> Option<Policy> {
    let steps = bytes.take(bytes.0.len())?;
    if steps.len() > 15 {
        return None;
    }
    let mut policies = Vec::new();
    for step in steps {
        let policy = match step {
            0x00..=0x03 => Policy::Filter(*step),
            0x10..=0x13 => Policy::Consents(step - 0x10),
            0x20 | 0x21 => {
                let last = Box::new(policies.pop()?);
                let before = Box::new(policies.pop()?);
                match step {
                    0x20 => Policy::Both(before, last),
                    _ => Policy::Either(before, last),
                }
            }
            _ => return None,
        };
        policies.push(policy);
    }
    let whole = policies.pop()?;
    policies.is_empty().then_some(whole)
}

fn write_steps(policy: &Policy, body: &mut Vec<u8>) {
    match policy {
        Policy::Filter(number) => body.push(*number),
        Policy::Consents(number) => body.push(0x10 + number),
        Policy::Both(one, other) | Policy::Either(one, other) => {
            write_steps(one, body);
            write_steps(other, body);
            body.push(if matches!(policy, Policy::Both(..)) {
                0x20
            } else {
                0x21
            });
        }
    }
}
