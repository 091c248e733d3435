//! Kinds, values and the cells of a view.

use crate::refusal::Refusal;

#[derive(Clone, Copy, PartialEq, Eq, Debug)]
pub enum Kind {
    Number,
    Prefix,
}

/// 0 to 8 decimal digits. The unused places hold 0, so equal prefixes are equal structs.
#[derive(Clone, Copy, PartialEq, Eq, Debug)]
pub struct Prefix {
    digits: [u8; 8],
    count: u8,
}

impl Prefix {
    pub fn make(bytes: &[u8]) -> Result<Prefix, Refusal> {
        if bytes.len() > 8 || !bytes.iter().all(u8::is_ascii_digit) {
            return Err(Refusal::NotPrefix);
        }
        let mut digits = [0; 8];
        digits[..bytes.len()].copy_from_slice(bytes);
        Ok(Prefix {
            digits,
            count: bytes.len() as u8,
        })
    }

    pub fn digits(&self) -> &[u8] {
        &self.digits[..self.count as usize]
    }
}

#[derive(Clone, Copy, PartialEq, Eq, Debug)]
pub enum Value {
    Number(u32),
    Prefix(Prefix),
}

impl Value {
    pub fn kind(&self) -> Kind {
        match self {
            Value::Number(_) => Kind::Number,
            Value::Prefix(_) => Kind::Prefix,
        }
    }
}

/// The symbol of one masked cell.
#[derive(Clone, Copy, PartialEq, Eq, Debug)]
pub struct Variable {
    pub table: u8,
    pub row: u8,
    pub column: u8,
}

/// The symbol of all linked cells of one domain that hold one value.
#[derive(Clone, Copy, PartialEq, Eq, Debug)]
pub struct Pseudonym {
    pub domain: u8,
    pub index: u16,
}

/// A cell of a view.
#[derive(Clone, Copy, PartialEq, Eq, Debug)]
pub enum Cell {
    Value(Value),
    Variable(Variable),
    Pseudonym(Pseudonym),
}

pub type Row = Vec<Cell>;
