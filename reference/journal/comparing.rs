//! Comparing two cells, and the three truths.

use crate::cells::{Cell, Kind, Value};

#[derive(Clone, Copy, PartialEq, Eq, Debug)]
pub enum Truth {
    True,
    Unknown,
    False,
}

impl Truth {
    pub fn and(self, other: Truth) -> Truth {
        match (self, other) {
            (Truth::False, _) | (_, Truth::False) => Truth::False,
            (Truth::True, Truth::True) => Truth::True,
            _ => Truth::Unknown,
        }
    }

    pub fn or(self, other: Truth) -> Truth {
        match (self, other) {
            (Truth::True, _) | (_, Truth::True) => Truth::True,
            (Truth::False, Truth::False) => Truth::False,
            _ => Truth::Unknown,
        }
    }

    pub fn negated(self) -> Truth {
        match self {
            Truth::True => Truth::False,
            Truth::Unknown => Truth::Unknown,
            Truth::False => Truth::True,
        }
    }
}

impl From<bool> for Truth {
    fn from(truth: bool) -> Truth {
        if truth { Truth::True } else { Truth::False }
    }
}

#[derive(Clone, Copy, PartialEq, Eq, Debug)]
pub enum Operator {
    Equal,
    Unequal,
    Less,
    AtMost,
    Covers,
    Shorter,
}

impl Operator {
    pub fn of(byte: u8) -> Option<Operator> {
        match byte {
            1 => Some(Operator::Equal),
            2 => Some(Operator::Unequal),
            3 => Some(Operator::Less),
            4 => Some(Operator::AtMost),
            5 => Some(Operator::Covers),
            6 => Some(Operator::Shorter),
            _ => None,
        }
    }

    pub fn takes(self, kind: Kind) -> bool {
        match self {
            Operator::Equal | Operator::Unequal => true,
            Operator::Less | Operator::AtMost => kind == Kind::Number,
            Operator::Covers | Operator::Shorter => kind == Kind::Prefix,
        }
    }
}

pub fn compare(operator: Operator, left: &Cell, right: &Cell) -> Truth {
    match (left, right) {
        (Cell::Value(left), Cell::Value(right)) => compare_values(operator, left, right).into(),
        _ if left == right => compare_with_itself(operator).into(),
        (Cell::Pseudonym(left), Cell::Pseudonym(right)) if left.domain == right.domain => {
            match operator {
                Operator::Equal => Truth::False,
                Operator::Unequal => Truth::True,
                _ => Truth::Unknown,
            }
        }
        _ => Truth::Unknown,
    }
}

fn compare_values(operator: Operator, left: &Value, right: &Value) -> bool {
    match (operator, left, right) {
        (Operator::Equal, _, _) => left == right,
        (Operator::Unequal, _, _) => left != right,
        (Operator::Less, Value::Number(left), Value::Number(right)) => left < right,
        (Operator::AtMost, Value::Number(left), Value::Number(right)) => left <= right,
        (Operator::Covers, Value::Prefix(left), Value::Prefix(right)) => {
            right.digits().starts_with(left.digits())
        }
        (Operator::Shorter, Value::Prefix(left), Value::Prefix(right)) => {
            left.digits().len() < right.digits().len()
        }
        _ => unreachable!("a query that is read has only comparisons that fit"),
    }
}

fn compare_with_itself(operator: Operator) -> bool {
    match operator {
        Operator::Equal | Operator::AtMost | Operator::Covers => true,
        Operator::Unequal | Operator::Less | Operator::Shorter => false,
    }
}
