//! Queries: the tree of relations, and its reading from bytes.

use crate::book::{Column, TABLES};
use crate::bytes::Bytes;
use crate::cells::{Kind, Prefix, Value};
use crate::comparing::Operator;
use crate::refusal::Refusal;

/// A record of a query together with its parts.
#[derive(Clone, PartialEq, Eq, Debug)]
pub struct Relation {
    pub record: u8,
    pub kinds: Vec<Kind>,
    pub form: Form,
}

#[derive(Clone, PartialEq, Eq, Debug)]
pub enum Form {
    Table(usize),
    Select(Box<Relation>, Condition),
    Project(Box<Relation>, Vec<usize>),
    Product(Box<Relation>, Box<Relation>),
    Union(Box<Relation>, Box<Relation>),
    Difference(Box<Relation>, Box<Relation>),
}

#[derive(Clone, PartialEq, Eq, Debug)]
pub enum Condition {
    Compare(Operator, usize, Side),
    And(Box<Condition>, Box<Condition>),
    Or(Box<Condition>, Box<Condition>),
    Not(Box<Condition>),
}

/// The right side of a comparison.
#[derive(Clone, Copy, PartialEq, Eq, Debug)]
pub enum Side {
    Column(usize),
    Constant(Value),
}

/// What a record is, before its parts are known.
enum Body {
    Table(u8),
    Select(Condition),
    Project(Vec<usize>),
    Product,
    Union,
    Difference,
}

/// Reads a query over these columns, or says which question is answered with "no".
pub fn read(query: &[u8], columns: &[Vec<Column>; TABLES]) -> Result<Relation, Refusal> {
    if query.is_empty() || query.len() > 1024 {
        return Err(Refusal::QueryLength);
    }
    let mut bytes = Bytes(query);
    let mut stack = Vec::new();
    let mut record = 0;
    while !bytes.is_empty() {
        if record == 15 {
            return Err(Refusal::TooManyRecords(record));
        }
        let (kind, body) = bytes.record().ok_or(Refusal::BrokenRecord(record))?;
        if !(1..=6).contains(&kind) {
            return Err(Refusal::UnknownRecord(record));
        }
        let body = read_body(kind, body).ok_or(Refusal::WrongForm(record))?;
        let relation = join_parts(record, body, &mut stack, columns)?;
        stack.push(relation);
        record += 1;
    }
    match stack.pop() {
        Some(whole) if stack.is_empty() => Ok(whole),
        _ => Err(Refusal::NotOneRelation(record)),
    }
}

/// The body of a record, where it has the form of its kind.
fn read_body(kind: u16, body: &[u8]) -> Option<Body> {
    let empty = body.is_empty();
    match (kind, body) {
        (1, [table]) => Some(Body::Table(*table)),
        (2, _) => Some(Body::Select(read_conditions(body)?)),
        (3, _) if (1..=8).contains(&body.len()) => Some(Body::Project(
            body.iter().map(|column| *column as usize).collect(),
        )),
        (4, _) if empty => Some(Body::Product),
        (5, _) if empty => Some(Body::Union),
        (6, _) if empty => Some(Body::Difference),
        _ => None,
    }
}

/// 1 to 15 condition records that leave one truth.
fn read_conditions(body: &[u8]) -> Option<Condition> {
    let mut bytes = Bytes(body);
    let mut truths = Vec::new();
    let mut count = 0;
    while !bytes.is_empty() {
        let (kind, body) = bytes.record()?;
        let condition = read_condition(kind, body, &mut truths)?;
        truths.push(condition);
        count += 1;
    }
    let last = truths.pop()?;
    (truths.is_empty() && count <= 15).then_some(last)
}

fn read_condition(kind: u16, body: &[u8], truths: &mut Vec<Condition>) -> Option<Condition> {
    let mut bytes = Bytes(body);
    match kind {
        0x10..=0x12 => {
            let operator = Operator::of(bytes.one()?)?;
            let left = bytes.one()? as usize;
            let right = match kind {
                0x10 => Side::Column(bytes.one()? as usize),
                0x11 => Side::Constant(Value::Number(bytes.four()?)),
                _ => Side::Constant(Value::Prefix(
                    Prefix::make(bytes.take(bytes.0.len())?).ok()?,
                )),
            };
            bytes.end(Condition::Compare(operator, left, right))
        }
        0x13..=0x15 => {
            let last = Box::new(truths.pop()?);
            let condition = match kind {
                0x13 => Condition::And(Box::new(truths.pop()?), last),
                0x14 => Condition::Or(Box::new(truths.pop()?), last),
                _ => Condition::Not(last),
            };
            bytes.end(condition)
        }
        _ => None,
    }
}

/// Takes the parts of a record from the stack and puts questions 16 to 19.
fn join_parts(
    record: u8,
    body: Body,
    stack: &mut Vec<Relation>,
    columns: &[Vec<Column>; TABLES],
) -> Result<Relation, Refusal> {
    let mut take = || stack.pop().map(Box::new).ok_or(Refusal::StackShort(record));
    let no_such_name = Refusal::NoSuchName(record);
    let (kinds, form) = match body {
        Body::Table(table) => {
            let declared = columns.get(table as usize).ok_or(no_such_name)?;
            if declared.is_empty() {
                return Err(no_such_name);
            }
            let kinds = declared.iter().map(|column| column.kind).collect();
            (kinds, Form::Table(table as usize))
        }
        Body::Select(condition) => {
            let part = take()?;
            if !names_exist(&condition, part.kinds.len()) {
                return Err(no_such_name);
            }
            if !fits(&condition, &part.kinds) {
                return Err(Refusal::Unfit(record));
            }
            (part.kinds.clone(), Form::Select(part, condition))
        }
        Body::Project(listed) => {
            let part = take()?;
            let kind = |column: &usize| part.kinds.get(*column).copied().ok_or(no_such_name);
            let kinds = listed.iter().map(kind).collect::<Result<_, _>>()?;
            (kinds, Form::Project(part, listed))
        }
        Body::Product => {
            let (right, left) = (take()?, take()?);
            let kinds = [left.kinds.clone(), right.kinds.clone()].concat();
            if kinds.len() > 8 {
                return Err(Refusal::ProductTooWide(record));
            }
            (kinds, Form::Product(left, right))
        }
        Body::Union | Body::Difference => {
            let (right, left) = (take()?, take()?);
            if left.kinds != right.kinds {
                return Err(Refusal::Unfit(record));
            }
            let kinds = left.kinds.clone();
            let form = match body {
                Body::Union => Form::Union(left, right),
                _ => Form::Difference(left, right),
            };
            (kinds, form)
        }
    };
    Ok(Relation {
        record,
        kinds,
        form,
    })
}

fn names_exist(condition: &Condition, width: usize) -> bool {
    match condition {
        Condition::Compare(_, left, Side::Column(right)) => *left < width && *right < width,
        Condition::Compare(_, left, Side::Constant(_)) => *left < width,
        Condition::And(one, other) | Condition::Or(one, other) => {
            names_exist(one, width) && names_exist(other, width)
        }
        Condition::Not(one) => names_exist(one, width),
    }
}

fn fits(condition: &Condition, kinds: &[Kind]) -> bool {
    match condition {
        Condition::Compare(operator, left, right) => {
            let right = match right {
                Side::Column(column) => kinds[*column],
                Side::Constant(value) => value.kind(),
            };
            kinds[*left] == right && operator.takes(right)
        }
        Condition::And(one, other) | Condition::Or(one, other) => {
            fits(one, kinds) && fits(other, kinds)
        }
        Condition::Not(one) => fits(one, kinds),
    }
}
