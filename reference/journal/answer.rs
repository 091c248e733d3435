//! The low and the high answer of each record.

use crate::cells::{Cell, Row};
use crate::comparing::{Truth, compare};
use crate::query::{Condition, Form, Relation, Side};
use crate::refusal::Refusal;
use crate::rows::compatible;
use crate::view::View;

/// Two lists of rows, neither with identical rows in it.
pub struct Answer {
    pub low: Vec<Row>,
    pub high: Vec<Row>,
}

/// The answer of a record, its parts before it. The parts are answered in the order of their
/// numbers, so the first record found with more than `most` high rows is the lowest.
pub fn answer(relation: &Relation, view: &View, most: usize) -> Result<Answer, Refusal> {
    let (low, high) = match &relation.form {
        Form::Table(table) => {
            let rows = relation_of(view[*table].iter().cloned(), most);
            (rows.clone(), rows)
        }
        Form::Select(part, condition) => {
            let part = answer(part, view, most)?;
            let is_true = |row: &Row| truth(condition, row) == Truth::True;
            let is_not_false = |row: &Row| truth(condition, row) != Truth::False;
            let low = part.low.into_iter().filter(is_true);
            let high = part.high.into_iter().filter(is_not_false);
            (relation_of(low, most), relation_of(high, most))
        }
        Form::Project(part, columns) => {
            let part = answer(part, view, most)?;
            let listed = |row: &Row| columns.iter().map(|column| row[*column]).collect();
            let low = part.low.iter().map(listed);
            let high = part.high.iter().map(listed);
            (relation_of(low, most), relation_of(high, most))
        }
        Form::Product(left, right) => {
            let left = answer(left, view, most)?;
            let right = answer(right, view, most)?;
            let low = product(&left.low, &right.low);
            let high = product(&left.high, &right.high);
            (relation_of(low, most), relation_of(high, most))
        }
        Form::Union(left, right) => {
            let left = answer(left, view, most)?;
            let right = answer(right, view, most)?;
            let low = left.low.into_iter().chain(right.low);
            let high = left.high.into_iter().chain(right.high);
            (relation_of(low, most), relation_of(high, most))
        }
        Form::Difference(left, right) => {
            let left = answer(left, view, most)?;
            let right = answer(right, view, most)?;
            let stays = |row: &Row| !right.high.iter().any(|other| compatible(row, other));
            let may_stay = |row: &Row| !right.low.contains(row);
            let low = left.low.into_iter().filter(stays);
            let high = left.high.into_iter().filter(may_stay);
            (relation_of(low, most), relation_of(high, most))
        }
    };
    match (low, high) {
        (Some(low), Some(high)) => Ok(Answer { low, high }),
        _ => Err(Refusal::TooManyRows(relation.record)),
    }
}

/// The rows without those identical to an earlier one; nothing if there are more than `most`.
fn relation_of(rows: impl Iterator<Item = Row>, most: usize) -> Option<Vec<Row>> {
    let mut kept: Vec<Row> = Vec::new();
    for row in rows {
        if !kept.contains(&row) {
            if kept.len() == most {
                return None;
            }
            kept.push(row);
        }
    }
    Some(kept)
}

/// Each left row followed by each right row.
fn product(left: &[Row], right: &[Row]) -> impl Iterator<Item = Row> {
    left.iter()
        .flat_map(|l| right.iter().map(|r| l.iter().chain(r).copied().collect()))
}

fn truth(condition: &Condition, row: &[Cell]) -> Truth {
    match condition {
        Condition::Compare(operator, left, Side::Column(right)) => {
            compare(*operator, &row[*left], &row[*right])
        }
        Condition::Compare(operator, left, Side::Constant(value)) => {
            compare(*operator, &row[*left], &Cell::Value(*value))
        }
        Condition::And(one, other) => truth(one, row).and(truth(other, row)),
        Condition::Or(one, other) => truth(one, row).or(truth(other, row)),
        Condition::Not(one) => truth(one, row).negated(),
    }
}
