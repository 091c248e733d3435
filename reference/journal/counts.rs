//! What a run has met, as a table.

use std::collections::{BTreeMap, BTreeSet};

use crate::calls::Call;
use crate::cells::{Cell, Value};
use crate::comparing::Operator;
use crate::policy::Policy;
use crate::query::{Condition, Form, Relation, Side, read};
use crate::session::{Outcome, Session, Stage};

#[derive(Clone, Default)]
pub struct Counts {
    pub journals: u64,
    pub bad_journals: u64,
    pub calls: u64,
    pub done: u64,
    pub replies: u64,
    pub well_formed: u64,
    pub refusals: BTreeMap<u8, u64>,
    pub places: BTreeMap<u8, BTreeSet<u8>>,
    /// Answered asks whose query has such a record, condition or operator.
    pub records: BTreeMap<&'static str, u64>,
    pub conditions: BTreeMap<&'static str, u64>,
    pub replies_with: BTreeMap<&'static str, u64>,
    pub piles: BTreeMap<usize, u64>,
}

impl Counts {
    /// Counts one call that has been carried out.
    pub fn see(&mut self, call: &Call, outcome: &Outcome, session: &Session) {
        self.calls += 1;
        match outcome {
            Outcome::Done => self.done += 1,
            Outcome::Replied(_) => self.replies += 1,
            Outcome::Refused(refusal) => {
                *self.refusals.entry(refusal.number()).or_default() += 1;
                self.places
                    .entry(refusal.number())
                    .or_default()
                    .insert(refusal.place());
            }
        }
        match (call, &session.stage) {
            (Call::Combine(policy), _) => *self.piles.entry(depth(policy)).or_default() += 1,
            (Call::Ask(ask), Stage::Book(book)) => {
                if let Ok(query) = read(&ask.query, &book.columns) {
                    self.well_formed += 1;
                    if let Outcome::Replied(reply) = outcome {
                        self.see_query(&query);
                        self.see_reply(&reply.certain, &reply.possible);
                    }
                }
            }
            _ => {}
        }
    }

    fn see_reply(&mut self, certain: &[Vec<Cell>], possible: &[Vec<Cell>]) {
        let cells = || certain.iter().chain(possible).flatten();
        let has_variable = cells().any(|cell| matches!(cell, Cell::Variable(_)));
        let has_pseudonym = cells().any(|cell| matches!(cell, Cell::Pseudonym(_)));
        let found = [
            ("certain rows", !certain.is_empty()),
            ("possible rows", !possible.is_empty()),
            (
                "certain and possible rows",
                !certain.is_empty() && !possible.is_empty(),
            ),
            ("no row", certain.is_empty() && possible.is_empty()),
            ("variables", has_variable),
            ("pseudonyms", has_pseudonym),
        ];
        for (name, met) in found {
            *self.replies_with.entry(name).or_default() += met as u64;
        }
    }

    fn see_query(&mut self, query: &Relation) {
        let mut records = BTreeSet::new();
        let mut conditions = BTreeSet::new();
        name_records(query, &mut records, &mut conditions);
        for name in records {
            *self.records.entry(name).or_default() += 1;
        }
        for name in conditions {
            *self.conditions.entry(name).or_default() += 1;
        }
    }

    pub fn print(&self) {
        println!(
            "journals {}, of them bad {}",
            self.journals, self.bad_journals
        );
        println!("calls {}", self.calls);
        println!("  done {}", self.done);
        println!("  replies {}", self.replies);
        for number in 1..=24 {
            let count = self.refusals.get(&number).copied().unwrap_or(0);
            let places = self.places.get(&number).map_or(0, BTreeSet::len);
            println!("  refused with {number:2}: {count} at {places} places");
        }
        println!("asks with a well-formed query {}", self.well_formed);
        print_list("replies with", &self.replies_with);
        print_list("answered asks with the record", &self.records);
        print_list(
            "answered asks with the condition or operator",
            &self.conditions,
        );
        print_list("piles by depth", &self.piles);
    }
}

type Names = BTreeSet<&'static str>;

fn name_records(relation: &Relation, records: &mut Names, conditions: &mut Names) {
    let (name, parts): (_, Vec<&Relation>) = match &relation.form {
        Form::Table(_) => ("table", vec![]),
        Form::Select(part, condition) => {
            name_conditions(condition, conditions);
            ("select", vec![part])
        }
        Form::Project(part, _) => ("project", vec![part]),
        Form::Product(left, right) => ("product", vec![left, right]),
        Form::Union(left, right) => ("union", vec![left, right]),
        Form::Difference(left, right) => ("difference", vec![left, right]),
    };
    records.insert(name);
    for part in parts {
        name_records(part, records, conditions);
    }
}

fn name_conditions(condition: &Condition, names: &mut Names) {
    let (name, parts): (_, Vec<&Condition>) = match condition {
        Condition::Compare(operator, _, side) => {
            names.insert(match operator {
                Operator::Equal => "equal",
                Operator::Unequal => "unequal",
                Operator::Less => "less",
                Operator::AtMost => "at most",
                Operator::Covers => "covers",
                Operator::Shorter => "shorter",
            });
            match side {
                Side::Column(_) => ("compare with a column", vec![]),
                Side::Constant(Value::Number(_)) => ("compare with a number", vec![]),
                Side::Constant(Value::Prefix(_)) => ("compare with a prefix", vec![]),
            }
        }
        Condition::And(one, other) => ("and", vec![one, other]),
        Condition::Or(one, other) => ("or", vec![one, other]),
        Condition::Not(one) => ("not", vec![one]),
    };
    names.insert(name);
    for part in parts {
        name_conditions(part, names);
    }
}

fn print_list<K: std::fmt::Display>(title: &str, list: &BTreeMap<K, u64>) {
    println!("{title}:");
    for (name, count) in list {
        println!("  {name} {count}");
    }
}

fn depth(policy: &Policy) -> usize {
    match policy {
        Policy::Filter(_) | Policy::Consents(_) => 0,
        Policy::Both(one, other) | Policy::Either(one, other) => 1 + depth(one).max(depth(other)),
    }
}
