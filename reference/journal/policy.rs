//! Policies: filters, consents, and combinations of them.

use crate::cells::Value;
use crate::refusal::Refusal;

/// From narrow to wide.
#[derive(Clone, Copy, PartialEq, Eq, PartialOrd, Ord, Debug)]
pub enum Mark {
    Hidden,
    Linked,
    Shown,
}

/// What a policy is asked.
pub struct Question<'a> {
    pub broker: u16,
    pub table: u8,
    pub row: &'a [Value],
    pub column: u8,
}

#[derive(Clone, Copy, PartialEq, Eq, Debug)]
pub enum Sign {
    Prohibit,
    Allow,
}

#[derive(Clone, Copy, PartialEq, Eq, Debug)]
pub enum Test {
    Always,
    Holds { column: u8, number: u32 },
}

#[derive(Clone, Copy, PartialEq, Eq, Debug)]
pub struct Rule {
    pub broker: u16,
    pub table: u8,
    pub column: u8,
    pub sign: Sign,
    pub test: Test,
}

impl Rule {
    fn holds(&self, question: &Question) -> bool {
        let test_holds = match self.test {
            Test::Always => true,
            Test::Holds { column, number } => {
                question.row.get(column as usize) == Some(&Value::Number(number))
            }
        };
        self.broker == question.broker
            && self.table == question.table
            && self.column == question.column
            && test_holds
    }
}

#[derive(Clone, Default, Debug)]
pub struct Filter {
    pub rules: Vec<Rule>,
}

impl Filter {
    pub fn add(&mut self, rule: Rule) -> Result<(), Refusal> {
        if rule.table > 3 {
            return Err(Refusal::NoTable);
        }
        let test_column_at_fault = matches!(rule.test, Test::Holds { column, .. } if column > 7);
        if rule.column > 7 || test_column_at_fault {
            return Err(Refusal::NoColumn);
        }
        if self.rules.len() >= 16 {
            return Err(Refusal::TooManyRules);
        }
        self.rules.push(rule);
        Ok(())
    }

    fn mark(&self, question: &Question) -> Mark {
        let some_rule = |sign| {
            self.rules
                .iter()
                .any(|r| r.sign == sign && r.holds(question))
        };
        if some_rule(Sign::Allow) && !some_rule(Sign::Prohibit) {
            Mark::Shown
        } else {
            Mark::Hidden
        }
    }
}

/// A set of columns: column c is in it where bit c is set.
#[derive(Clone, Copy, PartialEq, Eq, Debug)]
pub struct Columns(pub u8);

impl Columns {
    fn holds(self, column: u8) -> bool {
        column < 8 && self.0 >> column & 1 == 1
    }
}

#[derive(Clone, Copy, PartialEq, Eq, Debug)]
pub struct Entry {
    pub key: u32,
    pub shown: Columns,
    pub linked: Columns,
}

#[derive(Clone, Default, Debug)]
pub struct Register {
    pub entries: Vec<Entry>,
}

impl Register {
    pub fn set(&mut self, entry: Entry) -> Result<(), Refusal> {
        match self.entries.iter().position(|known| known.key == entry.key) {
            Some(known) => self.entries[known] = entry,
            None if self.entries.len() < 64 => self.entries.push(entry),
            None => return Err(Refusal::RegisterFull),
        }
        Ok(())
    }

    fn mark(&self, question: &Question) -> Mark {
        if question.table != 3 {
            return Mark::Shown;
        }
        let Some(Value::Number(key)) = question.row.first() else {
            return Mark::Hidden;
        };
        match self.entries.iter().find(|entry| entry.key == *key) {
            None => Mark::Hidden,
            Some(entry) if entry.shown.holds(question.column) => Mark::Shown,
            Some(entry) if entry.linked.holds(question.column) => Mark::Linked,
            Some(_) => Mark::Hidden,
        }
    }
}

/// A policy names the filter policies and registers that it is made of.
#[derive(Clone, PartialEq, Eq, Debug)]
pub enum Policy {
    Filter(u8),
    Consents(u8),
    Both(Box<Policy>, Box<Policy>),
    Either(Box<Policy>, Box<Policy>),
}

/// The four filter policies and the four registers of a journal.
#[derive(Clone, Default, Debug)]
pub struct Policies {
    pub filters: [Filter; 4],
    pub registers: [Register; 4],
}

impl Policies {
    pub fn mark(&self, policy: &Policy, question: &Question) -> Mark {
        match policy {
            Policy::Filter(number) => self.filters[*number as usize].mark(question),
            Policy::Consents(number) => self.registers[*number as usize].mark(question),
            Policy::Both(one, other) => self.mark(one, question).min(self.mark(other, question)),
            Policy::Either(one, other) => self.mark(one, question).max(self.mark(other, question)),
        }
    }
}
