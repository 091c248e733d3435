//! `faults SOURCES FOLDER COUNT SEED [WORDS]`: plants one fault after another in a copy of the
//! evaluator, of those whose name has the words, and says how many journals it takes to find each.

use std::fs;
use std::io;
use std::path::Path;
use std::process::{Command, ExitCode};

use journal::batch::search;
use journal::counts::Counts;

struct Fault {
    name: &'static str,
    file: &'static str,
    right: &'static str,
    wrong: &'static str,
}

const fn fault(
    name: &'static str,
    file: &'static str,
    right: &'static str,
    wrong: &'static str,
) -> Fault {
    Fault {
        name,
        file,
        right,
        wrong,
    }
}

const FAULTS: &[Fault] = &[
    fault(
        "a low difference drops identical rows only",
        "answer.rs",
        "compatible(row, other)",
        "row == other",
    ),
    fault(
        "compatible is decided column by column",
        "rows.rs",
        "if groups[one] == groups[other] && some",
        "if one == other && some",
    ),
    fault(
        "groups are not joined along chains",
        "rows.rs",
        "if *group == dropped {",
        "if *group == dropped && dropped == other {",
    ),
    fault(
        "compatible rows may give two pseudonyms one value",
        "rows.rs",
        "a.domain == b.domain && a.index != b.index",
        "false && a == b",
    ),
    fault(
        "pseudonyms of different domains clash",
        "rows.rs",
        "a.domain == b.domain && a.index != b.index",
        "a != b",
    ),
    fault(
        "a symbol clashes with every value",
        "rows.rs",
        "        _ => false,",
        "        _ => one != other,",
    ),
    fault(
        "a low difference asks the right low rows",
        "answer.rs",
        "!right.high.iter().any",
        "!right.low.iter().any",
    ),
    fault(
        "a high difference asks the right high rows",
        "answer.rs",
        "!right.low.contains(row)",
        "!right.high.contains(row)",
    ),
    fault(
        "a high difference drops compatible rows",
        "answer.rs",
        "!right.low.contains(row)",
        "!right.low.iter().any(|other| compatible(row, other))",
    ),
    fault(
        "C rows are one too many",
        "answer.rs",
        "kept.len() == most",
        "kept.len() + 1 >= most",
    ),
    fault(
        "one row more than C is let through",
        "answer.rs",
        "kept.len() == most",
        "kept.len() > most",
    ),
    fault(
        "repeats are kept",
        "answer.rs",
        "if !kept.contains(&row) {",
        "if true {",
    ),
    fault(
        "the last of identical rows is kept",
        "answer.rs",
        "        if !kept.contains(&row) {",
        "        if kept.contains(&row) { kept.retain(|r| r != &row); kept.push(row); } else {",
    ),
    fault(
        "a low select keeps what is unknown",
        "answer.rs",
        "truth(condition, row) == Truth::True",
        "truth(condition, row) != Truth::False",
    ),
    fault(
        "a high select drops what is unknown",
        "answer.rs",
        "truth(condition, row) != Truth::False",
        "truth(condition, row) == Truth::True",
    ),
    fault(
        "a union has the right high rows first",
        "answer.rs",
        "left.high.into_iter().chain(right.high)",
        "right.high.into_iter().chain(left.high)",
    ),
    fault(
        "a project lists its columns in rising order",
        "query.rs",
        "let kind = |column: &usize| part",
        "let mut listed = listed; listed.sort(); let kind = |column: &usize| part",
    ),
    fault(
        "a low product takes right high rows",
        "answer.rs",
        "product(&left.low, &right.low)",
        "product(&left.low, &right.high)",
    ),
    fault(
        "in a product the right row is outermost",
        "answer.rs",
        "left.iter()\n        .flat_map(|l| right.iter().map(|r| l",
        "right.iter()\n        .flat_map(|r| left.iter().map(move |l| l",
    ),
    fault(
        "certain rows are possible again",
        "ask.rs",
        "filter(|row| !certain.contains(row))",
        "filter(|_| true)",
    ),
    fault(
        "a reply one byte too long is let through",
        "ask.rs",
        "bytes.len() > self.reply_bytes as usize",
        "bytes.len() > self.reply_bytes as usize + 1",
    ),
    fault(
        "a reply of just the buffer's length is refused",
        "ask.rs",
        "bytes.len() > self.reply_bytes as usize",
        "bytes.len() >= self.reply_bytes as usize",
    ),
    fault(
        "C is one row for 239 cells",
        "ask.rs",
        "as usize / 240",
        "as usize / 239",
    ),
    fault("C is at most 511", "ask.rs", ".min(512)", ".min(511)"),
    fault("C is at most 513", "ask.rs", ".min(512)", ".min(513)"),
    fault(
        "the index of a pseudonym has one byte",
        "ask.rs",
        "pseudonym.index.to_le_bytes()",
        "[pseudonym.index as u8, 0]",
    ),
    fault(
        "the index of a pseudonym is a rank",
        "view.rs",
        "let here = self.count;",
        "let here = self.firsts.len() as u16;",
    ),
    fault(
        "linked in domain 0 is a pseudonym",
        "view.rs",
        "Mark::Linked if domain != 0",
        "Mark::Linked if domain < 16",
    ),
    fault(
        "linked in domain 15 is a variable",
        "view.rs",
        "Mark::Linked if domain != 0",
        "Mark::Linked if domain != 0 && domain != 15",
    ),
    fault(
        "linked cells are counted over all domains",
        "view.rs",
        "domains[domain as usize].index",
        "domains[0].index",
    ),
    fault(
        "Both and Either are swapped",
        "calls.rs",
        "0x20 => Policy::Both(before, last)",
        "0x21 => Policy::Both(before, last)",
    ),
    fault(
        "Both forgets linked",
        "policy.rs",
        "self.mark(one, question).min(self.mark(other, question))",
        "if self.mark(one, question) == Mark::Shown { self.mark(other, question) } else { Mark::Hidden }",
    ),
    fault(
        "Either of linked and hidden is hidden",
        "policy.rs",
        "self.mark(one, question).max(self.mark(other, question))",
        "if self.mark(one, question) < self.mark(other, question) && self.mark(other, question) == Mark::Linked { Mark::Hidden } else { self.mark(one, question).max(self.mark(other, question)) }",
    ),
    fault(
        "prohibiting rules are ignored",
        "policy.rs",
        "&& !some_rule(Sign::Prohibit)",
        "",
    ),
    fault(
        "tests of rules are ignored",
        "policy.rs",
        "&& test_holds",
        "&& (test_holds || true)",
    ),
    fault(
        "a broker is known by its low byte",
        "policy.rs",
        "self.broker == question.broker",
        "self.broker as u8 == question.broker as u8",
    ),
    fault(
        "linked goes before shown",
        "policy.rs",
        "Some(entry) if entry.shown.holds(question.column) => Mark::Shown",
        "Some(entry) if entry.shown.holds(question.column) && !entry.linked.holds(question.column) => Mark::Shown",
    ),
    fault(
        "consents hide table 2",
        "policy.rs",
        "if question.table != 3 {",
        "if question.table < 2 {",
    ),
    fault(
        "an entry once set stays",
        "policy.rs",
        "Some(known) => self.entries[known] = entry,",
        "Some(_) => {}",
    ),
    fault(
        "a 65th entry is let in",
        "policy.rs",
        "self.entries.len() < 64",
        "self.entries.len() < 65",
    ),
    fault(
        "a full register lets no known key in",
        "policy.rs",
        "Some(known) => self.entries[known] = entry,",
        "Some(_) if self.entries.len() >= 64 => return Err(Refusal::RegisterFull), Some(known) => self.entries[known] = entry,",
    ),
    fault(
        "a 17th rule is let in",
        "policy.rs",
        "self.rules.len() >= 16",
        "self.rules.len() >= 17",
    ),
    fault(
        "a full filter is told before a wrong column",
        "policy.rs",
        "if rule.column > 7 || test_column_at_fault",
        "if self.rules.len() < 16 && (rule.column > 7 || test_column_at_fault)",
    ),
    fault(
        "a test may name column 8",
        "policy.rs",
        "column > 7)",
        "column > 8)",
    ),
    fault(
        "begin keeps the rules",
        "session.rs",
        "*self = Session::default();",
        "let policies = std::mem::take(&mut self.policies); *self = Session::default(); self.policies = policies;",
    ),
    fault(
        "begin keeps the combination",
        "session.rs",
        "*self = Session::default();",
        "let policy = self.policy.clone(); *self = Session::default(); self.policy = policy;",
    ),
    fault(
        "the row limit is at most 255",
        "book.rs",
        ".min(256)",
        ".min(255)",
    ),
    fault(
        "the row limit is rounded up",
        "book.rs",
        "(memory_cells as usize / 32)",
        "(memory_cells as usize).div_ceil(32)",
    ),
    fault(
        "a full table is told before a wrong kind",
        "book.rs",
        "let fault = cells",
        "if self.rows[table].len() >= self.row_limit { return Err(Refusal::TableFull); } let fault = cells",
    ),
    fault(
        "the last row takes the place of a struck one",
        "book.rs",
        ".remove(row as usize)",
        ".swap_remove(row as usize)",
    ),
    fault(
        "a wrong column is told before a missing row",
        "book.rs",
        "let row = self.rows[table]\n",
        "if column as usize >= self.columns[table].len() { return Err(Refusal::NoColumn); }\n        let row = self.rows[table]\n",
    ),
    fault(
        "domains are held to one kind within a table only",
        "book.rs",
        "self.columns.iter().flatten().any(other_kind)",
        "self.columns[table].iter().any(other_kind)",
    ),
    fault(
        "a missing table is told before a wrong prefix",
        "session.rs",
        "let cells: Vec<Value> = cells",
        "if table > 3 { return Err(Refusal::NoTable); } let cells: Vec<Value> = cells",
    ),
    fault(
        "a colon is a digit",
        "cells.rs",
        "bytes.iter().all(u8::is_ascii_digit)",
        "bytes.iter().all(|byte| (b'0'..=b':').contains(byte))",
    ),
    fault(
        "1,024 bytes are too long",
        "query.rs",
        "query.len() > 1024",
        "query.len() >= 1024",
    ),
    fault(
        "1,025 bytes are let in",
        "query.rs",
        "query.len() > 1024",
        "query.len() > 1025",
    ),
    fault(
        "a sixteenth record is let in",
        "query.rs",
        "if record == 15 {",
        "if record == 16 {",
    ),
    fault(
        "a fifteenth record is refused",
        "query.rs",
        "if record == 15 {",
        "if record == 14 {",
    ),
    fault(
        "a kind is read from its low byte",
        "query.rs",
        "if !(1..=6).contains(&kind) {",
        "let kind = kind & 0xFF; if !(1..=6).contains(&kind) {",
    ),
    fault(
        "a product of eight columns is refused",
        "query.rs",
        "kinds.len() > 8",
        "kinds.len() >= 8",
    ),
    fault(
        "a sixteenth condition is let in",
        "query.rs",
        "count <= 15",
        "count <= 16",
    ),
    fault(
        "a fifteenth condition is refused",
        "query.rs",
        "count <= 15",
        "count < 15",
    ),
    fault(
        "names and fit of a select are asked in the other order",
        "query.rs",
        "if !names_exist(&condition, part.kinds.len()) {",
        "if !names_exist(&condition, part.kinds.len()) && format!(\"{condition:?}\").contains(\"Constant(Prefix\") && part.kinds.iter().all(|kind| *kind == Kind::Number) { return Err(Refusal::Unfit(record)); } if !names_exist(&condition, part.kinds.len()) {",
    ),
    fault(
        "the stack is asked before the form",
        "query.rs",
        "let body = read_body",
        "if kind > 1 && stack.is_empty() { return Err(Refusal::StackShort(record)); } let body = read_body",
    ),
    fault(
        "a difference fits where the widths do",
        "query.rs",
        "if left.kinds != right.kinds {",
        "if left.kinds.len() != right.kinds.len() || (left.kinds != right.kinds && matches!(body, Body::Union)) {",
    ),
    fault(
        "shorter is asked of equally long prefixes too",
        "comparing.rs",
        "left.digits().len() < right.digits().len()",
        "left.digits().len() <= right.digits().len()",
    ),
    fault(
        "covers is turned round",
        "comparing.rs",
        "right.digits().starts_with(left.digits())",
        "left.digits().starts_with(right.digits())",
    ),
    fault(
        "a symbol is not known to cover itself",
        "comparing.rs",
        "_ if left == right => compare_with_itself(operator).into(),",
        "_ if left == right && operator != Operator::Covers => compare_with_itself(operator).into(),",
    ),
    fault(
        "different pseudonyms are not known to differ",
        "comparing.rs",
        "Operator::Unequal => Truth::True,",
        "Operator::Unequal => Truth::Unknown,",
    ),
    fault(
        "different variables are known to differ",
        "comparing.rs",
        "        _ => Truth::Unknown,\n    }\n}\n\nfn compare_values",
        "        (Cell::Variable(_), Cell::Variable(_)) if operator == Operator::Unequal => Truth::True,\n        _ => Truth::Unknown,\n    }\n}\n\nfn compare_values",
    ),
    fault(
        "not of unknown is true",
        "comparing.rs",
        "Truth::Unknown => Truth::Unknown,",
        "Truth::Unknown => Truth::True,",
    ),
    fault(
        "unknown and false is unknown",
        "comparing.rs",
        "(Truth::False, _) | (_, Truth::False) => Truth::False",
        "(Truth::False, Truth::False | Truth::True) | (Truth::True, Truth::False) => Truth::False",
    ),
    fault(
        "a sign above 1 allows",
        "calls.rs",
        "            1 => Sign::Allow,\n            _ => return None,",
        "            _ => Sign::Allow,",
    ),
    fault(
        "a combination may leave two policies",
        "calls.rs",
        "policies.is_empty().then_some(whole)",
        "Some(whole)",
    ),
    fault(
        "a second open is let through",
        "session.rs",
        "(Call::Open { memory_cells }, Stage::Draft(draft)) => {",
        "(Call::Open { .. }, Stage::Book(_)) => Outcome::Done,\n            (Call::Open { memory_cells }, Stage::Draft(draft)) => {",
    ),
    fault(
        "a low union takes right high rows",
        "answer.rs",
        "left.low.into_iter().chain(right.low)",
        "left.low.into_iter().chain(right.high.clone())",
    ),
    fault(
        "repeats count towards C",
        "answer.rs",
        "    let mut kept: Vec<Row> = Vec::new();\n    for row in rows {",
        "    let mut kept: Vec<Row> = Vec::new();\n    let rows: Vec<Row> = rows.collect();\n    if rows.len() > most {\n        return None;\n    }\n    for row in rows {",
    ),
    fault(
        "the place of 21 is the last record",
        "answer.rs",
        "(Some(low), Some(high)) => Ok(Answer { low, high }),\n        _ => Err(Refusal::TooManyRows(relation.record)),",
        "(Some(low), Some(high)) => Ok(Answer { low, high }),\n        _ => Err(Refusal::TooManyRows(relation.record.max(1))),",
    ),
    fault(
        "the place of 22 is the last record",
        "ask.rs",
        "query.record + 1",
        "query.record",
    ),
    fault(
        "the place of 20 is the last record",
        "query.rs",
        "Refusal::NotOneRelation(record)",
        "Refusal::NotOneRelation(record - 1)",
    ),
    fault(
        "keys are known by their low two bytes",
        "policy.rs",
        "find(|entry| entry.key == *key)",
        "find(|entry| entry.key as u16 == *key as u16)",
    ),
    fault(
        "numbers are compared with a sign",
        "comparing.rs",
        "=> left < right,",
        "=> (*left as i32) < (*right as i32),",
    ),
    fault(
        "prefixes are equal where their numbers are",
        "comparing.rs",
        "(Operator::Equal, _, _) => left == right,",
        "(Operator::Equal, Value::Prefix(left), Value::Prefix(right)) => { let number = |digits: &[u8]| digits.iter().fold(0, |n: u64, digit| n * 10 + (*digit - b'0') as u64); number(left.digits()) == number(right.digits()) } (Operator::Equal, _, _) => left == right,",
    ),
    fault(
        "the row limit is for all tables together",
        "book.rs",
        "self.rows[table].len() >= self.row_limit",
        "self.rows.iter().map(Vec::len).sum::<usize>() >= self.row_limit",
    ),
    fault(
        "domain 16 is let in",
        "book.rs",
        "if domain > 15 ||",
        "if domain > 16 ||",
    ),
    fault(
        "a ninth column is let in",
        "book.rs",
        "self.columns[table].len() >= 8",
        "self.columns[table].len() >= 9",
    ),
    fault(
        "an unknown kind is told before a ninth column",
        "book.rs",
        "if self.columns[table].len() >= 8",
        "if (1..=2).contains(&kind) && self.columns[table].len() >= 8",
    ),
    fault(
        "a wrong domain is told before an unknown kind",
        "book.rs",
        "let kind = match kind {",
        "if domain > 15 {\n            return Err(Refusal::WrongDomain);\n        }\n        let kind = match kind {",
    ),
    fault(
        "a missing table is told before a wrong prefix in an amend",
        "session.rs",
        "book.amend(table, row, column, cell.make()?)",
        "if table > 3 {\n        return Err(Refusal::NoTable);\n    }\n    book.amend(table, row, column, cell.make()?)",
    ),
    fault(
        "a row number is read from its low byte",
        "session.rs",
        "book.strike(*table, *row)",
        "book.strike(*table, *row as u8 as u16)",
    ),
    fault(
        "a store refused as full still stores",
        "book.rs",
        "            return Err(Refusal::TableFull);",
        "            self.rows[table].push(cells.to_vec());\n            return Err(Refusal::TableFull);",
    ),
    fault(
        "a strike before open is refused",
        "session.rs",
        "(Call::Strike { table, row }, Stage::Book(book)) =>",
        "(Call::Strike { .. }, Stage::Draft(_)) => Outcome::Refused(Refusal::NoRow),\n            (Call::Strike { table, row }, Stage::Book(book)) =>",
    ),
    fault(
        "an ask before open is refused",
        "session.rs",
        "(Call::Ask(ask), Stage::Book(_)) =>",
        "(Call::Ask(_), Stage::Draft(_)) => Outcome::Refused(Refusal::QueryLength),\n            (Call::Ask(ask), Stage::Book(_)) =>",
    ),
    fault(
        "bytes after a strike are passed over",
        "calls.rs",
        "bytes.end(call).ok_or(Bad::WrongForm)",
        "if kind == 0x34 { return Ok(call); }\n        bytes.end(call).ok_or(Bad::WrongForm)",
    ),
    fault(
        "a store of 17 cells is let in",
        "calls.rs",
        "cells.len() > 16",
        "cells.len() > 17",
    ),
    fault(
        "sixteen steps are let in",
        "calls.rs",
        "steps.len() > 15",
        "steps.len() > 17",
    ),
    fault(
        "a fifteenth step is not let in",
        "calls.rs",
        "steps.len() > 15",
        "steps.len() > 14",
    ),
    fault(
        "a part of a record at the end is passed over",
        "evaluate.rs",
        "        0 => return Ok(None),",
        "        0..4 => return Ok(None),",
    ),
];

fn main() -> ExitCode {
    let arguments: Vec<String> = std::env::args().collect();
    let [_, sources, folder, count, seed, words @ ..] = &arguments[..] else {
        eprintln!("faults SOURCES FOLDER COUNT SEED [WORDS]");
        return ExitCode::from(2);
    };
    let (Ok(count), Ok(seed)) = (count.parse(), seed.parse()) else {
        eprintln!("COUNT and SEED are numbers");
        return ExitCode::from(2);
    };
    let named = |fault: &&Fault| words.iter().all(|words| fault.name.contains(words));
    let faults: Vec<&Fault> = FAULTS.iter().filter(named).collect();
    let mut missed = 0;
    for fault in &faults {
        let found = plant(fault, Path::new(sources), Path::new(folder)).and_then(|()| {
            search(
                &Path::new(folder).join("evaluate"),
                count,
                seed,
                &mut Counts::default(),
            )
        });
        match found {
            Ok(Some(found)) => println!("{:6}  {}", found.journals, fault.name),
            Ok(None) => {
                println!("missed  {}", fault.name);
                missed += 1;
            }
            Err(error) => {
                println!("error   {}: {error}", fault.name);
                missed += 1;
            }
        }
    }
    println!("{} faults, {missed} of them missed", faults.len());
    if missed == 0 {
        ExitCode::SUCCESS
    } else {
        ExitCode::FAILURE
    }
}

/// Copies the sources into the folder, changes the one place, and builds the evaluator.
fn plant(fault: &Fault, sources: &Path, folder: &Path) -> io::Result<()> {
    copy_folder(sources, folder)?;
    let file = folder.join(fault.file);
    let text = fs::read_to_string(&file)?;
    if text.matches(fault.right).count() != 1 {
        return Err(io::Error::other("the place is not there just once"));
    }
    fs::write(&file, text.replace(fault.right, fault.wrong))?;
    let library = folder.join("libjournal.rlib");
    let of_library = ["--crate-type", "rlib", "--crate-name", "journal"];
    compile(
        &folder.join("lib.rs"),
        &library,
        of_library.map(String::from).to_vec(),
    )?;
    let of_program = [
        "--extern".to_string(),
        format!("journal={}", library.display()),
    ];
    compile(
        &folder.join("evaluate.rs"),
        &folder.join("evaluate"),
        of_program.to_vec(),
    )
}

fn copy_folder(from: &Path, to: &Path) -> io::Result<()> {
    fs::create_dir_all(to)?;
    for entry in fs::read_dir(from)? {
        let entry = entry?;
        let copy = to.join(entry.file_name());
        if entry.file_type()?.is_dir() {
            copy_folder(&entry.path(), &copy)?;
        } else {
            fs::copy(entry.path(), copy)?;
        }
    }
    Ok(())
}

fn compile(from: &Path, to: &Path, more: Vec<String>) -> io::Result<()> {
    let status = Command::new("rustc")
        .args([
            "--edition",
            "2024",
            "-C",
            "opt-level=1",
            "-A",
            "warnings",
            "-o",
        ])
        .arg(to)
        .args(more)
        .arg(from)
        .status()?;
    if status.success() {
        Ok(())
    } else {
        Err(io::Error::other("it does not compile"))
    }
}
