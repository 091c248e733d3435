//! The worked sample of the rules, checked by bytes, and `compatible` by a second way.

use crate::answer::answer;
use crate::ask::Ask;
use crate::book::{Book, TABLES};
use crate::bytes::Bytes;
use crate::calls::Call;
use crate::cells::{Cell, Kind, Prefix, Pseudonym, Row, Value, Variable};
use crate::comparing::{Operator, Truth, compare};
use crate::counts::Counts;
use crate::generate::journal;
use crate::query::{Relation, read};
use crate::random::Random;
use crate::rows::compatible;
use crate::session::{Outcome, Session, Stage, outcomes};
use crate::view::{View, view};

/// The bytes that a text shows in hexadecimal; lines may end with a comment after "#".
fn bytes(text: &str) -> Vec<u8> {
    text.lines()
        .flat_map(|line| line.split('#').next().unwrap_or("").split_whitespace())
        .map(|byte| u8::from_str_radix(byte, 16).expect("a byte in hexadecimal"))
        .collect()
}

const SAMPLE: &str = "
    03 00 31 00 00 02 01
    03 00 31 00 00 01 00
    03 00 31 00 00 01 00
    04 00 32 00 60 00 00 00
    0F 00 33 00 00 02 02 34 37 01 01 00 00 00 01 1C 0C 00 00
    11 00 33 00 00 02 04 34 37 31 31 01 02 00 00 00 01 BE 0A 00 00
    0F 00 33 00 00 02 02 34 38 01 01 00 00 00 01 54 0B 00 00
    06 00 36 00 00 07 00 00 00 01
    06 00 36 00 00 07 00 00 01 01
    06 00 36 00 00 07 00 00 02 01
    0B 00 36 00 00 07 00 00 00 00 01 02 00 00 00";

const CARRIER_AND_PRICE: &str = "
    01 00 01 00 00
    02 00 03 00 01 02";
const CARRIER_AND_PRICE_REPLY: &str = "
    04 00 20 00 03 00 00 00
    0A 00 21 00 01 01 00 00 00 01 1C 0C 00 00
    0A 00 21 00 01 02 00 00 00 01 BE 0A 00 00
    0A 00 21 00 01 01 00 00 00 01 54 0B 00 00";

const COVERS: &str = "
    01 00 01 00 00
    0B 00 02 00
       07 00 12 00 05 00 34 37 31 31 30";
const COVERS_REPLY: &str = "
    04 00 20 00 01 00 01 00
    0E 00 21 00 02 02 34 37 01 01 00 00 00 01 1C 0C 00 00
    0E 00 22 00 03 00 01 00 01 02 00 00 00 01 BE 0A 00 00";

const LONGEST: &str = "
    01 00 01 00 00
    0B 00 02 00 07 00 12 00 05 00 34 37 31 31 30
    01 00 01 00 00
    0B 00 02 00 07 00 12 00 05 00 34 37 31 31 30
    01 00 01 00 00
    0B 00 02 00 07 00 12 00 05 00 34 37 31 31 30
    00 00 04 00
    07 00 02 00 03 00 10 00 06 00 03
    03 00 03 00 00 01 02
    00 00 06 00";
const LONGEST_REPLY: &str = "
    04 00 20 00 00 00 02 00
    0E 00 22 00 02 02 34 37 01 01 00 00 00 01 1C 0C 00 00
    0E 00 22 00 03 00 01 00 01 02 00 00 00 01 BE 0A 00 00";

const WITH_ITSELF: &str = "
    01 00 01 00 00
    07 00 02 00
       03 00 10 00 01 00 00";
const WITH_ITSELF_REPLY: &str = "
    04 00 20 00 03 00 00 00
    0E 00 21 00 02 02 34 37 01 01 00 00 00 01 1C 0C 00 00
    0E 00 21 00 03 00 01 00 01 02 00 00 00 01 BE 0A 00 00
    0E 00 21 00 02 02 34 38 01 01 00 00 00 01 54 0B 00 00";

const OTHER_BROKER: &str = "
    01 00 01 00 00
    01 00 03 00 02";
const OTHER_BROKER_REPLY: &str = "
    04 00 20 00 03 00 00 00
    04 00 21 00 03 00 00 02
    04 00 21 00 03 00 01 02
    04 00 21 00 03 00 02 02";

fn sample() -> Session {
    let mut session = Session::default();
    carry_out(&mut session, &bytes(SAMPLE));
    session
}

/// Carries out the calls and gives the outcomes as bytes.
fn carry_out(session: &mut Session, journal: &[u8]) -> Vec<u8> {
    let mut left = Bytes(journal);
    let mut given = Vec::new();
    while let Some((kind, body)) = left.record() {
        let call = Call::read(kind, body).expect("a call");
        given.extend(
            session
                .carry_out(&call)
                .expect("a call in its place")
                .bytes(),
        );
    }
    given
}

fn ask(broker: u16, query: &[u8], workspace_cells: u32, reply_bytes: u32) -> Vec<u8> {
    let ask = Ask {
        broker,
        query: query.to_vec(),
        workspace_cells,
        reply_bytes,
    };
    sample()
        .carry_out(&Call::Ask(ask))
        .expect("an ask in its place")
        .bytes()
}

fn seven(query: &str) -> Vec<u8> {
    ask(7, &bytes(query), 1920, 4096)
}

#[test]
fn the_sample_is_stored_and_full_at_three_rows() {
    let mut session = sample();
    let Stage::Book(book) = &session.stage else {
        panic!("a book is open")
    };
    assert_eq!(book.row_limit, 3);
    assert_eq!(book.rows[0].len(), 3);
    let fourth = bytes("0F 00 33 00 00 02 02 34 38 01 01 00 00 00 01 54 0B 00 00");
    assert_eq!(carry_out(&mut session, &fourth), bytes("02 00 23 00 0A 00"));
}

#[test]
fn the_view_of_the_sample() {
    let [a, b, c] = [prefix("47"), variable(1), prefix("48")];
    let rows = vec![
        vec![a, number(1), number(3100)],
        vec![b, number(2), number(2750)],
        vec![c, number(1), number(2900)],
    ];
    assert_eq!(sample_view(7)[0], rows);
    let other = sample_view(8);
    assert!(
        other[0]
            .iter()
            .flatten()
            .all(|cell| matches!(cell, Cell::Variable(_)))
    );
    assert_eq!(other[0].iter().flatten().count(), 9);
}

#[test]
fn the_replies_of_the_sample() {
    assert_eq!(seven(CARRIER_AND_PRICE), bytes(CARRIER_AND_PRICE_REPLY));
    assert_eq!(seven(COVERS), bytes(COVERS_REPLY));
    assert_eq!(seven(LONGEST), bytes(LONGEST_REPLY));
    assert_eq!(seven(WITH_ITSELF), bytes(WITH_ITSELF_REPLY));
    assert_eq!(
        ask(8, &bytes(OTHER_BROKER), 1920, 4096),
        bytes(OTHER_BROKER_REPLY)
    );
    let lengths = [
        CARRIER_AND_PRICE,
        COVERS,
        LONGEST,
        WITH_ITSELF,
        OTHER_BROKER,
    ]
    .map(|query| bytes(query).len());
    assert_eq!(lengths, [11, 20, 86, 16, 10]);
}

#[test]
fn the_answers_of_each_record_of_the_longest_prefix() {
    let view = sample_view(7);
    let [a, b, c] = [0, 1, 2].map(|row| view[0][row].clone());
    let pair = |left: &Row, right: &Row| [left.clone(), right.clone()].concat();
    let whole = sample_query(&bytes(LONGEST));
    let mut records = Vec::new();
    list_records(&whole, &mut records);
    records.sort_by_key(|relation| relation.record);
    assert_eq!(records.len(), 10);
    for relation in records {
        let found = answer(relation, &view, 8).expect("few rows");
        let (low, high) = match relation.record {
            0 | 2 | 4 => {
                let rows = vec![a.clone(), b.clone(), c.clone()];
                (rows.clone(), rows)
            }
            1 | 3 | 5 => (vec![a.clone()], vec![a.clone(), b.clone()]),
            6 => {
                let high = vec![pair(&a, &a), pair(&a, &b), pair(&b, &a), pair(&b, &b)];
                (vec![pair(&a, &a)], high)
            }
            7 => (vec![], vec![pair(&a, &b), pair(&b, &a)]),
            _ => (vec![], vec![a.clone(), b.clone()]),
        };
        assert_eq!(
            (found.low, found.high),
            (low, high),
            "record {}",
            relation.record
        );
    }
}

#[test]
fn the_limits_of_the_sample() {
    let longest = bytes(LONGEST);
    let projected = bytes(CARRIER_AND_PRICE);
    let union = bytes("01 00 01 00 00 00 00 05 00");
    let filled = [bytes("01 00 01 00 00"), union.repeat(7)].concat();
    assert_eq!(filled.len(), 68);
    let with = |more: &[u8]| [&filled, more].concat();
    let longest_reply = bytes(LONGEST_REPLY);
    assert_eq!(ask(7, &longest, 1920, 44), longest_reply);
    assert_eq!(ask(7, &longest, 1920, 43), bytes("02 00 23 00 16 0A"));
    assert_eq!(ask(7, &longest, 960, 4096), longest_reply);
    assert_eq!(ask(7, &longest, 959, 4096), bytes("02 00 23 00 15 06"));
    assert_eq!(
        ask(7, &projected, 720, 4096),
        bytes(CARRIER_AND_PRICE_REPLY)
    );
    assert_eq!(ask(7, &projected, 719, 4096), bytes("02 00 23 00 15 00"));
    assert_eq!(ask(7, &[], 1920, 4096), bytes("02 00 23 00 0B 00"));
    assert_eq!(ask(7, &filled, 1920, 4096), bytes(WITH_ITSELF_REPLY));
    let one_more = with(&bytes("01 00 01 00 00"));
    assert_eq!(ask(7, &one_more, 1920, 4096), bytes("02 00 23 00 0C 0F"));
    assert_eq!(ask(7, &with(&[0]), 1920, 4096), bytes("02 00 23 00 0C 0F"));
}

#[test]
fn the_journal_of_the_sample() {
    let ask = "
        1E 00 39 00 07 00 80 07 00 00 00 10 00 00
           01 00 01 00 00 0B 00 02 00 07 00 12 00 05 00 34 37 31 31 30";
    let journal = bytes(&[SAMPLE, ask].concat());
    let (given, bad) = outcomes(&journal);
    assert_eq!(bad, None);
    let given: Vec<u8> = given.iter().flat_map(Outcome::bytes).collect();
    assert_eq!(
        given,
        [bytes("00 00 24 00").repeat(11), bytes(COVERS_REPLY)].concat()
    );
}

#[test]
fn the_example_of_a_select() {
    let query = "
        01 00 01 00 00
        19 00 02 00
           07 00 12 00 05 00 34 37 31 31 30
           06 00 11 00 03 02 B8 0B 00 00
           00 00 13 00";
    let reply = "
        04 00 20 00 00 00 01 00
        0E 00 22 00 03 00 01 00 01 02 00 00 00 01 BE 0A 00 00";
    assert_eq!(seven(query), bytes(reply));
}

#[test]
fn a_missing_column_goes_before_a_comparison_that_does_not_fit() {
    let query = "
        01 00 01 00 00
        14 00 02 00
           06 00 11 00 05 01 00 00 00 00
           02 00 12 00 01 03
           00 00 13 00";
    assert_eq!(seven(query), bytes("02 00 23 00 11 01"));
}

#[test]
fn an_index_of_two_bytes() {
    // Two linked cells a row, and in row 150 the second, number 301, has a value of its own.
    let mut session = Session::default();
    carry_out(
        &mut session,
        &bytes(
            "
        03 00 31 00 03 01 02
        03 00 31 00 03 01 02
        04 00 32 00 00 20 00 00
        07 00 37 00 00 09 00 00 00 00 03
        01 00 38 00 10",
        ),
    );
    for row in 0..151 {
        let last = if row == 150 { 5 } else { 9 };
        let store = format!("0B 00 33 00 03 01 09 00 00 00 01 {last:02X} 00 00 00");
        assert_eq!(
            carry_out(&mut session, &bytes(&store)),
            bytes("00 00 24 00")
        );
    }
    let reply = carry_out(
        &mut session,
        &bytes(
            "
        14 00 39 00 00 00 00 E0 01 00 00 10 00 00
           01 00 01 00 03
           01 00 03 00 01",
        ),
    );
    let expected = bytes(
        "
        04 00 20 00 02 00 00 00
        04 00 21 00 04 02 00 00
        04 00 21 00 04 02 2D 01",
    );
    assert_eq!(reply, expected);
}

#[test]
fn indices_of_pseudonyms() {
    // The linked cells of domain 2 hold 9, 9, 7, 9.
    let mut session = Session::default();
    carry_out(
        &mut session,
        &bytes(
            "
        03 00 31 00 03 01 00
        03 00 31 00 03 01 02
        03 00 31 00 03 01 02
        04 00 32 00 60 00 00 00
        07 00 37 00 00 01 00 00 00 00 06
        01 00 38 00 10
        10 00 33 00 03 01 01 00 00 00 01 09 00 00 00 01 09 00 00 00
        10 00 33 00 03 01 01 00 00 00 01 07 00 00 00 01 09 00 00 00",
        ),
    );
    let Stage::Book(book) = &session.stage else {
        panic!("a book is open")
    };
    let drawn = view(book, &session.policies, &session.policy, 0);
    let cells: Vec<Cell> = drawn[3].iter().flat_map(|row| row[1..].to_vec()).collect();
    assert_eq!(cells, [0, 0, 2, 0].map(|index| pseudonym(2, index)));
    // Linked or hidden in domain 0 is a variable.
    assert_eq!(
        drawn[3][1][0],
        Cell::Variable(Variable {
            table: 3,
            row: 1,
            column: 0
        })
    );
}

#[test]
fn rows_that_are_not_compatible_by_columns_alone() {
    let v = variable(1);
    assert!(!compatible(&[v, v], &[number(1), number(2)]));
    assert!(compatible(&[v, v], &[number(1), number(1)]));
    let (p, q) = (pseudonym(1, 0), pseudonym(1, 3));
    assert!(!compatible(&[p, q], &[prefix("47"), prefix("47")]));
    assert!(compatible(&[p, q], &[prefix("47"), prefix("48")]));
    assert!(compatible(&[p], &[pseudonym(2, 3)]));
    assert!(!compatible(&[p], &[q]));
    // A chain of groups: v with 1, v with w, w with 2.
    let w = variable(2);
    assert!(!compatible(&[v, v, w], &[number(1), w, number(2)]));
    assert!(compatible(&[v, v, w], &[number(1), w, number(1)]));
}

/// Every valuation over seven values is tried. Two rows have few enough cells that a lawful
/// valuation uses no more: at most six symbols, and the values of the rows are among the seven.
#[test]
fn compatible_as_trying_valuations_says() {
    let mut random = Random::new(5, 0);
    let mut yes = 0;
    for _ in 0..60_000 {
        let width = random.from_to(1, 3);
        let left: Row = (0..width).map(|_| some_cell(&mut random)).collect();
        let right: Row = (0..width).map(|_| some_cell(&mut random)).collect();
        let tried = some_valuation_makes_same(&left, &right);
        assert_eq!(compatible(&left, &right), tried, "{left:?} {right:?}");
        assert_eq!(compatible(&right, &left), tried, "{right:?} {left:?}");
        yes += tried as u32;
    }
    assert!(
        (15_000..50_000).contains(&yes),
        "{yes} of 60,000 are compatible"
    );
}

fn some_cell(random: &mut Random) -> Cell {
    match random.below(7) {
        0 | 1 => number(random.below(2) as u32),
        2 | 3 => variable(random.below(3) as u8),
        4..6 => pseudonym(1, random.below(3) as u16),
        _ => pseudonym(3, random.below(2) as u16),
    }
}

fn some_valuation_makes_same(left: &[Cell], right: &[Cell]) -> bool {
    let mut symbols: Vec<Cell> = Vec::new();
    for cell in left.iter().chain(right) {
        if !matches!(cell, Cell::Value(_)) && !symbols.contains(cell) {
            symbols.push(*cell);
        }
    }
    try_values(&mut vec![], &symbols, left, right)
}

fn try_values(given: &mut Vec<u32>, symbols: &[Cell], left: &[Cell], right: &[Cell]) -> bool {
    if given.len() == symbols.len() {
        let value = |cell: &Cell| match cell {
            Cell::Value(Value::Number(number)) => *number,
            symbol => given[symbols.iter().position(|s| s == symbol).expect("a symbol")],
        };
        return left.iter().zip(right).all(|(l, r)| value(l) == value(r));
    }
    let next = symbols[given.len()];
    for value in 0..7 {
        let taken = (0..given.len()).any(|at| {
            let same_domain = match (symbols[at], next) {
                (Cell::Pseudonym(one), Cell::Pseudonym(other)) => one.domain == other.domain,
                _ => false,
            };
            same_domain && given[at] == value
        });
        if !taken {
            given.push(value);
            let found = try_values(given, symbols, left, right);
            given.pop();
            if found {
                return true;
            }
        }
    }
    false
}

#[test]
fn comparing_two_values() {
    use Operator::*;
    let holds = |operator, left: Cell, right: Cell| compare(operator, &left, &right);
    let numbers = |operator| {
        [(1, 2), (2, 2), (3, 2)].map(|(l, r)| holds(operator, number(l), number(r)) == Truth::True)
    };
    assert_eq!(numbers(Equal), [false, true, false]);
    assert_eq!(numbers(Unequal), [true, false, true]);
    assert_eq!(numbers(Less), [true, false, false]);
    assert_eq!(numbers(AtMost), [true, true, false]);
    let prefixes = |operator, left: &str, right: &str| holds(operator, prefix(left), prefix(right));
    assert_eq!(prefixes(Covers, "", "4711"), Truth::True);
    assert_eq!(prefixes(Covers, "4711", "47"), Truth::False);
    assert_eq!(prefixes(Covers, "4711", "4711"), Truth::True);
    assert_eq!(prefixes(Covers, "47", "47110"), Truth::True);
    assert_eq!(prefixes(Covers, "48", "47110"), Truth::False);
    assert_eq!(prefixes(Shorter, "99", "100"), Truth::True);
    assert_eq!(prefixes(Shorter, "11", "22"), Truth::False);
    assert_eq!(prefixes(Shorter, "111", "22"), Truth::False);
    assert_eq!(prefixes(Equal, "047", "47"), Truth::False);
}

#[test]
fn comparing_symbols() {
    use Operator::*;
    let all = [Equal, Unequal, Less, AtMost, Covers, Shorter];
    let truths = |left: Cell, right: Cell| all.map(|operator| compare(operator, &left, &right));
    let (t, u, f) = (Truth::True, Truth::Unknown, Truth::False);
    let (v, w) = (variable(0), variable(1));
    let (p, q) = (pseudonym(1, 0), pseudonym(1, 1));
    assert_eq!(truths(v, v), [t, f, f, t, t, f]);
    assert_eq!(truths(p, p), [t, f, f, t, t, f]);
    assert_eq!(truths(p, q), [f, t, u, u, u, u]);
    for (left, right) in [(v, w), (v, p), (p, v), (p, pseudonym(2, 1)), (p, number(1))] {
        assert_eq!(truths(left, right), [u; 6]);
    }
}

#[test]
fn and_or_not() {
    let (t, u, f) = (Truth::True, Truth::Unknown, Truth::False);
    for (p, not, and, or) in [
        (t, f, [t, u, f], [t, t, t]),
        (u, u, [u, u, f], [t, u, u]),
        (f, t, [f, f, f], [t, u, f]),
    ] {
        assert_eq!(p.negated(), not);
        assert_eq!([t, u, f].map(|q| p.and(q)), and);
        assert_eq!([t, u, f].map(|q| p.or(q)), or);
    }
}

#[test]
fn bad_journals() {
    use crate::calls::Bad;
    let ends = |text: &str| {
        let (given, bad) = outcomes(&bytes(text));
        (given.len(), bad)
    };
    assert_eq!(ends(""), (0, None));
    assert_eq!(ends("00 00 30 00 00 00 30"), (1, Some(Bad::CutOff)));
    assert_eq!(
        ends("00 00 30 00 03 00 31 00 00 01"),
        (1, Some(Bad::CutOff))
    );
    assert_eq!(ends("00 00 3A 00"), (0, Some(Bad::UnknownKind)));
    assert_eq!(ends("00 00 30 01"), (0, Some(Bad::UnknownKind)));
    assert_eq!(ends("01 00 30 00 00"), (0, Some(Bad::WrongForm)));
    assert_eq!(ends("01 00 38 00 20"), (0, Some(Bad::WrongForm)));
    assert_eq!(ends("03 00 38 00 00 10 21"), (1, None));
    assert_eq!(ends("01 00 33 00 00"), (0, Some(Bad::OutOfPlace)));
    let open = "04 00 32 00 60 00 00 00";
    assert_eq!(ends(&format!("{open} {open}")), (1, Some(Bad::OutOfPlace)));
    assert_eq!(ends(&format!("{open} 01 00 33 00 00")), (2, None));
    assert_eq!(
        ends(&format!("{open} 03 00 31 00 00 01 00")),
        (1, Some(Bad::OutOfPlace))
    );
}

/// What is certain is true and nothing possible is missing, for the asks of random journals and
/// a few random lawful valuations of each view.
#[test]
fn answers_stand_under_valuations() {
    let mut random = Random::new(12, 2);
    let mut tried = 0;
    let mut telling = 0;
    for number in 0..1500 {
        let made = journal(77, number, &mut Counts::default());
        let mut session = Session::default();
        for record in &made.records {
            let Some((kind, body)) = Bytes(record).record() else {
                break;
            };
            let Ok(call) = Call::read(kind, body) else {
                break;
            };
            let Ok(outcome) = session.carry_out(&call) else {
                break;
            };
            if let (Call::Ask(ask), Outcome::Replied(reply)) = (&call, &outcome) {
                let Stage::Book(book) = &session.stage else {
                    panic!("a book is open")
                };
                let seen = view(book, &session.policies, &session.policy, ask.broker);
                let query = read(&ask.query, &book.columns).expect("a well-formed query");
                if seen.iter().flatten().count() > 60 {
                    continue;
                }
                for _ in 0..3 {
                    let valuation = some_lawful_valuation(&mut random, &seen, book);
                    let rows = |rows: &[Row]| -> Vec<Row> {
                        rows.iter().map(|row| under(&valuation, row)).collect()
                    };
                    let unmasked = seen.clone().map(|table| rows(&table));
                    let Ok(truth) = answer(&query, &unmasked, 20_000) else {
                        continue;
                    };
                    assert_eq!(truth.low, truth.high);
                    let certain = rows(&reply.certain);
                    let possible = rows(&reply.possible);
                    assert!(certain.iter().all(|row| truth.low.contains(row)));
                    assert!(
                        truth
                            .low
                            .iter()
                            .all(|row| certain.contains(row) || possible.contains(row))
                    );
                    tried += 1;
                    telling += (certain.len() < truth.low.len()) as u32;
                }
            }
        }
    }
    assert!(tried > 5000, "{tried} answers were tried");
    assert!(telling > 1000, "in {telling} something possible was true");
}

type Valuation = Vec<(Cell, Value)>;

/// Values drawn from few, so that many symbols get the same one where they may.
fn some_lawful_valuation(random: &mut Random, view: &View, book: &Book) -> Valuation {
    let mut valuation = Valuation::new();
    for table in 0..TABLES {
        for row in &view[table] {
            for (column, cell) in row.iter().enumerate() {
                let known = valuation.iter().any(|(symbol, _)| symbol == cell);
                if known || matches!(cell, Cell::Value(_)) {
                    continue;
                }
                let kind = book.columns[table][column].kind;
                loop {
                    let value = some_value(random, book, kind);
                    let lawful = valuation
                        .iter()
                        .all(|(symbol, other)| match (symbol, cell) {
                            (Cell::Pseudonym(one), Cell::Pseudonym(two)) => {
                                one.domain != two.domain || *other != value
                            }
                            _ => true,
                        });
                    if lawful {
                        valuation.push((*cell, value));
                        break;
                    }
                }
            }
        }
    }
    valuation
}

/// A value of the book where one of the kind is met, or a random one.
fn some_value(random: &mut Random, book: &Book, kind: Kind) -> Value {
    let rows: Vec<&Vec<Value>> = book.rows.iter().flatten().collect();
    if random.percent(60) {
        let row = rows[random.below(rows.len())];
        let value = row[random.below(row.len())];
        if value.kind() == kind {
            return value;
        }
    }
    match kind {
        Kind::Number => Value::Number(random.below(200) as u32),
        Kind::Prefix => {
            let digits = format!("{}", random.below(500));
            Value::Prefix(Prefix::make(digits.as_bytes()).expect("digits"))
        }
    }
}

fn under(valuation: &Valuation, row: &Row) -> Row {
    let value = |cell: &Cell| match valuation.iter().find(|(symbol, _)| symbol == cell) {
        Some((_, value)) => Cell::Value(*value),
        None => *cell,
    };
    row.iter().map(value).collect()
}

fn number(number: u32) -> Cell {
    Cell::Value(Value::Number(number))
}

fn prefix(digits: &str) -> Cell {
    Cell::Value(Value::Prefix(
        Prefix::make(digits.as_bytes()).expect("digits"),
    ))
}

fn variable(row: u8) -> Cell {
    Cell::Variable(Variable {
        table: 0,
        row,
        column: 0,
    })
}

fn pseudonym(domain: u8, index: u16) -> Cell {
    Cell::Pseudonym(Pseudonym { domain, index })
}

fn sample_view(broker: u16) -> View {
    let session = sample();
    let Stage::Book(book) = &session.stage else {
        panic!("a book is open")
    };
    view(book, &session.policies, &session.policy, broker)
}

fn sample_query(query: &[u8]) -> Relation {
    let session = sample();
    let Stage::Book(book) = &session.stage else {
        panic!("a book is open")
    };
    read(query, &book.columns).expect("a well-formed query")
}

fn list_records<'a>(relation: &'a Relation, list: &mut Vec<&'a Relation>) {
    use crate::query::Form::*;
    list.push(relation);
    match &relation.form {
        Table(_) => {}
        Select(part, _) | Project(part, _) => list_records(part, list),
        Product(left, right) | Union(left, right) | Difference(left, right) => {
            list_records(left, list);
            list_records(right, list);
        }
    }
}
