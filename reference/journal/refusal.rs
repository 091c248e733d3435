//! Refusals: a number and a place.

#[derive(Clone, Copy, PartialEq, Eq, Debug)]
pub enum Refusal {
    NoTable,
    TooManyColumns,
    UnknownKind,
    WrongDomain,
    NotPrefix,
    NoRow,
    NoColumn,
    WrongWidth,
    WrongKind(u8),
    TableFull,
    QueryLength,
    TooManyRecords(u8),
    BrokenRecord(u8),
    UnknownRecord(u8),
    WrongForm(u8),
    StackShort(u8),
    NoSuchName(u8),
    Unfit(u8),
    ProductTooWide(u8),
    NotOneRelation(u8),
    TooManyRows(u8),
    ReplyTooLong(u8),
    TooManyRules,
    RegisterFull,
}

impl Refusal {
    pub fn number(self) -> u8 {
        self.number_and_place().0
    }

    pub fn place(self) -> u8 {
        self.number_and_place().1
    }

    pub fn record(self) -> Vec<u8> {
        let (number, place) = self.number_and_place();
        vec![0x02, 0x00, 0x23, 0x00, number, place]
    }

    fn number_and_place(self) -> (u8, u8) {
        match self {
            Refusal::NoTable => (1, 0),
            Refusal::TooManyColumns => (2, 0),
            Refusal::UnknownKind => (3, 0),
            Refusal::WrongDomain => (4, 0),
            Refusal::NotPrefix => (5, 0),
            Refusal::NoRow => (6, 0),
            Refusal::NoColumn => (7, 0),
            Refusal::WrongWidth => (8, 0),
            Refusal::WrongKind(cell) => (9, cell),
            Refusal::TableFull => (10, 0),
            Refusal::QueryLength => (11, 0),
            Refusal::TooManyRecords(record) => (12, record),
            Refusal::BrokenRecord(record) => (13, record),
            Refusal::UnknownRecord(record) => (14, record),
            Refusal::WrongForm(record) => (15, record),
            Refusal::StackShort(record) => (16, record),
            Refusal::NoSuchName(record) => (17, record),
            Refusal::Unfit(record) => (18, record),
            Refusal::ProductTooWide(record) => (19, record),
            Refusal::NotOneRelation(records) => (20, records),
            Refusal::TooManyRows(record) => (21, record),
            Refusal::ReplyTooLong(records) => (22, records),
            Refusal::TooManyRules => (23, 0),
            Refusal::RegisterFull => (24, 0),
        }
    }
}
