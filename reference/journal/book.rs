//! Drafts and books.

use crate::cells::{Kind, Value};
use crate::refusal::Refusal;

pub const TABLES: usize = 4;

#[derive(Clone, Copy, PartialEq, Eq, Debug)]
pub struct Column {
    pub kind: Kind,
    pub domain: u8,
}

/// The columns of the four tables.
#[derive(Clone, Default, Debug)]
pub struct Draft {
    pub columns: [Vec<Column>; TABLES],
}

impl Draft {
    pub fn declare(&mut self, table: u8, kind: u8, domain: u8) -> Result<(), Refusal> {
        let table = table_number(table)?;
        if self.columns[table].len() >= 8 {
            return Err(Refusal::TooManyColumns);
        }
        let kind = match kind {
            1 => Kind::Number,
            2 => Kind::Prefix,
            _ => return Err(Refusal::UnknownKind),
        };
        let other_kind = |column: &Column| column.domain == domain && column.kind != kind;
        if domain > 15 || (domain != 0 && self.columns.iter().flatten().any(other_kind)) {
            return Err(Refusal::WrongDomain);
        }
        self.columns[table].push(Column { kind, domain });
        Ok(())
    }

    pub fn open(&self, memory_cells: u32) -> Book {
        Book {
            columns: self.columns.clone(),
            rows: Default::default(),
            row_limit: (memory_cells as usize / 32).min(256),
        }
    }
}

#[derive(Clone, Debug)]
pub struct Book {
    pub columns: [Vec<Column>; TABLES],
    pub rows: [Vec<Vec<Value>>; TABLES],
    pub row_limit: usize,
}

impl Book {
    pub fn store(&mut self, table: u8, cells: &[Value]) -> Result<(), Refusal> {
        let table = table_number(table)?;
        let columns = &self.columns[table];
        if cells.is_empty() || cells.len() != columns.len() {
            return Err(Refusal::WrongWidth);
        }
        let fault = cells
            .iter()
            .zip(columns)
            .position(|(cell, column)| cell.kind() != column.kind);
        if let Some(cell) = fault {
            return Err(Refusal::WrongKind(cell as u8));
        }
        if self.rows[table].len() >= self.row_limit {
            return Err(Refusal::TableFull);
        }
        self.rows[table].push(cells.to_vec());
        Ok(())
    }

    pub fn strike(&mut self, table: u8, row: u16) -> Result<(), Refusal> {
        let table = table_number(table)?;
        if row as usize >= self.rows[table].len() {
            return Err(Refusal::NoRow);
        }
        self.rows[table].remove(row as usize);
        Ok(())
    }

    pub fn amend(&mut self, table: u8, row: u16, column: u8, cell: Value) -> Result<(), Refusal> {
        let table = table_number(table)?;
        let row = self.rows[table]
            .get_mut(row as usize)
            .ok_or(Refusal::NoRow)?;
        let declared = self.columns[table]
            .get(column as usize)
            .ok_or(Refusal::NoColumn)?;
        if cell.kind() != declared.kind {
            return Err(Refusal::WrongKind(0));
        }
        row[column as usize] = cell;
        Ok(())
    }
}

fn table_number(table: u8) -> Result<usize, Refusal> {
    if (table as usize) < TABLES {
        Ok(table as usize)
    } else {
        Err(Refusal::NoTable)
    }
}
