//! Compatible rows.

use crate::cells::Cell;

/// Whether some lawful valuation makes the two rows the same row. The two cells of each column
/// are put into one group, and groups that share a cell are joined.
pub fn compatible(left: &[Cell], right: &[Cell]) -> bool {
    let width = left.len();
    let pair = |column: usize| [left[column], right[column]];
    // The group of each column, named by one of its columns. No row has more than 8.
    let mut groups = [0, 1, 2, 3, 4, 5, 6, 7];
    for one in 0..width {
        for other in 0..one {
            if share_a_cell(&pair(one), &pair(other)) {
                join(&mut groups, one, other);
            }
        }
    }
    for one in 0..width {
        for other in 0..=one {
            if groups[one] == groups[other] && some_cells_clash(&pair(one), &pair(other)) {
                return false;
            }
        }
    }
    true
}

fn join(groups: &mut [usize], one: usize, other: usize) {
    let (kept, dropped) = (groups[one], groups[other]);
    for group in groups {
        if *group == dropped {
            *group = kept;
        }
    }
}

fn share_a_cell(one: &[Cell; 2], other: &[Cell; 2]) -> bool {
    one.iter().any(|cell| other.contains(cell))
}

fn some_cells_clash(one: &[Cell; 2], other: &[Cell; 2]) -> bool {
    one.iter().any(|a| other.iter().any(|b| clash(a, b)))
}

/// Two different values, or two different pseudonyms of one domain.
fn clash(one: &Cell, other: &Cell) -> bool {
    match (one, other) {
        (Cell::Value(a), Cell::Value(b)) => a != b,
        (Cell::Pseudonym(a), Cell::Pseudonym(b)) => a.domain == b.domain && a.index != b.index,
        _ => false,
    }
}
