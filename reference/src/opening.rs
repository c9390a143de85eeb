//! Opening a row: a shortcut is its first child's edges, then its second's.

use crate::network::Row;

/// Asks for a sound table, where children have lower numbers, so the recursion
/// ends; a number that names no row opens to nothing.
pub fn open(table: &[Row], edges: usize, number: usize, legs: &mut Vec<u16>) {
    if number < edges {
        legs.push(number as u16);
    } else if let Some(row) = table.get(number) {
        open(table, edges, row.first as usize, legs);
        open(table, edges, row.second as usize, legs);
    }
}

pub fn open_all(table: &[Row], edges: usize, rows: &[u16]) -> Vec<u16> {
    let mut legs = Vec::new();
    for &row in rows {
        open(table, edges, row as usize, &mut legs);
    }
    legs
}
