//! What is made and damaged beyond what a listing has: rows from numbers, and lengths.

use listing::{Row, ROWS};

pub fn row(kind: usize, a: usize, b: usize, c: usize) -> Row {
    Row { kind: kind as u8, zero: 0, a: a as u16, b: b as u16, c: c as u16 }
}

/// The most rows that a table can have.
pub fn most_rows(table: usize) -> usize {
    ROWS[table].2
}

/// Gives an image of at least five bytes its own length.
pub fn mend_length(bytes: &mut [u8]) {
    let length = (bytes.len() as u32).to_be_bytes();
    bytes[1..5].copy_from_slice(&length);
}
