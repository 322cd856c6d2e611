//! Images as text, and back. `tables_of` and `image_of` go between the bytes of an image and its six tables,
//! `read_listing` and `listing_of` between the tables and a listing. `Words` puts statements and expressions in the
//! words of Oberon-2.
//!
//! A listing has a line for each row. `--` begins a comment. The rows of one table stand in order; the tables may be
//! mixed, so that nodes can stand before the statement that names them. `docs/LISTING.md` says which row each line
//! gives, and where a name is known. The lines:
//!
//! ```text
#![doc = include_str!("forms.txt")]
//! ```
//!
//! So every image that passes questions 1 to 3 has a listing, whatever the other questions say of it.

mod forms;
mod line;
mod names;
mod print;
mod read;
mod resolve;
mod symbols;
mod words;

pub use names::{designated, field_row, fields_before, Names};
pub use print::{listing_of, row_line, row_text};
pub use read::{read_listing, Listing};
pub use symbols::Wrong;
pub use words::{children, named, set_words, Words};

/// A row of a table, with the byte that is to be zero.
#[derive(Clone, Copy, Debug, PartialEq, Eq)]
pub struct Row {
    pub kind: u8,
    pub zero: u8,
    pub a: u16,
    pub b: u16,
    pub c: u16,
}

/// The six tables, in the image's order.
pub type Tables = [Vec<Row>; 6];

pub const TYPES: usize = 0;
pub const FIELDS: usize = 1;
pub const VARIABLES: usize = 2;
pub const PROCEDURES: usize = 3;
pub const NODES: usize = 4;
pub const STATEMENTS: usize = 5;

/// What a row of each table is called, and the fewest and the most rows.
pub const ROWS: [(&str, usize, usize); 6] = [
    ("type", 3, 64),
    ("field", 0, 256),
    ("var", 0, 256),
    ("procedure", 1, 64),
    ("node", 0, 2048),
    ("statement", 1, 1024),
];

/// The names of type rows 0 to 2.
pub const SCALARS: [&str; 3] = ["BOOLEAN", "INTEGER", "SET"];

/// What the kinds of variables are called, from kind 0 on.
pub const KINDS_OF_VARIABLES: [&str; 4] = ["global", "local", "value", "VAR"];

/// The dyadic operators, from number 1 on.
const OPERATORS: [&str; 16] = ["+", "-", "*", "DIV", "MOD", "/", "=", "#", "<", "<=", ">", ">=", "&", "OR", "IN", ".."];

/// Writes a text to standard output. That its reader wants no more, as `head` does, is no error.
pub fn print(text: &str) -> std::io::Result<()> {
    use std::io::{ErrorKind, Write};
    match std::io::stdout().write_all(text.as_bytes()) {
        Err(error) if error.kind() == ErrorKind::BrokenPipe => Ok(()),
        done => done,
    }
}

/// The bytes of an image with these tables.
pub fn image_of(tables: &Tables) -> Vec<u8> {
    let mut rows = Vec::new();
    for table in tables {
        rows.extend((table.len() as u16).to_be_bytes());
        for row in table {
            rows.extend([row.kind, row.zero]);
            for number in [row.a, row.b, row.c] {
                rows.extend(number.to_be_bytes());
            }
        }
    }
    let mut image = vec![1];
    image.extend((5 + rows.len() as u32).to_be_bytes());
    image.extend(rows);
    image
}

/// The six tables, or which of questions 1 to 3 says no.
pub fn tables_of(image: &[u8]) -> Result<Tables, &'static str> {
    if image.first() != Some(&1) {
        return Err("question 1: its first byte is not 1");
    }
    let length = image.get(1..5).map(|n| u32::from_be_bytes([n[0], n[1], n[2], n[3]]));
    if length.map(|n| n as usize) != Some(image.len()) {
        return Err("question 2: bytes 1 to 4 are not its length");
    }
    let no = "question 3: there are no six tables that fill it";
    let mut tables: Tables = Default::default();
    let mut rest = &image[5..];
    for (table, (_, least, most)) in tables.iter_mut().zip(ROWS) {
        let [high, low, after @ ..] = rest else { return Err(no) };
        let count = u16::from_be_bytes([*high, *low]) as usize;
        if count < least || count > most || after.len() < 8 * count {
            return Err(no);
        }
        table.extend(after[..8 * count].chunks(8).map(row_of));
        rest = &after[8 * count..];
    }
    if rest.is_empty() {
        Ok(tables)
    } else {
        Err(no)
    }
}

/// The row in eight bytes.
fn row_of(bytes: &[u8]) -> Row {
    let number = |at: usize| u16::from_be_bytes([bytes[at], bytes[at + 1]]);
    Row { kind: bytes[0], zero: bytes[1], a: number(2), b: number(4), c: number(6) }
}
