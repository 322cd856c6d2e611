//! Images made by hand.

use model::{Row, Tables};

pub fn row(kind: u8, a: u16, b: u16, c: u16) -> Row {
    Row { kind, zero: 0, a, b, c }
}

/// The tables of the smallest program, with rows added: the scalar types, and a module body whose statements are given.
pub fn draft(statements: Vec<Row>) -> Tables {
    Tables {
        types: vec![row(0, 0, 0, 0), row(1, 0, 0, 0), row(2, 0, 0, 0)],
        procedures: vec![row(0, 0, 0, 0)],
        statements,
        ..Tables::default()
    }
}

/// The image of the tables, whatever is in them.
pub fn image(tables: &Tables) -> Vec<u8> {
    let Tables { types, fields, variables, procedures, nodes, statements } = tables;
    let mut rows = Vec::new();
    for table in [types, fields, variables, procedures, nodes, statements] {
        rows.extend((table.len() as u16).to_be_bytes());
        for row in table {
            rows.extend([row.kind, row.zero]);
            rows.extend([row.a, row.b, row.c].map(u16::to_be_bytes).as_flattened());
        }
    }
    let mut image = vec![1];
    image.extend((rows.len() as u32 + 5).to_be_bytes());
    image.extend(rows);
    image
}
