//! The image: bytes, rows, six tables. Questions 1 to 3.

use crate::rules::{self, Rule};
use crate::words::counted;
use crate::{ask, Fault};
use std::ops::RangeInclusive;

/// "A row is 8 bytes: kind, a zero byte, 16-bit numbers a, b, c."
#[derive(Clone, Copy, Debug, Default, PartialEq, Eq)]
pub struct Row {
    pub kind: u8,
    pub zero: u8,
    pub a: u16,
    pub b: u16,
    pub c: u16,
}

impl Row {
    /// "Integers in it are unsigned and big-endian."
    fn of(bytes: &[u8; 8]) -> Row {
        let number = |at: usize| u16::from_be_bytes([bytes[at], bytes[at + 1]]);
        Row { kind: bytes[0], zero: bytes[1], a: number(2), b: number(4), c: number(6) }
    }

    /// a, b and c where they name rows or count something.
    pub fn a(&self) -> usize {
        usize::from(self.a)
    }

    pub fn b(&self) -> usize {
        usize::from(self.b)
    }

    pub fn c(&self) -> usize {
        usize::from(self.c)
    }
}

/// "Then the six tables follow one another". Only questions 1 to 3 have been asked of them.
#[derive(Clone, Debug, Default, PartialEq, Eq)]
pub struct Tables {
    pub types: Vec<Row>,
    pub fields: Vec<Row>,
    pub variables: Vec<Row>,
    pub procedures: Vec<Row>,
    pub nodes: Vec<Row>,
    pub statements: Vec<Row>,
}

/// Questions 1 to 3, and the tables where all are answered "yes".
pub fn tables(image: &[u8]) -> Result<Tables, Fault> {
    question_1(image)?;
    question_2(image)?;
    question_3(&image[5..])
}

/// "Is there a first byte, and is it 1?"
fn question_1(image: &[u8]) -> Result<(), Fault> {
    ask(!image.is_empty(), &rules::FIRST_BYTE, 0, || "the image has no byte".into())?;
    ask(image[0] == 1, &rules::VERSION, 0, || format!("byte 0 is {}", image[0]))
}

/// "Are bytes 1 to 4 present, equal to the image's length?"
fn question_2(image: &[u8]) -> Result<(), Fault> {
    ask(image.len() >= 5, &rules::LENGTH_PRESENT, 0, || format!("the image has {}", counted(image.len(), "byte")))?;
    let length = u32::from_be_bytes([image[1], image[2], image[3], image[4]]);
    ask(u64::from(length) == image.len() as u64, &rules::LENGTH, 0, || {
        format!("bytes 1 to 4 say {length}, the image has {}", counted(image.len(), "byte"))
    })
}

/// "Are the counts in range, and do the tables fill the image exactly?" `rest` is the image from byte 5 on.
fn question_3(mut rest: &[u8]) -> Result<Tables, Fault> {
    let tables = Tables {
        types: table(&mut rest, "type", 3..=64, &rules::TYPE_COUNT)?,
        fields: table(&mut rest, "field", 0..=256, &rules::FIELD_COUNT)?,
        variables: table(&mut rest, "variable", 0..=256, &rules::VARIABLE_COUNT)?,
        procedures: table(&mut rest, "procedure", 1..=64, &rules::PROCEDURE_COUNT)?,
        nodes: table(&mut rest, "node", 0..=2048, &rules::NODE_COUNT)?,
        statements: table(&mut rest, "statement", 1..=1024, &rules::STATEMENT_COUNT)?,
    };
    ask(rest.is_empty(), &rules::NOTHING_LEFT, 0, || {
        format!("the image has {} after the last statement row", counted(rest.len(), "byte"))
    })?;
    Ok(tables)
}

/// "each a 16-bit row count and its rows": takes one table from the front of `rest`.
fn table(
    rest: &mut &[u8],
    name: &str,
    counts: RangeInclusive<usize>,
    in_range: &'static Rule,
) -> Result<Vec<Row>, Fault> {
    ask(rest.len() >= 2, &rules::COUNT_PRESENT, 0, || {
        format!("the {name} table's count is cut off, with {} left for it", counted(rest.len(), "byte"))
    })?;
    let count = usize::from(u16::from_be_bytes([rest[0], rest[1]]));
    ask(counts.contains(&count), in_range, 0, || format!("the {name} table's count is {count}"))?;
    let rows = &rest[2..];
    ask(rows.len() >= 8 * count, &rules::ROWS_PRESENT, 0, || {
        format!("the {name} table's count is {count}, with {} left for its rows", counted(rows.len(), "byte"))
    })?;
    let (rows, after) = rows.split_at(8 * count);
    *rest = after;
    Ok(rows.as_chunks::<8>().0.iter().map(Row::of).collect())
}
