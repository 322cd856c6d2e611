//! The names that a listing gives its rows.
use crate::{Tables, FIELDS, NODES, PROCEDURES, SCALARS, TYPES, VARIABLES};

/// The names of rows, by table and row; a row without one is told by its number.
#[derive(Clone, Debug, Default, PartialEq, Eq)]
pub struct Names {
    rows: [Vec<Option<String>>; 6],
}

impl Names {
    /// Gives a row its name.
    pub fn give(&mut self, table: usize, row: usize, name: &str) {
        let rows = &mut self.rows[table];
        if rows.len() <= row {
            rows.resize(row + 1, None);
        }
        rows[row] = Some(name.to_string());
    }

    /// A row's name, where it has one.
    pub fn of(&self, table: usize, row: usize) -> Option<&str> {
        self.rows[table].get(row)?.as_deref()
    }

    /// A row's name, or a letter and its number.
    fn or_number(&self, table: usize, row: usize, letter: char) -> String {
        self.of(table, row).map_or_else(|| format!("{letter}{row}"), str::to_string)
    }

    /// A variable: its name, or v3 for row 3.
    pub fn variable(&self, row: usize) -> String {
        self.or_number(VARIABLES, row, 'v')
    }

    /// A procedure: its name, or p3 for row 3.
    pub fn procedure(&self, row: usize) -> String {
        self.or_number(PROCEDURES, row, 'p')
    }

    /// A type where it is used: BOOLEAN, INTEGER or SET for rows 0 to 2, else as where it is declared.
    pub fn type_row(&self, row: usize) -> String {
        SCALARS.get(row).map_or_else(|| self.declared_type(row), |scalar| scalar.to_string())
    }

    /// A type where it is declared: its name, or T4 for row 4.
    pub fn declared_type(&self, row: usize) -> String {
        self.or_number(TYPES, row, 'T')
    }

    /// A field of a record, the base's fields counted first: its name, or f2 for field 2.
    pub fn field(&self, tables: &Tables, record: Option<usize>, number: usize) -> String {
        let row = record.and_then(|record| field_row(tables, record, number));
        row.and_then(|row| self.of(FIELDS, row)).map_or_else(|| format!("f{number}"), str::to_string)
    }

    /// The numbers of a record's fields that have that name, the base's fields counted first.
    pub(crate) fn fields_named(&self, tables: &Tables, record: usize, name: &str) -> Vec<u16> {
        let mut found = base_of(tables, record).map_or(Vec::new(), |base| self.fields_named(tables, base, name));
        let (row, before) = (tables[TYPES][record], fields_before(tables, record));
        let rows = row.b as usize..(row.b as usize + row.c as usize).min(tables[FIELDS].len());
        let numbers = rows.filter(|field| self.of(FIELDS, *field) == Some(name)).map(|field| field - row.b as usize);
        found.extend(numbers.filter_map(|own| u16::try_from(before + own).ok()));
        found
    }
}

/// How many fields a record has from its base.
pub fn fields_before(tables: &Tables, record: usize) -> usize {
    base_of(tables, record).map_or(0, |base| fields_before(tables, base) + tables[TYPES][base].c as usize)
}

/// The row of a record's base, where that is an earlier record.
fn base_of(tables: &Tables, record: usize) -> Option<usize> {
    let base = (tables[TYPES].get(record)?.a as usize).checked_sub(1)?;
    let row = tables[TYPES][..record].get(base)?;
    (row.kind == 4).then_some(base)
}

/// The field row of a record's field, the base's fields counted first.
pub fn field_row(tables: &Tables, record: usize, number: usize) -> Option<usize> {
    let row = tables[TYPES].get(record).filter(|row| row.kind == 4)?;
    match number.checked_sub(fields_before(tables, record)) {
        None => field_row(tables, base_of(tables, record)?, number),
        Some(own) => Some(row.b as usize + own).filter(|field| own < row.c as usize && *field < tables[FIELDS].len()),
    }
}

/// The type that a designator's node is declared with, as far as the rows say.
pub fn designated(tables: &Tables, node: usize) -> Option<usize> {
    let row = tables[NODES].get(node)?;
    let of = |child: u16| designated(tables, Some(child as usize).filter(|child| *child < node)?);
    let type_row = match row.kind {
        1 => tables[VARIABLES].get(row.a as usize)?.a,
        2 => tables[FIELDS].get(field_row(tables, of(row.a)?, row.b as usize)?)?.a,
        3 => tables[TYPES].get(of(row.a)?).filter(|array| array.kind == 3)?.a,
        4 => row.b,
        _ => return None,
    };
    Some(type_row as usize)
}
