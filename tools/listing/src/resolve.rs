//! From rows in which names stand to tables.
use crate::forms::{Form, Operand};
use crate::names::{designated, Names};
use crate::read::{Declared, Listing, Rows};
use crate::symbols::{Symbol, Wrong};
use crate::{Row, Tables, FIELDS, NODES, PROCEDURES, ROWS, STATEMENTS, TYPES, VARIABLES};
use std::collections::{HashMap, HashSet};

/// Where a name is known: in the lines of the procedure with that number, counted from 1.
type Scope = usize;
/// In every line.
const EVERYWHERE: Scope = 0;
/// For the label in a `procedure` line, which may be that of a line anywhere.
const ANYWHERE: Scope = usize::MAX;

/// Stands for a row that is wrong or missing: no kind of row, and no row's number.
const NO_ROW: Row = Row { kind: u8::MAX, zero: 0, a: u16::MAX, b: u16::MAX, c: u16::MAX };

/// The tables and names of these rows, and all mistakes: those that the rows come with, and those in names.
pub fn resolve(rows: Rows) -> (Listing, Vec<Wrong>) {
    let mut resolver = Resolver { known: HashMap::new(), spoilt: rows.spoilt, wrong: rows.wrong };
    let mut listing = Listing::default();
    for (table, declared) in rows.tables.iter().enumerate() {
        for (row, declared) in declared.iter().enumerate() {
            if let Some(name) = declared.name {
                listing.names.give(table, row, name.text);
                resolver.declare(table, row, name, declared);
            }
        }
    }
    for (table, declared) in rows.tables.iter().enumerate() {
        listing.tables[table] = declared.iter().map(|row| resolver.row(table, row)).collect();
    }
    for (node, declared) in rows.tables[NODES].iter().enumerate() {
        if let Some(Form { numbers: [_, Operand::Field(name), _], .. }) = declared.form {
            let of = listing.tables[NODES][node].a as usize;
            if let Some(number) = resolver.field(&listing.tables, &listing.names, of, name) {
                listing.tables[NODES][node].b = number;
            }
        }
    }
    (listing, resolver.wrong)
}

/// A name that is declared: its row, and where.
type Known<'a> = (usize, Symbol<'a>);

struct Resolver<'a> {
    known: HashMap<(usize, Scope, &'a str), Vec<Known<'a>>>,
    spoilt: HashSet<&'a str>,
    wrong: Vec<Wrong>,
}

impl<'a> Resolver<'a> {
    /// Makes a name known. Only variables may have one that is there already: it is wrong where it is used.
    fn declare(&mut self, table: usize, row: usize, name: Symbol<'a>, declared: &Declared) {
        let known = self.known.entry((table, scope(table, declared), name.text)).or_default();
        match known.first() {
            Some((_, first)) if ![FIELDS, VARIABLES].contains(&table) => {
                let message = format!("there is a {} '{}' already, in line {}", ROWS[table].0, name.text, first.line);
                self.wrong.push(name.wrong(message));
            }
            _ => known.push((row, name)),
        }
        if table == STATEMENTS {
            self.known.entry((table, ANYWHERE, name.text)).or_default().push((row, name));
        }
    }

    /// A row with numbers for its names, but for that of a field.
    fn row(&mut self, table: usize, declared: &Declared<'a>) -> Row {
        let Some(form) = declared.form else { return NO_ROW };
        let scopes: &[Scope] = match table {
            PROCEDURES => &[declared.part, EVERYWHERE, ANYWHERE],
            _ => &[declared.part, EVERYWHERE],
        };
        match form.numbers.map(|operand| self.number(operand, scopes)) {
            [Some(a), Some(b), Some(c)] => Row { kind: form.kind, zero: form.zero, a, b, c },
            _ => NO_ROW,
        }
    }

    fn number(&mut self, operand: Operand<'a>, scopes: &[Scope]) -> Option<u16> {
        match operand {
            Operand::Number(number) => Some(number),
            Operand::Row { table, name } => self.find(table, name, scopes),
            Operand::Base(name) => self.find(TYPES, name, scopes).map(|row| row + 1),
            Operand::Field(_) => Some(NO_ROW.b),
        }
    }

    /// The row with a name, in the first scope that has it.
    fn find(&mut self, table: usize, name: Symbol<'a>, scopes: &[Scope]) -> Option<u16> {
        let known = scopes.iter().find_map(|scope| self.known.get(&(table, *scope, name.text)));
        match known.map_or(&[][..], Vec::as_slice) {
            [(row, _)] => return Some(*row as u16),
            [] if self.spoilt.contains(name.text) => {}
            [] => self.wrong.push(name.wrong(format!("there is no {} '{}' here", ROWS[table].0, name.text))),
            _ => self.ambiguous(ROWS[table].0, name),
        }
        None
    }

    fn ambiguous(&mut self, what: &str, name: Symbol) {
        self.wrong.push(name.wrong(format!("more than one {what} here is named '{}'", name.text)));
    }

    /// The number of a field in the record that a node stands for.
    fn field(&mut self, tables: &Tables, names: &Names, node: usize, name: Symbol) -> Option<u16> {
        let is_record = |type_row: &usize| tables[TYPES].get(*type_row).is_some_and(|row| row.kind == 4);
        let Some(record) = designated(tables, node).filter(is_record) else {
            // That a type is not known may come of another mistake.
            if self.wrong.is_empty() {
                self.wrong.push(
                    name.wrong(format!("there is no field '{}': node {node} is not known to be a record", name.text)),
                );
            }
            return None;
        };
        match names.fields_named(tables, record, name.text)[..] {
            [number] => return Some(number),
            [] if self.spoilt.contains(name.text) => {}
            [] => {
                let message = format!("there is no field '{}' in {}", name.text, names.declared_type(record));
                self.wrong.push(name.wrong(message));
            }
            _ => self.ambiguous(ROWS[FIELDS].0, name),
        }
        None
    }
}

/// Where a row's name is known: nodes, statements and variables that are not global belong to their procedure.
fn scope(table: usize, declared: &Declared) -> Scope {
    let is_global = declared.form.is_some_and(|form| form.kind == 0);
    match table {
        NODES | STATEMENTS => declared.part,
        VARIABLES if !is_global => declared.part,
        _ => EVERYWHERE,
    }
}
