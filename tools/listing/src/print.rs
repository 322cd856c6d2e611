//! From tables to a listing.
use crate::names::{fields_before, Names};
use crate::words::{constant_words, named, Words};
use crate::VARIABLES;
use crate::{Row, Tables, FIELDS, KINDS_OF_VARIABLES, NODES, OPERATORS, PROCEDURES, ROWS, SCALARS, STATEMENTS, TYPES};

/// How many nodes a statement's comment has at most.
const NODES_IN_COMMENT: usize = 30;

/// The listing of tables: types, globals, then each procedure with its variables and statements, each of these after
/// the nodes that it names.
pub fn listing_of(tables: &Tables) -> String {
    let mut printer = Printer { tables, text: String::new(), next: [0; 6] };
    for _ in &tables[TYPES] {
        printer.type_row();
    }
    printer.rows_to(FIELDS, tables[FIELDS].len());
    let globals = tables[VARIABLES].iter().take_while(|row| row.kind == 0).count();
    if globals > 0 {
        printer.text.push('\n');
    }
    printer.rows_to(VARIABLES, globals);
    for (at, row) in tables[STATEMENTS].iter().enumerate() {
        printer.procedures_to(at);
        let end = named(tables, *row).map(|span| span.end).into_iter().max().unwrap_or(0);
        printer.rows_to(NODES, if end <= tables[NODES].len() { end } else { 0 });
        printer.rows_to(STATEMENTS, at + 1);
    }
    printer.procedures_to(usize::MAX);
    printer.rows_to(VARIABLES, tables[VARIABLES].len());
    printer.rows_to(NODES, tables[NODES].len());
    printer.text
}

struct Printer<'a> {
    tables: &'a Tables,
    text: String,
    /// The row of each table that is printed next.
    next: [usize; 6],
}

impl Printer<'_> {
    /// Prints the rows of a table below `end` that are not printed yet.
    fn rows_to(&mut self, table: usize, end: usize) {
        while self.next[table] < end {
            self.row(table);
        }
    }

    /// Prints the next row of a table.
    fn row(&mut self, table: usize) {
        let row = self.tables[table][self.next[table]];
        let line = row_line(table, self.next[table], row);
        let comment = if table == STATEMENTS { self.comment(row) } else { None };
        match comment {
            Some(comment) if line.len().max(43) + comment.len() < 116 => {
                self.line(table, format!("{line:<43} -- {comment}"))
            }
            _ => self.line(table, line),
        }
    }

    /// Prints a line that gives the next row of a table.
    fn line(&mut self, table: usize, line: String) {
        self.text.push_str(&line);
        self.text.push('\n');
        self.next[table] += 1;
    }

    /// What a statement does, where that says more than its row and is short.
    fn comment(&self, row: Row) -> Option<String> {
        let names = Names::default();
        let mut words = Words::new(self.tables, &names, NODES_IN_COMMENT);
        let text = words.statement(row)?;
        words.whole.then_some(text)
    }

    /// A type; a record, if it can be, with the fields that it claims.
    fn type_row(&mut self) {
        let at = self.next[TYPES];
        let row = self.tables[TYPES][at];
        let end = row.b as usize + row.c as usize;
        let claims = row.kind == 4 && row.b as usize == self.next[FIELDS] && end <= self.tables[FIELDS].len();
        if !claims {
            return self.row(TYPES);
        }
        match record_text(self.tables, at, row) {
            Some(text) => {
                self.next[FIELDS] = end;
                self.line(TYPES, format!("type {at} = {text}"));
            }
            None => {
                self.row(TYPES);
                self.rows_to(FIELDS, end);
            }
        }
    }

    /// The procedures that begin at or before a statement, each before its variables.
    fn procedures_to(&mut self, statement: usize) {
        while let Some(procedure) = self.tables[PROCEDURES].get(self.next[PROCEDURES]) {
            if procedure.a as usize > statement {
                return;
            }
            self.text.push('\n');
            self.row(PROCEDURES);
            let end = self.next[VARIABLES] + procedure.b as usize + procedure.c as usize;
            self.rows_to(VARIABLES, end.min(self.tables[VARIABLES].len()));
        }
    }
}

/// A record with its own fields, where these have the form of fields.
fn record_text(tables: &Tables, at: usize, row: Row) -> Option<String> {
    let own = &tables[FIELDS][row.b as usize..][..row.c as usize];
    if row.zero != 0 || own.iter().any(|f| f.kind != 0 || f.zero != 0 || f.b != 0 || f.c != 0) {
        return None;
    }
    let first = fields_before(tables, at);
    let mut text = if row.a == 0 { "RECORD".to_string() } else { format!("RECORD({})", row.a - 1) };
    for (k, field) in own.iter().enumerate() {
        text.push_str(match k {
            0 => " ",
            _ if k % 7 == 0 => ";\n  ",
            _ => "; ",
        });
        text.push_str(&format!("f{}: {}", first + k, type_text(field.a)));
    }
    Some(text + " END")
}

/// The line of a row by itself: in the form of its kind, or with its numbers where it has no such form. A record has
/// none, since its fields belong to it.
pub fn row_line(table: usize, at: usize, row: Row) -> String {
    let name = ROWS[table].0;
    let mark = if table == STATEMENTS { ":" } else { " =" };
    match row_text(table, at, row) {
        Some(text) if table == PROCEDURES => format!("{name} {at} {text}"),
        Some(text) => format!("{name} {at}{mark} {text}"),
        None => format!("{name} {at}{mark} row {} {} {} {} {}", row.kind, row.zero, row.a, row.b, row.c),
    }
}

/// What stands after the row's number, where the row has a form of its own; a record's is not given here.
pub fn row_text(table: usize, at: usize, row: Row) -> Option<String> {
    let Row { kind, zero, a, b, c } = row;
    if zero != 0 {
        return None;
    }
    match (table, kind) {
        (TYPES, 0..=2) if a == 0 && b == 0 && c == 0 => Some(SCALARS[kind as usize].to_string()),
        (TYPES, 3) if c == 0 => Some(format!("ARRAY {b} OF {}", type_text(a))),
        (FIELDS, 0) if b == 0 && c == 0 => Some(type_text(a)),
        (VARIABLES, 0..=3) if b == 0 && c == 0 => {
            Some(format!("{} v{at}: {}", KINDS_OF_VARIABLES[kind as usize], type_text(a)))
        }
        (PROCEDURES, 0) => Some(format!("at {a} parameters {b} locals {c}")),
        (NODES, _) => node_text(row),
        (STATEMENTS, _) => statement_text(row),
        _ => None,
    }
}

fn type_text(row: u16) -> String {
    SCALARS.get(row as usize).map_or_else(|| row.to_string(), |scalar| scalar.to_string())
}

fn node_text(row: Row) -> Option<String> {
    let Row { kind, a, b, c, .. } = row;
    match (kind, b, c) {
        (0, _, _) => constant_words(row).map(|text| format!("{} {text}", SCALARS[a as usize])),
        (1, 0, 0) => Some(format!("variable {a}")),
        (2, _, 0) => Some(format!("field {b} of {a}")),
        (3, _, 0) => Some(format!("element {a} at {b}")),
        (4, _, 0) => Some(format!("guard {a} to {}", type_text(b))),
        (5, _, 1..=16) => Some(format!("{a} {} {b}", OPERATORS[c as usize - 1])),
        (6, 0, 1) => Some(format!("- {a}")),
        (6, 0, 2) => Some(format!("~ {a}")),
        (7, _, 0) => Some(format!("test {a} for {}", type_text(b))),
        (8, 0, 0) => Some(format!("argument {a}")),
        _ => None,
    }
}

fn statement_text(row: Row) -> Option<String> {
    let Row { kind, a, b, c, .. } = row;
    match (kind, a, b, c) {
        (0, _, _, 0) => Some(format!("{a} := {b}")),
        (1, _, 0, 0) => Some(format!("call {a}")),
        (1, _, _, 0) => Some(format!("call {a} (arguments from node {b})")),
        (2, _, _, 0) => Some(format!("IF NOT {a} GOTO {b}")),
        (3, 0, _, 0) => Some(format!("GOTO {b}")),
        (4, 0, 0, 0) => Some("RETURN".to_string()),
        (5, _, 0, 0) => Some(format!("READ {a}")),
        (6, _, 0, 0) => Some(format!("WRITE {a}")),
        (7, _, 0, 0) => Some(format!("HALT {a}")),
        _ => None,
    }
}
