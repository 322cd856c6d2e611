//! From a listing to rows, in which names still stand for numbers.
use crate::forms::{read_body, read_numbers, Body, Form, Operand};
use crate::line::Line;
use crate::names::Names;
use crate::resolve::resolve;
use crate::symbols::{symbols, Symbol, Wrong};
use crate::{Tables, FIELDS, PROCEDURES, ROWS, STATEMENTS, TYPES, VARIABLES};
use std::collections::HashSet;

/// What a listing gives: the tables, and the names of their rows.
#[derive(Clone, Debug, Default, PartialEq, Eq)]
pub struct Listing {
    pub tables: Tables,
    pub names: Names,
}

/// What a listing gives, or its mistakes, in the order of its lines.
pub fn read_listing(text: &[u8]) -> Result<Listing, Vec<Wrong>> {
    let mut reader = Reader::default();
    for (at, bytes) in text.split(|byte| *byte == b'\n').enumerate() {
        reader.line(at + 1, bytes);
    }
    reader.end();
    let (listing, mut wrong) = resolve(reader.rows);
    if wrong.is_empty() {
        return Ok(listing);
    }
    wrong.sort_by_key(|wrong| (wrong.line, wrong.column));
    Err(wrong)
}

/// A row of a listing.
#[derive(Clone, Debug, Default)]
pub struct Declared<'a> {
    pub name: Option<Symbol<'a>>,
    /// How many `procedure` lines there are up to this one: names are looked up there.
    pub part: usize,
    /// Nothing where the line is wrong or missing: the row counts as there.
    pub form: Option<Form<'a>>,
}

/// The rows of a listing as they are written, and the mistakes so far.
#[derive(Default)]
pub struct Rows<'a> {
    pub tables: [Vec<Declared<'a>>; 6],
    pub wrong: Vec<Wrong>,
    /// The words of wrong lines: they may declare a name that seems to be missing.
    pub spoilt: HashSet<&'a str>,
}

/// Which number the next row of a table has; after a mistake there may be two.
#[derive(Clone, Copy, Default)]
struct Next {
    number: usize,
    or: Option<usize>,
}

#[derive(Default)]
struct Reader<'a> {
    rows: Rows<'a>,
    next: [Next; 6],
    /// Whether a line names no table.
    strange: bool,
    part: usize,
    /// The symbols of a record that has no END yet.
    record: Vec<Symbol<'a>>,
    /// Whether the lines of the row being read have wrong characters.
    garbled: bool,
    last: Option<Symbol<'a>>,
}

impl<'a> Reader<'a> {
    fn line(&mut self, number: usize, bytes: &'a [u8]) {
        let (found, wrong) = symbols(number, bytes);
        if begins_row(&found) {
            self.end_of_record();
        }
        self.garbled |= !wrong.is_empty();
        self.rows.wrong.extend(wrong);
        self.last = found.last().copied().or(self.last);
        let has = |word: &str| found.iter().any(|symbol| symbol.text == word);
        let goes_on = !has("END") && (!self.record.is_empty() || is_type(&found) && has("RECORD"));
        self.record.extend(found);
        if !goes_on {
            let symbols = std::mem::take(&mut self.record);
            self.row(symbols);
        }
    }

    /// A record that is still without its END gets none.
    fn end_of_record(&mut self) {
        let symbols = std::mem::take(&mut self.record);
        if let Some(first) = symbols.first() {
            self.rows.wrong.push(first.wrong("this record has no END".to_string()));
            self.garbled = true;
            self.row(symbols);
        }
    }

    /// The listing ends: each table must have its fewest rows.
    fn end(&mut self) {
        self.end_of_record();
        for (next, (name, least, _)) in self.next.iter().zip(ROWS) {
            if next.number < least && !self.strange {
                let message = format!("the listing ends without {name} {}", next.number);
                self.rows.wrong.push(match self.last {
                    Some(last) => last.wrong_behind(message),
                    None => Wrong { line: 1, column: 1, message },
                });
            }
        }
    }

    /// Reads the symbols of a row. If its characters are wrong, no more is said of it.
    fn row(&mut self, symbols: Vec<Symbol<'a>>) {
        let garbled = std::mem::take(&mut self.garbled);
        if symbols.is_empty() {
            return;
        }
        let mistakes = self.rows.wrong.len();
        let mut line = Line::new(symbols);
        let read = self.read_row(&mut line);
        self.rows.wrong.extend(read.err().filter(|_| !garbled));
        if garbled || self.rows.wrong.len() > mistakes {
            self.rows.spoilt.extend(line.symbols.iter().map(|symbol| symbol.text));
        }
    }

    fn read_row(&mut self, line: &mut Line<'a>) -> Result<(), Wrong> {
        let first = line.symbols[0];
        let Some(table) = line.takes_one(&ROWS.map(|(name, _, _)| name)) else {
            self.strange = true;
            self.next = self.next.map(|next| Next { or: Some(next.number + 1), ..next });
            // A misspelt `procedure` begins one all the same.
            self.part += line.symbols.iter().any(|symbol| symbol.text == "parameters") as usize;
            return Err(line.expected("type, field, var, procedure, node or statement"));
        };
        self.part += (table == PROCEDURES) as usize;
        let mut row = Declared { part: self.part, ..Declared::default() };
        let mut number = self.next[table].number;
        let read = self.read_declaration(table, line, &mut number, &mut row);
        self.place(table, number, first, row);
        read
    }

    /// What follows the table's name: the row's number and name, each of which may be absent, a mark, and its form.
    fn read_declaration(
        &mut self,
        table: usize,
        line: &mut Line<'a>,
        number: &mut usize,
        row: &mut Declared<'a>,
    ) -> Result<(), Wrong> {
        if line.is_at_number() {
            *number = self.read_number(table, line)?;
        }
        if line.is_at_word() && table != VARIABLES && !begins_procedure(table, line) {
            row.name = Some(line.free_name()?);
        }
        let has_mark = !begins_procedure(table, line);
        if has_mark {
            line.take(if table == STATEMENTS { ":" } else { "=" })?;
        }
        let body = if has_mark && line.takes("row") { read_numbers(line)?.into() } else { read_body(table, line)? };
        line.end()?;
        row.name = row.name.or(body.name);
        row.form = Some(self.with_fields(body));
        Ok(())
    }

    /// A row's number, which must be the next one.
    fn read_number(&mut self, table: usize, line: &mut Line<'a>) -> Result<usize, Wrong> {
        let not_next = line.next();
        let number = line.number()? as usize;
        let next = self.next[table];
        let is_next = number == next.number || Some(number) == next.or;
        self.next[table].or = (!is_next).then_some(next.number + 1);
        if !is_next {
            let message = format!("the next one is {} {}, not {number}", ROWS[table].0, next.number);
            self.rows.wrong.extend(not_next.map(|symbol| symbol.wrong(message)));
        }
        Ok(number)
    }

    /// The form of a row; a record's fields become the next field rows.
    fn with_fields(&mut self, body: Body<'a>) -> Form<'a> {
        let mut form = body.form;
        let Some(fields) = body.fields else { return form };
        form.numbers[1] = Operand::Number(self.next[FIELDS].number as u16);
        for (name, form) in fields {
            let field = Declared { name: Some(name), part: self.part, form: Some(form) };
            self.place(FIELDS, self.next[FIELDS].number, name, field);
        }
        form
    }

    /// Puts a row in its place, or says at a symbol that it is the first for which there is none.
    fn place(&mut self, table: usize, number: usize, at: Symbol<'a>, row: Declared<'a>) {
        self.next[table].number = number + 1;
        let (name, _, most) = ROWS[table];
        if number < most {
            let rows = &mut self.rows.tables[table];
            rows.resize_with(rows.len().max(number + 1), Declared::default);
            rows[number] = row;
            return;
        }
        self.rows.spoilt.extend(row.name.map(|name| name.text));
        if number == most {
            self.rows.wrong.push(at.wrong(format!("{name} {most} is one too many")));
        }
    }
}

fn is_type(symbols: &[Symbol]) -> bool {
    symbols.first().is_some_and(|first| first.text == ROWS[TYPES].0)
}

/// Whether a line begins a row, and no field of a record that has such a name.
fn begins_row(symbols: &[Symbol]) -> bool {
    let [first, second, ..] = symbols else { return false };
    ROWS.iter().any(|(name, _, _)| *name == first.text) && second.text != ":"
}

/// Whether the form of a procedure is next, which has no mark before it.
fn begins_procedure(table: usize, line: &Line) -> bool {
    table == PROCEDURES && line.is_at("at")
}
