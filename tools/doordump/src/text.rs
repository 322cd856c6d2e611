//! Text in which the names of rows lead to these rows.
use crate::dump::Mark;
use listing::{children, row_line, row_text, Names, Row, Tables, NODES, PROCEDURES, TYPES, VARIABLES};

/// These stand around a name that leads to a row, and between the row and the name. No name has them.
const BEGIN: char = '\u{1}';
const MIDDLE: char = '\u{2}';
const END: char = '\u{3}';

/// A part of a text, and the row that it leads to.
#[derive(Clone, Debug, PartialEq, Eq)]
pub struct Piece {
    pub text: String,
    pub to: Option<Mark>,
}

/// A text in pieces.
#[derive(Clone, Debug, Default, PartialEq, Eq)]
pub struct Text {
    pub pieces: Vec<Piece>,
}

impl Text {
    /// A text whose names were given by `leading`.
    pub fn of(words: &str) -> Text {
        let mut text = Text::default();
        for part in words.split(BEGIN) {
            match parted(part) {
                Some((to, name, rest)) => {
                    text.push(name, Some(to));
                    text.push(rest, None);
                }
                None => text.push(part, None),
            }
        }
        text
    }

    pub fn push(&mut self, text: &str, to: Option<Mark>) {
        if !text.is_empty() {
            self.pieces.push(Piece { text: text.to_string(), to });
        }
    }

    /// The text with another after it.
    pub fn then(mut self, other: Text) -> Text {
        self.pieces.extend(other.pieces);
        self
    }

    pub fn plain(&self) -> String {
        self.pieces.iter().map(|piece| piece.text.as_str()).collect()
    }
}

/// The row, the name that leads to it, and what follows, of a part that begins with a name.
fn parted(part: &str) -> Option<(Mark, &str, &str)> {
    let (place, rest) = part.split_once(MIDDLE)?;
    let (name, rest) = rest.split_once(END)?;
    let (table, row) = place.split_once(' ')?;
    Some((Mark { table: table.parse().ok()?, row: row.parse().ok()? }, name, rest))
}

/// A name that leads to a row.
pub fn led(Mark { table, row }: Mark, name: &str) -> String {
    format!("{BEGIN}{table} {row}{MIDDLE}{name}{END}")
}

/// The names, so that those of types, variables and procedures lead to their rows.
pub fn leading(tables: &Tables, names: &Names) -> Names {
    let mut leading = names.clone();
    let mut give = |table: usize, name: &dyn Fn(usize) -> String| {
        for row in 0..tables[table].len() {
            leading.give(table, row, &led(Mark { table, row }, &name(row)));
        }
    };
    give(TYPES, &|row| names.declared_type(row));
    give(VARIABLES, &|row| names.variable(row));
    give(PROCEDURES, &|row| names.procedure(row));
    leading
}

/// The line of a node by itself, whose children lead to their rows.
pub fn node_line(at: usize, row: Row) -> Text {
    let line = row_line(NODES, at, row);
    let mut left = if row_text(NODES, at, row).is_some() { children(row) } else { Vec::new() };
    let mut words: Vec<(&str, Option<Mark>)> = line.split(' ').map(|word| (word, None)).collect();
    // From the right, since the children's numbers come last.
    for (word, to) in words.iter_mut().rev() {
        if let Some(row) = left.pop_if(|child| child.to_string() == *word) {
            *to = Some(Mark { table: NODES, row });
        }
    }
    let mut text = Text::default();
    for (k, (word, to)) in words.into_iter().enumerate() {
        text.push(if k == 0 { "" } else { " " }, None);
        text.push(word, to);
    }
    text
}
