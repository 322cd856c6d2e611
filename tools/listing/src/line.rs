//! The symbols of a row, read one after the other.
use crate::forms::Operand;
use crate::symbols::{Symbol, Wrong};
use crate::{KINDS_OF_VARIABLES, OPERATORS, ROWS, SCALARS, TYPES};

/// The words of listings that stand in no other table.
const OTHER_WORDS: &str = "ARRAY OF RECORD END FALSE TRUE IF NOT GOTO RETURN READ WRITE HALT row at parameters locals \
                           variable of element guard to test for argument call arguments from";

fn is_word_of_listings(word: &str) -> bool {
    let tables: [&[&str]; 3] = [&SCALARS, &KINDS_OF_VARIABLES, &OPERATORS];
    let is_other = OTHER_WORDS.split(' ').any(|other| other == word);
    is_other || ROWS.iter().any(|(name, _, _)| *name == word) || tables.iter().any(|words| words.contains(&word))
}

/// The symbols that give a row, and which one is next.
pub struct Line<'a> {
    pub symbols: Vec<Symbol<'a>>,
    at: usize,
}

impl<'a> Line<'a> {
    /// There is at least one symbol.
    pub fn new(symbols: Vec<Symbol<'a>>) -> Line<'a> {
        Line { symbols, at: 0 }
    }

    pub fn next(&self) -> Option<Symbol<'a>> {
        self.symbols.get(self.at).copied()
    }

    fn peek(&self) -> &'a str {
        self.next().map_or("", |symbol| symbol.text)
    }

    pub fn is_at(&self, symbol: &str) -> bool {
        self.peek() == symbol
    }

    pub fn is_at_number(&self) -> bool {
        self.peek().starts_with(|c: char| c.is_ascii_digit())
    }

    pub fn is_at_word(&self) -> bool {
        self.peek().starts_with(|c: char| c.is_ascii_alphabetic())
    }

    fn is_at_free_name(&self) -> bool {
        self.is_at_word() && !is_word_of_listings(self.peek())
    }

    /// Whether a row's name or number is next.
    pub fn is_at_row(&self) -> bool {
        self.is_at_number() || self.is_at_free_name()
    }

    pub fn expected(&self, what: &str) -> Wrong {
        match self.next() {
            Some(found) => found.wrong(format!("expected {what}, not '{}'", found.text)),
            None => {
                let last = self.symbols[self.symbols.len() - 1];
                last.wrong_behind(format!("expected {what}, and the line ends"))
            }
        }
    }

    /// Whether that symbol is next; if so, goes past it.
    pub fn takes(&mut self, symbol: &str) -> bool {
        let there = self.is_at(symbol);
        self.at += there as usize;
        there
    }

    /// Which of the words is next; goes past it.
    pub fn takes_one(&mut self, words: &[&str]) -> Option<usize> {
        words.iter().position(|word| self.takes(word))
    }

    pub fn take(&mut self, symbol: &str) -> Result<(), Wrong> {
        if self.takes(symbol) {
            Ok(())
        } else {
            Err(self.expected(&format!("'{symbol}'")))
        }
    }

    pub fn end(&self) -> Result<(), Wrong> {
        match self.next() {
            None => Ok(()),
            Some(_) => Err(self.expected("the end of the line")),
        }
    }

    pub fn number_to(&mut self, most: u32) -> Result<u32, Wrong> {
        if !self.is_at_number() {
            return Err(self.expected("a number"));
        }
        match self.peek().parse::<u32>() {
            Ok(number) if number <= most => {
                self.at += 1;
                Ok(number)
            }
            _ => Err(self.expected(&format!("a number of 0 to {most}"))),
        }
    }

    pub fn number(&mut self) -> Result<u16, Wrong> {
        self.number_to(u16::MAX as u32).map(|number| number as u16)
    }

    /// Any word: the name of a variable or a field.
    pub fn word(&mut self) -> Result<Symbol<'a>, Wrong> {
        match self.next() {
            Some(word) if self.is_at_word() => {
                self.at += 1;
                Ok(word)
            }
            _ => Err(self.expected("a name")),
        }
    }

    /// A word that is none of listings'.
    pub fn free_name(&mut self) -> Result<Symbol<'a>, Wrong> {
        if self.is_at_free_name() {
            self.word()
        } else {
            Err(self.expected("a name that is no word of listings"))
        }
    }

    /// A row of a table, by its name or number.
    pub fn row(&mut self, table: usize) -> Result<Operand<'a>, Wrong> {
        if self.is_at_number() {
            return self.number().map(Operand::Number);
        }
        if self.is_at_free_name() {
            return self.word().map(|name| Operand::Row { table, name });
        }
        Err(self.expected(&format!("the name or number of a {}", ROWS[table].0)))
    }

    /// A type: a scalar, or a row.
    pub fn type_row(&mut self) -> Result<Operand<'a>, Wrong> {
        if let Some(scalar) = self.takes_one(&SCALARS) {
            return Ok(Operand::Number(scalar as u16));
        }
        if self.is_at_row() {
            return self.row(TYPES);
        }
        Err(self.expected("BOOLEAN, INTEGER, SET or the name or number of a type"))
    }
}

#[cfg(test)]
mod tests {
    use super::is_word_of_listings;

    #[test]
    fn the_words_of_the_forms_are_no_names() {
        let forms = include_str!("forms.txt").split("\n\n").next().unwrap();
        let words = forms.split(|c: char| !c.is_ascii_alphabetic()).filter(|word| word.len() > 1);
        for word in words.filter(|word| !["ROW", "NAME", "TYPE", "OPERATOR", "length", "count"].contains(word)) {
            assert!(is_word_of_listings(word), "{word}");
        }
    }
}
