//! The symbols of a listing, and mistakes at them.
use std::fmt;

/// A mistake in a listing: where it is, lines and characters counted from 1, and what it is.
#[derive(Clone, Debug, PartialEq, Eq)]
pub struct Wrong {
    pub line: usize,
    pub column: usize,
    pub message: String,
}

impl fmt::Display for Wrong {
    fn fmt(&self, to: &mut fmt::Formatter) -> fmt::Result {
        write!(to, "{}:{}: {}", self.line, self.column, self.message)
    }
}

/// A word, a number or a sign, and where it begins.
#[derive(Clone, Copy, Debug)]
pub struct Symbol<'a> {
    pub text: &'a str,
    pub line: usize,
    pub column: usize,
}

impl Symbol<'_> {
    pub fn wrong(&self, message: String) -> Wrong {
        Wrong { line: self.line, column: self.column, message }
    }

    /// A mistake behind the symbol: all symbols are ASCII.
    pub fn wrong_behind(&self, message: String) -> Wrong {
        Wrong { line: self.line, column: self.column + self.text.len(), message }
    }
}

/// The symbols of a line without its comment, and what is wrong with its characters.
pub fn symbols(line: usize, bytes: &[u8]) -> (Vec<Symbol<'_>>, Vec<Wrong>) {
    let (text, is_text) = match std::str::from_utf8(bytes) {
        Ok(text) => (text, true),
        Err(error) => (std::str::from_utf8(&bytes[..error.valid_up_to()]).unwrap_or(""), false),
    };
    let (mut found, mut wrong) = (Vec::new(), Vec::new());
    let mut rest = text.split("--").next().unwrap_or("");
    let mut column = 1;
    while let Some(first) = rest.chars().next() {
        let length = length_of_symbol(rest);
        if length > 0 {
            found.push(Symbol { text: &rest[..length], line, column });
        } else if !first.is_whitespace() {
            wrong.push(Wrong { line, column, message: format!("'{}' begins no symbol", first.escape_default()) });
        }
        rest = &rest[length.max(first.len_utf8())..];
        column += length.max(1);
    }
    if !is_text {
        let column = text.chars().count() + 1;
        wrong.push(Wrong { line, column, message: "this is no text in UTF-8".to_string() });
    }
    (found, wrong)
}

/// How many characters the symbol has that a text begins with; 0 where there is none.
fn length_of_symbol(text: &str) -> usize {
    if text.starts_with(|c: char| c.is_ascii_alphanumeric()) {
        text.find(|c: char| !c.is_ascii_alphanumeric()).unwrap_or(text.len())
    } else if [":=", "..", "<=", ">="].iter().any(|sign| text.starts_with(sign)) {
        2
    } else {
        text.starts_with(|c: char| "+-*/=#<>&~:;,(){}".contains(c)) as usize
    }
}
