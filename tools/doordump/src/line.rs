//! The lines of a dump, each with its sign and its row.
use crate::dump::Mark;
use crate::text::Text;

/// What stands before a line.
#[derive(Clone, Copy, Debug, PartialEq, Eq)]
pub enum Sign {
    None,
    /// The refused row, or the statement that a run stopped at.
    Marked,
    /// The row of a reader's report that is not this image's.
    Reported,
    /// A row that differs from the good image's.
    Differs,
}

impl Sign {
    pub fn text(self) -> &'static str {
        match self {
            Sign::None => "  ",
            Sign::Marked => ">>",
            Sign::Reported => "->",
            Sign::Differs => "<>",
        }
    }
}

/// A line, and the row that it is of; without text it parts those before and after it.
#[derive(Clone, Debug, PartialEq, Eq)]
pub struct Line {
    pub sign: Sign,
    pub place: Option<Mark>,
    pub text: Text,
}

impl Line {
    /// A line that is of no row.
    pub fn new(text: &str) -> Line {
        Line { sign: Sign::None, place: None, text: Text::of(text) }
    }

    pub fn plain(&self) -> String {
        let text = self.text.plain();
        if text.is_empty() {
            text
        } else {
            format!("{} {text}", self.sign.text())
        }
    }
}
