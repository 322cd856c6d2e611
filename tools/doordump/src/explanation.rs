//! What is said of a refusal, for text and page alike.
use doordump::dump::{Mark, NAMES};
use doordump::refusals::number_of;
use listing::{Row, Tables};
use model::rules::Rule;

/// A refusal, or a report of one, explained.
pub struct Explanation {
    /// What a page calls it: "why" for a verdict's, "report" for a report's.
    pub id: &'static str,
    pub title: String,
    /// The row that it is about.
    pub place: Option<Mark>,
    pub entries: Vec<Entry>,
}

impl Explanation {
    /// The rules of its question and the broken one, where that is known.
    pub fn broken_rule(&self) -> Option<(&[&'static Rule], &'static Rule)> {
        self.entries.iter().find_map(|entry| match entry {
            Entry::Rules(rules, Some(broken)) => Some((&rules[..], *broken)),
            _ => None,
        })
    }
}

/// A part of an explanation.
pub enum Entry {
    /// What it is, and the words.
    Said(&'static str, String),
    /// The rules of a question, of which one may be known to be broken.
    Rules(Vec<&'static Rule>, Option<&'static Rule>),
}

/// How a reader shows a refusal.
pub fn shown(refusal: u32, row: u32) -> Entry {
    Entry::Said("reader", format!("shows refusal {refusal} and row {row}, or {}", number_of(refusal, row)))
}

/// A row of these tables: its numbers, and its bytes in the file. Nothing where it is not there.
pub fn row_entries(tables: &Tables, place: Mark) -> Vec<Entry> {
    let Some(row) = place.row_in(tables) else { return Vec::new() };
    let Row { kind, zero, a, b, c } = row;
    let (first, name) = (offset(tables, place), NAMES[place.table]);
    let last = first + 7;
    let numbers = format!("{name} {}: kind {kind}, zero byte {zero}, a {a}, b {b}, c {c}", place.row);
    let digits = format!("{kind:02x} {zero:02x} {a:04x} {b:04x} {c:04x}");
    vec![
        Entry::Said("row", numbers),
        Entry::Said("bytes", format!("{first} to {last} (hexadecimal {first:x} to {last:x}): {digits}")),
    ]
}

/// Where a row begins in the image: five bytes, two for each count, eight for each row before it.
fn offset(tables: &Tables, place: Mark) -> usize {
    let before: usize = tables[..place.table].iter().map(|table| 2 + 8 * table.len()).sum();
    5 + before + 2 + 8 * place.row
}
