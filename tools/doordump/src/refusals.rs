//! What the numbers of refusals mean, in the words of docs/REFUSALS.md.
use crate::dump::NAMES;
use listing::{NODES, PROCEDURES, ROWS, STATEMENTS, TYPES, VARIABLES};
use model::rules::{self, Rule};

/// The last refusal that is about the file; those after it are about what the reader lends.
pub const LAST_OF_FILE: u32 = 11;

/// A reader's one number is the refusal times this, plus the row.
const ROWS_OF_NUMBER: u32 = 65536;

/// A refusal and its row as one number.
pub fn number_of(refusal: u32, row: u32) -> u32 {
    refusal * ROWS_OF_NUMBER + row
}

/// The refusal and the row in one number.
pub fn parted(number: u32) -> (u32, u32) {
    (number / ROWS_OF_NUMBER, number % ROWS_OF_NUMBER)
}

/// The eleven questions, in document 01's words.
pub const QUESTIONS: [&str; LAST_OF_FILE as usize] = [
    "Is there a first byte, and is it 1?",
    "Are bytes 1 to 4 present, equal to the image's length?",
    "Are the counts in range, and do the tables fill the image exactly?",
    "Does each type row, with its own fields, keep its rule?",
    "Does each variable row keep its form, type row existing, no global after another kind?",
    "Does each procedure row keep its rule?",
    "Is each node well formed, its rows existing?",
    "Is each statement well formed, its rows existing?",
    "Is each node named exactly once, by a node or statement?",
    "Has each node a type?",
    "Does each statement keep its type and variable rules?",
];

/// Refusals 1 to 14 in plain words.
pub const IN_SHORT: [&str; 14] = [
    "This is no door program, or one of another version.",
    "The file is cut off, or has too much in it.",
    "The parts of the file do not fit together.",
    "A type is wrong.",
    "A variable is wrong.",
    "A procedure is wrong.",
    "A piece of an expression (a node) is wrong.",
    "A statement is wrong.",
    "A node is not used, or is used twice.",
    "A node mixes what does not go together, as a number and a set.",
    "A statement mixes what does not go together, or uses what is not its own.",
    "The reader lends the program too much memory.",
    "The reader lends the program too little memory.",
    "The reader cannot go on with the program: what it kept of it is not what the program left.",
];

/// What usually went wrong, and what to do, up to and with a refusal.
pub const CAUSES: [(u32, &str, &str); 7] = [
    (
        1,
        "A wrong or empty file, or one for a newer reader.",
        "Send the right file. Ask the tool maker for version 1.",
    ),
    (
        2,
        "The transfer broke off, or the file was sent as text.",
        "Send it again, as binary; then another way.",
    ),
    (
        3,
        "Bytes were changed on the way; or an old or wrong tool.",
        "Send it again; then another way. Then ask the tool maker.",
    ),
    (
        LAST_OF_FILE,
        "The tool that made the file has a mistake; or bytes changed.",
        "Send it again. Then give the tool maker both numbers.",
    ),
    (
        12,
        "The reader is set to more than 65,536 cells.",
        "Ask the maker of the reader's firmware.",
    ),
    (
        13,
        "The program has more variables than the reader has room for.",
        "Give it more cells, or ask the author for a smaller program.",
    ),
    (
        14,
        "Memory changed while the program waited, as by a power loss; or a new file came meanwhile, or fewer cells \
         were set.",
        "Show the card again. If it comes back often, change the reader's battery or the reader; then ask the maker of \
         its firmware.",
    ),
];

/// What usually went wrong, and what to do about it.
pub fn cause(refusal: u32) -> Option<(&'static str, &'static str)> {
    CAUSES.iter().find(|(last, _, _)| (1..=*last).contains(&refusal)).map(|(_, usually, to_do)| (*usually, *to_do))
}

/// The table whose row a refusal gives.
pub fn table_of(refusal: u32) -> Option<usize> {
    match refusal {
        4 => Some(TYPES),
        5 => Some(VARIABLES),
        6 => Some(PROCEDURES),
        7 | 9 | 10 => Some(NODES),
        8 | 11 => Some(STATEMENTS),
        _ => None,
    }
}

/// What it is where a refusal's row is the count of its table: the row of another table that belongs to none of it.
pub fn unclaimed(refusal: u32) -> Option<&'static str> {
    match refusal {
        4 => Some("a field belongs to no record"),
        6 => Some("a variable belongs to no procedure"),
        _ => None,
    }
}

/// The highest row that a refusal can give.
pub fn highest_row(refusal: u32) -> usize {
    let most = table_of(refusal).map_or(0, |table| ROWS[table].2);
    if unclaimed(refusal).is_some() {
        most
    } else {
        most.saturating_sub(1)
    }
}

/// The rules of refusals 1 to 13. What 14 asks of a reader's memory is no matter of a file.
pub fn rules_of(refusal: u32) -> Vec<&'static Rule> {
    let all = rules::ALL.iter().chain(&rules::STORE);
    all.copied().filter(|rule| rule.question == refusal).collect()
}

/// A refusal in a line.
pub fn answer(refusal: u32, row: u32) -> String {
    match (refusal, table_of(refusal)) {
        (0, _) => "accepted".to_string(),
        (_, Some(table)) => format!("refused by question {refusal} at {} row {row}", NAMES[table]),
        (1..=LAST_OF_FILE, None) => format!("refused by question {refusal}"),
        (_, None) => format!("accepted, and the run refused by {refusal}"),
    }
}

#[cfg(test)]
mod tests {
    use super::*;

    #[test]
    fn the_questions_are_those_of_document_01() {
        let document = include_str!("../../../docs/spec/01-scope.md");
        for (k, question) in QUESTIONS.iter().enumerate() {
            assert!(document.contains(&format!("\n{}. {question}", k + 1)), "{question}");
        }
    }
}
