//! What is said of files, as text.
use crate::explanation::{Entry, Explanation};
use crate::told::Told;
use doordump::line::Line;
use model::words::counted;

/// The width of an explanation's words.
const WIDTH: usize = 93;

/// The least width of what stands before them.
const LABEL: usize = 9;

/// Everything of the files, or a report without a file. Several files have lines with their names between them, and how
/// many there are of each sort at the end.
pub fn of(answers: &[Result<Told, String>], report: Option<&Explanation>) -> String {
    let mut text = report.map_or_else(String::new, explanation);
    let several = answers.len() > 1;
    for told in answers.iter().flatten() {
        if several {
            text += &format!("==== {}\n", told.name);
        }
        text += &of_file(told);
        text += if several { "\n" } else { "" };
    }
    if several {
        text += &format!("==== {}\n", sum(answers));
    }
    text
}

/// How many files there are, and of each sort.
pub fn sum(answers: &[Result<Told, String>]) -> String {
    let count = |status: Option<u8>| {
        answers.iter().filter(|answer| answer.as_ref().map(|told| told.status).ok() == status).count()
    };
    let sorts = [(Some(0), "accepted"), (Some(1), "refused"), (None, "without an answer"), (Some(3), "DIFFERING")];
    let sorts = sorts.into_iter().map(|(status, sort)| (count(status), sort)).filter(|(count, _)| *count > 0);
    let sorts: Vec<String> = sorts.map(|(count, sort)| format!("{count} {sort}")).collect();
    format!("{}: {}", counted(answers.len(), "file"), sorts.join(", "))
}

/// Everything of a file.
fn of_file(told: &Told) -> String {
    let mut text = format!("{}: {}\n{}\n", told.name, told.head, told.verdict);
    for note in &told.notes {
        text += &format!("{note}\n");
    }
    for line in told.lines.iter().map(Line::plain) {
        text += &format!("{line}\n");
    }
    for explained in &told.explanations {
        text += &format!("\n{}", explanation(explained));
    }
    if let Some(stopped) = &told.stopped {
        text += &format!("\n{stopped}\n");
    }
    text
}

/// A file in a line.
pub fn brief(told: &Told) -> String {
    format!("{}: {}\n", told.name, told.brief)
}

/// An explanation: its title, and its parts below.
pub fn explanation(explained: &Explanation) -> String {
    let parts: Vec<(&str, Vec<String>)> = explained.entries.iter().map(part).collect();
    let width = parts.iter().map(|(label, _)| label.len()).fold(LABEL, usize::max);
    let mut text = format!("{}\n", explained.title);
    for (label, lines) in parts {
        for (k, line) in lines.iter().enumerate() {
            text += &format!("  {:<width$}  {line}\n", if k == 0 { label } else { "" });
        }
    }
    text
}

/// What stands before a part, and its lines.
fn part(entry: &Entry) -> (&'static str, Vec<String>) {
    match entry {
        Entry::Said(label, words) => (label, wrapped(words)),
        Entry::Rules(_, Some(broken)) => ("rule", wrapped(broken.words)),
        Entry::Rules(rules, None) => ("rules", rules.iter().flat_map(|rule| wrapped(rule.words)).collect()),
    }
}

/// Words in lines of a width, where they have gaps.
fn wrapped(words: &str) -> Vec<String> {
    let mut lines = vec![String::new()];
    for word in words.split(' ') {
        let line = lines.last_mut().expect("there is a first line");
        if line.is_empty() {
            *line = word.to_string();
        } else if line.len() + 1 + word.len() <= WIDTH {
            *line += &format!(" {word}");
        } else {
            lines.push(word.to_string());
        }
    }
    lines
}
