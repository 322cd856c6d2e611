//! What is said of files, as one page that needs no other file.
use crate::explanation::{Entry, Explanation};
use crate::plain::sum;
use crate::told::Told;
use doordump::dump::{Mark, NAMES};
use doordump::line::{Line, Sign};
use doordump::text::Piece;
use model::rules::Rule;
use std::collections::HashSet;

const STYLE: &str = include_str!("page.css");

/// The page for files, with a list of them where there are several, or for a report without a file.
pub fn of(answers: &[Result<Told, String>], report: Option<&Explanation>) -> String {
    let (title, body) = match (answers, report) {
        ([Ok(told)], _) => (format!("{}: {}", told.name, told.verdict), Section::new(1, 1).told(told)),
        (_, Some(explained)) => (explained.title.clone(), Section::new(1, 0).explanation(explained, true)),
        _ => (sum(answers), several(answers)),
    };
    format!(
        "<!DOCTYPE html>\n<html lang=\"en\">\n<head>\n<meta charset=\"utf-8\">\n\
         <meta name=\"viewport\" content=\"width=device-width, initial-scale=1\">\n\
         <title>{}</title>\n<style>\n{STYLE}</style>\n</head>\n<body>\n{body}</body>\n</html>\n",
        escaped(&title)
    )
}

/// Several files: a list, and each below it.
fn several(answers: &[Result<Told, String>]) -> String {
    let mut text = element("h1", "", &escaped(&sum(answers))) + &list(answers);
    for (k, told) in answers.iter().enumerate() {
        text += &told.as_ref().map_or_else(|_| String::new(), |told| Section::new(k + 1, 2).told(told));
    }
    text
}

/// The files, each in a line that leads to its section.
fn list(answers: &[Result<Told, String>]) -> String {
    let items = answers.iter().enumerate().map(|(k, answer)| match answer {
        Ok(told) => {
            let name = link(&Section::new(k + 1, 2).id("file"), "", &escaped(&told.name));
            element("li", class(told.status), &format!("{name}: {}", escaped(&told.brief)))
        }
        Err(message) => element("li", class(2), &escaped(message)),
    });
    element("ul", "files", &format!("\n{}", items.collect::<String>()))
}

/// How a status looks.
fn class(status: u8) -> &'static str {
    match status {
        0 => "accepted",
        _ => "refused",
    }
}

/// A file's part of the page. Its ids begin with the file's number.
struct Section {
    number: usize,
    /// That of its heading; those within it have the next.
    level: usize,
    /// The rows that have an id.
    rows: HashSet<Mark>,
}

impl Section {
    fn new(number: usize, level: usize) -> Section {
        Section { number, level, rows: HashSet::new() }
    }

    fn heading(&self, deeper: usize, body: &str) -> String {
        element(&format!("h{}", self.level + deeper), "", body)
    }

    fn id(&self, what: &str) -> String {
        format!("{what}-{}", self.number)
    }

    fn id_of_row(&self, Mark { table, row }: Mark) -> String {
        let row = if row == Mark::UNCLAIMED { "none".to_string() } else { row.to_string() };
        self.id(&format!("{}-{row}-of", NAMES[table]))
    }

    fn told(mut self, told: &Told) -> String {
        let lines: Vec<(&Line, bool)> = told.lines.iter().map(|line| (line, self.is_first(line))).collect();
        let place = told.explanations.first().filter(|explained| explained.title == told.verdict);
        let place = place.and_then(|explained| explained.place);
        let mut text = self.heading(0, &escaped(&told.name));
        text += &element("p", &format!("verdict {}", class(told.status)), &self.to_row(place, &told.verdict));
        text += &element("p", "head", &escaped(&told.head));
        text.extend(told.notes.iter().map(|note| element("p", "note", &escaped(note))));
        for explained in &told.explanations {
            text += &self.explanation(explained, explained.title != told.verdict);
        }
        if let Some(stopped) = &told.stopped {
            text += &element_with("p", "note", &self.id("stopped"), &escaped(stopped));
        }
        let lines = lines.into_iter().map(|(line, first)| self.line(line, first, told));
        text += &element("div", "dump", &format!("\n{}", lines.collect::<String>()));
        text.extend(told.explanations.iter().map(|explained| self.rules(explained)));
        element_with("section", "", &self.id("file"), &format!("\n{text}"))
    }

    /// Whether a line is the first of its row, which has the row's id.
    fn is_first(&mut self, line: &Line) -> bool {
        line.place.is_some_and(|place| self.rows.insert(place))
    }

    fn line(&self, line: &Line, first: bool, told: &Told) -> String {
        if line.text.pieces.is_empty() {
            return element("div", "gap", "");
        }
        let sign = self.sign(line.sign, told);
        let text: String = line.text.pieces.iter().map(|piece| self.piece(piece, line.place)).collect();
        let body = format!("{sign} {text}");
        match line.place.filter(|_| first) {
            Some(place) => element_with("div", line_class(line.sign), &self.id_of_row(place), &body),
            None => element("div", line_class(line.sign), &body),
        }
    }

    /// What stands before a line, and leads to what is said of it.
    fn sign(&self, sign: Sign, told: &Told) -> String {
        let text = escaped(sign.text());
        let to = match sign {
            Sign::Marked if told.stopped.is_some() && told.explanations.is_empty() => "stopped",
            Sign::Marked if told.explanations.iter().any(|explained| explained.broken_rule().is_some()) => "rule",
            Sign::Marked => "why",
            Sign::Reported => "report",
            Sign::None | Sign::Differs => return text,
        };
        link(&self.id(to), "", &text)
    }

    /// A piece of a line, which leads to its row where the page has it in another line.
    fn piece(&self, piece: &Piece, own: Option<Mark>) -> String {
        let text = escaped(&piece.text);
        match piece.to.filter(|to| Some(*to) != own && self.rows.contains(to)) {
            Some(to) => link(&self.id_of_row(to), "row", &text),
            None => text,
        }
    }

    /// A text that leads to a row, where the page has it.
    fn to_row(&self, place: Option<Mark>, text: &str) -> String {
        match place.filter(|place| self.rows.contains(place)) {
            Some(place) => link(&self.id_of_row(place), "", &escaped(text)),
            None => escaped(text),
        }
    }

    fn explanation(&self, explained: &Explanation, with_title: bool) -> String {
        let title = self.heading(1, &self.to_row(explained.place, &explained.title));
        let entries: String = explained.entries.iter().map(|entry| self.entry(entry, explained.place)).collect();
        let list = element("dl", "", &format!("\n{entries}"));
        let body = format!("\n{}{list}", if with_title { &title } else { "" });
        element_with("div", "explanation", &self.id(explained.id), &body)
    }

    fn entry(&self, entry: &Entry, place: Option<Mark>) -> String {
        let (label, words) = match entry {
            Entry::Said(label @ "row", words) => (*label, self.to_row(place, words)),
            Entry::Said(label, words) => (*label, escaped(words)),
            Entry::Rules(_, Some(broken)) => ("rule", link(&self.id("rule"), "", &escaped(broken.words))),
            Entry::Rules(rules, None) => ("rules", self.rule_list(rules, None, place)),
        };
        element("dt", "", &escaped(label)) + &element("dd", "", &words)
    }

    /// The rules of a question of which one is broken.
    fn rules(&self, explained: &Explanation) -> String {
        let Some((rules, broken)) = explained.broken_rule() else { return String::new() };
        let heading = format!("The rules of question {}, in the order in which they are asked", broken.question);
        self.heading(1, &heading) + &self.rule_list(rules, Some(broken), explained.place)
    }

    /// Rules; the broken one leads to the row that breaks it.
    fn rule_list(&self, rules: &[&'static Rule], broken: Option<&Rule>, place: Option<Mark>) -> String {
        let items = rules.iter().map(|rule| {
            if broken == Some(rule) {
                element_with("li", "broken", &self.id("rule"), &self.to_row(place, rule.words))
            } else {
                element("li", "", &escaped(rule.words))
            }
        });
        element("ul", "rules", &format!("\n{}", items.collect::<String>()))
    }
}

/// How a line looks.
fn line_class(sign: Sign) -> &'static str {
    match sign {
        Sign::None => "line",
        Sign::Marked => "line marked",
        Sign::Reported => "line reported",
        Sign::Differs => "line differs",
    }
}

fn element(tag: &str, class: &str, body: &str) -> String {
    element_with(tag, class, "", body)
}

/// An element, whose body is in HTML already. A class or id that is empty is left out.
fn element_with(tag: &str, class: &str, id: &str, body: &str) -> String {
    format!("<{tag}{}{}>{body}</{tag}>\n", attribute("id", id), attribute("class", class))
}

/// A link to an id of the page.
fn link(id: &str, class: &str, body: &str) -> String {
    format!("<a href=\"#{id}\"{}>{body}</a>", attribute("class", class))
}

fn attribute(name: &str, value: &str) -> String {
    match value {
        "" => String::new(),
        _ => format!(" {name}=\"{}\"", escaped(value)),
    }
}

/// A text in HTML.
fn escaped(text: &str) -> String {
    let sign = |c: char| match c {
        '&' => "&amp;".to_string(),
        '<' => "&lt;".to_string(),
        '>' => "&gt;".to_string(),
        '"' => "&quot;".to_string(),
        '\'' => "&#39;".to_string(),
        _ => c.to_string(),
    };
    text.chars().map(sign).collect()
}
