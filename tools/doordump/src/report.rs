//! A reader's report: a refusal and its row, as the display shows them.
use crate::explanation::{row_entries, shown, Entry, Explanation};
use crate::verdict::{cells_to_begin, Verdict};
use doordump::dump::{Mark, NAMES};
use doordump::refusals::{
    answer, cause, highest_row, parted, rules_of, table_of, unclaimed, IN_SHORT, LAST_OF_FILE, QUESTIONS,
};
use listing::{row_line, Tables, ROWS};
use model::machine::MOST_CELLS;

/// What to do where the reader refuses a file that is accepted here.
const CHANGED: &str = "\
    Send this file again. If the reader refuses it again, the transfer or the reader changes it: send it another way. \
    If the reader can give back what it has, doordump --against shows what changed.";

/// What to do where both are refused, not with the same numbers.
const BOTH: &str = "\
    Look whether this is the file that was sent. If it is, both it and the transfer are at fault: give its tool maker \
    this text and the file, and look at cable, radio and memory card.";

/// What to do where this file is refused, and the reader accepted its own.
const OTHER: &str = "The reader accepted its file, so that it is not this one. Look for the file that was sent.";

#[derive(Clone, Copy, PartialEq, Eq)]
pub struct Report {
    refusal: u32,
    row: u32,
}

impl Report {
    /// A refusal and a row, where a reader can show them.
    pub fn of(refusal: u32, row: u32) -> Result<Report, String> {
        if refusal as usize > IN_SHORT.len() {
            return Err(format!("there is no refusal {refusal}: they are 1 to {}", IN_SHORT.len()));
        }
        match (highest_row(refusal), table_of(refusal)) {
            (highest, _) if row as usize <= highest => Ok(Report { refusal, row }),
            (_, None) => Err(format!("refusal {refusal} has row 0, and never {row}")),
            (highest, Some(table)) => {
                Err(format!("refusal {refusal} has {} rows 0 to {highest}, and never {row}", NAMES[table]))
            }
        }
    }

    /// The same as one number: refusal times 65,536, and the row.
    pub fn of_number(number: u32) -> Result<Report, String> {
        match parted(number) {
            (0, row) if row > 0 => Err(format!(
                "{number} is not a reader's one number, which is 65536 at least; a refusal and its row are told by \
                 --refusal REFUSAL ROW"
            )),
            (refusal, row) => Report::of(refusal, row).map_err(|wrong| format!("{number}: {wrong}")),
        }
    }

    /// The row of the tables that it names.
    pub fn place(&self) -> Option<Mark> {
        table_of(self.refusal).map(|table| Mark { table, row: self.row as usize })
    }

    /// Whether it can come from a reader that has this file: the check's answer or, behind an accepted file, what is
    /// about the reader's memory.
    pub fn is_of(&self, verdict: &Verdict) -> bool {
        let of_file = if self.refusal > LAST_OF_FILE { (0, 0) } else { (self.refusal, self.row) };
        of_file == (verdict.refusal(), verdict.row())
    }

    /// In a line: whether a file gives it.
    pub fn note(&self, verdict: &Verdict) -> String {
        let Report { refusal, row } = self;
        let report = format!("the reader's report, refusal {refusal} and row {row}");
        match self.is_of(verdict) {
            true if *refusal > LAST_OF_FILE => format!("{report}, comes behind an accepted file such as this one"),
            true => format!("{report}, is what this file gives"),
            false => format!("{report}, is NOT what this file gives: the reader has another file, or a damaged copy"),
        }
    }

    /// What it means; without a file.
    pub fn explained(&self) -> Explanation {
        self.explained_with(Vec::new(), Vec::new(), None)
    }

    /// What it means beside a file; nothing where the verdict's own explanation says it.
    pub fn explained_beside(&self, verdict: &Verdict, tables: Option<&Tables>) -> Option<Explanation> {
        if !self.is_of(verdict) {
            let this_file = Entry::Said("this file", format!("gives another answer: {}", verdict.numbers()));
            let to_do = match (self.refusal, verdict.refusal()) {
                (_, 0) => CHANGED,
                (1..=LAST_OF_FILE, _) => BOTH,
                _ => OTHER,
            };
            return Some(self.explained_with(vec![this_file], self.row_of(tables), Some(to_do)));
        }
        let program = verdict.program().filter(|_| self.refusal > LAST_OF_FILE)?;
        let (cells, never) = (cells_to_begin(program), " That is more than a reader may lend: it never runs.");
        let needs = format!("is accepted. A run of it needs {cells} cells to begin, and more for calls.");
        let this_file = needs + if cells > MOST_CELLS { never } else { "" };
        Some(self.explained_with(vec![Entry::Said("this file", this_file)], Vec::new(), None))
    }

    /// The row of the report in a file that gives another answer.
    fn row_of(&self, tables: Option<&Tables>) -> Vec<Entry> {
        let (Some(tables), Some(place)) = (tables, self.place()) else { return Vec::new() };
        let Mark { table, row } = place;
        let name = NAMES[table];
        match place.row_in(tables) {
            None => {
                let rows = tables[table].len();
                vec![Entry::Said("row", format!("{name} {row}: this file has no such row; it has {rows}, from 0 on"))]
            }
            Some(there) => {
                let mut entries = vec![Entry::Said("there", row_line(table, row, there))];
                entries.extend(row_entries(tables, place));
                entries
            }
        }
    }

    fn explained_with(&self, first: Vec<Entry>, row: Vec<Entry>, to_do: Option<&str>) -> Explanation {
        let mut entries = vec![shown(self.refusal, self.row)];
        entries.extend(first);
        entries.extend(self.meaning());
        entries.extend(row);
        entries.extend(match (to_do, cause(self.refusal)) {
            (Some(to_do), _) => vec![said("to do", to_do)],
            (None, Some((usually, to_do))) => vec![said("usually", usually), said("to do", to_do)],
            (None, None) => Vec::new(),
        });
        let title = format!("the reader's report: {}", answer(self.refusal, self.row));
        Explanation { id: "report", title, place: self.place(), entries }
    }

    /// What the refusal asks and where.
    fn meaning(&self) -> Vec<Entry> {
        let before = (self.refusal as usize).checked_sub(1);
        let in_short = before.map_or("This is no refusal: the reader accepted its file.", |k| IN_SHORT[k]);
        let question = before.and_then(|k| QUESTIONS.get(k)).map(|question| said("question", question));
        let rules = Some(rules_of(self.refusal)).filter(|rules| !rules.is_empty());
        let mut entries = vec![said("in short", in_short)];
        entries.extend(question);
        entries.push(said("where", &self.place_words()));
        entries.extend(rules.map(|rules| Entry::Rules(rules, None)));
        entries
    }

    /// What the row is.
    fn place_words(&self) -> String {
        let row = self.row;
        match (self.refusal, table_of(self.refusal), unclaimed(self.refusal)) {
            (0, _, _) => "no row of the file".to_string(),
            (1..=LAST_OF_FILE, None, _) => "the file as a whole; no row of it".to_string(),
            (_, None, _) => "the reader's memory; no row of the file".to_string(),
            (_, Some(table), none) => {
                let (_, least, _) = ROWS[table];
                let name = NAMES[table];
                let none = none.filter(|_| row as usize >= least);
                let none = none.map(|none| format!("; or none of them, if there are {row}: {none}"));
                format!("row {row} of the {name} table, whose rows count from 0{}", none.unwrap_or_default())
            }
        }
    }
}

fn said(what: &'static str, words: &str) -> Entry {
    Entry::Said(what, words.to_string())
}
