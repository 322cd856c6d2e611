//! What the check says of an image, and why.
use crate::explanation::{row_entries, shown, Entry, Explanation};
use doordump::dump::Mark;
use doordump::refusals::{answer, number_of, parted, rules_of, table_of, unclaimed, QUESTIONS};
use listing::{Tables, FIELDS, PROCEDURES, TYPES, VARIABLES};
use model::{rules, Fault, Program};

/// What to do about a refusal by question 1, 2, 3, or a later one.
const TO_DO: [&str; 4] = [
    "This is no image, or one of another version. Send the file again. If it is refused again, \
     ask its tool maker for an image of version 1.",
    "The file was cut off, or something was added to it. Send it again, as bytes and not as text. \
     If it is refused again, send it another way. If that does not help, ask its tool maker.",
    "The length is right and the tables are not. Send the file again. If it is refused again, its \
     tool probably wrote a wrong count: give its tool maker this text and the file.",
    "The length is right, and this row breaks the rule; the mistake may also be in a row that it \
     names. Send the file again. If it is refused with the same numbers, its tool probably made a \
     mistake: give its tool maker this text and the file.",
];

/// What to do about a file without bytes.
const EMPTY: &str = "The file is empty. Send it again.";

/// The proved check's answer beside the model's.
pub struct Verdict {
    /// Refusal and row, 0 where the image is accepted.
    number: u32,
    model: Result<Program, Fault>,
}

impl Verdict {
    pub fn of(image: &[u8]) -> Verdict {
        Verdict { number: door::check_number(image), model: model::check(image) }
    }

    pub fn refusal(&self) -> u32 {
        parted(self.number).0
    }

    pub fn row(&self) -> u32 {
        parted(self.number).1
    }

    fn agreed(&self) -> bool {
        let number = match &self.model {
            Ok(_) => 0,
            Err(fault) => number_of(fault.refusal, fault.row),
        };
        number == self.number
    }

    /// The exit status.
    pub fn status(&self) -> u8 {
        match (self.agreed(), self.number) {
            (false, _) => 3,
            (true, 0) => 0,
            (true, _) => 1,
        }
    }

    /// The program, where both accept the image.
    pub fn program(&self) -> Option<&Program> {
        self.model.as_ref().ok().filter(|_| self.number == 0)
    }

    /// Whether question 9 refuses the image.
    pub fn is_about_names(&self) -> bool {
        self.refusal() == 9
    }

    /// The row that is refused; none where no row is.
    pub fn mark(&self, tables: &Tables) -> Option<Mark> {
        let (table, row) = (table_of(self.refusal())?, self.row() as usize);
        let unclaimed = row == tables[table].len();
        match table {
            TYPES if unclaimed => Some(Mark { table: FIELDS, row: Mark::UNCLAIMED }),
            PROCEDURES if unclaimed => Some(Mark { table: VARIABLES, row: Mark::UNCLAIMED }),
            _ => Some(Mark { table, row }),
        }
    }

    /// The verdict in a line.
    pub fn line(&self) -> String {
        match self.program() {
            Some(program) => {
                let (globals, frame) = (program.globals(), program.frame(0));
                let cells = cells_to_begin(program);
                format!("accepted; a run needs {cells} cells ({globals} of globals, {frame} of p0), more for calls")
            }
            None => self.answer() + &self.no_row(),
        }
    }

    /// Question and row alone.
    pub fn answer(&self) -> String {
        answer(self.refusal(), self.row())
    }

    /// Question and row, with the numbers that a reader shows.
    pub fn numbers(&self) -> String {
        match (self.refusal(), self.row()) {
            (0, _) => self.answer(),
            (refusal, row) => format!("refusal {refusal} and row {row}, {}", self.answer()),
        }
    }

    /// The rule that is broken.
    pub fn rule(&self) -> Option<&'static rules::Rule> {
        self.model.as_ref().err().filter(|_| self.agreed()).map(|fault| fault.rule)
    }

    /// What is said where no row of the question's table is at fault.
    fn no_row(&self) -> String {
        match self.rule() {
            Some(rule) if [&rules::FIELD_CLAIMED, &rules::VARIABLE_CLAIMED].contains(&rule) => {
                format!(" (there is none: {})", unclaimed(rule.question).unwrap_or_default())
            }
            _ => String::new(),
        }
    }

    /// What is broken and what to do about it; nothing where the image is accepted.
    pub fn explained(&self, tables: Option<&Tables>) -> Option<Explanation> {
        match (&self.model, self.agreed()) {
            (Ok(_), true) => None,
            (Err(fault), true) => Some(self.explained_fault(fault, tables)),
            (Ok(_), false) => Some(self.differing("accepted".to_string())),
            (Err(fault), false) => Some(self.differing(answer(fault.refusal, fault.row))),
        }
    }

    fn differing(&self, model: String) -> Explanation {
        let to_do = "One of them is wrong. Send the file to the engine's makers.";
        let entries = vec![
            Entry::Said("the proved check", self.answer()),
            Entry::Said("the model", model),
            Entry::Said("to do", to_do.to_string()),
        ];
        Explanation { id: "why", title: "THE CHECK AND THE MODEL DIFFER".to_string(), place: None, entries }
    }

    fn explained_fault(&self, fault: &Fault, tables: Option<&Tables>) -> Explanation {
        let Fault { refusal, row, rule, detail } = fault;
        let question = *refusal as usize - 1;
        let to_do = if *rule == &rules::FIRST_BYTE { EMPTY } else { TO_DO[question.min(3)] };
        let place = tables.and_then(|tables| self.mark(tables));
        let mut entries = vec![
            shown(*refusal, *row),
            Entry::Said("question", QUESTIONS[question].to_string()),
            Entry::Rules(rules_of(*refusal), Some(*rule)),
            Entry::Said("broken by", detail.clone()),
        ];
        entries.extend(tables.zip(place).into_iter().flat_map(|(tables, place)| row_entries(tables, place)));
        entries.push(Entry::Said("to do", to_do.to_string()));
        Explanation { id: "why", title: self.line(), place, entries }
    }
}

/// The cells without which a run does not begin.
pub fn cells_to_begin(program: &Program) -> usize {
    program.globals() + program.frame(0)
}

#[cfg(test)]
mod tests {
    use super::*;

    fn smallest() -> Vec<u8> {
        let listing = "type 0 = BOOLEAN\ntype 1 = INTEGER\ntype 2 = SET\nprocedure 0 at 0 parameters 0 locals 0\n\
                       statement 0: RETURN\n";
        listing::image_of(&listing::read_listing(listing.as_bytes()).unwrap().tables)
    }

    #[test]
    fn where_the_check_and_the_model_differ_it_is_said() {
        let agreed = Verdict::of(&smallest());
        assert_eq!((agreed.status(), agreed.explained(None).is_none()), (0, true));
        let differing = Verdict { number: number_of(7, 12), ..agreed };
        assert_eq!(differing.status(), 3);
        assert!(differing.program().is_none());
        let said = crate::plain::explanation(&differing.explained(None).unwrap());
        assert!(said.contains("the proved check  refused by question 7 at node row 12\n"), "{said}");
        assert!(said.contains("the model         accepted\n"), "{said}");
    }
}
