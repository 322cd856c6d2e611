//! What is said of a file, for text and page alike.
use crate::against::Good;
use crate::explanation::Explanation;
use crate::header;
use crate::named::Source;
use crate::report::Report;
use crate::verdict::Verdict;
use doordump::dump::{self, Mark, Wanted};
use doordump::line::Line;
use doordump::statement::{statement, Named};
use listing::{tables_of, Names, Tables, STATEMENTS};
use model::words::counted;

/// What is asked of each file.
#[derive(Default)]
pub struct Asked {
    pub report: Option<Report>,
    /// The statement row that a run stopped at.
    pub statement: Option<usize>,
    pub good: Option<Good>,
    pub names: Option<Source>,
}

/// What is said of a file.
pub struct Told {
    pub name: String,
    pub status: u8,
    /// Version, length and counts, or the length alone.
    pub head: String,
    pub verdict: String,
    pub notes: Vec<String>,
    pub lines: Vec<Line>,
    pub explanations: Vec<Explanation>,
    /// The statement that a run stopped at.
    pub stopped: Option<String>,
    /// The verdict and the notes that matter, for a line.
    pub brief: String,
}

/// Everything of a file, or why nothing can be said.
pub fn told(name: String, image: &[u8], asked: &Asked) -> Result<Told, String> {
    let verdict = Verdict::of(image);
    let tables = tables_of(image).ok();
    let good = asked.good.as_ref().and_then(|good| good.tables.as_ref());
    let (names, named) = names(asked, tables.as_ref(), good);
    let stopped = stopped(&verdict, tables.as_ref(), &names, asked).map_err(|wrong| format!("{name} {wrong}"))?;
    let mut notes: Vec<String> = asked.report.iter().map(|report| report.note(&verdict)).collect();
    notes.extend(asked.good.iter().flat_map(|good| good.notes(image, tables.as_ref())));
    notes.extend(named);
    let beside = asked.report.and_then(|report| report.explained_beside(&verdict, tables.as_ref()));
    Ok(Told {
        head: match &tables {
            Some(tables) => dump::head(image, tables),
            None => counted(image.len(), "byte"),
        },
        lines: match &tables {
            Some(tables) => lines(&verdict, tables, &names, asked),
            None => header::of(image),
        },
        explanations: verdict.explained(tables.as_ref()).into_iter().chain(beside).collect(),
        brief: brief(&verdict, image, asked),
        status: verdict.status(),
        verdict: verdict.line(),
        name,
        notes,
        stopped,
    })
}

/// The names for an image's rows, and what is said of them.
fn names(asked: &Asked, tables: Option<&Tables>, good: Option<&Tables>) -> (Names, Option<String>) {
    match asked.names.as_ref().zip(tables) {
        Some((source, tables)) => {
            let (names, said) = source.names(tables, good);
            (names, Some(said))
        }
        None => (Names::default(), None),
    }
}

/// The tables with their marks.
fn lines(verdict: &Verdict, tables: &Tables, names: &Names, asked: &Asked) -> Vec<Line> {
    let stopped = asked.statement.filter(|_| verdict.program().is_some());
    let good_tables = asked.good.as_ref().and_then(|good| good.tables.as_ref());
    let good_names = good_tables.zip(asked.names.as_ref()).map(|(good, source)| source.names(good, None).0);
    let good_names = good_names.unwrap_or_default();
    let wanted = Wanted {
        image: Named { tables, names },
        program: verdict.program(),
        mark: verdict.mark(tables).or(stopped.map(|row| Mark { table: STATEMENTS, row })),
        reported: asked.report.filter(|report| !report.is_of(verdict)).and_then(|report| report.place()),
        good: good_tables.map(|tables| Named { tables, names: &good_names }),
    };
    let mut lines = dump::of(&wanted);
    if verdict.is_about_names() {
        lines.extend(dump::names(tables));
    }
    lines
}

/// The statement that a run stopped at, in words; or that no run of this image stops.
fn stopped(verdict: &Verdict, tables: Option<&Tables>, names: &Names, asked: &Asked) -> Result<Option<String>, String> {
    let Some(row) = asked.statement else { return Ok(None) };
    let Some((program, tables)) = verdict.program().zip(tables) else {
        let no_run = "no run stops at a statement of this image: it is refused before its first step; \
                      a refusal's row is told by --refusal";
        return Ok(Some(no_run.to_string()));
    };
    let statements = tables[STATEMENTS].len();
    if row >= statements {
        return Err(format!("has statement rows 0 to {}, and no {row}", statements - 1));
    }
    let (procedure, words) = (names.procedure(program.procedure_at(row)), statement(tables, names, row));
    Ok(Some(format!("a run that stops at statement row {row} stops in {procedure}: {words}")))
}

/// The verdict in a line that stands by itself.
fn brief(verdict: &Verdict, image: &[u8], asked: &Asked) -> String {
    let mut line = match (verdict.status(), verdict.rule()) {
        (0, _) => verdict.line(),
        (_, Some(rule)) => format!("{}: {}", verdict.line(), rule.words.trim_end_matches('.')),
        _ => "THE CHECK AND THE MODEL DIFFER".to_string(),
    };
    if asked.report.is_some_and(|report| report.is_of(verdict)) {
        line += "; fits the reader's report";
    }
    if let Some(good) = &asked.good {
        line += &format!("; {}", good.in_short(image));
    }
    line
}
