//! Runs an image step by step in the proved engine, and prints what each step does: doortrace --help
//!
//! What is printed of a step is the engine's: its numbers, and the store and output that it left. Which expression
//! trapped is the tracer's own reading (`reading`); where that and the engine differ, that is said, and the exit status
//! is 3.

mod engine;
mod layout;
mod options;
mod outcome;
mod reading;
mod step;
mod summary;
mod trace;

use engine::{Lent, State};
use layout::Layout;
use listing::{Names, Tables, STATEMENTS};
use model::words::counted;
use options::{Options, Wish};
use std::io::{BufWriter, ErrorKind, Write};
use std::path::Path;
use std::process::ExitCode;
use trace::Failed;

const REFUSED: u8 = 1;
const CANNOT: u8 = 2;
const DIFFERING: u8 = 3;

/// The exit status of each outcome: steps used up, finished, trapped.
const OUTCOMES: [u8; 3] = [5, 0, 4];

fn main() -> ExitCode {
    let mut out = BufWriter::new(std::io::stdout().lock());
    let done = match options::wish(std::env::args_os().skip(1)) {
        Ok(Wish::Help) => out.write_all(options::HELP.as_bytes()).map(|()| 0).map_err(Failed::Output),
        Ok(Wish::Trace(options)) => trace_file(&options, &mut out),
        Err(wrong) => Err(Failed::Cannot(format!("{wrong}\n{}", options::USAGE))),
    };
    let done = done.or_else(|failed| differing(failed, &mut out));
    let message = match done.and_then(|status| Ok(out.flush().map(|()| status)?)) {
        Ok(status) => return ExitCode::from(status),
        // That its reader wants no more, as `head` does, is no error.
        Err(Failed::Output(error)) if error.kind() == ErrorKind::BrokenPipe => return ExitCode::SUCCESS,
        Err(Failed::Output(error)) => format!("standard output: {error}"),
        Err(Failed::Cannot(message) | Failed::Differing(message)) => message,
    };
    eprintln!("doortrace: {message}");
    ExitCode::from(CANNOT)
}

/// Says where the engine and the tracer differ, behind what is printed already.
fn differing(failed: Failed, out: &mut impl Write) -> Result<u8, Failed> {
    let Failed::Differing(what) = failed else { return Err(failed) };
    let to_do = "One of them is wrong. Send the file and this text to the engine's makers.";
    write!(out, "\nTHE ENGINE AND THE TRACER DIFFER\n  {what}\n  {to_do}\n")?;
    Ok(DIFFERING)
}

/// Prints the trace of a file; gives the exit status.
fn trace_file(options: &Options, out: &mut impl Write) -> Result<u8, Failed> {
    let file = options.file.display();
    let image = read(&options.file)?;
    let lent = Lent::new(&image, options);
    let whole = State::run(&lent, lent.steps);
    if let Err(refusal) = whole.numbers.report() {
        let about = if door::check_number(&image) == 0 { "how many cells a run needs" } else { "which rule is broken" };
        write!(out, "{file}: {refusal}\nnothing was run; doordump {file} says {about}\n")?;
        return Ok(REFUSED);
    }
    let differ = |what| Failed::Differing(format!("the engine accepts the image, and not the tracer: {what}"));
    let program = model::check(&image).map_err(|fault| differ(fault.told()))?;
    let tables = listing::tables_of(&image).map_err(|question| differ(question.to_string()))?;
    ask_rows(options, tables[STATEMENTS].len())?;
    writeln!(out, "{file}: {}", lent_words(&lent))?;
    let names = match &options.names {
        Some(listing) => names_in(listing, &tables, out)?,
        None => Names::default(),
    };
    let layout = Layout { tables: &tables, names: &names, program: &program };
    trace::trace(&layout, &lent, options, &whole, out)?;
    Ok(OUTCOMES[whole.numbers.outcome as usize])
}

fn read(file: &Path) -> Result<Vec<u8>, Failed> {
    std::fs::read(file).map_err(|error| Failed::Cannot(format!("{}: {error}", file.display())))
}

/// What the run was lent, in words.
fn lent_words(lent: &Lent) -> String {
    let [inputs, cells] =
        [(lent.inputs.len(), "input"), (lent.cells, "cell")].map(|(count, noun)| counted(count, noun));
    let [places, steps] =
        [(lent.places, "output place"), (lent.steps as usize, "step")].map(|(n, noun)| counted(n, noun));
    format!("lent {inputs}, {cells}, {places}, {steps}")
}

/// Whether the rows that are to be shown are there.
fn ask_rows(options: &Options, statements: usize) -> Result<(), Failed> {
    match options.rows.iter().find(|rows| *rows.end() >= statements) {
        None => Ok(()),
        Some(rows) => {
            let (file, last) = (options.file.display(), statements - 1);
            Err(Failed::Cannot(format!("{file} has statement rows 0 to {last}, and no {}", rows.end())))
        }
    }
}

/// The names that a listing gives the rows of its image; none where it is another image's, which is said.
fn names_in(file: &Path, tables: &Tables, out: &mut impl Write) -> Result<Names, Failed> {
    let found = listing::read_listing(&read(file)?).map_err(|wrong| mistaken(file, wrong))?;
    if found.tables == *tables {
        return Ok(found.names);
    }
    writeln!(out, "{} is the listing of another image: its names are not used", file.display())?;
    Ok(Names::default())
}

/// What is wrong with a listing.
fn mistaken(file: &Path, mistakes: Vec<listing::Wrong>) -> Failed {
    let lines: Vec<String> = mistakes.iter().map(|wrong| format!("{}:{wrong}", file.display())).collect();
    Failed::Cannot(lines.join("\n"))
}
