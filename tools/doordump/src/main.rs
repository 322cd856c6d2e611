//! Prints images in readable words, and explains readers' reports: doordump --help
//!
//! Number and row of a refusal are the proved check's. Which rule is broken, and by what, is said by the model
//! (tests/model); where the two differ, that is said, and the exit status is 3.

mod against;
mod explanation;
mod header;
mod input;
mod named;
mod options;
mod page;
mod plain;
mod report;
mod told;
mod verdict;

use against::Good;
use named::Source;
use options::{Form, Options, Wish};
use std::ffi::OsStr;
use std::process::ExitCode;
use told::{Asked, Told};
use verdict::Verdict;

/// What the program exits with where a file or the command is wrong.
const CANNOT: u8 = 2;

fn main() -> ExitCode {
    let done = match options::wish(std::env::args_os().skip(1)) {
        Ok(Wish::Help) => Ok((0, options::HELP.to_string())),
        Ok(Wish::Tell(options)) => tell(&options),
        Err(wrong) => Err(format!("{wrong}\n{}", options::USAGE)),
    };
    let printed = done.and_then(|(status, text)| {
        listing::print(&text).map(|()| status).map_err(|error| format!("standard output: {error}"))
    });
    ExitCode::from(printed.unwrap_or_else(|message| complain(&message)))
}

/// Says on standard error what is wrong, and gives the exit status for it.
fn complain(message: &str) -> u8 {
    eprintln!("doordump: {message}");
    CANNOT
}

/// The exit status and the text.
fn tell(options: &Options) -> Result<(u8, String), String> {
    let asked = Asked {
        report: options.report,
        statement: options.statement,
        good: options.against.as_deref().map(good).transpose()?,
        names: options.names.as_deref().map(source).transpose()?,
    };
    let answers: Vec<Result<Told, String>> = options.files.iter().map(|file| of_file(file, &asked)).collect();
    let statuses = answers.iter().map(|answer| match answer {
        Ok(told) => told.status,
        Err(message) => complain(message),
    });
    let status = statuses.max().unwrap_or(0);
    let alone = options.report.filter(|_| options.files.is_empty()).map(|report| report.explained());
    let text = match options.form {
        Form::Page => page::of(&answers, alone.as_ref()),
        Form::Brief => answers.iter().flatten().map(plain::brief).collect(),
        Form::Whole => plain::of(&answers, alone.as_ref()),
    };
    Ok((status, text))
}

fn of_file(file: &OsStr, asked: &Asked) -> Result<Told, String> {
    told::told(input::shown(file), &input::read(file)?, asked)
}

fn good(file: &OsStr) -> Result<Good, String> {
    let image = input::read(file)?;
    let verdict = Verdict::of(&image);
    let refused = (verdict.status() != 0).then(|| verdict.line());
    Ok(Good::new(input::shown(file), image, refused))
}

fn source(file: &OsStr) -> Result<Source, String> {
    Source::new(input::shown(file), &input::read(file)?)
}
