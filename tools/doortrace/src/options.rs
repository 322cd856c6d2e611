//! What the words of the command ask for.
use std::ffi::{OsStr, OsString};
use std::ops::RangeInclusive;
use std::path::PathBuf;

pub const USAGE: &str = "usage: doortrace [OPTION ...] FILE.img [INPUT ...]; --help says more";

pub const HELP: &str = "usage: doortrace [OPTION ...] FILE.img [INPUT ...]

Runs an image step by step in the proved engine, and prints for each step its number, the depth of calls,
the statement's row, procedure and words; below it what it changed, read and wrote; at the end what the
run came to and, for a trap, which expression trapped and why. An INPUT is a number, as 1234 or -5.

What the run is given; without the option the number in brackets, which is doorrun's
  --input FILE      more inputs: the numbers in a file, parted by white space
  --steps N         at most N steps (100000)
  --cells N         a store of N cells (8192)
  --places N        N output places (4096)

What is printed; the run goes on to its end all the same
  --from N, --to M  only steps N to M, or from N on, or up to M; steps count from 1
  --rows LIST       only steps of these statement rows, as 7 or 3,7,10-12
  --changes N       at most N changes of a step (8)
  --summary         no step, but how many were taken of each row and procedure, in the order of rows
  --summary=count   the same, the largest count first
  --names FILE.lst  the names of the image's listing, in place of v5, T4, f2 and p1
  --help, -h        this

  doortrace door.img 1234 19800                  the reader's inputs: what did it do, and why did it trap?
  doortrace --from 990 --steps 1000 door.img     the steps before the reader's limit of 1000
  doortrace --summary=count door.img 1234 19800  where does the time go?

Exit status: 0 finished, 1 refused, 2 wrong usage or a file that cannot be read, 3 the engine and the
tracer differ, 4 trapped, 5 steps used up. docs/TRACE.md explains the lines, docs/REFUSALS.md the traps.
";

/// The most cells or places that are lent; the engine takes 65,536 cells, and says so itself.
const MOST_LENT: u64 = 1 << 24;

/// In which order a summary has its rows.
#[derive(Clone, Copy, PartialEq, Eq)]
pub enum Order {
    Row,
    Count,
}

/// What a run is given, and what is printed of it.
pub struct Options {
    pub file: PathBuf,
    pub inputs: Vec<i32>,
    pub steps: u32,
    pub cells: usize,
    pub places: usize,
    pub from: u32,
    pub to: u32,
    /// Of these statement rows; of all where there are none.
    pub rows: Vec<RangeInclusive<usize>>,
    pub changes: usize,
    pub summary: Option<Order>,
    pub names: Option<PathBuf>,
}

pub enum Wish {
    Help,
    Trace(Options),
}

impl Options {
    /// What is lent and shown where no option says otherwise: what doorrun lends, and all steps.
    fn new() -> Options {
        Options {
            file: PathBuf::new(),
            inputs: Vec::new(),
            steps: 100_000,
            cells: 8192,
            places: 4096,
            from: 1,
            to: u32::MAX,
            rows: Vec::new(),
            changes: 8,
            summary: None,
            names: None,
        }
    }

    /// Whether a step is to be shown.
    pub fn shows(&self, step: u32, row: usize) -> bool {
        let of_rows = self.rows.is_empty() || self.rows.iter().any(|rows| rows.contains(&row));
        (self.from..=self.to).contains(&step) && of_rows
    }

    /// An option with its value.
    fn take(&mut self, option: &str, value: &OsStr) -> Result<(), String> {
        let text = value.to_string_lossy();
        match option {
            "--input" => self.inputs.extend(inputs_in(value)?),
            "--steps" => self.steps = number(option, &text, 0, u32::MAX.into())? as u32,
            "--cells" => self.cells = number(option, &text, 0, MOST_LENT)? as usize,
            "--places" => self.places = number(option, &text, 0, MOST_LENT)? as usize,
            "--from" => self.from = number(option, &text, 1, u32::MAX.into())? as u32,
            "--to" => self.to = number(option, &text, 1, u32::MAX.into())? as u32,
            "--rows" => self.rows.extend(rows_of(&text)?),
            "--changes" => self.changes = number(option, &text, 0, u32::MAX.into())? as usize,
            "--names" => self.names = Some(value.into()),
            _ => return Err(format!("there is no option {option}")),
        }
        Ok(())
    }
}

pub fn wish(mut words: impl Iterator<Item = OsString>) -> Result<Wish, String> {
    let mut options = Options::new();
    let mut has_file = false;
    while let Some(word) = words.next() {
        match word.to_str() {
            Some("--help" | "-h") => return Ok(Wish::Help),
            Some("--summary" | "--summary=row") => options.summary = Some(Order::Row),
            Some("--summary=count") => options.summary = Some(Order::Count),
            Some(option) if option.starts_with("--") => match option.split_once('=') {
                Some((option, value)) => options.take(option, OsStr::new(value))?,
                None => options.take(option, &words.next().unwrap_or_default())?,
            },
            Some(number) if has_file => options.inputs.push(input(number)?),
            Some(option) if option.starts_with('-') => return Err(format!("there is no option {option}")),
            None if has_file => return Err(format!("an input is a number, not '{}'", word.to_string_lossy())),
            _ => {
                options.file = word.into();
                has_file = true;
            }
        }
    }
    if !has_file {
        return Err("no file is named".to_string());
    }
    if options.from > options.to {
        return Err(format!("step {} comes after step {}", options.from, options.to));
    }
    Ok(Wish::Trace(options))
}

fn number(option: &str, word: &str, least: u64, most: u64) -> Result<u64, String> {
    let found = word.parse().ok().filter(|number| (least..=most).contains(number));
    found.ok_or_else(|| format!("{option} needs a number of {least} to {most}, not '{word}'"))
}

fn input(word: &str) -> Result<i32, String> {
    word.parse().map_err(|_| format!("an input is a number of {} to {}, not '{word}'", i32::MIN, i32::MAX))
}

fn inputs_in(file: &OsStr) -> Result<Vec<i32>, String> {
    let about = |error: String| format!("{}: {error}", file.to_string_lossy());
    let text = std::fs::read_to_string(file).map_err(|error| about(error.to_string()))?;
    text.split_whitespace().map(input).collect::<Result<_, _>>().map_err(about)
}

/// Rows and spans of rows, parted by commas.
fn rows_of(list: &str) -> Result<Vec<RangeInclusive<usize>>, String> {
    let row = |word: &str| word.parse::<u16>().ok().map(usize::from);
    let span = |part: &str| {
        let (first, last) = part.split_once('-').unwrap_or((part, part));
        Some(row(first)?..=row(last)?).filter(|rows| !rows.is_empty())
    };
    let spans: Option<Vec<RangeInclusive<usize>>> = list.split(',').map(span).collect();
    spans.ok_or_else(|| format!("--rows needs statement rows, as 7 or 3,7,10-12, not '{list}'"))
}
