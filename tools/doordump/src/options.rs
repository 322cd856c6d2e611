//! What the words of the command ask for.
use crate::input::STANDARD_INPUT;
use crate::report::Report;
use std::ffi::OsString;

pub const USAGE: &str = "usage: doordump [OPTION]... FILE.img... | doordump --refusal REFUSAL ROW; --help says more";

pub const HELP: &str = "usage: doordump [OPTION]... FILE.img...
       doordump --refusal REFUSAL ROW | --reader NUMBER

Prints door programs (images) in readable words, and explains why a reader refused one. It asks the proved
check that a reader asks. Where an image is refused, '>>' marks the row, and the rule that it breaks follows.
FILE.img may be - for standard input. Several files come one after the other, each below a line with its name.

A reader's report
  --refusal REFUSAL ROW    the two numbers on the display: what they mean and, with a file, whether it is this
                           file that was refused. Where it is not, '->' marks its row of that number.
                             doordump --refusal 10 57
                             doordump --refusal 10 57 door.img
  --reader NUMBER          the same, where the display has one large number: refusal x 65536 + row
                             doordump --reader 655417 door.img
  --statement ROW          the statement row that comes with a trap or with steps used up: marks it. It is not
                           the row of a refusal. --row ROW is the same.
                             doordump --statement 17 door.img

What is shown
  --against GOOD.img       mark with '<>' each row that is not GOOD.img's, and show what it is there
                             doordump --against sent.img received.img
  --names FILE.lst         show this listing's names in place of v5, T4 and p1, if it gives this very image;
                           with --against also if it gives GOOD.img, in the rows that are the same
                             doordump --names door.lst door.img
  --brief                  a line for each file: accepted, or question, row and rule; with --refusal or
                           --reader also which file fits the report
                             doordump --brief --reader 655417 *.img
  --html                   write one page for a browser or paper, with links between rows and rules
                             doordump --html door.img >door.html
  --                       the words after it are files
  --help, -h               print this

Exit status: 0 accepted, or a report without a file; 1 refused; 2 wrong usage, or a file that cannot be read;
3 the proved check and its second implementation differ, which should never be. Of several files the highest.

docs/REFUSALS.md explains refusals, traps and what to do, docs/IMAGE.md the image, docs/LISTING.md listings.
";

/// How it is printed.
#[derive(Clone, Copy, Default, PartialEq, Eq)]
pub enum Form {
    #[default]
    Whole,
    Brief,
    Page,
}

#[derive(Default)]
pub struct Options {
    pub files: Vec<OsString>,
    pub report: Option<Report>,
    pub statement: Option<usize>,
    pub against: Option<OsString>,
    pub names: Option<OsString>,
    pub form: Form,
}

pub enum Wish {
    Help,
    Tell(Options),
}

/// The wish in the words after the program's name.
pub fn wish(words: impl Iterator<Item = OsString>) -> Result<Wish, String> {
    let mut words = Words { words: words.collect::<Vec<_>>().into_iter(), value: None };
    let mut options = Options::default();
    while let Some(word) = words.words.next() {
        let option = word.to_str().filter(|word| word.starts_with('-') && *word != STANDARD_INPUT);
        match option.map(|option| words.parted(option)) {
            None => options.files.push(word),
            Some("--") => options.files.extend(words.words.by_ref()),
            Some("--help" | "-h") => return Ok(Wish::Help),
            Some(option) => {
                read_option(option, &mut words, &mut options)?;
                if words.value.is_some() {
                    return Err(format!("{option} has nothing behind ="));
                }
            }
        }
    }
    fitting(options).map(Wish::Tell)
}

/// The words that follow, the first of which may stand behind the option's =.
struct Words {
    words: std::vec::IntoIter<OsString>,
    value: Option<OsString>,
}

impl Words {
    /// The option, without its = and what follows.
    fn parted<'a>(&mut self, option: &'a str) -> &'a str {
        match option.split_once('=') {
            Some((option, value)) => {
                self.value = Some(value.into());
                option
            }
            None => option,
        }
    }

    fn next(&mut self) -> Option<OsString> {
        self.value.take().or_else(|| self.words.next())
    }

    fn number(&mut self, needs: &str) -> Result<u32, String> {
        let word = self.next().unwrap_or_default();
        let word = word.to_string_lossy();
        // The documents write large numbers with a comma.
        word.replace(',', "").parse().map_err(|_| format!("{needs}, not '{word}'"))
    }

    fn file(&mut self, option: &str) -> Result<OsString, String> {
        self.next().ok_or_else(|| format!("{option} needs a file"))
    }
}

fn read_option(option: &str, words: &mut Words, options: &mut Options) -> Result<(), String> {
    match option {
        "--refusal" => {
            let refusal = words.number("--refusal needs the number of a refusal and a row")?;
            let row = words.number("--refusal needs a row after the refusal")?;
            once(&mut options.report, Report::of(refusal, row)?, "one report at a time")
        }
        "--reader" => {
            let number = words.number("--reader needs the reader's one number")?;
            once(&mut options.report, Report::of_number(number)?, "one report at a time")
        }
        "--statement" | "--row" => {
            let row = words.number(&format!("{option} needs the number of a statement row"))?;
            once(&mut options.statement, row as usize, "one statement row at a time")
        }
        "--against" => once(&mut options.against, words.file(option)?, "one good image at a time"),
        "--names" => once(&mut options.names, words.file(option)?, "one listing at a time"),
        "--brief" => set_form(options, Form::Brief),
        "--html" => set_form(options, Form::Page),
        _ => Err(format!("there is no option {option}")),
    }
}

/// Sets what may be set once.
fn once<T>(place: &mut Option<T>, value: T, otherwise: &str) -> Result<(), String> {
    match place.replace(value) {
        None => Ok(()),
        Some(_) => Err(otherwise.to_string()),
    }
}

fn set_form(options: &mut Options, form: Form) -> Result<(), String> {
    let before = std::mem::replace(&mut options.form, form);
    if before == Form::Whole || before == form {
        Ok(())
    } else {
        Err("--brief and --html do not go together".to_string())
    }
}

/// The options, where they go together.
fn fitting(options: Options) -> Result<Options, String> {
    let Options { files, report, statement, against, names, form } = &options;
    let of_files = statement.is_some() || against.is_some() || names.is_some() || *form == Form::Brief;
    let read = files.iter().chain(against).chain(names).filter(|file| *file == STANDARD_INPUT).count();
    let wrong = match () {
        _ if files.is_empty() && (report.is_none() || of_files) => "no file is named",
        _ if report.is_some() && statement.is_some() => "a reader shows a refusal or a statement row, not both",
        _ if *form == Form::Brief && statement.is_some() => "--brief shows no statement",
        _ if *form == Form::Brief && names.is_some() => "--brief shows no names",
        _ if read > 1 => "standard input can be read once",
        _ => return Ok(options),
    };
    Err(wrong.to_string())
}
