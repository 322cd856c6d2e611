//! Images from listings, and listings of images: `listing --help` says how.
use listing::{image_of, listing_of, read_listing, tables_of, Wrong};
use std::ffi::OsString;
use std::io::{Read, Write};
use std::path::Path;
use std::process::ExitCode;

const USAGE: &str = "usage: listing assemble FILE.lst FILE.img | listing print FILE.img | listing again FILE.img...\n\
                     listing --help says more";

/// The help: this, with the forms of lines where it says so.
const HELP: &str = include_str!("help.txt");
const FORMS: &str = include_str!("forms.txt");

/// How many mistakes of a listing are told.
const MOST_MISTAKES: usize = 50;

fn main() -> ExitCode {
    let words: Vec<OsString> = std::env::args_os().skip(1).collect();
    let command = words.first().and_then(|word| word.to_str());
    let files: Vec<&Path> = words.iter().skip(1).map(Path::new).collect();
    let done = match (command, &files[..]) {
        (Some("assemble"), [listing, image]) => assemble(listing, image),
        (Some("print"), [image]) => print(image),
        (Some("again"), [_, ..]) => again(&files),
        (Some("--help" | "-h"), []) => show(&help()),
        _ => Err((2, USAGE.to_string())),
    };
    match done {
        Ok(()) => ExitCode::SUCCESS,
        Err((code, message)) => {
            eprintln!("{message}");
            ExitCode::from(code)
        }
    }
}

/// What the program exits with: 1 where the listing or the image is wrong, 2 where a file cannot be read or written.
type Failed = (u8, String);

fn help() -> String {
    let forms: Vec<String> = FORMS.lines().map(|line| format!("  {line}").trim_end().to_string()).collect();
    HELP.replace("  FORMS", &forms.join("\n"))
}

fn show(text: &str) -> Result<(), Failed> {
    listing::print(text).map_err(|error| (2, format!("standard output: {error}")))
}

/// Whether a file stands for standard input or standard output.
fn is_standard(file: &Path) -> bool {
    file == Path::new("-")
}

/// What a file to read is called in messages.
fn name_of(file: &Path) -> String {
    if is_standard(file) {
        "standard input".to_string()
    } else {
        file.display().to_string()
    }
}

fn read(file: &Path) -> Result<Vec<u8>, Failed> {
    let mut bytes = Vec::new();
    let read =
        if is_standard(file) { std::io::stdin().read_to_end(&mut bytes).map(|_| bytes) } else { std::fs::read(file) };
    read.map_err(|error| (2, format!("{}: {error}", name_of(file))))
}

fn write(file: &Path, bytes: &[u8]) -> Result<(), Failed> {
    if is_standard(file) {
        let written = std::io::stdout().write_all(bytes).and_then(|()| std::io::stdout().flush());
        return written.map_err(|error| (2, format!("standard output: {error}")));
    }
    std::fs::write(file, bytes).map_err(|error| (2, format!("{}: {error}", file.display())))
}

fn assemble(listing: &Path, image: &Path) -> Result<(), Failed> {
    let read = read_listing(&read(listing)?).map_err(|wrong| (1, mistakes(&name_of(listing), &wrong)))?;
    write(image, &image_of(&read.tables))
}

/// The mistakes of a listing, one a line.
fn mistakes(listing: &str, wrong: &[Wrong]) -> String {
    let mut lines: Vec<String> = wrong.iter().take(MOST_MISTAKES).map(|wrong| format!("{listing}:{wrong}")).collect();
    if wrong.len() > MOST_MISTAKES {
        lines.push(format!("{listing}: {} more mistakes", wrong.len() - MOST_MISTAKES));
    }
    lines.join("\n")
}

fn print(image: &Path) -> Result<(), Failed> {
    let without = |question| (1, format!("{}: no listing: refused by {question}", name_of(image)));
    show(&listing_of(&tables_of(&read(image)?).map_err(without)?))
}

fn again(images: &[&Path]) -> Result<(), Failed> {
    let (mut same, mut without, mut differing) = (0, 0, 0);
    for image in images {
        let bytes = read(image)?;
        match tables_of(&bytes).map(|tables| read_listing(listing_of(&tables).as_bytes())) {
            Err(_) => without += 1,
            Ok(Ok(read)) if image_of(&read.tables) == bytes => same += 1,
            Ok(Ok(_)) => {
                println!("{}: other bytes come back", image.display());
                differing += 1;
            }
            Ok(Err(wrong)) => {
                println!("{}", mistakes(&format!("{}, its listing", image.display()), &wrong));
                differing += 1;
            }
        }
    }
    println!("{same} the same, {differing} different, {without} without a listing");
    if differing == 0 {
        Ok(())
    } else {
        Err((1, "listing: images do not come back".to_string()))
    }
}
