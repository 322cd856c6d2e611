//! The proved engine and the model on random images. Usage:
//!
//!     differential COUNT [SEED]           compare both on COUNT images
//!     differential case SEED NUMBER       make one image again, print its listing and what comes of it, and compare
//!     differential replay FILE...         compare both on the images in the files
//!     differential write DIR COUNT [SEED] write accepted images to files
//!     differential cases COUNT SEED FILE  compare both, in one thread, and write their calls to a file
//!
//! It exits with 1 where something differs, where a generated image is refused, or, from 20,000 images on, where
//! something is never reached.

mod case;
mod cases;
mod compare;
mod counts;
mod damage;
mod divisions;
mod foreign;
mod frames;
mod generate;
mod image;
mod marks;
mod mutate;
mod random;
mod surroundings;
mod traps;

use case::{Case, Watcher};
use counts::Counts;
use listing::{listing_of, tables_of};
use std::fs::File;
use std::io::{self, BufWriter, Write};
use std::panic::{catch_unwind, AssertUnwindSafe};
use std::path::{Path, PathBuf};
use std::process::ExitCode;
use std::sync::atomic::{AtomicBool, AtomicU64, Ordering};
use std::sync::Mutex;
use surroundings::Surroundings;

const SEED: u64 = 1;
/// From so many images on all that can be reached must be.
const ENOUGH: u64 = 20_000;
/// Enough for the model, which follows the deepest expressions by calling itself.
const STACK: usize = 64 << 20;
/// Where the image of a difference, or of a case, is written.
const FOLDER: &str = "target/differential";

fn main() -> ExitCode {
    let work = || {
        let words: Vec<String> = std::env::args().skip(1).collect();
        let words: Vec<&str> = words.iter().map(String::as_str).collect();
        command(&words)
    };
    let worker = std::thread::Builder::new().stack_size(STACK).spawn(work).expect("a thread");
    match worker.join() {
        Ok(Some(true)) => return ExitCode::SUCCESS,
        Ok(None) => eprintln!("usage: differential {USAGE}"),
        _ => {}
    }
    ExitCode::FAILURE
}

const USAGE: &str = "COUNT [SEED] | case SEED NUMBER | replay FILE... | write DIR COUNT [SEED] | cases COUNT SEED FILE";

/// Whether all went well; nothing where the words are no command.
fn command(words: &[&str]) -> Option<bool> {
    let number = |word: &str| word.parse::<u64>().ok();
    let done = match words {
        ["case", seed, case] => show_case(number(seed)?, number(case)?),
        ["replay", files @ ..] => replay(files),
        ["write", folder, count] => write(folder, number(count)?, SEED),
        ["write", folder, count, seed] => write(folder, number(count)?, number(seed)?),
        ["cases", count, seed, file] => write_cases(number(count)?, number(seed)?, file),
        [count] => compare_all(number(count)?, SEED),
        [count, seed] => compare_all(number(count)?, number(seed)?),
        _ => return None,
    };
    Some(done)
}

/// Where the first difference is, and which.
struct Found {
    number: u64,
    what: String,
}

/// The cases that threads share.
struct Work {
    seed: u64,
    count: u64,
    next: AtomicU64,
    stop: AtomicBool,
    found: Mutex<Vec<Found>>,
}

fn compare_all(count: u64, seed: u64) -> bool {
    let work = Work { seed, count, next: 0.into(), stop: false.into(), found: Mutex::new(vec![]) };
    let threads = std::thread::available_parallelism().map_or(1, |threads| threads.get());
    let mut counts = Counts::new();
    std::thread::scope(|scope| {
        let spawn = |_| {
            let builder = std::thread::Builder::new().stack_size(STACK);
            builder.spawn_scoped(scope, || work.share()).expect("a thread")
        };
        let workers: Vec<_> = (0..threads).map(spawn).collect();
        for worker in workers {
            counts.merge(&worker.join().expect("a worker catches what panics"));
        }
    });
    report(&work, &counts)
}

impl Work {
    fn share(&self) -> Counts {
        let mut counts = Counts::new();
        while !self.stop.load(Ordering::Relaxed) {
            let number = self.next.fetch_add(1, Ordering::Relaxed);
            if number >= self.count {
                break;
            }
            if let Err(what) = compare(|| Case::new(self.seed, number), &mut counts, &mut |_, _, _| {}) {
                self.stop.store(true, Ordering::Relaxed);
                self.found.lock().expect("no worker panics").push(Found { number, what });
            }
        }
        counts
    }
}

/// A panic, the model's or the test's, is a difference too.
fn compare(make: impl FnOnce() -> Case, counts: &mut Counts, watcher: Watcher) -> Result<(), String> {
    let compared = catch_unwind(AssertUnwindSafe(|| make().compare(counts, watcher)));
    compared.unwrap_or_else(|_| Err("a panic, as told on standard error".into()))
}

fn report(work: &Work, counts: &Counts) -> bool {
    let mut found = work.found.lock().expect("no worker panics");
    found.sort_by_key(|found| found.number);
    if let Some(first) = found.first() {
        tell(work.seed, first);
        return false;
    }
    say(&counts.told());
    let missing = if work.count >= ENOUGH { counts.missing() } else { vec![] };
    missing.iter().for_each(|missing| say(&format!("never reached: {missing}")));
    say(&counts.sum());
    missing.is_empty()
}

fn tell(seed: u64, found: &Found) {
    let Found { number, what } = found;
    say(&format!("image {number} of seed {seed}: {what}"));
    write_and_tell(seed, *number);
    say(&format!("again: differential case {seed} {number}"));
    say(&format!("found after {} images", number + 1));
}

/// Writes a case's image to FOLDER, and says where it is.
fn write_and_tell(seed: u64, number: u64) {
    match write_image(FOLDER, seed, number) {
        Ok(file) => say(&format!("the image is in {}", file.display())),
        Err(error) => say(&format!("{FOLDER}: {error}")),
    }
}

/// The image's listing, what the check answers, and each run and continuation.
fn show_case(seed: u64, number: u64) -> bool {
    let case = Case::new(seed, number);
    write_and_tell(seed, number);
    match tables_of(&case.image) {
        Ok(tables) => say(&listing_of(&tables)),
        Err(question) => say(&format!("{} bytes without a listing, by {question}", case.image.len())),
    }
    match door::check(&case.image) {
        Ok(()) => say("check: accepted"),
        Err(refusal) => say(&format!("check: {refusal}")),
    }
    let mut counts = Counts::new();
    let mut watcher = |lent: &Surroundings, from: Option<&door::Numbers>, numbers: &door::Numbers| {
        let [lent, after] = [lent.told(), told(numbers)];
        match from {
            None => say(&format!("run with {lent}: {after}")),
            Some(from) => say(&format!("continued from {} with {lent}: {after}", told(from))),
        }
    };
    let answer = compare(|| case, &mut counts, &mut watcher);
    match &answer {
        Ok(()) => say(&counts.sum()),
        Err(what) => say(what),
    }
    answer.is_ok()
}

/// The nine numbers in document 01's order, then base, top and mark.
fn told(numbers: &door::Numbers) -> String {
    format!("{numbers}, {} {} {}", numbers.base, numbers.top, numbers.mark)
}

/// Prints a line. Who closes standard output has read enough: the exit status still says what was found.
fn say(line: &str) {
    let _ = writeln!(io::stdout(), "{line}");
}

fn replay(files: &[&str]) -> bool {
    let mut counts = Counts::new();
    for file in files {
        let answer = match std::fs::read(file) {
            Ok(image) => compare(|| Case::of(image), &mut counts, &mut |_, _, _| {}),
            Err(error) => Err(error.to_string()),
        };
        if let Err(what) = answer {
            say(&format!("{file}: {what}"));
            return false;
        }
    }
    say(&counts.sum());
    true
}

fn write(folder: &str, count: u64, seed: u64) -> bool {
    let written = (0..count).try_for_each(|at| write_image(folder, seed, 2 * at).map(drop));
    if let Err(error) = &written {
        eprintln!("{folder}: {error}");
    }
    written.is_ok()
}

/// Writes a case's image to a file with seed and number in its name, and says which.
fn write_image(folder: &str, seed: u64, number: u64) -> io::Result<PathBuf> {
    let file = Path::new(folder).join(format!("{seed}-{number}.img"));
    std::fs::create_dir_all(folder)?;
    std::fs::write(&file, Case::new(seed, number).image)?;
    Ok(file)
}

/// Compares cases one after the other, and writes the calls that both sides agree on.
fn write_cases(count: u64, seed: u64, file: &str) -> bool {
    let mut counts = Counts::new();
    let written = File::create(file).map(BufWriter::new).and_then(|mut out| {
        (0..count).try_for_each(|number| write_case(&mut out, seed, number, &mut counts))?;
        out.flush()
    });
    match &written {
        Ok(()) => say(&counts.sum()),
        Err(error) => say(&format!("{file}: {error}")),
    }
    written.is_ok()
}

/// The calls of one case; a difference is an error too.
fn write_case(out: &mut impl Write, seed: u64, number: u64, counts: &mut Counts) -> io::Result<()> {
    let case = Case::new(seed, number);
    let image = case.image.clone();
    let mut any_written = Ok(false);
    let mut watcher = |lent: &Surroundings, from: Option<&door::Numbers>, _: &door::Numbers| {
        if let Ok(any) = any_written {
            let new = (!any).then_some(&image[..]);
            any_written = cases::write_call(out, new, lent, from).map(|written| any || written);
        }
    };
    let compared = compare(|| case, counts, &mut watcher);
    any_written.and(compared.map_err(|what| io::Error::other(format!("image {number} of seed {seed}: {what}"))))
}
