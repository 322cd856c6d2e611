//! Compares the proved check, linked as libdoor.a, with the plain one of plain.rs, and where it is built with
//! --cfg beside also with that of another such library, called beside_check (tests/bench/libraries).
//!
//! bench vectors DIR...       asks all about every image of the folders, and compares with the answers there
//! bench time NAME=IMAGE...   times all on each image; prints a table
//!
//! A folder of images has the answers in expect.txt (for each image a line with its name, then a line that begins with
//! refusal and row), in runs.txt (a line each, whose third part between bars begins with them), or in answers.txt
//! (name, refusal and row to a line).
use std::hint::black_box;
use std::path::Path;
use std::process::ExitCode;
use std::time::Instant;

mod plain;
mod rounds;
use rounds::{median, ratio};

type Check = fn(&[u8]) -> u32;

/// The first is compared with each of the others; the last is the plain one.
const CHECKS: &[(&str, Check)] = &[
    ("proved", proved),
    #[cfg(beside)]
    ("beside", beside),
    ("plain", plain::check),
];

/// A library's check, by its name there.
macro_rules! linked {
    ($who:ident, $symbol:ident) => {
        fn $who(image: &[u8]) -> u32 {
            extern "C" {
                fn $symbol(image: *const u8, length: usize) -> u32;
            }
            // SAFETY: the check reads `length` bytes from `image` on, and a slice has them.
            unsafe { $symbol(image.as_ptr(), image.len()) }
        }
    };
}

linked!(proved, door_check);
#[cfg(beside)]
linked!(beside, beside_check);

/// doorrun takes no more of its input as the image, and the answers in the folders are doorrun's.
const LENT: usize = 29714;
/// Questions that the check asks; the run's own refusals, 12 and 13, are acceptance here.
const LAST: u32 = 11;

const ROUNDS: usize = 101;
const ROUND_NANOSECONDS: f64 = 1_000_000.0;

type Failed = Box<dyn std::error::Error>;

fn main() -> ExitCode {
    let words: Vec<String> = std::env::args().skip(1).collect();
    let done = match words.split_first() {
        Some((mode, rest)) if mode == "vectors" && !rest.is_empty() => vectors(rest),
        Some((mode, rest)) if mode == "time" && !rest.is_empty() => time(rest),
        _ => Err("usage: bench vectors DIR... | bench time NAME=IMAGE...".into()),
    };
    match done {
        Ok(true) => ExitCode::SUCCESS,
        Ok(false) => ExitCode::from(1),
        Err(error) => {
            eprintln!("bench: {error}");
            ExitCode::from(2)
        }
    }
}

fn vectors(folders: &[String]) -> Result<bool, Failed> {
    let mut images = 0;
    let mut same = vec![0; CHECKS.len()];
    for folder in folders {
        let folder = Path::new(folder);
        let answers = answers(folder)?;
        let there = std::fs::read_dir(folder)?
            .filter(|entry| entry.as_ref().is_ok_and(|e| e.path().extension().is_some_and(|x| x == "img")))
            .count();
        if there != answers.len() {
            return Err(format!("{}: {} answers for {there} images", folder.display(), answers.len()).into());
        }
        for (name, expected) in answers {
            let image = std::fs::read(folder.join(&name))?;
            let image = &image[..image.len().min(LENT)];
            images += 1;
            for ((who, check), same) in CHECKS.iter().zip(&mut same) {
                let answer = check(image);
                if answer == expected {
                    *same += 1;
                } else {
                    println!("{}/{name}: expected {}, {who} {}", folder.display(), text(expected), text(answer));
                }
            }
        }
    }
    let counts: Vec<String> =
        CHECKS.iter().zip(&same).map(|((who, _), count)| format!("{who} {count} the same")).collect();
    println!("{images} images: {}", counts.join(", "));
    Ok(images > 0 && same.iter().all(|&count| count == images))
}

fn text(answer: u32) -> String {
    format!("{} {}", answer / 65536, answer % 65536)
}

/// The name of each image and the check's answer.
fn answers(folder: &Path) -> Result<Vec<(String, u32)>, Failed> {
    let read = |name: &str| std::fs::read_to_string(folder.join(name));
    let mut found = Vec::new();
    if let Ok(text) = read("runs.txt") {
        for line in text.lines().filter(|line| !line.starts_with('#')) {
            let (name, _) = line.split_once(' ').ok_or("runs.txt: a line without a name")?;
            let numbers = line.split('|').nth(2).ok_or("runs.txt: a line without numbers")?;
            found.push((name.to_string(), answer(numbers)?));
        }
    } else if let Ok(text) = read("answers.txt") {
        for line in text.lines() {
            let (name, numbers) = line.split_once(' ').ok_or("answers.txt: a line without numbers")?;
            found.push((name.to_string(), answer(numbers)?));
        }
    } else {
        let text = read("expect.txt")?;
        let mut lines = text.lines();
        while let Some(line) = lines.next() {
            if line.ends_with(".img") {
                let numbers = lines.next().ok_or("expect.txt: a name without numbers")?;
                found.push((line.to_string(), answer(numbers)?));
            }
        }
    }
    Ok(found)
}

fn answer(numbers: &str) -> Result<u32, Failed> {
    let mut words = numbers.split_whitespace();
    let mut next = || -> Result<u32, Failed> { Ok(words.next().ok_or("numbers are missing")?.parse()?) };
    let (refusal, row) = (next()?, next()?);
    Ok(if refusal <= LAST { refusal * 65536 + row } else { 0 })
}

fn time(cases: &[String]) -> Result<bool, Failed> {
    let mut same = true;
    heading();
    for case in cases {
        let (name, path) = case.split_once('=').ok_or("a case is NAME=IMAGE")?;
        let image = std::fs::read(path)?;
        let answers: Vec<u32> = CHECKS.iter().map(|(_, check)| check(&image)).collect();
        if answers.iter().any(|answer| *answer != answers[0]) {
            let told: Vec<String> =
                CHECKS.iter().zip(&answers).map(|((who, _), answer)| format!("{who} {}", text(*answer))).collect();
            println!("{name}: {}", told.join(", "));
            same = false;
            continue;
        }
        print!("{name:<22} {:>6} {:>8}", image.len(), text(answers[0]));
        show(&compare(&image));
    }
    println!("(medians of {ROUNDS} rounds, all taking turns; ratios: medians of the rounds' time / time)");
    Ok(same)
}

fn heading() {
    print!("{:<22} {:>6} {:>8}", "", "", "");
    for (who, _) in CHECKS {
        print!("   {who:>21}");
    }
    print!("\n{:<22} {:>6} {:>8}", "image", "bytes", "answer");
    for _ in CHECKS {
        print!("   {:>10} {:>10}", "ns", "images/s");
    }
    for (who, _) in &CHECKS[1..] {
        print!("   {:>13}", format!("{}/{who}", CHECKS[0].0));
    }
    println!();
}

fn show(times: &[Vec<f64>]) {
    for times in times {
        let nanoseconds = median(times.clone());
        print!("   {nanoseconds:>10.0} {:>10.0}", 1e9 / nanoseconds);
    }
    for others in &times[1..] {
        print!("   {:>13.2}", ratio(&times[0], others));
    }
    println!();
}

/// Nanoseconds for one image in each round, by check.
fn compare(image: &[u8]) -> Vec<Vec<f64>> {
    let once = CHECKS.iter().map(|(_, check)| timed(*check, image, 1)).fold(1.0, f64::max);
    let times = (ROUND_NANOSECONDS / once).clamp(1.0, 100_000.0) as usize;
    let mut found = vec![Vec::new(); CHECKS.len()];
    for round in 0..ROUNDS {
        for turn in 0..CHECKS.len() {
            let who = rounds::whose(round, turn, CHECKS.len());
            found[who].push(timed(CHECKS[who].1, image, times));
        }
    }
    found
}

fn timed(check: Check, image: &[u8], times: usize) -> f64 {
    let start = Instant::now();
    for _ in 0..times {
        black_box(check(black_box(image)));
    }
    start.elapsed().as_nanos() as f64 / times as f64
}
