//! Runs a door program in slices of 100 steps; between two of them an input comes from outside:
//!     cargo run --offline -p door --example slices examples/latch.img 1234 19800 0 0 1
//! The first two numbers are there from the beginning. Each of the others comes after a slice in which the program has
//! read all that there was. Exits 1 where the image is refused or the run does not finish, 2 where the image cannot be
//! read or an input is no number.
use door::{Outcome, Refusal, Report};
use std::process::ExitCode;

const SLICE: u32 = 100;
const MOST_STEPS: u32 = 100_000;

fn main() -> ExitCode {
    let (image, input) = match image_and_input(std::env::args().skip(1)) {
        Ok(given) => given,
        Err(message) => {
            eprintln!("{message}");
            return ExitCode::from(2);
        }
    };
    let mut output = [0; 64];
    match run(&image, &input, &mut output) {
        Ok(report) => {
            println!("{report}");
            output[..report.written].iter().for_each(|number| println!("{number}"));
            ExitCode::from(u8::from(report.outcome != Outcome::Finished))
        }
        Err(refusal) => {
            println!("{refusal}");
            ExitCode::from(1)
        }
    }
}

fn image_and_input(mut words: impl Iterator<Item = String>) -> Result<(Vec<u8>, Vec<i32>), String> {
    let name = words.next().ok_or("usage: slices IMAGE [INPUT...]")?;
    let image = std::fs::read(&name).map_err(|error| format!("{name}: {error}"))?;
    let number = |word: String| word.parse().map_err(|error| format!("{word}: {error}"));
    let input = words.map(number).collect::<Result<_, _>>()?;
    Ok((image, input))
}

/// Report, store, output and input are kept from slice to slice; only the input grows.
fn run(image: &[u8], input: &[i32], output: &mut [i32]) -> Result<Report, Refusal> {
    let mut store = vec![0; 8192];
    let (mut there, mut coming) = input.split_at(input.len().min(2));
    let mut report = door::run(image, there, &mut store, output, SLICE)?;
    while report.outcome == Outcome::StepsUsedUp && report.steps < MOST_STEPS {
        if report.read == there.len() && !coming.is_empty() {
            println!("{} steps; then {} comes", report.steps, coming[0]);
            (there, coming) = input.split_at(there.len() + 1);
        }
        report = door::resume(image, there, &mut store, output, SLICE, &report)?;
    }
    Ok(report)
}
