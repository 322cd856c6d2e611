//! Runs a door program on inputs, and prints how it ended, how many cells it needed, and what it wrote:
//!     cargo run --offline -p door --example run vectors/input/members-1.img 1234 19800
//! It lends 65,536 cells, 64 output places and 100,000 steps. Exits 1 where the image is refused or the run does not
//! finish, 2 where the image cannot be read or an input is no number.
use door::Outcome;
use std::process::ExitCode;

fn main() -> ExitCode {
    match image_and_input(std::env::args().skip(1)) {
        Ok((image, input)) => run(&image, &input),
        Err(message) => {
            eprintln!("{message}");
            ExitCode::from(2)
        }
    }
}

fn image_and_input(mut words: impl Iterator<Item = String>) -> Result<(Vec<u8>, Vec<i32>), String> {
    let name = words.next().ok_or("usage: run IMAGE [INPUT...]")?;
    let image = std::fs::read(&name).map_err(|error| format!("{name}: {error}"))?;
    let number = |word: String| word.parse().map_err(|error| format!("{word}: {error}"));
    let input = words.map(number).collect::<Result<_, _>>()?;
    Ok((image, input))
}

fn run(image: &[u8], input: &[i32]) -> ExitCode {
    let mut store = vec![0; door::STORE_MAX];
    let mut output = [0; 64];
    match door::run(image, input, &mut store, &mut output, 100_000) {
        Ok(report) => {
            println!("{report}");
            output[..report.written].iter().for_each(|number| println!("{number}"));
            ExitCode::from(u8::from(report.outcome != Outcome::Finished))
        }
        Err(refusal) => {
            println!("{refusal}");
            ExitCode::from(1)
        }
    }
}
