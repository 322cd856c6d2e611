//! Checks images, and says of each what the check answers:
//!     cargo run --offline -p door --example check vectors/input/members-1.img
//! Exits 1 where one is refused, 2 where one cannot be read.
use std::process::ExitCode;

fn main() -> ExitCode {
    let names: Vec<String> = std::env::args().skip(1).collect();
    if names.is_empty() {
        eprintln!("usage: check IMAGE...");
        return ExitCode::from(2);
    }
    let mut code = 0;
    for name in names {
        match std::fs::read(&name).map(|image| door::check(&image)) {
            Ok(Ok(())) => println!("{name}: accepted"),
            Ok(Err(refusal)) => {
                println!("{name}: {refusal}");
                code = code.max(1);
            }
            Err(error) => {
                eprintln!("{name}: {error}");
                code = 2;
            }
        }
    }
    ExitCode::from(code)
}
