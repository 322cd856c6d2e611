//! Programs of `vectors/`, for what is claimed of every run.

use model::{check, Program};
use std::path::Path;

/// Inputs for all of them.
pub const INPUT: [i32; 40] = [3; 40];

/// Images that the check accepts, by their files' names.
pub fn programs() -> Vec<(String, Program)> {
    let vectors = Path::new(env!("CARGO_MANIFEST_DIR")).join("../../vectors");
    let mut programs = vec![];
    for folder in ["special", "doorrun", "in", "division", "runs", "report", "input"] {
        for entry in std::fs::read_dir(vectors.join(folder)).unwrap() {
            let path = entry.unwrap().path();
            let name = path.display().to_string();
            if path.extension().is_some_and(|extension| extension == "img") {
                programs.extend(check(&std::fs::read(path).unwrap()).ok().map(|program| (name, program)));
            }
        }
    }
    assert!(programs.len() > 500);
    programs
}
