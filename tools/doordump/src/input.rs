//! The files that a command names.
use std::ffi::OsStr;
use std::io::Read;

/// The word for standard input.
pub const STANDARD_INPUT: &str = "-";

/// A file's name as it is shown: signs that would move the reader's cursor are written out.
pub fn shown(file: &OsStr) -> String {
    if file == STANDARD_INPUT {
        return "standard input".to_string();
    }
    let name = file.to_string_lossy();
    name.chars().map(|c| if c.is_control() { c.escape_default().to_string() } else { c.to_string() }).collect()
}

/// The bytes of a file.
pub fn read(file: &OsStr) -> Result<Vec<u8>, String> {
    let read = if file == STANDARD_INPUT {
        let mut bytes = Vec::new();
        std::io::stdin().read_to_end(&mut bytes).map(|_| bytes)
    } else {
        std::fs::read(file)
    };
    read.map_err(|error| format!("{}: {error}", shown(file)))
}
