//! What the bytes of an image without six tables say of it.
use doordump::dump::NAMES;
use doordump::line::Line;
use listing::ROWS;

/// How many bytes are shown.
const SHOWN: usize = 64;

/// The header and the counts, as far as the bytes go.
pub fn of(image: &[u8]) -> Vec<Line> {
    let mut lines = vec![String::new()];
    lines.push(match image.first() {
        Some(version) => format!("byte 0            version {version}"),
        None => "there is no byte 0, the version".to_string(),
    });
    lines.push(match number(image, 1, 4) {
        Some(length) => format!("bytes 1 to 4      length {length}; the file has {}", image.len()),
        None => "bytes 1 to 4, the length, are not all there".to_string(),
    });
    counts(image, &mut lines);
    bytes(image, &mut lines);
    lines.iter().map(|line| Line::new(line)).collect()
}

/// The six counts, as far as there are bytes for them.
fn counts(image: &[u8], lines: &mut Vec<String>) {
    let mut at = 5;
    for ((_, least, most), name) in ROWS.into_iter().zip(NAMES) {
        let place = format!("bytes {at} and {}", at + 1);
        let Some(count) = number(image, at, 2) else {
            lines.push(format!("{place}, the count of {name} rows, are not both there"));
            return;
        };
        let range = if (least..=most).contains(&count) { "" } else { ": out of range" };
        lines.push(format!("{place:<17} {name} rows: {count} ({least} to {most}{range})"));
        at += 2 + 8 * count;
    }
    lines.push(format!("the tables end after {at} bytes; the file has {}", image.len()));
}

/// The first bytes in hexadecimal and as letters, sixteen to a line.
fn bytes(image: &[u8], lines: &mut Vec<String>) {
    for (k, line) in image[..image.len().min(SHOWN)].chunks(16).enumerate() {
        let numbers: Vec<String> = line.iter().map(|byte| format!("{byte:02x}")).collect();
        let letters: String =
            line.iter().map(|byte| if (b' '..=b'~').contains(byte) { *byte as char } else { '.' }).collect();
        lines.push(format!("{:04x}  {:<47}  |{letters}|", 16 * k, numbers.join(" ")));
    }
}

/// The big-endian number in `width` bytes from `at` on, where these are there.
fn number(image: &[u8], at: usize, width: usize) -> Option<usize> {
    let bytes = image.get(at..at.checked_add(width)?)?;
    Some(bytes.iter().fold(0, |number, byte| number << 8 | *byte as usize))
}
