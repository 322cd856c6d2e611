//! How many images with one flipped bit the check accepts, and that docs/FIRMWARE.md and docs/REFUSALS.md say so.

fn file(name: &str) -> Vec<u8> {
    let path = format!("{}/../../{name}", env!("CARGO_MANIFEST_DIR"));
    std::fs::read(&path).unwrap_or_else(|error| panic!("{path}: {error}"))
}

fn document(name: &str) -> String {
    String::from_utf8(file(name)).expect("a text")
}

/// The bits of an image, and how many of them can be flipped, one at a time, so that it is still accepted.
fn counted(program: &str) -> (usize, usize) {
    let mut image = file(&format!("vectors/input/{program}-1.img"));
    assert_eq!(door::check(&image), Ok(()), "{program}");
    let bits = image.len() * 8;
    let mut accepted = |bit: &usize| {
        image[bit / 8] ^= 1 << (bit % 8);
        let answer = door::check(&image);
        image[bit / 8] ^= 1 << (bit % 8);
        answer.is_ok()
    };
    (bits, (0..bits).filter(|bit| accepted(bit)).count())
}

/// What the table's row of a program has behind its name, without the commas in numbers.
fn stated(document: &str, program: &str) -> Vec<String> {
    let row = document.lines().find_map(|line| line.strip_prefix(&format!("| `{program}` | ")));
    let cells = row.unwrap_or_else(|| panic!("there is no row of {program}")).trim_end_matches(" |").split(" | ");
    cells.map(|cell| cell.replace(',', "")).collect()
}

#[test]
fn one_flipped_bit() {
    let (firmware, refusals) = (document("docs/FIRMWARE.md"), document("docs/REFUSALS.md"));
    let shares = ["members", "pin", "visits"].map(|program| {
        let (bits, accepted) = counted(program);
        let share = 100.0 * accepted as f64 / bits as f64;
        assert_eq!(stated(&firmware, program), [bits.to_string(), accepted.to_string(), format!("{share:.1}")]);
        share
    });
    let [least, most] = [shares.into_iter().fold(100.0, f64::min), shares.into_iter().fold(0.0, f64::max)];
    let words = format!("accepts {least:.0} to {most:.0} of 100");
    assert!(refusals.contains(&words), "docs/REFUSALS.md does not say: {words}");
}
