//! The names that a listing gives, and listings with random mistakes.
use listing::{read_listing, FIELDS, NODES, PROCEDURES, STATEMENTS, TYPES, VARIABLES};
use std::path::{Path, PathBuf};

const NAMED: &str = "type = BOOLEAN
type = INTEGER
type = SET
type Card = RECORD number: INTEGER END
type 4 Member = RECORD(Card) groups: SET END
field spare = SET
var = global members: Member
procedure Main at begin parameters 0 locals 1
var 1 = local i: INTEGER
node = variable i
node one = INTEGER 1
statement begin: 0 := one
statement: RETURN
";

#[test]
fn rows_have_the_names_of_the_listing() {
    let listing = read_listing(NAMED.as_bytes()).unwrap();
    let names = |table: usize| -> Vec<&str> {
        (0..listing.tables[table].len()).map(|row| listing.names.of(table, row).unwrap_or("")).collect()
    };
    assert_eq!(names(TYPES), ["", "", "", "Card", "Member"]);
    assert_eq!(names(FIELDS), ["number", "groups", "spare"]);
    assert_eq!(names(VARIABLES), ["members", "i"]);
    assert_eq!(names(PROCEDURES), ["Main"]);
    assert_eq!(names(NODES), ["", "one"]);
    assert_eq!(names(STATEMENTS), ["begin", ""]);
    assert_eq!(listing.names.type_row(4), "Member");
    assert_eq!(listing.names.field(&listing.tables, Some(4), 0), "number");
    assert_eq!(listing.names.field(&listing.tables, Some(4), 1), "groups");
    assert_eq!(listing.names.procedure(0), "Main");
    assert_eq!(listing.names.variable(1), "i");
}

/// The indented lines of a document from one of them on.
fn block<'a>(document: &'a str, first: &'a str) -> String {
    let from = document.lines().skip_while(|line| *line != first);
    let lines: Vec<&str> = from.take_while(|line| line.is_empty() || line.starts_with("    ")).collect();
    lines.join("\n")
}

#[test]
fn the_documents_example_by_names_and_by_numbers_is_one_image() {
    let document = include_str!("../../../docs/LISTING.md");
    let tables = |first: &str| read_listing(block(document, first).as_bytes()).unwrap().tables;
    assert_eq!(tables("    type = BOOLEAN"), tables("    type 0 = BOOLEAN"));
}

/// Numbers that look random, the same in every run (xorshift).
struct Random(u64);

impl Random {
    fn below(&mut self, end: usize) -> usize {
        self.0 ^= self.0 << 13;
        self.0 ^= self.0 >> 7;
        self.0 ^= self.0 << 17;
        (self.0 % end as u64) as usize
    }
}

/// The listings in a folder.
fn listings_in(folder: &str) -> Vec<PathBuf> {
    let folder = Path::new(env!("CARGO_MANIFEST_DIR")).join("../..").join(folder);
    let entries = std::fs::read_dir(&folder).unwrap_or_else(|error| panic!("{}: {error}", folder.display()));
    let paths = entries.map(|entry| entry.unwrap().path());
    let mut listings: Vec<PathBuf> = paths.filter(|path| path.extension().is_some_and(|end| end == "lst")).collect();
    listings.sort();
    listings
}

/// Cuts a listing off, or takes out, doubles or changes some of its bytes or words.
fn spoil(random: &mut Random, text: &mut Vec<u8>) {
    let at = random.below(text.len());
    let end = (at + random.below(12)).min(text.len());
    let words: [&[u8]; 12] = [
        b"\n",
        b"--",
        b" RECORD ",
        b" END ",
        b" row ",
        b" 65535 ",
        b" 99999999999 ",
        b"node",
        b"x",
        b"\xff",
        b":",
        b"(",
    ];
    match random.below(5) {
        0 => text.truncate(at),
        1 => drop(text.drain(at..end)),
        2 => text.extend_from_within(at..),
        3 => drop(text.splice(at..end, words[random.below(words.len())].iter().copied())),
        _ => text[at] = random.below(256) as u8,
    }
}

#[test]
fn spoilt_listings_are_read_or_have_mistakes_in_order() {
    let mut random = Random(1);
    let mut wrong_ones = 0;
    for path in ["examples", "examples/door", "examples/report", "tests/dump"].iter().flat_map(|f| listings_in(f)) {
        let whole = std::fs::read(&path).unwrap();
        for _ in 0..40 {
            let mut text = whole.clone();
            for _ in 0..=random.below(4) {
                if !text.is_empty() {
                    spoil(&mut random, &mut text);
                }
            }
            let Err(wrong) = read_listing(&text) else { continue };
            let lines: Vec<&[u8]> = text.split(|byte| *byte == b'\n').collect();
            let places: Vec<(usize, usize)> = wrong.iter().map(|wrong| (wrong.line, wrong.column)).collect();
            assert!(!places.is_empty() && places.is_sorted(), "{places:?}");
            for (line, column) in places {
                assert!((1..=lines.len()).contains(&line), "line {line} of {}", lines.len());
                assert!((1..=lines[line - 1].len() + 1).contains(&column), "{line}:{column}");
            }
            wrong_ones += 1;
        }
    }
    assert!(wrong_ones > 1000, "{wrong_ones} of the listings are wrong");
}
