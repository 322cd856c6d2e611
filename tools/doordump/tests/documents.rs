//! The documents against the tools and the rules: what they state is what the code does.
use doordump::refusals::{cause, CAUSES, IN_SHORT};
use listing::{image_of, listing_of, read_listing, Tables};
use model::rules;
use std::path::{Path, PathBuf};

fn top() -> PathBuf {
    Path::new(env!("CARGO_MANIFEST_DIR")).join("../..")
}

fn text_of(name: &str) -> String {
    std::fs::read_to_string(top().join(name)).unwrap_or_else(|error| panic!("{name}: {error}"))
}

fn tables_of_listing(text: &str) -> Tables {
    read_listing(text.as_bytes()).unwrap_or_else(|wrong| panic!("{}", wrong[0])).tables
}

/// The indented blocks of a document, without the indentation.
fn blocks(document: &str) -> Vec<String> {
    let mut blocks = vec![String::new()];
    for line in document.lines() {
        match line.strip_prefix("    ") {
            Some(line) => *blocks.last_mut().unwrap() += &format!("{line}\n"),
            // An empty line within a block belongs to it.
            None if line.is_empty() => *blocks.last_mut().unwrap() += "\n",
            None => blocks.push(String::new()),
        }
    }
    blocks.into_iter().map(|block| block.trim_matches('\n').to_string() + "\n").filter(|block| block != "\n").collect()
}

fn block_with(document: &str, begins: &str) -> String {
    let found = blocks(document).into_iter().find(|block| block.starts_with(begins));
    found.unwrap_or_else(|| panic!("there is no block that begins with {begins}"))
}

/// A line of the worked example: where its bytes stand, the bytes, and what they are.
fn worked_line(line: &str) -> Option<(usize, Vec<u8>, &str)> {
    let (at, rest) = line.trim_start().split_once("  ")?;
    let (digits, meaning) = rest.split_once("  ")?;
    let digits: String = digits.chars().filter(|c| *c != ' ').collect();
    let byte = |k: usize| u8::from_str_radix(digits.get(k..k + 2)?, 16).ok();
    let bytes: Option<Vec<u8>> = (0..digits.len()).step_by(2).map(byte).collect();
    Some((at.parse().ok()?, bytes?, meaning.trim_start()))
}

fn first_image() -> Vec<u8> {
    image_of(&tables_of_listing(&text_of("examples/first.lst")))
}

#[test]
fn the_worked_example_is_the_image_of_its_listing() {
    let block = block_with(&text_of("docs/IMAGE.md"), "  0  01  ");
    let (mut image, mut listing) = (Vec::new(), String::new());
    for line in block.lines() {
        let (at, bytes, meaning) = worked_line(line).unwrap_or_else(|| panic!("what is this: {line}"));
        assert_eq!(at, image.len(), "{line}");
        image.extend(bytes);
        if ["type ", "var ", "procedure ", "node ", "statement "].iter().any(|name| meaning.starts_with(name)) {
            listing += &format!("{meaning}\n");
        }
    }
    assert_eq!(image, first_image());
    assert_eq!(image, image_of(&tables_of_listing(&listing)), "the lines on the right give other bytes");
}

/// The nine numbers and what was written, as doorrun prints them.
fn printed(numbers: &door::Numbers, output: &[i32]) -> String {
    let written = output[..numbers.written as usize].iter().map(|number| format!("{number}\n"));
    format!("{numbers}\n") + &written.collect::<String>()
}

#[test]
fn the_worked_example_runs_as_stated() {
    let document = text_of("docs/IMAGE.md");
    let image = first_image();
    let (mut store, mut output) = ([-1; 11], [7; 4]);
    let numbers = door::run_numbers(&image, &[], &mut store, &mut output, 100);
    assert_eq!(printed(&numbers, &output), block_with(&document, "0 0 1 0 0 "));
    let cells: Vec<String> = store.iter().map(i64::to_string).collect();
    assert_eq!(cells.join(" ") + "\n", block_with(&document, "0 0 18 "));

    let in_ten = door::run_numbers(&image, &[], &mut store[..10], &mut output, 100);
    assert_eq!((in_ten.trap, in_ten.row), (7, 1));
    assert_eq!(door::run_numbers(&image, &[], &mut store[..5], &mut output, 100).refusal, 13);
}

#[test]
fn the_worked_example_takes_the_steps_stated() {
    let document = text_of("docs/IMAGE.md");
    let image = first_image();
    let mut steps = 0;
    for line in section(&document, "Its run").lines() {
        let cells: Vec<&str> = line.split('|').map(str::trim).collect();
        let [_, step, statement, ..] = cells[..] else { continue };
        let (Ok(step), Ok(statement)) = (step.parse::<u32>(), statement.parse::<u32>()) else { continue };
        let before = door::run_numbers(&image, &[], &mut [0; 11], &mut [0; 4], step - 1);
        assert_eq!((before.outcome, before.row, before.steps), (0, statement, step - 1), "{line}");
        steps += 1;
    }
    assert_eq!(steps, 11);
}

#[test]
fn the_dumps_in_the_documents_are_the_stored_outputs() {
    let shown = block_with(&text_of("docs/IMAGE.md"), "   PROCEDURE p0");
    assert!(text_of("tests/dump/first.txt").ends_with(&shown), "{shown}");
    let refusals = text_of("docs/REFUSALS.md");
    for (begins, stored) in [
        ("10-index.img: version", "10-index"),
        ("the reader's report: accepted, and the run refused by 12", "report-12"),
        ("first.img: accepted; ", "brief"),
    ] {
        assert_eq!(block_with(&refusals, begins), text_of(&format!("tests/dump/{stored}.txt")));
    }
    let shown = block_with(&refusals, "the reader's report: refused by question 10");
    assert!(text_of("tests/dump/report-other.txt").contains(&shown), "{shown}");
}

/// The cells of a table's row in a document, without its signs for emphasis.
fn cells(document: &str, begins: &str, table: usize) -> Vec<String> {
    let rows = document.lines().filter(|line| line.starts_with(&format!("| {begins} |")));
    let mut rows = rows.map(|line| line.trim_matches('|').split('|').map(|cell| cell.trim().replace('*', "")));
    rows.nth(table).unwrap_or_else(|| panic!("no row {begins}")).collect()
}

#[test]
fn the_words_of_refusals_are_the_documents() {
    let document = text_of("docs/REFUSALS.md");
    let (_, refusals) = document.split_once("\n## Refusals\n").unwrap();
    for (refusal, words) in (1..).zip(IN_SHORT) {
        assert_eq!(cells(refusals, &refusal.to_string(), 0)[1], words);
    }
    let mut first = 1;
    for (last, usually, to_do) in CAUSES {
        // The first table has single refusals alone, so that a span stands in the second one only.
        let row = if first == last {
            cells(refusals, &last.to_string(), 1)
        } else {
            cells(refusals, &format!("{first} to {last}"), 0)
        };
        assert_eq!(row[1..], [usually, to_do]);
        assert!((first..=last).all(|refusal| cause(refusal) == Some((usually, to_do))));
        first = last + 1;
    }
    assert_eq!((cause(0), cause(first)), (None, None));
}

#[test]
fn the_listing_in_the_document_is_what_print_writes() {
    let block = block_with(&text_of("docs/LISTING.md"), "type 0 = BOOLEAN");
    assert_eq!(listing_of(&tables_of_listing(&block)), block);
}

/// The part of a document below a heading, up to the next.
fn section<'a>(document: &'a str, heading: &str) -> &'a str {
    let (_, after) = document.split_once(&format!("\n### {heading}\n")).unwrap_or_else(|| panic!("no {heading}"));
    after.split("\n#").next().unwrap_or(after)
}

#[test]
fn the_rules_in_the_document_are_the_models() {
    let document = text_of("docs/REFUSALS.md");
    for question in 1..=11 {
        let written = section(&document, &format!("Question {question}"));
        let written: Vec<&str> = written.lines().filter_map(|line| line.strip_prefix("- ")).collect();
        let asked: Vec<&str> =
            rules::ALL.iter().filter(|rule| rule.question == question).map(|rule| rule.words).collect();
        assert_eq!(written, asked, "question {question}");
    }
}

#[test]
fn the_questions_in_the_document_are_document_01s() {
    let (document, specification) = (text_of("docs/REFUSALS.md"), text_of("docs/spec/01-scope.md"));
    for question in 1..=11 {
        let written = section(&document, &format!("Question {question}"));
        let sentence = written.lines().find(|line| !line.is_empty()).unwrap();
        let line = format!("\n{question}. {sentence}");
        assert!(specification.contains(&line), "{line}");
    }
}

/// The nine numbers of a run with what doorrun lends, and its output places.
fn run_with_output(image: &str) -> (door::Numbers, Vec<i32>) {
    let image = std::fs::read(top().join(image)).unwrap_or_else(|error| panic!("{image}: {error}"));
    let mut output = vec![0; 4096];
    let numbers = door::run_numbers(&image, &[], &mut vec![0; 8192], &mut output, 100_000);
    (numbers, output)
}

/// The nine numbers of a run with what doorrun lends.
fn run(image: &str) -> door::Numbers {
    run_with_output(image).0
}

#[test]
fn the_first_command_prints_what_the_readme_has() {
    let document = text_of("README.md");
    let (_, command) = document.split_once("rt run) <").expect("the first command");
    let (numbers, output) = run_with_output(command.lines().next().unwrap());
    let shown = printed(&numbers, &output);
    assert_eq!(shown, block_with(&document, shown.lines().next().unwrap()));
}

/// The statement row that a section gives for its image.
fn row_in(section: &str) -> Option<u32> {
    let text = section.split_whitespace().collect::<Vec<_>>().join(" ");
    let (_, after) = text.split_once("at statement row ")?;
    after.split(':').next()?.parse().ok()
}

/// The image that a section names.
fn image_in(section: &str) -> &str {
    let (before, _) = section.split_once(".img`").expect("the section names an image");
    &section[before.rfind('`').unwrap() + 1..before.len() + 4]
}

#[test]
fn the_images_in_the_document_trap_as_stated() {
    let document = text_of("docs/REFUSALS.md");
    for trap in 1..=10 {
        let section = section(&document, &format!("Trap {trap}"));
        let trapped = run(image_in(section));
        assert_eq!((trapped.trap, Some(trapped.row)), (trap, row_in(section)), "{section}");
    }
    let section = section(&document, "Steps used up");
    let endless = run(image_in(section));
    assert_eq!((endless.refusal, endless.outcome, endless.steps), (0, 0, 100_000));
    assert_eq!(Some(endless.row), row_in(section));
}
