//! Every call of `vectors/requests/`, whose README says how to read it. Sound is decided after every step.

use model::Numbers;
use std::path::Path;
use std::str::FromStr;

/// What is lent, and stays lent for the next call of a case.
#[derive(Clone, Debug, Default)]
struct Lent {
    store: Vec<i64>,
    input: Vec<i32>,
    output: Vec<i32>,
    steps: u32,
    from: Numbers,
}

/// A call, and what has come of it.
#[derive(Default)]
struct Answer {
    result: Vec<i64>,
    store: Vec<i64>,
    output: Vec<i32>,
}

fn list<T: FromStr<Err: std::fmt::Debug> + Clone>(text: &str) -> Vec<T> {
    let times = |word: &str| {
        let (number, count) = word.split_once('*').unwrap_or((word, "1"));
        vec![number.parse().unwrap(); count.parse().unwrap()]
    };
    text.split_whitespace().flat_map(times).collect()
}

fn bytes(hex: &str) -> Vec<u8> {
    (0..hex.len() / 2).map(|i| u8::from_str_radix(&hex[2 * i..2 * i + 2], 16).unwrap()).collect()
}

/// The twelve numbers in the order of the files.
fn twelve(numbers: &Numbers) -> Vec<i64> {
    let Numbers { refusal, fault, outcome, trap, halt, steps, row, base, top, read, written, mark } = *numbers;
    let first = [refusal, fault, outcome, trap].map(i64::from);
    let rest = [row.into(), steps.into(), read as i64, written as i64, base.into(), top.into(), mark.into()];
    [&first[..], &[halt.into()], &rest].concat()
}

/// Where the list has no mark, it is top: then question 14 answers as it does without a mark.
fn numbers_of(list: &[i64]) -> Numbers {
    let [refusal, fault, outcome, trap, halt, row, steps, read, written, base, top, ..] = *list else {
        panic!("{list:?}")
    };
    let mark = list.get(11).copied().unwrap_or(top);
    let [refusal, fault, outcome, trap] = [refusal, fault, outcome, trap].map(|number| number as u32);
    let [row, steps, base, top, mark] = [row, steps, base, top, mark].map(|number| number as u32);
    let (halt, read, written) = (halt as i32, read as u64, written as u64);
    Numbers { refusal, fault, outcome, trap, halt, steps, row, base, top, read, written, mark }
}

/// One case: its lines, in order. Gives the number of its calls.
fn case(image: &[u8], name: &str, lines: &[&str]) -> usize {
    let mut lent = Lent::default();
    let mut calls = 0;
    let mut answer = Answer::default();
    for (i, line) in lines.iter().enumerate() {
        let (word, rest) = line.split_once(' ').unwrap_or((line, ""));
        match word {
            "store" => lent.store = list(rest),
            "input" => lent.input = list(rest),
            "output" => lent.output = list(rest),
            "steps" => lent.steps = rest.parse().unwrap(),
            "from" => lent.from = numbers_of(&list(rest)),
            "call" => {
                answer = call(image, rest, &mut lent);
                let given = lines[i + 1..].iter().take_while(|line| line.starts_with('='));
                expect(name, &lent, &answer, &given.copied().collect::<Vec<_>>());
                (lent.store, lent.output) = (answer.store.clone(), answer.output.clone());
                calls += 1;
            }
            "=" => assert!(!answer.result.is_empty(), "{name}: no call before {line}"),
            _ => panic!("{name}: {line}"),
        }
    }
    calls
}

fn call(image: &[u8], which: &str, lent: &mut Lent) -> Answer {
    let Lent { store, input, output, steps, from } = lent.clone();
    let (mut store, mut output) = (store, output);
    let numbers = match which {
        "run" => model::run(image, &input, &mut store, &mut output, steps),
        "continue" => model::continue_run(image, &input, &mut store, &mut output, steps, &from),
        _ => panic!("{which}"),
    };
    Answer { result: twelve(&numbers.unwrap()), store, output }
}

/// Where a line is missing, store or output is as before. Where a result has no mark, it is not compared.
fn expect(name: &str, lent: &Lent, answer: &Answer, lines: &[&str]) {
    let (mut store, mut output) = (lent.store.clone(), lent.output.clone());
    for line in lines {
        match line.split_once(' ').unwrap().1.split_once(' ').unwrap_or((&line[2..], "")) {
            ("result", rest) => {
                let result: Vec<i64> = list(rest);
                assert_eq!(answer.result[..result.len()], result, "{name}");
            }
            ("store", rest) => store = list(rest),
            ("output", rest) => output = list(rest),
            _ => panic!("{name}: {line}"),
        }
    }
    assert!(lines.iter().any(|line| line.starts_with("= result")), "{name}");
    assert_eq!(answer.store, store, "{name}");
    assert_eq!(answer.output, output, "{name}");
}

/// All results of a file have twelve numbers, or eleven, without the mark.
fn expect_lengths(lines: &[&str]) {
    let result = |line: &&str| line.strip_prefix("from").or(line.strip_prefix("= result")).map(list::<i64>);
    let lengths: Vec<usize> = lines.iter().filter_map(result).map(|result| result.len()).collect();
    assert!([11, 12].iter().any(|length| lengths.iter().all(|other| other == length)));
}

/// Every case of a file. Gives the number of calls.
fn cases(file: &Path) -> usize {
    let text = std::fs::read_to_string(file).unwrap();
    let lines: Vec<&str> = text.lines().filter(|line| !line.is_empty() && !line.starts_with('#')).collect();
    expect_lengths(&lines);
    let mut image = vec![];
    let mut calls = 0;
    for (i, line) in lines.iter().enumerate() {
        match line.split_once(' ').unwrap_or((line, "")) {
            ("level", level) => assert_eq!(level, "5"),
            ("image", hex) => image = bytes(hex),
            ("case", name) => {
                let outside = |line: &&&str| !line.starts_with("case ") && !line.starts_with("image");
                calls += case(&image, name, &lines[i + 1..].iter().take_while(outside).copied().collect::<Vec<_>>());
            }
            _ => {}
        }
    }
    assert_eq!(calls, lines.iter().filter(|line| line.starts_with("call ")).count());
    calls
}

fn stored(name: &str) -> usize {
    cases(&Path::new(env!("CARGO_MANIFEST_DIR")).join("../../vectors/requests").join(name))
}

#[test]
fn cr1() {
    assert_eq!(stored("cr1.txt"), 875);
}

#[test]
fn cr3() {
    assert_eq!(stored("cr3.txt"), 406);
}

/// The file that REQUESTS names, as one that `tests/fuzz/run --cases` writes; its answers are the engine's.
#[test]
#[ignore]
fn another_file() {
    let file = std::env::var("REQUESTS").expect("REQUESTS names a file");
    println!("{file}: {} calls", cases(Path::new(&file)));
}
