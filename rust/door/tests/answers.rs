//! Each refusal, outcome and trap, by an image of vectors/ that gives it. The answers are those of the vectors, which
//! an independent model or a reader of document 01 gave; marks are worked out by hand, from the images' variables.
use door::{Numbers, Outcome, Question, Refusal, Report, Trap};

const CELLS: usize = 8192;
const PLACES: usize = 4096;
const STEPS: u32 = 100_000;

fn image(name: &str) -> Vec<u8> {
    let path = format!("{}/../../vectors/{name}", env!("CARGO_MANIFEST_DIR"));
    std::fs::read(&path).unwrap_or_else(|error| panic!("{path}: {error}"))
}

/// A run with no inputs, and what doorrun lends.
fn run(name: &str) -> Result<Report, Refusal> {
    door::run(&image(name), &[], &mut vec![0; CELLS], &mut vec![0; PLACES], STEPS)
}

#[test]
fn each_refusal_of_the_check() {
    let refused = [
        ("doorrun/00013.img", Question::Version, 0, None, "there is no first byte, or it is not 1"),
        ("doorrun/00015.img", Question::Length, 0, None, "bytes 1 to 4 are missing, or are not the image's length"),
        (
            "doorrun/00045.img",
            Question::Tables,
            0,
            None,
            "a count is out of range, or the tables do not fill the image",
        ),
        (
            "doorrun/00031.img",
            Question::Type,
            7,
            Some("type"),
            "a type row, or an own field of a record, breaks its rule",
        ),
        ("doorrun/00011.img", Question::Variable, 16, Some("variable"), "a variable row breaks its form"),
        ("doorrun/00030.img", Question::Procedure, 1, Some("procedure"), "a procedure row breaks its rule"),
        (
            "doorrun/00006.img",
            Question::Node,
            22,
            Some("node"),
            "a node is not well formed, or names a row that is not there",
        ),
        (
            "doorrun/00001.img",
            Question::Statement,
            43,
            Some("statement"),
            "a statement is not well formed, or names a row that is not there",
        ),
        ("doorrun/00017.img", Question::Names, 23, Some("node"), "a node is named never, or more than once"),
        ("doorrun/00010.img", Question::NodeType, 268, Some("node"), "a node has no type"),
        (
            "doorrun/00018.img",
            Question::Rule,
            4,
            Some("statement"),
            "a statement breaks a type rule, or names another procedure's variable",
        ),
    ];
    for ((name, question, row, table, reason), number) in refused.into_iter().zip(1..) {
        let refusal = Refusal { question, row };
        assert_eq!(refusal.number(), number);
        assert_eq!(door::check(&image(name)), Err(refusal), "{name}");
        assert_eq!(door::check_number(&image(name)), number * 65_536 + row, "{name}");
        assert_eq!(Refusal::from_answer(number * 65_536 + row), Some(refusal));
        assert_eq!(run(name), Err(refusal), "{name}");
        let at = table.map_or(String::new(), |table| format!(", {table} row {row}"));
        assert_eq!(refusal.table(), table);
        assert_eq!(refusal.to_string(), format!("refusal {number}{at}: {reason}"));
        assert_eq!(format!("{refusal:?}"), refusal.to_string());
    }
    assert_eq!(door::check(&image("special/smallest.img")), Ok(()));
}

#[test]
fn each_refusal_of_the_run_alone() {
    let smallest = image("special/smallest.img");
    let lend = |cells| door::run(&smallest, &[], &mut vec![0; cells], &mut [], STEPS);
    assert_eq!(lend(2), Err(Refusal { question: Question::StoreBelow, row: 0 }));
    assert!(lend(3).is_ok());
    assert!(lend(door::STORE_MAX).is_ok());
    assert_eq!(lend(door::STORE_MAX + 1), Err(Refusal { question: Question::StoreAbove, row: 0 }));
}

#[test]
fn a_refusal_leaves_store_and_output() {
    let (mut store, mut output) = ([5; 4], [7; 2]);
    let refused = door::run(&image("doorrun/00006.img"), &[1, 2], &mut store, &mut output, STEPS);
    assert!(refused.is_err());
    assert_eq!((store, output), ([5; 4], [7; 2]));
}

#[test]
fn each_trap() {
    let trapped = [
        ("special/case_9__index_4.img", Trap::Index, 1, 0, 1, 7),
        ("special/empty_records.img", Trap::Guard, 2, 7, 10, 9),
        ("special/case_8.img", Trap::Target, 3, 6, 5, 11),
        ("special/case_2.img", Trap::Overflow, 4, 0, 1, 3),
        ("special/7_DIV_0.img", Trap::Divisor, 5, 0, 1, 3),
        ("special/0__32.img", Trap::Bound, 6, 0, 1, 4),
        ("special/endless_calls.img", Trap::Frame, 7, 3, 2729, 8188),
        ("special/read.img", Trap::Input, 8, 0, 1, 4),
        ("special/endless_output.img", Trap::Output, 9, 0, 8193, 3),
        ("special/HALT.img", Trap::Halt(-7), 10, 0, 1, 3),
    ];
    for (name, trap, number, row, steps, mark) in trapped {
        let report = run(name).unwrap_or_else(|refusal| panic!("{name}: {refusal}"));
        let got = (report.outcome, report.row, report.steps, report.mark);
        assert_eq!(got, (Outcome::Trapped(trap), row, steps, mark), "{name}");
        assert_eq!(trap.number(), number);
    }
}

/// 7 DIV -1, and runs of examples/report/quotient.lst: (x - s) DIV d[i], then MOD; the inputs are x, s, d[0] and i.
#[test]
fn a_negative_divisor() {
    let (mut store, mut output) = ([-9; 4], [7; 2]);
    let report = door::run(&image("special/7_DIV_-1.img"), &[], &mut store, &mut output, STEPS);
    let outcome = Outcome::Finished;
    let finished = Report { outcome, row: 1, steps: 2, base: 0, top: 3, read: 0, written: 1, mark: 3 };
    assert_eq!((report, output), (Ok(finished), [-7, 7]));

    let trapped = |trap| (Outcome::Trapped(trap), 4, [7; 3]);
    let runs = [
        ([50, 100, -24, 0], (outcome, 6, [2, -2, 7])),
        ([i32::MIN + 1, 0, -1, 0], (outcome, 6, [i32::MAX, 0, 7])),
        ([i32::MIN, 0, -1, 0], trapped(Trap::Overflow)),
        ([7, 0, 0, 0], trapped(Trap::Divisor)),
    ];
    for (input, expected) in runs {
        let mut output = [7; 3];
        let report = door::run(&image("input/quotient-1.img"), &input, &mut [0; 8], &mut output, STEPS);
        let got = report.map(|report| (report.outcome, report.row, output));
        assert_eq!(got, Ok(expected), "{input:?}");
    }
}

#[test]
fn the_other_outcomes() {
    let outcome = Outcome::Finished;
    let finished = Report { outcome, row: 4, steps: 99_999, base: 1, top: 4, read: 0, written: 0, mark: 4 };
    assert_eq!(run("special/loop_of_99999_steps.img"), Ok(finished));
    let used_up = Report { outcome: Outcome::StepsUsedUp, row: 6, steps: 100_000, ..finished };
    assert_eq!(run("special/loop_of_100001_steps.img"), Ok(used_up));
}

/// What members-1.img comes to for card 1234: 26 cells to begin with, then a call whose frame has 8.
const OPENED: Report =
    Report { outcome: Outcome::Finished, row: 12, steps: 43, base: 23, top: 26, read: 2, written: 1, mark: 34 };

#[test]
fn inputs_outputs_and_cells() {
    let (mut store, mut output) = ([-9; 40], [7; 2]);
    let report = door::run(&image("input/members-1.img"), &[1234, 19800], &mut store, &mut output, 200);
    assert_eq!(report, Ok(OPENED));
    assert_eq!(output, [1, 7]);
    assert_eq!(store[..12], [4711, 20000, 18, 815, 19500, 4, 1234, 21000, 145, 42, 20500, 32]);
    assert_eq!(store[34..], [-9; 6]);
}

/// What a run of members-1.img is lent and has left, to be continued.
#[derive(Clone, PartialEq, Debug)]
struct Kept {
    numbers: Numbers,
    store: Vec<i64>,
    output: Vec<i32>,
}

const FOB: [i32; 2] = [1234, 19800];

impl Kept {
    fn after(steps: u32) -> Kept {
        let (mut store, mut output) = (vec![-9; 40], vec![7; 2]);
        let numbers = door::run_numbers(&image("input/members-1.img"), &FOB, &mut store, &mut output, steps);
        Kept { numbers, store, output }
    }

    fn resume(&mut self, input: &[i32], steps: u32) -> Numbers {
        let Kept { numbers, store, output } = self;
        let next = door::resume_numbers(&image("input/members-1.img"), input, store, output, steps, numbers);
        if next.refusal == 0 {
            *numbers = next;
        }
        next
    }

    /// That it is refused by question 14, and that nothing is touched.
    fn is_refused(&self, input: &[i32], steps: u32) {
        let mut tried = self.clone();
        assert_eq!(tried.resume(input, steps), Numbers { refusal: 14, ..Numbers::default() }, "{self:?}");
        assert_eq!(&tried, self);
    }
}

#[test]
fn a_run_cut_in_two_is_one_run() {
    let whole = Kept::after(200);
    for steps in 0..43 {
        let mut kept = Kept::after(steps);
        assert_eq!(kept.resume(&FOB, 200 - steps).refusal, 0, "{steps}");
        assert_eq!(kept, whole, "{steps}");
    }
}

#[test]
fn no_steps_give_the_result_back() {
    let before = Kept::after(30);
    let mut after = before.clone();
    assert_eq!(after.resume(&FOB, 0), before.numbers);
    assert_eq!(after, before);
}

#[test]
fn each_refusal_of_a_continue_alone() {
    let good = Kept::after(30);
    let with = |numbers| Kept { numbers, ..good.clone() };
    let n = good.numbers;
    let others = [
        Numbers { refusal: 13, ..n },
        Numbers { fault: 1, ..n },
        Numbers { outcome: 1, ..n },
        Numbers { trap: 8, ..n },
        Numbers { halt: -1, ..n },
        Numbers { row: n.row + 1024, ..n },
        Numbers { row: 0, ..n },
        Numbers { base: n.base - 1, ..n },
        Numbers { top: n.top + 1, ..n },
        Numbers { top: u32::MAX, ..n },
        Numbers { mark: n.top - 1, ..n },
        Numbers { mark: 41, ..n },
        Numbers { mark: u32::MAX, ..n },
        Numbers { read: 3, ..n },
        Numbers { written: 1 << 32, ..n },
        Numbers::default(),
    ];
    for numbers in others {
        with(numbers).is_refused(&FOB, 1);
    }
    with(Numbers { steps: u32::MAX - 1, ..n }).is_refused(&FOB, 2);
    good.is_refused(&FOB[..1], 1);
    Kept::after(43).is_refused(&FOB, 1);
    for cell in [0, n.base as usize] {
        let mut kept = good.clone();
        kept.store[cell] = 1 << 32;
        kept.is_refused(&FOB, 1);
    }
}

#[test]
fn the_questions_before_the_fourteenth_come_first() {
    let bad = Numbers { refusal: 9, ..Numbers::default() };
    let resume = |name, cells| door::resume_numbers(&image(name), &[], &mut vec![0; cells], &mut [], 1, &bad);
    let refused = |refusal, fault| Numbers { refusal, fault, ..Numbers::default() };
    assert_eq!(resume("doorrun/00006.img", 8), refused(7, 22));
    assert_eq!(resume("special/smallest.img", door::STORE_MAX + 1), refused(12, 0));
    assert_eq!(resume("special/smallest.img", 2), refused(13, 0));
    assert_eq!(resume("special/smallest.img", 3), refused(14, 0));
}

#[test]
fn the_mark_is_enough_and_one_less_is_not() {
    let program = image("input/members-1.img");
    let (mut whole, mut output) = ([-9; 40], [7; 2]);
    assert_eq!(door::run(&program, &FOB, &mut whole, &mut output, 200), Ok(OPENED));
    let (mut cut, mut same) = ([-9; 34], [7; 2]);
    assert_eq!(door::run(&program, &FOB, &mut cut, &mut same, 200), Ok(OPENED));
    assert_eq!((&cut[..], same), (&whole[..34], output));

    // the first calls have frames of 6 cells, and lie between 26 and 32
    let less = |cells| door::run(&program, &FOB, &mut vec![0; cells], &mut [0; 2], 200);
    let mark = |cells| less(cells).map(|report| (report.outcome, report.mark));
    assert_eq!(mark(33), Ok((Outcome::Trapped(Trap::Frame), 32)));
    assert_eq!(mark(31), Ok((Outcome::Trapped(Trap::Frame), 26)));
    assert_eq!(mark(25), Err(Refusal { question: Question::StoreBelow, row: 0 }));
}

#[test]
fn the_mark_is_that_of_all_slices() {
    let marks = [(0, 26), (1, 32), (27, 32), (28, 34), (42, 34)];
    for (steps, mark) in marks {
        assert_eq!(Kept::after(steps).numbers.mark, mark, "{steps}");
    }
    // a mark is believed from the top to the store's end, and only grows
    for (given, after) in [(26, 32), (32, 32), (33, 33), (40, 40)] {
        let mut kept = Kept::after(0);
        kept.numbers.mark = given;
        assert_eq!(kept.resume(&FOB, 1).mark, after, "{given}");
        assert_eq!(kept.resume(&FOB, 5).mark, after, "{given}");
    }
}

#[test]
fn a_continue_in_fewer_cells() {
    let before = Kept::after(28);
    let whole = Kept::after(200);
    let mut cut = before.clone();
    cut.store.truncate(34);
    assert_eq!(cut.resume(&FOB, 172), whole.numbers);
    assert_eq!((&cut.store[..], cut.output), (&whole.store[..34], whole.output));
    let mut less = before;
    less.store.truncate(33);
    less.is_refused(&FOB, 172);

    // before the call that needs 34 cells
    let mut less = Kept::after(27);
    less.store.truncate(33);
    let trapped = less.resume(&FOB, 173);
    assert_eq!((trapped.refusal, trapped.trap, trapped.mark), (0, 7, 32));
}

#[test]
fn lists_and_store_may_change_their_lengths() {
    let mut kept = Kept::after(30);
    kept.store.resize(60, 5);
    kept.output.push(8);
    assert_eq!(kept.resume(&[1234, 19800, 77], 200).refusal, 0);
    let whole = Kept::after(200);
    assert_eq!(kept.numbers, whole.numbers);
    assert_eq!(kept.output, [1, 7, 8]);
    assert_eq!(kept.store[..40], whole.store);
    assert_eq!(kept.store[40..], [5; 20]);
}

#[test]
fn a_report_in_words() {
    let words = "finished, statement 12, 43 steps, 2 inputs read, 1 output written, 34 cells needed";
    assert_eq!(OPENED.to_string(), words);
    let report = Report { outcome: Outcome::Trapped(Trap::Halt(3)), row: 0, steps: 1, read: 1, written: 0, ..OPENED };
    let words = "trapped: HALT(3), statement 0, 1 step, 1 input read, 0 outputs written, 34 cells needed";
    assert_eq!(report.to_string(), words);
}

/// What a `main` prints that returns one: all in a line, with the reason in words; a report has all its fields.
#[test]
fn debug_is_in_words() {
    let printed = |result: Result<(), Box<dyn std::error::Error>>| format!("Error: {:?}", result.unwrap_err());
    let refusal = Refusal { question: Question::NodeType, row: 57 };
    assert_eq!(printed(Err(refusal.into())), "Error: refusal 10, node row 57: a node has no type");
    assert_eq!(printed(Err(Trap::Divisor.into())), "Error: a divisor that is zero");
    assert_eq!(format!("{:?}", Outcome::Trapped(Trap::Halt(3))), "trapped: HALT(3)");
    let report = Report { outcome: Outcome::Trapped(Trap::Input), ..OPENED };
    let words = "Report { outcome: trapped: a read when the input is used up, row: 12, steps: 43, base: 23, top: 26, \
                 read: 2, written: 1, mark: 34 }";
    assert_eq!(format!("{report:?}"), words);
}

#[test]
#[should_panic(expected = "no question has number 15")]
fn numbers_with_no_question() {
    let _ = Numbers { refusal: 15, ..Numbers::default() }.report();
}

#[test]
#[should_panic(expected = "no run has outcome 3 with trap 0")]
fn numbers_with_no_outcome() {
    let _ = Numbers { outcome: 3, ..Numbers::default() }.report();
}

#[test]
#[should_panic(expected = "no run has outcome 2 with trap 11")]
fn numbers_with_no_trap() {
    let _ = Numbers { outcome: 2, trap: 11, ..Numbers::default() }.report();
}

const HEADER: &str = include_str!("../../../include/door.h");

/// The name, as Rust writes it but in capitals, and the number of each line of the header that begins so.
fn defined(beginning: &str) -> Vec<(String, u32)> {
    let lines = HEADER.lines().filter_map(|line| line.strip_prefix("#define ")?.strip_prefix(beginning));
    let words = lines.map(|line| line.split_whitespace().collect::<Vec<_>>());
    words.map(|words| (words[0].replace('_', ""), words[1].trim_end_matches('u').parse().expect("a number"))).collect()
}

#[test]
fn the_questions_are_those_of_the_header() {
    let questions = (1..).map_while(Question::from_number);
    let named = questions.map(|question| (format!("{question:?}").to_uppercase(), question.number()));
    assert_eq!(named.collect::<Vec<_>>(), defined("DOOR_REFUSED_"));
}

#[test]
fn the_traps_are_those_of_the_header() {
    let named = [
        ("INDEX", Trap::Index),
        ("GUARD", Trap::Guard),
        ("TARGET", Trap::Target),
        ("OVERFLOW", Trap::Overflow),
        ("DIVISOR", Trap::Divisor),
        ("BOUND", Trap::Bound),
        ("FRAME", Trap::Frame),
        ("INPUT", Trap::Input),
        ("OUTPUT", Trap::Output),
        ("HALT", Trap::Halt(7)),
    ];
    let numbered = named.map(|(name, trap)| (name.to_string(), trap.number()));
    assert_eq!(defined("DOOR_TRAP_")[1..], numbered);
    for (_, trap) in named {
        let report = Report { outcome: Outcome::Trapped(trap), ..OPENED };
        assert_eq!(report.numbers().report(), Ok(report));
    }
}

#[test]
fn a_number_of_no_question() {
    for answer in [0, 57, 65_535, 15 * 65_536, u32::MAX] {
        assert_eq!(Refusal::from_answer(answer), None, "{answer}");
    }
    assert_eq!(Refusal::from_numbers(0, 0), None);
}

#[test]
fn the_limits_are_those_of_the_header() {
    let limit = |name: &str| {
        let line = HEADER.lines().find_map(|line| line.strip_prefix(&format!("#define {name} ")));
        line.and_then(|number| number.parse().ok())
    };
    assert_eq!(limit("DOOR_IMAGE_MAX"), Some(door::IMAGE_MAX));
    assert_eq!(limit("DOOR_STORE_MAX"), Some(door::STORE_MAX));
    assert_eq!(limit("DOOR_CHECK_STACK"), Some(door::CHECK_STACK));
    assert_eq!(limit("DOOR_RUN_STACK"), Some(door::RUN_STACK));
    assert_eq!(door::check(&image("large/longest.img")), Ok(()));
    assert_eq!(image("large/longest.img").len(), door::IMAGE_MAX);
}

#[test]
fn numbers_are_printed_in_order() {
    let (outcome, trap, halt) = (3, 4, -5);
    let (row, steps, read, written) = (6, 7, 8, 9);
    let (base, top, mark) = (10, 11, 12);
    let numbers = Numbers { refusal: 1, fault: 2, outcome, trap, halt, steps, row, base, top, read, written, mark };
    assert_eq!(numbers.in_order(), [1, 2, 3, 4, -5, 6, 7, 8, 9]);
    assert_eq!(numbers.to_string(), "1 2 3 4 -5 6 7 8 9");
    let many = Numbers { read: u64::MAX, written: u64::MAX - 1, ..Numbers::default() };
    assert_eq!(many.to_string(), "0 0 0 0 0 0 0 18446744073709551615 18446744073709551614");
}
