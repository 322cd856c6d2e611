//! Each rule is the one that some image breaks: one mistake in a good program, and the rule and row reported for it.

mod common;

use common::{draft, image, row};
use model::rules::{self, Rule};
use model::{check, Row, Tables};

/// A program with rows of every kind.
fn good() -> Tables {
    let mut tables = draft(Vec::new());
    // 3 a record of an INTEGER, 4 extends it by a SET, 5 an array of 4 INTEGERs, 6 a record without cells
    tables.types.extend([row(4, 0, 0, 1), row(4, 4, 1, 1), row(3, 1, 4, 0), row(4, 0, 2, 0)]);
    tables.fields.extend([row(0, 1, 0, 0), row(0, 2, 0, 0)]);
    // globals 0 to 3; VAR parameter 4, value parameter 5 and local 6 of procedure 1; local 7 of procedure 2
    tables.variables.extend([row(0, 1, 0, 0), row(0, 3, 0, 0), row(0, 4, 0, 0), row(0, 5, 0, 0)]);
    tables.variables.extend([row(3, 3, 0, 0), row(2, 1, 0, 0), row(1, 0, 0, 0), row(1, 6, 0, 0)]);
    tables.procedures.extend([row(0, 7, 2, 1), row(0, 12, 0, 1)]);
    module_body(&mut tables);
    procedure_1(&mut tables);
    // procedure 2: jumps to itself
    tables.statements.push(row(3, 0, 12, 0));
    tables
}

fn module_body(tables: &mut Tables) {
    tables.nodes.extend([
        row(1, 0, 0, 0), // 0 variable 0
        row(0, 1, 0, 7), // 1 the INTEGER 7
        row(1, 1, 0, 0), // 2 variable 1
        row(1, 2, 0, 0), // 3 variable 2
        row(1, 3, 0, 0), // 4 variable 3
        row(0, 1, 0, 3), // 5 the INTEGER 3
        row(3, 4, 5, 0), // 6 element of 4 at 5
        row(1, 2, 0, 0), // 7 variable 2
        row(0, 1, 0, 9), // 8 the INTEGER 9
        row(8, 7, 0, 0), // 9 argument 7
        row(8, 8, 0, 0), // 10 argument 8
        row(0, 0, 0, 1), // 11 TRUE
        row(0, 1, 0, 5), // 12 the INTEGER 5
    ]);
    tables.statements.extend([
        row(0, 0, 1, 0),  // 0 assign
        row(0, 2, 3, 0),  // 1 assign, an extension
        row(5, 6, 0, 0),  // 2 read
        row(1, 1, 9, 0),  // 3 call procedure 1
        row(2, 11, 6, 0), // 4 go to 6 if FALSE
        row(7, 12, 0, 0), // 5 HALT(5)
        row(4, 0, 0, 0),  // 6 RETURN
    ]);
}

fn procedure_1(tables: &mut Tables) {
    tables.nodes.extend([
        row(1, 6, 0, 0),   // 13 variable 6
        row(7, 4, 4, 0),   // 14 variable 4 IS type 4
        row(4, 4, 4, 0),   // 15 variable 4 as a type 4
        row(2, 15, 1, 0),  // 16 field 1 of 15
        row(0, 2, 9, 9),   // 17 a SET
        row(1, 5, 0, 0),   // 18 variable 5
        row(6, 18, 0, 1),  // 19 monadic −
        row(1, 5, 0, 0),   // 20 variable 5
        row(5, 19, 20, 1), // 21 dyadic +
    ]);
    tables.statements.extend([
        row(0, 13, 14, 0), // 7 assign
        row(0, 16, 17, 0), // 8 assign
        row(6, 21, 0, 0),  // 9 write
        row(1, 2, 0, 0),   // 10 call procedure 2
        row(4, 0, 0, 0),   // 11 RETURN
    ]);
}

const TRUE: Row = Row { kind: 0, zero: 0, a: 0, b: 0, c: 1 };

/// Rules of questions 1 to 3: what is done to the good program's bytes. The row is 0.
type Damage = (&'static Rule, fn(&mut Vec<u8>));

const BYTES: &[Damage] = &[
    (&rules::FIRST_BYTE, |image| image.clear()),
    (&rules::VERSION, |image| image[0] = 2),
    (&rules::LENGTH_PRESENT, |image| image.truncate(4)),
    (&rules::LENGTH, |image| image.truncate(100)),
    (&rules::COUNT_PRESENT, |image| recount(image, 6)),
    (&rules::ROWS_PRESENT, |image| recount(image, 62)),
    (&rules::NOTHING_LEFT, |image| recount(image, image.len() + 1)),
];

/// Gives the image another length, and says so in bytes 1 to 4.
fn recount(image: &mut Vec<u8>, length: usize) {
    image.resize(length, 0);
    image[1..5].copy_from_slice(&(length as u32).to_be_bytes());
}

/// Rules of questions 3 to 11: the row at fault, and the mistake.
type Mistake = (&'static Rule, u32, fn(&mut Tables));

const COUNTS: &[Mistake] = &[
    (&rules::TYPE_COUNT, 0, |t| t.types.truncate(2)),
    (&rules::FIELD_COUNT, 0, |t| t.fields.resize(257, row(0, 1, 0, 0))),
    (&rules::VARIABLE_COUNT, 0, |t| t.variables.resize(257, row(1, 1, 0, 0))),
    (&rules::PROCEDURE_COUNT, 0, |t| t.procedures.clear()),
    (&rules::NODE_COUNT, 0, |t| t.nodes.resize(2049, TRUE)),
    (&rules::STATEMENT_COUNT, 0, |t| t.statements.clear()),
];

const TYPES: &[Mistake] = &[
    (&rules::TYPE_ZERO_BYTE, 5, |t| t.types[5].zero = 1),
    (&rules::SCALAR_ROW, 1, |t| t.types[1].kind = 2),
    (&rules::SCALAR_UNUSED, 2, |t| t.types[2].c = 1),
    (&rules::LATER_TYPE, 6, |t| t.types[6].kind = 0),
    (&rules::ARRAY_UNUSED, 5, |t| t.types[5].c = 1),
    (&rules::ELEMENT_TYPE, 5, |t| t.types[5].a = 5),
    (&rules::ARRAY_LENGTH, 5, |t| t.types[5].b = 0),
    (&rules::BASE_LOWER, 4, |t| t.types[4].a = 5),
    (&rules::BASE_RECORD, 4, |t| t.types[4].a = 3),
    (&rules::FIRST_FIELD, 6, |t| t.types[6].b = 0),
    (&rules::OWN_FIELDS, 4, |t| t.types[4].c = 2),
    (&rules::FIELD_KIND, 4, |t| t.fields[1].kind = 1),
    (&rules::FIELD_ZERO_BYTE, 4, |t| t.fields[1].zero = 1),
    (&rules::FIELD_UNUSED, 3, |t| t.fields[0].c = 1),
    (&rules::FIELD_TYPE, 4, |t| t.fields[1].a = 4),
    (&rules::TYPE_SIZE, 5, |t| (t.types[5].a, t.types[5].b) = (4, 2049)),
    (&rules::FIELD_CLAIMED, 7, |t| t.fields.push(row(9, 9, 9, 9))),
];

const VARIABLES_AND_PROCEDURES: &[Mistake] = &[
    (&rules::VARIABLE_KIND, 7, |t| t.variables[7].kind = 4),
    (&rules::VARIABLE_ZERO_BYTE, 0, |t| t.variables[0].zero = 255),
    (&rules::VARIABLE_UNUSED, 4, |t| t.variables[4].b = 1),
    (&rules::VARIABLE_TYPE, 5, |t| t.variables[5].a = 7),
    (&rules::GLOBALS_FIRST, 6, |t| t.variables[6].kind = 0),
    (&rules::PROCEDURE_KIND, 1, |t| t.procedures[1].kind = 1),
    (&rules::PROCEDURE_ZERO_BYTE, 2, |t| t.procedures[2].zero = 1),
    (&rules::MODULE_BODY_START, 0, |t| t.procedures[0].a = 1),
    (&rules::MODULE_BODY_PARAMETERS, 0, |t| t.procedures[0].b = 1),
    (&rules::BODY_START, 2, |t| t.procedures[2].a = 13),
    (&rules::BODY_NOT_EMPTY, 1, |t| t.procedures[2].a = 7),
    (&rules::ENOUGH_VARIABLES, 1, |t| (t.procedures[1].b, t.procedures[1].c) = (65535, 65535)),
    (&rules::PARAMETER_KIND, 1, |t| t.procedures[1].b = 3),
    (&rules::LOCAL_KIND, 1, |t| (t.procedures[1].b, t.procedures[1].c) = (1, 2)),
    (&rules::VARIABLE_CLAIMED, 3, |t| t.procedures[2].c = 0),
];

const NODES: &[Mistake] = &[
    (&rules::NODE_KIND, 3, |t| t.nodes[3].kind = 9),
    (&rules::NODE_ZERO_BYTE, 21, |t| t.nodes[21].zero = 1),
    (&rules::NODE_UNUSED, 19, |t| t.nodes[19].b = 1),
    (&rules::CONSTANT_TYPE, 1, |t| t.nodes[1].a = 3),
    (&rules::BOOLEAN_CONSTANT, 11, |t| t.nodes[11].b = 1),
    (&rules::NODE_VARIABLE, 15, |t| t.nodes[15].a = 8),
    (&rules::NODE_TYPE, 14, |t| t.nodes[14].b = 7),
    (&rules::CHILD_EXISTS, 6, |t| t.nodes[6].b = 22),
    (&rules::CHILD_LOWER, 6, |t| t.nodes[6].b = 6),
    (&rules::CHILD_NO_ARGUMENT, 21, |t| t.nodes[21].b = 9),
    (&rules::PART_OF_DESIGNATOR, 6, |t| t.nodes[6].a = 5),
    (&rules::DYADIC_OPERATOR, 21, |t| t.nodes[21].c = 17),
    (&rules::MONADIC_OPERATOR, 19, |t| t.nodes[19].c = 0),
    (&rules::NAMED_NEVER, 22, |t| t.nodes.push(TRUE)),
    (&rules::NAMED_TWICE, 18, |t| t.nodes[21].a = 18),
];

const STATEMENTS: &[Mistake] = &[
    (&rules::STATEMENT_KIND, 12, |t| t.statements[12].kind = 8),
    (&rules::STATEMENT_ZERO_BYTE, 0, |t| t.statements[0].zero = 1),
    (&rules::STATEMENT_UNUSED, 6, |t| t.statements[6].a = 1),
    (&rules::STATEMENT_NODE, 9, |t| t.statements[9].a = 22),
    (&rules::ONLY_CALLS_NAME_ARGUMENTS, 9, |t| t.statements[9].a = 10),
    (&rules::TARGET_DESIGNATOR, 2, |t| t.statements[2].a = 5),
    (&rules::CALLED_PROCEDURE, 3, |t| t.statements[3].a = 3),
    (&rules::MODULE_BODY_CALLED, 10, |t| t.statements[10].a = 0),
    (&rules::NO_ARGUMENTS, 10, |t| t.statements[10].b = 9),
    (&rules::ARGUMENTS_EXIST, 3, |t| t.statements[3].b = 21),
    (&rules::ARGUMENT_KIND, 3, |t| t.statements[3].b = 10),
    (&rules::JUMP_TARGET, 4, |t| t.statements[4].b = 7),
    (&rules::BODY_END, 11, |t| t.statements[11] = row(1, 2, 0, 0)),
];

const TYPE_RULES: &[Mistake] = &[
    (&rules::FIELD_OF_RECORD, 16, |t| t.nodes[15] = row(1, 5, 0, 0)),
    (&rules::FIELD_EXISTS, 16, |t| t.nodes[15].b = 3),
    (&rules::ELEMENT_OF_ARRAY, 6, |t| t.nodes[4].a = 2),
    (&rules::INDEX_INTEGER, 6, |t| t.nodes[5] = TRUE),
    (&rules::GUARDED_PARAMETER, 14, |t| t.nodes[14].a = 2),
    (&rules::GUARDED_RECORD, 14, |t| t.variables[4].a = 5),
    (&rules::GUARD_EXTENDS, 14, |t| t.nodes[14].b = 6),
    (&rules::PLUS_MINUS_TIMES, 21, |t| t.nodes[20] = TRUE),
    (&rules::DIV_MOD, 21, |t| (t.nodes[20], t.nodes[21].c) = (TRUE, 5)),
    (&rules::SLASH, 21, |t| t.nodes[21].c = 6),
    (&rules::EQUALITY, 21, |t| (t.nodes[20], t.nodes[21].c) = (TRUE, 8)),
    (&rules::ORDER, 21, |t| (t.nodes[20], t.nodes[21].c) = (TRUE, 12)),
    (&rules::AND_OR, 21, |t| t.nodes[21].c = 13),
    (&rules::IN, 21, |t| t.nodes[21].c = 15),
    (&rules::RANGE, 21, |t| (t.nodes[20], t.nodes[21].c) = (TRUE, 16)),
    (&rules::MONADIC_MINUS, 19, |t| t.nodes[18] = TRUE),
    (&rules::NOT, 19, |t| t.nodes[19].c = 2),
    (&rules::OWN_VARIABLES, 0, |t| t.nodes[0].a = 5),
    (&rules::ASSIGNED_TYPE, 1, |t| (t.nodes[2].a, t.nodes[3].a) = (2, 1)),
    (&rules::VALUE_ARGUMENT_TYPE, 3, |t| t.nodes[8] = TRUE),
    (&rules::VAR_ARGUMENT_DESIGNATOR, 3, |t| t.nodes[7] = TRUE),
    (&rules::VAR_ARGUMENT_TYPE, 3, |t| t.nodes[7].a = 0),
    (&rules::CONDITION_TYPE, 4, |t| t.nodes[11].a = 1),
    (&rules::READ_TYPE, 2, |t| t.types[5].a = 2),
    (&rules::WRITE_TYPE, 9, |t| t.nodes[21].c = 7),
    (&rules::HALT_CONSTANT, 5, |t| t.nodes[12] = row(1, 0, 0, 0)),
    (&rules::HALT_TYPE, 5, |t| t.nodes[12].a = 2),
];

/// Every mistake as an image, with the rule and the row that it stands for.
fn mistakes() -> Vec<(&'static Rule, u32, Vec<u8>)> {
    let mut all = Vec::new();
    for (rule, damage) in BYTES {
        let mut bytes = image(&good());
        damage(&mut bytes);
        all.push((*rule, 0, bytes));
    }
    for (rule, row, mistake) in [COUNTS, TYPES, VARIABLES_AND_PROCEDURES, NODES, STATEMENTS, TYPE_RULES].concat() {
        let mut tables = good();
        mistake(&mut tables);
        all.push((rule, row, image(&tables)));
    }
    all
}

#[test]
fn the_good_program_is_accepted_and_runs() {
    let mut store = [0; 40];
    let answer = model::run(&image(&good()), &[11], &mut store, &mut [0], 100).unwrap();
    // 0 to 3, 7 to 10, then procedure 2 for ever
    assert_eq!((answer.refusal, answer.outcome, answer.row, answer.steps), (0, 0, 12, 100));
    assert_eq!((answer.read, answer.written), (1, 1));
    assert_eq!(store[..8], [7, 0, 0, 9 * 65536 + 9, 0, 0, 0, 11]);
}

#[test]
fn each_mistake_is_reported_by_its_rule() {
    for (rule, row, image) in mistakes() {
        let fault = check(&image).expect_err(rule.words);
        assert_eq!((fault.rule, fault.refusal, fault.row), (rule, rule.question, row), "{}", fault.detail);
    }
}

#[test]
fn details_name_what_they_number() {
    let details = [
        (&rules::MODULE_BODY_PARAMETERS, "procedure 0 has 1 parameter"),
        (&rules::NODE_ZERO_BYTE, "node 21 has the second byte 1"),
        (&rules::PART_OF_DESIGNATOR, "node 6 is part of node 5, which is of kind 0 (constant)"),
        (&rules::BODY_END, "statement 11 is the last of its body and of kind 1 (call)"),
        (&rules::GUARDED_PARAMETER, "node 14 names variable 2, which is of kind 0 (global)"),
        (&rules::ORDER, "node 21 has operator 12 (>=) with operands of types 1 (INTEGER) and 0 (BOOLEAN)"),
        (&rules::NOT, "node 19 has monadic operator 2 (~) with an operand of type 1 (INTEGER)"),
    ];
    for (rule, detail) in details {
        let (_, _, image) = mistakes().into_iter().find(|(broken, _, _)| *broken == rule).unwrap();
        assert_eq!(check(&image).unwrap_err().detail, detail);
    }
}

#[test]
fn every_rule_is_reported() {
    let mistakes = mistakes();
    for rule in rules::ALL {
        assert!(mistakes.iter().any(|(reported, _, _)| reported == &rule), "{}", rule.words);
    }
}

#[test]
fn rules_stand_in_the_order_of_the_questions() {
    assert!(rules::ALL.is_sorted_by_key(|rule| rule.question));
}

fn table(tables: &mut Tables, at: usize) -> &mut Vec<Row> {
    let Tables { types, fields, variables, procedures, nodes, statements } = tables;
    [types, fields, variables, procedures, nodes, statements].into_iter().nth(at).unwrap()
}

#[test]
fn counts_at_their_ends() {
    let counts = [(3usize, 64), (0, 256), (0, 256), (1, 64), (0, 2048), (1, 1024)];
    for (at, (least, most)) in counts.into_iter().enumerate() {
        for count in [least, most, most + 1].into_iter().chain(least.checked_sub(1)) {
            let mut tables = good();
            table(&mut tables, at).resize(count, row(0, 0, 0, 0));
            let expected = if (least..=most).contains(&count) { Ok(tables.clone()) } else { Err(3) };
            let answer = model::tables(&image(&tables)).map_err(|fault| fault.refusal);
            assert_eq!(answer, expected, "table {at}, {count} rows");
        }
    }
}

/// The numbers that a row of a table has no use for, by its kind.
fn unused(table: usize, kind: u8) -> &'static str {
    match (table, kind) {
        (0, 0..=2) => "abc",
        (0, 3) => "c",
        (1 | 2, _) => "bc",
        (4, 1 | 8) => "bc",
        (4, 2 | 3 | 4 | 7) => "c",
        (4, 6) => "b",
        (5, 0..=2) => "c",
        (5, 3) => "ac",
        (5, 4) => "abc",
        (5, 5..=7) => "bc",
        _ => "",
    }
}

fn set(row: &mut Row, number: char) {
    match number {
        'a' => row.a = 256,
        'b' => row.b = 256,
        'c' => row.c = 256,
        _ => row.zero = 128,
    }
}

#[test]
fn zero_bytes_and_unused_numbers_are_0() {
    for (at, question) in [4, 4, 5, 6, 7, 8].into_iter().enumerate() {
        for r in 0..table(&mut good(), at).len() {
            let kind = table(&mut good(), at)[r].kind;
            for number in unused(at, kind).chars().chain(['0']) {
                let mut tables = good();
                set(&mut table(&mut tables, at)[r], number);
                let fault = check(&image(&tables)).unwrap_err();
                // a field's faults are those of the record that claims it: fields 0 and 1 are those of types 3 and 4
                let row = if at == 1 { r + 3 } else { r };
                assert_eq!((fault.refusal, fault.row), (question, row as u32), "{}", fault.detail);
            }
        }
    }
}

/// What the check answers of `z := operand`: globals 0 to 4 of types BOOLEAN, INTEGER, SET, a record, an array; z of
/// type `target`. The operands are nodes 0 and 1, or node 0 alone.
fn operator(operands: &[u16], operation: Row, target: u16) -> (u32, u32) {
    let n = operands.len() as u16;
    let mut tables = draft(vec![row(0, n + 1, n, 0), row(4, 0, 0, 0)]);
    tables.types.extend([row(4, 0, 0, 0), row(3, 1, 2, 0)]);
    tables.variables.extend((0..5).map(|t| row(0, t, 0, 0)));
    tables.nodes.extend(operands.iter().map(|v| row(1, *v, 0, 0)));
    tables.nodes.extend([operation, row(1, target, 0, 0)]);
    check(&image(&tables)).map_or_else(|fault| (fault.refusal, fault.row), |_| (0, 0))
}

/// Of each operator the types that it takes and the one that it yields.
fn yields(operator: u16, x: u16, y: u16) -> Option<u16> {
    const B: u16 = 0;
    const I: u16 = 1;
    const S: u16 = 2;
    let takes: &[(u16, u16, u16)] = match operator {
        1..=3 => &[(I, I, I), (S, S, S)],
        4 | 5 => &[(I, I, I)],
        6 => &[(S, S, S)],
        7 | 8 => &[(B, B, B), (I, I, B), (S, S, B)],
        9..=12 => &[(I, I, B)],
        13 | 14 => &[(B, B, B)],
        15 => &[(I, S, B)],
        _ => &[(I, I, S)],
    };
    takes.iter().find(|taken| (taken.0, taken.1) == (x, y)).map(|taken| taken.2)
}

#[test]
fn operators_take_and_yield_their_types() {
    for c in 1..=16 {
        for (x, y, target) in (0..125).map(|i| (i / 25, i / 5 % 5, i % 5)) {
            let expected = match yields(c, x, y) {
                None => (10, 2),
                Some(t) if t == target => (0, 0),
                Some(_) => (11, 0),
            };
            assert_eq!(operator(&[x, y], row(5, 0, 1, c), target), expected, "{x} {c} {y}");
        }
    }
    for (c, x, target) in (0..50).map(|i| (i / 25 + 1, i / 5 % 5, i % 5)) {
        let expected = match (c, x) {
            (1, 1 | 2) | (2, 0) if x == target => (0, 0),
            (1, 1 | 2) | (2, 0) => (11, 0),
            _ => (10, 1),
        };
        assert_eq!(operator(&[x], row(6, 0, 0, c), target), expected, "monadic {c} {x}");
    }
}
