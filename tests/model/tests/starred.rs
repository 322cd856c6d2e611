//! The starred cases of document 01, the mistakes to shut out, and the edges of the operators.

mod common;

use common::{draft, image, row};
use model::{check, run, Numbers, Row, Tables};

const ASSIGN: u8 = 0;
const CALL: u8 = 1;
const RETURN: Row = Row { kind: 4, zero: 0, a: 0, b: 0, c: 0 };

const BOOLEAN: u16 = 0;
const INTEGER: u16 = 1;
const SET: u16 = 2;

const DIV: u16 = 4;
const MOD: u16 = 5;
const AND: u16 = 13;
const OR: u16 = 14;
const IN: u16 = 15;
const RANGE: u16 = 16;

fn constant(t: u16, number: i64) -> Row {
    row(0, t, (number as u32 >> 16) as u16, number as u16)
}

fn integer(number: i64) -> Row {
    constant(INTEGER, number)
}

fn variable(v: u16) -> Row {
    row(1, v, 0, 0)
}

fn dyadic(a: u16, operator: u16, b: u16) -> Row {
    row(5, a, b, operator)
}

/// What an expression comes to, or its trap.
#[derive(Debug, PartialEq)]
enum Comes {
    To(i64),
    Trap(u32),
}
use Comes::{To, Trap};

/// Runs a program with one output place and 40 cells; gives the numbers and the cells.
fn run_tables(tables: &Tables) -> (Numbers, [i64; 40]) {
    let mut store = [99; 40];
    let answer = run(&image(tables), &[], &mut store, &mut [0], 100).unwrap();
    assert_eq!((answer.refusal, answer.fault), (0, 0));
    (answer, store)
}

fn comes(tables: &Tables) -> Comes {
    match run_tables(tables) {
        (Numbers { outcome: 1, .. }, store) => To(store[0]),
        (answer, _) => Trap(answer.trap),
    }
}

/// Global 0, of type t, is assigned the expression whose last node is the last of `nodes`.
fn expression(t: u16, nodes: &[Row]) -> Comes {
    let source = nodes.len() as u16 - 1;
    let mut tables = draft(vec![row(ASSIGN, source + 1, source, 0), RETURN]);
    tables.variables.push(row(0, t, 0, 0));
    tables.nodes = nodes.to_vec();
    tables.nodes.push(variable(0));
    comes(&tables)
}

fn integers(x: i64, operator: u16, y: i64) -> Comes {
    expression(INTEGER, &[integer(x), integer(y), dyadic(0, operator, 1)])
}

fn range(a: i64, b: i64) -> Comes {
    expression(SET, &[integer(a), integer(b), dyadic(0, RANGE, 1)])
}

#[test]
fn expressions() {
    let lowest = -2147483648;
    let cases = [
        ("1: -5 DIV 3", integers(-5, DIV, 3), To(-2)),
        ("1: -5 MOD 3", integers(-5, MOD, 3), To(1)),
        ("1: 5 DIV 3", integers(5, DIV, 3), To(1)),
        ("1: 5 MOD 3", integers(5, MOD, 3), To(2)),
        ("2: -(-2147483648)", expression(INTEGER, &[integer(lowest), row(6, 0, 0, 1)]), Trap(4)),
        ("2: that DIV 1", integers(lowest, DIV, 1), To(lowest)),
        ("3: 7 DIV 0", integers(7, DIV, 0), Trap(5)),
        ("3: 7 DIV -1", integers(7, DIV, -1), To(-7)),
        ("4: 0..3", range(0, 3), To(15)),
        ("4: 3..0", range(3, 0), To(0)),
        ("4: 31..31", range(31, 31), To(2147483648)),
        ("4: 0..32", range(0, 32), Trap(6)),
        ("5: -{}", expression(SET, &[constant(SET, 0), row(6, 0, 0, 1)]), To(4294967295)),
        (
            "5: 32 IN -{}",
            expression(BOOLEAN, &[integer(32), constant(SET, 0), row(6, 1, 0, 1), dyadic(0, IN, 2)]),
            Trap(6),
        ),
        (
            "6: FALSE & (7 DIV 0 = 1)",
            expression(
                BOOLEAN,
                &[
                    constant(BOOLEAN, 0),
                    integer(7),
                    integer(0),
                    dyadic(1, DIV, 2),
                    integer(1),
                    dyadic(3, 7, 4),
                    dyadic(0, AND, 5),
                ],
            ),
            To(0),
        ),
    ];
    for (case, answer, expected) in cases {
        assert_eq!(answer, expected, "{case}");
    }
}

fn sets(x: i64, operator: u16, y: i64) -> Comes {
    expression(SET, &[constant(SET, x), constant(SET, y), dyadic(0, operator, 1)])
}

/// What `x operator y` comes to, which is a BOOLEAN; x and y of the types given.
fn boolean(x: (u16, i64), operator: u16, y: (u16, i64)) -> Comes {
    expression(BOOLEAN, &[constant(x.0, x.1), constant(y.0, y.1), dyadic(0, operator, 1)])
}

#[test]
fn edges_of_integer_operators() {
    let (least, most) = (-2147483648, 2147483647);
    let cases = [
        ((most - 1, 1, 1), To(most)),
        ((most, 1, 1), Trap(4)),
        ((least, 1, -1), Trap(4)),
        ((least + 1, 2, 1), To(least)),
        ((least, 2, 1), Trap(4)),
        ((0, 2, least), Trap(4)),
        ((-65536, 3, 32768), To(least)),
        ((65536, 3, 32768), Trap(4)),
        ((least, 3, least), Trap(4)),
        ((least, DIV, 2), To(-1073741824)),
        ((least, DIV, most), To(-2)),
        ((-1, DIV, most), To(-1)),
        ((least, MOD, most), To(2147483646)),
        ((-6, MOD, 3), To(0)),
    ];
    for ((x, operator, y), expected) in cases {
        assert_eq!(integers(x, operator, y), expected, "{x} {operator} {y}");
    }
    for ((a, b), expected) in
        [((31, 0), To(0)), ((0, 31), To(4294967295)), ((-1, 0), Trap(6)), ((32, 0), Trap(6)), ((5, -1), Trap(6))]
    {
        assert_eq!(range(a, b), expected, "{a}..{b}");
    }
}

#[test]
fn negative_divisors_and_zero() {
    let (least, most) = (-2147483648, 2147483647);
    // x, y, x DIV y, x MOD y
    let cases = [
        (5, -3, To(-2), To(-1)),
        (-5, -3, To(1), To(-2)),
        (6, -3, To(-2), To(0)),
        (-6, -3, To(2), To(0)),
        (0, -7, To(0), To(0)),
        (-1, -1, To(1), To(0)),
        (least, -1, Trap(4), To(0)),
        (least + 1, -1, To(most), To(0)),
        (most, -1, To(least + 1), To(0)),
        (least, -2, To(1073741824), To(0)),
        (most, -2, To(-1073741824), To(-1)),
        (least, least, To(1), To(0)),
        (least + 1, least, To(0), To(least + 1)),
        (1, least, To(-1), To(least + 1)),
        (most, least, To(-1), To(-1)),
        (7, 0, Trap(5), Trap(5)),
        (-7, 0, Trap(5), Trap(5)),
        (0, 0, Trap(5), Trap(5)),
        (least, 0, Trap(5), Trap(5)),
    ];
    for (x, y, quotient, remainder) in cases {
        assert_eq!((integers(x, DIV, y), integers(x, MOD, y)), (quotient, remainder), "{x} by {y}");
    }
}

/// "x = (x DIV y) × y + (x MOD y) with 0 ≤ x MOD y < y, for a negative divisor y < x MOD y ≤ 0."
fn keeps_the_rule(x: i64, y: i64, quotient: i64, remainder: i64) -> bool {
    let in_range = if y > 0 { 0 <= remainder && remainder < y } else { y < remainder && remainder <= 0 };
    x == quotient * y + remainder && in_range
}

#[test]
fn division_at_the_edges_keeps_the_rule() {
    let (least, most) = (-2147483648, 2147483647);
    let near = [0, 10, 46341, 65536, 1 << 30, 1 << 31].map(|edge| edge - 2..=edge + 2);
    let near = near.into_iter().flatten().flat_map(|number| [number, -number]);
    let edges: Vec<i64> = near.filter(|number| (least..=most).contains(number)).collect();
    for (x, y) in edges.iter().flat_map(|x| edges.iter().map(move |y| (*x, *y))).filter(|(_, y)| *y != 0) {
        match (integers(x, DIV, y), integers(x, MOD, y)) {
            (To(quotient), To(remainder)) => {
                assert!(keeps_the_rule(x, y, quotient, remainder), "{x} by {y}: {quotient}, {remainder}");
            }
            other => assert_eq!((x, y, other), (least, -1, (Trap(4), To(0)))),
        }
    }
}

/// Of small numbers one quotient and one remainder keep the rule, and these are DIV and MOD.
#[test]
fn the_rule_determines_division() {
    for (x, y) in (-20..=20).flat_map(|x| (-20..=20).map(move |y| (x, y))).filter(|(_, y)| *y != 0) {
        let all = (-25..=25).flat_map(|quotient| (-25..=25).map(move |remainder| (quotient, remainder)));
        let kept: Vec<_> = all.filter(|(quotient, remainder)| keeps_the_rule(x, y, *quotient, *remainder)).collect();
        let [(quotient, remainder)] = kept[..] else { panic!("{x} by {y}: {kept:?}") };
        assert_eq!((integers(x, DIV, y), integers(x, MOD, y)), (To(quotient), To(remainder)), "{x} by {y}");
    }
}

#[test]
fn edges_of_set_operators() {
    // {0, 1} and {1, 31}: union, difference, intersection, symmetric difference
    let (x, y) = (3, 2147483650);
    assert_eq!([1, 2, 3, 6].map(|operator| sets(x, operator, y)), [To(2147483651), To(1), To(2), To(2147483649)]);
    let is_in = |element| boolean((INTEGER, element), IN, (SET, y));
    assert_eq!([0, 1, 30, 31].map(is_in), [To(0), To(1), To(0), To(1)]);
}

/// Document 02: "IN with an element outside 0 to 31 now gives trap 6", whatever the set.
#[test]
fn in_outside_0_to_31() {
    for (set, inside) in [(0, 0), (4294967295, 1)] {
        let is_in = |element| boolean((INTEGER, element), IN, (SET, set));
        for element in 0..=31 {
            assert_eq!(is_in(element), To(inside), "{element} IN {set}");
        }
        for element in [32, 33, 40, 63, 64, 65536, 2147483647, -1, -31, -32, -2147483648] {
            assert_eq!(is_in(element), Trap(6), "{element} IN {set}");
        }
    }
}

/// FALSE & (40 IN {}) and TRUE OR (40 IN {}) do not come to IN.
#[test]
fn in_that_is_skipped() {
    let after = |left, operator| {
        expression(
            BOOLEAN,
            &[constant(BOOLEAN, left), integer(40), constant(SET, 0), dyadic(1, IN, 2), dyadic(0, operator, 3)],
        )
    };
    assert_eq!([after(0, AND), after(1, OR)], [To(0), To(1)]);
    assert_eq!([after(1, AND), after(0, OR)], [Trap(6), Trap(6)]);
}

#[test]
fn relations_and_boolean_operators() {
    // = # < <= > >= of a smaller, an equal and a larger right operand
    for (y, expected) in [(-2, [0, 1, 0, 0, 1, 1]), (-1, [1, 0, 0, 1, 0, 1]), (0, [0, 1, 1, 1, 0, 0])] {
        let relation = |c| boolean((INTEGER, -1), c, (INTEGER, y));
        assert_eq!([7, 8, 9, 10, 11, 12].map(relation), expected.map(To), "{y}");
    }
    // = # & OR of all pairs
    for (x, y, expected) in [(0, 0, [1, 0, 0, 0]), (0, 1, [0, 1, 0, 1]), (1, 0, [0, 1, 0, 1]), (1, 1, [1, 0, 1, 1])] {
        assert_eq!([7, 8, 13, 14].map(|c| boolean((BOOLEAN, x), c, (BOOLEAN, y))), expected.map(To), "{x} {y}");
    }
    assert_eq!([7, 8].map(|c| boolean((SET, 1), c, (SET, 2147483649))), [To(0), To(1)]);
    assert_eq!([7, 8].map(|c| boolean((SET, 5), c, (SET, 5))), [To(1), To(0)]);
    let not = |x| expression(BOOLEAN, &[constant(BOOLEAN, x), row(6, 0, 0, 2)]);
    assert_eq!([0, 1].map(not), [To(1), To(0)]);
}

#[test]
fn both_operands_come_before_the_operator() {
    // 99..(1 DIV 0), (1 DIV 0)..99
    let division = |a, b, n: Row| expression(SET, &[integer(a), integer(b), dyadic(0, DIV, 1), integer(99), n]);
    assert_eq!(division(1, 0, dyadic(3, RANGE, 2)), Trap(5));
    assert_eq!(division(1, 0, dyadic(2, RANGE, 3)), Trap(5));
    assert_eq!(division(1, 1, dyadic(3, RANGE, 2)), Trap(6));
    // 40 IN (0..(1 DIV 0)), (1 DIV 0) IN (0..32): the trap of the right operand, of the left one
    let nodes = |x, y| [integer(x), integer(0), integer(1), integer(y), dyadic(2, DIV, 3), dyadic(1, RANGE, 4)];
    let right = |x, y| expression(BOOLEAN, &[&nodes(x, y)[..], &[dyadic(0, IN, 5)]].concat());
    assert_eq!([right(40, 0), right(-1, 0), right(40, 1), right(31, 1)], [Trap(5), Trap(5), Trap(6), To(0)]);
    let nodes = |y| [integer(1), integer(y), dyadic(0, DIV, 1), integer(0), integer(32), dyadic(3, RANGE, 4)];
    let left = |y| expression(BOOLEAN, &[&nodes(y)[..], &[dyadic(2, IN, 5)]].concat());
    assert_eq!([left(0), left(1)], [Trap(5), Trap(6)]);
}

/// Trap 5 of a zero divisor, and trap 4 of -2147483648 DIV -1, come after both operands.
#[test]
fn both_operands_come_before_a_division() {
    let least = -2147483648;
    // (u DIV v) operator (x DIV y)
    let divisions = |[u, v]: [i64; 2], operator, [x, y]: [i64; 2]| {
        let left = [integer(u), integer(v), dyadic(0, DIV, 1)];
        let right = [integer(x), integer(y), dyadic(3, DIV, 4)];
        expression(INTEGER, &[&left[..], &right, &[dyadic(2, operator, 5)]].concat())
    };
    for operator in [DIV, MOD] {
        let cases = [
            ([least, -1], [0, 1], Trap(4)),
            ([7, 0], [0, 1], Trap(5)),
            ([7, 1], [0, 1], Trap(5)),
            ([7, 1], [least, -1], Trap(4)),
            ([least, 1], [7, 0], Trap(5)),
            ([least, 1], [least, -1], Trap(4)),
            ([7, 0], [least, -1], Trap(5)),
            ([least, -1], [7, 0], Trap(4)),
            ([least, 1], [1, -1], if operator == DIV { Trap(4) } else { To(0) }),
        ];
        for (left, right, expected) in cases {
            assert_eq!(divisions(left, operator, right), expected, "{left:?} {operator} {right:?}");
        }
    }
}

/// 7 DIV s[9] is trap 1, and 7 DIV s[3] trap 5, where s has 4 elements, all 0; s[9] DIV 0 is trap 1.
#[test]
fn an_index_in_an_operand_comes_before_the_divisor() {
    let divides = |index, operator, element_first| {
        let mut tables = draft(vec![row(ASSIGN, 0, 5, 0), RETURN]);
        tables.types.push(row(3, INTEGER, 4, 0));
        tables.variables.extend([row(0, INTEGER, 0, 0), row(0, 3, 0, 0)]);
        let number = if element_first { 0 } else { 7 };
        tables.nodes = vec![variable(0), integer(number), variable(1), integer(index), row(3, 2, 3, 0)];
        tables.nodes.push(if element_first { dyadic(4, operator, 1) } else { dyadic(1, operator, 4) });
        comes(&tables)
    };
    for operator in [DIV, MOD] {
        assert_eq!([divides(9, operator, false), divides(3, operator, false)], [Trap(1), Trap(5)]);
        assert_eq!([divides(9, operator, true), divides(3, operator, true)], [Trap(1), Trap(5)]);
    }
}

/// FALSE & (x operator y = 0) and TRUE OR (x operator y = 0) do not come to the division.
#[test]
fn a_division_that_is_skipped() {
    for (x, operator, y, trap) in [(7, DIV, 0, 5), (7, MOD, 0, 5), (-2147483648, DIV, -1, 4)] {
        let after = |left, skips| {
            let division = [integer(x), integer(y), dyadic(1, operator, 2), integer(0), dyadic(3, 7, 4)];
            expression(BOOLEAN, &[&[constant(BOOLEAN, left)][..], &division, &[dyadic(0, skips, 5)]].concat())
        };
        assert_eq!([after(0, AND), after(1, OR)], [To(0), To(1)], "{x} {operator} {y}");
        assert_eq!([after(1, AND), after(0, OR)], [Trap(trap), Trap(trap)], "{x} {operator} {y}");
    }
}

/// 40 IN s[9] is trap 1, and 40 IN s[3] trap 6, where s has 4 elements.
#[test]
fn an_index_in_the_right_operand_comes_before_in() {
    let is_in = |element, index| {
        let mut tables = draft(vec![row(ASSIGN, 0, 5, 0), RETURN]);
        tables.types.push(row(3, SET, 4, 0));
        tables.variables.extend([row(0, BOOLEAN, 0, 0), row(0, 3, 0, 0)]);
        tables.nodes = vec![variable(0), integer(element), variable(1), integer(index), row(3, 2, 3, 0)];
        tables.nodes.push(dyadic(1, IN, 4));
        comes(&tables)
    };
    assert_eq!([is_in(40, 9), is_in(40, 3), is_in(4, 9), is_in(4, 3)], [Trap(1), Trap(6), Trap(1), To(0)]);
}

/// "Row 3 record of an INTEGER, row 4 extends it by a SET".
fn records(statements: Vec<Row>) -> Tables {
    let mut tables = draft(statements);
    tables.types.extend([row(4, 0, 0, 1), row(4, 4, 1, 1)]);
    tables.fields.extend([row(0, 1, 0, 0), row(0, 2, 0, 0)]);
    tables
}

#[test]
fn case_7_sizes_and_extension() {
    let program = check(&image(&records(vec![RETURN]))).unwrap();
    assert_eq!((program.size(3), program.size(4)), (1, 2));
    assert!(program.extends(4, 3));
    assert!(!program.extends(3, 4));
}

/// Global 0 BOOLEAN, 1 of type 3, 2 of type 4. The module body calls procedure 1 with global 2 for its VAR parameter 3
/// of type 3.
fn passes_an_extension(body: &[Row], nodes: &[Row]) -> Tables {
    let mut tables = records(vec![row(CALL, 1, 1, 0), RETURN]);
    tables.variables.extend([row(0, 0, 0, 0), row(0, 3, 0, 0), row(0, 4, 0, 0), row(3, 3, 0, 0)]);
    tables.procedures.push(row(0, 2, 1, 0));
    tables.nodes.extend([variable(2), row(8, 0, 0, 0)]);
    tables.nodes.extend(nodes);
    tables.statements.extend(body);
    tables
}

#[test]
fn case_8_var_parameter_of_type_3_holding_a_4() {
    let test = [variable(0), row(7, 3, 4, 0)];
    assert_eq!(comes(&passes_an_extension(&[row(ASSIGN, 2, 3, 0), RETURN], &test)), To(1));
    let assign = [variable(3), variable(1)];
    assert_eq!(comes(&passes_an_extension(&[row(ASSIGN, 2, 3, 0), RETURN], &assign)), Trap(3));
}

#[test]
fn case_9_indices() {
    let element = |index| {
        let mut tables = draft(vec![row(ASSIGN, 2, 3, 0), RETURN]);
        tables.types.push(row(3, INTEGER, 4, 0));
        tables.variables.push(row(0, 3, 0, 0));
        tables.nodes = vec![variable(0), integer(index), row(3, 0, 1, 0), integer(5)];
        match run_tables(&tables) {
            (Numbers { outcome: 1, .. }, store) => To(store[3]),
            (answer, _) => Trap(answer.trap),
        }
    };
    assert_eq!([3, 4, -1].map(element), [To(5), Trap(1), Trap(1)]);
}

#[test]
fn case_10_smallest_image() {
    let hexadecimal = "01 00000039 0003 0000000000000000 0100000000000000 0200000000000000 0000 0000 0001 \
                       0000000000000000 0000 0001 0400000000000000";
    let digits: Vec<u8> = hexadecimal.bytes().filter(|byte| *byte != b' ').collect();
    let image: Vec<u8> =
        digits.chunks(2).map(|pair| u8::from_str_radix(std::str::from_utf8(pair).unwrap(), 16).unwrap()).collect();
    let finished = Numbers { outcome: 1, steps: 1, top: 3, mark: 3, ..Numbers::default() };
    assert_eq!(run(&image, &[], &mut [0; 8192], &mut [0; 4096], 100_000), Ok(finished));
    let refused = Numbers { refusal: 13, ..Numbers::default() };
    let mut store = [5, 6];
    assert_eq!(run(&image, &[], &mut store, &mut [0; 4096], 100_000), Ok(refused));
    assert_eq!(store, [5, 6]);
}

#[test]
fn stores_that_are_just_large_or_small_enough() {
    let image = image(&draft(vec![RETURN]));
    let refusal = |cells| run(&image, &[], &mut vec![0; cells], &mut [], 1).unwrap().refusal;
    assert_eq!([2, 3, 65_536, 65_537].map(refusal), [13, 0, 0, 12]);
}

#[test]
fn a_guard_does_not_ask_for_equality() {
    // v(3) is good where v holds a 4
    let guard = [row(4, 3, 3, 0), row(2, 2, 0, 0), integer(8)];
    let (answer, store) = run_tables(&passes_an_extension(&[row(ASSIGN, 3, 4, 0), RETURN], &guard));
    assert_eq!((answer.outcome, store[2]), (1, 8));
}

#[test]
fn a_projection_leaves_the_extension() {
    // global 0 of type 4 gets both its fields, then global 1 of type 3 takes it; the INTEGER behind it stays
    let mut tables = records(vec![row(ASSIGN, 1, 2, 0), row(ASSIGN, 4, 5, 0), row(ASSIGN, 6, 7, 0), RETURN]);
    tables.variables.extend([row(0, 4, 0, 0), row(0, 3, 0, 0), row(0, 1, 0, 0)]);
    tables.nodes = vec![variable(0), row(2, 0, 0, 0), integer(6), variable(0), row(2, 3, 1, 0), constant(SET, 9)];
    tables.nodes.extend([variable(1), variable(0)]);
    let (answer, store) = run_tables(&tables);
    assert_eq!((answer.outcome, &store[..4]), (1, &[6, 9, 6, 0][..]));
}

#[test]
fn a_var_parameter_is_handed_on_with_its_dynamic_type() {
    // procedure 1 hands its parameter on to procedure 2, which asks whether it is a 4
    let nodes = [variable(3), row(8, 2, 0, 0), variable(0), row(7, 4, 4, 0)];
    let mut tables = passes_an_extension(&[row(CALL, 2, 3, 0), RETURN, row(ASSIGN, 4, 5, 0), RETURN], &nodes);
    tables.variables.push(row(3, 3, 0, 0));
    tables.procedures.push(row(0, 4, 1, 0));
    assert_eq!(comes(&tables), To(1));
}
