//! Continue: what document 02's first request leaves open, a test for each reading with its number, and what it claims
//! of every run: in parts as at once, and no state that a run leaves is refused.

mod common;
#[path = "common/programs.rs"]
mod programs;

use common::{draft, image, row};
use model::rules::{self, Rule};
use model::{check, continue_program, continue_run, run, sound, Machine, Numbers, Program, Row, State, Step, Watch};
use programs::INPUT;

const READ: u8 = 5;
const WRITE: u8 = 6;
const CALL: u8 = 1;
const RETURN: Row = Row { kind: 4, zero: 0, a: 0, b: 0, c: 0 };

/// Where the variables of `program` are.
const GLOBAL_3: usize = 0;
const GLOBAL_4: usize = 1;
const FLAG: usize = 3;
const FRAME_0: usize = 4;
const FRAME_1: usize = 7;
const A: usize = 10;
const B: usize = 12;
const FRAME_2: usize = 13;
const C: usize = 16;
const D: usize = 18;

/// Types 3, a record of an INTEGER, 4, which extends it by a SET, and 5, a record without cells.
///
/// Globals: type 3 at 0, type 4 at 1, BOOLEAN at 3, type 5 at 4, where the globals end. Procedure 0 has a local of type
/// 5 at its frame's end, 7. Procedure 1 has a VAR parameter of type 3 (two cells), a local of type 3 and one of type 5;
/// procedure 2 a VAR parameter of type 5 and a value parameter.
///
///     0: call 1 with the global of type 4    3: call 2 with the local of type 5, 7    6: read into the value parameter
///     1: call 1 with the global of type 3    4: call 1 with the local of type 3       7: write it
///     2: RETURN                              5: RETURN                                8: RETURN
fn bytes() -> Vec<u8> {
    let mut tables = draft(vec![row(CALL, 1, 1, 0), row(CALL, 1, 3, 0), RETURN]);
    tables.types.extend([row(4, 0, 0, 1), row(4, 4, 1, 1), row(4, 0, 2, 0)]);
    tables.fields.extend([row(0, 1, 0, 0), row(0, 2, 0, 0)]);
    tables.variables.extend([row(0, 3, 0, 0), row(0, 4, 0, 0), row(0, 0, 0, 0), row(0, 5, 0, 0), row(1, 5, 0, 0)]);
    tables.variables.extend([row(3, 3, 0, 0), row(1, 3, 0, 0), row(1, 5, 0, 0), row(3, 5, 0, 0), row(2, 1, 0, 0)]);
    tables.procedures[0].c = 1;
    tables.procedures.extend([row(0, 3, 1, 2), row(0, 6, 2, 0)]);
    let variable = |v| row(1, v, 0, 0);
    let argument = |n| row(8, n, 0, 0);
    tables.nodes.extend([variable(1), argument(0), variable(0), argument(2)]);
    tables.nodes.extend([variable(7), row(0, 1, 0, 7), argument(4), argument(5), variable(6), argument(8)]);
    tables.nodes.extend([variable(9), variable(9)]);
    tables.statements.extend([row(CALL, 2, 6, 0), row(CALL, 1, 9, 0), RETURN]);
    tables.statements.extend([row(READ, 10, 0, 0), row(WRITE, 11, 0, 0), RETURN]);
    image(&tables)
}

/// What a continuation is given.
#[derive(Clone, Debug, PartialEq)]
struct Given {
    store: Vec<i64>,
    input: Vec<i32>,
    output: Vec<i32>,
    steps: u32,
    from: Numbers,
}

impl Given {
    /// A run of so many steps, with 40 cells, three inputs and three places; 0 steps are lent.
    fn after(steps: u32) -> Given {
        let (mut store, mut output, input) = (vec![-7; 40], vec![-7; 3], vec![5, 6, 7]);
        let from = run(&bytes(), &input, &mut store, &mut output, steps).unwrap();
        assert_eq!((from.refusal, from.outcome, from.steps), (0, 0, steps));
        Given { store, input, output, steps: 0, from }
    }

    fn but(&self, damage: impl FnOnce(&mut Given)) -> Given {
        let mut given = self.clone();
        damage(&mut given);
        given
    }

    /// Continues; what comes back. A refused call leaves store and output.
    fn go(&mut self) -> Numbers {
        let before = self.clone();
        let Given { store, input, output, steps, from } = self;
        let numbers = continue_run(&bytes(), input, store, output, *steps, from).unwrap();
        if numbers.refusal != 0 {
            assert_eq!(numbers, Numbers { refusal: numbers.refusal, ..Numbers::default() });
            assert_eq!(*self, before);
        }
        numbers
    }

    fn refusal(&self) -> u32 {
        self.clone().go().refusal
    }
}

type Damage = fn(&mut Given);

/// With some damages 14 passes, with the others it refuses.
fn ask(given: &Given, passed: &[(&str, Damage)], refused: &[(&str, Damage)]) {
    assert_eq!(given.refusal(), 0);
    for (what, damage) in passed {
        assert_eq!(given.but(damage).refusal(), 0, "{what}");
    }
    for (what, damage) in refused {
        assert_eq!(given.but(damage).refusal(), 14, "{what}");
    }
}

#[test]
fn the_program_goes_as_it_says() {
    let at = |steps| {
        let Numbers { row, base, top, read, written, .. } = Given::after(steps).from;
        (row, base, top, read, written)
    };
    assert_eq!([at(0), at(1), at(2)], [(0, 4, 7, 0, 0), (3, 7, 13, 0, 0), (6, 13, 19, 0, 0)]);
    assert_eq!([at(3), at(4), at(5)], [(7, 13, 19, 1, 0), (8, 13, 19, 1, 1), (4, 7, 13, 1, 1)]);
    assert_eq!(at(6), (3, 13, 19, 1, 1));
}

#[test]
fn r0_1_a_refused_continuation_gives_nothing_else() {
    let mut given = Given::after(4).but(|g| (g.steps, g.from.outcome) = (9, 1));
    assert_eq!(given.go(), Numbers { refusal: 14, ..Numbers::default() });
}

#[test]
fn r0_3_the_other_questions_come_first() {
    let given = Given::after(4).but(|g| g.from.outcome = 1);
    let answer = |image: &[u8], cells: usize| {
        let mut store = vec![0; cells];
        continue_run(image, &[], &mut store, &mut [], 1, &given.from).unwrap()
    };
    let refused = |refusal, fault| Numbers { refusal, fault, ..Numbers::default() };
    let mut bad = bytes();
    bad[5 + 2 + 8] = 2; // type row 1 is not INTEGER any more
    assert_eq!([answer(&[], 0), answer(&bad, 70_000)], [refused(1, 0), refused(4, 1)]);
    assert_eq!([answer(&bytes(), 70_000), answer(&bytes(), 6)], [refused(12, 0), refused(13, 0)]);
    assert_eq!(answer(&bytes(), 7), refused(14, 0));
}

/// A store of 65,536 cells that frames fill: procedure 1, of 5 cells, calls itself with its local, a record without
/// cells at the frame's end.
#[test]
fn r0_8_widths() {
    let mut tables = draft(vec![row(CALL, 1, 1, 0), RETURN, row(CALL, 1, 3, 0), RETURN]);
    tables.types.push(row(4, 0, 0, 0));
    tables.variables.extend([row(0, 1, 0, 0); 3]);
    tables.variables.extend([row(1, 3, 0, 0), row(3, 3, 0, 0), row(1, 3, 0, 0)]);
    tables.procedures[0].c = 1;
    tables.procedures.push(row(0, 2, 1, 1));
    tables.nodes.extend([row(1, 3, 0, 0), row(8, 0, 0, 0), row(1, 5, 0, 0), row(8, 2, 0, 0)]);
    let image = image(&tables);
    let mut store = vec![0; 65_536];
    let from = model::run_unwatched(&image, &[], &mut store, &mut [], 13_106).unwrap();
    assert_eq!((from.outcome, from.base, from.top, store[65_534]), (0, 65_531, 65_536, 65_531));
    assert_eq!(continue_run(&image, &[], &mut store, &mut [], 0, &from), Ok(from));
    let trapped = Numbers { outcome: 2, trap: 7, steps: 13_107, ..from };
    assert_eq!(continue_run(&image, &[], &mut store, &mut [], 9, &from), Ok(trapped));
    store[65_534] = 65_536;
    assert_eq!(continue_run(&image, &[], &mut store, &mut [], 0, &from).unwrap().refusal, 14);
}

#[test]
fn r1_1_inputs_and_outputs_are_one_list() {
    let mut given = Given::after(3).but(|g| g.steps = 1);
    assert_eq!(given.go().written, 1);
    assert_eq!(given.output, [5, -7, -7]);
    // places below `written` are neither read nor changed, inputs below `read` are not read
    let mut given = given.but(|g| (g.steps, g.from.read, g.from.written, g.from.row) = (2, 2, 2, 6));
    assert_eq!((given.go().read, &given.output[..]), (3, &[5, -7, 7][..]));
}

#[test]
fn r1_2_base_and_top_of_each_outcome() {
    let none = Given::after(0).from;
    assert_eq!((none.base, none.top), (FRAME_0 as u32, FRAME_1 as u32));
    let mut given = Given::after(2).but(|g| (g.input, g.steps) = (vec![], 3));
    let trapped = given.go();
    assert_eq!((trapped.outcome, trapped.trap, trapped.row, trapped.base, trapped.top), (2, 8, 6, 13, 19));
    let finished = Given::after(0).but(|g| (g.from.row, g.steps) = (2, 3)).go();
    assert_eq!((finished.outcome, finished.row, finished.base, finished.top), (1, 2, 4, 7));
}

#[test]
fn r1_4_five_numbers_are_0() {
    ask(
        &Given::after(2),
        &[],
        &[
            ("refusal", |g| g.from.refusal = 14),
            ("row of refusal", |g| g.from.fault = 1),
            ("finished", |g| g.from.outcome = 1),
            ("trapped", |g| g.from.outcome = 2),
            ("no outcome", |g| g.from.outcome = 3),
            ("a trap without the outcome", |g| g.from.trap = 5),
            ("a HALT number without the trap", |g| g.from.halt = -1),
        ],
    );
}

#[test]
fn r1_5_steps() {
    ask(
        &Given::after(2),
        &[
            ("any steps done", |g| g.from.steps = 0),
            ("all steps done, none lent", |g| g.from.steps = u32::MAX),
            ("one left", |g| (g.from.steps, g.steps) = (u32::MAX - 1, 1)),
        ],
        &[
            ("one too many", |g| (g.from.steps, g.steps) = (u32::MAX, 1)),
            ("many too many", |g| (g.from.steps, g.steps) = (u32::MAX, u32::MAX)),
        ],
    );
    assert_eq!(Given::after(2).but(|g| (g.from.steps, g.steps) = (u32::MAX - 1, 1)).go().steps, u32::MAX);
}

#[test]
fn r1_6_counts() {
    let given = Given::after(4);
    ask(
        &given,
        &[
            ("all inputs read", |g| g.from.read = 3),
            ("all places written", |g| g.from.written = 3),
            ("a shorter list", |g| g.input.truncate(1)),
            ("a shorter output", |g| g.output.truncate(1)),
            ("longer lists", |g| (g.input, g.output) = (vec![1; 90], vec![1; 90])),
        ],
        &[
            ("more read than lent", |g| g.from.read = 4),
            ("more written than lent", |g| g.from.written = 4),
            ("a list that is too short", |g| g.input.clear()),
            ("an output that is too short", |g| g.output.clear()),
            ("a count of more than 32 bits", |g| g.from.read += 1 << 32),
            ("the largest count", |g| g.from.written = u64::MAX),
        ],
    );
    let trap = |damage: Damage| given.but(damage).go().trap;
    assert_eq!(trap(|g| (g.from.row, g.from.read, g.steps) = (6, 3, 1)), 8);
    assert_eq!(trap(|g| (g.from.row, g.from.written, g.steps) = (7, 3, 1)), 9);
}

#[test]
fn r1_7_the_store_may_have_another_length() {
    let given = Given::after(2);
    ask(
        &given,
        &[("just up to top", |g| g.store.truncate(19)), ("longer", |g| g.store.resize(65_536, 9))],
        &[("one less than top", |g| g.store.truncate(18)), ("the first frame alone", |g| g.store.truncate(7))],
    );
    assert_eq!(given.but(|g| g.store.truncate(6)).refusal(), 13);
    assert_eq!(given.but(|g| g.store.resize(65_537, 0)).refusal(), 12);
    // trap 7 comes by the new length: procedure 1 calls itself from row 4
    let steps = |cells: usize| {
        let last = Given::after(5).but(|g| (g.steps, g.input, g.output) = (500, vec![0; 99], vec![0; 99]));
        let last = last.but(|g| g.store.resize(cells, 0)).go();
        assert_eq!((last.outcome, last.trap), (2, 7));
        last.top
    };
    assert_eq!([steps(40), steps(46), steps(60)], [37, 43, 55]);
}

#[test]
fn r1_8_numbers_are_not_cut() {
    let given = Given::after(3);
    let changes: [fn(i64) -> i64; 4] =
        [|x| x + (1 << 32), |x| x - (1 << 32), |_| -1, |x| (x as u64).wrapping_add(1 << 63) as i64];
    for cell in
        [FRAME_1, FRAME_1 + 1, FRAME_1 + 2, A, A + 1, FRAME_2, FRAME_2 + 1, FRAME_2 + 2, C, C + 1, FRAME_0, FLAG]
    {
        for change in changes {
            assert_eq!(given.but(|g| g.store[cell] = change(g.store[cell])).refusal(), 14, "cell {cell}");
        }
    }
    for cell in [GLOBAL_3, B, D] {
        assert_eq!(given.but(|g| g.store[cell] = -1).refusal(), 0);
        assert_eq!(given.but(|g| g.store[cell] += 1 << 32).refusal(), 14);
    }
    ask(
        &given,
        &[],
        &[
            ("the row", |g| g.from.row += 65_536),
            ("the base", |g| g.from.base += 65_536),
            ("the top", |g| g.from.top += 65_536),
            ("base and Fp beyond 32 bits", |g| (g.from.base, g.from.top) = (u32::MAX - 5, 0)),
            ("the largest base", |g| g.from.base = u32::MAX),
            ("the largest top", |g| g.from.top = u32::MAX),
        ],
    );
}

#[test]
fn r1_9_places_give_kinds() {
    ask(
        &Given::after(3),
        &[
            ("globals in range", |g| g.store[..4].copy_from_slice(&[-2147483648, 2147483647, 4294967295, 1])),
            ("a local in range", |g| g.store[B] = -2147483648),
        ],
        &[
            ("a global BOOLEAN", |g| g.store[FLAG] = 2),
            ("a global's INTEGER", |g| g.store[GLOBAL_3] = 2147483648),
            ("a global's SET", |g| g.store[GLOBAL_4 + 1] = -1),
            ("a global's SET, large", |g| g.store[GLOBAL_4 + 1] = 4294967296),
            ("an older frame's local", |g| g.store[B] = -2147483649),
            ("a value parameter", |g| g.store[D] = 2147483648),
            ("links that lead nowhere", |g| g.store[FRAME_2 + 2] = 8),
            ("links that lead up", |g| g.store[FRAME_2 + 2] = 13),
        ],
    );
}

#[test]
fn r1_10_cells_from_top_on_may_hold_anything() {
    ask(&Given::after(3), &[("any numbers", |g| g.store[19..].fill(i64::MIN))], &[]);
}

#[test]
fn r1_11_rows_and_procedures() {
    let procedure_0 = |g: &mut Given| {
        // a frame of procedure 0 on procedure 0's
        (g.from.row, g.from.base, g.from.top) = (0, 7, 10);
        g.store[7..10].fill(0);
    };
    let procedure_1_at_g = |g: &mut Given| {
        // procedure 1's frame at G, procedure 0's below
        (g.from.row, g.from.base, g.from.top) = (3, 4, 10);
        g.store[..10].copy_from_slice(&[0, 0, 0, 0, 0, 1, 1, 0, 3, 0]);
    };
    ask(
        &Given::after(1),
        &[("another row of the body", |g| g.from.row = 5)],
        &[
            ("no row", |g| g.from.row = 9),
            ("a row far off", |g| g.from.row = u32::MAX),
            ("a row of procedure 0", |g| g.from.row = 2),
            ("a row of a procedure with as many cells", |g| g.from.row = 6),
            ("two frames of procedure 0", procedure_0),
            ("another procedure's frame at G", procedure_1_at_g),
        ],
    );
}

#[test]
fn r1_12_objects_without_cells() {
    // procedure 2's VAR parameter names procedure 1's local at that frame's end
    let given = Given::after(2);
    assert_eq!(given.store[C..C + 2], [FRAME_2 as i64, 5]);
    ask(
        &given,
        &[
            ("the global at the globals' end", |g| g.store[C] = FRAME_0 as i64),
            ("the local at the end of procedure 0's frame", |g| g.store[C] = FRAME_1 as i64),
        ],
        &[
            ("a place where none begins", |g| g.store[C] = 5),
            ("the end of the own frame", |g| g.store[C] = 19),
            ("a variable of another type", |g| g.store[C] = B as i64),
        ],
    );
}

#[test]
fn r1_14_the_very_type() {
    let name = |address: usize, t: i64| move |g: &mut Given| g.store[A..A + 2].copy_from_slice(&[address as i64, t]);
    let given = Given::after(1);
    assert_eq!(given.store[A..A + 2], [GLOBAL_4 as i64, 4]);
    let refusal = |address, t| given.but(name(address, t)).refusal();
    assert_eq!([refusal(GLOBAL_4, 4), refusal(GLOBAL_3, 3)], [0, 0]);
    assert_eq!([refusal(GLOBAL_4, 3), refusal(GLOBAL_3, 4)], [14, 14]);
    // an INTEGER is no record, and no type is the sixth
    assert_eq!([refusal(GLOBAL_3, 1), refusal(FRAME_0, 5), refusal(GLOBAL_3, 6)], [14, 14, 14]);
}

#[test]
fn r1_15_older_than_the_parameter_s_own_frame() {
    // procedure 1 on procedure 1: the younger one's VAR parameter at 16, its local at 18
    let given = Given::after(6);
    assert_eq!(given.store[16..18], [B as i64, 3]);
    ask(
        &given,
        &[("a global", |g| g.store[16] = GLOBAL_3 as i64)],
        &[
            ("the own frame's local", |g| g.store[16] = 18),
            ("the older parameter, its own frame's local", |g| g.store[A..A + 2].copy_from_slice(&[B as i64, 3])),
            ("the older parameter, a younger frame's local", |g| g.store[A..A + 2].copy_from_slice(&[18, 3])),
        ],
    );
}

#[test]
fn r1_16_some_call_of_the_procedure_in_the_caller_s_body() {
    ask(
        &Given::after(6),
        &[("after the other call of procedure 1", |g| g.store[FRAME_1 + 1] = 2)],
        &[
            ("after no call", |g| g.store[FRAME_1 + 1] = 0),
            ("after a call of another procedure", |g| g.store[FRAME_2 + 1] = 4),
            ("after a call in another body", |g| g.store[FRAME_2 + 1] = 1),
            ("after a call in another body, from procedure 0", |g| g.store[FRAME_1 + 1] = 5),
            ("another caller", |g| g.store[FRAME_2] = 0),
            ("no caller", |g| g.store[FRAME_2] = 3),
        ],
    );
}

#[test]
fn r1_17_a_trapped_statement_is_done_again() {
    let mut given = Given::after(2).but(|g| (g.input, g.steps) = (vec![], 1));
    let trapped = given.go();
    assert_eq!((trapped.trap, trapped.steps), (8, 3));
    let again = Numbers { outcome: 0, trap: 0, ..trapped };
    let given = given.but(|g| (g.input, g.from) = (vec![5], again)).go();
    assert_eq!((given.outcome, given.row, given.steps, given.read), (0, 7, 4, 1));
}

#[test]
fn r1_18_no_steps() {
    for steps in 0..7 {
        let given = Given::after(steps);
        let mut after = given.clone();
        assert_eq!(after.go(), given.from);
        assert_eq!(after, given);
    }
}

#[test]
fn r1_19_procedure_0_s_links_are_0() {
    ask(
        &Given::after(2),
        &[],
        &[
            ("the first", |g| g.store[FRAME_0] = 1),
            ("the second", |g| g.store[FRAME_0 + 1] = 1),
            ("the third", |g| g.store[FRAME_0 + 2] = 1),
        ],
    );
}

#[test]
fn r1_20_and_21_only_declared_types_are_asked() {
    ask(
        &Given::after(6),
        &[
            ("both name one object", |g| g.store[A..A + 2].copy_from_slice(&[GLOBAL_3 as i64, 3])),
            ("a global, where the call passed a local", |g| g.store[16..18].copy_from_slice(&[GLOBAL_4 as i64, 4])),
        ],
        &[],
    );
}

/// Damages to the state with two frames of procedure 1, and the rule that is reported for each.
const REASONS: &[(&Rule, Damage)] = &[
    (&rules::EARLIER_REFUSAL, |g| g.from.refusal = 13),
    (&rules::EARLIER_FAULT, |g| g.from.fault = 1),
    (&rules::EARLIER_OUTCOME, |g| g.from.outcome = 1),
    (&rules::EARLIER_TRAP, |g| g.from.trap = 1),
    (&rules::EARLIER_HALT, |g| g.from.halt = 1),
    (&rules::READ_COUNT, |g| g.from.read = 4),
    (&rules::WRITTEN_COUNT, |g| g.from.written = 4),
    (&rules::STEP_SUM, |g| (g.from.steps, g.steps) = (u32::MAX, 1)),
    (&rules::ROW_EXISTS, |g| g.from.row = 9),
    (&rules::TOP_IN_STORE, |g| g.store.truncate(18)),
    (&rules::TOP_FRAME, |g| g.from.top = 18),
    (&rules::LINK_RANGE, |g| g.store[FRAME_2] = -1),
    (&rules::CALLER_EXISTS, |g| g.store[FRAME_2] = 3),
    (&rules::RETURN_IN_BODY, |g| g.store[FRAME_2 + 1] = 3),
    (&rules::RETURN_AFTER_CALL, |g| g.store[FRAME_2..FRAME_2 + 2].copy_from_slice(&[2, 7])),
    (&rules::RETURN_AFTER_ITS_CALL, |g| g.store[FRAME_2 + 1] = 4),
    (&rules::OLDER_FRAME, |g| g.store[FRAME_2 + 2] = 8),
    (&rules::MODULE_FRAME, |g| (g.from.row, g.from.base, g.from.top) = (0, 5, 8)),
    (&rules::MODULE_LINKS, |g| g.store[FRAME_0] = 1),
    (&rules::BOOLEAN_RANGE, |g| g.store[FLAG] = 2),
    (&rules::INTEGER_RANGE, |g| g.store[B] = 1 << 31),
    (&rules::SET_RANGE, |g| g.store[GLOBAL_4 + 1] = 1 << 32),
    (&rules::ADDRESS_RANGE, |g| g.store[C] = 65_536),
    (&rules::TYPE_RANGE, |g| g.store[C + 1] = -1),
    (&rules::TYPE_EXISTS, |g| g.store[C + 1] = 6),
    (&rules::TYPE_EXTENDS, |g| g.store[C + 1] = 5),
    (&rules::OBJECT_BEGINS, |g| g.store[C] = 5),
    (&rules::OBJECT_TYPE, |g| g.store[C..C + 2].copy_from_slice(&[GLOBAL_3 as i64, 4])),
    (&rules::OBJECT_NO_BASE, |g| g.store[C] = GLOBAL_4 as i64),
    (&rules::OBJECT_NOT_OWN, |g| g.store[C] = D as i64),
    (&rules::OBJECT_NOT_YOUNGER, |g| g.store[A..A + 2].copy_from_slice(&[D as i64, 3])),
    (&rules::MARK_BELOW, |g| g.from.mark = 18),
    (&rules::MARK_ABOVE, |g| g.from.mark = 41),
];

#[test]
fn each_reason_is_reported() {
    let program = check(&bytes()).unwrap();
    for (rule, damage) in REASONS {
        let Given { mut store, input, mut output, steps, from } = Given::after(6).but(damage);
        let answer = continue_program(&program, &input, &mut store, &mut output, steps, &from, true).unwrap();
        let fault = answer.unwrap_err();
        assert_eq!((fault.rule, fault.refusal, fault.row), (*rule, 14, 0), "{}", fault.detail);
    }
    // The program has no VAR parameter but of records.
    let rest = rules::STATE.iter().filter(|rule| !REASONS.iter().any(|(reported, _)| reported == *rule));
    assert_eq!(rest.collect::<Vec<_>>(), [&&rules::TYPE_SAME]);
}

/// The numbers of a state whose steps are used up.
fn numbers(state: &State) -> Numbers {
    let [row, base, top, mark] = [state.row, state.base, state.top, state.mark].map(|number| number as u32);
    let (steps, read, written) = (state.steps as u32, state.read as u64, state.written as u64);
    Numbers { row, base, top, steps, read, written, mark, ..Numbers::default() }
}

/// Those of `vectors/`, and the one above.
fn programs() -> Vec<(String, Program)> {
    let above = (String::from("the program above"), check(&bytes()).unwrap());
    [vec![above], programs::programs()].concat()
}

/// "What was certain from a fresh start": each state that a run leaves is sound, its cells have the kinds that their
/// places give, and 14 passes it.
#[test]
fn states_that_runs_leave_are_passed() {
    for (name, program) in programs() {
        let store = vec![-1; program.globals() + program.frame(0) + 60];
        let mut output = [0; 40];
        let Ok(mut machine) = Machine::fresh(&program, &INPUT, &store, &mut output) else { continue };
        let watch = Watch::new(&program);
        for _ in 0..50 {
            let state = &machine.state;
            watch.sound(state).unwrap();
            let mut taken = state.clone();
            taken.cells.iter_mut().for_each(|cell| cell.kind = None);
            watch.take_kinds(&mut taken);
            assert_eq!(taken.cells[..state.top], state.cells[..state.top], "{name}");
            let mut store: Vec<i64> = state.cells.iter().map(|cell| cell.number).collect();
            let from = numbers(state);
            let answer = continue_program(&program, &INPUT, &mut store, &mut [0; 40], 0, &from, true).unwrap();
            assert_eq!(answer, Ok(from), "{name}");
            if machine.step() != Step::GoesOn {
                sound(&program, &machine.state).unwrap();
                break;
            }
        }
    }
}

/// "Where a run of n steps ends with outcome 0, continuing for m gives what one run of n + m gives".
#[test]
fn in_parts_as_at_once() {
    let mut cuts = 0;
    for (name, program) in programs() {
        let lent = vec![-1; program.globals() + program.frame(0) + 60];
        let whole = |steps| {
            let (mut store, mut output) = (lent.clone(), [8; 40]);
            let numbers = model::run_program(&program, &INPUT, &mut store, &mut output, steps, false).unwrap();
            (numbers.ok(), store, output)
        };
        for (first, then) in [(0, 20), (1, 30), (7, 100), (12, 1), (40, 400), (200, 200)] {
            let (Some(from), mut store, mut output) = whole(first) else { continue };
            if from.outcome != 0 {
                continue;
            }
            let numbers = continue_program(&program, &INPUT, &mut store, &mut output, then, &from, false).unwrap();
            assert_eq!((numbers.ok(), store, output), whole(first + then), "{name}");
            cuts += 1;
        }
    }
    assert!(cuts > 1500, "{cuts}");
}
