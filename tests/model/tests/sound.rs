//! Sound is decided rightly: states that are not sound are found out.

mod common;

use common::{draft, image, row};
use model::types::Kind;
use model::{check, continue_program, sound, Cell, Machine, Numbers, Program, Row, State, Step, Tables};

const CALL: u8 = 1;
const RETURN: Row = Row { kind: 4, zero: 0, a: 0, b: 0, c: 0 };

fn variable(v: u16) -> Row {
    row(1, v, 0, 0)
}

/// Types 3, a record of an INTEGER, and 4, which extends it by a SET. Cells: global 0 of type 3 at 0, 1 of type 4 at 1,
/// 2 BOOLEAN at 3; the module body's frame at 4; procedure 1's at 7, with a VAR parameter of type 3 at 10, a local of
/// type 3 at 12; top is 13. Procedure 2 is called by procedure 1.
fn calls() -> Program {
    let mut tables = draft(vec![row(CALL, 1, 1, 0), RETURN, row(CALL, 2, 0, 0), RETURN, RETURN]);
    tables.types.extend([row(4, 0, 0, 1), row(4, 4, 1, 1)]);
    tables.fields.extend([row(0, 1, 0, 0), row(0, 2, 0, 0)]);
    tables.variables.extend([row(0, 3, 0, 0), row(0, 4, 0, 0), row(0, 0, 0, 0), row(3, 3, 0, 0), row(1, 3, 0, 0)]);
    tables.procedures.extend([row(0, 2, 1, 1), row(0, 4, 0, 0)]);
    tables.nodes.extend([variable(1), row(8, 0, 0, 0)]);
    check(&image(&tables)).unwrap()
}

/// The state after the call of procedure 1, of 20 cells.
fn in_procedure_1(program: &Program) -> State {
    let mut machine = Machine::fresh(program, &[], &[77; 20], &mut []).ok().unwrap();
    assert_eq!(machine.step(), Step::GoesOn);
    let state = machine.state;
    assert_eq!((state.row, state.base, state.top), (2, 7, 13));
    state
}

fn put(state: &mut State, address: usize, kind: Kind, number: i64) {
    state.cells[address] = Cell::new(kind, number);
}

/// A damage to the state in procedure 1.
type Damage = (&'static str, fn(&mut State));

const UNSOUND: &[Damage] = &[
    ("the row is in another body", |s| s.row = 1),
    ("the row is in another body of a frame of another size", |s| s.row = 4),
    ("there is no such row", |s| s.row = 5),
    ("the frame does not end at top", |s| s.top = 14),
    ("the frame begins elsewhere", |s| s.base = 4),
    ("top lies beyond the store", |s| s.cells.truncate(12)),
    ("the store has too many cells", |s| s.cells.resize(65_537, Cell::new(Kind::Link, 0))),
    ("the caller is another procedure", |s| s.cells[7].number = 2),
    ("the caller is no procedure", |s| s.cells[7].number = 3),
    ("the return row follows no call", |s| s.cells[8].number = 0),
    ("the return row follows a call of another procedure", |s| s.cells[8].number = 3),
    ("the return row is no row", |s| s.cells[8].number = 5),
    ("the caller's frame is elsewhere", |s| s.cells[9].number = 3),
    ("a link has another kind", |s| put(s, 8, Kind::Integer, 1)),
    ("a link is out of range", |s| s.cells[9].number = 65_540),
    ("procedure 0's first link is not 0", |s| s.cells[4].number = 1),
    ("procedure 0's second link is not 0", |s| s.cells[5].number = 1),
    ("procedure 0's third link is not 0", |s| s.cells[6].number = 1),
    ("procedure 0's frame is not at G", |s| {
        (s.row, s.base, s.top) = (0, 5, 8);
        (5..8).for_each(|link| put(s, link, Kind::Link, 0));
    }),
    ("a global has another kind", |s| put(s, 0, Kind::Set, 0)),
    ("a global without a kind", |s| s.cells[1].kind = None),
    ("a BOOLEAN is out of range", |s| s.cells[3].number = 2),
    ("an INTEGER is out of range", |s| s.cells[0].number = 2147483648),
    ("a SET is out of range", |s| s.cells[2].number = -1),
    ("a local has another kind", |s| put(s, 12, Kind::Boolean, 0)),
    ("the address cell has another kind", |s| put(s, 10, Kind::Type, 1)),
    ("the type cell has another kind", |s| put(s, 11, Kind::Integer, 4)),
    ("no object begins at the address", |s| s.cells[10].number = 4),
    ("the address is a field of another type", |s| s.cells[10].number = 2),
    ("the object is of the base's type, the cell names the extension", |s| s.cells[10].number = 0),
    ("the object is an extension, the cell names the base", |s| s.cells[11].number = 3),
    ("the type does not extend the parameter's", |s| s.cells[11].number = 1),
    ("there is no such type", |s| s.cells[11].number = 5),
    ("the object is the frame's own", |s| (s.cells[10].number, s.cells[11].number) = (12, 3)),
    ("the address lies beyond top", |s| s.cells[10].number = 15),
];

const SOUND: &[Damage] = &[
    ("nothing is changed", |_| {}),
    ("another row of the body", |s| s.row = 3),
    ("the other object, of its own type", |s| (s.cells[10].number, s.cells[11].number) = (0, 3)),
    ("other values", |s| (s.cells[0].number, s.cells[2].number, s.cells[3].number) = (-2147483648, 4294967295, 1)),
    ("cells above top", |s| put(s, 13, Kind::Type, -9)),
    ("a store of the frames alone", |s| s.cells.truncate(13)),
    ("a store of 65,536 cells", |s| s.cells.resize(65_536, Cell::new(Kind::Link, 0))),
];

#[test]
fn damaged_states() {
    let program = calls();
    let state = in_procedure_1(&program);
    let decide = |damage: fn(&mut State)| {
        let mut state = state.clone();
        damage(&mut state);
        sound(&program, &state)
    };
    for (what, damage) in UNSOUND {
        assert!(decide(*damage).is_err(), "{what}");
    }
    for (what, damage) in SOUND {
        assert_eq!(decide(*damage), Ok(()), "{what}");
    }
}

/// Types with objects inside objects, also such without cells; a global and a local of procedure 0 of each type, and
/// for each type t a procedure t + 1 with a VAR parameter and a local of that type, called with the global.
fn parts() -> Tables {
    let mut tables = draft(Vec::new());
    tables.types.extend([
        row(4, 0, 0, 0), // 3: no cells
        row(4, 4, 0, 2), // 4: extends 3 by an INTEGER and a 3
        row(3, 4, 2, 0), // 5: two 4s
        row(4, 5, 2, 2), // 6: extends 4 by a 5 and a SET
        row(3, 3, 3, 0), // 7: three 3s
    ]);
    tables.fields.extend([row(0, 1, 0, 0), row(0, 3, 0, 0), row(0, 5, 0, 0), row(0, 2, 0, 0)]);
    let count = tables.types.len() as u16;
    tables.variables.extend((0..count).map(|t| row(0, t, 0, 0)));
    tables.variables.extend((0..count).map(|t| row(1, t, 0, 0)));
    tables.procedures[0].c = count;
    for t in 0..count {
        tables.variables.extend([row(3, t, 0, 0), row(1, t, 0, 0)]);
        tables.procedures.push(row(0, count + 1 + t, 1, 1));
        tables.nodes.extend([variable(t), row(8, 2 * t, 0, 0)]);
        tables.statements.push(row(CALL, t + 1, 2 * t + 1, 0));
    }
    tables.statements.resize(2 * tables.types.len() + 1, RETURN);
    tables
}

/// Whether an object declared with type `named` begins at `address` in one of type t at `place`, itself included.
fn begins(program: &Program, t: usize, place: usize, address: usize, named: usize) -> bool {
    let part = |t, place| begins(program, t, place, address, named);
    let row = program.types[t];
    (t == named && place == address)
        || program.is_array(t) && (0..row.b()).any(|i| part(row.a(), place + i * program.size(row.a())))
        || program.fields_of(t).iter().any(|field| part(field.t, place + field.offset))
}

/// Whether question 14 passes the state.
fn passed(program: &Program, state: &State) -> bool {
    let mut store: Vec<i64> = state.cells.iter().map(|cell| cell.number).collect();
    let [row, base, top] = [state.row, state.base, state.top].map(|number| number as u32);
    let from = Numbers { row, base, top, mark: top, ..Numbers::default() };
    continue_program(program, &[], &mut store, &mut [], 0, &from, false).unwrap().is_ok()
}

#[test]
fn objects_of_var_parameters() {
    let program = check(&image(&parts())).unwrap();
    let types = program.types.len();
    let mut machine = Machine::fresh(&program, &[], &[0; 200], &mut []).ok().unwrap();
    let main = machine.state.base;
    for own in 0..types {
        assert_eq!(machine.step(), Step::GoesOn);
        let cell = machine.state.base + 3;
        let mut state = machine.state.clone();
        for address in 0..machine.state.top + 2 {
            for named in 0..types + 1 {
                state.cells[cell].number = address as i64;
                state.cells[cell + 1].number = named as i64;
                let older = |v: usize| {
                    let place = program.place(v) + if v < types { 0 } else { main };
                    begins(&program, program.variables[v].a(), place, address, named)
                };
                let expected = named < types && program.extends(named, own) && (0..2 * types).any(older);
                assert_eq!(sound(&program, &state).is_ok(), expected, "type {own}: {named} at {address}");
                assert_eq!(passed(&program, &state), expected, "type {own}: {named} at {address}");
            }
        }
        assert_eq!(machine.step(), Step::GoesOn);
    }
    assert_eq!(machine.step(), Step::Finished);
}
