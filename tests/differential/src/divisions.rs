//! The divisions that a statement comes to: the model evaluates its nodes again.

use model::operators::{Stop, Value};
use model::program::{Program, CALL, DYADIC};
use model::Machine;

pub const DIV: u16 = 4;
pub const MOD: u16 = 5;
const AND: u16 = 13;
const OR: u16 = 14;

/// What a division can be, each counted where it applies.
pub const NAMES: [&str; 10] = [
    "of a positive number by a positive one, with a remainder",
    "of a negative number by a positive one, with a remainder",
    "of a positive number by a negative one, with a remainder",
    "of a negative number by a negative one, with a remainder",
    "by a positive number, without a remainder",
    "by a negative number, without a remainder",
    "by -1",
    "by -2147483648",
    "of -2147483648 by -1",
    "by 0",
];

/// x DIV y or x MOD y.
pub struct Division {
    pub operator: u16,
    x: i32,
    y: i32,
}

impl Division {
    /// Which of the names apply.
    pub fn is(&self) -> [bool; 10] {
        let (x, y) = (i64::from(self.x), i64::from(self.y));
        let whole = y == 0 || x % y == 0;
        [
            !whole && x > 0 && y > 0,
            !whole && x < 0 && y > 0,
            !whole && x > 0 && y < 0,
            !whole && x < 0 && y < 0,
            whole && y > 0,
            whole && y < 0,
            y == -1,
            y == i32::MIN.into(),
            x == i32::MIN.into() && y == -1,
            y == 0,
        ]
    }
}

/// Those of the statement that the machine comes to next, up to the first trap in an operand.
pub fn next(program: &Program, machine: &Machine) -> Vec<Division> {
    let statement = program.statements[machine.state.row];
    let mut found = vec![];
    if statement.kind == CALL && machine.state.top + program.frame(statement.a()) > machine.state.cells.len() {
        return found;
    }
    for n in program.named_by(machine.state.row) {
        if !visit(program, machine, n, &mut found) {
            break;
        }
    }
    found
}

/// Adds the divisions in the node; whether it does not trap.
fn visit(program: &Program, machine: &Machine, n: usize, found: &mut Vec<Division>) -> bool {
    let row = program.nodes[n];
    for (i, child) in program.children(n).enumerate() {
        let decided = i == 1 && row.kind == DYADIC && decides(row.c, machine.value(row.a()).ok());
        if !decided && !visit(program, machine, child, found) {
            return false;
        }
    }
    if row.kind == DYADIC && matches!(row.c, DIV | MOD) {
        if let [Ok(Value::Integer(x)), Ok(Value::Integer(y))] = [row.a(), row.b()].map(|n| machine.value(n)) {
            found.push(Division { operator: row.c, x, y });
        }
    }
    !matches!(machine.value(n), Err(Stop::Trap { .. }))
}

/// "& and OR skip the right one when the left decides."
fn decides(operator: u16, left: Option<Value>) -> bool {
    matches!((operator, left), (AND, Some(Value::Boolean(false))) | (OR, Some(Value::Boolean(true))))
}
