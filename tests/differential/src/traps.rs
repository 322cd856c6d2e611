//! Which node trapped: the model evaluates the statement's nodes again, in the state that the trap left.

use crate::compare::After;
use model::operators::{Stop, Value};
use model::program::{Program, ARGUMENT, DYADIC};
use model::{Cell, Machine, State, Watch};

pub const IN: u16 = 15;

/// A node that trapped.
pub struct Origin {
    pub node: usize,
    /// Whether it is in the right operand of an IN whose element is outside 0 to 31, and so came before IN's own trap.
    pub before_in: bool,
}

/// The node that trapped, where it was one.
pub fn origin(program: &Program, after: &After) -> Option<Origin> {
    let machine = Machine::from(program, &[], &mut [], state(program, after));
    let traps = |n: &usize| matches!(machine.value(*n), Err(Stop::Trap { trap, .. }) if trap == after.numbers.trap);
    let outside = |n| matches!(machine.value(n), Ok(Value::Integer(x)) if !(0..=31).contains(&x));
    let mut node = program.named_by(after.numbers.row as usize).map(|n| operand(program, n)).find(traps)?;
    let mut before_in = false;
    while let Some(child) = program.children(node).find(traps) {
        let row = program.nodes[node];
        before_in |= (row.kind, row.c) == (DYADIC, IN) && outside(row.a());
        node = child;
    }
    Some(Origin { node, before_in })
}

/// What an argument holds; another node itself.
fn operand(program: &Program, n: usize) -> usize {
    match program.nodes[n].kind {
        ARGUMENT => program.nodes[n].a(),
        _ => n,
    }
}

/// "After any trap nothing below top .. has changed, and row, base and top stay."
fn state(program: &Program, after: &After) -> State {
    let cells = after.store.iter().map(|&number| Cell { kind: None, number }).collect();
    let door::Numbers { row, base, top, mark, .. } = after.numbers;
    let [row, base, top, mark] = [row, base, top, mark].map(|number| number as usize);
    let mut state = State { cells, row, base, top, read: 0, written: 0, steps: 0, mark };
    Watch::new(program).take_kinds(&mut state);
    state
}
