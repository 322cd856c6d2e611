//! Tagged machine: cells with their kinds, evaluation, statements, steps.

use crate::image::Row;
use crate::operators::{constant, dyadic, monadic, stuck, trap, trapped, Answer, Stop, Value};
use crate::program::*;
use crate::types::Kind;
use crate::{ask, rules, Fault};
use std::ops::Range;

/// "Has the store at most 65,536 cells?"
pub const MOST_CELLS: usize = 65_536;

/// "A cell is a kind .. and a number". A cell that nothing was put in yet has the number that it was lent with, and no
/// kind.
#[derive(Clone, Copy, Debug, PartialEq, Eq)]
pub struct Cell {
    pub kind: Option<Kind>,
    pub number: i64,
}

impl Cell {
    pub fn new(kind: Kind, number: i64) -> Cell {
        Cell { kind: Some(kind), number }
    }

    /// The cell has the kind, and its number is in the kind's range.
    pub fn has(&self, kind: Kind) -> bool {
        self.kind == Some(kind) && range(kind).contains(&self.number)
    }
}

/// "INTEGER is −2147483648 to 2147483647; SET has bit i for element i, 0 to 31; FALSE is 0." Links, addresses and types
/// are numbers of 16 bits.
pub(crate) fn range(kind: Kind) -> Range<i64> {
    match kind {
        Kind::Boolean => 0..2,
        Kind::Integer => -(1 << 31)..1 << 31,
        Kind::Set => 0..1 << 32,
        Kind::Link | Kind::Address | Kind::Type => 0..1 << 16,
    }
}

/// What a designator finds: "its object's address and dynamic type".
#[derive(Clone, Copy, Debug)]
struct Object {
    address: usize,
    dynamic: usize,
}

fn row_of(table: &[Row], at: usize) -> Answer<Row> {
    match table.get(at) {
        Some(row) => Ok(*row),
        None => stuck(|| format!("there is no row {at}")),
    }
}

/// "State: cells below top, row, base, top, counts read, written, steps." `cells` are all of the lent store. Beside it
/// document 02's mark: "the largest of G + F0 and the tops asked for by calls that passed the store check".
#[derive(Clone, Debug, PartialEq, Eq)]
pub struct State {
    pub cells: Vec<Cell>,
    pub row: usize,
    pub base: usize,
    pub top: usize,
    pub read: usize,
    pub written: usize,
    pub steps: u64,
    pub mark: usize,
}

/// What a step comes to.
#[derive(Clone, Debug, PartialEq, Eq)]
pub enum Step {
    GoesOn,
    Finished,
    /// The trap's number and HALT's, which is 0 unless the trap is 10.
    Trapped {
        trap: u32,
        halt: i32,
    },
    /// "no rule applies"
    Stuck(String),
}

/// "12. Has the store at most 65,536 cells? 13. Has it at least G + F0?" Its cells, which have no kinds yet.
pub(crate) fn lent(program: &Program, store: &[i64]) -> Result<Vec<Cell>, Fault> {
    let (cells, needed) = (store.len(), program.globals() + program.frame(0));
    ask(cells <= MOST_CELLS, &rules::STORE_ABOVE, 0, || format!("the store has {cells} cells"))?;
    ask(cells >= needed, &rules::STORE_BELOW, 0, || format!("the store has {cells} cells, needed are {needed}"))?;
    Ok(store.iter().map(|&number| Cell { kind: None, number }).collect())
}

/// A program with what it was lent, and its state.
pub struct Machine<'a> {
    program: &'a Program,
    input: &'a [i32],
    output: &'a mut [i32],
    pub state: State,
}

impl<'a> Machine<'a> {
    /// The fresh state, or the question that refuses the store.
    pub fn fresh(
        program: &'a Program,
        input: &'a [i32],
        store: &[i64],
        output: &'a mut [i32],
    ) -> Result<Machine<'a>, Fault> {
        let cells = lent(program, store)?;
        let base = program.globals();
        let top = base + program.frame(0);
        let state = State { cells, row: 0, base, top, read: 0, written: 0, steps: 0, mark: top };
        let mut machine = Machine::from(program, input, output, state);
        machine.clear();
        Ok(machine)
    }

    /// A state that is there already.
    pub fn from(program: &'a Program, input: &'a [i32], output: &'a mut [i32], state: State) -> Machine<'a> {
        Machine { program, input, output, state }
    }

    /// "Fresh: globals and procedure 0's frame zero". "A zeroed cell has the kind that its place gives".
    fn clear(&mut self) {
        for v in 0..self.program.global_count() {
            self.zero(0, v);
        }
        self.put_links(self.state.base, [0, 0, 0]);
        for v in self.program.locals(0) {
            self.zero(self.state.base, v);
        }
    }

    /// One step: the statement at the state's row.
    pub fn step(&mut self) -> Step {
        let step = match self.statement() {
            Ok(step) => step,
            Err(Stop::Trap { trap, halt }) => Step::Trapped { trap, halt },
            Err(Stop::Stuck(why)) => return Step::Stuck(why),
        };
        self.state.steps += 1;
        step
    }

    fn statement(&mut self) -> Answer<Step> {
        let row = row_of(&self.program.statements, self.state.row)?;
        match row.kind {
            ASSIGN => self.assign(row.a(), row.b()),
            CALL => self.call(row.a(), row.b()),
            JUMP_IF_FALSE => self.jump_if_false(row.a(), row.b()),
            JUMP => self.go_to(row.b()),
            RETURN => self.return_(),
            READ => self.read(row.a()),
            WRITE => self.write(row.a()),
            HALT => self.halt(row.a()),
            kind => stuck(|| format!("statement {} is of kind {kind}", self.state.row)),
        }
    }

    /// "Assign: target, source, then copy the target type's cells, all read before any is written." "3 record target's
    /// dynamic type is not its static one (after both sides)".
    fn assign(&mut self, target: usize, source: usize) -> Answer<Step> {
        let t = self.program.type_of(target);
        let object = self.find(target)?;
        let cells = self.cells_of(source, t)?;
        if self.program.is_record(t) && object.dynamic != t {
            return trapped(trap::RECORD_TARGET);
        }
        self.change(object.address, &cells)?;
        self.go_to(self.state.row + 1)
    }

    /// "Call: store check first; the new frame's cells begin at the old top; each argument is written once found, then
    /// locals zero, links, and the state's row (the procedure's first), base and top." Past the store check the call
    /// counts for the mark, also where an argument then traps.
    fn call(&mut self, p: usize, arguments: usize) -> Answer<Step> {
        let called = row_of(&self.program.procedures, p)?;
        let State { row, base, top, .. } = self.state;
        let asked = top + self.program.frame(p);
        if asked > self.state.cells.len() {
            return trapped(trap::FRAME);
        }
        self.state.mark = self.state.mark.max(asked);
        for (i, v) in self.program.parameters(p).enumerate() {
            self.pass(arguments + i, v)?;
        }
        for v in self.program.locals(p) {
            self.zero(top, v);
        }
        self.put_links(top, [self.program.procedure_at(row), row + 1, base]);
        self.state.base = top;
        self.state.top = asked;
        self.go_to(called.a())
    }

    /// Finds argument n and writes it to the place of parameter v. "A VAR argument passes its object's address and
    /// dynamic type."
    fn pass(&mut self, n: usize, v: usize) -> Answer<()> {
        let argument = row_of(&self.program.nodes, n)?;
        if argument.kind != ARGUMENT {
            return stuck(|| format!("node {n} is no argument"));
        }
        let parameter = self.program.variables[v];
        let cells = if parameter.kind == VAR_PARAMETER {
            let object = self.find(argument.a())?;
            vec![Cell::new(Kind::Address, object.address as i64), Cell::new(Kind::Type, object.dynamic as i64)]
        } else {
            self.cells_of(argument.a(), parameter.a())?
        };
        self.put(self.state.top + self.program.place(v), &cells);
        Ok(())
    }

    /// "2 go to b if a is FALSE." "After a jump not taken .. the next row follows."
    fn jump_if_false(&mut self, condition: usize, target: usize) -> Answer<Step> {
        let next = if self.boolean(condition)? { self.state.row + 1 } else { target };
        self.go_to(next)
    }

    fn go_to(&mut self, row: usize) -> Answer<Step> {
        self.state.row = row;
        Ok(Step::GoesOn)
    }

    /// "RETURN restores row, base and top (the ended frame's base); in procedure 0 it finishes." It has no use for the
    /// first link, the caller's procedure.
    fn return_(&mut self) -> Answer<Step> {
        if self.program.procedure_at(self.state.row) == 0 {
            return Ok(Step::Finished);
        }
        let ended = self.state.base;
        let row = self.unsigned(ended + 1, Kind::Link)?;
        self.state.base = self.unsigned(ended + 2, Kind::Link)?;
        self.state.top = ended;
        self.go_to(row)
    }

    /// "5 read into designator a." "8 input used up (after the target)".
    fn read(&mut self, target: usize) -> Answer<Step> {
        let object = self.find(target)?;
        let Some(&number) = self.input.get(self.state.read) else { return trapped(trap::INPUT_USED_UP) };
        self.change(object.address, &[Value::Integer(number).cell()])?;
        self.state.read += 1;
        self.go_to(self.state.row + 1)
    }

    /// "6 write a." "9 output full (after the value)".
    fn write(&mut self, n: usize) -> Answer<Step> {
        let number = self.integer(n)?;
        let Some(place) = self.output.get_mut(self.state.written) else { return trapped(trap::OUTPUT_FULL) };
        *place = number;
        self.state.written += 1;
        self.go_to(self.state.row + 1)
    }

    /// "7 HALT(a)."
    fn halt(&self, n: usize) -> Answer<Step> {
        Err(Stop::Trap { trap: trap::HALT, halt: self.integer(n)? })
    }
}

/// Evaluation. Nothing in it changes the state.
impl Machine<'_> {
    /// Finds a designator's object. "Operands go left to right".
    fn find(&self, n: usize) -> Answer<Object> {
        let node = row_of(&self.program.nodes, n)?;
        match node.kind {
            VARIABLE => self.variable(node.a()),
            FIELD => self.field(&node),
            ELEMENT => self.element(&node),
            GUARD => self.guard(&node),
            kind => stuck(|| format!("node {n} of kind {kind} is no designator")),
        }
    }

    /// "A VAR parameter's dynamic type is its type cell; every other object's is its declared type."
    fn variable(&self, v: usize) -> Answer<Object> {
        let variable = row_of(&self.program.variables, v)?;
        let place = self.program.place(v);
        let Some(owner) = self.program.owner(v) else {
            return Ok(Object { address: place, dynamic: variable.a() });
        };
        if owner != self.program.procedure_at(self.state.row) {
            return stuck(|| format!("variable {v} is of procedure {owner}"));
        }
        let own = self.state.base + place;
        if variable.kind != VAR_PARAMETER {
            return Ok(Object { address: own, dynamic: variable.a() });
        }
        let dynamic = self.unsigned(own + 1, Kind::Type)?;
        row_of(&self.program.types, dynamic)?;
        Ok(Object { address: self.unsigned(own, Kind::Address)?, dynamic })
    }

    /// "2 field b (base's fields counted first) of a."
    fn field(&self, node: &Row) -> Answer<Object> {
        let record = self.find(node.a())?;
        match self.program.fields_of(self.program.type_of(node.a())).get(node.b()) {
            Some(field) => Ok(Object { address: record.address + field.offset, dynamic: field.t }),
            None => stuck(|| format!("node {} has no field {}", node.a, node.b)),
        }
    }

    /// "3 element of a at b." Trap 1 where the index is not below the length.
    fn element(&self, node: &Row) -> Answer<Object> {
        let array = self.find(node.a())?;
        let index = self.integer(node.b())?;
        let declared = self.program.types[self.program.type_of(node.a())];
        match usize::try_from(index) {
            Ok(index) if index < declared.b() => {
                let element = declared.a();
                Ok(Object { address: array.address + index * self.program.size(element), dynamic: element })
            }
            _ => trapped(trap::INDEX),
        }
    }

    /// "4 guard: variable a, type b." Trap 2 where the dynamic type does not extend it.
    fn guard(&self, node: &Row) -> Answer<Object> {
        let object = self.variable(node.a())?;
        if self.program.extends(object.dynamic, node.b()) {
            Ok(object)
        } else {
            trapped(trap::GUARD)
        }
    }

    /// Evaluates an expression. "an expression's operand may be a designator, found first".
    pub fn value(&self, n: usize) -> Answer<Value> {
        let node = row_of(&self.program.nodes, n)?;
        match node.kind {
            CONSTANT => constant(&node),
            VARIABLE | FIELD | ELEMENT | GUARD => self.designated(n),
            DYADIC => self.dyadic(&node),
            MONADIC => monadic(node.c, self.value(node.a())?),
            TYPE_TEST => {
                let object = self.variable(node.a())?;
                Ok(Value::Boolean(self.program.extends(object.dynamic, node.b())))
            }
            kind => stuck(|| format!("node {n} of kind {kind} has no value")),
        }
    }

    /// The value of a designator's object, whose type is scalar.
    fn designated(&self, n: usize) -> Answer<Value> {
        let object = self.find(n)?;
        match self.program.layout(self.program.type_of(n)) {
            &[kind] => Value::of(kind, self.number(object.address, kind)?),
            _ => stuck(|| format!("node {n} is no scalar")),
        }
    }

    /// "Operands go left to right; & and OR skip the right one when the left decides."
    fn dyadic(&self, node: &Row) -> Answer<Value> {
        let left = self.value(node.a())?;
        match (node.c, left) {
            (13, Value::Boolean(false)) | (14, Value::Boolean(true)) => Ok(left),
            _ => dyadic(node.c, left, self.value(node.b())?),
        }
    }

    fn boolean(&self, n: usize) -> Answer<bool> {
        match self.value(n)? {
            Value::Boolean(x) => Ok(x),
            other => stuck(|| format!("node {n} is {other:?}, no BOOLEAN")),
        }
    }

    fn integer(&self, n: usize) -> Answer<i32> {
        match self.value(n)? {
            Value::Integer(x) => Ok(x),
            other => stuck(|| format!("node {n} is {other:?}, no INTEGER")),
        }
    }

    /// The cells of source n that a target of type t takes: one of an expression, of a record or array the target's.
    fn cells_of(&self, n: usize, t: usize) -> Answer<Vec<Cell>> {
        if self.program.is_scalar(t) {
            return Ok(vec![self.value(n)?.cell()]);
        }
        let object = self.find(n)?;
        let cell = |(i, &kind)| Ok(Cell::new(kind, self.number(object.address + i, kind)?));
        self.program.layout(t).iter().enumerate().map(cell).collect()
    }
}

/// The store.
impl Machine<'_> {
    /// The number of a cell below top that has the kind and its range. "Where an operand's cell lacks the needed kind
    /// or range, or a .. cell is missing, no rule applies".
    fn number(&self, address: usize, kind: Kind) -> Answer<i64> {
        match self.state.cells.get(address) {
            Some(cell) if address < self.state.top && cell.has(kind) => Ok(cell.number),
            other => stuck(|| format!("cell {address} is {other:?}, top is {}, needed is {kind:?}", self.state.top)),
        }
    }

    /// The number of a link, address or type.
    fn unsigned(&self, address: usize, kind: Kind) -> Answer<usize> {
        Ok(self.number(address, kind)? as usize)
    }

    /// Writes cells below top. "a cell written later has the kind of what was written, whatever its place".
    fn change(&mut self, address: usize, cells: &[Cell]) -> Answer<()> {
        if address + cells.len() > self.state.top {
            return stuck(|| format!("cells from {address} on are missing, top is {}", self.state.top));
        }
        self.put(address, cells);
        Ok(())
    }

    /// Writes cells that the store has.
    fn put(&mut self, address: usize, cells: &[Cell]) {
        self.state.cells[address..address + cells.len()].copy_from_slice(cells);
    }

    /// "three links (caller's procedure, return row, caller's base ..)"
    fn put_links(&mut self, base: usize, links: [usize; LINKS]) {
        self.put(base, &links.map(|link| Cell::new(Kind::Link, link as i64)));
    }

    /// Zeroes global v, or local v of the frame at `base`. "A zeroed cell has the kind that its place gives".
    fn zero(&mut self, base: usize, v: usize) {
        let first = base + self.program.place(v);
        let layout = self.program.layout(self.program.variables[v].a());
        for (cell, &kind) in self.state.cells[first..].iter_mut().zip(layout) {
            *cell = Cell::new(kind, 0);
        }
    }
}
