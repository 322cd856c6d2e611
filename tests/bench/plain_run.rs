//! Document 01's run in plain Rust, IN and division as document 02 has them, with the mark, and with no proof. It is
//! written from the papers alone, in the forms that document 01 names: rows are read from the image at each visit, `find`
//! and `eval` call each other on lower node rows, answers are enums. Sizes, places and frames are found once, after the
//! check of plain.rs. The benchmark holds the proved run to its speed, and to its answers.
//!
//! What the check has shown is not asked again at each step: an arm that no accepted image reaches is `unreachable!`,
//! and a cell is taken as the kind that its type gives.
use crate::numbers::Numbers;
use crate::plain::{self, Accepted};

const RECORD: u8 = plain::RECORD;
const MOST_CELLS: usize = 65536;

// Traps and values are 32 bits wide, so that an answer is two registers.

#[repr(u32)]
#[derive(Clone, Copy)]
enum Trap {
    Index = 1,
    Guard,
    Target,
    Overflow,
    Divisor,
    Element,
    Frame,
    Input,
    Output,
    Halt,
}

#[derive(Clone, Copy)]
enum Value {
    /// 0 or 1
    Bool(u32),
    Int(i32),
    Set(u32),
}

/// What an evaluation gives.
#[derive(Clone, Copy)]
enum Answer {
    Val(Value),
    Trap(Trap),
}

/// An object: its first cell, the type it is used with, and its dynamic type.
#[derive(Clone, Copy)]
struct Place {
    address: u32,
    declared: u8,
    dynamic: u8,
}

/// What finding a designator gives.
#[derive(Clone, Copy)]
enum Found {
    At(Place),
    Trap(Trap),
}

/// Where a run stands.
#[derive(Clone, Copy)]
struct Registers {
    row: u32,
    base: u32,
    top: u32,
    read: u64,
    written: u64,
}

/// What a step comes to.
enum Step {
    Goes,
    Finished,
    Trapped(Trap, i32),
}

// ---- rows

/// A row where it stands in the image; a number is read when it is asked for.
#[derive(Clone, Copy)]
struct Row<'a>(&'a [u8; 8]);

impl Row<'_> {
    fn kind(self) -> u8 {
        self.0[0]
    }

    fn a(self) -> usize {
        u16::from_be_bytes([self.0[2], self.0[3]]) as usize
    }

    fn b(self) -> usize {
        u16::from_be_bytes([self.0[4], self.0[5]]) as usize
    }

    fn c(self) -> usize {
        u16::from_be_bytes([self.0[6], self.0[7]]) as usize
    }
}

type Table<'a> = &'a [[u8; 8]];

fn row<'a>(table: Table<'a>, i: usize) -> Row<'a> {
    Row(&table[i])
}

// ---- the program

/// An accepted image, and what no step adds up again.
struct Program<'a> {
    types: Table<'a>,
    fields: Table<'a>,
    variables: Table<'a>,
    procedures: Table<'a>,
    nodes: Table<'a>,
    statements: Table<'a>,
    size: [u32; 64],
    /// Bit u of row t: t extends u.
    above: [u64; 64],
    /// Fields of the bases.
    inherited: [u16; 64],
    /// Where a field begins in its record.
    offset: [u16; 256],
    /// Where a variable begins, a global in the store, another in its frame.
    place: [u32; 256],
    first_variable: [u16; 64],
    frame: [u32; 64],
    /// Where the locals begin in a frame.
    locals: [u32; 64],
    /// The procedure of each statement.
    owner: [u8; 1024],
    globals: u32,
}

impl<'a> Program<'a> {
    fn of(accepted: &Accepted<'a>) -> Program<'a> {
        let Accepted { image, types, globals, frames } = accepted;
        let mut program = Program {
            types: image.types.0,
            fields: image.fields.0,
            variables: image.variables.0,
            procedures: image.procedures.0,
            nodes: image.nodes.0,
            statements: image.statements.0,
            size: types.size.map(|size| size as u32),
            above: types.above,
            inherited: types.inherited.map(|count| count as u16),
            offset: [0; 256],
            place: [0; 256],
            first_variable: frames.map(|first| first as u16),
            frame: [0; 64],
            locals: [0; 64],
            owner: [0; 1024],
            globals: 0,
        };
        for (_, record) in image.types.rows().filter(|(_, row)| row.kind == RECORD) {
            let mut offset = if record.a == 0 { 0 } else { types.size[record.a - 1] };
            for f in record.b..record.b + record.c {
                program.offset[f] = offset as u16;
                offset += types.size[image.fields.row(f).a];
            }
        }
        program.globals = program.lay(0..*globals, 0);
        for (p, procedure) in image.procedures.rows() {
            let locals = frames[p] + procedure.b;
            program.locals[p] = program.lay(frames[p]..locals, 3);
            program.frame[p] = program.lay(locals..locals + procedure.c, program.locals[p]);
            program.owner[procedure.a..plain::body_end(image, p)].fill(p as u8);
        }
        program
    }

    /// Lays variables out from a place on, and gives the place behind them.
    fn lay(&mut self, variables: std::ops::Range<usize>, mut place: u32) -> u32 {
        for v in variables {
            let variable = row(self.variables, v);
            self.place[v] = place;
            place += if variable.kind() == 3 { 2 } else { self.size[variable.a()] };
        }
        place
    }

    fn extends(&self, t: u8, u: usize) -> bool {
        self.above[t as usize] >> u & 1 == 1
    }

    // ---- designators

    #[inline(always)]
    fn variable_place(&self, store: &[i64], base: u32, v: usize) -> Place {
        let variable = row(self.variables, v);
        let declared = variable.a() as u8;
        let place = self.place[v];
        match variable.kind() {
            0 => Place { address: place, declared, dynamic: declared },
            1 | 2 => Place { address: base + place, declared, dynamic: declared },
            _ => {
                let at = (base + place) as usize;
                Place { address: store[at] as u32, declared, dynamic: store[at + 1] as u8 }
            }
        }
    }

    #[inline(always)]
    fn field_place(&self, whole: Place, field: usize) -> Place {
        let mut record = whole.declared as usize;
        while field < self.inherited[record] as usize {
            record = row(self.types, record).a() - 1;
        }
        let f = row(self.types, record).b() + field - self.inherited[record] as usize;
        let declared = row(self.fields, f).a() as u8;
        Place { address: whole.address + self.offset[f] as u32, declared, dynamic: declared }
    }

    fn element_place(&self, whole: Place, index: i32) -> Found {
        let array = row(self.types, whole.declared as usize);
        if index < 0 || index as usize >= array.b() {
            return Found::Trap(Trap::Index);
        }
        let declared = array.a() as u8;
        let address = whole.address + index as u32 * self.size[declared as usize];
        Found::At(Place { address, declared, dynamic: declared })
    }

    fn guard_place(&self, object: Place, t: usize) -> Found {
        if !self.extends(object.dynamic, t) {
            return Found::Trap(Trap::Guard);
        }
        Found::At(Place { declared: t as u8, ..object })
    }

    /// The element that a node of kind 3 designates.
    #[inline(always)]
    fn indexed(&self, store: &[i64], base: u32, node: Row) -> Found {
        let whole = match self.find(store, base, node.a()) {
            Found::At(whole) => whole,
            trap => return trap,
        };
        match self.eval(store, base, node.b()) {
            Answer::Val(Value::Int(index)) => self.element_place(whole, index),
            Answer::Trap(trap) => Found::Trap(trap),
            _ => unreachable!(),
        }
    }

    // A variable or a constant takes no call of its own: most nodes are one.

    /// The object that node row r designates.
    #[inline(always)]
    fn find(&self, store: &[i64], base: u32, r: usize) -> Found {
        let node = row(self.nodes, r);
        match node.kind() {
            1 => Found::At(self.variable_place(store, base, node.a())),
            _ => self.find_part(store, base, node),
        }
    }

    /// The object that a node designates which is no variable.
    fn find_part(&self, store: &[i64], base: u32, node: Row) -> Found {
        match node.kind() {
            2 => {
                let found = self.find(store, base, node.a());
                let Found::At(whole) = found else { return found };
                Found::At(self.field_place(whole, node.b()))
            }
            3 => self.indexed(store, base, node),
            4 => self.guard_place(self.variable_place(store, base, node.a()), node.b()),
            8 => self.find(store, base, node.a()),
            _ => unreachable!(),
        }
    }

    // ---- expressions

    /// The value of node row r.
    #[inline(always)]
    fn eval(&self, store: &[i64], base: u32, r: usize) -> Answer {
        let node = row(self.nodes, r);
        match node.kind() {
            0 => Answer::Val(value(node.a() as u8, (node.b() * 65536 + node.c()) as u32 as i64)),
            1 => load(store, self.variable_place(store, base, node.a())),
            _ => self.eval_operation(store, base, node),
        }
    }

    /// The value of a node that is neither constant nor variable.
    fn eval_operation(&self, store: &[i64], base: u32, node: Row) -> Answer {
        match node.kind() {
            2 => {
                let found = self.find(store, base, node.a());
                let Found::At(whole) = found else { return no_value(found) };
                load(store, self.field_place(whole, node.b()))
            }
            3 => {
                let found = self.indexed(store, base, node);
                let Found::At(element) = found else { return no_value(found) };
                load(store, element)
            }
            5 => {
                let left = self.eval(store, base, node.a());
                let Answer::Val(x) = left else { return left };
                match (node.c(), x) {
                    (13, Value::Bool(0)) | (14, Value::Bool(1)) => return left,
                    _ => {}
                }
                let right = self.eval(store, base, node.b());
                let Answer::Val(y) = right else { return right };
                dyadic(node.c(), x, y)
            }
            6 => {
                let operand = self.eval(store, base, node.a());
                let Answer::Val(x) = operand else { return operand };
                monadic(node.c(), x)
            }
            7 => {
                let object = self.variable_place(store, base, node.a());
                boolean(self.extends(object.dynamic, node.b()))
            }
            8 => self.eval(store, base, node.a()),
            // a guarded record has no value
            _ => unreachable!(),
        }
    }
}

/// A cell's number, or a constant's 32 bits, as a value of a scalar type.
fn value(t: u8, number: i64) -> Value {
    match t {
        0 => Value::Bool((number != 0) as u32),
        1 => Value::Int(number as i32),
        _ => Value::Set(number as u32),
    }
}

fn number(value: Value) -> i64 {
    match value {
        Value::Bool(x) => x as i64,
        Value::Int(x) => x as i64,
        Value::Set(x) => x as i64,
    }
}

fn load(store: &[i64], object: Place) -> Answer {
    Answer::Val(value(object.declared, store[object.address as usize]))
}

fn no_value(found: Found) -> Answer {
    match found {
        Found::Trap(trap) => Answer::Trap(trap),
        Found::At(_) => unreachable!(),
    }
}

// ---- operators

fn dyadic(operator: usize, left: Value, right: Value) -> Answer {
    match (left, right) {
        (Value::Int(x), Value::Int(y)) => integers(operator, x, y),
        (Value::Set(s), Value::Set(t)) => sets(operator, s, t),
        (Value::Bool(p), Value::Bool(q)) => booleans(operator, p != 0, q != 0),
        (Value::Int(x), Value::Set(s)) => element(x, s),
        _ => unreachable!(),
    }
}

fn integers(operator: usize, x: i32, y: i32) -> Answer {
    let number = match operator {
        1 => x.checked_add(y),
        2 => x.checked_sub(y),
        3 => x.checked_mul(y),
        4 | 5 if y == 0 => return Answer::Trap(Trap::Divisor),
        4 => quotient(x, y),
        5 => Some(remainder(x, y)),
        7 => return boolean(x == y),
        8 => return boolean(x != y),
        9 => return boolean(x < y),
        10 => return boolean(x <= y),
        11 => return boolean(x > y),
        12 => return boolean(x >= y),
        16 => return range(x, y),
        _ => unreachable!(),
    };
    let Some(number) = number else { return Answer::Trap(Trap::Overflow) };
    Answer::Val(Value::Int(number))
}

/// Rounded down. -2147483648 by -1 has none.
fn quotient(x: i32, y: i32) -> Option<i32> {
    let toward_zero = x.checked_div(y)?;
    Some(toward_zero - below(x % y, y) as i32)
}

/// Between 0 and y, or 0.
fn remainder(x: i32, y: i32) -> i32 {
    let toward_zero = x.wrapping_rem(y);
    if below(toward_zero, y) {
        toward_zero + y
    } else {
        toward_zero
    }
}

/// Whether a division with this remainder, rounded toward zero, is to be rounded down: the remainder has another sign
/// than the divisor.
fn below(remainder: i32, y: i32) -> bool {
    remainder != 0 && (remainder ^ y) < 0
}

fn boolean(x: bool) -> Answer {
    Answer::Val(Value::Bool(x as u32))
}

/// Whether a SET has a bit for it.
fn is_element(x: i32) -> bool {
    (0..32).contains(&x)
}

fn element(x: i32, s: u32) -> Answer {
    if !is_element(x) {
        return Answer::Trap(Trap::Element);
    }
    boolean(s >> x & 1 == 1)
}

fn range(x: i32, y: i32) -> Answer {
    if !is_element(x) || !is_element(y) {
        return Answer::Trap(Trap::Element);
    }
    Answer::Val(Value::Set(if x <= y { ((2u64 << y) - (1u64 << x)) as u32 } else { 0 }))
}

fn sets(operator: usize, s: u32, t: u32) -> Answer {
    match operator {
        1 => Answer::Val(Value::Set(s | t)),
        2 => Answer::Val(Value::Set(s & !t)),
        3 => Answer::Val(Value::Set(s & t)),
        6 => Answer::Val(Value::Set(s ^ t)),
        7 => boolean(s == t),
        8 => boolean(s != t),
        _ => unreachable!(),
    }
}

fn booleans(operator: usize, p: bool, q: bool) -> Answer {
    match operator {
        7 => boolean(p == q),
        8 => boolean(p != q),
        13 => boolean(p & q),
        14 => boolean(p | q),
        _ => unreachable!(),
    }
}

fn monadic(operator: usize, x: Value) -> Answer {
    match (operator, x) {
        (1, Value::Int(x)) => match x.checked_neg() {
            Some(x) => Answer::Val(Value::Int(x)),
            None => Answer::Trap(Trap::Overflow),
        },
        (1, Value::Set(s)) => Answer::Val(Value::Set(!s)),
        (2, Value::Bool(p)) => boolean(p == 0),
        _ => unreachable!(),
    }
}

// ---- statements

impl Program<'_> {
    /// One step. After a trap, and after a finishing RETURN, the registers are as they were.
    fn step(&self, input: &[i32], store: &mut [i64], output: &mut [i32], s: &mut Registers) -> Step {
        let statement = row(self.statements, s.row as usize);
        match statement.kind() {
            0 => {
                if let Some(trap) = self.assign(store, s.base, statement) {
                    return Step::Trapped(trap, 0);
                }
                s.row += 1;
            }
            1 => {
                if let Some(trap) = self.call(store, s, statement) {
                    return Step::Trapped(trap, 0);
                }
            }
            2 => match self.eval(store, s.base, statement.a()) {
                Answer::Val(Value::Bool(1)) => s.row += 1,
                Answer::Val(Value::Bool(_)) => s.row = statement.b() as u32,
                Answer::Trap(trap) => return Step::Trapped(trap, 0),
                _ => unreachable!(),
            },
            3 => s.row = statement.b() as u32,
            4 => {
                if self.owner[s.row as usize] == 0 {
                    return Step::Finished;
                }
                let base = s.base as usize;
                s.top = s.base;
                s.row = store[base + 1] as u32;
                s.base = store[base + 2] as u32;
            }
            5 => {
                let target = match self.find(store, s.base, statement.a()) {
                    Found::At(target) => target,
                    Found::Trap(trap) => return Step::Trapped(trap, 0),
                };
                let Some(&number) = input.get(s.read as usize) else { return Step::Trapped(Trap::Input, 0) };
                store[target.address as usize] = number as i64;
                s.read += 1;
                s.row += 1;
            }
            6 => {
                let number = match self.eval(store, s.base, statement.a()) {
                    Answer::Val(Value::Int(number)) => number,
                    Answer::Trap(trap) => return Step::Trapped(trap, 0),
                    _ => unreachable!(),
                };
                let Some(place) = output.get_mut(s.written as usize) else { return Step::Trapped(Trap::Output, 0) };
                *place = number;
                s.written += 1;
                s.row += 1;
            }
            7 => match self.eval(store, s.base, statement.a()) {
                Answer::Val(Value::Int(number)) => return Step::Trapped(Trap::Halt, number),
                _ => unreachable!(),
            },
            _ => unreachable!(),
        }
        Step::Goes
    }

    fn assign(&self, store: &mut [i64], base: u32, statement: Row) -> Option<Trap> {
        let target = match self.find(store, base, statement.a()) {
            Found::At(target) => target,
            Found::Trap(trap) => return Some(trap),
        };
        let address = target.address as usize;
        if target.declared <= 2 {
            match self.eval(store, base, statement.b()) {
                Answer::Val(value) => store[address] = number(value),
                Answer::Trap(trap) => return Some(trap),
            }
            return None;
        }
        let source = match self.find(store, base, statement.b()) {
            Found::At(source) => source.address as usize,
            Found::Trap(trap) => return Some(trap),
        };
        let declared = target.declared as usize;
        if target.dynamic != target.declared && row(self.types, declared).kind() == RECORD {
            return Some(Trap::Target);
        }
        store.copy_within(source..source + self.size[declared] as usize, address);
        None
    }

    fn call(&self, store: &mut [i64], s: &mut Registers, statement: Row) -> Option<Trap> {
        let q = statement.a();
        let end = s.top + self.frame[q];
        if store.len() < end as usize {
            return Some(Trap::Frame);
        }
        let procedure = row(self.procedures, q);
        let first = self.first_variable[q] as usize;
        // reading below top, writing from top on
        let (store, frame) = store.split_at_mut(s.top as usize);
        for k in 0..procedure.b() {
            if let Some(trap) = self.pass(store, frame, s.base, statement.b() + k, first + k) {
                return Some(trap);
            }
        }
        frame[self.locals[q] as usize..self.frame[q] as usize].fill(0);
        frame[..3].copy_from_slice(&[self.owner[s.row as usize] as i64, s.row as i64 + 1, s.base as i64]);
        s.row = procedure.a() as u32;
        s.base = s.top;
        s.top = end;
        None
    }

    /// The top that the step from here asks for: a call's that passes the store check, else 0.
    fn asked(&self, cells: usize, s: Registers) -> u32 {
        let statement = row(self.statements, s.row as usize);
        if statement.kind() != 1 {
            return 0;
        }
        let end = s.top + self.frame[statement.a()];
        if cells < end as usize {
            return 0;
        }
        end
    }

    /// One argument: node row k, to variable row v of the new frame.
    fn pass(&self, store: &[i64], frame: &mut [i64], base: u32, k: usize, v: usize) -> Option<Trap> {
        let parameter = row(self.variables, v);
        let place = self.place[v] as usize;
        if parameter.kind() == 2 && parameter.a() <= 2 {
            match self.eval(store, base, k) {
                Answer::Val(value) => frame[place] = number(value),
                Answer::Trap(trap) => return Some(trap),
            }
            return None;
        }
        let object = match self.find(store, base, k) {
            Found::At(object) => object,
            Found::Trap(trap) => return Some(trap),
        };
        if parameter.kind() == 3 {
            frame[place] = object.address as i64;
            frame[place + 1] = object.dynamic as i64;
        } else {
            let source = object.address as usize;
            let size = self.size[parameter.a()] as usize;
            frame[place..place + size].copy_from_slice(&store[source..source + size]);
        }
        None
    }
}

// ---- the run

pub fn run(image: &[u8], input: &[i32], store: &mut [i64], output: &mut [i32], steps: u32) -> Numbers {
    let refused = |refusal, fault| Numbers { refusal, fault, ..Numbers::default() };
    let accepted = match plain::accept(image) {
        Ok(accepted) => accepted,
        Err((question, row)) => return refused(question, row as u32),
    };
    let program = Program::of(&accepted);
    let base = program.globals;
    let top = base + program.frame[0];
    if store.len() > MOST_CELLS {
        return refused(12, 0);
    }
    if store.len() < top as usize {
        return refused(13, 0);
    }
    store[..top as usize].fill(0);
    let from = Registers { row: 0, base, top, read: 0, written: 0 };
    advance(&program, input, store, output, from, steps)
}

/// At most n steps. One that goes on leaves the top that it asked for, or a lower one than before it; what the last asks
/// for is found anew.
#[inline(never)]
fn advance(
    program: &Program,
    input: &[i32],
    store: &mut [i64],
    output: &mut [i32],
    mut s: Registers,
    n: u32,
) -> Numbers {
    let (mut outcome, mut trap, mut halt, mut steps) = (0, 0, 0, 0);
    let mut mark = s.top;
    while steps < n {
        steps += 1;
        match program.step(input, store, output, &mut s) {
            Step::Goes => {
                mark = mark.max(s.top);
                continue;
            }
            Step::Finished => outcome = 1,
            Step::Trapped(t, number) => (outcome, trap, halt) = (2, t as u32, number),
        }
        mark = mark.max(program.asked(store.len(), s));
        break;
    }
    let Registers { row, base, top, read, written } = s;
    Numbers { refusal: 0, fault: 0, outcome, trap, halt, steps, row, base, top, read, written, mark }
}
