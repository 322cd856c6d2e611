//! The tracer's own reading of a statement: document 01's order of evaluation, over the cells as they were before the
//! step, up to the first thing that traps. What a step changes is not its matter: that is the engine's to show.
use crate::engine::{Before, Lent};
use crate::layout::{value_words, Frame, Layout};
use listing::children;
use model::image::Row;
use model::operators::trap;
use model::program::*;
use model::types::SET;
use model::words::counted;

/// What traps.
#[derive(Clone, Debug, PartialEq, Eq)]
pub struct Found {
    pub trap: u32,
    /// The expression; none where a statement traps of itself.
    pub node: Option<usize>,
    pub because: String,
    /// The values that the expression's variables had, in the order in which they were taken.
    pub with: Vec<String>,
}

/// What a reading comes to.
#[derive(Clone, Debug, PartialEq, Eq)]
pub enum Reading {
    GoesOn,
    Traps(Found),
    /// No rule applies, which the engine's states never come to.
    Stuck(String),
}

impl Reading {
    /// The trap's number, 0 where there is none.
    pub fn trap(&self) -> u32 {
        match self {
            Reading::Traps(found) => found.trap,
            _ => 0,
        }
    }

    /// In words, beside what the engine says.
    pub fn told(&self) -> String {
        match self {
            Reading::GoesOn => "finds no expression that traps".to_string(),
            Reading::Traps(Found { trap, because, .. }) => format!("finds trap {trap}: {because}"),
            Reading::Stuck(why) => format!("cannot go on: {why}"),
        }
    }
}

enum Stop {
    Trap { trap: u32, node: Option<usize>, because: String },
    Stuck(String),
}

type Answer<T> = Result<T, Stop>;

/// What a designator finds.
struct Object {
    address: usize,
    dynamic: usize,
}

struct Reader<'a> {
    layout: &'a Layout<'a>,
    lent: &'a Lent<'a>,
    before: &'a Before,
    frames: &'a [Frame],
    /// The designators whose values were taken, with these.
    taken: Vec<(usize, i64)>,
}

/// Reads the statement that a step begins with; the frames are those of its state.
pub fn read(layout: &Layout, lent: &Lent, before: &Before, frames: &[Frame]) -> Reading {
    let mut reader = Reader { layout, lent, before, frames, taken: Vec::new() };
    match reader.statement(layout.program.statements[before.numbers.row as usize]) {
        Ok(()) => Reading::GoesOn,
        Err(Stop::Stuck(why)) => Reading::Stuck(why),
        Err(Stop::Trap { trap, node, because }) => {
            Reading::Traps(Found { trap, node, because, with: reader.values_below(node) })
        }
    }
}

fn trapped<T>(trap: u32, node: Option<usize>, because: String) -> Answer<T> {
    Err(Stop::Trap { trap, node, because })
}

/// Whether a list has more than was read or written of it.
fn some_left(done: u64, all: usize, trap: u32, has: impl FnOnce() -> String) -> Answer<()> {
    if done < all as u64 {
        return Ok(());
    }
    trapped(trap, None, format!("{}, and no more is left", has()))
}

impl Reader<'_> {
    fn statement(&mut self, row: Row) -> Answer<()> {
        let Before { numbers, .. } = self.before;
        match row.kind {
            ASSIGN => self.assign(row.a(), row.b()),
            CALL => self.call(row.a(), row.b()),
            JUMP_IF_FALSE => self.value(row.a()).map(|_| ()),
            READ => {
                self.find(row.a())?;
                let inputs = self.lent.inputs.len();
                some_left(numbers.read, inputs, trap::INPUT_USED_UP, || {
                    format!("the input has {}", counted(inputs, "number"))
                })
            }
            WRITE => {
                self.value(row.a())?;
                let places = self.lent.places;
                some_left(numbers.written, places, trap::OUTPUT_FULL, || {
                    format!("the output has {}", counted(places, "place"))
                })
            }
            HALT => {
                let number = self.value(row.a())?;
                trapped(trap::HALT, None, format!("HALT's number is {number}"))
            }
            _ => Ok(()),
        }
    }

    /// Target, source, then the target's dynamic type.
    fn assign(&mut self, target: usize, source: usize) -> Answer<()> {
        let (program, names) = (self.layout.program, self.layout.names);
        let t = program.type_of(target);
        let object = self.find(target)?;
        self.source(source, t)?;
        if !program.is_record(t) || object.dynamic == t {
            return Ok(());
        }
        let is = self.layout.named_object(self.frames, object.address, object.dynamic);
        let [own, dynamic, assigned] = [t, object.dynamic, program.type_of(source)].map(|t| names.type_row(t));
        let because =
            format!("it is {is}, of dynamic type {dynamic} and not {own}; what is assigned is of type {assigned}");
        trapped(trap::RECORD_TARGET, Some(target), because)
    }

    /// The store check, then the arguments.
    fn call(&mut self, p: usize, arguments: usize) -> Answer<()> {
        let program = self.layout.program;
        let (top, frame, cells) = (self.before.numbers.top as usize, program.frame(p), self.lent.cells);
        if top + frame > cells {
            let name = self.layout.names.procedure(p);
            let because = format!("{name} asks for {frame} cells from cell {top} on; the store has {cells} cells");
            return trapped(trap::FRAME, None, because);
        }
        for (k, v) in program.parameters(p).enumerate() {
            let argument = program.nodes[arguments + k].a();
            let parameter = program.variables[v];
            if parameter.kind == VAR_PARAMETER {
                self.find(argument)?;
            } else {
                self.source(argument, parameter.a())?;
            }
        }
        Ok(())
    }

    /// What is assigned or passed by value to something of type t.
    fn source(&mut self, node: usize, t: usize) -> Answer<()> {
        if self.layout.program.is_scalar(t) {
            self.value(node).map(|_| ())
        } else {
            self.find(node).map(|_| ())
        }
    }

    fn find(&mut self, n: usize) -> Answer<Object> {
        let program = self.layout.program;
        let row = program.nodes[n];
        match row.kind {
            VARIABLE => self.variable(row.a()),
            GUARD => self.guard(n, row),
            FIELD => {
                let record = self.find(row.a())?;
                let field = program.fields_of(program.type_of(row.a()))[row.b()];
                Ok(Object { address: record.address + field.offset, dynamic: field.t })
            }
            ELEMENT => self.element(n, row),
            kind => Err(Stop::Stuck(format!("node {n} of kind {kind} is no designator"))),
        }
    }

    fn variable(&self, v: usize) -> Answer<Object> {
        let program = self.layout.program;
        let row = program.variables[v];
        let base = program.owner(v).map_or(0, |_| self.before.numbers.base as usize);
        let own = base + program.place(v);
        if row.kind != VAR_PARAMETER {
            return Ok(Object { address: own, dynamic: row.a() });
        }
        let [address, dynamic] = [self.cell(own)?, self.cell(own + 1)?].map(|number| number as usize);
        Ok(Object { address, dynamic })
    }

    fn guard(&self, n: usize, row: Row) -> Answer<Object> {
        let object = self.variable(row.a())?;
        if self.layout.program.extends(object.dynamic, row.b()) {
            return Ok(object);
        }
        let is = self.layout.named_object(self.frames, object.address, object.dynamic);
        let names = self.layout.names;
        let [dynamic, asked] = [object.dynamic, row.b()].map(|t| names.type_row(t));
        let variable = names.variable(row.a());
        let because = format!("{variable} is {is}, of dynamic type {dynamic}, which does not extend {asked}");
        trapped(trap::GUARD, Some(n), because)
    }

    fn element(&mut self, n: usize, row: Row) -> Answer<Object> {
        let program = self.layout.program;
        let array = self.find(row.a())?;
        let index = self.value(row.b())?;
        let declared = program.types[program.type_of(row.a())];
        match usize::try_from(index).ok().filter(|index| *index < declared.b()) {
            Some(index) => {
                let dynamic = declared.a();
                Ok(Object { address: array.address + index * program.size(dynamic), dynamic })
            }
            None => {
                let last = declared.b() - 1;
                trapped(trap::INDEX, Some(n), format!("the index is {index}, the array has elements 0 to {last}"))
            }
        }
    }

    /// A scalar as its cell would hold it.
    fn value(&mut self, n: usize) -> Answer<i64> {
        let row = self.layout.program.nodes[n];
        match row.kind {
            CONSTANT => Ok(constant(row)),
            VARIABLE | FIELD | ELEMENT | GUARD => {
                let object = self.find(n)?;
                let value = self.cell(object.address)?;
                self.taken.push((n, value));
                Ok(value)
            }
            DYADIC => self.dyadic(n, row),
            MONADIC => self.monadic(n, row),
            TYPE_TEST => {
                let object = self.variable(row.a())?;
                Ok(self.layout.program.extends(object.dynamic, row.b()).into())
            }
            kind => Err(Stop::Stuck(format!("node {n} of kind {kind} has no value"))),
        }
    }

    /// & and OR skip the right operand where the left decides.
    fn dyadic(&mut self, n: usize, row: Row) -> Answer<i64> {
        let x = self.value(row.a())?;
        if (row.c == 13 && x == 0) || (row.c == 14 && x == 1) {
            return Ok(x);
        }
        let y = self.value(row.b())?;
        if self.layout.program.type_of(row.a()) == SET && row.c <= 6 {
            return of_sets(row.c, x, y);
        }
        let in_range = |result: i64| in_range(n, result, || format!("{x} and {y} give {result}"));
        match row.c {
            1 => in_range(x + y),
            2 => in_range(x - y),
            3 => in_range(x * y),
            4 | 5 if y == 0 => trapped(trap::DIVISOR, Some(n), format!("the divisor of {x} is 0")),
            4 => in_range(quotient(x, y)),
            5 => Ok(x - quotient(x, y) * y),
            7 => Ok((x == y).into()),
            8 => Ok((x != y).into()),
            9 => Ok((x < y).into()),
            10 => Ok((x <= y).into()),
            11 => Ok((x > y).into()),
            12 => Ok((x >= y).into()),
            13 | 14 => Ok(y),
            15 if is_element(x) => Ok(y >> x & 1),
            15 => trapped(trap::SET_ELEMENT, Some(n), format!("the element is {x}, a SET has elements 0 to 31")),
            16 if is_element(x) && is_element(y) => Ok((x..=y).map(|element| 1 << element).sum()),
            16 => {
                let because = format!("the bounds are {x} and {y}, a SET has elements 0 to 31");
                trapped(trap::SET_ELEMENT, Some(n), because)
            }
            operator => Err(Stop::Stuck(format!("node {n} has operator {operator}"))),
        }
    }

    fn monadic(&mut self, n: usize, row: Row) -> Answer<i64> {
        let x = self.value(row.a())?;
        match row.c {
            1 if self.layout.program.type_of(row.a()) == SET => Ok(!x & i64::from(u32::MAX)),
            1 => in_range(n, -x, || format!("{x} gives {}", -x)),
            _ => Ok(1 - x),
        }
    }

    /// The number of a cell below top.
    fn cell(&self, address: usize) -> Answer<i64> {
        let below = &self.before.cells[..self.before.numbers.top as usize];
        below.get(address).copied().ok_or_else(|| Stop::Stuck(format!("there is no cell {address}")))
    }

    /// The values that were taken in an expression, each once.
    fn values_below(&self, node: Option<usize>) -> Vec<String> {
        let mut below = Vec::new();
        let mut next: Vec<usize> = node.into_iter().collect();
        while let Some(node) = next.pop() {
            below.push(node);
            next.extend(children(self.layout.tables[listing::NODES][node]));
        }
        let mut values = Vec::new();
        for (node, value) in self.taken.iter().filter(|(node, _)| below.contains(node)) {
            let t = self.layout.program.type_of(*node);
            let words = self.layout.node(self.before.numbers.row as usize, *node);
            let told = format!("{words} = {}", value_words(t, *value));
            if !values.contains(&told) {
                values.push(told);
            }
        }
        values
    }
}

fn constant(row: Row) -> i64 {
    let number = u32::from(row.b) << 16 | u32::from(row.c);
    if row.a() == SET {
        number.into()
    } else {
        (number as i32).into()
    }
}

fn of_sets(operator: u16, x: i64, y: i64) -> Answer<i64> {
    match operator {
        1 => Ok(x | y),
        2 => Ok(x & !y),
        3 => Ok(x & y),
        6 => Ok(x ^ y),
        _ => Err(Stop::Stuck(format!("SETs have no operator {operator}"))),
    }
}

fn in_range(node: usize, result: i64, told: impl FnOnce() -> String) -> Answer<i64> {
    if i32::try_from(result).is_ok() {
        return Ok(result);
    }
    trapped(trap::OVERFLOW, Some(node), format!("{}, an INTEGER is {} to {}", told(), i32::MIN, i32::MAX))
}

/// DIV rounds down, for negative divisors too.
fn quotient(x: i64, y: i64) -> i64 {
    if y < 0 {
        (-x).div_euclid(-y)
    } else {
        x.div_euclid(y)
    }
}

fn is_element(x: i64) -> bool {
    (0..32).contains(&x)
}
