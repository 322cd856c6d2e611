//! Values, operators and their traps.

use crate::image::Row;
use crate::machine::Cell;
use crate::types::{Kind, BOOLEAN, INTEGER};

/// "Traps: 1 index; 2 guard; .. 10 HALT."
pub mod trap {
    pub const INDEX: u32 = 1;
    pub const GUARD: u32 = 2;
    pub const RECORD_TARGET: u32 = 3;
    pub const OVERFLOW: u32 = 4;
    pub const DIVISOR: u32 = 5;
    pub const SET_ELEMENT: u32 = 6;
    pub const FRAME: u32 = 7;
    pub const INPUT_USED_UP: u32 = 8;
    pub const OUTPUT_FULL: u32 = 9;
    pub const HALT: u32 = 10;
}

/// Why there is no value and no object.
#[derive(Clone, Debug, PartialEq, Eq)]
pub enum Stop {
    Trap { trap: u32, halt: i32 },
    Stuck(String),
}

/// "Evaluation gives a value of a scalar kind or a trap, or is stuck."
pub type Answer<T> = Result<T, Stop>;

pub(crate) fn trapped<T>(trap: u32) -> Answer<T> {
    Err(Stop::Trap { trap, halt: 0 })
}

#[cold]
pub(crate) fn stuck<T>(why: impl FnOnce() -> String) -> Answer<T> {
    Err(Stop::Stuck(why()))
}

/// "a value of a scalar kind"
#[derive(Clone, Copy, Debug, PartialEq, Eq)]
pub enum Value {
    Boolean(bool),
    Integer(i32),
    Set(u32),
}

impl Value {
    pub(crate) fn cell(self) -> Cell {
        match self {
            Value::Boolean(x) => Cell::new(Kind::Boolean, i64::from(x)),
            Value::Integer(x) => Cell::new(Kind::Integer, i64::from(x)),
            Value::Set(x) => Cell::new(Kind::Set, i64::from(x)),
        }
    }

    /// What a cell that `has` this scalar kind holds.
    pub(crate) fn of(kind: Kind, number: i64) -> Answer<Value> {
        match kind {
            Kind::Boolean => Ok(Value::Boolean(number != 0)),
            Kind::Integer => Ok(Value::Integer(number as i32)),
            Kind::Set => Ok(Value::Set(number as u32)),
            _ => stuck(|| format!("no value is of kind {kind:?}")),
        }
    }
}

/// "0 constant: a type (0 to 2); b × 65,536 + c is the value, two's complement for INTEGER".
pub(crate) fn constant(node: &Row) -> Answer<Value> {
    let number = u32::from(node.b) << 16 | u32::from(node.c);
    match node.a() {
        BOOLEAN => Ok(Value::Boolean(number == 1)),
        INTEGER => Ok(Value::Integer(number as i32)),
        _ => Ok(Value::Set(number)),
    }
}

/// "5 dyadic a, b, operator c: 1 +, 2 −, 3 *, 4 DIV, 5 MOD, 6 /, 7 =, 8 #, 9 <, 10 <=, 11 >, 12 >=, 13 &, 14 OR, 15 IN,
/// 16 range."
pub(crate) fn dyadic(operator: u16, x: Value, y: Value) -> Answer<Value> {
    use Value::{Boolean, Integer, Set};
    match (operator, x, y) {
        (1, Integer(x), Integer(y)) => in_range(i64::from(x) + i64::from(y)),
        (2, Integer(x), Integer(y)) => in_range(i64::from(x) - i64::from(y)),
        (3, Integer(x), Integer(y)) => in_range(i64::from(x) * i64::from(y)),
        // "5 divisor zero"
        (4 | 5, Integer(_), Integer(0)) => trapped(trap::DIVISOR),
        // "−2147483648 DIV −1 gives trap 4, and its MOD is 0."
        (4, Integer(x), Integer(y)) => in_range(quotient(x.into(), y.into())),
        (5, Integer(x), Integer(y)) => in_range(remainder(x.into(), y.into())),
        // "union, difference, intersection, symmetric difference"
        (1, Set(x), Set(y)) => Ok(Set(x | y)),
        (2, Set(x), Set(y)) => Ok(Set(x & !y)),
        (3, Set(x), Set(y)) => Ok(Set(x & y)),
        (6, Set(x), Set(y)) => Ok(Set(x ^ y)),
        (7 | 8, Boolean(x), Boolean(y)) => Ok(Boolean((x == y) == (operator == 7))),
        (7 | 8, Integer(x), Integer(y)) => Ok(Boolean((x == y) == (operator == 7))),
        (7 | 8, Set(x), Set(y)) => Ok(Boolean((x == y) == (operator == 7))),
        (9, Integer(x), Integer(y)) => Ok(Boolean(x < y)),
        (10, Integer(x), Integer(y)) => Ok(Boolean(x <= y)),
        (11, Integer(x), Integer(y)) => Ok(Boolean(x > y)),
        (12, Integer(x), Integer(y)) => Ok(Boolean(x >= y)),
        (13, Boolean(x), Boolean(y)) => Ok(Boolean(x && y)),
        (14, Boolean(x), Boolean(y)) => Ok(Boolean(x || y)),
        // "IN with an element outside 0 to 31 now gives trap 6, after both operands are found."
        (15, Integer(x), Set(y)) => Ok(Boolean(y >> set_element(x)? & 1 == 1)),
        (16, Integer(x), Integer(y)) => range(x, y),
        _ => stuck(|| format!("no rule for operator {operator} on {x:?} and {y:?}")),
    }
}

/// "6 monadic a, operator c: 1 −, 2 ~."
pub(crate) fn monadic(operator: u16, x: Value) -> Answer<Value> {
    match (operator, x) {
        (1, Value::Integer(x)) => in_range(-i64::from(x)),
        (1, Value::Set(x)) => Ok(Value::Set(!x)),
        (2, Value::Boolean(x)) => Ok(Value::Boolean(!x)),
        _ => stuck(|| format!("no rule for monadic operator {operator} on {x:?}")),
    }
}

/// "4 INTEGER overflow"
fn in_range(x: i64) -> Answer<Value> {
    i32::try_from(x).map_or_else(|_| trapped(trap::OVERFLOW), |x| Ok(Value::Integer(x)))
}

/// "DIV rounds down". `/` rounds toward zero: that is up where something remains and the signs differ.
fn quotient(x: i64, y: i64) -> i64 {
    let rounded_up = x % y != 0 && (x < 0) != (y < 0);
    x / y - i64::from(rounded_up)
}

/// "x = (x DIV y) × y + (x MOD y) with 0 ≤ x MOD y < y, for a negative divisor y < x MOD y ≤ 0."
fn remainder(x: i64, y: i64) -> i64 {
    x - quotient(x, y) * y
}

/// "Range a..b with a > b, both bounds in 0 to 31, is empty."
fn range(a: i32, b: i32) -> Answer<Value> {
    let (a, b) = (set_element(a)?, set_element(b)?);
    Ok(Value::Set((a..=b).fold(0, |set, i| set | 1 << i)))
}

/// "SET has bit i for element i, 0 to 31"; trap "6 range bound or element of IN outside 0 to 31".
fn set_element(x: i32) -> Answer<i32> {
    if (0..=31).contains(&x) {
        Ok(x)
    } else {
        trapped(trap::SET_ELEMENT)
    }
}
