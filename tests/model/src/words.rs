//! Numbers with their names, and counts: the words of a fault's detail.

const SCALARS: [&str; 3] = ["BOOLEAN", "INTEGER", "SET"];
const VARIABLES: [&str; 4] = ["global", "local", "value parameter", "VAR parameter"];
const NODES: [&str; 9] =
    ["constant", "variable", "field", "element", "guard", "dyadic", "monadic", "type test", "argument"];
const STATEMENTS: [&str; 8] = ["assign", "call", "jump if FALSE", "jump", "RETURN", "read", "write", "HALT"];
const DYADIC: [&str; 16] = ["+", "-", "*", "DIV", "MOD", "/", "=", "#", "<", "<=", ">", ">=", "&", "OR", "IN", ".."];
const MONADIC: [&str; 2] = ["-", "~"];

/// "1 row", "2 rows".
pub fn counted(count: usize, noun: &str) -> String {
    format!("{count} {noun}{}", if count == 1 { "" } else { "s" })
}

/// A number and, where it has one, its name: "1 (INTEGER)".
fn named(number: usize, name: Option<&&str>) -> String {
    name.map_or_else(|| number.to_string(), |name| format!("{number} ({name})"))
}

pub(crate) fn type_row(row: usize) -> String {
    named(row, SCALARS.get(row))
}

pub(crate) fn variable_kind(kind: u8) -> String {
    named(kind.into(), VARIABLES.get(usize::from(kind)))
}

pub(crate) fn node_kind(kind: u8) -> String {
    named(kind.into(), NODES.get(usize::from(kind)))
}

pub(crate) fn statement_kind(kind: u8) -> String {
    named(kind.into(), STATEMENTS.get(usize::from(kind)))
}

/// Operators count from 1.
pub(crate) fn dyadic_operator(operator: u16) -> String {
    named(operator.into(), DYADIC.get(usize::from(operator).wrapping_sub(1)))
}

pub(crate) fn monadic_operator(operator: u16) -> String {
    named(operator.into(), MONADIC.get(usize::from(operator).wrapping_sub(1)))
}
