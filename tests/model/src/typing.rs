//! Type rules. Questions 10 and 11.

use crate::image::Row;
use crate::program::*;
use crate::types::{BOOLEAN, INTEGER, SET};
use crate::words::{counted, dyadic_operator, monadic_operator, node_kind, type_row, variable_kind};
use crate::{ask, rules, Fault};

/// "Has each node a type?"
pub(crate) fn question_10(program: &mut Program) -> Result<(), Fault> {
    for n in 0..program.nodes.len() {
        let t = node_type(program, n, &program.nodes[n])?;
        program.node_types.push(t);
    }
    Ok(())
}

/// The type of a node whose children have theirs.
fn node_type(program: &Program, n: usize, row: &Row) -> Result<usize, Fault> {
    match row.kind {
        CONSTANT => Ok(row.a()),
        VARIABLE => Ok(program.variables[row.a()].a()),
        FIELD => field_type(program, n, row),
        ELEMENT => element_type(program, n, row),
        GUARD => ask_guarded(program, n, row).map(|()| row.b()),
        DYADIC => dyadic_type(program, n, row),
        MONADIC => monadic_type(program, n, row),
        TYPE_TEST => ask_guarded(program, n, row).map(|()| BOOLEAN),
        _ => Ok(program.type_of(row.a())),
    }
}

/// "A field exists": "2 field b (base's fields counted first) of a".
fn field_type(program: &Program, n: usize, row: &Row) -> Result<usize, Fault> {
    let of = program.type_of(row.a());
    ask(program.is_record(of), &rules::FIELD_OF_RECORD, n, || {
        format!("node {n} is a field of node {}, whose type {} is no record", row.a, type_row(of))
    })?;
    let fields = program.fields_of(of);
    ask(row.b() < fields.len(), &rules::FIELD_EXISTS, n, || {
        format!("node {n} is field {} of type {of}, which has {}", row.b, counted(fields.len(), "field"))
    })?;
    Ok(fields[row.b()].t)
}

/// "an index is INTEGER": "3 element of a at b".
fn element_type(program: &Program, n: usize, row: &Row) -> Result<usize, Fault> {
    let (of, index) = (program.type_of(row.a()), program.type_of(row.b()));
    ask(program.is_array(of), &rules::ELEMENT_OF_ARRAY, n, || {
        format!("node {n} is an element of node {}, whose type {} is no array", row.a, type_row(of))
    })?;
    ask(index == INTEGER, &rules::INDEX_INTEGER, n, || {
        format!("node {n} has the index node {}, whose type is {}", row.b, type_row(index))
    })?;
    Ok(program.types[of].a())
}

/// "Guard and test need a VAR parameter of record type and a type that extends it".
fn ask_guarded(program: &Program, n: usize, row: &Row) -> Result<(), Fault> {
    let variable = &program.variables[row.a()];
    ask(variable.kind == VAR_PARAMETER, &rules::GUARDED_PARAMETER, n, || {
        format!("node {n} names variable {}, which is of kind {}", row.a, variable_kind(variable.kind))
    })?;
    ask(program.is_record(variable.a()), &rules::GUARDED_RECORD, n, || {
        format!("node {n} names variable {}, whose type {} is no record", row.a, type_row(variable.a()))
    })?;
    ask(program.extends(row.b(), variable.a()), &rules::GUARD_EXTENDS, n, || {
        let named = type_row(row.b());
        format!("node {n} names type {named}, which does not extend variable {}'s type {}", row.a, variable.a)
    })
}

/// "Operators 1 to 5 take INTEGER; 1, 2, 3, 6 also SET .. 7, 8 take two of one scalar type; 9 to 12 INTEGER; 13, 14, ~
/// BOOLEAN. IN takes INTEGER, SET; range takes INTEGER twice and yields SET."
fn dyadic_type(program: &Program, n: usize, row: &Row) -> Result<usize, Fault> {
    let (x, y) = (program.type_of(row.a()), program.type_of(row.b()));
    let integers = (x, y) == (INTEGER, INTEGER);
    let sets = (x, y) == (SET, SET);
    let (good, rule, yields) = match row.c {
        1..=3 => (integers || sets, &rules::PLUS_MINUS_TIMES, x),
        4 | 5 => (integers, &rules::DIV_MOD, INTEGER),
        6 => (sets, &rules::SLASH, SET),
        7 | 8 => (x == y && program.is_scalar(x), &rules::EQUALITY, BOOLEAN),
        9..=12 => (integers, &rules::ORDER, BOOLEAN),
        13 | 14 => ((x, y) == (BOOLEAN, BOOLEAN), &rules::AND_OR, BOOLEAN),
        15 => ((x, y) == (INTEGER, SET), &rules::IN, BOOLEAN),
        _ => (integers, &rules::RANGE, SET),
    };
    ask(good, rule, n, || {
        let (operator, x, y) = (dyadic_operator(row.c), type_row(x), type_row(y));
        format!("node {n} has operator {operator} with operands of types {x} and {y}")
    })?;
    Ok(yields)
}

/// "Monadic − takes INTEGER or SET (complement)", "~ BOOLEAN".
fn monadic_type(program: &Program, n: usize, row: &Row) -> Result<usize, Fault> {
    let x = program.type_of(row.a());
    let (good, rule) = match row.c {
        1 => (x == INTEGER || x == SET, &rules::MONADIC_MINUS),
        _ => (x == BOOLEAN, &rules::NOT),
    };
    ask(good, rule, n, || {
        let (operator, x) = (monadic_operator(row.c), type_row(x));
        format!("node {n} has monadic operator {operator} with an operand of type {x}")
    })?;
    Ok(x)
}

/// "Does each statement keep its type and variable rules?"
pub(crate) fn question_11(program: &Program) -> Result<(), Fault> {
    for (s, row) in program.statements.iter().enumerate() {
        ask_own_variables(program, s)?;
        match row.kind {
            ASSIGN => ask_assignment(program, s, row)?,
            CALL => ask_arguments(program, s, row)?,
            JUMP_IF_FALSE => ask_type(program, s, row, BOOLEAN, &rules::CONDITION_TYPE)?,
            READ => ask_type(program, s, row, INTEGER, &rules::READ_TYPE)?,
            WRITE => ask_type(program, s, row, INTEGER, &rules::WRITE_TYPE)?,
            HALT => ask_halt(program, s, row)?,
            _ => {}
        }
    }
    Ok(())
}

/// "Variables are global or the procedure's own": of every node below the statement that names a variable.
fn ask_own_variables(program: &Program, s: usize) -> Result<(), Fault> {
    let own = program.procedure_at(s);
    let mut below: Vec<usize> = program.named_by(s).collect();
    while let Some(n) = below.pop() {
        let row = &program.nodes[n];
        if let VARIABLE | GUARD | TYPE_TEST = row.kind {
            let owner = program.owner(row.a());
            ask(owner.is_none_or(|owner| owner == own), &rules::OWN_VARIABLES, s, || {
                let of = owner.unwrap_or_default();
                format!("statement {s} of procedure {own} uses variable {} of procedure {of} in node {n}", row.a)
            })?;
        }
        below.extend(program.children(n));
    }
    Ok(())
}

/// "Assigning or passing by value: same type, or source record extends target record."
fn ask_assignment(program: &Program, s: usize, row: &Row) -> Result<(), Fault> {
    let (target, source) = (program.type_of(row.a()), program.type_of(row.b()));
    ask(program.extends(source, target), &rules::ASSIGNED_TYPE, s, || {
        format!("statement {s} assigns type {} to type {}", type_row(source), type_row(target))
    })
}

/// "A VAR argument is a designator of the same type or, for records, an extension."
fn ask_arguments(program: &Program, s: usize, row: &Row) -> Result<(), Fault> {
    for (n, v) in program.named_by(s).zip(program.parameters(row.a())) {
        let (parameter, held) = (&program.variables[v], program.nodes[n].a());
        let by_var = parameter.kind == VAR_PARAMETER;
        ask(!by_var || program.is_designator(held), &rules::VAR_ARGUMENT_DESIGNATOR, s, || {
            let kind = node_kind(program.nodes[held].kind);
            format!("statement {s} passes node {held}, which is of kind {kind}, to variable {v}, a VAR parameter")
        })?;
        let rule = if by_var { &rules::VAR_ARGUMENT_TYPE } else { &rules::VALUE_ARGUMENT_TYPE };
        let t = program.type_of(n);
        ask(program.extends(t, parameter.a()), rule, s, || {
            let (t, needed) = (type_row(t), type_row(parameter.a()));
            format!("statement {s} passes node {held} of type {t} to variable {v}, a parameter of type {needed}")
        })?;
    }
    Ok(())
}

/// "Condition BOOLEAN; read and write INTEGER".
fn ask_type(program: &Program, s: usize, row: &Row, needed: usize, rule: &'static rules::Rule) -> Result<(), Fault> {
    let t = program.type_of(row.a());
    ask(t == needed, rule, s, || format!("statement {s} has node {} of type {}", row.a, type_row(t)))
}

/// "HALT an INTEGER node of kind 0."
fn ask_halt(program: &Program, s: usize, row: &Row) -> Result<(), Fault> {
    let kind = program.nodes[row.a()].kind;
    ask(kind == CONSTANT, &rules::HALT_CONSTANT, s, || {
        format!("statement {s} halts with node {}, which is of kind {}", row.a, node_kind(kind))
    })?;
    ask_type(program, s, row, INTEGER, &rules::HALT_TYPE)
}
