//! Variables, procedures, nodes and statements: are they well formed, and do the rows exist that they name?
//! Questions 5 to 9.

use crate::image::Row;
use crate::program::*;
use crate::rules::{self, Rule};
use crate::types::{BOOLEAN, SET};
use crate::words::{counted, node_kind, statement_kind, variable_kind};
use crate::{ask, Fault};

/// "Does each variable row keep its form, type row existing, no global after another kind?"
pub(crate) fn question_5(program: &Program) -> Result<(), Fault> {
    let globals = program.global_count();
    for (v, row) in program.variables.iter().enumerate() {
        ask(row.kind <= VAR_PARAMETER, &rules::VARIABLE_KIND, v, || format!("variable {v} is of kind {}", row.kind))?;
        ask(row.zero == 0, &rules::VARIABLE_ZERO_BYTE, v, || format!("variable {v} has the second byte {}", row.zero))?;
        ask((row.b, row.c) == (0, 0), &rules::VARIABLE_UNUSED, v, || {
            format!("variable {v} has b {}, c {}", row.b, row.c)
        })?;
        ask(row.a() < program.types.len(), &rules::VARIABLE_TYPE, v, || {
            format!("variable {v} is of type {}, the type table has {} rows", row.a, program.types.len())
        })?;
        ask(row.kind != GLOBAL || v < globals, &rules::GLOBALS_FIRST, v, || {
            format!("variable {v} is a global, variable {globals} is not")
        })?;
    }
    Ok(())
}

/// "Does each procedure row keep its rule? (Empty body: its own row. Unclaimed variable: row = procedure count.)"
pub(crate) fn question_6(program: &Program) -> Result<(), Fault> {
    let mut unused_variable = program.global_count();
    for (p, row) in program.procedures.iter().enumerate() {
        ask(row.kind == 0, &rules::PROCEDURE_KIND, p, || format!("procedure {p} is of kind {}", row.kind))?;
        ask(row.zero == 0, &rules::PROCEDURE_ZERO_BYTE, p, || {
            format!("procedure {p} has the second byte {}", row.zero)
        })?;
        body_rule(program, p, row)?;
        unused_variable = variables_rule(program, p, row, unused_variable)?;
    }
    let all = program.variables.len();
    ask(unused_variable == all, &rules::VARIABLE_CLAIMED, program.procedures.len(), || {
        format!("globals and procedures claim {unused_variable} of {}", counted(all, "variable row"))
    })
}

/// "A body is nonempty and ends where the next begins; the first begins at 0, the last ends with the table. Procedure 0
/// is the module body: no parameters".
fn body_rule(program: &Program, p: usize, row: &Row) -> Result<(), Fault> {
    if p == 0 {
        ask(row.a == 0, &rules::MODULE_BODY_START, p, || format!("procedure 0 begins at statement {}", row.a))?;
        ask(row.b == 0, &rules::MODULE_BODY_PARAMETERS, p, || {
            format!("procedure 0 has {}", counted(row.b(), "parameter"))
        })?;
    }
    let all = program.statements.len();
    ask(row.a() < all, &rules::BODY_START, p, || {
        format!("procedure {p} begins at statement {}, the statement table has {}", row.a, counted(all, "row"))
    })?;
    ask(!program.body(p).is_empty(), &rules::BODY_NOT_EMPTY, p, || {
        format!("procedure {p} begins at statement {}, the next at {}", row.a, program.body(p).end)
    })
}

/// "Procedures use up the remaining variables in order, parameters before locals." The next unused variable row.
fn variables_rule(program: &Program, p: usize, row: &Row, first: usize) -> Result<usize, Fault> {
    let (locals, end, all) = (first + row.b(), first + row.b() + row.c(), program.variables.len());
    ask(end <= all, &rules::ENOUGH_VARIABLES, p, || {
        let (count, all) = (counted(end - first, "variable"), counted(all, "row"));
        format!("procedure {p} has {count} from variable {first} on, the variable table has {all}")
    })?;
    for v in first..end {
        let kind = program.variables[v].kind;
        let (good, rule) = match v < locals {
            true => (kind == VALUE_PARAMETER || kind == VAR_PARAMETER, &rules::PARAMETER_KIND),
            false => (kind == LOCAL, &rules::LOCAL_KIND),
        };
        ask(good, rule, p, || format!("variable {v} of procedure {p} is of kind {}", variable_kind(kind)))?;
    }
    Ok(end)
}

/// "Is each node well formed, its rows existing?"
pub(crate) fn question_7(program: &Program) -> Result<(), Fault> {
    (0..program.nodes.len()).try_for_each(|n| node_form(program, n, &program.nodes[n]))
}

fn node_form(program: &Program, n: usize, row: &Row) -> Result<(), Fault> {
    ask(row.kind <= ARGUMENT, &rules::NODE_KIND, n, || format!("node {n} is of kind {}", row.kind))?;
    ask(row.zero == 0, &rules::NODE_ZERO_BYTE, n, || format!("node {n} has the second byte {}", row.zero))?;
    ask_unused(node_unused(row), &rules::NODE_UNUSED, n, row, || format!("node {n} of kind {}", node_kind(row.kind)))?;
    match row.kind {
        CONSTANT => constant_form(n, row)?,
        VARIABLE => ask_variable(program, n, row)?,
        GUARD | TYPE_TEST => {
            ask_variable(program, n, row)?;
            ask(row.b() < program.types.len(), &rules::NODE_TYPE, n, || {
                format!("node {n} names type {}, the type table has {} rows", row.b, program.types.len())
            })?;
        }
        _ => {}
    }
    program.children(n).try_for_each(|child| ask_child(program, n, child))?;
    match row.kind {
        FIELD | ELEMENT => ask(program.is_designator(row.a()), &rules::PART_OF_DESIGNATOR, n, || {
            let kind = node_kind(program.nodes[row.a()].kind);
            format!("node {n} is part of node {}, which is of kind {kind}", row.a)
        }),
        DYADIC => ask((1..=16).contains(&row.c), &rules::DYADIC_OPERATOR, n, || {
            format!("node {n} has the dyadic operator {}", row.c)
        }),
        MONADIC => ask((1..=2).contains(&row.c), &rules::MONADIC_OPERATOR, n, || {
            format!("node {n} has the monadic operator {}", row.c)
        }),
        _ => Ok(()),
    }
}

/// "A number without a use below is 0." What a node's kind has no use for, with 0 for what it uses.
fn node_unused(row: &Row) -> [u16; 3] {
    match row.kind {
        VARIABLE | ARGUMENT => [0, row.b, row.c],
        FIELD | ELEMENT | GUARD | TYPE_TEST => [0, 0, row.c],
        MONADIC => [0, row.b, 0],
        _ => [0, 0, 0],
    }
}

fn ask_unused(
    unused: [u16; 3],
    rule: &'static Rule,
    at: usize,
    row: &Row,
    what: impl FnOnce() -> String,
) -> Result<(), Fault> {
    ask(unused == [0, 0, 0], rule, at, || format!("{} has a {}, b {}, c {}", what(), row.a, row.b, row.c))
}

/// "0 constant: a type (0 to 2); b × 65,536 + c is the value, two's complement for INTEGER, 0 or 1 for BOOLEAN."
fn constant_form(n: usize, row: &Row) -> Result<(), Fault> {
    ask(row.a() <= SET, &rules::CONSTANT_TYPE, n, || format!("node {n} is a constant of type {}", row.a))?;
    ask(row.a() != BOOLEAN || (row.b == 0 && row.c <= 1), &rules::BOOLEAN_CONSTANT, n, || {
        format!("node {n} is a BOOLEAN constant with b {}, c {}", row.b, row.c)
    })
}

fn ask_variable(program: &Program, n: usize, row: &Row) -> Result<(), Fault> {
    let all = program.variables.len();
    ask(row.a() < all, &rules::NODE_VARIABLE, n, || {
        format!("node {n} names variable {}, the variable table has {}", row.a, counted(all, "row"))
    })
}

/// "Children have lower rows and are not of kind 8."
fn ask_child(program: &Program, n: usize, child: usize) -> Result<(), Fault> {
    let all = program.nodes.len();
    ask(child < all, &rules::CHILD_EXISTS, n, || {
        format!("node {n} names node {child}, the node table has {}", counted(all, "row"))
    })?;
    ask(child < n, &rules::CHILD_LOWER, n, || format!("node {n} names node {child}, which is not lower"))?;
    ask(program.nodes[child].kind != ARGUMENT, &rules::CHILD_NO_ARGUMENT, n, || {
        format!("node {n} names node {child}, which is an argument")
    })
}

/// "Is each statement well formed, its rows existing?"
pub(crate) fn question_8(program: &Program) -> Result<(), Fault> {
    (0..program.statements.len()).try_for_each(|s| statement_form(program, s, &program.statements[s]))
}

fn statement_form(program: &Program, s: usize, row: &Row) -> Result<(), Fault> {
    ask(row.kind <= HALT, &rules::STATEMENT_KIND, s, || format!("statement {s} is of kind {}", row.kind))?;
    ask(row.zero == 0, &rules::STATEMENT_ZERO_BYTE, s, || format!("statement {s} has the second byte {}", row.zero))?;
    ask_unused(statement_unused(row), &rules::STATEMENT_UNUSED, s, row, || {
        format!("statement {s} of kind {}", statement_kind(row.kind))
    })?;
    match row.kind {
        CALL => call_form(program, s, row)?,
        _ => program.named_by(s).try_for_each(|n| ask_named(program, s, n))?,
    }
    if let ASSIGN | READ = row.kind {
        ask(program.is_designator(row.a()), &rules::TARGET_DESIGNATOR, s, || {
            let kind = node_kind(program.nodes[row.a()].kind);
            format!("statement {s} has the target node {}, which is of kind {kind}", row.a)
        })?;
    }
    let body = program.body(program.procedure_at(s));
    if let JUMP_IF_FALSE | JUMP = row.kind {
        ask(body.contains(&row.b()), &rules::JUMP_TARGET, s, || {
            format!("statement {s} goes to {}, its body is {} to {}", row.b, body.start, body.end - 1)
        })?;
    }
    ask(s + 1 < body.end || matches!(row.kind, JUMP | RETURN | HALT), &rules::BODY_END, s, || {
        format!("statement {s} is the last of its body and of kind {}", statement_kind(row.kind))
    })
}

/// "A number without a use below is 0." What a statement's kind has no use for, with 0 for what it uses.
fn statement_unused(row: &Row) -> [u16; 3] {
    match row.kind {
        ASSIGN | CALL | JUMP_IF_FALSE => [0, 0, row.c],
        JUMP => [row.a, 0, row.c],
        RETURN => [row.a, row.b, row.c],
        _ => [0, row.b, row.c],
    }
}

/// "Only calls name kind 8."
fn ask_named(program: &Program, s: usize, n: usize) -> Result<(), Fault> {
    let all = program.nodes.len();
    ask(n < all, &rules::STATEMENT_NODE, s, || {
        format!("statement {s} names node {n}, the node table has {}", counted(all, "row"))
    })?;
    ask(program.nodes[n].kind != ARGUMENT, &rules::ONLY_CALLS_NAME_ARGUMENTS, s, || {
        let kind = statement_kind(program.statements[s].kind);
        format!("statement {s} of kind {kind} names node {n}, which is an argument")
    })
}

/// "1 call procedure a, not 0; its arguments are node rows b onward, one kind 8 per parameter (b is 0 without any)."
fn call_form(program: &Program, s: usize, row: &Row) -> Result<(), Fault> {
    let (p, first) = (row.a(), row.b());
    ask(p < program.procedures.len(), &rules::CALLED_PROCEDURE, s, || {
        let all = counted(program.procedures.len(), "row");
        format!("statement {s} calls procedure {p}, the procedure table has {all}")
    })?;
    ask(p != 0, &rules::MODULE_BODY_CALLED, s, || format!("statement {s} calls procedure 0"))?;
    let count = program.procedures[p].b();
    ask(count != 0 || first == 0, &rules::NO_ARGUMENTS, s, || {
        format!("statement {s} calls procedure {p}, which has no parameters, with b {first}")
    })?;
    let all = program.nodes.len();
    ask(first + count <= all, &rules::ARGUMENTS_EXIST, s, || {
        let (count, all) = (counted(count, "argument"), counted(all, "row"));
        format!("statement {s} has {count} from node {first} on, the node table has {all}")
    })?;
    for n in first..first + count {
        let kind = program.nodes[n].kind;
        ask(kind == ARGUMENT, &rules::ARGUMENT_KIND, s, || {
            format!("statement {s} has the argument node {n}, which is of kind {}", node_kind(kind))
        })?;
    }
    Ok(())
}

/// "Is each node named exactly once, by a node or statement?"
pub(crate) fn question_9(program: &Program) -> Result<(), Fault> {
    let mut names = vec![0u32; program.nodes.len()];
    for n in 0..program.nodes.len() {
        program.children(n).for_each(|child| names[child] += 1);
    }
    for s in 0..program.statements.len() {
        program.named_by(s).for_each(|n| names[n] += 1);
    }
    for (n, &count) in names.iter().enumerate() {
        ask(count > 0, &rules::NAMED_NEVER, n, || format!("node {n} is named by no node and no statement"))?;
        ask(count < 2, &rules::NAMED_TWICE, n, || format!("node {n} is named {count} times"))?;
    }
    Ok(())
}
