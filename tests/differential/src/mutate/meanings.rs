//! Damage that keeps a row's form and changes what it means, for the questions that are asked last.

use crate::image::row;
use crate::random::Random;
use listing::{Row, Tables, FIELDS, NODES, PROCEDURES, STATEMENTS, TYPES, VARIABLES};

type Mistake = fn(&mut Random, &mut Tables);

const MISTAKES: [Mistake; 34] = [
    other_constant_type,
    other_variable,
    other_variable,
    variable_of_the_same_type,
    leaf_to_constant,
    leaf_to_constant,
    constant_to_variable,
    other_operator,
    other_operator,
    operand_of_another_type,
    operand_of_another_type,
    operand_of_another_type,
    other_type,
    other_field,
    other_child,
    swap_names,
    swap_names,
    named_often,
    other_variable_type,
    other_field_type,
    other_call,
    other_call,
    shared_arguments,
    shared_arguments,
    fewer_parameters,
    other_element,
    compared_objects,
    other_target,
    names_an_argument,
    other_read,
    other_argument,
    guard_of_another_parameter,
    other_body,
    too_large,
];

pub fn damage(random: &mut Random, tables: &mut Tables) {
    if random.chance(100) {
        return halt_of_something(random, tables);
    }
    let mistake = random.pick(&MISTAKES);
    mistake(random, tables);
}

/// A row of the table that is good for something.
fn find(random: &mut Random, rows: &[Row], good: impl Fn(&Row) -> bool) -> Option<usize> {
    let choices: Vec<usize> = (0..rows.len()).filter(|at| good(&rows[*at])).collect();
    random.any(&choices)
}

fn change(random: &mut Random, rows: &mut [Row], good: impl Fn(&Row) -> bool, to: impl FnOnce(&mut Random, &mut Row)) {
    if let Some(at) = find(random, rows, good) {
        to(random, &mut rows[at]);
    }
}

fn any_below(random: &mut Random, count: usize) -> u16 {
    random.below(count.max(1)) as u16
}

fn other_constant_type(random: &mut Random, tables: &mut Tables) {
    change(random, &mut tables[NODES], |node| node.kind == 0, retype);
}

fn retype(random: &mut Random, node: &mut Row) {
    node.a = (node.a % 3 + random.between(1, 2) as u16) % 3;
    if random.chance(800) {
        (node.b, node.c) = (0, node.c % 2);
    }
}

fn names_variable(node: &Row) -> bool {
    matches!(node.kind, 1 | 4 | 7)
}

fn other_variable(random: &mut Random, tables: &mut Tables) {
    let variables = tables[VARIABLES].len();
    let guards = random.chance(500);
    let good = |node: &Row| names_variable(node) && (node.kind != 1 || !guards);
    change(random, &mut tables[NODES], good, |random, node| node.a = any_below(random, variables));
}

/// Mostly that of another procedure.
fn variable_of_the_same_type(random: &mut Random, tables: &mut Tables) {
    let variables = tables[VARIABLES].clone();
    change(random, &mut tables[NODES], names_variable, |random, node| {
        let named = variables.get(node.a as usize).copied();
        let same = |other: &Row| named.is_some_and(|named| other.a == named.a && other.kind != 0);
        if let Some(at) = find(random, &variables, same) {
            node.a = at as u16;
        }
    });
}

/// What is a designator no more: of a target, a VAR argument, or what a field or element is one of.
fn leaf_to_constant(random: &mut Random, tables: &mut Tables) {
    let of_argument = random.chance(500);
    let arguments: Vec<u16> = tables[NODES].iter().filter(|node| node.kind == 8).map(|node| node.a).collect();
    let mut leaves: Vec<usize> = (0..tables[NODES].len()).filter(|at| tables[NODES][*at].kind == 1).collect();
    if of_argument {
        leaves.retain(|at| arguments.contains(&(*at as u16)));
    }
    if let Some(at) = random.any(&leaves) {
        let named = tables[NODES][at].a as usize;
        let ty = tables[VARIABLES].get(named).map_or(0, |variable| variable.a as usize);
        tables[NODES][at] = row(0, ty.min(2), 0, random.below(2));
    }
}

fn constant_to_variable(random: &mut Random, tables: &mut Tables) {
    let variables = tables[VARIABLES].clone();
    change(
        random,
        &mut tables[NODES],
        |node| node.kind == 0,
        |random, node| {
            if let Some(at) = find(random, &variables, |variable| variable.a == node.a) {
                *node = row(1, at, 0, 0);
            }
        },
    );
}

/// The HALT of a body's end or another, with a node that is no INTEGER constant.
fn halt_of_something(random: &mut Random, tables: &mut Tables) {
    let Some(at) = find(random, &tables[STATEMENTS], |statement| matches!(statement.kind, 6 | 7)) else { return };
    tables[STATEMENTS][at].kind = 7;
    let node = tables[STATEMENTS][at].a as usize;
    if node < tables[NODES].len() && random.chance(700) {
        retype(random, &mut tables[NODES][node]);
    }
}

fn other_operator(random: &mut Random, tables: &mut Tables) {
    let kind = random.between(5, 6) as u8;
    change(
        random,
        &mut tables[NODES],
        |node| node.kind == kind,
        |random, node| {
            node.c = match node.kind {
                5 => random.between(0, 17) as u16,
                _ => random.between(0, 3) as u16,
            };
        },
    );
}

/// Of an operator that is picked first, so that each is.
fn operand_of_another_type(random: &mut Random, tables: &mut Tables) {
    let dyadic = random.between(1, 16);
    let (kind, operator) = *random.pick(&[(5, dyadic), (5, dyadic), (5, dyadic), (6, 1), (6, 2), (3, 0)]);
    let good = |node: &Row| node.kind == kind && node.c as usize == operator;
    let Some(at) = find(random, &tables[NODES], good) else { return };
    let node = tables[NODES][at];
    let operand = if kind == 3 || kind == 5 && random.chance(500) { node.b } else { node.a } as usize;
    if operand < at && tables[NODES][operand].kind == 0 {
        retype(random, &mut tables[NODES][operand]);
    } else if operand < at && tables[NODES][operand].kind == 1 {
        tables[NODES][operand].a = any_below(random, tables[VARIABLES].len());
    }
}

/// Of a guard or a test.
fn other_type(random: &mut Random, tables: &mut Tables) {
    let types = tables[TYPES].len();
    let good = |node: &Row| matches!(node.kind, 4 | 7);
    change(random, &mut tables[NODES], good, |random, node| {
        let any = any_below(random, types);
        node.b = *random.pick(&[any, any, any, types as u16, u16::MAX]);
    });
}

fn other_field(random: &mut Random, tables: &mut Tables) {
    change(
        random,
        &mut tables[NODES],
        |node| node.kind == 2,
        |random, node| match random.below(3) {
            0 => node.b = node.b.wrapping_add(1),
            1 => node.b = node.b.wrapping_sub(1),
            _ => *node = row(3, node.a as usize, node.b as usize, 0),
        },
    );
}

fn other_child(random: &mut Random, tables: &mut Tables) {
    let nodes = &mut tables[NODES];
    let good = |node: &Row| matches!(node.kind, 2 | 3 | 5 | 6 | 8);
    if let Some(at) = find(random, nodes, good) {
        let lower = any_below(random, at + 1);
        match matches!(nodes[at].kind, 3 | 5) && random.chance(500) {
            true => nodes[at].b = lower,
            false => nodes[at].a = lower,
        }
    }
}

/// Where a row names a node: its table, its number, and whether it is b.
type Name = (usize, usize, bool);

fn names(tables: &Tables) -> Vec<Name> {
    let mut names = vec![];
    for (at, node) in tables[NODES].iter().enumerate() {
        names.extend(matches!(node.kind, 2 | 3 | 5 | 6 | 8).then_some((NODES, at, false)));
        names.extend(matches!(node.kind, 3 | 5).then_some((NODES, at, true)));
    }
    for (at, statement) in tables[STATEMENTS].iter().enumerate() {
        names.extend(matches!(statement.kind, 0 | 2 | 5 | 6 | 7).then_some((STATEMENTS, at, false)));
        names.extend((statement.kind == 0).then_some((STATEMENTS, at, true)));
    }
    names
}

fn named_at(tables: &mut Tables, (table, at, second): Name) -> &mut u16 {
    let row = &mut tables[table][at];
    if second {
        &mut row.b
    } else {
        &mut row.a
    }
}

/// Two rows take each other's nodes, so that each is still named once; mostly rows that are near each other.
fn swap_names(random: &mut Random, tables: &mut Tables) {
    let names = names(tables);
    if names.len() < 2 {
        return;
    }
    let first = random.below(names.len() - 1);
    let near = (first + random.between(1, 6)).min(names.len() - 1);
    let second = if random.chance(700) { near } else { random.below(names.len()) };
    let (first, second) = (names[first], names[second]);
    let node = *named_at(tables, first);
    let other = std::mem::replace(named_at(tables, second), node);
    *named_at(tables, first) = other;
}

/// A designator is named up to six times, by nodes and statements that named higher ones.
fn named_often(random: &mut Random, tables: &mut Tables) {
    let Some(node) = find(random, &tables[NODES], |node| matches!(node.kind, 1..=4)) else { return };
    let mut names = names(tables);
    names.retain(|name| *named_at(tables, *name) as usize > node);
    for _ in 0..random.between(1, 5) {
        if let Some(name) = random.any(&names) {
            *named_at(tables, name) = node as u16;
        }
    }
}

fn other_variable_type(random: &mut Random, tables: &mut Tables) {
    let types = tables[TYPES].len();
    change(
        random,
        &mut tables[VARIABLES],
        |_| true,
        |random, variable| match random.below(4) {
            0 => variable.kind = random.below(4) as u8,
            _ => variable.a = any_below(random, types + 1),
        },
    );
}

fn other_field_type(random: &mut Random, tables: &mut Tables) {
    let types = tables[TYPES].len();
    change(random, &mut tables[FIELDS], |_| true, |random, field| field.a = any_below(random, types));
}

fn other_call(random: &mut Random, tables: &mut Tables) {
    let procedures = tables[PROCEDURES].clone();
    change(
        random,
        &mut tables[STATEMENTS],
        |statement| statement.kind == 1,
        |random, call| {
            let parameters = procedures.get(call.a as usize).map_or(0, |procedure| procedure.b);
            match random.below(6) {
                0 => call.b = call.b.wrapping_add(1),
                1 => call.b = call.b.wrapping_sub(1),
                2 => call.a = any_below(random, procedures.len() + 1),
                3 => call.b = u16::MAX,
                _ => {
                    let same = find(random, &procedures, |procedure| procedure.b == parameters);
                    call.a = same.unwrap_or(0) as u16;
                }
            }
        },
    );
}

/// Calls behind the last statement, of arguments behind the last node: all of the same ones, or each of any, so that
/// an argument is named never, once, a few times, or so often that a byte would count to 1 again.
fn shared_arguments(random: &mut Random, tables: &mut Tables) {
    let procedures = tables[PROCEDURES].clone();
    let Some(called) = find(random, &procedures, |procedure| (1..=4).contains(&procedure.b)) else { return };
    let parameters = |called: usize| procedures[called].b as usize;
    let count = parameters(called) + random.below(4);
    let children = tables[NODES].len();
    tables[NODES].extend((0..count).map(|number| row(0, 1, 0, number)));
    tables[NODES].extend((0..count).map(|number| row(8, children + number, 0, 0)));
    let first = children + count;
    let same = random.chance(500);
    for _ in 0..random.weighted(&[(1, 1), (2, 2), (2, 3), (2, 4), (2, 5), (1, 257)]) {
        let fits = |procedure: &Row| procedure.b > 0 && procedure.b as usize <= count;
        let other = if same { None } else { find(random, &procedures, fits) };
        let called = other.unwrap_or(called);
        let skipped = if same { 0 } else { random.below(count - parameters(called) + 1) };
        tables[STATEMENTS].push(row(1, called, first + skipped, 0));
    }
    tables[STATEMENTS].push(row(4, 0, 0, 0));
}

/// A last parameter becomes a local, so that no call names its last argument.
fn fewer_parameters(random: &mut Random, tables: &mut Tables) {
    let Some(at) = find(random, &tables[PROCEDURES], |procedure| procedure.b > 1) else { return };
    let variables = |procedure: &Row| procedure.b as usize + procedure.c as usize;
    let globals = tables[VARIABLES].iter().filter(|variable| variable.kind == 0).count();
    let before: usize = tables[PROCEDURES][..at].iter().map(variables).sum();
    let procedure = &mut tables[PROCEDURES][at];
    (procedure.b, procedure.c) = (procedure.b - 1, procedure.c.wrapping_add(1));
    let last = globals + before + procedure.b as usize;
    if let Some(variable) = tables[VARIABLES].get_mut(last) {
        variable.kind = 1;
    }
}

/// Of an array.
fn other_element(random: &mut Random, tables: &mut Tables) {
    let Some(at) = find(random, &tables[TYPES], |ty| ty.kind == 3) else { return };
    let lower = any_below(random, at);
    tables[TYPES][at].a = *random.pick(&[lower, at as u16, at as u16 + 1, u16::MAX]);
}

/// A comparison of a variable that is mostly no scalar with itself.
fn compared_objects(random: &mut Random, tables: &mut Tables) {
    let Some(variable) = find(random, &tables[VARIABLES], |variable| variable.a > 2) else { return };
    let nodes = &mut tables[NODES];
    let leaf = |node: u16| nodes.get(node as usize).is_some_and(|node| node.kind < 2);
    let good = |node: &Row| node.kind == 5 && leaf(node.a) && leaf(node.b);
    if let Some(at) = find(random, nodes, good) {
        nodes[at].c = random.between(7, 8) as u16;
        for operand in [nodes[at].a, nodes[at].b] {
            nodes[operand as usize] = row(1, variable, 0, 0);
        }
    }
}

/// A statement or a node names an argument.
fn names_an_argument(random: &mut Random, tables: &mut Tables) {
    let Some(argument) = find(random, &tables[NODES], |node| node.kind == 8) else { return };
    let names = names(tables);
    let good = |name: &&Name| name.0 == STATEMENTS || name.1 > argument;
    let choices: Vec<Name> = names.iter().filter(good).copied().collect();
    if let Some(name) = random.any(&choices) {
        *named_at(tables, name) = argument as u16;
    }
}

/// A read into a variable of another type, or of what is written.
fn other_read(random: &mut Random, tables: &mut Tables) {
    let Some(at) = find(random, &tables[STATEMENTS], |statement| matches!(statement.kind, 5 | 6)) else { return };
    let node = tables[STATEMENTS][at].a as usize;
    match tables[NODES].get(node).map(|node| node.kind) {
        Some(0) => retype(random, &mut tables[NODES][node]),
        Some(1) => tables[NODES][node].a = any_below(random, tables[VARIABLES].len()),
        _ => tables[STATEMENTS][at].kind = 11 - tables[STATEMENTS][at].kind,
    }
}

/// An argument holds another variable.
fn other_argument(random: &mut Random, tables: &mut Tables) {
    let variables = tables[VARIABLES].len();
    let Some(argument) = find(random, &tables[NODES], |node| node.kind == 8) else { return };
    let held = tables[NODES][argument].a as usize;
    if tables[NODES].get(held).is_some_and(|node| node.kind == 1) {
        tables[NODES][held].a = any_below(random, variables);
    }
}

fn guard_of_another_parameter(random: &mut Random, tables: &mut Tables) {
    let types = tables[TYPES].clone();
    let no_record = |variable: &Row| types.get(variable.a as usize).is_some_and(|ty| ty.kind != 4);
    let other = find(random, &tables[VARIABLES], |variable| variable.kind == 3 && no_record(variable));
    let good = |node: &Row| matches!(node.kind, 4 | 7);
    if let Some(other) = other {
        change(random, &mut tables[NODES], good, |_, node| node.a = other as u16);
    }
}

fn other_target(random: &mut Random, tables: &mut Tables) {
    let statements = tables[STATEMENTS].len();
    let good = |statement: &Row| matches!(statement.kind, 2 | 3);
    change(random, &mut tables[STATEMENTS], good, |random, jump| jump.b = any_below(random, statements + 1));
}

fn other_body(random: &mut Random, tables: &mut Tables) {
    let ends = tables[STATEMENTS].len() as u16;
    change(
        random,
        &mut tables[PROCEDURES],
        |_| true,
        |random, procedure| match random.below(8) {
            0 => procedure.a = procedure.a.wrapping_add(1),
            1 => procedure.a = procedure.a.wrapping_sub(1),
            2 => procedure.a = ends,
            3 => procedure.b = procedure.b.wrapping_add(1),
            4 => procedure.c = procedure.c.wrapping_add(1),
            5 => procedure.c = procedure.c.wrapping_sub(1),
            6 => (procedure.b, procedure.c) = (procedure.b.wrapping_add(1), procedure.c.wrapping_sub(1)),
            _ => (procedure.b, procedure.c) = (procedure.b.wrapping_sub(1), procedure.c.wrapping_add(1)),
        },
    );
}

/// Sizes around and above 4,096; array and record rows that keep every other rule.
fn too_large(random: &mut Random, tables: &mut Tables) {
    if random.chance(400) {
        let good = |ty: &Row| ty.kind == 3;
        let length = *random.pick(&[0, 1, 2, 4095, 4096, 4097, 1000, u16::MAX]);
        return change(random, &mut tables[TYPES], good, |_, ty| ty.b = length);
    }
    let count = tables[TYPES].len();
    let cells = *random.pick(&[2047, 2048, 2049, 4095, 4096]);
    tables[TYPES].push(row(3, random.below(3), cells, 0));
    let fields = tables[FIELDS].len();
    if random.chance(500) {
        let length = *random.pick(&[1, 2, 3, 16, 17, 4096]);
        tables[TYPES].push(row(3, count, length, 0));
    } else {
        tables[TYPES].push(row(4, 0, fields, 2));
        tables[FIELDS].push(row(0, count, 0, 0));
        tables[FIELDS].push(row(0, *random.pick(&[0, count]), 0, 0));
    }
}
