//! Another order of the nodes: any in which children stand below and a call's arguments together.

use crate::random::Random;
use listing::Row;

/// The children of a node.
fn children(node: &Row) -> Vec<usize> {
    let (a, b) = (node.a as usize, node.b as usize);
    match node.kind {
        2 | 6 | 8 => vec![a],
        3 | 5 => vec![a, b],
        _ => vec![],
    }
}

/// The nodes that a statement names; `parameters` has how many arguments each procedure takes.
fn named(statement: &Row, parameters: &[usize]) -> Vec<usize> {
    let (a, b) = (statement.a as usize, statement.b as usize);
    match statement.kind {
        0 => vec![a, b],
        1 => (b..b + parameters[a]).collect(),
        2 | 5 | 6 | 7 => vec![a],
        _ => vec![],
    }
}

/// Nodes that stay together, and how many of their children have no place yet.
struct Unit {
    nodes: Vec<usize>,
    waits: usize,
}

pub fn shuffle(random: &mut Random, parameters: &[usize], nodes: &mut Vec<Row>, statements: &mut [Row]) {
    let (mut units, unit_of) = units(parameters, nodes, statements);
    let mut parent = vec![None; nodes.len()];
    for (at, node) in nodes.iter().enumerate() {
        for child in children(node) {
            parent[child] = Some(unit_of[at]);
            units[unit_of[at]].waits += 1;
        }
    }
    let mut ready: Vec<usize> = (0..units.len()).filter(|unit| units[*unit].waits == 0).collect();
    let mut place = vec![0; nodes.len()];
    let mut placed = 0;
    while !ready.is_empty() {
        let unit = ready.swap_remove(random.below(ready.len()));
        for node in std::mem::take(&mut units[unit].nodes) {
            place[node] = placed;
            placed += 1;
            if let Some(above) = parent[node] {
                units[above].waits -= 1;
                if units[above].waits == 0 {
                    ready.push(above);
                }
            }
        }
    }
    rename(&place, parameters, nodes, statements);
}

fn units(parameters: &[usize], nodes: &[Row], statements: &[Row]) -> (Vec<Unit>, Vec<usize>) {
    let mut units = vec![];
    let mut unit_of = vec![0; nodes.len()];
    let calls = statements.iter().filter(|statement| statement.kind == 1);
    let groups = calls.map(|call| named(call, parameters)).filter(|arguments| !arguments.is_empty());
    let alone = (0..nodes.len()).filter(|node| nodes[*node].kind != 8).map(|node| vec![node]);
    for group in groups.chain(alone) {
        group.iter().for_each(|node| unit_of[*node] = units.len());
        units.push(Unit { nodes: group, waits: 0 });
    }
    (units, unit_of)
}

fn rename(place: &[usize], parameters: &[usize], nodes: &mut Vec<Row>, statements: &mut [Row]) {
    let to = |node: u16| place[node as usize] as u16;
    let mut moved = nodes.clone();
    for (at, node) in nodes.iter().enumerate() {
        let mut node = *node;
        if matches!(node.kind, 2 | 3 | 5 | 6 | 8) {
            node.a = to(node.a);
        }
        if matches!(node.kind, 3 | 5) {
            node.b = to(node.b);
        }
        moved[place[at]] = node;
    }
    *nodes = moved;
    for statement in statements {
        match statement.kind {
            0 => (statement.a, statement.b) = (to(statement.a), to(statement.b)),
            1 if parameters[statement.a as usize] > 0 => statement.b = to(statement.b),
            2 | 5 | 6 | 7 => statement.a = to(statement.a),
            _ => {}
        }
    }
}
