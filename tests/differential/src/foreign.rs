//! States that no run left: random frames along the calls of a program, with random variables and VAR parameters.

use crate::frames::{Frame, Given, Sight, Variable};
use crate::random::Random;
use crate::surroundings::Surroundings;
use model::program::ASSIGN;
use model::types::Kind;

/// A frame beyond this cell ends the row of frames: mostly, and in states that fill the largest store.
const LARGEST: usize = 4000;
const FULL: usize = 65_536;
/// So many of the youngest variables are named, and all globals.
const YOUNGEST: usize = 60;

/// A state that is sound, where nothing is damaged.
pub fn given(random: &mut Random, sight: &Sight, mut lent: Surroundings) -> Option<Given> {
    let full = random.chance(3);
    let frames = frames(random, sight, full)?;
    let last = frames.last()?;
    let (base, top) = (last.base, sight.end(last));
    let more = random.weighted(&[(2, 0), (1, 1), (3, 30), (4, 300)]);
    let above = *random.pick(&[0, -1, 3, i64::MIN, 1 << 32]);
    lent.store.resize(if full { FULL } else { top + more }, above);
    write_links(sight, &frames, &mut lent.store, random);
    for (cell, kind) in sight.scalars(&sight.all(&frames)) {
        lent.store[cell] = some_value(random, kind);
    }
    write_var_parameters(random, sight, &frames, &mut lent.store);
    let row = row(random, sight, last.procedure);
    let [read, written] = [lent.input.len(), lent.output.len()].map(|length| count(random, length));
    let steps = match random.below(4) {
        0 => 0,
        1 => random.below(1000) as u32,
        2 => u32::MAX - lent.steps,
        _ => random.next() as u32 >> 1,
    };
    let [row, base, top] = [row, base, top].map(|number| number as u32);
    let from = door::Numbers { row, base, top, read, written, steps, mark: top, ..door::Numbers::default() };
    Some(Given { lent, from })
}

/// A mark that question 14 passes: top, the store's length or one between.
pub fn mark(random: &mut Random, given: &Given) -> u32 {
    let (top, cells) = (given.from.top as usize, given.lent.store.len());
    let between = random.between(top, cells);
    *random.pick(&[top, cells, between]) as u32
}

/// Any row of the body; often one that assigns a record, since that asks for dynamic types.
fn row(random: &mut Random, sight: &Sight, procedure: usize) -> usize {
    let Sight { program, .. } = sight;
    let assigns = |s: &usize| {
        let statement = program.statements[*s];
        statement.kind == ASSIGN && program.is_record(program.type_of(statement.a()))
    };
    let rows: Vec<usize> = program.body(procedure).filter(assigns).collect();
    match random.any(&rows) {
        Some(row) if random.chance(500) => row,
        _ => program.body(procedure).start + random.below(program.body(procedure).len()),
    }
}

/// Of a list of that length.
fn count(random: &mut Random, length: usize) -> u64 {
    match random.below(3) {
        0 => 0,
        1 => length as u64,
        _ => random.between(0, length) as u64,
    }
}

/// Procedure 0's frame, and further ones along calls, the oldest first. None where the globals take too much.
fn frames(random: &mut Random, sight: &Sight, full: bool) -> Option<Vec<Frame>> {
    let mut frames = vec![Frame { procedure: 0, base: sight.program.globals() }];
    let mut variables = sight.all(&frames);
    let largest = if full { FULL } else { LARGEST };
    let wanted = random.weighted(&[(6, 0), (20, 1), (34, 2), (24, 4), (6, 12)]);
    for _ in 0..if full { FULL } else { wanted } {
        let last = frames[frames.len() - 1];
        let next = |call: usize| Frame { procedure: sight.program.statements[call].a(), base: sight.end(&last) };
        let named = youngest(sight, &variables);
        let good = |call: &usize| {
            let parameters = sight.var_parameters(&[next(*call)]);
            let has_object = parameters.iter().all(|parameter| sight.has_object(&named, parameter.t));
            has_object && sight.end(&next(*call)) <= largest
        };
        let calls: Vec<usize> = sight.calls(last.procedure).into_iter().filter(good).collect();
        let Some(call) = random.any(&calls) else { break };
        frames.push(next(call));
        variables.extend(sight.own(&next(call)));
    }
    frames.last().is_some_and(|last| sight.end(last) <= largest).then_some(frames)
}

/// The globals and the last of the others.
fn youngest(sight: &Sight, variables: &[Variable]) -> Vec<Variable> {
    let globals = sight.program.global_count();
    let first = variables.len().saturating_sub(YOUNGEST).max(globals);
    [&variables[..globals], &variables[first..]].concat()
}

/// The return row follows some call of the frame's procedure in the older one's body.
fn write_links(sight: &Sight, frames: &[Frame], store: &mut [i64], random: &mut Random) {
    store[frames[0].base..frames[0].base + 3].fill(0);
    for pair in frames.windows(2) {
        let [older, frame] = [pair[0], pair[1]];
        let mut calls = sight.calls(older.procedure);
        calls.retain(|call| sight.program.statements[*call].a() == frame.procedure);
        let links = [older.procedure, random.pick(&calls) + 1, older.base];
        store[frame.base..frame.base + 3].copy_from_slice(&links.map(|link| link as i64));
    }
}

/// Each names some object of the globals or the older frames.
fn write_var_parameters(random: &mut Random, sight: &Sight, frames: &[Frame], store: &mut [i64]) {
    let mut variables = sight.globals();
    for frame in frames {
        let named = youngest(sight, &variables);
        for parameter in sight.var_parameters(&[*frame]) {
            if let Some((address, named)) = sight.object_for(random, &named, parameter.t) {
                store[parameter.first] = address as i64;
                store[parameter.first + 1] = named as i64;
            }
        }
        variables.extend(sight.own(frame));
    }
}

/// A number of the kind's range.
fn some_value(random: &mut Random, kind: Kind) -> i64 {
    match (kind, random.below(8)) {
        (Kind::Boolean, way) => (way % 2) as i64,
        (Kind::Integer, 0) => *random.pick(&[i32::MIN, i32::MAX]) as i64,
        (Kind::Integer, 1) => i64::from(random.next() as i32),
        (_, 0) => *random.pick(&[0, u32::MAX as i64]),
        (_, 1) => i64::from(random.next() as u32),
        _ => random.below(12) as i64,
    }
}
