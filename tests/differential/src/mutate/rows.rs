//! Damage to rows, whatever they mean. Counts and length are mended, so that later questions are asked too.

use crate::image::{most_rows, row};
use crate::random::Random;
use listing::{Row, Tables, FIELDS, STATEMENTS};

pub fn damage(random: &mut Random, tables: &mut Tables) {
    let table = random.below(6);
    match random.below(20) {
        0..=8 => any_row(random, tables, table, wrong_number),
        9 => any_row(random, tables, table, |random, row, _, _| row.zero = random.between(1, 255) as u8),
        10..=12 => any_row(random, tables, table, wrong_kind),
        13 => swap(random, &mut tables[table]),
        14 => remove(random, &mut tables[table]),
        15 => duplicate(random, &mut tables[table]),
        16 | 17 => append(random, tables, table),
        18 => insert(random, &mut tables[table]),
        _ => too_many(random, &mut tables[table], most_rows(table)),
    }
}

/// Changes a row of the table, if it has any; the change is told the row's number and the counts of all tables.
fn any_row(
    random: &mut Random,
    tables: &mut Tables,
    table: usize,
    change: impl Fn(&mut Random, &mut Row, usize, &[usize]),
) {
    let counts: Vec<usize> = tables.iter().map(Vec::len).collect();
    if counts[table] > 0 {
        let at = random.below(counts[table]);
        change(random, &mut tables[table][at], at, &counts);
    }
}

fn wrong_number(random: &mut Random, row: &mut Row, at: usize, counts: &[usize]) {
    let number = match random.below(3) {
        0 => &mut row.a,
        1 => &mut row.b,
        _ => &mut row.c,
    };
    let count = *random.pick(counts) as u16;
    let at = at as u16;
    *number = match random.below(12) {
        0..=2 => number.wrapping_add(1),
        3..=5 => number.wrapping_sub(1),
        6 => at,
        7 => at + 1,
        8 => count,
        9 => count.wrapping_sub(1),
        10 => *random.pick(&[0, 1, 2, 4096, 4097, 32767, 32768, u16::MAX]),
        _ => random.below(count.max(1) as usize) as u16,
    };
}

fn wrong_kind(random: &mut Random, row: &mut Row, _: usize, _: &[usize]) {
    row.kind = match random.below(4) {
        0 => row.kind.wrapping_add(1),
        1 => row.kind.wrapping_sub(1),
        2 => random.below(10) as u8,
        _ => 255,
    };
}

fn swap(random: &mut Random, rows: &mut [Row]) {
    if rows.len() > 1 {
        let at = random.below(rows.len() - 1);
        let other = if random.chance(500) { at + 1 } else { random.below(rows.len()) };
        rows.swap(at, other);
    }
}

fn remove(random: &mut Random, rows: &mut Vec<Row>) {
    if !rows.is_empty() {
        let at = random.below(rows.len());
        rows.remove(*random.pick(&[at, rows.len() - 1]));
    }
}

fn duplicate(random: &mut Random, rows: &mut Vec<Row>) {
    if !rows.is_empty() {
        let at = random.below(rows.len());
        let to = *random.pick(&[at, rows.len()]);
        rows.insert(to, rows[at]);
    }
}

fn insert(random: &mut Random, rows: &mut Vec<Row>) {
    let at = random.below(rows.len() + 1);
    let numbers = [(); 3].map(|_| random.below(6));
    rows.insert(at, row(random.below(9), numbers[0], numbers[1], numbers[2]));
}

/// A row that keeps its own form, behind the last: unclaimed, unnamed, or after the last body's end.
fn append(random: &mut Random, tables: &mut Tables, table: usize) {
    let fields = tables[FIELDS].len();
    let statements = tables[STATEMENTS].len();
    let array = row(3, random.below(3), 2, 0);
    let added = [
        *random.pick(&[row(4, 0, fields, 0), array]),
        row(0, random.below(3), 0, 0),
        row(random.between(1, 3), random.below(3), 0, 0),
        row(0, statements - usize::from(statements > 0), 0, 0),
        row(0, random.below(2), 0, 1),
        row(4, 0, 0, 0),
    ];
    tables[table].push(added[table]);
}

fn too_many(random: &mut Random, rows: &mut Vec<Row>, most: usize) {
    match random.chance(500) {
        true => rows.resize(most + 1, row(0, 0, 0, 0)),
        false => rows.truncate(random.below(3)),
    }
}
