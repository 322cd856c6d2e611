//! Random type rows and their fields, with sizes and relations.

use super::Scale;
use crate::image::{most_rows, row};
use crate::random::Random;
use listing::{Row, FIELDS};

pub const BOOLEAN: usize = 0;
pub const INTEGER: usize = 1;
pub const SET: usize = 2;

/// The most cells that a type can have.
const LARGEST: usize = 4096;

#[derive(Clone, Debug)]
pub enum Shape {
    Scalar,
    Array { element: usize, length: usize },
    Record { base: Option<usize> },
}

#[derive(Clone, Debug)]
pub struct Type {
    pub shape: Shape,
    pub size: usize,
    /// Every field's type, the base's first.
    pub fields: Vec<usize>,
    /// How many arrays and records stand one in another.
    depth: usize,
}

#[derive(Default)]
pub struct Types {
    pub list: Vec<Type>,
    /// Of each type the types that it holds at any depth, itself too: a bit for each row.
    holds: Vec<u64>,
    pub rows: Vec<Row>,
    pub fields: Vec<Row>,
}

impl Types {
    pub fn generate(random: &mut Random, scale: &Scale) -> Types {
        let mut types = Types::default();
        for kind in [BOOLEAN, INTEGER, SET] {
            let scalar = Type { shape: Shape::Scalar, size: 1, fields: vec![], depth: 0 };
            types.add(scalar, row(kind, 0, 0, 0));
        }
        while types.list.len() < scale.types {
            types.add_type(random, scale);
        }
        types
    }

    fn add(&mut self, added: Type, row: Row) {
        let parts: Vec<usize> = match added.shape {
            Shape::Array { element, .. } => vec![element],
            _ => added.fields.clone(),
        };
        let inside = parts.iter().fold(0, |bits, part| bits | self.holds[*part]);
        self.holds.push(inside | 1 << self.list.len());
        self.list.push(added);
        self.rows.push(row);
    }

    fn add_type(&mut self, random: &mut Random, scale: &Scale) {
        if random.chance(360) {
            self.add_array(random, scale);
        } else {
            self.add_record(random, scale);
        }
    }

    fn add_array(&mut self, random: &mut Random, scale: &Scale) {
        let element = self.element(random, scale);
        let most = LARGEST / self.list[element].size.max(1);
        let wanted = match random.below(100) {
            0..=59 if scale.wide => random.between(LARGEST / 2, LARGEST),
            0..=9 => 1,
            10..=79 => random.between(2, 6),
            80..=95 => random.between(2, 40),
            _ => random.between(1, 100),
        };
        let length = wanted.min(most);
        let Type { size, depth, .. } = self.list[element];
        let shape = Shape::Array { element, length };
        let array = Type { shape, size: size * length, fields: vec![], depth: depth + 1 };
        self.add(array, row(3, element, length, 0));
    }

    /// Mostly an array or a record, so that designators have several indexes, and arrays hold extensions.
    fn element(&self, random: &mut Random, scale: &Scale) -> usize {
        let not_deep = |t: &usize| self.list[*t].depth < 4;
        let (records, arrays): (Vec<usize>, Vec<usize>) =
            (3..self.list.len()).filter(not_deep).partition(|t| self.is_record(*t));
        let choice = match random.below(10) {
            0..=2 => random.any(&arrays),
            3..=6 => random.any(&records),
            _ => None,
        };
        choice.unwrap_or_else(|| self.part(random, scale))
    }

    fn add_record(&mut self, random: &mut Random, scale: &Scale) {
        let base = if random.chance(600) { random.any(&self.records()) } else { None };
        let mut record = Type { shape: Shape::Record { base }, size: 0, fields: vec![], depth: 1 };
        if let Some(base) = base {
            let Type { size, fields, depth, .. } = self.list[base].clone();
            record = Type { size, fields, depth, ..record };
        }
        let first = self.fields.len();
        for _ in 0..self.own_fields(random, scale) {
            self.add_field(random, &mut record, scale);
        }
        let own = self.fields.len() - first;
        self.add(record, row(4, base.map_or(0, |base| base + 1), first, own));
    }

    /// How many fields to give a record; the last one takes up what is left where the table shall be full.
    fn own_fields(&self, random: &mut Random, scale: &Scale) -> usize {
        let left = most_rows(FIELDS) - self.fields.len();
        if scale.all_fields && self.list.len() + 1 == scale.types {
            return left;
        }
        let none = if scale.hollow { 80 } else { 12 };
        random.weighted(&[(none, 0), (30, 1), (30, 2), (18, 3), (8, 5)]).min(left)
    }

    fn add_field(&mut self, random: &mut Random, record: &mut Type, scale: &Scale) {
        let part = self.part(random, scale);
        let part = if record.size + self.list[part].size <= LARGEST { part } else { BOOLEAN };
        let Type { size, depth, .. } = self.list[part];
        if record.size + size > LARGEST {
            return;
        }
        record.size += size;
        record.depth = record.depth.max(depth + 1);
        record.fields.push(part);
        self.fields.push(row(0, part, 0, 0));
    }

    /// A type to be an element or a field: not too deep, so that designators stay short.
    fn part(&self, random: &mut Random, scale: &Scale) -> usize {
        let part = random.below(self.list.len());
        if self.list[part].depth > 5 || random.chance(if scale.hollow { 200 } else { 500 }) {
            return random.below(3);
        }
        part
    }

    pub fn largest(&self) -> usize {
        (0..self.list.len()).max_by_key(|t| self.list[*t].size).unwrap_or(BOOLEAN)
    }

    fn records(&self) -> Vec<usize> {
        (3..self.list.len()).filter(|t| self.is_record(*t)).collect()
    }

    pub fn is_scalar(&self, t: usize) -> bool {
        t <= SET
    }

    fn is_array(&self, t: usize) -> bool {
        matches!(self.list[t].shape, Shape::Array { .. })
    }

    pub fn is_record(&self, t: usize) -> bool {
        matches!(self.list[t].shape, Shape::Record { .. })
    }

    /// Whether an object of the type has an array in it, or is one.
    pub fn has_array(&self, t: usize) -> bool {
        (3..=t).any(|u| self.is_array(u) && self.holds(t, u))
    }

    /// Whether an object of type t has one of type u in it, or is one.
    pub fn holds(&self, t: usize, u: usize) -> bool {
        self.holds[t] >> u & 1 == 1
    }

    pub fn extends(&self, t: usize, u: usize) -> bool {
        let mut at = Some(t);
        while let Some(here) = at {
            if here == u {
                return true;
            }
            at = match self.list[here].shape {
                Shape::Record { base } => base,
                _ => None,
            };
        }
        false
    }

    /// The types that extend t, itself too.
    pub fn extensions(&self, t: usize) -> Vec<usize> {
        (t..self.list.len()).filter(|u| self.extends(*u, t)).collect()
    }
}
