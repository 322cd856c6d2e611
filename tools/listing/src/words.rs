//! Statements and expressions in the words of Oberon-2.
use crate::names::{designated, Names};
use crate::print::row_text;
use crate::{Row, Tables, NODES, OPERATORS, PROCEDURES};
use std::ops::Range;

/// Puts statements and expressions in words, with the names that the rows have; without names v3 is variable 3, f2
/// field 2 of a record, the base's fields counted first, T4 type 4. A node that is not put in words stands as
/// `(node 12)`: one that is not there, has no form of its own, is not lower than the node that names it, or comes after
/// too many others.
pub struct Words<'a> {
    tables: &'a Tables,
    names: &'a Names,
    most: usize,
    /// The nodes put in words so far.
    pub nodes: Vec<usize>,
    /// Whether every node so far was put in words.
    pub whole: bool,
}

impl<'a> Words<'a> {
    /// For at most so many nodes: rows that are named more than once could go on for ever.
    pub fn new(tables: &'a Tables, names: &'a Names, most: usize) -> Words<'a> {
        Words { tables, names, most, nodes: Vec::new(), whole: true }
    }

    /// A statement; nothing where it says no more than its row, calls what is not there, or has too many arguments.
    pub fn statement(&mut self, row: Row) -> Option<String> {
        match row.kind {
            0 => Some(format!("{} := {}", self.node(row.a), self.node(row.b))),
            1 => {
                let parameters = self.tables[PROCEDURES].get(row.a as usize)?.b;
                let end = row.b.checked_add(parameters).filter(|_| parameters as usize <= self.most)?;
                let arguments: Vec<String> = (row.b..end).map(|node| self.node(node)).collect();
                Some(format!("{}({})", self.names.procedure(row.a as usize), arguments.join(", ")))
            }
            2 => Some(format!("IF NOT ({}) GOTO {}", self.node(row.a), row.b)),
            5 => Some(format!("READ {}", self.node(row.a))),
            6 => Some(format!("WRITE {}", self.node(row.a))),
            7 => Some(format!("HALT({})", self.node(row.a))),
            _ => None,
        }
    }

    /// The expression in a node row.
    pub fn node(&mut self, node: u16) -> String {
        let node = node as usize;
        match self.tables[NODES].get(node) {
            Some(row) if self.nodes.len() < self.most && row_text(NODES, node, *row).is_some() => {
                self.nodes.push(node);
                self.expression(node, *row)
            }
            _ => {
                self.whole = false;
                format!("(node {node})")
            }
        }
    }

    fn expression(&mut self, node: usize, row: Row) -> String {
        let Row { kind, a, b, c, .. } = row;
        match (kind, c) {
            (1, _) => self.names.variable(a as usize),
            (2, _) => {
                let field = self.names.field(self.tables, designated(self.tables, a as usize), b as usize);
                format!("{}.{field}", self.operand(node, a))
            }
            (3, _) => format!("{}[{}]", self.operand(node, a), self.child(node, b)),
            (4, _) => format!("{}({})", self.names.variable(a as usize), self.names.type_row(b as usize)),
            (5, 16) => format!("{{{}..{}}}", self.operand(node, a), self.operand(node, b)),
            (5, _) => {
                let operator = OPERATORS[c as usize - 1];
                format!("{} {operator} {}", self.operand(node, a), self.operand(node, b))
            }
            (6, 1) => format!("-{}", self.operand(node, a)),
            (6, _) => format!("~{}", self.operand(node, a)),
            (7, _) => format!("{} IS {}", self.names.variable(a as usize), self.names.type_row(b as usize)),
            (8, _) => self.child(node, a),
            _ => constant_words(row).unwrap_or_default(),
        }
    }

    /// A child, in parentheses where the words around it could be read otherwise.
    fn operand(&mut self, parent: usize, node: u16) -> String {
        let text = self.child(parent, node);
        let row = self.tables[NODES].get(node as usize);
        let compound = row.is_some_and(|row| matches!(row.kind, 5..=7) && (row.kind, row.c) != (5, 16));
        if (compound || text.starts_with('-')) && !text.starts_with("(node") {
            format!("({text})")
        } else {
            text
        }
    }

    fn child(&mut self, parent: usize, node: u16) -> String {
        if (node as usize) < parent {
            return self.node(node);
        }
        self.whole = false;
        format!("(node {node})")
    }
}

/// The nodes that a statement names, in two spans, either of which may be empty.
pub fn named(tables: &Tables, row: Row) -> [Range<usize>; 2] {
    let (a, b) = (row.a as usize, row.b as usize);
    match row.kind {
        0 => [a..a + 1, b..b + 1],
        1 => match tables[PROCEDURES].get(a) {
            Some(procedure) if procedure.b > 0 => [b..b + procedure.b as usize, 0..0],
            _ => [0..0, 0..0],
        },
        2 | 5 | 6 | 7 => [a..a + 1, 0..0],
        _ => [0..0, 0..0],
    }
}

/// The nodes that a node names.
pub fn children(row: Row) -> Vec<usize> {
    match row.kind {
        2 | 6 | 8 => vec![row.a as usize],
        3 | 5 => vec![row.a as usize, row.b as usize],
        _ => vec![],
    }
}

/// A constant's value, where it has one.
pub fn constant_words(row: Row) -> Option<String> {
    let value = (row.b as u32) << 16 | row.c as u32;
    match (row.a, value) {
        (0, 0) => Some("FALSE".to_string()),
        (0, 1) => Some("TRUE".to_string()),
        (1, _) => Some((value as i32).to_string()),
        (2, _) => Some(set_words(value)),
        _ => None,
    }
}

/// A SET by its elements, runs of three or more as a range.
pub fn set_words(set: u32) -> String {
    let there = |element: u32| element < 32 && set >> element & 1 == 1;
    let mut parts = Vec::new();
    let mut element = 0;
    while element < 32 {
        let first = element;
        while there(element) {
            element += 1;
        }
        match element - first {
            0 => element += 1,
            1 => parts.push(format!("{first}")),
            2 => parts.push(format!("{first}, {}", first + 1)),
            _ => parts.push(format!("{first}..{}", element - 1)),
        }
    }
    format!("{{{}}}", parts.join(", "))
}
