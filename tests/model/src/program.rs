//! What an accepted image means: bodies, places of variables, types of nodes. Sizes and extension are in `types`.

use crate::image::{Row, Tables};
use crate::types::Shape;
use std::ops::Range;

/// Kinds of variables.
pub const GLOBAL: u8 = 0;
pub const LOCAL: u8 = 1;
pub const VALUE_PARAMETER: u8 = 2;
pub const VAR_PARAMETER: u8 = 3;

/// Kinds of nodes.
pub const CONSTANT: u8 = 0;
pub const VARIABLE: u8 = 1;
pub const FIELD: u8 = 2;
pub const ELEMENT: u8 = 3;
pub const GUARD: u8 = 4;
pub const DYADIC: u8 = 5;
pub const MONADIC: u8 = 6;
pub const TYPE_TEST: u8 = 7;
pub const ARGUMENT: u8 = 8;

/// Kinds of statements.
pub const ASSIGN: u8 = 0;
pub const CALL: u8 = 1;
pub const JUMP_IF_FALSE: u8 = 2;
pub const JUMP: u8 = 3;
pub const RETURN: u8 = 4;
pub const READ: u8 = 5;
pub const WRITE: u8 = 6;
pub const HALT: u8 = 7;

/// A frame begins with "three links (caller's procedure, return row, caller's base ..), then its variables".
pub const LINKS: usize = 3;

/// An image that the check accepts: its tables, and what follows from them. Each row that it is asked about exists.
#[derive(Clone, Debug)]
pub struct Program {
    pub types: Vec<Row>,
    pub fields: Vec<Row>,
    pub variables: Vec<Row>,
    pub procedures: Vec<Row>,
    pub nodes: Vec<Row>,
    pub statements: Vec<Row>,
    /// Of each type; known after question 4.
    pub(crate) shapes: Vec<Shape>,
    /// Known after question 6: of each variable its place and the procedure that has it, of each procedure its first
    /// variable and its frame's cells, of each statement the procedure whose body it is in, and G.
    places: Vec<usize>,
    owners: Vec<Option<usize>>,
    first_variables: Vec<usize>,
    frames: Vec<usize>,
    procedures_at: Vec<usize>,
    globals: usize,
    /// Of each node; known after question 10.
    pub(crate) node_types: Vec<usize>,
}

impl Program {
    pub(crate) fn new(tables: Tables) -> Program {
        let Tables { types, fields, variables, procedures, nodes, statements } = tables;
        Program {
            types,
            fields,
            variables,
            procedures,
            nodes,
            statements,
            shapes: Vec::new(),
            places: Vec::new(),
            owners: Vec::new(),
            first_variables: Vec::new(),
            frames: Vec::new(),
            procedures_at: Vec::new(),
            globals: 0,
            node_types: Vec::new(),
        }
    }

    /// "Globals come first." How many there are.
    pub fn global_count(&self) -> usize {
        self.variables.iter().take_while(|variable| variable.kind == GLOBAL).count()
    }

    /// "Globals fill cells 0 to G − 1. Procedure p's frame of Fp cells holds three links .., then its variables".
    pub(crate) fn lay_out(&mut self) {
        self.globals = self.place_variables(0..self.global_count(), None, 0);
        for p in 0..self.procedures.len() {
            let first = self.places.len();
            let count = self.procedures[p].b() + self.procedures[p].c();
            let frame = self.place_variables(first..first + count, Some(p), LINKS);
            self.first_variables.push(first);
            self.frames.push(frame);
            let body = self.body(p);
            self.procedures_at.resize(body.end, p);
        }
    }

    /// Places variables one after the other from `place` on, and gives the place after the last.
    fn place_variables(&mut self, variables: Range<usize>, owner: Option<usize>, mut place: usize) -> usize {
        for v in variables {
            self.places.push(place);
            self.owners.push(owner);
            place += self.cells_of(v);
        }
        place
    }

    /// "a VAR parameter two cells, address and dynamic type, others their size".
    fn cells_of(&self, v: usize) -> usize {
        match self.variables[v].kind {
            VAR_PARAMETER => 2,
            _ => self.size(self.variables[v].a()),
        }
    }

    /// G, the cells of the globals.
    pub fn globals(&self) -> usize {
        self.globals
    }

    /// Fp, the cells of procedure p's frame.
    pub fn frame(&self, p: usize) -> usize {
        self.frames[p]
    }

    /// A global's first cell; of another variable, how many cells of the frame lie before its own.
    pub fn place(&self, v: usize) -> usize {
        self.places[v]
    }

    /// The procedure that a parameter or local belongs to; none of a global.
    pub fn owner(&self, v: usize) -> Option<usize> {
        self.owners[v]
    }

    /// "Procedures use up the remaining variables in order, parameters before locals."
    pub fn parameters(&self, p: usize) -> Range<usize> {
        let first = self.first_variables[p];
        first..first + self.procedures[p].b()
    }

    pub fn locals(&self, p: usize) -> Range<usize> {
        let first = self.parameters(p).end;
        first..first + self.procedures[p].c()
    }

    /// "A body .. ends where the next begins; .. the last ends with the table."
    pub fn body(&self, p: usize) -> Range<usize> {
        let end = self.procedures.get(p + 1).map_or(self.statements.len(), Row::a);
        self.procedures[p].a()..end
    }

    /// The procedure whose body has the statement.
    pub fn procedure_at(&self, statement: usize) -> usize {
        self.procedures_at[statement]
    }

    /// The static type of a node, of an argument that of what it holds.
    pub fn type_of(&self, node: usize) -> usize {
        self.node_types[node]
    }

    /// "Kinds 1 to 4 are designators".
    pub fn is_designator(&self, node: usize) -> bool {
        (VARIABLE..=GUARD).contains(&self.nodes[node].kind)
    }

    /// The nodes that a node names, left to right.
    pub fn children(&self, node: usize) -> impl Iterator<Item = usize> {
        let row = self.nodes[node];
        let (a, b) = match row.kind {
            FIELD | MONADIC | ARGUMENT => (Some(row.a()), None),
            ELEMENT | DYADIC => (Some(row.a()), Some(row.b())),
            _ => (None, None),
        };
        a.into_iter().chain(b)
    }

    /// The nodes that a statement names, in order; of a call its arguments, "one kind 8 per parameter".
    pub fn named_by(&self, statement: usize) -> impl Iterator<Item = usize> {
        let row = self.statements[statement];
        let (a, b, arguments) = match row.kind {
            ASSIGN => (Some(row.a()), Some(row.b()), 0..0),
            CALL => (None, None, row.b()..row.b() + self.procedures[row.a()].b()),
            JUMP_IF_FALSE | READ | WRITE | HALT => (Some(row.a()), None, 0..0),
            _ => (None, None, 0..0),
        };
        a.into_iter().chain(b).chain(arguments)
    }
}
