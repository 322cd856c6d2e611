//! Random images that the check accepts: each row is made so that it keeps its rules.

mod bodies;
mod calls;
mod designators;
mod order;
mod types;
mod values;

use crate::image::{most_rows, row};
use crate::random::Random;
use listing::{Row, Tables, NODES, STATEMENTS, VARIABLES};
use types::{Types, BOOLEAN, INTEGER, SET};

pub const GLOBAL: u8 = 0;
pub const LOCAL: u8 = 1;
pub const VALUE: u8 = 2;
pub const VAR: u8 = 3;

/// How large an image is to be, and how often it may do what can trap.
pub struct Scale {
    types: usize,
    globals: usize,
    procedures: usize,
    /// Statements of a body, loops and branches counted once.
    items: usize,
    /// Thousandths.
    risk: usize,
    /// Large arrays, and many of them.
    wide: bool,
    /// Records without cells, and many that hold them.
    hollow: bool,
    all_fields: bool,
    all_variables: bool,
    all_nodes: bool,
    all_statements: bool,
}

#[derive(Clone, Copy)]
pub struct Variable {
    pub kind: u8,
    pub ty: usize,
}

#[derive(Clone, Copy)]
struct Procedure {
    /// Its variables' rows are first to first + parameters + locals - 1.
    first: usize,
    parameters: usize,
    locals: usize,
    /// The value parameter that falls at each call that goes down or round, so that recursion ends.
    depth: Option<usize>,
}

/// The tables while they are made, and the body that is being made.
struct Maker<'r> {
    random: &'r mut Random,
    scale: Scale,
    types: Types,
    variables: Vec<Variable>,
    globals: usize,
    procedures: Vec<Procedure>,
    nodes: Vec<Row>,
    statements: Vec<Row>,
    procedure: usize,
    body: Vec<Row>,
    /// Rows of the body whose target is still open, and can be any row.
    open: Vec<usize>,
    /// Whether the statement that is being made is a daring one.
    daring: bool,
    /// Counters of the loops around, that are seldom assigned to.
    busy: Vec<usize>,
    /// VAR parameters and the types that the tests around found them to have.
    known: Vec<(usize, usize)>,
}

pub fn image(random: &mut Random) -> Tables {
    let scale = Scale::pick(random);
    let types = Types::generate(random, &scale);
    let mut maker = Maker {
        random,
        scale,
        types,
        variables: vec![],
        globals: 0,
        procedures: vec![],
        nodes: vec![],
        statements: vec![],
        procedure: 0,
        body: vec![],
        open: vec![],
        daring: false,
        busy: vec![],
        known: vec![],
    };
    maker.declare();
    let starts: Vec<usize> = (0..maker.procedures.len()).map(|p| maker.make_body(p)).collect();
    maker.finish(&starts)
}

impl Scale {
    fn pick(random: &mut Random) -> Scale {
        let size = random.weighted(&[(70, 0), (26, 1), (4, 2)]);
        let wide = random.chance(15);
        let hollow = random.chance(60);
        let few = random.below(10) * random.below(10).min(1);
        let full = |random: &mut Random| size == 2 && random.chance(500);
        let risk = random.weighted(&[(35, 1), (40, 8), (25, 40)]);
        Scale {
            types: 3 + [random.below(10), random.below(18), 61 - random.below(8) * random.below(2)][size],
            globals: [few, random.below(20), random.below(40)][if wide { 2 } else { size }],
            procedures: 1 + [random.below(5), random.below(10), 63 - random.below(40) * random.below(2)][size],
            items: [8, 10, 12][size],
            risk,
            wide,
            hollow,
            all_fields: full(random),
            all_variables: full(random),
            all_nodes: full(random),
            all_statements: full(random),
        }
    }
}

impl Maker<'_> {
    /// How often to do what can trap, in thousandths: often in a daring statement, so that several traps meet in one.
    fn risk(&self) -> usize {
        if self.daring {
            350
        } else {
            self.scale.risk
        }
    }

    fn risky(&mut self) -> bool {
        self.random.chance(self.risk())
    }

    fn declare(&mut self) {
        let mut owned = vec![];
        for number in 0..self.scale.procedures {
            let procedure = self.declare_procedure(number, &mut owned);
            self.procedures.push(procedure);
        }
        self.globals = match self.scale.all_variables {
            true => most_rows(VARIABLES) - owned.len(),
            false => self.scale.globals.min(most_rows(VARIABLES) - owned.len()),
        };
        for number in 0..self.globals {
            let ty = if number < 40 { self.declared_type() } else { BOOLEAN };
            self.variables.push(Variable { kind: GLOBAL, ty });
        }
        self.variables.extend(owned);
        for procedure in &mut self.procedures {
            procedure.first += self.globals;
            procedure.depth = procedure.depth.map(|variable| variable + self.globals);
        }
    }

    /// Adds a procedure's variables behind those of the procedures before; rows count without the globals.
    fn declare_procedure(&mut self, number: usize, owned: &mut Vec<Variable>) -> Procedure {
        let room = most_rows(VARIABLES) - owned.len();
        let parameters = if number == 0 { 0 } else { self.random.below(5) };
        let locals = self.random.weighted(&[(15, 0), (35, 1), (30, 2), (20, 4)]);
        let mut procedure = Procedure { first: owned.len(), parameters: 0, locals: 0, depth: None };
        if parameters + locals > room {
            return procedure;
        }
        for _ in 0..parameters {
            let parameter = self.declared_parameter();
            if parameter.kind == VALUE && parameter.ty == INTEGER && self.random.chance(800) {
                procedure.depth = procedure.depth.or(Some(owned.len()));
            }
            owned.push(parameter);
        }
        for local in 0..locals {
            let count = self.random.chance(if local == 0 { 750 } else { 300 });
            let ty = if count { INTEGER } else { self.declared_type() };
            owned.push(Variable { kind: LOCAL, ty });
        }
        Procedure { parameters, locals, ..procedure }
    }

    fn declared_parameter(&mut self) -> Variable {
        let kind = if self.random.chance(550) { VAR } else { VALUE };
        let ty = match (kind, self.random.below(10)) {
            (VALUE, 0..=3) => INTEGER,
            (VAR, 0..=4) => self.extended_type(),
            _ => self.declared_type(),
        };
        Variable { kind, ty }
    }

    /// A record that another one extends, where there is one.
    fn extended_type(&mut self) -> usize {
        let extended = |t: &usize| self.types.is_record(*t) && self.types.extensions(*t).len() > 1;
        let choices: Vec<usize> = (3..self.types.list.len()).filter(extended).collect();
        match self.random.any(&choices) {
            Some(ty) => ty,
            None => self.declared_type(),
        }
    }

    /// A type without cells, or one that holds some, where there is one.
    fn hollow_type(&mut self) -> Option<usize> {
        let empty: Vec<usize> = (3..self.types.list.len()).filter(|t| self.types.list[*t].size == 0).collect();
        if self.random.chance(500) {
            return self.random.any(&empty);
        }
        let holds = |t: &usize| self.types.list[*t].size < 60 && empty.iter().any(|empty| self.types.holds(*t, *empty));
        let around: Vec<usize> = (3..self.types.list.len()).filter(holds).collect();
        self.random.any(&around)
    }

    fn declared_type(&mut self) -> usize {
        if self.scale.hollow && self.random.chance(600) {
            if let Some(ty) = self.hollow_type() {
                return ty;
            }
        }
        if self.scale.wide && self.random.chance(500) {
            return self.types.largest();
        }
        let ty = self.random.below(self.types.list.len());
        let most = if self.scale.wide { 4096 } else { 60 };
        if self.types.list[ty].size > most || self.random.chance(300) {
            return self.random.weighted(&[(2, BOOLEAN), (5, INTEGER), (3, SET)]);
        }
        ty
    }

    /// The rows of the variables that the body can name.
    fn visible(&self) -> Vec<usize> {
        let Procedure { first, parameters, locals, .. } = self.procedures[self.procedure];
        (0..self.globals).chain(first..first + parameters + locals).collect()
    }

    fn own(&self, variable: usize) -> bool {
        variable >= self.globals
    }

    fn push(&mut self, node: Row) -> usize {
        self.nodes.push(node);
        self.nodes.len() - 1
    }

    fn finish(mut self, starts: &[usize]) -> Tables {
        if self.random.chance(400) {
            let parameters: Vec<usize> = self.procedures.iter().map(|procedure| procedure.parameters).collect();
            order::shuffle(self.random, &parameters, &mut self.nodes, &mut self.statements);
        }
        let variables = self.variables.iter().map(|v| row(v.kind as usize, v.ty, 0, 0)).collect();
        let procedures = self.procedures.iter().zip(starts).map(|(p, start)| row(0, *start, p.parameters, p.locals));
        [self.types.rows, self.types.fields, variables, procedures.collect(), self.nodes, self.statements]
    }

    fn node_room(&self) -> usize {
        most_rows(NODES).saturating_sub(self.nodes.len())
    }

    /// How many statements more the body may have, those that end this body and the later ones left out.
    fn statement_room(&self) -> usize {
        let later = self.procedures.len() - self.procedure;
        most_rows(STATEMENTS).saturating_sub(self.statements.len() + self.body.len() + later + 16)
    }
}
