//! The frames of a state, and the objects in them: where a test can put a VAR parameter's address.

use crate::random::Random;
use crate::surroundings::Surroundings;
use model::program::{Program, CALL, VAR_PARAMETER};
use model::types::Kind;

/// What a continuation is given.
#[derive(Clone)]
pub struct Given {
    pub lent: Surroundings,
    pub from: door::Numbers,
}

#[derive(Clone, Copy, Debug)]
pub struct Frame {
    pub procedure: usize,
    pub base: usize,
}

/// A variable of the store that is no VAR parameter.
#[derive(Clone, Copy)]
pub struct Variable {
    pub t: usize,
    pub first: usize,
}

/// A VAR parameter's two cells, and its own type.
#[derive(Clone, Copy)]
pub struct VarParameter {
    pub t: usize,
    pub first: usize,
    /// Of its frame, among the frames from the oldest up.
    pub frame: usize,
}

/// A program, and which types the objects of each type have in them.
pub struct Sight<'a> {
    pub program: &'a Program,
    /// A bit for each type that is declared at any depth, the type itself too.
    holds: Vec<u64>,
}

impl<'a> Sight<'a> {
    pub fn new(program: &'a Program) -> Sight<'a> {
        let mut holds: Vec<u64> = vec![];
        for (t, row) in program.types.iter().enumerate() {
            let element = if program.is_array(t) { holds[row.a()] } else { 0 };
            let fields = program.fields_of(t).iter().fold(0, |bits, field| bits | holds[field.t]);
            holds.push(element | fields | 1 << t);
        }
        Sight { program, holds }
    }

    /// The frames of a sound state, procedure 0's first.
    pub fn frames(&self, given: &Given) -> Vec<Frame> {
        let mut base = given.from.base as usize;
        let mut procedure = self.program.procedure_at(given.from.row as usize);
        let mut frames = vec![Frame { procedure, base }];
        while procedure > 0 {
            let link = |i: usize| given.lent.store[base + i] as usize;
            (procedure, base) = (link(0), link(2));
            frames.push(Frame { procedure, base });
        }
        frames.reverse();
        frames
    }

    pub fn end(&self, frame: &Frame) -> usize {
        frame.base + self.program.frame(frame.procedure)
    }

    fn rows(&self, frame: &Frame) -> impl Iterator<Item = usize> {
        self.program.parameters(frame.procedure).start..self.program.locals(frame.procedure).end
    }

    fn placed(&self, base: usize, v: usize) -> Variable {
        Variable { t: self.program.variables[v].a(), first: base + self.program.place(v) }
    }

    pub fn is_var(&self, v: usize) -> bool {
        self.program.variables[v].kind == VAR_PARAMETER
    }

    pub fn globals(&self) -> Vec<Variable> {
        (0..self.program.global_count()).map(|v| self.placed(0, v)).collect()
    }

    /// The variables of a frame that are no VAR parameters.
    pub fn own(&self, frame: &Frame) -> Vec<Variable> {
        self.rows(frame).filter(|v| !self.is_var(*v)).map(|v| self.placed(frame.base, v)).collect()
    }

    /// The globals' and these frames' variables.
    pub fn all(&self, frames: &[Frame]) -> Vec<Variable> {
        let mut all = self.globals();
        all.extend(frames.iter().flat_map(|frame| self.own(frame)));
        all
    }

    pub fn var_parameters(&self, frames: &[Frame]) -> Vec<VarParameter> {
        let mut all = vec![];
        for (number, frame) in frames.iter().enumerate() {
            for v in self.rows(frame).filter(|v| self.is_var(*v)) {
                let Variable { t, first } = self.placed(frame.base, v);
                all.push(VarParameter { t, first, frame: number });
            }
        }
        all
    }

    /// Whether some of the variables have an object in them that a VAR parameter of type t can name.
    pub fn has_object(&self, variables: &[Variable], t: usize) -> bool {
        !self.named_types(variables, t).is_empty()
    }

    /// Types that extend t, and of which the variables have objects.
    fn named_types(&self, variables: &[Variable], t: usize) -> Vec<usize> {
        let there = variables.iter().fold(0, |bits, variable| bits | self.holds[variable.t]);
        let named = |u: &usize| there >> u & 1 == 1 && self.program.extends(*u, t);
        (t..self.program.types.len()).filter(named).collect()
    }

    /// The address of an object that extends t, and its type.
    pub fn object_for(&self, random: &mut Random, variables: &[Variable], t: usize) -> Option<(usize, usize)> {
        let named = random.any(&self.named_types(variables, t))?;
        Some((self.object(random, variables, named)?, named))
    }

    /// The address of an object of the type.
    pub fn object(&self, random: &mut Random, variables: &[Variable], named: usize) -> Option<usize> {
        let holds = |t: usize| self.holds[t] >> named & 1 == 1;
        let around: Vec<Variable> = variables.iter().copied().filter(|variable| holds(variable.t)).collect();
        let Variable { mut t, first: mut place } = random.any(&around)?;
        while t != named {
            let row = self.program.types[t];
            if self.program.is_array(t) {
                let index = match random.below(3) {
                    0 => 0,
                    1 => row.b() - 1,
                    _ => random.below(row.b()),
                };
                (t, place) = (row.a(), place + index * self.program.size(row.a()));
            } else {
                let fields: Vec<_> = self.program.fields_of(t).iter().filter(|field| holds(field.t)).collect();
                let field = *random.pick(&fields);
                (t, place) = (field.t, place + field.offset);
            }
        }
        Some(place)
    }

    /// Some place in a variable that has an object of the type, or where the variable ends.
    pub fn place_in(&self, random: &mut Random, variables: &[Variable], named: usize) -> Option<usize> {
        let holds = |variable: &&Variable| self.holds[variable.t] >> named & 1 == 1;
        let around: Vec<Variable> = variables.iter().filter(holds).copied().collect();
        let variable = random.any(&around)?;
        Some(variable.first + random.between(0, self.program.size(variable.t)))
    }

    /// Any object, whatever its type: its address and type.
    pub fn any_object(&self, random: &mut Random, variables: &[Variable]) -> Option<(usize, usize)> {
        let variable = random.any(variables)?;
        let inside: Vec<usize> = (0..=variable.t).filter(|t| self.holds[variable.t] >> t & 1 == 1).collect();
        let named = *random.pick(&inside);
        Some((self.object(random, &[variable], named)?, named))
    }

    /// Rows of calls in a body.
    pub fn calls(&self, procedure: usize) -> Vec<usize> {
        self.program.body(procedure).filter(|s| self.program.statements[*s].kind == CALL).collect()
    }

    /// Rows of calls of a procedure, in any body.
    pub fn calls_of(&self, procedure: usize) -> Vec<usize> {
        let calls = self.program.statements.iter().enumerate();
        calls.filter(|(_, call)| call.kind == CALL && call.a() == procedure).map(|(s, _)| s).collect()
    }

    /// The cells of variables with their kinds, each scalar of them.
    pub fn scalars(&self, variables: &[Variable]) -> Vec<(usize, Kind)> {
        let cells = |variable: &Variable| {
            let layout = self.program.layout(variable.t).iter().enumerate();
            let first = variable.first;
            layout.map(move |(i, kind)| (first + i, *kind))
        };
        variables.iter().flat_map(cells).collect()
    }
}
