//! Random calls and their arguments.

use super::types::INTEGER;
use super::{Maker, Procedure, VALUE};
use crate::image::row;
use listing::Row;

impl Maker<'_> {
    /// A call of a later procedure, which ends by itself; seldom of any.
    pub fn call(&mut self, fuel: usize) -> Option<Row> {
        let first = if self.risky() { 1 } else { self.procedure + 1 };
        let choices: Vec<usize> = (first..self.procedures.len()).collect();
        let called = self.random.any(&choices)?;
        self.call_of(called, None, fuel)
    }

    /// A call of any procedure that has a depth, with this one's depth less 1.
    pub fn deeper(&mut self, fuel: usize) -> Option<Row> {
        let depth = self.procedures[self.procedure].depth?;
        let choices: Vec<usize> = (1..self.procedures.len()).filter(|p| self.procedures[*p].depth.is_some()).collect();
        let called = if self.random.chance(600) { self.procedure } else { self.random.any(&choices)? };
        self.call_of(called, Some(depth), fuel)
    }

    fn call_of(&mut self, called: usize, depth: Option<usize>, fuel: usize) -> Option<Row> {
        let Procedure { first, parameters, .. } = self.procedures[called];
        let mut held = vec![];
        for parameter in first..first + parameters {
            let argument = match self.procedures[called].depth == Some(parameter) {
                true => self.depth_argument(depth),
                false => self.argument(parameter, fuel)?,
            };
            held.push(argument);
        }
        let start = if held.is_empty() { 0 } else { self.nodes.len() };
        for node in held {
            self.push(row(8, node, 0, 0));
        }
        Some(row(1, called, start, 0))
    }

    fn depth_argument(&mut self, depth: Option<usize>) -> usize {
        let Some(variable) = depth else {
            let depth = self.random.weighted(&[(50, 2), (30, 5), (10, 12), (5, 60), (5, 3000)]);
            let depth = self.random.between(0, depth);
            return self.number(depth);
        };
        let left = self.push(row(1, variable, 0, 0));
        let right = self.number(1);
        self.dyadic(left, 2, right)
    }

    fn argument(&mut self, parameter: usize, fuel: usize) -> Option<usize> {
        let wanted = self.variables[parameter];
        if wanted.kind == VALUE && self.types.is_scalar(wanted.ty) {
            return Some(self.value(wanted.ty, fuel));
        }
        self.object(wanted.ty, fuel)
    }

    /// A designator of what can be assigned or passed to an object of the type.
    pub fn object(&mut self, ty: usize, fuel: usize) -> Option<usize> {
        match self.types.is_record(ty) {
            true => self.extending(ty, fuel),
            false => self.designator(ty, fuel),
        }
    }

    /// The variables of kind INTEGER that can count a loop.
    pub fn counters(&self) -> Vec<usize> {
        let free = |v: &usize| self.variables[*v].ty == INTEGER && !self.busy.contains(v);
        let depth = self.procedures[self.procedure].depth;
        self.visible().into_iter().filter(|v| free(v) && Some(*v) != depth).collect()
    }
}
