//! Random expressions of a scalar kind.

use super::types::{BOOLEAN, INTEGER, SET};
use super::Maker;
use crate::image::row;

/// Numbers at the edges of what something takes.
const EDGES: [i32; 14] =
    [i32::MIN, i32::MAX, i32::MIN + 1, i32::MAX - 1, -1, 0, 1, 31, 32, 33, 65535, 65536, -65536, 46341];

const DIV: usize = 4;
pub const MOD: usize = 5;

impl Maker<'_> {
    /// An expression of the kind, with about as many operators as fuel says.
    pub fn value(&mut self, kind: usize, fuel: usize) -> usize {
        if self.daring && kind != SET && self.random.chance(120) {
            return if kind == INTEGER { self.trapping() } else { self.element(fuel) };
        }
        if fuel == 0 || self.random.chance(200) {
            return self.leaf(kind, fuel);
        }
        match kind {
            BOOLEAN => self.boolean(fuel),
            INTEGER => self.integer(fuel),
            _ => self.set(fuel),
        }
    }

    fn leaf(&mut self, kind: usize, fuel: usize) -> usize {
        if self.random.chance(600) {
            if let Some(node) = self.designator(kind, fuel) {
                return node;
            }
        }
        self.some_constant(kind)
    }

    fn some_constant(&mut self, kind: usize) -> usize {
        match kind {
            BOOLEAN => {
                let value = self.random.below(2) as u32;
                self.constant(BOOLEAN, value)
            }
            INTEGER => {
                let value = self.some_integer();
                self.constant(INTEGER, value as u32)
            }
            _ => {
                let bits = self.random.next() as u32;
                let fewer = bits & self.random.next() as u32 & self.random.next() as u32;
                let value = *self.random.pick(&[0, bits, fewer, u32::MAX, 1 << 31, 15]);
                self.constant(SET, value)
            }
        }
    }

    pub fn some_integer(&mut self) -> i32 {
        if self.risky() {
            let any = self.random.next() as i32;
            let edge = *self.random.pick(&EDGES);
            return *self.random.pick(&[any, edge]);
        }
        self.random.between(0, 50) as i32 - 12
    }

    pub fn constant(&mut self, kind: usize, value: u32) -> usize {
        self.push(row(0, kind, (value >> 16) as usize, (value & 0xFFFF) as usize))
    }

    pub fn number(&mut self, value: usize) -> usize {
        self.constant(INTEGER, value as u32)
    }

    pub fn signed(&mut self, value: i32) -> usize {
        self.constant(INTEGER, value as u32)
    }

    pub fn dyadic(&mut self, left: usize, operator: usize, right: usize) -> usize {
        self.push(row(5, left, right, operator))
    }

    fn monadic(&mut self, operator: usize, node: usize) -> usize {
        self.push(row(6, node, 0, operator))
    }

    /// Both operands of a kind, sharing the fuel, and the operator.
    fn both(&mut self, kind: usize, operator: usize, fuel: usize) -> usize {
        let part = self.random.below(fuel);
        let left = self.value(kind, part);
        let right = self.value(kind, fuel - 1 - part);
        self.dyadic(left, operator, right)
    }

    fn numbers(&mut self, x: i32, operator: usize, y: i32) -> usize {
        let left = self.signed(x);
        let right = self.signed(y);
        self.dyadic(left, operator, right)
    }

    /// 7 DIV 0, 7 MOD 0, or a quotient, a sum or a negation that overflows.
    fn trapping(&mut self) -> usize {
        if self.random.chance(100) {
            let least = self.signed(i32::MIN);
            return self.monadic(1, least);
        }
        let traps = [(7, DIV, 0), (7, MOD, 0), (i32::MIN, DIV, -1), (i32::MAX, 1, 1), (i32::MIN, 2, 1)];
        let (x, operator, y) = *self.random.pick(&traps);
        self.numbers(x, operator, y)
    }

    fn integer(&mut self, fuel: usize) -> usize {
        match self.random.weighted(&[(6, 1), (6, 2), (4, 3), (4, 4), (6, 5), (3, 0)]) {
            0 => {
                let node = self.value(INTEGER, fuel - 1);
                self.monadic(1, node)
            }
            3 => self.product(fuel),
            operator @ (DIV | MOD) => self.division(operator, fuel),
            operator => self.both(INTEGER, operator, fuel),
        }
    }

    /// Mostly by a small number, so that it seldom overflows.
    fn product(&mut self, fuel: usize) -> usize {
        if self.risky() || self.random.chance(100) {
            return self.both(INTEGER, 3, fuel);
        }
        let left = self.value(INTEGER, fuel - 1);
        let factor = self.random.between(0, 6) as i32 - 3;
        let right = self.signed(factor);
        self.dyadic(left, 3, right)
    }

    /// Mostly by a number that is not 0, as often negative as positive, so that it seldom traps.
    fn division(&mut self, operator: usize, fuel: usize) -> usize {
        if self.risky() {
            return match self.random.chance(250) {
                true => self.numbers(i32::MIN, operator, -1),
                false => self.both(INTEGER, operator, fuel),
            };
        }
        if operator == MOD && self.random.chance(30) {
            return self.numbers(i32::MIN, MOD, -1);
        }
        let left = match self.random.chance(100) {
            true => {
                let edge = *self.random.pick(&EDGES);
                self.signed(edge)
            }
            false => self.value(INTEGER, fuel - 1),
        };
        let right = match fuel > 1 && self.random.chance(200) {
            true => self.found_divisor(fuel / 2),
            false => {
                let divisor = self.some_divisor();
                self.signed(divisor)
            }
        };
        self.dyadic(left, operator, right)
    }

    /// Any number but 0, mostly a small one.
    fn some_divisor(&mut self) -> i32 {
        let size = match self.random.below(10) {
            0 => self.random.between(1, 1 << 31) as i64,
            1 => 1,
            2 => *self.random.pick(&[1 << 31, (1 << 31) - 1, 1 << 30, 65_536, 46_341]),
            _ => self.random.between(1, 30) as i64,
        };
        let divisor = if self.random.chance(500) { -size } else { size };
        i32::try_from(divisor).unwrap_or(i32::MAX)
    }

    /// A divisor that the run finds: v MOD -k - 1, from -k to -1, or v MOD k + 1, from 1 to k.
    fn found_divisor(&mut self, fuel: usize) -> usize {
        let most = self.random.between(1, 9) as i32;
        let value = self.value(INTEGER, fuel);
        let (bound, operator) = *self.random.pick(&[(-most, 2), (most, 1)]);
        let right = self.signed(bound);
        let remainder = self.dyadic(value, MOD, right);
        let one = self.signed(1);
        self.dyadic(remainder, operator, one)
    }

    /// An INTEGER of 0 to bound - 1, but for a seldom mistake.
    fn bounded(&mut self, bound: usize, fuel: usize) -> usize {
        if self.daring && self.random.chance(250) {
            return self.trapping();
        }
        if self.risky() {
            let bound = bound as i32;
            let near = [(3, bound), (1, bound - 1), (2, -1), (1, bound + 1), (1, i32::MAX), (1, i32::MIN), (1, 0)];
            let edge = self.random.weighted(&near);
            return match self.random.chance(600) {
                true => self.signed(edge),
                false => self.value(INTEGER, fuel / 2),
            };
        }
        if fuel == 0 || self.random.chance(450) {
            let place = self.random.below(bound);
            return self.number(place);
        }
        let value = self.value(INTEGER, fuel / 2);
        if self.random.chance(700) {
            let right = self.number(bound);
            return self.dyadic(value, MOD, right);
        }
        // From bound - 1 on down.
        let right = self.signed(-(bound as i32));
        let remainder = self.dyadic(value, MOD, right);
        let last = self.number(bound - 1);
        self.dyadic(remainder, 1, last)
    }

    pub fn index(&mut self, length: usize, fuel: usize) -> usize {
        self.bounded(length, fuel)
    }

    fn set(&mut self, fuel: usize) -> usize {
        match self.random.weighted(&[(4, 1), (4, 2), (4, 3), (4, 6), (5, 16), (3, 0)]) {
            0 => {
                let node = self.value(SET, fuel - 1);
                self.monadic(1, node)
            }
            16 => self.range(fuel),
            operator => self.both(SET, operator, fuel),
        }
    }

    fn range(&mut self, fuel: usize) -> usize {
        let from = self.bounded(32, fuel / 2);
        let to = self.bounded(32, fuel / 2);
        self.dyadic(from, 16, to)
    }

    pub fn boolean(&mut self, fuel: usize) -> usize {
        match self.random.below(12) {
            0 | 1 => self.comparison(fuel),
            2..=4 => {
                let operator = self.random.between(9, 12);
                self.both(INTEGER, operator, fuel)
            }
            5..=7 => {
                let operator = self.random.between(13, 14);
                self.both(BOOLEAN, operator, fuel)
            }
            8 => self.element(fuel),
            9 => {
                let node = self.value(BOOLEAN, fuel - 1);
                self.monadic(2, node)
            }
            _ => match self.test() {
                Some(node) => node,
                None => self.comparison(fuel),
            },
        }
    }

    fn comparison(&mut self, fuel: usize) -> usize {
        let kind = self.random.below(3);
        let operator = self.random.between(7, 8);
        self.both(kind, operator, fuel)
    }

    /// IN; in a daring statement often of a range, so that its traps meet IN's.
    fn element(&mut self, fuel: usize) -> usize {
        let member = self.bounded(32, fuel / 2);
        let set = match self.daring && self.random.chance(400) {
            true => self.range(fuel / 2),
            false => self.value(SET, fuel / 2),
        };
        self.dyadic(member, 15, set)
    }

    /// A type test, where the body has a VAR parameter of a record type.
    fn test(&mut self) -> Option<usize> {
        let (variable, ty) = self.tested()?;
        Some(self.push(row(7, variable, ty, 0)))
    }

    pub fn tested(&mut self) -> Option<(usize, usize)> {
        let mut choices = self.visible();
        choices.retain(|variable| self.can_guard(*variable));
        let variable = self.random.any(&choices)?;
        let extensions = self.types.extensions(self.variables[variable].ty);
        Some((variable, *self.random.pick(&extensions)))
    }
}
