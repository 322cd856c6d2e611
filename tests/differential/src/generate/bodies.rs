//! Random bodies: statements, branches, loops and calls.

use super::types::{BOOLEAN, INTEGER};
use super::values::MOD;
use super::Maker;
use crate::image::{most_rows, row};
use listing::{Row, NODES, STATEMENTS};

#[derive(Clone, Copy)]
enum Item {
    Assign,
    Call,
    Deeper,
    Branch,
    Count,
    Repeat,
    Tested,
    Read,
    Write,
    Halt,
    Leave,
    Jump,
}

/// How often each is picked, in thousandths.
const ITEMS: [(usize, Item); 12] = [
    (366, Item::Assign),
    (140, Item::Call),
    (40, Item::Deeper),
    (90, Item::Branch),
    (80, Item::Count),
    (40, Item::Repeat),
    (70, Item::Tested),
    (60, Item::Read),
    (80, Item::Write),
    (4, Item::Halt),
    (20, Item::Leave),
    (10, Item::Jump),
];

impl Maker<'_> {
    /// Makes the procedure's body and answers its first row.
    pub fn make_body(&mut self, procedure: usize) -> usize {
        self.procedure = procedure;
        self.body.clear();
        self.open.clear();
        let items = self.random.between(2, self.scale.items);
        if procedure == 0 {
            self.calls_first();
        }
        self.block(items, 0);
        if procedure + 1 == self.procedures.len() {
            self.fill();
        }
        self.end();
        self.close()
    }

    /// A module body calls, mostly in a loop, before it does anything else.
    fn calls_first(&mut self) {
        let counters = self.counters();
        let counter = if self.random.chance(800) { self.random.any(&counters) } else { None };
        if let Some(counter) = counter {
            self.set_counter(counter, |maker| maker.number(0));
            self.busy.push(counter);
        }
        let start = self.body.len();
        for _ in 0..self.random.between(0, 3) {
            self.item(Item::Call, 0);
        }
        if let Some(counter) = counter {
            self.inner(1);
            self.busy.pop();
            self.back_until(counter, start);
        }
    }

    fn block(&mut self, items: usize, nesting: usize) {
        for _ in 0..items {
            if self.statement_room() == 0 || self.node_room() < 40 {
                return;
            }
            let item = self.random.weighted(&ITEMS);
            self.item(item, nesting);
        }
    }

    fn item(&mut self, item: Item, nesting: usize) {
        let fuel = self.random.weighted(&[(4, 0), (5, 2), (5, 4), (2, 9)]);
        match item {
            Item::Assign => self.emit(|maker| maker.assign(fuel)),
            Item::Call => self.emit(|maker| maker.call(fuel / 2)),
            Item::Deeper => self.recursion(fuel / 2),
            Item::Read => self.emit(|maker| maker.read(fuel)),
            Item::Write => self.emit(|maker| Some(row(6, maker.value(INTEGER, fuel), 0, 0))),
            Item::Halt => self.behind_condition(fuel, |maker| maker.emit(|maker| Some(maker.halt()))),
            Item::Leave => self.behind_condition(fuel, |maker| maker.body.push(row(4, 0, 0, 0))),
            Item::Jump => self.jump(fuel),
            _ if nesting >= 3 => self.emit(|maker| maker.assign(fuel)),
            Item::Branch => self.branch(fuel, nesting),
            Item::Count => self.count(nesting),
            Item::Repeat => self.repeat(nesting),
            Item::Tested => self.tested_block(nesting),
        };
    }

    /// Adds the statement, or takes back the nodes made for it where there is none, or no room.
    fn emit(&mut self, make: impl FnOnce(&mut Self) -> Option<Row>) -> bool {
        let before = self.nodes.len();
        self.daring = self.random.chance(3 * self.scale.risk);
        let made = make(self);
        self.daring = false;
        let fits = self.nodes.len() <= most_rows(NODES);
        match made {
            Some(statement) if fits => self.body.push(statement),
            _ => self.nodes.truncate(before),
        }
        made.is_some() && fits
    }

    fn assign(&mut self, fuel: usize) -> Option<Row> {
        let (target, ty) = self.target(fuel / 2)?;
        let source = match self.types.is_scalar(ty) {
            true => self.tame_value(ty, fuel),
            false => self.object(ty, fuel)?,
        };
        Some(row(0, target, source, 0))
    }

    /// A value that is mostly brought down by MOD, so that a loop does not soon overflow.
    fn tame_value(&mut self, kind: usize, fuel: usize) -> usize {
        let value = self.value(kind, fuel);
        if kind != INTEGER || fuel < 2 || self.random.chance(400) {
            return value;
        }
        let bound = *self.random.pick(&[7, 32, 100, 1000, -9, -100]);
        let right = self.signed(bound);
        self.dyadic(value, MOD, right)
    }

    fn read(&mut self, fuel: usize) -> Option<Row> {
        let target = self.designator(INTEGER, fuel)?;
        Some(row(5, target, 0, 0))
    }

    fn halt(&mut self) -> Row {
        let number = self.random.next() as u32;
        let number = *self.random.pick(&[number, 0, 1, u32::MAX, 1 << 31, 77]);
        row(7, self.constant(INTEGER, number), 0, 0)
    }

    /// A condition whose jump is made good later: its row.
    fn condition(&mut self, make: impl FnOnce(&mut Self) -> usize) -> Option<usize> {
        let made = self.emit(|maker| Some(row(2, make(maker), 0, 0)));
        made.then(|| self.body.len() - 1)
    }

    /// Lets the jump of the row go to what comes next.
    fn here(&mut self, jump: usize) {
        self.body[jump].b = self.body.len() as u16;
    }

    fn branch(&mut self, fuel: usize, nesting: usize) -> bool {
        let Some(test) = self.condition(|maker| maker.value(BOOLEAN, fuel.max(1))) else { return false };
        self.inner(nesting);
        if self.random.chance(400) {
            self.body.push(row(3, 0, 0, 0));
            let over = self.body.len() - 1;
            self.here(test);
            self.inner(nesting);
            self.here(over);
        } else {
            self.here(test);
        }
        true
    }

    fn inner(&mut self, nesting: usize) {
        let items = self.random.between(1, 4);
        self.block(items, nesting + 1);
    }

    /// What ends the body or the run, behind a condition.
    fn behind_condition<R>(&mut self, fuel: usize, inside: impl FnOnce(&mut Self) -> R) -> bool {
        let Some(test) = self.condition(|maker| maker.boolean(fuel.max(1))) else { return false };
        inside(self);
        self.here(test);
        true
    }

    fn recursion(&mut self, fuel: usize) -> bool {
        let Some(depth) = self.procedures[self.procedure].depth else { return false };
        let test = self.condition(|maker| {
            let left = maker.push(row(1, depth, 0, 0));
            let right = maker.number(0);
            maker.dyadic(left, 11, right)
        });
        let Some(test) = test else { return false };
        self.emit(|maker| maker.deeper(fuel));
        self.here(test);
        true
    }

    fn set_counter(&mut self, counter: usize, make: impl FnOnce(&mut Self) -> usize) -> bool {
        self.emit(|maker| {
            let target = maker.push(row(1, counter, 0, 0));
            Some(row(0, target, make(maker), 0))
        })
    }

    fn advance(&mut self, counter: usize) -> bool {
        self.set_counter(counter, |maker| {
            let left = maker.push(row(1, counter, 0, 0));
            let right = maker.number(1);
            maker.dyadic(left, 1, right)
        })
    }

    fn compare_counter(&mut self, counter: usize, operator: usize) -> Option<usize> {
        let bound = self.random.weighted(&[(40, 3), (40, 8), (15, 20), (5, 100)]);
        let bound = self.random.between(1, bound);
        self.condition(|maker| {
            let left = maker.push(row(1, counter, 0, 0));
            let right = maker.number(bound);
            maker.dyadic(left, operator, right)
        })
    }

    /// A loop with its condition before it.
    fn count(&mut self, nesting: usize) -> bool {
        let counters = self.counters();
        let Some(counter) = self.random.any(&counters) else { return false };
        self.set_counter(counter, |maker| maker.number(0));
        let start = self.body.len();
        let Some(test) = self.compare_counter(counter, 9) else { return false };
        self.busy.push(counter);
        self.inner(nesting);
        self.busy.pop();
        self.advance(counter);
        self.body.push(row(3, 0, start, 0));
        self.here(test);
        true
    }

    /// A loop with its condition behind it.
    fn repeat(&mut self, nesting: usize) -> bool {
        let counters = self.counters();
        let Some(counter) = self.random.any(&counters) else { return false };
        self.set_counter(counter, |maker| maker.number(0));
        let start = self.body.len();
        self.busy.push(counter);
        self.inner(nesting);
        self.busy.pop();
        self.back_until(counter, start);
        true
    }

    /// The end of a loop that goes back to the row until the counter is large enough.
    fn back_until(&mut self, counter: usize, start: usize) {
        self.advance(counter);
        if let Some(test) = self.compare_counter(counter, 12) {
            self.body[test].b = start as u16;
        }
    }

    fn tested_block(&mut self, nesting: usize) -> bool {
        let Some((variable, ty)) = self.tested() else { return false };
        let test = self.condition(|maker| maker.push(row(7, variable, ty, 0)));
        let Some(test) = test else { return false };
        self.known.push((variable, ty));
        self.inner(nesting);
        self.known.pop();
        self.here(test);
        true
    }

    fn jump(&mut self, fuel: usize) -> bool {
        if self.random.chance(300) {
            self.open.push(self.body.len());
            self.body.push(row(3, 0, 0, 0));
            return true;
        }
        let Some(test) = self.condition(|maker| maker.boolean(fuel.max(1))) else { return false };
        self.open.push(test);
        true
    }

    /// Fills the tables of nodes and statements, where they are to be full.
    fn fill(&mut self) {
        if self.scale.all_nodes && self.node_room() > 0 {
            let chain = self.node_room();
            self.emit(|maker| Some(row(6, maker.chain(chain), 0, 0)));
        }
        if self.scale.all_statements {
            while self.statements.len() + self.body.len() + 1 < most_rows(STATEMENTS) {
                let next = self.body.len() + 1;
                self.body.push(row(3, 0, next, 0));
            }
        }
    }

    /// A constant under so many signs that all are that many nodes.
    fn chain(&mut self, nodes: usize) -> usize {
        let number = self.random.between(0, 9);
        let mut node = self.number(number);
        for _ in 1..nodes {
            node = self.push(row(6, node, 0, 1));
        }
        node
    }

    fn end(&mut self) {
        let module = self.procedure == 0;
        match self.random.below(100) {
            0..=1 => drop(self.emit(|maker| Some(maker.halt()))),
            2..=3 => self.back(),
            4..=13 if module => self.back(),
            _ => {}
        }
        if !self.body.last().is_some_and(|last| matches!(last.kind, 3 | 4 | 7)) || self.named_end() {
            self.body.push(row(4, 0, 0, 0));
        }
    }

    fn back(&mut self) {
        self.open.push(self.body.len());
        self.body.push(row(3, 0, 0, 0));
    }

    /// Whether a jump goes behind the last row.
    fn named_end(&self) -> bool {
        let end = self.body.len();
        self.body.iter().any(|statement| matches!(statement.kind, 2 | 3) && statement.b as usize == end)
    }

    /// Gives open jumps a target, and adds the body to the statements.
    fn close(&mut self) -> usize {
        let start = self.statements.len();
        for jump in std::mem::take(&mut self.open) {
            let target = self.random.below(self.body.len());
            self.body[jump].b = target as u16;
        }
        for statement in &mut self.body {
            if matches!(statement.kind, 2 | 3) {
                statement.b += start as u16;
            }
        }
        self.statements.append(&mut self.body);
        start
    }
}
