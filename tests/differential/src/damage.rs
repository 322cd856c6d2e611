//! Damage to what a continuation is given: numbers of the earlier result, cells of the store, lengths of the lists.

use crate::frames::{Frame, Given, Sight, VarParameter};
use crate::random::Random;
use model::types::Kind;

/// Changes one or more numbers. What is changed may still be sound.
pub fn damage(random: &mut Random, sight: &Sight, given: &mut Given) {
    let frames = sight.frames(given);
    let mut damage = Damage { random, sight, frames, given };
    for _ in 0..damage.random.weighted(&[(14, 1), (4, 2), (1, 3)]) {
        damage.once();
    }
}

/// Gives a sound state another mark, or its mark another store: about top and the store's length, or far off.
pub fn other_mark(random: &mut Random, given: &mut Given) {
    let Given { lent, from } = given;
    let (top, cells) = (from.top as usize, lent.store.len());
    let mark = match random.below(12) {
        0 => top - 1,
        1 => random.below(top),
        2 => top,
        3 => random.between(top, cells),
        4 => cells,
        5 => cells + 1,
        6 => cells + random.between(2, 40),
        7 => from.mark as usize + 65_536,
        8 => *random.pick(&[0, 65_536, 1 << 31, u32::MAX as usize]),
        shorter => {
            let cut = (from.mark as usize).saturating_sub(shorter - 9);
            lent.store.truncate(cut.max(top));
            return;
        }
    };
    from.mark = mark as u32;
}

struct Damage<'a, 'r> {
    random: &'r mut Random,
    sight: &'a Sight<'a>,
    /// Of the state before the damage, the oldest first.
    frames: Vec<Frame>,
    given: &'r mut Given,
}

impl Damage<'_, '_> {
    fn once(&mut self) {
        match self.random.below(100) {
            0..=4 => self.outcome(),
            5..=9 => self.row(),
            10..=14 => self.base_and_top(),
            15..=34 => self.link(),
            35..=68 => self.var_parameter(),
            69..=79 => self.variable(),
            80..=85 => self.counts(),
            86..=88 => self.steps(),
            89..=93 => self.store_length(),
            94..=98 => self.older(),
            _ => self.any_cell(),
        }
    }

    /// One of the five numbers that are 0 after a run whose steps are used up.
    fn outcome(&mut self) {
        let number = *self.random.pick(&[1, 1, 2, 3, 10, 13, 14, 65_536, u32::MAX]);
        let from = &mut self.given.from;
        match self.random.below(5) {
            0 => from.refusal = number,
            1 => from.fault = number,
            2 => from.outcome = number,
            3 => from.trap = number,
            _ => from.halt = number as i32,
        }
    }

    fn row(&mut self) {
        let all = self.sight.program.statements.len();
        let old = self.given.from.row;
        let any = self.random.below(all) as u32;
        self.given.from.row = *self.random.pick(&[
            any,
            any,
            old.wrapping_add(1),
            old.wrapping_sub(1),
            all as u32,
            old.wrapping_add(65_536),
            u32::MAX,
        ]);
    }

    fn base_and_top(&mut self) {
        let frame = *self.random.pick(&self.frames);
        let ends = [frame.base, self.sight.end(&frame), self.given.lent.store.len(), 0].map(|end| end as u32);
        let by = self.random.between(1, 3) as u32;
        let pick = |random: &mut Random, old: u32| {
            let others = [ends[0], ends[1], ends[2], ends[3], u32::MAX, 65_536, old.wrapping_add(65_536)];
            match random.below(4) {
                0 => old.wrapping_add(by),
                1 => old.wrapping_sub(by),
                _ => *random.pick(&others),
            }
        };
        let (base, top) = (self.given.from.base, self.given.from.top);
        match self.random.below(6) {
            0 | 1 => self.given.from.base = pick(self.random, base),
            2 | 3 => self.given.from.top = pick(self.random, top),
            4 => (self.given.from.base, self.given.from.top) = (base.wrapping_add(by), top.wrapping_add(by)),
            _ => (self.given.from.base, self.given.from.top) = (base.wrapping_sub(by), top.wrapping_sub(by)),
        }
        if self.random.chance(300) {
            // The cells that are taken for links then are in range.
            let base = self.given.from.base as usize;
            self.given.lent.store.iter_mut().skip(base).take(3).for_each(|cell| *cell = 0);
        }
    }

    fn put(&mut self, cell: usize, number: i64) {
        if let Some(cell) = self.given.lent.store.get_mut(cell) {
            *cell = number;
        }
    }

    fn cell(&self, cell: usize) -> i64 {
        self.given.lent.store.get(cell).copied().unwrap_or(0)
    }

    /// A number near another, or the same number but for bits that some width cuts off.
    fn near(&mut self, old: i64) -> i64 {
        let by = self.random.between(1, 3) as i64;
        match self.random.below(10) {
            0 | 1 => old.wrapping_add(by),
            2 | 3 => old.wrapping_sub(by),
            4 => old.wrapping_add(1 << 32),
            5 => old.wrapping_sub(1 << 32),
            6 => old.wrapping_add(1 << 16),
            7 => old.wrapping_add(i64::MIN),
            8 => -1,
            _ => *self.random.pick(&[i64::MIN, i64::MAX, 65_535, 65_536, 1 << 32, (1 << 32) - 1, !old, 0]),
        }
    }

    fn link(&mut self) {
        if self.frames.len() == 1 && self.random.chance(700) {
            return self.without_calls();
        }
        let number = self.random.below(self.frames.len());
        let number = if self.random.chance(500) { self.frames.len() - 1 } else { number };
        let Frame { base, procedure } = self.frames[number];
        let which = self.random.below(3);
        let other = *self.random.pick(&self.frames);
        let procedures = self.sight.program.procedures.len();
        let older = self.frames[number.saturating_sub(1)].procedure;
        let after_call = |random: &mut Random, calls: Vec<usize>| random.any(&calls).map(|call| call as i64 + 1);
        let old = self.cell(base + which);
        let better = match (which, self.random.below(4)) {
            (0, 0) => Some(self.random.below(procedures) as i64),
            (0, 1) => Some((procedures + self.random.below(2)) as i64),
            (1, 0 | 1) => after_call(self.random, self.sight.calls(older)),
            (1, 2) => after_call(self.random, self.sight.calls_of(procedure)),
            (2, 0) => Some(other.base as i64),
            (2, 1) => Some(self.sight.end(&other) as i64),
            _ => None,
        };
        let new = better.unwrap_or_else(|| self.near(old));
        self.put(base + which, new);
    }

    /// What a state has whose only frame is procedure 0's.
    fn without_calls(&mut self) {
        match self.random.below(10) {
            0 => self.outcome(),
            1 => self.row(),
            2..=3 => self.base_and_top(),
            4..=6 => self.variable(),
            7 => self.counts(),
            8 => self.steps(),
            _ => self.store_length(),
        }
    }

    fn var_parameter(&mut self) {
        let mut parameters = self.sight.var_parameters(&self.frames);
        if self.random.chance(400) && parameters.iter().any(|parameter| parameter.frame + 1 < self.frames.len()) {
            parameters.retain(|parameter| parameter.frame + 1 < self.frames.len());
        }
        let Some(parameter) = self.random.any(&parameters) else { return self.link() };
        let VarParameter { t, first, .. } = parameter;
        let everywhere = self.sight.all(&self.frames);
        let own = self.sight.own(&self.frames[parameter.frame]);
        let younger: Vec<_> =
            self.frames[parameter.frame + 1..].iter().flat_map(|frame| self.sight.own(frame)).collect();
        let [address, named] = [self.cell(first), self.cell(first + 1)];
        let row = named.clamp(0, self.sight.program.types.len() as i64 - 1) as usize;
        let object = match self.random.below(20) {
            0 | 1 => self.sight.object_for(self.random, &everywhere, t),
            2 | 3 => self.sight.object_for(self.random, &own, t),
            4..=7 => self.sight.object_for(self.random, &younger, t),
            8 => self.sight.any_object(self.random, &everywhere),
            9 => self.sight.any_object(self.random, &everywhere).map(|(address, _)| (address, row)),
            10..=12 => self.base_part(t),
            13 | 14 => Some((self.some_end(), row)),
            15 => return self.put_near(first, address),
            16 => return self.put_near(first + 1, named),
            17 => return self.other_type(first + 1, t),
            18 => self.sight.place_in(self.random, &everywhere, row).map(|address| (address, row)),
            _ => None,
        };
        match object {
            Some((address, named)) => {
                self.put(first, address as i64);
                self.put(first + 1, named as i64);
            }
            None => {
                let cell = first + self.random.below(2);
                self.put_near(cell, self.cell(cell));
            }
        }
    }

    fn put_near(&mut self, cell: usize, old: i64) {
        let new = self.near(old);
        self.put(cell, new);
    }

    /// The address of an extension, with a base's type.
    fn base_part(&mut self, t: usize) -> Option<(usize, usize)> {
        let variables = self.sight.all(&self.frames);
        for _ in 0..5 {
            let (address, named) = self.sight.object_for(self.random, &variables, t)?;
            let base = self.sight.program.base_of(named).filter(|base| self.sight.program.extends(*base, t));
            if let Some(base) = base {
                return Some((address, base));
            }
        }
        None
    }

    /// Where a frame, the globals or a variable ends, or a frame begins.
    fn some_end(&mut self) -> usize {
        let frame = *self.random.pick(&self.frames);
        let after = |random: &mut Random, sight: &Sight| {
            let variable = random.any(&sight.own(&frame)).or_else(|| random.any(&sight.globals()))?;
            Some(variable.first + sight.program.size(variable.t))
        };
        match self.random.below(4) {
            0 => frame.base,
            1 => self.sight.end(&frame),
            2 => self.sight.program.globals(),
            _ => after(self.random, self.sight).unwrap_or(0),
        }
    }

    /// Another type in a type cell: any, one that extends the parameter's, or none.
    fn other_type(&mut self, cell: usize, t: usize) {
        let types = self.sight.program.types.len();
        let extensions: Vec<usize> = (t..types).filter(|u| self.sight.program.extends(*u, t)).collect();
        let any = self.random.below(types);
        let extension = *self.random.pick(&extensions);
        let new = *self.random.pick(&[any, extension, extension, types, types + 1, t]);
        self.put(cell, new as i64);
    }

    /// A variable's cell: around the range of its kind, or within it.
    fn variable(&mut self) {
        let variables = self.sight.all(&self.frames);
        let Some(variable) = self.random.any(&variables) else { return self.row() };
        let cells = self.sight.scalars(&[variable]);
        let Some((cell, kind)) = self.random.any(&cells) else { return self.row() };
        let old = self.cell(cell);
        let edges = match kind {
            Kind::Boolean => [0, 1, 2, -1],
            Kind::Integer => [i32::MIN.into(), i32::MAX.into(), (1 << 31), -(1 << 31) - 1],
            _ => [0, u32::MAX.into(), 1 << 32, -1],
        };
        let new = if self.random.chance(700) { *self.random.pick(&edges) } else { self.near(old) };
        self.put(cell, new);
    }

    /// Counts, and the lengths of their lists.
    fn counts(&mut self) {
        let by = *self.random.pick(&[0, 0, 1, 1, 2, 40]);
        let input = self.random.chance(500);
        let (length, count) = match input {
            true => (self.given.lent.input.len(), self.given.from.read),
            false => (self.given.lent.output.len(), self.given.from.written),
        };
        let shorter = (count as usize).saturating_sub(by);
        let length = match self.random.below(4) {
            0 => shorter,
            1 => (count as usize).saturating_add(by),
            _ => length,
        };
        let longer = (length as u64).saturating_add(by as u64);
        let count = *self.random.pick(&[count, longer, longer, length as u64, count.wrapping_add(1 << 32), u64::MAX]);
        if input {
            self.given.lent.input.resize(length.min(2000), 5);
            self.given.from.read = count;
        } else {
            self.given.lent.output.resize(length.min(2000), 5);
            self.given.from.written = count;
        }
    }

    /// Steps done: as many as may be, one more, or any number.
    fn steps(&mut self) {
        let most = u32::MAX - self.given.lent.steps;
        let any = self.random.next() as u32;
        self.given.from.steps =
            *self.random.pick(&[most, most.saturating_add(1), most.saturating_sub(1), u32::MAX, any, 0]);
    }

    fn store_length(&mut self) {
        let top = self.given.from.top.min(65_536) as usize;
        let needed = self.sight.program.globals() + self.sight.program.frame(0);
        let length = match self.random.below(12) {
            0..=2 => top.saturating_sub(1),
            3..=4 => top,
            5 => top + 1,
            6 => needed,
            7 => needed.saturating_sub(1),
            8 => needed + self.random.below(top.saturating_sub(needed) + 1),
            9..=10 => self.given.lent.store.len() + self.random.between(1, 40),
            _ => *self.random.pick(&[65_536, 65_537, 0]),
        };
        let fill = self.random.next() as i64;
        self.given.lent.store.resize(length, fill);
    }

    /// An older frame's state, which is sound, or only a part of it.
    fn older(&mut self) {
        let Some(Frame { base, .. }) = self.frames.last().copied().filter(|_| self.frames.len() > 1) else {
            return self.row();
        };
        let [row, older] = [self.cell(base + 1), self.cell(base + 2)];
        let part = self.random.below(10);
        if part != 0 {
            self.given.from.row = row as u32;
        }
        if part != 1 {
            self.given.from.base = older as u32;
        }
        if part != 2 {
            self.given.from.top = base as u32;
        }
    }

    fn any_cell(&mut self) {
        let cell = self.random.below(self.given.lent.store.len().max(1));
        let old = self.cell(cell);
        self.put_near(cell, old);
    }
}
