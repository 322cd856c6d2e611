//! Where variables lie: frames by their links, and cells as paths of variables.
use doordump::statement;
use listing::{set_words, Names, Tables};
use model::program::VAR_PARAMETER;
use model::types::{BOOLEAN, SET};
use model::Program;
use std::ops::Range;

/// A program with its tables and the names of their rows.
pub struct Layout<'a> {
    pub tables: &'a Tables,
    pub names: &'a Names,
    pub program: &'a Program,
}

/// A frame that the links lead to.
#[derive(Clone, Copy, Debug, PartialEq, Eq)]
pub struct Frame {
    pub procedure: usize,
    pub base: usize,
}

/// A part of a variable: its words, its type, and whose it is.
pub struct Part {
    path: String,
    pub t: usize,
    variable: usize,
    /// The depth of its frame; none of a global.
    depth: Option<usize>,
}

impl Layout<'_> {
    /// The frames of a state, procedure 0's first, so that a frame's place is its depth. The newest is that of the row.
    pub fn frames(&self, cells: &[i64], row: u32, base: u32) -> Vec<Frame> {
        let mut frame = Frame { procedure: self.program.procedure_at(row as usize), base: base as usize };
        let mut frames = vec![frame];
        while frame.procedure != 0 {
            let [procedure, base] = [0, 2].map(|link| cells[frame.base + link] as usize);
            assert!(base < frame.base, "the frame at {} has no older one", frame.base);
            frame = Frame { procedure, base };
            frames.push(frame);
        }
        frames.reverse();
        frames
    }

    /// Where these frames were called, the newest first, by their links; the same place in a row once, with a count.
    pub fn calls(&self, cells: &[i64], frames: &[Frame]) -> Vec<String> {
        let call = |frame: &Frame| cells[frame.base + 1] as usize - 1;
        let rows: Vec<usize> = frames.iter().skip(1).rev().map(call).collect();
        let told = |rows: &[usize]| match rows.len() {
            1 => self.place(rows[0]),
            times => format!("{}, {times} times", self.place(rows[0])),
        };
        rows.chunk_by(|row, next| row == next).map(told).collect()
    }

    /// The variables of a frame, or the globals.
    pub fn variables(&self, frame: Option<Frame>) -> Range<usize> {
        let of = |Frame { procedure, .. }| self.program.parameters(procedure).start..self.program.locals(procedure).end;
        frame.map_or(0..self.program.global_count(), of)
    }

    /// The scalar in a cell; none where the cell is a link or of a VAR parameter.
    pub fn scalar(&self, frames: &[Frame], cell: usize) -> Option<Part> {
        self.part(frames, cell, |t, _| self.program.is_scalar(t))
    }

    /// The object of a type with cells that begins in a cell.
    fn object(&self, frames: &[Frame], cell: usize, wanted: usize) -> Option<Part> {
        self.part(frames, cell, |t, offset| t == wanted && offset == 0)
    }

    /// The part of a variable with this cell that `is_it`, by its type and the cell's place in it.
    fn part(&self, frames: &[Frame], cell: usize, is_it: impl Fn(usize, usize) -> bool) -> Option<Part> {
        let depth = frames.iter().rposition(|frame| frame.base <= cell);
        let frame = depth.map(|depth| frames[depth]);
        let base = frame.map_or(0, |frame| frame.base);
        let holds = |v: &usize| (0..self.cells_of(*v)).contains(&cell.wrapping_sub(base + self.program.place(*v)));
        let variable = self.variables(frame).find(holds)?;
        let (mut t, mut offset) = (self.program.variables[variable].a(), cell - base - self.program.place(variable));
        let mut path = self.names.variable(variable);
        while !is_it(t, offset) {
            let (word, inner, first) = self.inner(t, offset)?;
            path += &word;
            (t, offset) = (inner, offset - first);
        }
        Some(Part { path, t, variable, depth })
    }

    /// The cells of a variable that are its own; a VAR parameter's are no object's.
    fn cells_of(&self, v: usize) -> usize {
        let row = self.program.variables[v];
        if row.kind == VAR_PARAMETER {
            0
        } else {
            self.program.size(row.a())
        }
    }

    /// The element or field that has a cell: its words, its type and its first cell.
    fn inner(&self, t: usize, offset: usize) -> Option<(String, usize, usize)> {
        if self.program.is_array(t) {
            let element = self.program.types[t].a();
            let size = self.program.size(element);
            let index = offset / size;
            return Some((format!("[{index}]"), element, index * size));
        }
        let fields = self.program.fields_of(t).iter().enumerate();
        let mut holding =
            fields.filter(|(_, field)| (field.offset..field.offset + self.program.size(field.t)).contains(&offset));
        let (number, field) = holding.next()?;
        Some((format!(".{}", self.names.field(self.tables, Some(t), number)), field.t, field.offset))
    }

    /// A part in words, for a statement of the newest of these frames: whose it is where it is another's.
    pub fn told(&self, frames: &[Frame], part: &Part) -> String {
        let Part { path, variable, depth, .. } = part;
        match depth {
            Some(depth) if depth + 1 == frames.len() => path.clone(),
            Some(depth) => format!("{path}{}", self.of_frame(*variable, *depth)),
            None if self.is_hidden(frames, *variable) => format!("{path} (global)"),
            None => path.clone(),
        }
    }

    /// Whose a variable of another frame is.
    pub fn of_frame(&self, variable: usize, depth: usize) -> String {
        let owner = self.program.owner(variable).map(|p| self.names.procedure(p)).unwrap_or_default();
        format!(" of {owner} at depth {depth}")
    }

    /// Whether the newest frame has a variable of a global's name.
    fn is_hidden(&self, frames: &[Frame], global: usize) -> bool {
        let name = self.names.variable(global);
        self.variables(frames.last().copied()).any(|v| self.names.variable(v) == name)
    }

    /// What a VAR parameter with this address and type names, for a statement of the newest of these frames. Objects
    /// without cells have no cell to tell them by.
    pub fn named_object(&self, frames: &[Frame], address: usize, t: usize) -> String {
        match self.object(frames, address, t) {
            _ if self.program.size(t) == 0 => format!("an object without cells at cell {address}"),
            Some(part) => self.told(frames, &part),
            None => format!("cell {address}"),
        }
    }

    /// A statement in words.
    pub fn statement(&self, row: usize) -> String {
        statement::statement(self.tables, self.names, row)
    }

    /// A node of a statement in words.
    pub fn node(&self, statement: usize, node: usize) -> String {
        statement::expression(self.tables, self.names, statement, node)
    }

    /// A statement row with its procedure.
    pub fn place(&self, row: usize) -> String {
        format!("{} row {row}", self.names.procedure(self.program.procedure_at(row)))
    }
}

/// A scalar's value in the words of its type.
pub fn value_words(t: usize, number: i64) -> String {
    match (t, number) {
        (BOOLEAN, 0) => "FALSE".to_string(),
        (BOOLEAN, 1) => "TRUE".to_string(),
        (SET, _) => u32::try_from(number).map_or_else(|_| number.to_string(), set_words),
        _ => number.to_string(),
    }
}
