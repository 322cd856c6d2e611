//! The lines of a step.
use crate::engine::{Before, State};
use crate::layout::{value_words, Frame, Layout};
use door::Numbers;
use model::program::{ASSIGN, JUMP_IF_FALSE, READ, RETURN, VAR_PARAMETER};
use model::words::counted;

/// How wide a line of a step is at most; a longer statement is cut.
pub const WIDTH: usize = 100;

/// What a line that was cut ends with.
const CUT: &str = " ..";

/// Where what a statement did is written.
const INDENT: usize = 24;

/// What is written above the first step.
pub const HEAD: &str = "   step depth   row  procedure and statement";

/// One step: what it began with, and what it left.
pub struct Step<'a> {
    pub layout: &'a Layout<'a>,
    pub before: &'a Before,
    pub after: &'a State,
    /// The frames that it began with.
    pub frames: &'a [Frame],
    pub inputs: &'a [i32],
    /// The most changes that are written.
    pub most: usize,
}

impl Step<'_> {
    pub fn lines(&self) -> String {
        let row = self.before.numbers.row as usize;
        let (step, depth) = (self.after.numbers.steps, self.frames.len() - 1);
        let procedure = self.layout.names.procedure(self.frames[depth].procedure);
        let mut lines = vec![format!("{step:>7} {depth:>5} {row:>5}  {procedure}: {}", self.layout.statement(row))];
        let done = self.counts().into_iter().chain(self.changed()).chain(self.gone_to());
        lines.extend(done.map(|line| format!("{:INDENT$}{line}", "")));
        lines.iter().map(|line| cut(line) + "\n").collect()
    }

    /// The kind of the statement.
    fn kind(&self) -> u8 {
        self.layout.program.statements[self.before.numbers.row as usize].kind
    }

    /// What was read and written, by the engine's counts.
    fn counts(&self) -> Vec<String> {
        let (before, after) = (&self.before.numbers, &self.after.numbers);
        let reads = (before.read..after.read).map(|place| {
            let (number, all) = (self.inputs[place as usize], self.inputs.len());
            format!("reads {number}, input {} of {all}", place + 1)
        });
        let writes = (before.written..after.written).map(|place| {
            let number = self.after.output[place as usize];
            format!("writes {number}, output {}", place + 1)
        });
        reads.chain(writes).collect()
    }

    /// The variables that changed, and the parameters of a frame that is new.
    fn changed(&self) -> Vec<String> {
        let mut changes = self.changes_below_top();
        if changes.is_empty() && self.after.numbers.trap == 0 && [ASSIGN, READ].contains(&self.kind()) {
            return vec!["no variable changed".to_string()];
        }
        let mut frames = self.frames.to_vec();
        if self.after.numbers.top > self.before.numbers.top {
            let frame = self.newest_frame();
            changes.extend(self.parameters(frame));
            frames.push(frame);
        }
        let shown = changes.iter().take(self.most);
        let mut lines: Vec<String> = shown.map(|change| self.told(&frames, change)).collect();
        if changes.len() > self.most {
            lines.push(format!("and {} more", counted(changes.len() - self.most, "change")));
        }
        lines
    }

    /// The cells of frames that were there before and are still there.
    fn changes_below_top(&self) -> Vec<Change> {
        let kept = self.before.numbers.top.min(self.after.numbers.top) as usize;
        let cells = self.before.cells[..kept].iter().zip(&self.after.store);
        let differing = cells.enumerate().filter(|(_, (before, after))| before != after);
        differing.map(|(cell, _)| Change::Cell(cell)).collect()
    }

    fn newest_frame(&self) -> Frame {
        let Numbers { row, base, .. } = self.after.numbers;
        Frame { procedure: self.layout.program.procedure_at(row as usize), base: base as usize }
    }

    /// The parameters of a new frame. Its locals are zero.
    fn parameters(&self, frame: Frame) -> Vec<Change> {
        let program = self.layout.program;
        let parameter = |v: usize| {
            let (row, first) = (program.variables[v], frame.base + program.place(v));
            match row.kind {
                VAR_PARAMETER => vec![Change::Reference { v, first }],
                _ => (first..first + program.size(row.a())).map(Change::Cell).collect(),
            }
        };
        program.parameters(frame.procedure).flat_map(parameter).collect()
    }

    /// A change in words. The frames are those of the statement and, where it calls, the new one.
    fn told(&self, frames: &[Frame], change: &Change) -> String {
        let (layout, store) = (self.layout, &self.after.store);
        match *change {
            Change::Cell(cell) => match layout.scalar(frames, cell) {
                Some(part) => {
                    format!("{} := {}", layout.told(self.frames, &part), value_words(part.t, store[cell]))
                }
                None => format!("cell {cell} := {}", store[cell]),
            },
            Change::Reference { v, first } => {
                let [address, t] = [store[first], store[first + 1]].map(|number| number as usize);
                let object = layout.named_object(self.frames, address, t);
                let of = if layout.program.is_record(t) {
                    format!(", a {}", layout.names.type_row(t))
                } else {
                    String::new()
                };
                format!("{}{} is {object}{of}", layout.names.variable(v), layout.of_frame(v, self.frames.len()))
            }
        }
    }

    /// Where the engine goes on, where the statement's words do not say it.
    fn gone_to(&self) -> Option<String> {
        let (before, after) = (&self.before.numbers, &self.after.numbers);
        match self.kind() {
            _ if after.outcome != 0 => None,
            JUMP_IF_FALSE if after.row != before.row + 1 => Some(format!("goes to row {}", after.row)),
            RETURN => Some(format!("returns to {}", self.layout.place(after.row as usize))),
            _ => None,
        }
    }
}

/// What a step changed.
enum Change {
    /// The cell of a scalar.
    Cell(usize),
    /// A VAR parameter, from this cell on.
    Reference { v: usize, first: usize },
}

/// A line that is not wider than others may be.
pub fn cut(line: &str) -> String {
    if line.len() <= WIDTH {
        return line.to_string();
    }
    let kept: String = line.chars().take(WIDTH - CUT.len()).collect();
    format!("{}{CUT}", kept.trim_end())
}
