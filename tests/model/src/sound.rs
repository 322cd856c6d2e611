//! Sound: document 01's paragraph, decided of a state.

use crate::image::Row;
use crate::machine::{range, Cell, State, MOST_CELLS};
use crate::program::*;
use crate::rules::{self, Rule};
use crate::types::Kind;
use crate::{ask, Fault};
use std::ops::Range;

/// Decides whether a state is sound; where it is not, says why.
pub fn sound(program: &Program, state: &State) -> Result<(), Fault> {
    Watch::new(program).sound(state)
}

/// A frame that the links lead to.
struct Frame {
    procedure: usize,
    base: usize,
}

/// Decides of the states of one program which are sound.
pub struct Watch<'a> {
    program: &'a Program,
    /// Of each type, for each offset from 0 to its size: the types with which objects are declared that begin there in
    /// an object of the type, itself included, as a set of type rows (there are at most 64). An object without cells
    /// may begin where the last one ends.
    beginnings: Vec<Vec<u64>>,
}

impl<'a> Watch<'a> {
    pub fn new(program: &'a Program) -> Watch<'a> {
        let mut watch = Watch { program, beginnings: Vec::new() };
        for t in 0..program.types.len() {
            let beginnings = watch.beginnings_in(t);
            watch.beginnings.push(beginnings);
        }
        watch
    }

    pub fn program(&self) -> &'a Program {
        self.program
    }

    /// "an element or field at any depth": of a type whose element and field types are done.
    fn beginnings_in(&self, t: usize) -> Vec<u64> {
        let mut here = vec![0; self.program.size(t) + 1];
        here[0] = 1 << t;
        if self.program.is_array(t) {
            let (element, length) = (self.program.types[t].a(), self.program.types[t].b());
            for i in 0..length {
                self.declare(&mut here, i * self.program.size(element), element);
            }
        }
        for field in self.program.fields_of(t) {
            self.declare(&mut here, field.offset, field.t);
        }
        here
    }

    /// Adds an object of type t that begins at `place`, with all that begins in it.
    fn declare(&self, here: &mut [u64], place: usize, t: usize) {
        for (types, more) in here[place..].iter_mut().zip(&self.beginnings[t]) {
            *types |= more;
        }
    }

    /// "within the store", which has at most 65,536 cells. The frames are gone through from procedure 0's up, so that
    /// `objects`, what begins at each address up to top, has those of globals and older frames.
    pub fn sound(&self, state: &State) -> Result<(), Fault> {
        let (top, cells) = (state.top, state.cells.len());
        ask_state(cells <= MOST_CELLS, &rules::STORE_ABOVE, || format!("the store has {cells} cells"))?;
        ask_state(top <= cells, &rules::TOP_IN_STORE, || format!("top is {top}, the store has {cells} cells"))?;
        let frames = self.frames(state)?;
        let mut objects = vec![0; top + 1];
        self.variables(state, 0, 0..self.program.global_count())?;
        self.declare_all(&mut objects, 0, 0..self.program.global_count());
        for (younger, frame) in frames.iter().enumerate().rev() {
            self.var_parameters(state, &frames[..=younger], &objects)?;
            self.variables(state, frame.base, self.variables_of(frame))?;
            self.declare_all(&mut objects, frame.base, self.variables_of(frame));
        }
        Ok(())
    }

    /// "the row lies in the body of the top frame's procedure, whose frame ends at top ..; links lead frame by frame,
    /// each beginning where the older ends, to procedure 0's at G, whose links are 0". The frames, the top one first; its
    /// procedure is the one whose body has the row.
    fn frames(&self, state: &State) -> Result<Vec<Frame>, Fault> {
        let row = state.row;
        ask_state(row < self.program.statements.len(), &rules::ROW_EXISTS, || format!("there is no statement {row}"))?;
        let mut frames = Vec::new();
        let mut frame = Frame { procedure: self.program.procedure_at(row), base: state.base };
        let mut end = state.top;
        loop {
            let Frame { procedure, base } = frame;
            let rule = if frames.is_empty() { &rules::TOP_FRAME } else { &rules::OLDER_FRAME };
            ask_state(end.checked_sub(self.program.frame(procedure)) == Some(base), rule, || {
                format!("the frame of procedure {procedure} at {base} does not end at {end}")
            })?;
            let links = links(state, base)?;
            frames.push(frame);
            if procedure == 0 {
                let globals = self.program.globals();
                ask_state(base == globals, &rules::MODULE_FRAME, || {
                    format!("procedure 0's frame is at {base}, G is {globals}")
                })?;
                ask_state(links == [0, 0, 0], &rules::MODULE_LINKS, || format!("procedure 0's links are {links:?}"))?;
                return Ok(frames);
            }
            let [caller, row, older] = links;
            self.return_row(procedure, caller, row)?;
            frame = Frame { procedure: caller, base: older };
            end = base;
        }
    }

    /// "each return row following a call of that procedure in the caller's body".
    fn return_row(&self, procedure: usize, caller: usize, row: usize) -> Result<(), Fault> {
        let detail = || format!("procedure {procedure} returns to row {row} of procedure {caller}");
        ask_state(caller < self.program.procedures.len(), &rules::CALLER_EXISTS, detail)?;
        let body = self.program.body(caller);
        ask_state(row > body.start && row < body.end, &rules::RETURN_IN_BODY, detail)?;
        let call: Row = self.program.statements[row - 1];
        ask_state(call.kind == CALL, &rules::RETURN_AFTER_CALL, detail)?;
        ask_state(call.a() == procedure, &rules::RETURN_AFTER_ITS_CALL, detail)
    }

    /// Parameters and locals.
    fn variables_of(&self, frame: &Frame) -> Range<usize> {
        self.program.parameters(frame.procedure).start..self.program.locals(frame.procedure).end
    }

    /// Those that are no VAR parameters, with their first cells, of the frame at `base` or of the globals.
    fn placed(&self, base: usize, variables: Range<usize>) -> impl Iterator<Item = (usize, usize)> + use<'_> {
        let own = variables.filter(|&v| self.program.variables[v].kind != VAR_PARAMETER);
        own.map(move |v| (self.program.variables[v].a(), base + self.program.place(v)))
    }

    /// "every variable cell has its layout's kind and range": of the variables that are no VAR parameters.
    fn variables(&self, state: &State, base: usize, variables: Range<usize>) -> Result<(), Fault> {
        for (t, first) in self.placed(base, variables) {
            for (i, &kind) in self.program.layout(t).iter().enumerate() {
                cell(state, first + i, kind)?;
            }
        }
        Ok(())
    }

    /// Adds these variables to `objects`.
    fn declare_all(&self, objects: &mut [u64], base: usize, variables: Range<usize>) {
        for (t, first) in self.placed(base, variables) {
            self.declare(objects, first, t);
        }
    }

    /// "each VAR parameter's type cell names its own type or, for records, an extension; at its address begins a
    /// global, an older frame's local or value parameter, or an element or field at any depth of one, declared with the
    /// named type." Of the last of these frames; the others are younger.
    fn var_parameters(&self, state: &State, frames: &[Frame], objects: &[u64]) -> Result<(), Fault> {
        let Some((frame, _)) = frames.split_last() else { return Ok(()) };
        let parameters = self.program.parameters(frame.procedure);
        for v in parameters.filter(|&v| self.program.variables[v].kind == VAR_PARAMETER) {
            let first = frame.base + self.program.place(v);
            let address = unsigned(state, first, Kind::Address)?;
            let named = unsigned(state, first + 1, Kind::Type)?;
            let own = self.program.variables[v].a();
            let detail = || format!("VAR parameter {v} at {first} is of type {own}, and names {named} at {address}");
            ask_state(named < self.program.types.len(), &rules::TYPE_EXISTS, detail)?;
            let rule = if self.program.is_record(own) { &rules::TYPE_EXTENDS } else { &rules::TYPE_SAME };
            ask_state(self.program.extends(named, own), rule, detail)?;
            if !begins(objects, address, named) {
                return ask_state(false, self.no_object(frames, objects, address, named), detail);
            }
        }
        Ok(())
    }

    /// Why no global or older object of that type begins there.
    fn no_object(&self, frames: &[Frame], objects: &[u64], address: usize, named: usize) -> &'static Rule {
        let extension = |t: usize| begins(objects, address, t) && self.program.extends(t, named);
        let mut rest = vec![0; objects.len()];
        for (younger, frame) in frames.iter().enumerate().rev() {
            self.declare_all(&mut rest, frame.base, self.variables_of(frame));
            if begins(&rest, address, named) {
                let own = younger + 1 == frames.len();
                return if own { &rules::OBJECT_NOT_OWN } else { &rules::OBJECT_NOT_YOUNGER };
            }
        }
        if (0..self.program.types.len()).any(extension) {
            &rules::OBJECT_NO_BASE
        } else if objects.get(address).is_some_and(|types| *types != 0) {
            &rules::OBJECT_TYPE
        } else {
            &rules::OBJECT_BEGINS
        }
    }

    /// "each cell taken as the kind that its place in a frame gives": a global's cell has its layout's kind, and the
    /// frames are found by their links, the top one by row, base and top. Where these lead nowhere, the cells that are
    /// left have no kind; such a state is not sound.
    pub fn take_kinds(&self, state: &mut State) {
        let cells = &mut state.cells;
        self.take_variables(cells, 0, 0..self.program.global_count());
        if state.row >= self.program.statements.len() {
            return;
        }
        let mut frame = Frame { procedure: self.program.procedure_at(state.row), base: state.base };
        while let Some(older) = self.take_frame(cells, &frame) {
            frame = older;
        }
    }

    /// Takes the cells of a frame; gives the older one, which ends where this one begins.
    fn take_frame(&self, cells: &mut [Cell], frame: &Frame) -> Option<Frame> {
        take(cells, frame.base, &[Kind::Link; LINKS]);
        self.take_variables(cells, frame.base, self.variables_of(frame));
        let link = |i: usize| usize::try_from(cells.get(frame.base + i)?.number).ok();
        let (procedure, base) = (link(0)?, link(2)?);
        let follows = procedure < self.program.procedures.len()
            && base < frame.base
            && base + self.program.frame(procedure) == frame.base;
        (follows && frame.procedure != 0).then_some(Frame { procedure, base })
    }

    fn take_variables(&self, cells: &mut [Cell], base: usize, variables: Range<usize>) {
        for v in variables {
            let Row { kind, .. } = self.program.variables[v];
            let layout = match kind {
                VAR_PARAMETER => &[Kind::Address, Kind::Type],
                _ => self.program.layout(self.program.variables[v].a()),
            };
            take(cells, base + self.program.place(v), layout);
        }
    }
}

/// Gives cells their kinds, as far as there are cells.
fn take(cells: &mut [Cell], first: usize, kinds: &[Kind]) {
    for (cell, &kind) in cells.iter_mut().skip(first).zip(kinds) {
        cell.kind = Some(kind);
    }
}

/// Whether an object of that type begins there.
fn begins(objects: &[u64], address: usize, t: usize) -> bool {
    objects.get(address).is_some_and(|types| types >> t & 1 == 1)
}

/// A demand of Sound. It has no row.
fn ask_state(holds: bool, rule: &'static Rule, why: impl FnOnce() -> String) -> Result<(), Fault> {
    ask(holds, rule, 0, why)
}

/// The number of a cell below top that has the kind and its range.
fn cell(state: &State, address: usize, kind: Kind) -> Result<i64, Fault> {
    let Some(cell) = state.cells[..state.top].get(address).filter(|cell| cell.kind == Some(kind)) else {
        let detail = || format!("cell {address} is {:?}, not {kind:?}", state.cells.get(address));
        return ask_state(false, &rules::CELL_KIND, detail).map(|()| 0);
    };
    let rule = match kind {
        Kind::Boolean => &rules::BOOLEAN_RANGE,
        Kind::Integer => &rules::INTEGER_RANGE,
        Kind::Set => &rules::SET_RANGE,
        Kind::Link => &rules::LINK_RANGE,
        Kind::Address => &rules::ADDRESS_RANGE,
        Kind::Type => &rules::TYPE_RANGE,
    };
    ask_state(range(kind).contains(&cell.number), rule, || format!("cell {address} is {}", cell.number))?;
    Ok(cell.number)
}

/// The number of a link, address or type.
fn unsigned(state: &State, address: usize, kind: Kind) -> Result<usize, Fault> {
    Ok(cell(state, address, kind)? as usize)
}

/// The links of the frame at `base`.
fn links(state: &State, base: usize) -> Result<[usize; LINKS], Fault> {
    let link = |i| unsigned(state, base + i, Kind::Link);
    Ok([link(0)?, link(1)?, link(2)?])
}
