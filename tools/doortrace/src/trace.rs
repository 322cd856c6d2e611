//! Goes through a run and prints it.
use crate::engine::{Lent, Slices, State};
use crate::layout::Layout;
use crate::options::Options;
use crate::outcome;
use crate::reading::{self, Reading};
use crate::step::{Step, HEAD};
use crate::summary::Summary;
use model::words::counted;
use std::io::Write;

/// Why a trace does not come to its end.
pub enum Failed {
    /// Wrong usage, or a file that cannot be read.
    Cannot(String),
    /// The engine and the tracer differ.
    Differing(String),
    /// What is printed cannot be written.
    Output(std::io::Error),
}

impl From<std::io::Error> for Failed {
    fn from(error: std::io::Error) -> Failed {
        Failed::Output(error)
    }
}

/// A run that is gone through.
struct Trace<'a, W> {
    layout: &'a Layout<'a>,
    lent: &'a Lent<'a>,
    options: &'a Options,
    slices: Slices<'a>,
    /// Of the steps that are to be shown.
    summary: Summary,
    /// Of the last step.
    reading: Reading,
    out: W,
}

/// Prints the steps that are to be shown, or their summary, and what the run came to. `whole` is what one run of all
/// steps gave.
pub fn trace(
    layout: &Layout,
    lent: &Lent,
    options: &Options,
    whole: &State,
    out: &mut impl Write,
) -> Result<(), Failed> {
    let summary = Summary::new(layout.program.statements.len());
    let (slices, reading) = (Slices::new(lent), Reading::GoesOn);
    let mut trace = Trace { layout, lent, options, slices, summary, reading, out };
    trace.steps(whole.numbers.steps)?;
    trace.end(whole)
}

impl<W: Write> Trace<'_, W> {
    /// Goes to the last step. Those before and behind the ones that are to be shown are taken in one slice each; but the
    /// last is always taken by itself, so that its trap can be read.
    fn steps(&mut self, last: u32) -> Result<(), Failed> {
        let Options { from, to, .. } = *self.options;
        self.slices.go_to((from - 1).min(last.saturating_sub(1)))?;
        while self.slices.now.numbers.steps < last {
            if self.slices.now.numbers.steps >= to {
                self.slices.go_to(last - 1)?;
            }
            self.step()?;
        }
        Ok(())
    }

    /// Takes a step, reads it, and shows it where it is to be shown.
    fn step(&mut self) -> Result<(), Failed> {
        self.slices.step()?;
        let (before, after) = (&self.slices.before, &self.slices.now);
        let row = before.numbers.row as usize;
        let frames = self.layout.frames(&before.cells, before.numbers.row, before.numbers.base);
        self.reading = reading::read(self.layout, self.lent, before, &frames);
        ask_reading(&self.reading, after)?;
        if !self.options.shows(after.numbers.steps, row) {
            return Ok(());
        }
        if self.options.summary.is_none() {
            if self.summary.is_empty() {
                writeln!(self.out, "{HEAD}")?;
            }
            let (inputs, most) = (self.lent.inputs, self.options.changes);
            let step = Step { layout: self.layout, before, after, frames: &frames, inputs, most };
            self.out.write_all(step.lines().as_bytes())?;
        }
        self.summary.count(row);
        Ok(())
    }

    /// The summary, and what the run came to.
    fn end(&mut self, whole: &State) -> Result<(), Failed> {
        match self.options.summary {
            _ if self.summary.is_empty() => writeln!(self.out, "none of the steps that were asked for was taken")?,
            Some(order) => self.out.write_all(self.summary.lines(self.layout, order).as_bytes())?,
            None => {}
        }
        let last = &self.slices.now;
        write!(self.out, "\n{}", outcome::lines(self.layout, self.lent, last, &self.reading))?;
        ask_whole(whole, last)?;
        let steps = counted(last.numbers.steps as usize, "step");
        Ok(writeln!(self.out, "one run of {steps} gives the same numbers, cells and outputs")?)
    }
}

/// Whether the tracer reads a step's trap, or that there is none, as the engine does.
fn ask_reading(reading: &Reading, after: &State) -> Result<(), Failed> {
    let (trap, stuck) = (after.numbers.trap, matches!(reading, Reading::Stuck(_)));
    if reading.trap() == trap && !stuck {
        return Ok(());
    }
    let engine = if trap == 0 { "no trap".to_string() } else { format!("trap {trap}") };
    let row = after.numbers.row;
    Err(Failed::Differing(format!(
        "step {}, row {row}: the engine says {engine}; the tracer {}",
        after.numbers.steps,
        reading.told()
    )))
}

/// Whether the slices came to what one run came to.
fn ask_whole(whole: &State, slices: &State) -> Result<(), Failed> {
    match whole.difference(slices) {
        None => Ok(()),
        Some(what) => Err(Failed::Differing(format!("one run and its slices: {what}"))),
    }
}

#[cfg(test)]
mod tests {
    use super::*;
    use crate::options::{wish, Wish};
    use listing::Names;

    /// Traces a listing's image with a run of it that was changed.
    fn traced(listing: &str, change: impl Fn(&mut State)) -> (Result<(), Failed>, String) {
        let tables = listing::read_listing(listing.as_bytes()).expect("a listing").tables;
        let image = listing::image_of(&tables);
        let Ok(Wish::Trace(options)) = wish(["a.img", "--cells=9", "--places=1"].map(Into::into).into_iter()) else {
            panic!("the options are good");
        };
        let lent = Lent::new(&image, &options);
        let mut whole = State::run(&lent, lent.steps);
        change(&mut whole);
        let program = model::check(&image).expect("an accepted image");
        let layout = Layout { tables: &tables, names: &Names::default(), program: &program };
        let mut out = Vec::new();
        let done = trace(&layout, &lent, &options, &whole, &mut out);
        (done, String::from_utf8(out).expect("ASCII"))
    }

    const SMALLEST: &str = "type 0 = BOOLEAN\ntype 1 = INTEGER\ntype 2 = SET\n\
                            procedure 0 at 0 parameters 0 locals 0\nstatement 0: RETURN\n";

    fn difference(change: impl Fn(&mut State)) -> String {
        match traced(SMALLEST, change) {
            (Err(Failed::Differing(what)), _) => what,
            (_, text) => panic!("no difference in {text}"),
        }
    }

    #[test]
    fn a_run_and_its_slices_are_compared_in_all_that_they_give() {
        let (done, text) = traced(SMALLEST, |_| {});
        assert!(
            done.is_ok() && text.ends_with("one run of 1 step gives the same numbers, cells and outputs\n"),
            "{text}"
        );
        assert_eq!(difference(|whole| whole.store[8] = 1), "one run and its slices: cell 8 is not the same");
        assert_eq!(difference(|whole| whole.output[0] = 1), "one run and its slices: output place 0 is not the same");
        assert!(difference(|whole| whole.numbers.mark = 4).starts_with("one run and its slices: the numbers are "));
        let longer = difference(|whole| whole.numbers.steps = 2);
        assert_eq!(longer, "the engine gives refusal 14 after its own step 1");
    }

    #[test]
    fn a_reading_that_differs_is_said() {
        let mut after = State { numbers: Default::default(), store: Vec::new(), output: Vec::new() };
        let said = |reading: &Reading, after: &State| match ask_reading(reading, after) {
            Err(Failed::Differing(what)) => what,
            _ => String::new(),
        };
        assert_eq!(said(&Reading::GoesOn, &after), "");
        let stuck = Reading::Stuck("there is no cell 7".to_string());
        let told = "step 0, row 0: the engine says no trap; the tracer cannot go on: there is no cell 7";
        assert_eq!(said(&stuck, &after), told);
        after.numbers.trap = 5;
        let told = "step 0, row 0: the engine says trap 5; the tracer finds no expression that traps";
        assert_eq!(said(&Reading::GoesOn, &after), told);
    }
}
