//! Continue: question 14 of document 02's first request, and what its third adds.

use crate::machine::{lent, State};
use crate::sound::Watch;
use crate::{ask, rules, Fault, Numbers};
use std::iter::zip;

/// The lengths of the lists that are lent, and the steps.
#[derive(Clone, Copy, Debug)]
pub struct Lent {
    pub inputs: usize,
    pub places: usize,
    pub steps: u32,
}

/// Questions 12 to 14; the state where all are answered "yes". "a refusal, its row, outcome, trap or HALT number is not
/// 0, the state is not sound (each cell taken as the kind that its place in a frame gives), a count exceeds its lent
/// list, or steps done plus steps lent exceed 4294967295." "A continued run takes its mark from the earlier result".
pub(crate) fn continued(watch: &Watch, store: &[i64], lists: Lent, from: &Numbers) -> Result<State, Fault> {
    let cells = lent(watch.program(), store)?;
    ask_numbers(from)?;
    ask_counts(lists, from)?;
    let [row, base, top, mark] = [from.row, from.base, from.top, from.mark].map(|number| number as usize);
    let (read, written, steps) = (from.read as usize, from.written as usize, u64::from(from.steps));
    let mut state = State { cells, row, base, top, read, written, steps, mark };
    watch.take_kinds(&mut state);
    watch.sound(&state)?;
    ask_mark(&state)?;
    Ok(state)
}

/// Also combinations that no run gives.
fn ask_numbers(from: &Numbers) -> Result<(), Fault> {
    let numbers = [from.refusal, from.fault, from.outcome, from.trap].map(i64::from);
    let rules = [&rules::EARLIER_REFUSAL, &rules::EARLIER_FAULT, &rules::EARLIER_OUTCOME, &rules::EARLIER_TRAP];
    for (number, rule) in zip(numbers, rules) {
        ask(number == 0, rule, 0, || format!("it is {number}"))?;
    }
    ask(from.halt == 0, &rules::EARLIER_HALT, 0, || format!("it is {}", from.halt))
}

/// A count may be as large as its list. Steps done may be any number.
fn ask_counts(lists: Lent, from: &Numbers) -> Result<(), Fault> {
    let Lent { inputs, places, steps } = lists;
    ask(from.read <= inputs as u64, &rules::READ_COUNT, 0, || format!("read are {}, lent {inputs}", from.read))?;
    ask(from.written <= places as u64, &rules::WRITTEN_COUNT, 0, || {
        format!("written are {}, lent {places}", from.written)
    })?;
    let sum = u64::from(from.steps) + u64::from(steps);
    ask(sum <= u64::from(u32::MAX), &rules::STEP_SUM, 0, || format!("done are {}, lent {steps}", from.steps))
}

/// "question 14 refuses a mark below top or above the store's length." It may be equal to either.
fn ask_mark(state: &State) -> Result<(), Fault> {
    let State { mark, top, .. } = *state;
    let cells = state.cells.len();
    ask(mark >= top, &rules::MARK_BELOW, 0, || format!("the mark is {mark}, top is {top}"))?;
    ask(mark <= cells, &rules::MARK_ABOVE, 0, || format!("the mark is {mark}, the store has {cells} cells"))
}
