//! What a run came to, in words.
use crate::engine::{Lent, State};
use crate::layout::Layout;
use crate::reading::{Found, Reading};
use crate::step::WIDTH;
use door::{Numbers, Outcome};
use model::words::counted;

/// The most values and calls that are written.
const SHOWN: usize = 6;

/// Where the words behind a label begin.
const LABEL: usize = 14;

/// Outcome, counts and outputs. The reading is that of the last step.
pub fn lines(layout: &Layout, lent: &Lent, last: &State, reading: &Reading) -> String {
    let numbers = &last.numbers;
    let (row, steps) = (numbers.row as usize, numbers.steps);
    let place = layout.place(row);
    let mut text = match numbers.outcome {
        0 => {
            let after = counted(steps as usize, "step");
            format!("steps used up after {after}; next is {place}: {}\n", layout.statement(row))
        }
        1 => format!("finished at {place}, step {steps}\n"),
        _ => format!("trap {} at {place}, step {steps}: {}\n", numbers.trap, trap_words(numbers)),
    };
    if let Reading::Traps(found) = reading {
        text += &why(layout, row, found);
    }
    let calls = layout.calls(&last.store, &layout.frames(&last.store, numbers.row, numbers.base));
    text += &labelled("called at", &first_of(&calls));
    let read = format!("{} of {} read", numbers.read, counted(lent.inputs.len(), "input"));
    let written = format!("{} written", counted(numbers.written as usize, "output"));
    text += &format!("{read}, {written}, {} needed\n", counted(numbers.mark as usize, "cell"));
    text + &outputs(&last.output[..numbers.written as usize])
}

fn trap_words(numbers: &Numbers) -> String {
    match numbers.report().map(|report| report.outcome) {
        Ok(Outcome::Trapped(trap)) => trap.to_string(),
        _ => String::new(),
    }
}

/// The statement, the expression in it that trapped, why, and with which values.
fn why(layout: &Layout, row: usize, found: &Found) -> String {
    let expression = found.node.map(|node| layout.node(row, node)).unwrap_or_default();
    [
        labelled("statement", &layout.statement(row)),
        labelled("expression", &expression),
        labelled("because", &found.because),
        labelled("with", &first_of(&found.with)),
    ]
    .concat()
}

/// Words behind a label, in as many lines as they need; nothing where there are none.
fn labelled(label: &str, words: &str) -> String {
    let mut lines = vec![format!("{:<LABEL$}", format!("  {label}"))];
    for word in words.split_inclusive(' ') {
        let line = lines.last().map_or(0, String::len);
        if line > LABEL && line + word.trim_end().len() > WIDTH {
            lines.push(" ".repeat(LABEL));
        }
        if let Some(line) = lines.last_mut() {
            *line += word;
        }
    }
    match words {
        "" => String::new(),
        _ => lines.iter().map(|line| format!("{}\n", line.trim_end())).collect(),
    }
}

/// The outputs, as far as a line has room.
fn outputs(outputs: &[i32]) -> String {
    if outputs.is_empty() {
        return String::new();
    }
    let mut line = "output:".to_string();
    for (place, number) in outputs.iter().enumerate() {
        let more = format!(" and {} more", outputs.len() - place);
        let word = format!(" {number}");
        if line.len() + word.len() + more.len() > WIDTH {
            return line + &more + "\n";
        }
        line += &word;
    }
    line + "\n"
}

/// The first of a list, and how many more there are.
fn first_of(list: &[String]) -> String {
    let more = if list.len() > SHOWN { format!("; and {} more", list.len() - SHOWN) } else { String::new() };
    list[..list.len().min(SHOWN)].join("; ") + &more
}
