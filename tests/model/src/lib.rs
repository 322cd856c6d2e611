//! Document 01 a second time, written from the paper alone: the check, the tagged machine, and what a sound state is;
//! and of document 02 the first five requests: to continue a run, IN's trap, the mark and negative divisors; the fourth
//! changes no answer. It follows the papers' order and words, and prefers the direct way to the fast one. It knows
//! nothing of the proved crates; where a paper is open it takes the readings of `docs/DECISIONS.md`.
//!
//! | module | document 01 |
//! |---|---|
//! | `image` | The image: bytes, rows, six tables; questions 1 to 3 |
//! | `types` | Types: sizes, layouts, extension; question 4 |
//! | `program` | What an accepted image means: bodies, places of variables, types of nodes |
//! | `forms` | Variables, procedures, nodes, statements; questions 5 to 9 |
//! | `typing` | Type rules; questions 10 and 11 |
//! | `operators` | Values, operators, traps; document 02, requests 2 and 5: IN's trap, negative divisors |
//! | `machine` | Tagged machine: store, evaluation, statements; document 02, request 3: the mark |
//! | `numbers` | What a run returns, as `rust/door` has it |
//! | `sound` | Sound, and the kinds that places give |
//! | `continuing` | Document 02, requests 1 and 3: question 14 |
//! | `rules` | Each thing that a question asks, as a sentence |
//! | `words` | The words of a fault's detail |

mod continuing;
mod forms;
pub mod image;
pub mod machine;
#[path = "../../../rust/door/src/numbers.rs"]
mod numbers;
pub mod operators;
pub mod program;
pub mod rules;
pub mod sound;
pub mod types;
mod typing;
pub mod words;

use continuing::Lent;
pub use image::{tables, Row, Tables};
pub use machine::{Cell, Machine, State, Step};
pub use numbers::Numbers;
pub use program::Program;
pub use sound::{sound, Watch};

/// Why an image, a store or a state is refused.
#[derive(Clone, Debug, PartialEq, Eq)]
pub struct Fault {
    /// The question, 1 to 14, and the row as document 01 counts it: 0 from question 12 on.
    pub refusal: u32,
    pub row: u32,
    /// The rule that the row breaks.
    pub rule: &'static rules::Rule,
    /// What breaks it, with its numbers: "node 12 names node 15".
    pub detail: String,
}

impl Fault {
    /// "a refusal leaves store and output untouched, other results 0."
    pub fn numbers(&self) -> Numbers {
        Numbers { refusal: self.refusal, fault: self.row, ..Numbers::default() }
    }

    /// The rule, and what breaks it.
    pub fn told(&self) -> String {
        format!("{} {}", self.rule.words, self.detail)
    }
}

/// What can't be: the machine is stuck, or a state is not sound. Either the model or the paper's claim is wrong.
#[derive(Clone, Debug, PartialEq, Eq)]
pub struct Broken {
    /// How many steps were taken before.
    pub steps: u64,
    pub what: String,
}

/// Questions 1 to 11: "The first "no" decides; the row is the lowest at fault, 0 for 1 to 3."
pub fn check(image: &[u8]) -> Result<Program, Fault> {
    let mut program = Program::new(tables(image)?);
    types::question_4(&mut program)?;
    forms::question_5(&program)?;
    forms::question_6(&program)?;
    program.lay_out();
    forms::question_7(&program)?;
    forms::question_8(&program)?;
    forms::question_9(&program)?;
    typing::question_10(&mut program)?;
    typing::question_11(&program)?;
    Ok(program)
}

/// "A run takes image, input, store, output and 0 to 4294967295 steps." Sound is decided of the fresh state and after
/// each step. Where something is broken, the store keeps what it held.
pub fn run(image: &[u8], input: &[i32], store: &mut [i64], output: &mut [i32], steps: u32) -> Result<Numbers, Broken> {
    unless_refused(image, |program| run_program(program, input, store, output, steps, true))
}

/// The same, without deciding Sound: for long runs.
pub fn run_unwatched(
    image: &[u8],
    input: &[i32],
    store: &mut [i64],
    output: &mut [i32],
    steps: u32,
) -> Result<Numbers, Broken> {
    unless_refused(image, |program| run_program(program, input, store, output, steps, false))
}

/// "A continue call takes the image, the store and that result", and what a run is lent. Sound is decided of the state
/// that is there, by question 14, and after each step.
pub fn continue_run(
    image: &[u8],
    input: &[i32],
    store: &mut [i64],
    output: &mut [i32],
    steps: u32,
    from: &Numbers,
) -> Result<Numbers, Broken> {
    unless_refused(image, |program| continue_program(program, input, store, output, steps, from, true))
}

/// "The run asks these": questions 1 to 11.
fn unless_refused(
    image: &[u8],
    run: impl FnOnce(&Program) -> Result<Result<Numbers, Fault>, Broken>,
) -> Result<Numbers, Broken> {
    let answer = match check(image) {
        Ok(program) => run(&program)?,
        Err(fault) => Err(fault),
    };
    Ok(answer.unwrap_or_else(|fault| fault.numbers()))
}

/// Runs a program that the check accepted: questions 12 and 13, then the steps.
pub fn run_program(
    program: &Program,
    input: &[i32],
    store: &mut [i64],
    output: &mut [i32],
    steps: u32,
    watched: bool,
) -> Result<Result<Numbers, Fault>, Broken> {
    let watch = watched.then(|| Watch::new(program));
    match Machine::fresh(program, input, store, output) {
        Ok(machine) => take_steps(machine, watch.as_ref(), steps, store).map(Ok),
        Err(fault) => Ok(Err(fault)),
    }
}

/// Continues a program that the check accepted: questions 12 to 14, then the steps.
pub fn continue_program(
    program: &Program,
    input: &[i32],
    store: &mut [i64],
    output: &mut [i32],
    steps: u32,
    from: &Numbers,
    watched: bool,
) -> Result<Result<Numbers, Fault>, Broken> {
    let watch = Watch::new(program);
    let lists = Lent { inputs: input.len(), places: output.len(), steps };
    match continuing::continued(&watch, store, lists, from) {
        Ok(state) => {
            let machine = Machine::from(program, input, output, state);
            take_steps(machine, watched.then_some(&watch), steps, store).map(Ok)
        }
        Err(fault) => Ok(Err(fault)),
    }
}

/// Takes the steps that are lent. "A step that finishes or traps counts and is the last."
fn take_steps(mut machine: Machine, watch: Option<&Watch>, lent: u32, store: &mut [i64]) -> Result<Numbers, Broken> {
    let until = machine.state.steps + u64::from(lent);
    let mut last = Step::GoesOn;
    loop {
        let taken = machine.state.steps;
        if let Some(watch) = watch {
            watch.sound(&machine.state).map_err(|fault| Broken { steps: taken, what: fault.told() })?;
        }
        if taken == until || last != Step::GoesOn {
            break;
        }
        last = machine.step();
        if let Step::Stuck(why) = last {
            return Err(Broken { steps: taken, what: why });
        }
    }
    for (place, cell) in store.iter_mut().zip(&machine.state.cells) {
        *place = cell.number;
    }
    Ok(numbers(&machine.state, &last))
}

/// What an unrefused run or continuation gives back: "The result gains base and top." "The result gains a mark".
fn numbers(state: &State, last: &Step) -> Numbers {
    let (outcome, trap, halt) = match *last {
        Step::Finished => (1, 0, 0),
        Step::Trapped { trap, halt } => (2, trap, halt),
        _ => (0, 0, 0),
    };
    let [row, base, top, mark] = [state.row, state.base, state.top, state.mark].map(|number| number as u32);
    let (steps, read, written) = (state.steps as u32, state.read as u64, state.written as u64);
    Numbers { refusal: 0, fault: 0, outcome, trap, halt, steps, row, base, top, read, written, mark }
}

/// One demand of a question: where it does not hold, `row` is at fault.
fn ask(holds: bool, rule: &'static rules::Rule, row: usize, detail: impl FnOnce() -> String) -> Result<(), Fault> {
    if holds {
        Ok(())
    } else {
        Err(Fault { refusal: rule.question, row: row as u32, rule, detail: detail() })
    }
}
