//! One image through the proved engine and the model, and all that both give back, compared.

use crate::surroundings::Surroundings;
use model::{Broken, Fault, Program};

/// Cells and places beside the lent ones, which nobody may write.
const BESIDE: usize = 4;
const CELL_BESIDE: i64 = 0x5A5A_A5A5_1234_4321;
const PLACE_BESIDE: i32 = 0x5AA5_1234;
/// So many cells are told of where a continuation differs.
const MOST_TOLD: usize = 400;

/// What a run or continuation gave back and left.
#[derive(Clone, Debug, PartialEq, Eq)]
pub struct After {
    pub numbers: door::Numbers,
    pub store: Vec<i64>,
    pub output: Vec<i32>,
}

/// Compares the answers of the check; gives the model's, or the difference in words.
pub fn check(image: &[u8]) -> Result<Result<Program, Fault>, String> {
    let lent = image.to_vec();
    let proved = door::check_number(&lent);
    same_list("byte of the image", image, &lent, 0)?;
    let answer = model::check(image);
    let (refusal, row) = answer.as_ref().err().map_or((0, 0), |fault| (fault.refusal, fault.row));
    if proved == refusal * 65_536 + row {
        return Ok(answer);
    }
    let detail = answer.err().map_or("accepts".into(), |fault| format!("{} {}", fault.rule.words, fault.detail));
    let (proved_refusal, proved_row) = (proved / 65_536, proved % 65_536);
    Err(format!("check: proved {proved_refusal} {proved_row}, model {refusal} {row} ({detail})"))
}

/// Compares a run's numbers, cells and output places; gives the proved ones, or the difference in words.
pub fn run(image: &[u8], lent: &Surroundings) -> Result<After, String> {
    let run = if lent.watched { model::run } else { model::run_unwatched };
    let model = |store: &mut Vec<i64>, output: &mut Vec<i32>| {
        let numbers = run(image, &lent.input, store, output, lent.steps)?;
        Ok((numbers, String::new()))
    };
    same(image, lent, None, model).map_err(|what| format!("run with {}: {what}", lent.told()))
}

/// Compares a continuation of a program that the check accepted; gives with the proved ones the model's reason where it
/// is refused.
pub fn continued(
    image: &[u8],
    program: &Program,
    lent: &Surroundings,
    from: &door::Numbers,
) -> Result<(After, Option<Fault>), String> {
    let mut refused = None;
    let model = |store: &mut Vec<i64>, output: &mut Vec<i32>| {
        let from = model_numbers(from);
        Ok(match model::continue_program(program, &lent.input, store, output, lent.steps, &from, lent.watched)? {
            Ok(numbers) => (numbers, String::new()),
            Err(fault) => {
                let (numbers, why) = (fault.numbers(), fault.told());
                refused = Some(fault);
                (numbers, why)
            }
        })
    };
    let after = same(image, lent, Some(from), model).map_err(|what| told(lent, from, &what))?;
    Ok((after, refused))
}

/// Compares a continuation of any image.
pub fn continued_image(image: &[u8], lent: &Surroundings, from: &door::Numbers) -> Result<After, String> {
    let model = |store: &mut Vec<i64>, output: &mut Vec<i32>| {
        let numbers = model::continue_run(image, &lent.input, store, output, lent.steps, &model_numbers(from))?;
        Ok((numbers, String::new()))
    };
    same(image, lent, Some(from), model).map_err(|what| told(lent, from, &what))
}

/// With the cells below top, where they are not too many to read.
fn told(lent: &Surroundings, from: &door::Numbers, what: &str) -> String {
    let cells = &lent.store[..lent.store.len().min(from.top as usize)];
    let cells = if cells.len() <= MOST_TOLD { format!(" and the cells {cells:?}") } else { String::new() };
    format!("continued with {} from {from:?}{cells}: {what}", lent.told())
}

/// Both sides on the same that is lent. The model gives its numbers, and why it refuses.
fn same(
    image: &[u8],
    lent: &Surroundings,
    from: Option<&door::Numbers>,
    model: impl FnOnce(&mut Vec<i64>, &mut Vec<i32>) -> Result<(model::Numbers, String), Broken>,
) -> Result<After, String> {
    let mut store = lent.store.clone();
    let mut output = lent.output.clone();
    let (numbers, why) = model(&mut store, &mut output)
        .map_err(|broken| format!("the model is broken after {} steps: {}", broken.steps, broken.what))?;
    let (proved, proved_store, proved_output) = run_proved(image, lent, from)?;
    if model_numbers(&proved) != numbers {
        return Err(format!("proved {proved:?}, model {numbers:?} {why}"));
    }
    same_list("cell", &beside(&store, CELL_BESIDE), &proved_store, BESIDE)?;
    same_list("output place", &beside(&output, PLACE_BESIDE), &proved_output, BESIDE)?;
    Ok(After { numbers: proved, store, output })
}

/// The model's type is the same file's, taken a second time.
pub fn model_numbers(numbers: &door::Numbers) -> model::Numbers {
    let door::Numbers { refusal, fault, outcome, trap, halt, steps, row, base, top, read, written, mark } = *numbers;
    model::Numbers { refusal, fault, outcome, trap, halt, steps, row, base, top, read, written, mark }
}

/// The proved run or continuation alone.
pub fn proved(image: &[u8], lent: &Surroundings, from: Option<&door::Numbers>) -> Result<After, String> {
    let (numbers, proved_store, proved_output) = run_proved(image, lent, from)?;
    let (store, output) = (within(&proved_store), within(&proved_output));
    same_list("cell", &beside(&store, CELL_BESIDE), &proved_store, BESIDE)?;
    same_list("output place", &beside(&output, PLACE_BESIDE), &proved_output, BESIDE)?;
    Ok(After { numbers, store, output })
}

/// The proved run, with what stands beside the lent store and output.
fn run_proved(
    image: &[u8],
    lent: &Surroundings,
    from: Option<&door::Numbers>,
) -> Result<(door::Numbers, Vec<i64>, Vec<i32>), String> {
    let mut store = beside(&lent.store, CELL_BESIDE);
    let mut output = beside(&lent.output, PLACE_BESIDE);
    let (bytes, input) = (image.to_vec(), lent.input.clone());
    let cells = &mut store[BESIDE..BESIDE + lent.store.len()];
    let places = &mut output[BESIDE..BESIDE + lent.output.len()];
    let numbers = match from {
        None => door::run_numbers(&bytes, &input, cells, places, lent.steps),
        Some(from) => door::resume_numbers(&bytes, &input, cells, places, lent.steps, from),
    };
    same_list("byte of the image", image, &bytes, 0)?;
    same_list("input", &lent.input, &input, 0)?;
    Ok((numbers, store, output))
}

fn beside<T: Copy>(lent: &[T], other: T) -> Vec<T> {
    let around = [other; BESIDE];
    [&around[..], lent, &around[..]].concat()
}

fn within<T: Copy>(list: &[T]) -> Vec<T> {
    list[BESIDE..list.len() - BESIDE].to_vec()
}

/// Where lists differ, counted from the first that was lent, which has `before` others before it.
fn same_list<T: PartialEq + std::fmt::Debug>(
    what: &str,
    model: &[T],
    proved: &[T],
    before: usize,
) -> Result<(), String> {
    let Some(at) = model.iter().zip(proved).position(|(m, p)| m != p) else { return Ok(()) };
    Err(format!("{what} {}: proved {:?}, model {:?}", at as i64 - before as i64, proved[at], model[at]))
}
