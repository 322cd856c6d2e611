//! What a mark says of a call, asked of the engine alone: with its store cut to the mark it gives the same, with a
//! shorter one it does not, and cells from the mark on are not written.

use crate::compare::{proved, After};
use crate::counts::{Counts, Group};
use crate::random::Random;
use crate::surroundings::Surroundings;
use model::program::{Program, CALL};

/// "7 frame beyond the store".
const FRAME_TRAP: u32 = 7;

/// A run or continuation that was not refused, and what came of it.
pub struct Call<'a> {
    pub image: &'a [u8],
    pub program: &'a Program,
    pub lent: &'a Surroundings,
    /// The earlier result, of a continuation.
    pub from: Option<&'a door::Numbers>,
    pub after: &'a After,
}

impl Call<'_> {
    /// All that the mark says; `Err` is the first thing that does not hold, in words.
    pub fn compare(&self, random: &mut Random, counts: &mut Counts) -> Result<(), String> {
        let (mark, top) = (self.mark(), self.after.numbers.top as usize);
        if mark < top.max(self.earlier()) || mark > self.lent.store.len() {
            return Err(self.told("it is below top or the mark before, or above the store's length"));
        }
        if self.after.store[mark..] != self.lent.store[mark..] {
            return Err(self.told("a cell from there on is changed"));
        }
        self.compare_cut(counts)?;
        let (some, any) = (random.between(self.needed() - 1, mark - 1), random.below(mark));
        for cells in [mark - 1, self.earlier() - 1, some, any] {
            self.compare_shorter(cells, counts)?;
        }
        self.count(counts)
    }

    fn mark(&self) -> usize {
        self.after.numbers.mark as usize
    }

    /// G + F0.
    fn needed(&self) -> usize {
        self.program.globals() + self.program.frame(0)
    }

    /// The mark that the call begins with.
    fn earlier(&self) -> usize {
        self.from.map_or(self.needed(), |from| from.mark as usize)
    }

    /// "An unrefused run with its store cut to the mark, all else lent being equal, gives the same result and the same
    /// cells below the mark, trap 7 included."
    fn compare_cut(&self, counts: &mut Counts) -> Result<(), String> {
        let After { numbers, store, output } = self.after;
        let same = After { numbers: *numbers, store: store[..self.mark()].to_vec(), output: output.clone() };
        let cut = proved(self.image, &self.lent_with(self.mark()), self.from)?;
        if cut != same {
            return Err(self.told(&format!("cut to it: {:?}, or store or output differ", cut.numbers)));
        }
        if self.mark() < store.len() {
            counts.add(Group::CutStore, usize::from(self.from.is_some()));
        }
        Ok(())
    }

    /// A store of fewer cells than the mark: refused by 13 below G + F0, by 14 below the earlier mark, else trap 7.
    fn compare_shorter(&self, cells: usize, counts: &mut Counts) -> Result<(), String> {
        let lent = self.lent_with(cells);
        let after = proved(self.image, &lent, self.from)?;
        let refused = |refusal| {
            let numbers = door::Numbers { refusal, ..door::Numbers::default() };
            after == After { numbers, store: lent.store.clone(), output: lent.output.clone() }
        };
        let (answer, holds) = match cells {
            _ if cells < self.needed() => (0, refused(13)),
            _ if cells < self.earlier() => (1, refused(14)),
            _ => (2, after.numbers.trap == FRAME_TRAP),
        };
        if !holds {
            return Err(self.told(&format!("with {cells} cells: {:?}", after.numbers)));
        }
        counts.add(if self.from.is_some() { Group::ContinuedShorter } else { Group::Shorter }, answer);
        Ok(())
    }

    /// The same, with the first cells of the store alone.
    fn lent_with(&self, cells: usize) -> Surroundings {
        let store = self.lent.store[..cells].to_vec();
        let Surroundings { input, output, steps, watched, .. } = self.lent;
        Surroundings { store, input: input.clone(), output: output.clone(), steps: *steps, watched: *watched }
    }

    /// How the mark came about.
    fn count(&self, counts: &mut Counts) -> Result<(), String> {
        let numbers = &self.after.numbers;
        let raised = self.mark() > self.earlier();
        let above_top = numbers.mark > numbers.top;
        let by_trapped_call = raised && self.trapped_call_raised_it()?;
        let failed_call = numbers.trap == FRAME_TRAP;
        let group = if self.from.is_some() { Group::ContinuedMark } else { Group::Mark };
        counts.add_each(group, &[!raised, raised, above_top, by_trapped_call, failed_call]);
        Ok(())
    }

    /// Whether the last step is a call that passed the store check, raised the mark and trapped in an argument.
    fn trapped_call_raised_it(&self) -> Result<bool, String> {
        let numbers = &self.after.numbers;
        let passed = numbers.trap > 0 && numbers.trap != FRAME_TRAP;
        if !passed || self.program.statements[numbers.row as usize].kind != CALL {
            return Ok(false);
        }
        let steps = numbers.steps - self.from.map_or(0, |from| from.steps) - 1;
        let before = proved(self.image, &Surroundings { steps, ..self.lent.clone() }, self.from)?;
        Ok(before.numbers.mark < numbers.mark)
    }

    fn told(&self, what: &str) -> String {
        let (lent, from, numbers) = (self.lent.told(), self.from, self.after.numbers);
        format!("the mark of {numbers:?}, with {lent}, from {from:?}: {what}")
    }
}

#[cfg(test)]
mod tests {
    use super::*;
    use crate::case::Case;

    #[test]
    fn another_mark_is_found() {
        let mut counts = Counts::new();
        for number in (0..60).step_by(2) {
            let image = &Case::new(1, number).image;
            let program = &model::check(image).ok().unwrap();
            let random = &mut Random::new(2, number);
            let mut lent = Surroundings::pick(random, program.globals() + program.frame(0));
            let mut from = None;
            for _ in 0..3 {
                let after = proved(image, &lent, from.as_ref()).unwrap();
                if after.numbers.refusal > 0 {
                    break;
                }
                let mark = after.numbers.mark;
                for (other, holds) in [(mark, true), (mark - 1, false), (mark + 1, false)] {
                    let mut after = after.clone();
                    after.numbers.mark = other;
                    let call = Call { image, program, lent: &lent, from: from.as_ref(), after: &after };
                    assert_eq!(call.compare(random, &mut counts).is_ok(), holds, "{}", call.told("another"));
                }
                (lent.store, lent.output, from) = (after.store, after.output, Some(after.numbers));
            }
        }
    }
}
