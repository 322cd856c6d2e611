//! Case NUMBER of a run of the test with SEED: an image, and what is asked of both sides about it.

use crate::compare::{self, After};
use crate::counts::{Counts, Group};
use crate::damage::{damage, other_mark};
use crate::foreign;
use crate::frames::{Given, Sight};
use crate::generate;
use crate::marks::Call;
use crate::mutate;
use crate::random::Random;
use crate::surroundings::{other_steps, Surroundings};
use listing::image_of;
use model::{Machine, Program, Step};

/// Is told of each run and continuation that both sides agree on: what was lent, the earlier result, and what came back.
pub type Watcher<'a> = &'a mut dyn FnMut(&Surroundings, Option<&door::Numbers>, &door::Numbers);

/// In thousandths: how many accepted images get states that no run left, how many runs that ended are cut, how many
/// refused images are continued, and how many accepted ones are followed step by step.
const FOREIGN: usize = 500;
const ENDED: usize = 60;
const REFUSED: usize = 300;
const FOLLOWED: usize = 200;
/// How often a state gets damage.
const DAMAGED: [(usize, usize); 3] = [(1, 1), (1, 2), (1, 3)];
/// What the seed of `marks` differs by.
const MARKS: u64 = 1 << 63;

/// Enough for a few statements after the state was passed.
fn few_steps(random: &mut Random) -> u32 {
    let most = random.weighted(&[(1, 0), (1, 1), (1, 5), (1, 29)]);
    random.between(0, most) as u32
}

pub struct Case {
    pub image: Vec<u8>,
    /// Made to be accepted, and not damaged.
    pub good: bool,
    random: Random,
    /// For what is asked about marks, which changes nothing else of the case.
    marks: Random,
}

impl Case {
    /// Even numbers are accepted images, odd ones have damage.
    pub fn new(seed: u64, number: u64) -> Case {
        let mut random = Random::new(seed, number);
        let tables = generate::image(&mut random);
        let good = number.is_multiple_of(2);
        let image = if good { image_of(&tables) } else { mutate::image(&mut random, tables) };
        Case { image, good, random, marks: Random::new(seed ^ MARKS, number) }
    }

    /// Any image, with surroundings that depend on it alone.
    pub fn of(image: Vec<u8>) -> Case {
        let number = image.iter().fold(0, |sum: u64, byte| sum.wrapping_mul(31).wrapping_add(u64::from(*byte)));
        Case { image, good: false, random: Random::new(0, number), marks: Random::new(MARKS, number) }
    }

    /// Compares check and runs; `Err` is the first difference, in words.
    pub fn compare(mut self, counts: &mut Counts, watcher: Watcher) -> Result<(), String> {
        counts.images += 1;
        match compare::check(&self.image)? {
            Ok(program) => self.compare_runs(&program, counts, watcher),
            Err(fault) => {
                counts.rule(fault.rule);
                if self.good {
                    return Err(format!("a generated image is refused by {} at {}", fault.refusal, fault.row));
                }
                let needed = self.random.below(60);
                self.compare_run(None, needed, counts, watcher)?;
                self.continue_refused(needed, counts, watcher)
            }
        }
    }

    fn compare_runs(&mut self, program: &Program, counts: &mut Counts, watcher: Watcher) -> Result<(), String> {
        if !self.good {
            counts.accepted_mutants += 1;
        }
        counts.survey(program);
        let needed = program.globals() + program.frame(0);
        let sight = Sight::new(program);
        for _ in 0..self.random.between(2, 4) {
            if let Some((lent, whole)) = self.compare_run(Some(program), needed, counts, watcher)? {
                self.continue_run(&sight, &lent, &whole, counts, watcher)?;
            }
        }
        if self.random.chance(FOREIGN) {
            self.continue_foreign(&sight, counts, watcher)?;
        }
        if self.random.chance(FOLLOWED) {
            self.follow(program, needed, counts);
        }
        Ok(())
    }

    /// A run, and where it came to its end, sometimes again with more steps, one less, or as many. Gives what is to be
    /// continued: a run whose steps were used up, and some others, in parts.
    fn compare_run(
        &mut self,
        program: Option<&Program>,
        needed: usize,
        counts: &mut Counts,
        watcher: Watcher,
    ) -> Result<Option<(Surroundings, After)>, String> {
        let mut lent = Surroundings::pick(&mut self.random, needed);
        let mut after = self.run(program, &lent, counts, watcher)?;
        if after.numbers.outcome > 0 && self.random.chance(400) {
            lent.steps = other_steps(&mut self.random, after.numbers.steps);
            after = self.run(program, &lent, counts, watcher)?;
        }
        let wanted = after.numbers.outcome == 0 || self.random.chance(ENDED);
        Ok((after.numbers.refusal == 0 && wanted).then_some((lent, after)))
    }

    /// One run; the program is there where the image is accepted.
    fn run(
        &mut self,
        program: Option<&Program>,
        lent: &Surroundings,
        counts: &mut Counts,
        watcher: Watcher,
    ) -> Result<After, String> {
        let after = compare::run(&self.image, lent)?;
        counts.run(&after.numbers);
        if let Some(program) = program.filter(|_| after.numbers.trap > 0) {
            counts.trapped(program, &after);
        }
        watcher(lent, None, &after.numbers);
        if let Some(program) = program.filter(|_| after.numbers.refusal == 0) {
            let call = Call { image: &self.image, program, lent, from: None, after: &after };
            call.compare(&mut self.marks, counts)?;
        }
        Ok(after)
    }

    /// Cuts a run at a step, and continues it: as it was left, when in the end all must be as without the cut; and with
    /// damage.
    fn continue_run(
        &mut self,
        sight: &Sight,
        lent: &Surroundings,
        whole: &After,
        counts: &mut Counts,
        watcher: Watcher,
    ) -> Result<(), String> {
        let last = whole.numbers.steps as usize - usize::from(whole.numbers.outcome > 0);
        let steps = self.random.between(0, last) as u32;
        let cut = compare::proved(&self.image, &Surroundings { steps, ..lent.clone() }, None)?;
        self.continue_parts(sight, lent, &cut, whole, counts, watcher)?;
        let After { numbers: from, store, output } = cut;
        let steps = few_steps(&mut self.marks);
        let lent = Surroundings { store, output, steps, watched: true, input: lent.input.clone() };
        let given = Given { lent, from };
        for _ in 0..self.random.weighted(&DAMAGED) {
            let mut given = given.clone();
            given.lent.steps = few_steps(&mut self.random);
            damage(&mut self.random, sight, &mut given);
            self.compare_continued(sight, &given, Group::Damaged, counts, watcher)?;
        }
        self.continue_marked(sight, given, counts, watcher)
    }

    /// A sound state with another mark.
    fn continue_marked(
        &mut self,
        sight: &Sight,
        mut given: Given,
        counts: &mut Counts,
        watcher: Watcher,
    ) -> Result<(), String> {
        other_mark(&mut self.marks, &mut given);
        self.compare_continued(sight, &given, Group::Damaged, counts, watcher)?;
        Ok(())
    }

    /// Continues a run that was cut, in one part or several.
    fn continue_parts(
        &mut self,
        sight: &Sight,
        lent: &Surroundings,
        cut: &After,
        whole: &After,
        counts: &mut Counts,
        watcher: Watcher,
    ) -> Result<(), String> {
        let mut left = lent.steps - cut.numbers.steps;
        let mut after = cut.clone();
        while after.numbers.outcome == 0 {
            let After { numbers: from, store, output } = after;
            let all = self.random.chance(700);
            let steps = if all { left } else { self.random.between(0, left as usize) as u32 };
            let lent = Surroundings { store, output, steps, watched: false, input: lent.input.clone() };
            after = self.compare_continued(sight, &Given { lent, from }, Group::Cut, counts, watcher)?;
            left -= steps;
            if all {
                break;
            }
        }
        if after != *whole {
            let (parts, whole) = (after.numbers, whole.numbers);
            return Err(format!("in parts {parts:?}, in one run {whole:?}, or store or output differ"));
        }
        Ok(())
    }

    /// States that no run left, and the same with damage.
    fn continue_foreign(&mut self, sight: &Sight, counts: &mut Counts, watcher: Watcher) -> Result<(), String> {
        let lent = Surroundings::few(&mut self.random);
        let Some(mut given) = foreign::given(&mut self.random, sight, lent) else { return Ok(()) };
        given.from.mark = foreign::mark(&mut self.marks, &given);
        self.compare_continued(sight, &given, Group::Foreign, counts, watcher)?;
        for _ in 0..self.random.weighted(&DAMAGED) {
            let mut given = given.clone();
            damage(&mut self.random, sight, &mut given);
            self.compare_continued(sight, &given, Group::Damaged, counts, watcher)?;
        }
        self.continue_marked(sight, given, counts, watcher)
    }

    fn compare_continued(
        &mut self,
        sight: &Sight,
        given: &Given,
        group: Group,
        counts: &mut Counts,
        watcher: Watcher,
    ) -> Result<After, String> {
        let Given { lent, from } = given;
        let (after, fault) = compare::continued(&self.image, sight.program, lent, from)?;
        counts.continued(sight, given, group, &after.numbers, fault.as_ref());
        watcher(lent, Some(from), &after.numbers);
        match fault {
            Some(fault) if group != Group::Damaged => {
                return Err(format!("a sound state is refused: {}", fault.told()))
            }
            Some(_) => return Ok(after),
            None => {}
        }
        let call = Call { image: &self.image, program: sight.program, lent, from: Some(from), after: &after };
        call.compare(&mut self.marks, counts)?;
        Ok(after)
    }

    /// An image that the check refuses, with any result.
    fn continue_refused(&mut self, needed: usize, counts: &mut Counts, watcher: Watcher) -> Result<(), String> {
        if !self.random.chance(REFUSED) {
            return Ok(());
        }
        let lent = Surroundings::pick(&mut self.random, needed);
        let outcome = self.random.below(2) as u32;
        let from = door::Numbers { outcome, top: needed as u32, ..door::Numbers::default() };
        let after = compare::continued_image(&self.image, &lent, &from)?;
        counts.continued_image(&after.numbers);
        watcher(&lent, Some(&from), &after.numbers);
        Ok(())
    }

    /// Counts the statements that the first steps execute, and the divisions in them, by the model.
    fn follow(&mut self, program: &Program, needed: usize, counts: &mut Counts) {
        let Surroundings { input, mut output, .. } = Surroundings::pick(&mut self.random, needed);
        let store = vec![0; needed + 100];
        let Ok(mut machine) = Machine::fresh(program, &input, &store, &mut output) else { return };
        for _ in 0..40 {
            counts.executed(program, &machine);
            if machine.step() != Step::GoesOn {
                return;
            }
        }
    }
}

#[cfg(test)]
mod tests {
    use super::Case;

    #[test]
    fn a_case_can_be_made_again() {
        let images: Vec<Vec<u8>> = (0..50).map(|number| Case::new(1, number).image).collect();
        for (number, image) in images.iter().enumerate() {
            assert_eq!(&Case::new(1, number as u64).image, image);
            assert_ne!(&Case::new(2, number as u64).image, image);
        }
    }
}
