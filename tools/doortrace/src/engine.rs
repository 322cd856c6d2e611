//! The proved engine, in slices: what it is lent, and what it left behind.
use crate::options::Options;
use crate::trace::Failed;
use door::Numbers;

/// What a run is given beside its store and output.
pub struct Lent<'a> {
    pub image: &'a [u8],
    pub inputs: &'a [i32],
    pub cells: usize,
    pub places: usize,
    pub steps: u32,
}

impl<'a> Lent<'a> {
    pub fn new(image: &'a [u8], options: &'a Options) -> Lent<'a> {
        let Options { inputs, cells, places, steps, .. } = options;
        Lent { image, inputs, cells: *cells, places: *places, steps: *steps }
    }
}

/// The engine's numbers, and the store and output that it left.
#[derive(Clone, Debug, PartialEq, Eq)]
pub struct State {
    pub numbers: Numbers,
    pub store: Vec<i64>,
    pub output: Vec<i32>,
}

impl State {
    /// After one run of at most so many steps.
    pub fn run(lent: &Lent, steps: u32) -> State {
        let (mut store, mut output) = (vec![0; lent.cells], vec![0; lent.places]);
        let numbers = door::run_numbers(lent.image, lent.inputs, &mut store, &mut output, steps);
        State { numbers, store, output }
    }

    /// What is not the same in another state, in words; nothing where all is.
    pub fn difference(&self, other: &State) -> Option<String> {
        if self.numbers != other.numbers {
            return Some(format!("the numbers are {:?} and {:?}", self.numbers, other.numbers));
        }
        let place = |same: usize, what: &str| format!("{what} {same} is not the same");
        let cell = self.store.iter().zip(&other.store).position(|(a, b)| a != b).map(|cell| place(cell, "cell"));
        cell.or_else(|| {
            let output = self.output.iter().zip(&other.output).position(|(a, b)| a != b);
            output.map(|output| place(output, "output place"))
        })
    }
}

/// A run that is taken on in slices.
pub struct Slices<'a> {
    lent: &'a Lent<'a>,
    pub now: State,
    /// As it was before the last step, below the mark of that step: cells from a mark on are not written.
    pub before: Before,
}

/// What a step began with.
#[derive(Default)]
pub struct Before {
    pub numbers: Numbers,
    pub cells: Vec<i64>,
}

impl<'a> Slices<'a> {
    /// The fresh state.
    pub fn new(lent: &'a Lent<'a>) -> Slices<'a> {
        Slices { lent, now: State::run(lent, 0), before: Before::default() }
    }

    /// Goes on to the end of this step, in one slice; nothing where that is not ahead.
    pub fn go_to(&mut self, step: u32) -> Result<(), Failed> {
        match step.checked_sub(self.now.numbers.steps) {
            None | Some(0) => Ok(()),
            Some(steps) => self.slice(steps),
        }
    }

    /// One step, after which `before` has what it began with.
    pub fn step(&mut self) -> Result<(), Failed> {
        let Slices { now, before, .. } = self;
        before.numbers = now.numbers;
        before.cells.clear();
        before.cells.extend_from_slice(&now.store[..now.numbers.mark as usize]);
        self.slice(1)
    }

    fn slice(&mut self, steps: u32) -> Result<(), Failed> {
        let State { numbers, store, output } = &mut self.now;
        let next = door::resume_numbers(self.lent.image, self.lent.inputs, store, output, steps, numbers);
        if next.refusal != 0 {
            let (refusal, after) = (next.refusal, numbers.steps);
            return Err(Failed::Differing(format!("the engine gives refusal {refusal} after its own step {after}")));
        }
        *numbers = next;
        Ok(())
    }
}
