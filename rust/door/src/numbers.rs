//! What a run returns. The model and the benchmark take this file too, so that they are written down once.

use core::fmt;

/// The nine numbers of a run, where its newest frame begins and ends, and its mark: `struct door_result` of
/// `include/door.h`.
#[repr(C)]
#[derive(Clone, Copy, Debug, Default, PartialEq, Eq)]
pub struct Numbers {
    /// 0, or why nothing was run: 1 to 14.
    pub refusal: u32,
    /// The row of refusal.
    pub fault: u32,
    /// 0 steps used up, 1 finished, 2 trapped.
    pub outcome: u32,
    /// 0 unless trapped, else 1 to 10.
    pub trap: u32,
    /// HALT's number with trap 10, else 0.
    pub halt: i32,
    /// Steps taken, those of the runs that were continued among them; so it is with inputs, outputs and the mark.
    pub steps: u32,
    /// The statement row: of the last step where it finished or trapped, else of the next.
    pub row: u32,
    /// The cell where the newest frame begins; 0 in a refusal.
    pub base: u32,
    /// The cell where it ends, the first that is not its own; 0 in a refusal.
    pub top: u32,
    /// Inputs read.
    pub read: u64,
    /// Outputs written.
    pub written: u64,
    /// The cells that the run needed: so many are enough, one less is not; 0 in a refusal.
    pub mark: u32,
}

impl Numbers {
    /// The nine, in document 01's order.
    pub fn in_order(&self) -> [i128; 9] {
        let Numbers { refusal, fault, outcome, trap, halt, steps, row, read, written, .. } = *self;
        let [refusal, fault, outcome, trap] = [refusal, fault, outcome, trap].map(i128::from);
        let [row, steps] = [row, steps].map(i128::from);
        [refusal, fault, outcome, trap, halt.into(), row, steps, read.into(), written.into()]
    }
}

/// As `doorrun` prints them: a line, without its end.
impl fmt::Display for Numbers {
    fn fmt(&self, f: &mut fmt::Formatter<'_>) -> fmt::Result {
        let [first, others @ ..] = self.in_order();
        write!(f, "{first}")?;
        others.iter().try_for_each(|number| write!(f, " {number}"))
    }
}
