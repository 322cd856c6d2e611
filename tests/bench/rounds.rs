//! Numbers of rounds in which all take turns.

/// Who is at a turn of a round, of so many: each goes first in its turn.
pub fn whose(round: usize, turn: usize, all: usize) -> usize {
    (round + turn) % all
}

pub fn median(mut numbers: Vec<f64>) -> f64 {
    numbers.sort_by(f64::total_cmp);
    numbers[numbers.len() / 2]
}

/// The median of the rounds' ratios.
pub fn ratio(a: &[f64], b: &[f64]) -> f64 {
    median(a.iter().zip(b).map(|(a, b)| a / b).collect())
}
