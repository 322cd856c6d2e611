//! What a run is lent: store, inputs, output places and steps, at random.

use crate::random::Random;

#[derive(Clone)]
pub struct Surroundings {
    pub store: Vec<i64>,
    pub input: Vec<i32>,
    pub output: Vec<i32>,
    pub steps: u32,
    /// Whether the model decides of each state if it is sound; not in long runs.
    pub watched: bool,
}

impl Surroundings {
    /// For an image that needs so many cells, G + F0.
    pub fn pick(random: &mut Random, needed: usize) -> Surroundings {
        let cells = store_length(random, needed);
        let store = store_fill(random, cells);
        if random.chance(2) {
            return Surroundings::long(random, store);
        }
        let input = some_numbers(random, &[(10, 0), (14, 4), (26, 60), (50, 600)]);
        let output = some_numbers(random, &[(6, 0), (9, 4), (25, 100), (60, 1500)]);
        Surroundings { store, input, output, steps: step_count(random, needed), watched: true }
    }

    /// For a state that no run left: its store comes later, with it.
    pub fn few(random: &mut Random) -> Surroundings {
        let cells = random.below(2);
        let store = store_fill(random, cells);
        let input = some_numbers(random, &[(1, 0), (1, 4), (4, 60)]);
        let output = some_numbers(random, &[(1, 0), (1, 4), (4, 60)]);
        Surroundings { store, input, output, steps: random.below(60) as u32, watched: true }
    }

    /// With counts that can pass 16 bits.
    fn long(random: &mut Random, store: Vec<i64>) -> Surroundings {
        let input = some_numbers(random, &[(1, 100_000)]);
        let output = some_numbers(random, &[(1, 100_000)]);
        Surroundings { store, input, output, steps: random.below(500_000) as u32, watched: false }
    }

    /// What is lent, in words.
    pub fn told(&self) -> String {
        let Surroundings { store, input, output, steps, .. } = self;
        format!("{} cells, {} inputs, {} output places, {steps} steps", store.len(), input.len(), output.len())
    }
}

fn store_length(random: &mut Random, needed: usize) -> usize {
    match random.below(1000) {
        0..=59 => needed,
        60..=89 => needed.saturating_sub(1),
        90..=94 => random.below(needed.max(1)),
        95..=99 => random.below(2),
        100..=104 => 65_536,
        105..=109 => 65_537,
        110..=114 => 65_538 + random.below(3000),
        115..=199 => needed + random.below(4000),
        200..=349 => needed + random.below(40),
        _ => needed + random.below(500),
    }
}

fn store_fill(random: &mut Random, cells: usize) -> Vec<i64> {
    const EXTREMES: [i64; 8] = [i64::MIN, i64::MAX, -1, 0, 1, 65_536, 1 << 32, i32::MIN as i64];
    let way = random.below(5);
    let number = |random: &mut Random| match way {
        0 => 0,
        1 => *random.pick(&EXTREMES),
        2 => random.below(8) as i64,
        _ => random.next() as i64,
    };
    (0..cells).map(|_| number(random)).collect()
}

fn some_number(random: &mut Random, way: usize) -> i32 {
    const EDGES: [i32; 10] = [i32::MIN, i32::MAX, -1, 0, 1, 31, 32, 4096, 65_535, 65_536];
    match way {
        0..=4 => random.below(60) as i32 - 10,
        5..=7 => random.below(5) as i32,
        8 => *random.pick(&EDGES),
        _ => random.next() as i32,
    }
}

/// Up to so many numbers.
fn some_numbers(random: &mut Random, most: &[(usize, usize)]) -> Vec<i32> {
    let most = random.weighted(most);
    let way = random.below(10);
    (0..random.between(0, most)).map(|_| some_number(random, way)).collect()
}

/// Fewer where the image has many cells, since the model looks at each of them after each step.
fn step_count(random: &mut Random, needed: usize) -> u32 {
    let most = (600_000 / (needed + 100)).min(5000);
    let most = random.weighted(&[(2, 0), (2, 1), (10, 40), (20, 400), (66, most)]);
    random.between(0, most) as u32
}

/// Other step counts for a run that came to its end in `steps` steps.
pub fn other_steps(random: &mut Random, steps: u32) -> u32 {
    *random.pick(&[steps, steps - 1, steps + 1, u32::MAX])
}
