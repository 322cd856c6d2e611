//! Damage to an accepted image, so that each rule of each question is broken by some image.

mod bytes;
mod meanings;
mod rows;

use crate::random::Random;
use listing::{image_of, Tables};

/// An image with one mistake or a few. It can still be one that is accepted.
pub fn image(random: &mut Random, mut tables: Tables) -> Vec<u8> {
    let mistakes = random.weighted(&[(70, 1), (20, 2), (7, 3), (3, 6)]);
    let in_bytes = random.chance(130);
    for _ in 0..mistakes - usize::from(in_bytes) {
        damage(random, &mut tables);
    }
    let mut bytes = image_of(&tables);
    if in_bytes {
        bytes::damage(random, &mut bytes);
    }
    bytes
}

fn damage(random: &mut Random, tables: &mut Tables) {
    match random.chance(550) {
        true => meanings::damage(random, tables),
        false => rows::damage(random, tables),
    }
}
