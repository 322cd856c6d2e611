//! Damage to an image's bytes, whatever they mean: questions 1 to 3, and any.

use crate::image::{mend_length, most_rows};
use crate::random::Random;

pub fn damage(random: &mut Random, bytes: &mut Vec<u8>) {
    match random.below(9) {
        0 => bytes.clear(),
        1 => bytes[0] = *random.pick(&[0, 2, 255]),
        2 => bytes.truncate(random.below(6)),
        3 => wrong_length(random, bytes),
        4 => shorten(random, bytes),
        5 => lengthen(random, bytes),
        6 | 7 => wrong_count(random, bytes),
        _ => any_bytes(random, bytes),
    }
}

fn wrong_length(random: &mut Random, bytes: &mut [u8]) {
    let at = random.between(1, 4);
    bytes[at] = bytes[at].wrapping_add(*random.pick(&[1, 255, 128]));
}

/// Cuts an image off, and mostly mends its length, so that question 3 is asked.
fn shorten(random: &mut Random, bytes: &mut Vec<u8>) {
    let places = count_places(bytes);
    let near = *random.pick(&places) + random.below(4);
    let anywhere = random.below(bytes.len());
    let one_less = bytes.len() - 1;
    bytes.truncate(*random.pick(&[near, anywhere, one_less]));
    if bytes.len() >= 5 && random.chance(800) {
        mend_length(bytes);
    }
}

fn lengthen(random: &mut Random, bytes: &mut Vec<u8>) {
    let more = *random.pick(&[1, 2, 8, 30_000]);
    bytes.extend((0..more).map(|_| random.below(3) as u8));
    if random.chance(800) {
        mend_length(bytes);
    }
}

/// Where the counts of the six tables stand.
fn count_places(bytes: &[u8]) -> Vec<usize> {
    let mut places = vec![];
    let mut at = 5;
    while places.len() < 6 && at + 2 <= bytes.len() {
        places.push(at);
        at += 2 + 8 * u16::from_be_bytes([bytes[at], bytes[at + 1]]) as usize;
    }
    places
}

fn wrong_count(random: &mut Random, bytes: &mut [u8]) {
    let places = count_places(bytes);
    let table = random.below(places.len());
    let at = places[table];
    let count = u16::from_be_bytes([bytes[at], bytes[at + 1]]);
    let most = most_rows(table) as u16;
    let wrong = *random.pick(&[0, 2, most, most + 1, count.wrapping_sub(1), count.wrapping_add(1), u16::MAX]);
    bytes[at..at + 2].copy_from_slice(&wrong.to_be_bytes());
}

fn any_bytes(random: &mut Random, bytes: &mut [u8]) {
    for _ in 0..random.between(1, 3) {
        let at = random.below(bytes.len());
        bytes[at] = match random.below(3) {
            0 => random.next() as u8,
            1 => bytes[at] ^ 1 << random.below(8),
            _ => bytes[at].wrapping_add(*random.pick(&[1, 255])),
        };
    }
}
