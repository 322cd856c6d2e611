//! The calls of cases as bytes, in the form of tests/targets/README.md: what a program for another target is to answer.

use crate::surroundings::Surroundings;
use std::io::{self, Write};

const RUN: u32 = 0;
const CONTINUE: u32 = 1;
/// In place of a count: what the call before was lent.
const AS_BEFORE: u32 = u32::MAX;

/// A call with a list of which more numbers would follow is left out: most of them would be random cells that nobody
/// reads.
const MOST_FOLLOWING: usize = 1000;

/// Writes one call, where it is not too long; says whether it did. The image is there where it is another than that of
/// the call before.
pub fn write_call(
    out: &mut impl Write,
    image: Option<&[u8]>,
    lent: &Surroundings,
    from: Option<&door::Numbers>,
) -> io::Result<bool> {
    let kind = if from.is_some() { CONTINUE } else { RUN };
    let (store, output) = (followers(&lent.store), followers(&lent.output));
    if [lent.input.len(), store.len(), output.len()].iter().any(|following| *following > MOST_FOLLOWING) {
        return Ok(false);
    }
    let bytes = image.map_or(AS_BEFORE, count);
    let counts = [count(&lent.input), count(&lent.store), count(&lent.output), lent.steps];
    for word in [&[kind, bytes], &counts[..], &[count(&store), count(&output)]].concat() {
        out.write_all(&word.to_le_bytes())?;
    }
    for number in numbers_of(from.copied().unwrap_or_default()) {
        out.write_all(&number.to_le_bytes())?;
    }
    out.write_all(image.unwrap_or_default())?;
    lent.input.iter().try_for_each(|number| out.write_all(&number.to_le_bytes()))?;
    store.iter().try_for_each(|cell| out.write_all(&cell.to_le_bytes()))?;
    output.iter().try_for_each(|place| out.write_all(&place.to_le_bytes()))?;
    Ok(true)
}

fn count<T>(list: &[T]) -> u32 {
    u32::try_from(list.len()).expect("no list is so long")
}

/// The numbers that follow in the file: the last of them stands for all behind it, so an end of equal ones is cut.
fn followers<T: Copy + Default + PartialEq>(list: &[T]) -> Vec<T> {
    let Some(last) = list.last() else { return vec![T::default()] };
    let equal = list.iter().rev().take_while(|number| *number == last).count();
    list[..=list.len() - equal].to_vec()
}

/// In the order of door.h; a negative HALT number by its 32 bits.
fn numbers_of(numbers: door::Numbers) -> [u64; 12] {
    let door::Numbers { refusal, fault, outcome, trap, halt, steps, row, base, top, read, written, mark } = numbers;
    let [refusal, fault, outcome, trap, halt] = [refusal, fault, outcome, trap, halt as u32].map(u64::from);
    let [steps, row, base, top, mark] = [steps, row, base, top, mark].map(u64::from);
    [refusal, fault, outcome, trap, halt, steps, row, base, top, read, written, mark]
}

#[cfg(test)]
mod tests {
    use super::followers;

    #[test]
    fn an_end_of_equal_numbers_is_one() {
        assert_eq!(followers::<i32>(&[]), [0]);
        assert_eq!(followers(&[7, 7, 7]), [7]);
        assert_eq!(followers(&[1, 7, 7]), [1, 7]);
        assert_eq!(followers(&[7, 7, 1]), [7, 7, 1]);
    }
}
