//! The round sheet over a file of records, restated plainly from document 02's words (K1): the Rust original has no
//! such call. The bench uses this file too.

use crate::record::{read, Task};

pub const NUMBERS: usize = 21;
pub const MOST_RECORDS: usize = 1_000_000;

/// For each direction count, total, largest, mean and remainder of its blur lengths, then the number of binomials;
/// or the index of the first record that has no place on a sheet.
pub fn sheet(records: &[u8]) -> Result<[u64; NUMBERS], usize> {
    let mut numbers = [0; NUMBERS];
    for (index, part) in records.chunks(32).enumerate() {
        if index == MOST_RECORDS {
            return Err(index);
        }
        let (direction, length) = match read(part) {
            None | Some((_, Task::Whole(_))) => return Err(index),
            Some((_, Task::Binomial)) => {
                numbers[20] += 1;
                continue;
            }
            Some((direction, Task::Line(settings))) => (direction, settings.length as u64),
        };
        let smears = &mut numbers[5 * usize::from(direction)..][..5];
        smears[0] += 1;
        smears[1] += length;
        smears[2] = length.max(smears[2]);
    }
    for smears in numbers.chunks_exact_mut(5).filter(|smears| smears[0] > 0) {
        (smears[3], smears[4]) = (smears[1] / smears[0], smears[1] % smears[0]);
    }
    Ok(numbers)
}
