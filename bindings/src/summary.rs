//! The round sheet: the blur lengths in a file of 32-byte records, summed up by direction.

use crate::error::FaultyRecord;
use crate::ffi;

/// The blur lengths of one direction's restorations and line unsharps. All are 0 where there is none.
#[derive(Clone, Copy, Debug, Default, PartialEq, Eq)]
pub struct DirectionSummary {
    /// How many there are.
    pub count: u64,
    /// Their sum.
    pub total: u64,
    /// The largest.
    pub largest: u64,
    /// The mean's whole part: `total / count`.
    pub mean: u64,
    /// What the mean leaves: `total % count`.
    pub remainder: u64,
}

/// The sheet over a file of records. The order of the records does not matter.
#[derive(Clone, Copy, Debug, Default, PartialEq, Eq)]
pub struct RecordSummary {
    /// Of the records with direction Horizontal, the binomials apart.
    pub horizontal: DirectionSummary,
    /// Of the records with direction DownRight.
    pub down_right: DirectionSummary,
    /// Of the records with direction Vertical.
    pub vertical: DirectionSummary,
    /// Of the records with direction DownLeft.
    pub down_left: DirectionSummary,
    /// How many records are a binomial unsharp's.
    pub binomials: u64,
}

/// The sheet over the bytes of at most 1,000,000 records, back to back. Each must read, and have a blur length unless
/// it is a binomial unsharp's: a whole job, which has none yet, is faulty here.
pub fn summarize(records: &[u8]) -> Result<RecordSummary, FaultyRecord> {
    let (refusal, sheet, index) = ffi::summarize(records);
    if refusal == 13 {
        return Err(FaultyRecord { index });
    }
    assert_eq!(refusal, 0, "there is room for all numbers of a sheet");
    let direction = |number: usize| {
        let [count, total, largest, mean, remainder] = std::array::from_fn(|place| sheet[5 * number + place]);
        DirectionSummary { count, total, largest, mean, remainder }
    };
    Ok(RecordSummary {
        horizontal: direction(0),
        down_right: direction(1),
        vertical: direction(2),
        down_left: direction(3),
        binomials: sheet[20],
    })
}
