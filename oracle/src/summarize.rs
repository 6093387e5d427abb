//! The round sheet on hostile files: good records and faulty ones, tails, any bytes, and any room for the numbers,
//! against the plain restatement in `sheet`; the Rust original has no such call. Then good files in another order.

use crate::case::{Case, Tally, Verdict};
use crate::degrees::{far, LAST};
use crate::ffi::smear_summarize;
use crate::random::Random;
use crate::record::{job, listed, rows_with_angles, rows_with_borders};
use crate::sheet::{sheet, MOST_RECORDS, NUMBERS};
use std::fmt;

/// A file's bytes; printed with a line for each record, unless there are many.
#[derive(Clone, PartialEq)]
struct Records(Vec<u8>);

impl fmt::Debug for Records {
    fn fmt(&self, f: &mut fmt::Formatter<'_>) -> fmt::Result {
        write!(f, "{} bytes", self.0.len())?;
        if self.0.len() <= 4096 {
            self.0.chunks(32).try_for_each(|part| write!(f, "\n{part:02X?}"))?;
        }
        Ok(())
    }
}

impl Records {
    /// All but a quarter of the parts; where they are few, all but one, and plainer bytes.
    fn smaller(&self) -> Vec<Self> {
        let bytes = &self.0;
        let few = bytes.len() <= 4096;
        let parts: Vec<&[u8]> = bytes.chunks(32).collect();
        let dropped = if few { 1 } else { parts.len().div_ceil(4) };
        let without = |start| [&parts[..start], &parts[parts.len().min(start + dropped)..]].concat().concat();
        let mut out: Vec<Vec<u8>> = (0..parts.len()).step_by(dropped).map(without).collect();
        for place in (0..bytes.len()).filter(|&place| few && bytes[place] > 0) {
            for byte in [0, bytes[place] / 2] {
                let mut next = bytes.clone();
                next[place] = byte;
                out.push(next);
            }
        }
        out.into_iter().map(Self).collect()
    }
}

/// What stands in the room for the numbers, behind it and in the index before the call.
const OLD: u64 = 0xA5A5_A5A5_A5A5_A5A5;
const OLD_INDEX: usize = usize::MAX - 1;
const BEHIND: usize = 8;

/// What a call leaves behind: the number that it returns, the index, and what stands in the room and behind it.
type Left = (u8, usize, Vec<u64>);

fn ours(records: &[u8], room: usize) -> Left {
    let mut numbers = vec![OLD; room + BEHIND];
    let mut index = OLD_INDEX;
    let code = unsafe { smear_summarize(records.as_ptr(), records.len(), numbers.as_mut_ptr(), room, &mut index) };
    (code, index, numbers)
}

/// The same by the restatement.
fn restated(records: &[u8], room: usize) -> Left {
    let mut numbers = vec![OLD; room + BEHIND];
    if room < NUMBERS {
        return (10, OLD_INDEX, numbers);
    }
    match sheet(records) {
        Err(index) => (13, index, numbers),
        Ok(given) => {
            numbers[..NUMBERS].copy_from_slice(&given);
            (0, OLD_INDEX, numbers)
        }
    }
}

/// Alike or refused, where both calls leave the same.
fn verdict(one: &Left, other: &Left) -> Verdict {
    let ((code, index, numbers), (number, place, expected)) = (one, other);
    if (code, index) != (number, place) {
        return Verdict::Differs(format!("answer {code} with {index}, not {number} with {place}"));
    }
    match (0..numbers.len()).find(|&at| numbers[at] != expected[at]) {
        Some(at) => Verdict::Differs(format!("number {at} is {}, not {}", numbers[at], expected[at])),
        None if *code == 0 => Verdict::Alike,
        None => Verdict::Refused,
    }
}

#[derive(Clone, Debug)]
struct File {
    records: Records,
    /// How many numbers there is room for.
    room: usize,
}

impl Case for File {
    fn check(&self) -> Verdict {
        let records = self.records.clone();
        let ours = ours(&records.0, self.room);
        if records != self.records {
            return Verdict::Differs("the records were changed".into());
        }
        verdict(&ours, &restated(&records.0, self.room))
    }

    fn smaller(&self) -> Vec<Self> {
        let mut out: Vec<Self> = self.records.smaller().into_iter().map(|records| Self { records, ..*self }).collect();
        if self.room != NUMBERS {
            out.push(Self { room: NUMBERS, ..self.clone() });
        }
        out
    }
}

/// A good file, and how to reorder it.
#[derive(Clone, Debug)]
struct Reordered {
    records: Records,
    seed: u64,
}

impl Reordered {
    /// The same records in an order of the seed's.
    fn other(&self) -> Vec<u8> {
        let mut random = Random::new(self.seed);
        let mut parts: Vec<&[u8]> = self.records.0.chunks(32).collect();
        (1..parts.len()).for_each(|last| parts.swap(last, random.below(last as u64 + 1) as usize));
        parts.concat()
    }
}

impl Case for Reordered {
    fn check(&self) -> Verdict {
        let one = ours(&self.records.0, NUMBERS);
        if one.0 != 0 {
            // which record is the first fault depends on the order
            return Verdict::Refused;
        }
        verdict(&ours(&self.other(), NUMBERS), &one)
    }

    fn smaller(&self) -> Vec<Self> {
        self.records.smaller().into_iter().map(|records| Self { records, ..*self }).collect()
    }
}

/// How many records a file has: mostly few.
fn count(random: &mut Random) -> usize {
    let most = if random.below(200) == 0 { 2000 } else { [1, 2, 8, 8, 8, 40][random.below(6) as usize] };
    random.below(most) as usize
}

fn noise(random: &mut Random, length: usize) -> Vec<u8> {
    (0..length).map(|_| random.below(256) as u8).collect()
}

/// A record that a sheet may refuse: a job, also a whole one, one that is changed in a byte or has another length or
/// double in it, or any bytes.
fn doubtful(random: &mut Random) -> Vec<u8> {
    let mut out = listed(random);
    match random.below(5) {
        0 => return job(random, 5, 3),
        1 => out[random.below(32) as usize] = random.below(256) as u8,
        2 => {
            let length = [0, 1, 2, 4, 11, 13, 2049, 2051, 65_535][random.below(9) as usize];
            out[8..10].copy_from_slice(&u16::to_le_bytes(length));
        }
        3 => {
            let double = [-0.0, -1.0, f64::MIN, LAST, far(random), far(random)][random.below(6) as usize];
            let place = [16, 24][random.below(2) as usize];
            out[place..place + 8].copy_from_slice(&f64::to_le_bytes(double));
        }
        _ => out = noise(random, 32),
    }
    out
}

/// Files of good records, some with doubtful ones among them or with a tail, and files of any bytes.
pub fn files(random: &mut Random, inputs: usize, tally: &mut Tally) {
    for _ in 0..inputs {
        let mut parts: Vec<Vec<u8>> = (0..count(random)).map(|_| listed(random)).collect();
        for _ in 0..[0, 0, 0, 1, 1, 2, 5][random.below(7) as usize] {
            let place = random.below(parts.len() as u64 + 1) as usize;
            parts.insert(place, doubtful(random));
        }
        let mut records = parts.concat();
        match random.below(16) {
            0..=2 => records.extend(&listed(random)[..1 + random.below(31) as usize]),
            3 => {
                let length = random.below(200) as usize;
                records = noise(random, length);
            }
            _ => {}
        }
        let room = if random.below(4) == 0 { random.below(31) } else { 21 + random.below(10) } as usize;
        tally.check(File { records: Records(records), room });
    }
}

/// Every change of one byte of good records, each to all 255 other values, between two good ones.
pub fn changes(random: &mut Random, inputs: usize, tally: &mut Tally) {
    for _ in 0..inputs.div_ceil(32 * 255) {
        let records = [listed(random), listed(random), listed(random)].concat();
        for place in 32..64 {
            for other in 1..=255 {
                let mut next = records.clone();
                next[place] = next[place].wrapping_add(other);
                tally.check(File { records: Records(next), room: NUMBERS });
            }
        }
    }
}

/// A record with every border, and others that are none.
pub fn borders(_: &mut Random, _: usize, tally: &mut Tally) {
    rows_with_borders().for_each(|record| tally.check(File { records: Records(record), room: NUMBERS }));
}

/// A record with the last angles that have a direction, and with angles that have none.
pub fn angles(_: &mut Random, _: usize, tally: &mut Tally) {
    rows_with_angles().for_each(|record| tally.check(File { records: Records(record), room: NUMBERS }));
}

/// Files about the most records, each with the index of the fault that the document's own words state.
pub fn limits(random: &mut Random, _: usize, tally: &mut Tally) {
    let some: Vec<u8> = (0..1000).flat_map(|_| listed(random)).collect();
    let most = some.repeat(MOST_RECORDS / 1000);
    let one = &some[..32];
    let faulty_at = |index: usize| {
        let mut records = [&most[..], one].concat();
        // no filter
        records[32 * index + 7] = 0;
        records
    };
    // 1,024 by 1, length 2,049: the largest total
    let longest = [&[0, 4, 1, 0, 3, 0, 0, 1, 1, 8, 1, 0, 0, 0, 1, 0][..], &[0; 16]].concat();
    for (records, fault) in [
        (Vec::new(), None),
        (one[..31].to_vec(), Some(0)),
        (most.clone(), None),
        (longest.repeat(MOST_RECORDS), None),
        ([&most[..], one].concat(), Some(MOST_RECORDS)),
        ([&most[..], &one[..1]].concat(), Some(MOST_RECORDS)),
        (most.repeat(2), Some(MOST_RECORDS)),
        (faulty_at(5), Some(5)),
        (faulty_at(MOST_RECORDS - 1), Some(MOST_RECORDS - 1)),
        (faulty_at(MOST_RECORDS), Some(MOST_RECORDS)),
    ] {
        assert_eq!(sheet(&records).err(), fault, "the restatement of a file of {} bytes", records.len());
        tally.check(File { records: Records(records), room: NUMBERS });
    }
}

/// Good files, each in two orders.
pub fn reordered(random: &mut Random, inputs: usize, tally: &mut Tally) {
    for _ in 0..inputs {
        let records = (0..count(random)).flat_map(|_| listed(random)).collect();
        tally.check(Reordered { records: Records(records), seed: random.bits() });
    }
}
