//! The program's function on hostile input: records that are cut, changed or made up, any picture,
//! any room for the answer.

use crate::case::{Case, Tally, Verdict};
use crate::ffi::smear_run;
use crate::picture::{size, Picture};
use crate::random::Random;
use crate::reader::printed;
use crate::record::{job, rows_with_angles, rows_with_borders};
use crate::settings::Border;

#[derive(Clone, Debug)]
struct Run {
    job: Vec<u8>,
    picture: Vec<u8>,
    /// How many bytes there are for the answer.
    room: usize,
}

/// Room for every answer.
const ROOM: usize = 4096 + 32;
/// What stands in the room and behind it before the call.
const OLD: u8 = 0xA5;
const BEHIND: usize = 64;

impl Case for Run {
    fn check(&self) -> Verdict {
        let (job, picture) = (self.job.clone(), self.picture.clone());
        let mut out = vec![OLD; self.room + BEHIND];
        let mut written = usize::MAX;
        let code = unsafe {
            smear_run(
                job.as_ptr(), job.len(), picture.as_ptr(), picture.len(), out.as_mut_ptr(), self.room, &mut written,
            )
        };
        if job != self.job || picture != self.picture {
            return Verdict::Differs("an input was changed".into());
        }
        let Some(expected) = printed(&job, &picture) else {
            return Verdict::LeftOut;
        };
        let fits = expected.len() <= self.room;
        let (number, count) = if fits { (0, expected.len()) } else { (10, usize::MAX) };
        if (code, written) != (number, count) {
            return Verdict::Differs(format!("answer {code} with {written}, not {number} with {count}"));
        }
        let front = if fits { &expected[..] } else { &[] };
        if let Some(place) = (0..out.len()).find(|&place| out[place] != *front.get(place).unwrap_or(&OLD)) {
            return Verdict::Differs(format!("byte {place} is {}, not {:?}", out[place], front.get(place)));
        }
        if fits && expected.len() > 32 {
            Verdict::alike(Border::of(job[5], job[6]))
        } else {
            Verdict::Refused
        }
    }

    fn smaller(&self) -> Vec<Self> {
        let mut out = vec![Self { room: ROOM, ..self.clone() }];
        for kept in [0, self.picture.len() / 2, self.picture.len().saturating_sub(1)] {
            out.push(Self { picture: self.picture[..kept].to_vec(), ..self.clone() });
        }
        for place in 0..self.job.len() {
            for byte in [0, self.job[place] / 2] {
                let mut next = self.clone();
                next.job[place] = byte;
                out.push(next);
            }
        }
        for place in 0..self.picture.len().min(64) {
            let mut next = self.clone();
            next.picture[place] /= 2;
            out.push(next);
        }
        out.retain(|next| next.weight() < self.weight());
        out
    }
}

impl Run {
    /// What shrinking makes less.
    fn weight(&self) -> (bool, usize, u64) {
        let sum = |bytes: &[u8]| bytes.iter().map(|&byte| u64::from(byte)).sum::<u64>();
        (self.room != ROOM, self.picture.len(), sum(&self.job) + sum(&self.picture))
    }
}

/// A picture without bytes between its rows, with surplus behind the last.
fn tight(random: &mut Random, width: usize, height: usize, surplus: usize) -> Vec<u8> {
    let mut out = Picture::random(random, width, height).pixels();
    out.extend((0..surplus).map(|_| random.below(256) as u8));
    out
}

/// A job with a picture of its size and all the room that it can need.
fn good(random: &mut Random) -> Run {
    let (width, height) = size(random);
    // a whole job wants some transitions
    let (width, height) =
        if random.below(4) == 0 { (width, height) } else { ((width + 8).min(64), (height + 3).min(64)) };
    let surplus = random.below(3) as usize;
    Run { job: job(random, width, height), picture: tight(random, width, height, surplus), room: ROOM }
}

/// Good records with good pictures.
pub fn jobs(random: &mut Random, count: usize, tally: &mut Tally) {
    (0..count).for_each(|_| tally.check(good(random)));
    for (width, height) in [(64, 64), (1024, 4), (4, 1024), (64, 65), (1024, 1024), (4096, 1), (1025, 1), (1, 1025)] {
        let run = Run { job: job(random, width, height), picture: tight(random, width, height, 0), room: ROOM };
        tally.check(run);
    }
}

/// Every prefix of good records, and each with a byte or with 32 behind it.
pub fn prefixes(random: &mut Random, count: usize, tally: &mut Tally) {
    for _ in 0..count.div_ceil(35) {
        let run = good(random);
        (0..=32).for_each(|end| tally.check(Run { job: run.job[..end].to_vec(), ..run.clone() }));
        for more in [1, 32] {
            let behind = tight(random, more, 1, 0);
            tally.check(Run { job: [&run.job[..], &behind].concat(), ..run.clone() });
        }
    }
}

/// Every change of one byte of good records, each to all 255 other values; there are bytes enough for a wider picture.
pub fn changes(random: &mut Random, count: usize, tally: &mut Tally) {
    for _ in 0..count.div_ceil(32 * 255) {
        let (width, height) = (9 + random.below(8) as usize, 3 + random.below(6) as usize);
        let run = Run { job: job(random, width, height), picture: tight(random, width, height, 2048), room: ROOM };
        for place in 0..32 {
            for other in 1..=255 {
                let mut next = run.clone();
                next.job[place] = next.job[place].wrapping_add(other);
                tally.check(next);
            }
        }
    }
}

/// A record with every border, and others that are none.
pub fn borders(random: &mut Random, _: usize, tally: &mut Tally) {
    rows_with_borders().for_each(|job| tally.check(Run { job, picture: tight(random, 5, 1, 0), room: ROOM }));
}

/// A record with the last angles that have a direction, and with angles that have none.
pub fn angles(random: &mut Random, _: usize, tally: &mut Tally) {
    rows_with_angles().for_each(|job| tally.check(Run { job, picture: tight(random, 5, 1, 0), room: ROOM }));
}

/// Records of random bytes, of any length and of 32, and good ones with a few random bytes; random pictures.
pub fn noise(random: &mut Random, count: usize, tally: &mut Tally) {
    for _ in 0..count {
        let mut run = good(random);
        let length = if random.below(4) == 0 { random.below(70) as usize } else { 32 };
        match random.below(3) {
            0 => run.job = (0..length).map(|_| random.below(256) as u8).collect(),
            1 => run.job = (0..length).map(|_| if random.below(2) == 0 { 0 } else { random.below(4) as u8 }).collect(),
            _ => (0..2 + random.below(3)).for_each(|_| run.job[random.below(32) as usize] = random.below(256) as u8),
        }
        run.picture = (0..random.below(600)).map(|_| random.below(256) as u8).collect();
        tally.check(run);
    }
}

/// Good records with pictures that are too short, or too short by one, or just long enough.
pub fn pictures(random: &mut Random, count: usize, tally: &mut Tally) {
    for _ in 0..count {
        let mut run = good(random);
        let length = run.picture.len() as u64;
        run.picture.truncate(random.below(length + 1) as usize);
        tally.check(run);
    }
}

/// Room for the answer that is too short by one, just enough, one more, none or any; room for pixels and record, or a
/// byte less, also where the picture lacks a pixel, so that the answer is a text.
pub fn room(random: &mut Random, count: usize, tally: &mut Tally) {
    for _ in 0..count {
        let mut run = good(random);
        let side = |at: usize| usize::from(u16::from_le_bytes([run.job[at], run.job[at + 1]]));
        let whole = side(0) * side(2) + 32;
        if random.below(4) == 0 {
            run.picture.truncate(whole - 33);
        }
        let needed = printed(&run.job, &run.picture).map_or(ROOM, |answer| answer.len());
        let any = random.below(ROOM as u64) as usize;
        let rooms = [needed - 1, needed, needed + 1, 0, any, whole - 1, whole];
        tally.check(Run { room: rooms[random.below(7) as usize], ..run });
    }
}
