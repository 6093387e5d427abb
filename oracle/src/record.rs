//! The 32-byte record: read from document 01's words, with document 02's border (K2) and angle (K7), and apart from the
//! proved code; and made up at random. The bench uses this file too.

use crate::degrees::{around, far, Angle, LAST};
use crate::random::Random;
use crate::settings::{Border, Settings};

/// What a job asks for.
pub enum Task {
    Whole(Settings),
    Line(Settings),
    Binomial,
}

/// The number in two bytes, the lower first.
fn short(bytes: &[u8; 32], at: usize) -> usize {
    usize::from(bytes[at]) + 256 * usize::from(bytes[at + 1])
}

/// A line filter's task: border, length, iterations, q and angle within its limits;
/// direction 0 and estimate 0, as in every job.
fn line_task(bytes: &[u8; 32], longest: usize) -> Option<Task> {
    if bytes[4] != 0 || bytes[24..].iter().any(|&byte| byte != 0) {
        return None;
    }
    let border = Border::in_record(bytes[5], bytes[6])?;
    let (length, iterations) = (short(bytes, 8), short(bytes, 10));
    let q = short(bytes, 12) + 65_536 * short(bytes, 14);
    let angle_bits = bytes[16..24].iter().rev().fold(0, |bits, &byte| bits << 8 | u64::from(byte));
    let angle = Angle::of(f64::from_bits(angle_bits))?;
    let measured = length == 0 && angle_bits == 0;
    let stated = length % 2 == 1 && (3..=longest).contains(&length);
    let settings = Settings { angle, length, iterations, factor: q as f64 / 65_536.0, border };
    match bytes[7] {
        1 if !(1..=22).contains(&iterations) || q > 65_536 => None,
        1 if measured => Some(Task::Whole(settings)),
        1 if stated => Some(Task::Line(settings)),
        2 if iterations == 0 && q <= 524_288 && stated => Some(Task::Line(settings)),
        _ => None,
    }
}

/// A job's width, height and task; nothing where the bytes are no job.
pub fn read_job(bytes: &[u8]) -> Option<(usize, usize, Task)> {
    let bytes: &[u8; 32] = bytes.try_into().ok()?;
    let (width, height) = (short(bytes, 0), short(bytes, 2));
    if !(1..=1024).contains(&width) || !(1..=1024).contains(&height) {
        return None;
    }
    let task = if bytes[7] == 3 {
        // the binomial has 0 in all behind height but filter
        bytes[4..7].iter().chain(&bytes[8..]).all(|&byte| byte == 0).then_some(Task::Binomial)
    } else {
        line_task(bytes, 2 * width.max(height) + 1)
    };
    Some((width, height, task?))
}

/// The direction's number and the task of a record, a job's or a result's: a result is a job that has what was used in
/// it. Nothing where the bytes are no record.
pub fn read(bytes: &[u8]) -> Option<(u8, Task)> {
    let mut job: [u8; 32] = bytes.try_into().ok()?;
    job[4] = 0;
    job[24..].fill(0);
    let estimate = f64::from_le_bytes(bytes[24..].try_into().ok()?);
    let used = bytes[4] <= 3 && (estimate.to_bits() == 0 || estimate > 0.0 && estimate.is_finite());
    match read_job(&job)?.2 {
        Task::Whole(_) | Task::Binomial if job != bytes => None,
        task => used.then_some((bytes[4], task)),
    }
}

/// Angles that have a direction, of every kind: the four axes, -0.0, any in a few turns, any at all, the last of them.
fn angle(random: &mut Random) -> f64 {
    let any = [f64::from_bits(random.bits()), far(random)][random.below(2) as usize];
    match random.below(8) {
        0 => -0.0,
        1 => (random.unit() - 0.5) * 20.0,
        2 if Angle::of(any).is_some() => any,
        k => [0.0, 0.75, 1.5, 2.25][k as usize % 4],
    }
}

/// A blur length's bytes.
fn length(random: &mut Random, width: usize, height: usize) -> [u8; 2] {
    (3 + 2 * random.below(width.max(height) as u64) as u16).to_le_bytes()
}

/// Document 01's row, 5 by 1.
const ROW: [u8; 32] =
    [5, 0, 1, 0, 0, 0, 0, 1, 3, 0, 1, 0, 0, 0, 1, 0, 0, 0, 0, 0, 0, 0, 0, 0, 0, 0, 0, 0, 0, 0, 0, 0];

/// The row with other bytes at a place.
fn row_with(place: usize, bytes: &[u8]) -> Vec<u8> {
    let mut row = ROW.to_vec();
    row[place..place + bytes.len()].copy_from_slice(bytes);
    row
}

/// The row with every border's byte: 0 to 5 with every value, the others with 0 and 1.
pub fn rows_with_borders() -> impl Iterator<Item = Vec<u8>> {
    let values = |border| 0..=if border <= 5 { 255 } else { 1 };
    let bytes = (0..=255).flat_map(move |border| values(border).map(move |value| [border, value]));
    bytes.map(|bytes| row_with(5, &bytes))
}

/// The row with the last angles that have a direction and the first that have none, of either sign, by single steps;
/// and with the smallest and the largest doubles, the infinities and NaN.
pub fn rows_with_angles() -> impl Iterator<Item = Vec<u8>> {
    let ends = [0.0, -0.0, f64::from_bits(1), f64::MAX, f64::MIN, f64::INFINITY, f64::NEG_INFINITY, f64::NAN];
    let angles = around(LAST, 300).chain(around(-LAST, 300)).chain(ends);
    angles.map(|angle| row_with(16, &angle.to_le_bytes()))
}

/// A record that is a job, of every filter and border.
pub fn job(random: &mut Random, width: usize, height: usize) -> Vec<u8> {
    let filter = [1, 1, 1, 2, 2, 3][random.below(6) as usize];
    let whole = filter == 1 && random.below(2) == 0;
    let mut out = vec![0; 32];
    out[0..2].copy_from_slice(&(width as u16).to_le_bytes());
    out[2..4].copy_from_slice(&(height as u16).to_le_bytes());
    out[7] = filter;
    if filter == 3 {
        return out;
    }
    out[5] = random.below(4) as u8;
    out[6] = if out[5] == 2 { random.below(256) as u8 } else { 0 };
    if !whole {
        out[8..10].copy_from_slice(&length(random, width, height));
        out[16..24].copy_from_slice(&angle(random).to_le_bytes());
    }
    let limit = if filter == 1 { 65_536 } else { 524_288 };
    let q = [limit, 65_536, 0, 1, random.below(u64::from(limit) + 1) as u32][random.below(5) as usize];
    out[12..16].copy_from_slice(&q.to_le_bytes());
    if filter == 1 {
        let most = if random.below(10) == 0 { 22 } else { 4 };
        out[10] = 1 + random.below(most) as u8;
    }
    out
}

/// A record that a sheet takes: of a line filter with its length, a job or a result, or of the binomial.
pub fn listed(random: &mut Random) -> Vec<u8> {
    let most = [16, 1024][random.below(2) as usize];
    let (width, height) = (1 + random.below(most) as usize, 1 + random.below(most) as usize);
    let mut out = job(random, width, height);
    if out[7] == 3 {
        return out;
    }
    if out[8..10] == [0, 0] {
        out[8..10].copy_from_slice(&length(random, width, height));
    }
    out[4] = random.below(4) as u8;
    let estimate = [0.0, f64::from_bits(1), f64::MAX, 10.5, 40.0 * random.unit()][random.below(5) as usize];
    out[24..].copy_from_slice(&estimate.to_le_bytes());
    out
}
