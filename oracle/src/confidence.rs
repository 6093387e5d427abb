//! The floor of the whole job (document 02, K6): a plain restatement, since the Rust has none. What the Rust has is a
//! confidence in doubles: where that is clear of the floor the restatement must agree with it.

use crate::direction::sums;
use crate::picture::Picture;
use crate::random::Random;
use qr_lab_imgproc::blur::estimate_line_direction;

/// More than the Rust's confidence can be off. That is most at a round smear: about the root of a double's rounding.
const ROUNDING: f64 = 1e-6;

/// Whether the confidence of an accepted picture is at least `floor` / 256.
pub fn reaches(picture: &Picture, floor: u16) -> bool {
    let reached = reached(sums(picture), floor);
    let above = estimate_line_direction(picture.view()).confidence - f64::from(floor) / 256.0;
    assert!(
        above.abs() < ROUNDING || reached == (above > 0.0),
        "the restatement differs from the Rust: floor {floor} of {picture:?}"
    );
    reached
}

/// The same by the tensor's sums, which are 0 where a side is below 3.
fn reached((a, c, e): (i64, i64, i64), floor: u16) -> bool {
    if a + e == 0 {
        return floor == 0;
    }
    let [a, c, e, floor] = [a, c, e, i64::from(floor)].map(i128::from);
    floor <= 256 && (512 - floor).pow(2) * ((a - e).pow(2) + 4 * c.pow(2)) >= floor.pow(2) * (a + e).pow(2)
}

/// The largest floor that an accepted picture reaches.
pub fn largest(picture: &Picture) -> u16 {
    let sums = sums(picture);
    (0..=256).rfind(|&floor| reached(sums, floor)).expect("every picture reaches 0")
}

/// A floor: mostly none, often the last that the picture reaches or the next; else any, with those about the limits.
pub fn floor(random: &mut Random, picture: &Picture) -> u16 {
    match random.below(16) {
        0..=7 => 0,
        8..=10 => largest(picture),
        11..=12 => largest(picture) + 1,
        13 => random.below(257) as u16,
        _ => [1, 255, 256, 257, 300, 512, 1024, u16::MAX][random.below(8) as usize],
    }
}

/// A picture that reaches a floor by equality: bars of 2 pixels across each other, along the axes or the diagonals,
/// added up, the weaker `weaker` 16ths of the stronger. So are the gradients across them, whose products cancel at an
/// even width: the eigenvalues are as weaker^2 to 256.
pub fn crossed(random: &mut Random, weaker: usize, width: usize, height: usize) -> Picture {
    let unit = 1 + random.below(255 / (16 + weaker as u64)) as usize;
    let (first, second) = if random.below(2) == 0 { (16, weaker) } else { (weaker, 16) };
    let diagonal = random.below(2) == 0;
    let bar = |place: usize| (place + 1) / 2 % 2;
    let level = |x: usize, y: usize| {
        // bars repeat after 4 pixels, so that x + 3y is as good as x - y
        let (p, q) = if diagonal { (x + y, x + 3 * y + 1) } else { (x, y) };
        unit * (first * bar(p) + second * bar(q))
    };
    let data = (0..width * height).map(|place| level(place % width, place / width) as u8).collect();
    Picture { data, width, height, stride: width }
}
