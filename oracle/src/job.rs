//! The whole job against the Rust's three calls in a row, with document 01's rounding of the length between them. With
//! the border that the Rust has not a plain restatement stands for the third; the others take no border. A plain
//! restatement stands for the floor of document 02 too (`confidence`), since the Rust has none.

use crate::angle::number;
use crate::case::{Case, Tally, Verdict};
use crate::confidence::{crossed, floor, largest, reaches};
use crate::degrees::Angle;
use crate::direction::is_tie;
use crate::ffi::{smear_restore, Swing};
use crate::lent::{line_scratch, Lent};
use crate::line::filtered;
use crate::picture::{size, Picture};
use crate::random::Random;
use crate::settings::{border_number, Border, Settings};
use qr_lab_imgproc::blur::{estimate_line_direction, estimate_line_length_with, LineLengthConfig, RasterDirection4};

#[derive(Clone, Debug)]
struct Job {
    source: Picture,
    destination: Picture,
    minimum_transitions: usize,
    minimum_amplitude: u8,
    minimum_confidence: u16,
    iterations: usize,
    relaxation: f64,
    border: u8,
    border_value: u8,
    scratch: usize,
    swings: usize,
}

/// What a job answers: a refusal, or direction, length and estimate with the destination's bytes.
type Answer = Result<(u8, usize, f64, Vec<u8>), u8>;

const OLD: i32 = 0x5A5A_5A5A;
const GUARD: i32 = 0x7E7E_7E7E;
const OLD_SWING: Swing = Swing { width: 1e300, swing: 255 };
const GUARD_SWING: Swing = Swing { width: -1e300, swing: 254 };

/// The smallest odd whole number of at least 3 and at least the estimate.
fn odd(estimate: f64) -> usize {
    (estimate.ceil() as usize | 1).max(3)
}

/// What the whole job measures.
pub struct Smear {
    pub direction: RasterDirection4,
    pub angle: Angle,
    pub blur_length: usize,
    pub estimate: f64,
}

/// The smear of an accepted picture by the Rust's calls,
/// with document 01's rounding of the length and its refusals 11 and 12.
pub fn measure(source: &Picture, thresholds: &LineLengthConfig) -> Result<Smear, u8> {
    let direction = estimate_line_direction(source.view()).raster_direction;
    let angle = Angle::along(direction);
    let estimate = estimate_line_length_with(source.view(), angle.radians(), thresholds).ok_or(11u8)?;
    let blur_length = odd(estimate);
    if blur_length > 2 * source.width.max(source.height) + 1 {
        return Err(12);
    }
    Ok(Smear { direction, angle, blur_length, estimate })
}

impl Job {
    fn border(&self) -> Border {
        Border::of(self.border, self.border_value)
    }

    fn expected(&self) -> Answer {
        let (s, d) = (&self.source, &self.destination);
        let pixels = s.width * s.height;
        match s.refusal() {
            0 => {}
            refused => return Err(refused),
        }
        if d.refusal() != 0 {
            return Err(5);
        }
        if (s.width, s.height) != (d.width, d.height) {
            return Err(6);
        }
        if self.iterations == 0 || !(0.0..=1.0).contains(&self.relaxation) {
            return Err(8);
        }
        if self.iterations > 22 {
            return Err(9);
        }
        if self.scratch < line_scratch(s.width, s.height) || self.swings < pixels {
            return Err(10);
        }
        if !reaches(s, self.minimum_confidence) {
            return Err(17);
        }
        let thresholds = LineLengthConfig {
            minimum_transitions: self.minimum_transitions,
            minimum_amplitude: self.minimum_amplitude,
        };
        let Smear { direction, angle, blur_length, estimate } = measure(s, &thresholds)?;
        let settings = Settings {
            angle,
            length: blur_length,
            iterations: self.iterations,
            factor: self.relaxation,
            border: self.border(),
        };
        Ok((number(direction), blur_length, estimate, filtered(s, d, &settings)))
    }
}

impl Case for Job {
    fn check(&self) -> Verdict {
        if self.source.refusal() == 0 && is_tie(&self.source) {
            return Verdict::LeftOut;
        }
        let (s, d) = (&self.source, &self.destination);
        let mut bytes = d.data.clone();
        let mut lent = (Lent::new(self.scratch, OLD, GUARD), Lent::new(self.swings, OLD_SWING, GUARD_SWING));
        let ((scratch, scratch_len), (swings, swings_len)) = (lent.0.part(), lent.1.part());
        let (mut direction, mut blur_length, mut estimate) = (77, 77, -1.0);
        let code = unsafe {
            smear_restore(
                s.data.as_ptr(), s.data.len(), s.width, s.height, s.stride,
                bytes.as_mut_ptr(), bytes.len(), d.width, d.height, d.stride,
                self.minimum_transitions, self.minimum_amplitude, self.minimum_confidence,
                self.iterations, self.relaxation, self.border, self.border_value,
                scratch, scratch_len, swings, swings_len,
                &mut direction, &mut blur_length, &mut estimate,
            )
        };
        if !lent.0.is_guarded() || !lent.1.is_guarded() {
            return Verdict::Differs("an element beside the scratch was written".into());
        }
        match self.expected() {
            Err(refused) if code == refused => {
                let kept = code == 11 || code == 12 || lent.0.is_kept() && lent.1.is_kept();
                if kept && bytes == d.data && (direction, blur_length, estimate) == (77, 77, -1.0) {
                    return Verdict::Refused;
                }
                Verdict::Differs("a refusal changed something".into())
            }
            Ok(expected) if code == 0 && expected == (direction, blur_length, estimate, bytes) => {
                Verdict::alike(self.border())
            }
            expected => Verdict::Differs(format!(
                "{code}, direction {direction}, length {blur_length}, {estimate:?}; not {expected:?}"
            )),
        }
    }

    fn smaller(&self) -> Vec<Self> {
        let mut out = Vec::new();
        if self.minimum_confidence > 0 {
            out.push(Self { minimum_confidence: 0, ..self.clone() });
        }
        for source in self.source.smaller() {
            let pixels = source.width * source.height;
            let destination = Picture { data: vec![0; pixels], stride: source.width, ..source };
            let scratch = line_scratch(source.width, source.height);
            out.push(Self { source, destination, scratch, swings: pixels, ..self.clone() });
        }
        out
    }
}

/// A job with any settings, in pictures and room as they must be: scratch is just enough.
fn plain(random: &mut Random, source: Picture) -> Job {
    let Picture { width, height, .. } = source;
    Job {
        destination: Picture::random(random, width, height),
        minimum_transitions: [1, 1, 1, 2, 3, 8][random.below(6) as usize],
        minimum_amplitude: [1, 1, 24, 24, 24, 100][random.below(6) as usize],
        minimum_confidence: floor(random, &source),
        iterations: 1 + random.below(5) as usize,
        relaxation: [1.0, 1.0, 0.5, 0.1, -0.0, random.unit()][random.below(6) as usize],
        border: border_number(random),
        border_value: random.below(256) as u8,
        scratch: line_scratch(width, height),
        swings: width * height,
        source,
    }
}

/// The same, now and then with a picture, a setting or room that is refused or at a limit.
fn case(random: &mut Random, source: Picture) -> Job {
    let Picture { width, height, .. } = source;
    let pixels = width * height;
    let mut out = plain(random, source);
    match random.below(40) {
        0 => out.source = out.source.damaged(random),
        1 => out.destination = out.destination.damaged(random),
        2 => out.destination = Picture::random(random, width + 1, height),
        3 => out.scratch -= 1,
        4 => out.swings -= 1,
        5 => out.iterations = [0, 22, 23, usize::MAX][random.below(4) as usize],
        6 => out.relaxation = [f64::NAN, f64::INFINITY, 1.5, -0.5][random.below(4) as usize],
        7 => out.minimum_transitions = 0,
        8 => out.minimum_amplitude = 0,
        9 => out.scratch += random.below(3 * pixels as u64) as usize,
        10 => out.swings += 1 + random.below(2) as usize,
        _ => {}
    }
    out
}

/// Checks a job at the last floor that its picture reaches, and at the next.
fn check_at_floor(tally: &mut Tally, job: Job) {
    let reached = largest(&job.source);
    for minimum_confidence in [reached, reached + 1] {
        tally.check(Job { minimum_confidence, ..job.clone() });
    }
}

pub fn compare(random: &mut Random, count: usize, tally: &mut Tally) {
    for _ in 0..count {
        let (width, height) = size(random);
        let (width, height) = if random.below(4) == 0 { (width, height) } else { (3 + width, 3 + height) };
        let source = if random.below(8) == 0 {
            let weaker = random.below(17) as usize;
            crossed(random, weaker, width.next_multiple_of(2), height)
        } else {
            Picture::random(random, width, height)
        };
        tally.check(case(random, source));
    }
    for border in 0..4 {
        let source = Picture::random(random, 1024, 1024);
        let large = Job { relaxation: 1.0, border, ..plain(random, source) };
        check_at_floor(tally, Job { minimum_transitions: 8, minimum_amplitude: 24, iterations: 3, ..large });
    }
    // products of two words that are equal, and that a pixel of the first row, or any, keeps from being so; without a
    // length the job ends at 11
    for weaker in [0, 1, 5, 8, 12, 15] {
        let equal = crossed(random, weaker, 1024, 1024);
        for (place, change) in [(0, 0), (random.below(1024), 1), (random.below(1024 * 1024), 1)] {
            let mut source = equal.clone();
            source.data[place as usize] ^= change;
            check_at_floor(tally, Job { minimum_transitions: 0, ..plain(random, source) });
        }
    }
    // the longest lines of low and narrow ones
    for (width, height) in [(1024, 3), (3, 1024), (1024, 40), (40, 1024)] {
        let source = Picture::random(random, width, height);
        tally.check(Job { minimum_transitions: 1, minimum_amplitude: 1, ..plain(random, source) });
    }
}
