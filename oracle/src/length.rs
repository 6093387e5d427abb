//! Length of a smear: Nothing or the estimate's bits, with old records that must not matter; 7 of an angle that has no
//! direction, for which the Rust is not asked.

use crate::case::{Case, Tally, Verdict};
use crate::degrees::{far, Angle};
use crate::ffi::{smear_estimate_line_length, Swing};
use crate::picture::{size, Picture};
use crate::random::Random;
use qr_lab_imgproc::blur::{estimate_line_length_with, LineLengthConfig};

#[derive(Clone, Debug)]
struct Length {
    source: Picture,
    angle: f64,
    minimum_transitions: usize,
    minimum_amplitude: u8,
    swings: usize,
}

const OLD: Swing = Swing { width: 1e300, swing: 255 };

impl Length {
    /// The documents' refusals, first match wins.
    fn refusal(&self) -> u8 {
        match self.source.refusal() {
            0 if Angle::of(self.angle).is_none() => 7,
            0 if self.swings < self.source.width * self.source.height => 10,
            number => number,
        }
    }

    /// The Rust's answer, 0.0 for Nothing.
    fn theirs(&self) -> f64 {
        let config = LineLengthConfig {
            minimum_transitions: self.minimum_transitions,
            minimum_amplitude: self.minimum_amplitude,
        };
        let angle = Angle::of(self.angle).expect("an accepted angle");
        estimate_line_length_with(self.source.view(), angle.radians(), &config).unwrap_or(0.0)
    }
}

impl Case for Length {
    fn check(&self) -> Verdict {
        let s = &self.source;
        let mut swings = vec![OLD; self.swings];
        let mut length = -1.0;
        let code = unsafe {
            smear_estimate_line_length(
                s.data.as_ptr(), s.data.len(), s.width, s.height, s.stride, self.angle,
                self.minimum_transitions, self.minimum_amplitude, swings.as_mut_ptr(), swings.len(), &mut length,
            )
        };
        if code != self.refusal() {
            return Verdict::Differs(format!("refusal {code}, not {}", self.refusal()));
        }
        if code != 0 {
            return if length == -1.0 && swings.iter().all(|&s| s == OLD) {
                Verdict::refused(self.angle)
            } else {
                Verdict::Differs("a refusal changed something".into())
            };
        }
        let theirs = self.theirs();
        if length.to_bits() == theirs.to_bits() {
            return Verdict::Alike;
        }
        Verdict::Differs(format!("length {length:?}, the Rust {theirs:?}"))
    }

    fn smaller(&self) -> Vec<Self> {
        let mut out = Vec::new();
        if self.minimum_transitions > 1 {
            out.push(Self { minimum_transitions: 1, ..self.clone() });
        }
        for source in self.source.smaller() {
            out.push(Self { swings: source.width * source.height, source, ..self.clone() });
        }
        out
    }
}

fn case(random: &mut Random, width: usize, height: usize) -> Length {
    let source = Picture::random(random, width, height);
    let damaged = random.below(20) == 0;
    Length {
        source: if damaged { source.damaged(random) } else { source },
        angle: match random.below(8) {
            0 => (random.unit() - 0.5) * 20.0,
            1 => far(random),
            2 => -0.0,
            k => [0.0, 0.75, 1.5, 2.25][k as usize % 4],
        },
        minimum_transitions: [0, 1, 2, 3, 4, 8, 8, 20, usize::MAX][random.below(9) as usize],
        minimum_amplitude: [0, 1, 2, 24, 24, 24, 100, 255][random.below(8) as usize],
        swings: width * height + random.below(3) as usize - (random.below(20) == 0 && width * height > 0) as usize,
    }
}

pub fn compare(random: &mut Random, count: usize, tally: &mut Tally) {
    for _ in 0..count {
        let (width, height) = size(random);
        tally.check(case(random, width, height));
    }
    // 7 is given where there would be Nothing, and before 10
    for (side, swings) in [(2, 4), (2, 3), (5, 24), (5, 0)] {
        let source = Picture::random(random, side, side);
        tally.check(Length { source, angle: f64::NAN, minimum_transitions: 0, minimum_amplitude: 24, swings });
    }
    for angle in [0.0, 0.75, 1.5, 2.25] {
        for _ in 0..2 {
            let large = case(random, 1024, 1024);
            tally.check(Length { angle, minimum_transitions: 8, minimum_amplitude: 24, swings: 1024 * 1024, ..large });
        }
    }
}
