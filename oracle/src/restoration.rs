//! The line filters: restoration and line unsharp against the Rust, and against a plain restatement of its steps with
//! the border that it has not; the estimate call against that restatement with every border.

pub mod rotated;

use crate::angle::number;
use crate::case::{Case, Tally, Verdict};
use crate::degrees::{far, Angle};
use crate::ffi::{smear_directional_unsharp_line, smear_van_cittert_estimate, smear_van_cittert_line};
use crate::lent::{line_scratch, Lent};
use crate::line::{estimate, filtered};
use crate::picture::{size, Picture};
use crate::random::Random;
use crate::settings::{border_number, Border, Settings};

#[derive(Clone, Copy, Debug, PartialEq)]
pub enum Call {
    Restore,
    Estimate,
    Unsharp,
}

#[derive(Clone, Debug)]
pub struct Filter {
    call: Call,
    source: Picture,
    destination: Picture,
    /// The estimate call's destination.
    estimates: usize,
    angle: f64,
    length: usize,
    iterations: usize,
    factor: f64,
    border: u8,
    border_value: u8,
    scratch: usize,
}

const OLD: i32 = 0x5A5A_5A5A;
const GUARD: i32 = 0x7E7E_7E7E;

impl Filter {
    /// The settings of an accepted call.
    fn settings(&self) -> Settings {
        Settings {
            angle: Angle::of(self.angle).expect("an accepted angle"),
            length: self.length,
            iterations: if self.call == Call::Unsharp { 0 } else { self.iterations },
            factor: self.factor,
            border: Border::of(self.border, self.border_value),
        }
    }

    /// Document 01's refusals, first match wins, with document 02's scratch and its angles.
    fn refusal(&self) -> u8 {
        let (s, d) = (&self.source, &self.destination);
        if s.refusal() != 0 {
            return s.refusal();
        }
        if self.call != Call::Estimate && d.refusal() != 0 {
            return 5;
        }
        if self.call != Call::Estimate && (s.width, s.height) != (d.width, d.height) {
            return 6;
        }
        if self.length < 3
            || self.length % 2 == 0
            || self.length > 2 * s.width.max(s.height) + 1
            || Angle::of(self.angle).is_none()
        {
            return 7;
        }
        let limit = if self.call == Call::Unsharp { 8.0 } else { 1.0 };
        if self.call != Call::Unsharp && self.iterations == 0 || !(0.0..=limit).contains(&self.factor) {
            return 8;
        }
        if self.call != Call::Unsharp && self.iterations > 22 {
            return 9;
        }
        let pixels = s.width * s.height;
        if self.scratch < line_scratch(s.width, s.height) || self.call == Call::Estimate && self.estimates < pixels {
            return 10;
        }
        0
    }

    fn ours(&self, bytes: &mut [u8], estimates: &mut [i32], scratch: &mut Lent<i32>, direction: &mut u8) -> u8 {
        let (s, d) = (&self.source, &self.destination);
        let (scratch, scratch_len) = scratch.part();
        unsafe {
            match self.call {
                Call::Restore => smear_van_cittert_line(
                    s.data.as_ptr(), s.data.len(), s.width, s.height, s.stride,
                    bytes.as_mut_ptr(), bytes.len(), d.width, d.height, d.stride,
                    self.angle, self.length, self.iterations, self.factor, self.border, self.border_value,
                    scratch, scratch_len, direction,
                ),
                Call::Estimate => smear_van_cittert_estimate(
                    s.data.as_ptr(), s.data.len(), s.width, s.height, s.stride,
                    estimates.as_mut_ptr(), estimates.len(),
                    self.angle, self.length, self.iterations, self.factor, self.border, self.border_value,
                    scratch, scratch_len, direction,
                ),
                Call::Unsharp => smear_directional_unsharp_line(
                    s.data.as_ptr(), s.data.len(), s.width, s.height, s.stride,
                    bytes.as_mut_ptr(), bytes.len(), d.width, d.height, d.stride,
                    self.angle, self.length, self.factor, self.border, self.border_value,
                    scratch, scratch_len, direction,
                ),
            }
        }
    }

    fn scratch(&self) -> Lent<i32> {
        Lent::new(self.scratch, OLD, GUARD)
    }

    /// What our call writes into the picture, row by row; or its refusal.
    fn written(&self) -> Result<Vec<i32>, u8> {
        let mut destination = self.destination.clone();
        let mut estimates = vec![OLD; self.estimates];
        match self.ours(&mut destination.data, &mut estimates, &mut self.scratch(), &mut 77) {
            0 if self.call == Call::Estimate => Ok(estimates[..self.source.width * self.source.height].to_vec()),
            0 => Ok(destination.pixels().into_iter().map(i32::from).collect()),
            refused => Err(refused),
        }
    }
}

impl Case for Filter {
    fn check(&self) -> Verdict {
        let mut bytes = self.destination.data.clone();
        let mut estimates = vec![OLD; self.estimates];
        let mut scratch = self.scratch();
        let mut direction = 77;
        let code = self.ours(&mut bytes, &mut estimates, &mut scratch, &mut direction);
        if !scratch.is_guarded() {
            return Verdict::Differs("an element beside the scratch was written".into());
        }
        if code != self.refusal() {
            return Verdict::Differs(format!("refusal {code}, not {}", self.refusal()));
        }
        if code != 0 {
            let kept = bytes == self.destination.data
                && estimates.iter().all(|&v| v == OLD)
                && scratch.is_kept()
                && direction == 77;
            return if kept {
                Verdict::refused(self.angle)
            } else {
                Verdict::Differs("a refusal changed something".into())
            };
        }
        let settings = self.settings();
        if direction != number(settings.angle.direction()) {
            return Verdict::Differs(format!("direction {direction}"));
        }
        if self.call == Call::Estimate {
            let pixels = self.source.width * self.source.height;
            if estimates[pixels..].iter().any(|&v| v != OLD) {
                return Verdict::Differs("an estimate behind the last".into());
            }
            let restated = estimate(&self.source, &settings);
            return match (0..pixels).find(|&i| i64::from(estimates[i]) != restated[i]) {
                None => Verdict::alike(settings.border),
                Some(i) => Verdict::Differs(format!("estimate {i} is {}, not {}", estimates[i], restated[i])),
            };
        }
        let expected = filtered(&self.source, &self.destination, &settings);
        match (0..bytes.len()).find(|&place| bytes[place] != expected[place]) {
            None => Verdict::alike(settings.border),
            Some(place) => Verdict::Differs(format!("byte {place} is {}, not {}", bytes[place], expected[place])),
        }
    }

    fn smaller(&self) -> Vec<Self> {
        let mut out = Vec::new();
        if self.iterations > 1 {
            out.push(Self { iterations: self.iterations - 1, ..self.clone() });
        }
        if self.length > 3 {
            out.push(Self { length: self.length - 2, ..self.clone() });
        }
        for source in self.source.smaller() {
            let pixels = source.width * source.height;
            let destination = Picture { data: vec![0; pixels], stride: source.width, ..source };
            let scratch = line_scratch(source.width, source.height);
            out.push(Self { source, destination, estimates: pixels, scratch, ..self.clone() });
        }
        out
    }
}

/// A relaxation or gain: common ones, those where q rounds, the limits, and what is refused.
fn factor(random: &mut Random, limit: f64) -> f64 {
    let half = (random.below(524_289) as f64 + 0.5) / 65_536.0;
    match random.below(12) {
        0..=3 => limit.min(1.0),
        4 => random.unit() * limit,
        5 => half.min(limit),
        6 => f64::from_bits(half.to_bits() - 1).min(limit),
        7 => 0.1,
        8 => [0.0, -0.0, limit, 2f64.powi(-17), f64::from_bits(1)][random.below(5) as usize],
        9 => 1.5f64.min(limit),
        10 => 0.5,
        _ => [f64::NAN, f64::INFINITY, -f64::MIN_POSITIVE, f64::from_bits(limit.to_bits() + 1), -1.0]
            [random.below(5) as usize],
    }
}

fn angle(random: &mut Random) -> f64 {
    match random.below(16) {
        0 => far(random),
        1..=4 => (random.unit() - 0.5) * 20.0,
        k => [0.0, 0.75, 1.5, 2.25][k as usize % 4],
    }
}

/// A call with any settings, in pictures and room as they must be: scratch is just enough.
fn plain(random: &mut Random, call: Call, width: usize, height: usize) -> Filter {
    let pixels = width * height;
    let reach = 2 * width.max(height) + 1;
    let odd = 3 + 2 * random.below(reach as u64 / 2) as usize;
    let length = match random.below(12) {
        0 => [0, 1, 2, reach + 1, reach + 2, usize::MAX, usize::MAX - 1, odd + 1][random.below(8) as usize],
        1 => reach,
        2..=6 => 3.min(reach),
        _ => odd.min(reach),
    };
    let iterations = match random.below(14) {
        0 => [0, 23, usize::MAX, 22][random.below(4) as usize],
        1 => 22,
        _ => 1 + random.below(5) as usize,
    };
    Filter {
        call,
        source: Picture::random(random, width, height),
        destination: Picture::random(random, width, height),
        estimates: pixels + random.below(3) as usize,
        angle: angle(random),
        length,
        iterations,
        factor: factor(random, if call == Call::Unsharp { 8.0 } else { 1.0 }),
        border: border_number(random),
        border_value: random.below(256) as u8,
        scratch: line_scratch(width, height),
    }
}

/// The same, now and then in a picture or room that is refused.
fn case(random: &mut Random, call: Call, width: usize, height: usize) -> Filter {
    let mut out = plain(random, call, width, height);
    let pixels = width * height;
    match random.below(40) {
        0 => out.source = out.source.damaged(random),
        1 => out.destination = out.destination.damaged(random),
        2 => out.destination = Picture::random(random, width + 1, height),
        3 => out.scratch -= 1,
        4 => out.estimates = pixels - 1,
        5 => out.scratch += random.below(3 * pixels as u64) as usize,
        _ => {}
    }
    out
}

pub fn compare(random: &mut Random, count: usize, tally: &mut Tally, call: Call) {
    for _ in 0..count {
        let (width, height) = size(random);
        tally.check(case(random, call, width, height));
    }
    // large ones, with as many iterations as there may be, in each direction, with one of the Rust's borders and Wrap
    for angle in [0.0, 0.75, 1.5, 2.25] {
        for border in [random.below(3) as u8, 3] {
            let large = plain(random, call, 1024, 1024);
            tally.check(Filter { angle, length: 31, iterations: 22, factor: 1.0, border, ..large });
        }
    }
    // the longest lines of low and narrow ones
    for (width, height) in [(1024, 1), (1, 1024), (1024, 7), (7, 1024)] {
        for angle in [0.0, 0.75, 1.5, 2.25] {
            tally.check(Filter { angle, ..plain(random, call, width, height) });
        }
    }
}
