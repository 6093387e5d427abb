//! The stored list of the Rust's answers, which crates/vectors replays.
//! The form of a case is told in crates/vectors/src/case.rt.

mod chosen;

use crate::angle::number;
use crate::degrees::Angle;
use crate::direction;
use crate::halve;
use crate::picture::Picture;
use qr_lab_image::{Gray8View, Gray8ViewMut, LumaError};
use qr_lab_imgproc::blur::{self, LineLengthConfig};
use qr_lab_imgproc::deblur::{self, DirectionalUnsharpConfig, LineBorderMode, VanCittertConfig};
use qr_lab_imgproc::{sharpen, ImgProcError};
use std::collections::BTreeMap;

/// What the destination holds before a call.
const OLD: u8 = 165;

#[derive(Clone, Copy, Debug, PartialEq)]
enum Call {
    FromAngle,
    Direction,
    Length,
    Restoration,
    Unsharp,
    Binomial,
    Half,
    Halve,
}

#[derive(Clone)]
struct Case {
    call: Call,
    source: Picture,
    destination: Picture,
    angle: f64,
    length: usize,
    /// Iterations, the least number of swings, or halvings.
    count: usize,
    factor: f64,
    border: LineBorderMode,
    amplitude: u8,
}

/// A refusal's number, a direction's number or that there is a length, a length, and the destination's bytes.
struct Answer {
    number: u8,
    found: u8,
    estimate: f64,
    bytes: Vec<u8>,
}

/// The document's number of a refused layout.
fn layout(error: LumaError) -> u8 {
    match error {
        LumaError::EmptyDimensions => 1,
        LumaError::StrideTooSmall => 3,
        LumaError::BufferTooSmall => 4,
    }
}

/// The document's number of a refused call; the Rust has one error for 7 and 8.
fn refusal(error: ImgProcError) -> u8 {
    match error {
        ImgProcError::DimensionMismatch => 6,
        ImgProcError::InvalidConfiguration => 7,
        other => panic!("no refusal of the document: {other}"),
    }
}

impl Case {
    fn new(call: Call, source: Picture) -> Self {
        let destination = match call {
            Call::FromAngle | Call::Direction | Call::Length => {
                Picture { data: Vec::new(), width: 0, height: 0, stride: 0 }
            }
            _ => Picture { data: vec![OLD; source.width * source.height], stride: source.width, ..source },
        };
        Self {
            call,
            source,
            destination,
            angle: 0.0,
            length: 3,
            count: 1,
            factor: 1.0,
            border: LineBorderMode::Replicate,
            amplitude: 24,
        }
    }

    /// The angle, of which the Rust is asked.
    fn angle(&self) -> Angle {
        Angle::of(self.angle).expect("the list has no angle without a direction")
    }

    /// The Rust's answer: the number, what was found, and the length; pixels go to `bytes`.
    fn call(&self, bytes: &mut [u8]) -> Result<(u8, f64), u8> {
        if self.call == Call::FromAngle {
            return Ok((number(self.angle().direction()), 0.0));
        }
        let (s, d) = (&self.source, &self.destination);
        let view = Gray8View::new(&s.data, s.width, s.height, s.stride).map_err(layout)?;
        if self.call == Call::Direction {
            return Ok((number(blur::estimate_line_direction(view).raster_direction), 0.0));
        }
        if self.call == Call::Length {
            let config = LineLengthConfig { minimum_transitions: self.count, minimum_amplitude: self.amplitude };
            let estimate = blur::estimate_line_length_with(view, self.angle().radians(), &config);
            return Ok((estimate.is_some() as u8, estimate.unwrap_or(0.0)));
        }
        if matches!(self.call, Call::Half | Call::Halve) {
            // it has no destination of its own, and None where a side is below 2
            let halved = halve::theirs(s, self.count).ok_or(18)?;
            bytes.copy_from_slice(&d.painted(&halved.pixels()));
            return Ok((0, 0.0));
        }
        let target = Gray8ViewMut::new(bytes, d.width, d.height, d.stride).map_err(|_| 5)?;
        let (theta_radians, blur_length, border) = (self.angle().radians(), self.length, self.border);
        let metadata = match self.call {
            Call::Restoration => {
                let config = VanCittertConfig {
                    theta_radians,
                    blur_length,
                    iterations: self.count,
                    relaxation: self.factor,
                    border,
                };
                deblur::van_cittert_line_into(view, target, &config, &mut Default::default()).map_err(refusal)?
            }
            Call::Unsharp => {
                let config = DirectionalUnsharpConfig { theta_radians, blur_length, gain: self.factor, border };
                deblur::directional_unsharp_line_into(view, target, &config, &mut Default::default()).map_err(refusal)?
            }
            _ => {
                sharpen::fixed_binomial_unsharp_into(view, target, &mut Default::default()).map_err(refusal)?;
                return Ok((0, 0.0));
            }
        };
        Ok((number(metadata.raster_direction), 0.0))
    }

    fn answer(&self) -> Answer {
        let mut bytes = self.destination.data.clone();
        match self.call(&mut bytes) {
            Ok((found, estimate)) => Answer { number: 0, found, estimate, bytes },
            Err(number) => Answer { number, found: 0, estimate: 0.0, bytes },
        }
    }

    /// A direction that the Rust decides by its own rounding.
    fn is_tie(&self) -> bool {
        self.call == Call::Direction && self.answer().number == 0 && direction::is_tie(&self.source)
    }

    fn write(&self, out: &mut Vec<u8>) {
        let answer = self.answer();
        let (border, value) = match self.border {
            LineBorderMode::Replicate => (0, 0),
            LineBorderMode::Reflect => (1, 0),
            LineBorderMode::Constant(value) => (2, value),
        };
        out.extend([self.call as u8, answer.number, answer.found, border, value, self.amplitude]);
        let picture = |p: &Picture| [p.data.len(), p.width, p.height, p.stride];
        let numbers =
            [self.count, self.length].into_iter().chain(picture(&self.source)).chain(picture(&self.destination));
        out.extend(numbers.flat_map(|n| u16::try_from(n).expect("a number of two bytes").to_le_bytes()));
        out.extend([self.angle, self.factor, answer.estimate].iter().flat_map(|x| x.to_bits().to_le_bytes()));
        out.extend(&self.source.data);
        out.extend(&answer.bytes);
    }
}

/// Writes the list, and prints how many cases there are of each call and refusal.
pub fn write(path: &str) {
    let mut out = Vec::new();
    let mut counts = BTreeMap::new();
    for case in chosen::cases().iter().filter(|case| !case.is_tie()) {
        case.write(&mut out);
        *counts.entry((case.call as u8, format!("{:?}", case.call), case.answer().number)).or_insert(0) += 1;
    }
    assert!(out.len() < 65_536, "a list of {} bytes, more than the program reads", out.len());
    std::fs::write(path, &out).expect("the list can be written");
    for ((_, call, number), count) in &counts {
        println!(
            "{call:<12} {:<12} {count:>4}",
            if *number == 0 { "accepted".into() } else { format!("refused {number}") }
        );
    }
    println!("{} cases, {} bytes", counts.values().sum::<i32>(), out.len());
}
