//! What a line filter is told. Document 02 (K2) adds a border that the Rust has not, so these are no types of its own.
//! The bench uses this file too.

use crate::degrees::Angle;
use crate::random::Random;
use qr_lab_imgproc::deblur::LineBorderMode;

/// What stands beyond the ends of a line.
#[derive(Clone, Copy, Debug, PartialEq)]
pub enum Border {
    Replicate,
    Reflect,
    Constant(u8),
    Wrap,
}

impl Border {
    /// The border that a number and a value mean in C: a number that is no border's means Constant.
    pub fn of(number: u8, value: u8) -> Self {
        match number {
            0 => Self::Replicate,
            1 => Self::Reflect,
            3 => Self::Wrap,
            _ => Self::Constant(value),
        }
    }

    /// The border of two bytes of a record: no other number is one there, and Constant alone has a value.
    pub fn in_record(number: u8, value: u8) -> Option<Self> {
        match (number, value) {
            (0 | 1 | 3, 0) | (2, _) => Some(Self::of(number, value)),
            _ => None,
        }
    }

    /// The Rust's border. It has no Wrap: no run of it can be made with that.
    pub fn theirs(self) -> Option<LineBorderMode> {
        match self {
            Self::Replicate => Some(LineBorderMode::Replicate),
            Self::Reflect => Some(LineBorderMode::Reflect),
            Self::Constant(value) => Some(LineBorderMode::Constant(value)),
            Self::Wrap => None,
        }
    }
}

/// A border's number in C: each border's own, and two that mean Constant.
pub fn border_number(random: &mut Random) -> u8 {
    [0, 1, 2, 3, 4, 255][random.below(6) as usize]
}

/// The settings of a line filter.
#[derive(Clone, Copy, Debug)]
pub struct Settings {
    pub angle: Angle,
    pub length: usize,
    /// 0 for the line unsharp, as in a record.
    pub iterations: usize,
    /// The relaxation, or the gain.
    pub factor: f64,
    pub border: Border,
}
