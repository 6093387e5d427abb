//! The Rust's errors, with a case for each refusal that it has not.

use std::error::Error;
use std::fmt;

/// A layout that is refused.
#[derive(Clone, Copy, Debug, PartialEq, Eq)]
pub enum LumaError {
    /// Refusal 1: width or height is zero.
    EmptyDimensions,
    /// Refusal 2: width or height exceeds 1,024.
    DimensionsTooLarge,
    /// Refusal 3: the stride is smaller than the width.
    StrideTooSmall,
    /// Refusal 4: the slice is shorter than the layout requires.
    BufferTooSmall,
}

/// A picture that is refused.
#[derive(Clone, Copy, Debug, PartialEq, Eq)]
pub enum ImageError {
    /// Its layout is.
    Layout(LumaError),
}

/// A call that is refused. It has changed nothing but its workspace.
#[derive(Clone, Copy, Debug, PartialEq, Eq)]
pub enum ImgProcError {
    /// Refusals 1 to 5: a picture's layout.
    Image(ImageError),
    /// Refusal 6: the destination has not the source's size, or of a halving not the size that is left.
    DimensionMismatch,
    /// Refusals 7 and 8: a setting is out of range or not finite, or an angle has no direction.
    InvalidConfiguration,
    /// Refusal 9: more than 22 iterations.
    TooManyIterations,
    /// Refusal 10: the destination for estimates is shorter than width times height.
    DestinationTooSmall,
    /// Refusal 11: the picture does not show how long its smear is.
    NoLength,
    /// Refusal 12: the smear is longer than twice the larger side and one.
    LengthTooLarge,
    /// Refusal 17: the confidence of the picture's direction is below the minimum, or the minimum is above 256.
    LowConfidence,
    /// Refusal 18: more than 10 halvings, or one that would start from a side below 2.
    CannotHalve,
}

/// Refusal 13: a record that has no place on a sheet.
#[derive(Clone, Copy, Debug, PartialEq, Eq)]
pub struct FaultyRecord {
    /// Which record of the file it is, counted from 0. None before it is faulty.
    pub index: usize,
}

/// A PGM file that is refused, or that there is no room for.
#[derive(Clone, Copy, Debug, PartialEq, Eq)]
pub enum PgmError {
    /// Refusals 1 and 2: a side is zero or exceeds 1,024.
    Layout(LumaError),
    /// Refusal 5: the slice that the file is written to is too short.
    OutputTooSmall,
    /// Refusal 14: the header is none of P5.
    InvalidHeader,
    /// Refusal 15: the greatest grey level is not 255.
    UnsupportedMaximum,
    /// Refusal 16: there are fewer or more pixel bytes than pixels.
    PixelCountMismatch,
}

/// What a call answers.
pub type ImgProcResult<T> = Result<T, ImgProcError>;

impl fmt::Display for LumaError {
    fn fmt(&self, f: &mut fmt::Formatter<'_>) -> fmt::Result {
        f.write_str(match self {
            Self::EmptyDimensions => "image dimensions must be non-zero",
            Self::DimensionsTooLarge => "image dimensions must be at most 1,024",
            Self::StrideTooSmall => "row stride is smaller than image width",
            Self::BufferTooSmall => "buffer is too small for dimensions and stride",
        })
    }
}

impl fmt::Display for ImageError {
    fn fmt(&self, f: &mut fmt::Formatter<'_>) -> fmt::Result {
        let Self::Layout(error) = self;
        error.fmt(f)
    }
}

impl fmt::Display for ImgProcError {
    fn fmt(&self, f: &mut fmt::Formatter<'_>) -> fmt::Result {
        f.write_str(match self {
            Self::Image(error) => return error.fmt(f),
            Self::DimensionMismatch => "source and destination dimensions do not match",
            Self::InvalidConfiguration => "image-processing configuration is invalid",
            Self::TooManyIterations => "more than 22 iterations",
            Self::DestinationTooSmall => "destination is too small for the estimates",
            Self::NoLength => "the picture does not show how long its smear is",
            Self::LengthTooLarge => "the smear is too long for the picture",
            Self::LowConfidence => "the picture's direction is less clear than the minimum confidence",
            Self::CannotHalve => "more than 10 halvings, or one that starts from a side below 2",
        })
    }
}

impl fmt::Display for FaultyRecord {
    fn fmt(&self, f: &mut fmt::Formatter<'_>) -> fmt::Result {
        write!(f, "record {}, counted from 0, has no place on a sheet (refusal 13)", self.index)
    }
}

impl fmt::Display for PgmError {
    fn fmt(&self, f: &mut fmt::Formatter<'_>) -> fmt::Result {
        f.write_str(match self {
            Self::Layout(error) => return error.fmt(f),
            Self::OutputTooSmall => "output is too small for the PGM file",
            Self::InvalidHeader => "PGM header is invalid",
            Self::UnsupportedMaximum => "PGM maximum is not 255",
            Self::PixelCountMismatch => "PGM has missing or surplus pixel bytes",
        })
    }
}

impl Error for LumaError {}
impl Error for ImageError {}
impl Error for ImgProcError {}
impl Error for FaultyRecord {}
impl Error for PgmError {}

impl From<LumaError> for ImageError {
    fn from(value: LumaError) -> Self {
        Self::Layout(value)
    }
}

impl From<ImageError> for ImgProcError {
    fn from(value: ImageError) -> Self {
        Self::Image(value)
    }
}

impl From<LumaError> for ImgProcError {
    fn from(value: LumaError) -> Self {
        Self::Image(value.into())
    }
}

impl From<LumaError> for PgmError {
    fn from(value: LumaError) -> Self {
        Self::Layout(value)
    }
}

/// The answer that goes with a refusal's number, 0 being none.
pub(crate) fn answer(refusal: u8) -> ImgProcResult<()> {
    Err(match refusal {
        0 => return Ok(()),
        6 => ImgProcError::DimensionMismatch,
        7 | 8 => ImgProcError::InvalidConfiguration,
        9 => ImgProcError::TooManyIterations,
        10 => ImgProcError::DestinationTooSmall,
        11 => ImgProcError::NoLength,
        12 => ImgProcError::LengthTooLarge,
        17 => ImgProcError::LowConfidence,
        18 => ImgProcError::CannotHalve,
        _ => unreachable!("a view has an accepted layout: refusal {refusal}"),
    })
}
