//! Measuring a line smear: its direction and its length.

use crate::error::{answer, ImgProcResult};
use crate::ffi;
use crate::raw::Swing;
use crate::view::Gray8View;

/// One of the four directions of a line of pixels.
#[derive(Clone, Copy, Debug, PartialEq, Eq)]
pub enum RasterDirection4 {
    /// `(+1, 0)`.
    Horizontal,
    /// `(+1, +1)`.
    DownRight,
    /// `(0, +1)`.
    Vertical,
    /// `(-1, +1)`.
    DownLeft,
}

impl RasterDirection4 {
    /// The step `(dx, dy)` along a line.
    pub const fn step(self) -> (isize, isize) {
        match self {
            Self::Horizontal => (1, 0),
            Self::DownRight => (1, 1),
            Self::Vertical => (0, 1),
            Self::DownLeft => (-1, 1),
        }
    }

    /// The direction nearest to an angle, or `None` where the angle or its value in degrees is not finite.
    pub fn from_angle(theta_radians: f64) -> Option<Self> {
        match ffi::direction_from_angle(theta_radians) {
            4 => None,
            number => Some(Self::from_number(number)),
        }
    }

    /// The header's number of a direction.
    pub(crate) fn from_number(number: u8) -> Self {
        [Self::Horizontal, Self::DownRight, Self::Vertical, Self::DownLeft][usize::from(number)]
    }
}

/// The direction of a smear, with the sums that it was decided by.
#[derive(Clone, Copy, Debug, PartialEq, Eq)]
pub struct DirectionEstimate {
    /// The direction.
    pub raster_direction: RasterDirection4,
    /// The sum of gx * gx over the Sobel gradients of the interior pixels.
    pub a: i64,
    /// The sum of gx * gy.
    pub c: i64,
    /// The sum of gy * gy.
    pub e: i64,
}

/// Thresholds of the length.
#[derive(Clone, Copy, Debug, PartialEq, Eq)]
pub struct LineLengthConfig {
    /// How many swings there must be.
    pub minimum_transitions: usize,
    /// By how much a line must change at least for a swing.
    pub minimum_amplitude: u8,
}

impl Default for LineLengthConfig {
    fn default() -> Self {
        Self { minimum_transitions: 8, minimum_amplitude: 24 }
    }
}

/// The direction of the line smear in a picture.
pub fn estimate_line_direction(src: Gray8View<'_>) -> DirectionEstimate {
    let (refusal, direction, [a, c, e]) = ffi::estimate_line_direction(src);
    assert_eq!(refusal, 0, "a view has an accepted layout");
    DirectionEstimate { raster_direction: RasterDirection4::from_number(direction), a, c, e }
}

/// The length of the line smear along the direction nearest to an angle, or `None` where the picture does not show it.
/// An angle that has no direction is refused, with [`InvalidConfiguration`](crate::ImgProcError::InvalidConfiguration).
pub fn estimate_line_length(src: Gray8View<'_>, theta_radians: f64) -> ImgProcResult<Option<f64>> {
    estimate_line_length_with(src, theta_radians, &LineLengthConfig::default())
}

/// Like [`estimate_line_length`], with thresholds.
pub fn estimate_line_length_with(
    src: Gray8View<'_>,
    theta_radians: f64,
    config: &LineLengthConfig,
) -> ImgProcResult<Option<f64>> {
    let mut swings = vec![Swing::default(); src.width() * src.height()];
    let (refusal, length) = ffi::estimate_line_length(
        src,
        theta_radians,
        config.minimum_transitions,
        config.minimum_amplitude,
        &mut swings,
    );
    answer(refusal)?;
    // the header's 0.0 is none: a length is positive
    Ok((length > 0.0).then_some(length))
}
