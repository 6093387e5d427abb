//! Taking a line smear out: restoration and line unsharp.

use crate::blur::RasterDirection4;
use crate::error::{answer, ImgProcResult};
use crate::ffi::{self, Filter};
use crate::room::room;
use crate::view::{Gray8View, Gray8ViewMut};

/// What stands beyond the ends of a line.
#[derive(Clone, Copy, Debug, Default, PartialEq, Eq)]
pub enum LineBorderMode {
    /// The nearer end.
    #[default]
    Replicate,
    /// The line reflected, its ends not repeated.
    Reflect,
    /// A value.
    Constant(u8),
    /// The line again from its other end, as on a drum of which a line is one full turn.
    Wrap,
}

impl LineBorderMode {
    /// The header's number and value.
    pub(crate) fn number(self) -> (u8, u8) {
        match self {
            Self::Replicate => (0, 0),
            Self::Reflect => (1, 0),
            Self::Constant(value) => (2, value),
            Self::Wrap => (3, 0),
        }
    }
}

/// Settings of the restoration.
#[derive(Clone, Copy, Debug, PartialEq)]
pub struct VanCittertConfig {
    /// The smear's angle, taken to the nearest direction: its value in degrees is finite.
    pub theta_radians: f64,
    /// Its length in pixels: odd, from 3 to twice the larger side and one.
    pub blur_length: usize,
    /// 1 to 22.
    pub iterations: usize,
    /// 0 to 1, in steps of 1/65,536.
    pub relaxation: f64,
    /// What stands beyond the ends of a line.
    pub border: LineBorderMode,
}

impl VanCittertConfig {
    /// The direction that is taken, or `None` where the angle has none and the restoration is refused.
    pub fn raster_direction(&self) -> Option<RasterDirection4> {
        RasterDirection4::from_angle(self.theta_radians)
    }

    fn filter(&self) -> Filter {
        Filter {
            angle: self.theta_radians,
            blur_length: self.blur_length,
            iterations: self.iterations,
            factor: self.relaxation,
            border: self.border.number(),
        }
    }
}

impl Default for VanCittertConfig {
    fn default() -> Self {
        Self { theta_radians: 0.0, blur_length: 3, iterations: 3, relaxation: 1.0, border: LineBorderMode::Replicate }
    }
}

/// Settings of the line unsharp.
#[derive(Clone, Copy, Debug, PartialEq)]
pub struct DirectionalUnsharpConfig {
    /// The smear's angle, taken to the nearest direction: its value in degrees is finite.
    pub theta_radians: f64,
    /// Its length in pixels: odd, from 3 to twice the larger side and one.
    pub blur_length: usize,
    /// 0 to 8, in steps of 1/65,536.
    pub gain: f64,
    /// What stands beyond the ends of a line.
    pub border: LineBorderMode,
}

impl DirectionalUnsharpConfig {
    fn filter(&self) -> Filter {
        Filter {
            angle: self.theta_radians,
            blur_length: self.blur_length,
            iterations: 0,
            factor: self.gain,
            border: self.border.number(),
        }
    }
}

impl Default for DirectionalUnsharpConfig {
    fn default() -> Self {
        Self { theta_radians: 0.0, blur_length: 3, gain: 1.5, border: LineBorderMode::Replicate }
    }
}

/// What a restoration answers.
#[derive(Clone, Copy, Debug, PartialEq, Eq)]
pub struct RestorationMetadata {
    /// The direction that was taken.
    pub raster_direction: RasterDirection4,
}

/// Room that the line filters work in, kept from call to call.
#[derive(Debug, Default)]
pub struct DeblurWorkspace {
    scratch: Vec<i32>,
}

impl DeblurWorkspace {
    /// Room for the longest line of a picture.
    pub(crate) fn scratch(&mut self, src: Gray8View<'_>) -> &mut [i32] {
        room(&mut self.scratch, 3 * src.width().max(src.height()))
    }
}

fn metadata((refusal, direction): (u8, u8)) -> ImgProcResult<RestorationMetadata> {
    answer(refusal)?;
    Ok(RestorationMetadata { raster_direction: RasterDirection4::from_number(direction) })
}

/// Van Cittert's restoration along a line, cut to 0..255.
pub fn van_cittert_line_into(
    src: Gray8View<'_>,
    dst: Gray8ViewMut<'_>,
    config: &VanCittertConfig,
    workspace: &mut DeblurWorkspace,
) -> ImgProcResult<RestorationMetadata> {
    metadata(ffi::van_cittert_line(src, dst, config.filter(), workspace.scratch(src)))
}

/// The same, with the last estimate uncut in the first width * height places of `dst`, row by row. The others stay.
pub fn van_cittert_estimate_into(
    src: Gray8View<'_>,
    dst: &mut [i32],
    config: &VanCittertConfig,
    workspace: &mut DeblurWorkspace,
) -> ImgProcResult<RestorationMetadata> {
    metadata(ffi::van_cittert_estimate(src, dst, config.filter(), workspace.scratch(src)))
}

/// Line unsharp: one step of the restoration, with a gain.
pub fn directional_unsharp_line_into(
    src: Gray8View<'_>,
    dst: Gray8ViewMut<'_>,
    config: &DirectionalUnsharpConfig,
    workspace: &mut DeblurWorkspace,
) -> ImgProcResult<RestorationMetadata> {
    metadata(ffi::directional_unsharp_line(src, dst, config.filter(), workspace.scratch(src)))
}
