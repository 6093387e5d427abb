//! The whole job: direction, length, restoration.

use crate::blur::RasterDirection4;
use crate::deblur::{DeblurWorkspace, LineBorderMode};
use crate::error::{answer, ImgProcResult};
use crate::ffi::{self, Filter};
use crate::raw::Swing;
use crate::room::room;
use crate::view::{Gray8View, Gray8ViewMut};

/// Settings of the whole job.
#[derive(Clone, Copy, Debug, PartialEq)]
pub struct JobConfig {
    /// How many swings there must be.
    pub minimum_transitions: usize,
    /// By how much a line must change at least for a swing.
    pub minimum_amplitude: u8,
    /// How confident the direction must be at least, in 256ths: 0, which every picture reaches, to 256. The confidence
    /// is 1 minus the smaller over the larger eigenvalue of the gradients' tensor, so that of a round smear is near 0.
    pub minimum_confidence: u16,
    /// 1 to 22.
    pub iterations: usize,
    /// 0 to 1, in steps of 1/65,536.
    pub relaxation: f64,
    /// What stands beyond the ends of a line.
    pub border: LineBorderMode,
}

impl Default for JobConfig {
    fn default() -> Self {
        Self {
            minimum_transitions: 8,
            minimum_amplitude: 24,
            minimum_confidence: 0,
            iterations: 3,
            relaxation: 1.0,
            border: LineBorderMode::Replicate,
        }
    }
}

/// What was measured and taken out.
#[derive(Clone, Copy, Debug, PartialEq)]
pub struct JobResult {
    /// The smear's direction.
    pub direction: RasterDirection4,
    /// The odd length in pixels that the estimate was raised to.
    pub blur_length: usize,
    /// The smear's length as it was measured.
    pub estimate: f64,
}

/// Room that the whole job works in, kept from call to call.
#[derive(Debug, Default)]
pub struct JobWorkspace {
    deblur: DeblurWorkspace,
    swings: Vec<Swing>,
}

/// Measures the smear of a picture and takes it out.
pub fn restore(
    src: Gray8View<'_>,
    dst: Gray8ViewMut<'_>,
    config: &JobConfig,
    workspace: &mut JobWorkspace,
) -> ImgProcResult<JobResult> {
    let swings = room(&mut workspace.swings, src.width() * src.height());
    let thresholds = (config.minimum_transitions, config.minimum_amplitude, config.minimum_confidence);
    let filter = Filter {
        angle: 0.0,
        blur_length: 0,
        iterations: config.iterations,
        factor: config.relaxation,
        border: config.border.number(),
    };
    let (refusal, (direction, blur_length, estimate)) =
        ffi::restore(src, dst, thresholds, filter, workspace.deblur.scratch(src), swings);
    answer(refusal)?;
    Ok(JobResult { direction: RasterDirection4::from_number(direction), blur_length, estimate })
}
