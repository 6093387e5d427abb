//! Half-size pictures: each pixel is the mean of two by two, once or as many times as stated.
//!
//! ```
//! use smear::resize::{halve, halved_size, ResizeWorkspace};
//! use smear::{Gray8View, Gray8ViewMut, ImgProcError, Size};
//!
//! fn main() -> Result<(), ImgProcError> {
//!     let pixels = [1, 2, 1, 1, 2, 2, 0, 0, 2, 1, 2, 2, 0, 0, 1, 1];
//!     let src = Gray8View::new(&pixels, 4, 4, 4)?;
//!     let Size { width, height } = halved_size(src.size(), 2).ok_or(ImgProcError::CannotHalve)?;
//!     let mut out = vec![0; width * height];
//!     let dst = Gray8ViewMut::new(&mut out, width, height, width)?;
//!     halve(src, dst, 2, &mut ResizeWorkspace::default())?;
//!     // each halving rounds: one mean over the sixteen would be 1
//!     assert_eq!(out, [2]);
//!     Ok(())
//! }
//! ```

use crate::error::{answer, ImgProcResult};
use crate::ffi;
use crate::room::room;
use crate::view::{Gray8View, Gray8ViewMut, Size};

/// The most halvings of one call.
pub const MAX_HALVINGS: usize = 10;

/// Room that [`halve`] works in, kept from call to call.
#[derive(Debug, Default)]
pub struct ResizeWorkspace {
    scratch: Vec<u8>,
}

/// The size that is left of a picture's after so many halvings, each side floored: what the destination must have.
/// `None` where the picture cannot be halved so often.
pub fn halved_size(size: Size, count: usize) -> Option<Size> {
    if count > MAX_HALVINGS {
        return None;
    }
    let left = Size { width: size.width >> count, height: size.height >> count };
    // a side below 2 was halved exactly where nothing is left of it
    (left.width > 0 && left.height > 0).then_some(left)
}

/// Half the size: each pixel is the rounded mean of two by two, halves going up; an odd last column or row is left out.
/// `dst` has half of each side, floored. A side below 2 is refused, with
/// [`CannotHalve`](crate::ImgProcError::CannotHalve).
pub fn box_downscale_half(src: Gray8View<'_>, dst: Gray8ViewMut<'_>) -> ImgProcResult<()> {
    answer(ffi::box_downscale_half(src, dst))
}

/// The same `count` times, each of which rounds; 0 copies. `dst` has the size that [`halved_size`] gives; where that is
/// none, and so for more than [`MAX_HALVINGS`], the call is refused, with
/// [`CannotHalve`](crate::ImgProcError::CannotHalve).
pub fn halve(
    src: Gray8View<'_>,
    dst: Gray8ViewMut<'_>,
    count: usize,
    workspace: &mut ResizeWorkspace,
) -> ImgProcResult<()> {
    let scratch = room(&mut workspace.scratch, src.width() * src.height());
    answer(ffi::halve(src, dst, count, scratch))
}
