//! The binomial unsharp.

use crate::error::{answer, ImgProcResult};
use crate::ffi;
use crate::room::room;
use crate::view::{Gray8View, Gray8ViewMut};

/// Room that the binomial unsharp works in, kept from call to call.
#[derive(Debug, Default)]
pub struct SharpenWorkspace {
    scratch: Vec<u16>,
}

/// Twice the picture less its blur by 1 4 6 4 1 both ways, cut to 0..255.
pub fn fixed_binomial_unsharp_into(
    src: Gray8View<'_>,
    dst: Gray8ViewMut<'_>,
    workspace: &mut SharpenWorkspace,
) -> ImgProcResult<()> {
    let scratch = room(&mut workspace.scratch, src.width() * src.height());
    answer(ffi::fixed_binomial_unsharp(src, dst, scratch))
}
