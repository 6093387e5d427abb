//! crates/smear_c/include/smear.h, with slices in place of pointers. All `unsafe` of the crate is here: each call
//! passes a slice as its pointer and length and writes to nothing else, which is what the header asks.

use crate::raw::{self, Swing};
use crate::view::{Gray8View, Gray8ViewMut};

/// A line filter's settings, as the header orders them.
#[derive(Clone, Copy)]
pub struct Filter {
    pub angle: f64,
    pub blur_length: usize,
    pub iterations: usize,
    pub factor: f64,
    pub border: (u8, u8),
}

/// The direction, or 4 for none.
pub fn direction_from_angle(angle: f64) -> u8 {
    unsafe { raw::smear_direction_from_angle(angle) }
}

/// The refusal, the direction, and the sums A, C and E.
pub fn estimate_line_direction(src: Gray8View<'_>) -> (u8, u8, [i64; 3]) {
    let (mut direction, mut a, mut c, mut e) = (0, 0, 0, 0);
    let refusal = unsafe {
        raw::smear_estimate_line_direction(
            src.bytes().as_ptr(), src.bytes().len(), src.width(), src.height(), src.stride(),
            &mut direction, &mut a, &mut c, &mut e,
        )
    };
    (refusal, direction, [a, c, e])
}

/// The refusal, and the length: 0.0 for none.
pub fn estimate_line_length(
    src: Gray8View<'_>,
    angle: f64,
    transitions: usize,
    amplitude: u8,
    swings: &mut [Swing],
) -> (u8, f64) {
    let mut length = 0.0;
    let refusal = unsafe {
        raw::smear_estimate_line_length(
            src.bytes().as_ptr(), src.bytes().len(), src.width(), src.height(), src.stride(),
            angle, transitions, amplitude, swings.as_mut_ptr(), swings.len(), &mut length,
        )
    };
    (refusal, length)
}

pub fn fixed_binomial_unsharp(src: Gray8View<'_>, mut dst: Gray8ViewMut<'_>, scratch: &mut [u16]) -> u8 {
    let (width, height, stride) = (dst.width(), dst.height(), dst.stride());
    unsafe {
        raw::smear_fixed_binomial_unsharp(
            src.bytes().as_ptr(), src.bytes().len(), src.width(), src.height(), src.stride(),
            dst.bytes().as_mut_ptr(), dst.bytes().len(), width, height, stride,
            scratch.as_mut_ptr(), scratch.len(),
        )
    }
}

pub fn box_downscale_half(src: Gray8View<'_>, mut dst: Gray8ViewMut<'_>) -> u8 {
    let (width, height, stride) = (dst.width(), dst.height(), dst.stride());
    unsafe {
        raw::smear_box_downscale_half(
            src.bytes().as_ptr(), src.bytes().len(), src.width(), src.height(), src.stride(),
            dst.bytes().as_mut_ptr(), dst.bytes().len(), width, height, stride,
        )
    }
}

pub fn halve(src: Gray8View<'_>, mut dst: Gray8ViewMut<'_>, count: usize, scratch: &mut [u8]) -> u8 {
    let (width, height, stride) = (dst.width(), dst.height(), dst.stride());
    unsafe {
        raw::smear_halve(
            src.bytes().as_ptr(), src.bytes().len(), src.width(), src.height(), src.stride(),
            dst.bytes().as_mut_ptr(), dst.bytes().len(), width, height, stride,
            count, scratch.as_mut_ptr(), scratch.len(),
        )
    }
}

/// The refusal and the direction.
pub fn van_cittert_line(src: Gray8View<'_>, mut dst: Gray8ViewMut<'_>, f: Filter, scratch: &mut [i32]) -> (u8, u8) {
    let (width, height, stride) = (dst.width(), dst.height(), dst.stride());
    let mut direction = 0;
    let refusal = unsafe {
        raw::smear_van_cittert_line(
            src.bytes().as_ptr(), src.bytes().len(), src.width(), src.height(), src.stride(),
            dst.bytes().as_mut_ptr(), dst.bytes().len(), width, height, stride,
            f.angle, f.blur_length, f.iterations, f.factor, f.border.0, f.border.1,
            scratch.as_mut_ptr(), scratch.len(), &mut direction,
        )
    };
    (refusal, direction)
}

/// The refusal and the direction.
pub fn van_cittert_estimate(src: Gray8View<'_>, dst: &mut [i32], f: Filter, scratch: &mut [i32]) -> (u8, u8) {
    let mut direction = 0;
    let refusal = unsafe {
        raw::smear_van_cittert_estimate(
            src.bytes().as_ptr(), src.bytes().len(), src.width(), src.height(), src.stride(),
            dst.as_mut_ptr(), dst.len(),
            f.angle, f.blur_length, f.iterations, f.factor, f.border.0, f.border.1,
            scratch.as_mut_ptr(), scratch.len(), &mut direction,
        )
    };
    (refusal, direction)
}

/// The refusal and the direction. The filter's iterations are not read.
pub fn directional_unsharp_line(
    src: Gray8View<'_>,
    mut dst: Gray8ViewMut<'_>,
    f: Filter,
    scratch: &mut [i32],
) -> (u8, u8) {
    let (width, height, stride) = (dst.width(), dst.height(), dst.stride());
    let mut direction = 0;
    let refusal = unsafe {
        raw::smear_directional_unsharp_line(
            src.bytes().as_ptr(), src.bytes().len(), src.width(), src.height(), src.stride(),
            dst.bytes().as_mut_ptr(), dst.bytes().len(), width, height, stride,
            f.angle, f.blur_length, f.factor, f.border.0, f.border.1,
            scratch.as_mut_ptr(), scratch.len(), &mut direction,
        )
    };
    (refusal, direction)
}

/// The refusal, and the direction, the blur length and the estimate. The filter's angle and blur length are not read.
pub fn restore(
    src: Gray8View<'_>,
    mut dst: Gray8ViewMut<'_>,
    (transitions, amplitude, confidence): (usize, u8, u16),
    f: Filter,
    scratch: &mut [i32],
    swings: &mut [Swing],
) -> (u8, (u8, usize, f64)) {
    let (width, height, stride) = (dst.width(), dst.height(), dst.stride());
    let (mut direction, mut blur_length, mut estimate) = (0, 0, 0.0);
    let refusal = unsafe {
        raw::smear_restore(
            src.bytes().as_ptr(), src.bytes().len(), src.width(), src.height(), src.stride(),
            dst.bytes().as_mut_ptr(), dst.bytes().len(), width, height, stride,
            transitions, amplitude, confidence, f.iterations, f.factor, f.border.0, f.border.1,
            scratch.as_mut_ptr(), scratch.len(), swings.as_mut_ptr(), swings.len(),
            &mut direction, &mut blur_length, &mut estimate,
        )
    };
    (refusal, (direction, blur_length, estimate))
}

/// The refusal, and the sheet's numbers, or with refusal 13 the index of the faulty record.
pub fn summarize(records: &[u8]) -> (u8, [u64; 21], usize) {
    let (mut sheet, mut index) = ([0; 21], 0);
    let refusal =
        unsafe { raw::smear_summarize(records.as_ptr(), records.len(), sheet.as_mut_ptr(), sheet.len(), &mut index) };
    (refusal, sheet, index)
}

/// The refusal, and the picture's width, height and where in the file its pixels start.
pub fn read_pgm(file: &[u8]) -> (u8, (usize, usize, usize)) {
    let (mut width, mut height, mut start) = (0, 0, 0);
    let refusal = unsafe { raw::smear_read_pgm(file.as_ptr(), file.len(), &mut width, &mut height, &mut start) };
    (refusal, (width, height, start))
}

/// The refusal, and how many bytes were written.
pub fn write_pgm(src: Gray8View<'_>, out: &mut [u8]) -> (u8, usize) {
    let mut written = 0;
    let refusal = unsafe {
        raw::smear_write_pgm(
            src.bytes().as_ptr(), src.bytes().len(), src.width(), src.height(), src.stride(),
            out.as_mut_ptr(), out.len(), &mut written,
        )
    };
    (refusal, written)
}
