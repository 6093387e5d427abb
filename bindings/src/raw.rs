//! The C interface of the proved library: crates/smear_c/include/smear.h, declared again.
//! The comparison and the bench use this file too.

/// `smear_swing`.
#[repr(C)]
#[derive(Clone, Copy, Debug, Default, PartialEq)]
pub struct Swing {
    pub width: f64,
    pub swing: i32,
}

extern "C" {
    pub fn smear_direction_from_angle(angle: f64) -> u8;

    pub fn smear_estimate_line_direction(
        src: *const u8, src_len: usize, width: usize, height: usize, stride: usize,
        direction: *mut u8, a: *mut i64, c: *mut i64, e: *mut i64,
    ) -> u8;

    pub fn smear_estimate_line_length(
        src: *const u8, src_len: usize, width: usize, height: usize, stride: usize,
        angle: f64, minimum_transitions: usize, minimum_amplitude: u8,
        swings: *mut Swing, swings_len: usize, length: *mut f64,
    ) -> u8;

    pub fn smear_fixed_binomial_unsharp(
        src: *const u8, src_len: usize, width: usize, height: usize, stride: usize,
        dst: *mut u8, dst_len: usize, dst_width: usize, dst_height: usize, dst_stride: usize,
        scratch: *mut u16, scratch_len: usize,
    ) -> u8;

    pub fn smear_box_downscale_half(
        src: *const u8, src_len: usize, width: usize, height: usize, stride: usize,
        dst: *mut u8, dst_len: usize, dst_width: usize, dst_height: usize, dst_stride: usize,
    ) -> u8;

    pub fn smear_halve(
        src: *const u8, src_len: usize, width: usize, height: usize, stride: usize,
        dst: *mut u8, dst_len: usize, dst_width: usize, dst_height: usize, dst_stride: usize,
        count: usize, scratch: *mut u8, scratch_len: usize,
    ) -> u8;

    pub fn smear_van_cittert_line(
        src: *const u8, src_len: usize, width: usize, height: usize, stride: usize,
        dst: *mut u8, dst_len: usize, dst_width: usize, dst_height: usize, dst_stride: usize,
        angle: f64, blur_length: usize, iterations: usize, relaxation: f64, border: u8, border_value: u8,
        scratch: *mut i32, scratch_len: usize, direction: *mut u8,
    ) -> u8;

    pub fn smear_van_cittert_estimate(
        src: *const u8, src_len: usize, width: usize, height: usize, stride: usize,
        dst: *mut i32, dst_len: usize,
        angle: f64, blur_length: usize, iterations: usize, relaxation: f64, border: u8, border_value: u8,
        scratch: *mut i32, scratch_len: usize, direction: *mut u8,
    ) -> u8;

    pub fn smear_directional_unsharp_line(
        src: *const u8, src_len: usize, width: usize, height: usize, stride: usize,
        dst: *mut u8, dst_len: usize, dst_width: usize, dst_height: usize, dst_stride: usize,
        angle: f64, blur_length: usize, gain: f64, border: u8, border_value: u8,
        scratch: *mut i32, scratch_len: usize, direction: *mut u8,
    ) -> u8;

    pub fn smear_restore(
        src: *const u8, src_len: usize, width: usize, height: usize, stride: usize,
        dst: *mut u8, dst_len: usize, dst_width: usize, dst_height: usize, dst_stride: usize,
        minimum_transitions: usize, minimum_amplitude: u8, minimum_confidence: u16,
        iterations: usize, relaxation: f64, border: u8, border_value: u8,
        scratch: *mut i32, scratch_len: usize, swings: *mut Swing, swings_len: usize,
        direction: *mut u8, blur_length: *mut usize, estimate: *mut f64,
    ) -> u8;

    pub fn smear_run(
        job: *const u8, job_len: usize, picture: *const u8, picture_len: usize,
        out: *mut u8, out_len: usize, written: *mut usize,
    ) -> u8;

    pub fn smear_summarize(
        records: *const u8, records_len: usize, sheet: *mut u64, sheet_len: usize, index: *mut usize,
    ) -> u8;

    pub fn smear_read_pgm(
        file: *const u8, file_len: usize, width: *mut usize, height: *mut usize, start: *mut usize,
    ) -> u8;

    pub fn smear_write_pgm(
        src: *const u8, src_len: usize, width: usize, height: usize, stride: usize,
        out: *mut u8, out_len: usize, written: *mut usize,
    ) -> u8;
}
