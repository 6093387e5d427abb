//! docs/DIFFERENCES.md, row by row: what its smallest inputs give on both sides, in a release build and, where this
//! program is one, in a debug build. C has no views: what they answer here are theorems (`image/proofs/Examples:
//! smallest-outside, smallest-no-row`), and `bindings/tests` has what the crate for Rust does.

use crate::degrees::{BEYOND, LAST};
use crate::ffi::{
    smear_box_downscale_half, smear_direction_from_angle, smear_estimate_line_direction, smear_estimate_line_length,
    smear_halve, smear_read_pgm, smear_restore, smear_run, smear_summarize, smear_van_cittert_estimate,
    smear_van_cittert_line, smear_write_pgm, Swing,
};
use qr_lab_image::{Gray8View, Gray8ViewMut, LumaError};
use qr_lab_imgproc::blur::{
    estimate_line_direction, estimate_line_length_with, DirectionEstimate, LineLengthConfig, RasterDirection4,
};
use qr_lab_imgproc::deblur::{van_cittert_line_into, LineBorderMode, VanCittertConfig};
use qr_lab_imgproc::internal::box_downscale_half;
use qr_lab_imgproc::ImgProcError;
use std::panic::{catch_unwind, set_hook, take_hook, AssertUnwindSafe};

const ROWS: [(&str, fn()); 19] = [
    ("a picture of more than 1,024 pixels a side", sides),
    ("a layout that is refused", layout),
    ("more than 22 iterations", iterations),
    ("workspaces", workspaces),
    ("errors", errors),
    ("direction from a picture at a tie", tie),
    ("direction from a picture", direction),
    ("a place outside a view", outside),
    ("the estimate call, the whole job, records and the program", added),
    ("the round sheet", round_sheet),
    ("the wrapping border", wrapping),
    ("pictures as PGM", pgm),
    ("the floor of the confidence", floor),
    ("direction from an angle", snapped),
    ("length along an angle without a direction", measured),
    ("line filters along a finite angle without a direction", filtered),
    ("halving a picture with a side of 1", too_small),
    ("a half-size picture", half_size),
    ("as many halvings as stated", halvings),
];

/// Ends with a panic where a row is not as docs/DIFFERENCES.md has it.
pub fn check() {
    let table = include_str!("../../docs/DIFFERENCES.md").lines().filter(|line| line.starts_with("| ")).skip(1);
    let first = |line: &'static str| line.split('|').nth(1).expect("a row has cells").trim();
    assert_eq!(table.map(first).collect::<Vec<_>>(), ROWS.map(|(name, _)| name), "the rows of docs/DIFFERENCES.md");
    ROWS.into_iter().for_each(|(_, shown)| shown());
    println!("docs/DIFFERENCES.md: {} rows, each input gives what its row says", ROWS.len());
}

fn their_direction(pixels: &[u8], width: usize) -> DirectionEstimate {
    estimate_line_direction(Gray8View::new(pixels, width, pixels.len() / width, width).unwrap())
}

/// The refusal, the direction's number, and A, C and E.
fn our_direction(pixels: &[u8], width: usize, height: usize) -> (u8, u8, [i64; 3]) {
    let (mut direction, mut a, mut c, mut e) = (0, 0, 0, 0);
    let refusal = unsafe {
        smear_estimate_line_direction(
            pixels.as_ptr(), pixels.len(), width, height, width, &mut direction, &mut a, &mut c, &mut e,
        )
    };
    (refusal, direction, [a, c, e])
}

/// What is answered; nothing where that panics.
fn answered<T>(run: impl FnOnce() -> T) -> Option<T> {
    set_hook(Box::new(|_| {}));
    let answer = catch_unwind(AssertUnwindSafe(run)).ok();
    drop(take_hook());
    answer
}

/// The same, of what panics in a debug build.
fn released<T>(answer: T) -> Option<T> {
    (!cfg!(debug_assertions)).then_some(answer)
}

/// The Rust's restoration of a row.
fn their_row(row: &[u8], config: VanCittertConfig) -> Result<Vec<u8>, ImgProcError> {
    let (n, mut out) = (row.len(), vec![0; row.len()]);
    let (src, dst) = (Gray8View::new(row, n, 1, n).unwrap(), Gray8ViewMut::new(&mut out, n, 1, n).unwrap());
    van_cittert_line_into(src, dst, &config, &mut Default::default()).map(|_| out)
}

/// That of a picture of one pixel: the error.
fn their_restoration(config: VanCittertConfig) -> Option<ImgProcError> {
    their_row(&[7], config).err()
}

/// Ours, into a destination of the given width and with so much scratch: the refusal.
fn our_restoration(config: VanCittertConfig, dst_width: usize, scratch: usize) -> u8 {
    let (mut out, mut room, mut direction) = ([0], vec![0; scratch], 0);
    let VanCittertConfig { theta_radians, blur_length, iterations, relaxation, .. } = config;
    unsafe {
        smear_van_cittert_line(
            [7].as_ptr(), 1, 1, 1, 1, out.as_mut_ptr(), 1, dst_width, 1, 1, theta_radians, blur_length, iterations,
            relaxation, 0, 0, room.as_mut_ptr(), scratch, &mut direction,
        )
    }
}

/// Ours of a row with Wrap: length 3, relaxation 1, one iteration.
fn our_wrapped_row(row: &[u8]) -> Vec<u8> {
    let (n, mut out, mut room, mut direction) = (row.len(), vec![0; row.len()], vec![0; 3 * row.len()], 0);
    let refusal = unsafe {
        smear_van_cittert_line(
            row.as_ptr(), n, n, 1, n, out.as_mut_ptr(), n, n, 1, n, 0.0, 3, 1, 1.0, 3, 0, room.as_mut_ptr(), 3 * n,
            &mut direction,
        )
    };
    assert_eq!(refusal, 0);
    out
}

/// The Rust's half-size picture.
fn their_half(pixels: &[u8], width: usize) -> Option<(Vec<u8>, usize, usize)> {
    box_downscale_half(&Gray8View::new(pixels, width, pixels.len() / width, width).unwrap())
}

/// Our refusal, and what then stands in a destination of so many bytes, with such a width and one row.
fn our_half(pixels: &[u8], width: usize, len: usize, dst_width: usize) -> (u8, Vec<u8>) {
    let (height, mut out) = (pixels.len() / width, vec![77; len]);
    let refusal = unsafe {
        smear_box_downscale_half(
            pixels.as_ptr(), pixels.len(), width, height, width, out.as_mut_ptr(), len, dst_width, 1, dst_width,
        )
    };
    (refusal, out)
}

/// A 1 by 1 picture of a 7 halved so often, with so much scratch: the refusal, and what stands in the destination.
fn one_halved(count: usize, scratch: usize) -> (u8, [u8; 1]) {
    let (mut out, mut room) = ([77], vec![0; scratch]);
    let refusal = unsafe {
        smear_halve([7].as_ptr(), 1, 1, 1, 1, out.as_mut_ptr(), 1, 1, 1, 1, count, room.as_mut_ptr(), scratch)
    };
    (refusal, out)
}

fn sides() {
    assert_eq!(their_direction(&[0; 1025], 1025).raster_direction, RasterDirection4::Horizontal);
    assert_eq!(our_direction(&[0; 1025], 1025, 1).0, 2);
    assert_eq!(their_half(&[7; 2050], 1025), Some((vec![7; 512], 512, 1)));
    assert_eq!(our_half(&[7; 2050], 1025, 512, 512), (2, vec![77; 512]));
    // with one row the Rust has none
    assert_eq!(their_half(&[7; 1025], 1025), None);
}

fn layout() {
    assert_eq!(Gray8View::new(&[], 0, 1, 0).err(), Some(LumaError::EmptyDimensions));
    assert_eq!(our_direction(&[], 0, 1).0, 1);
    assert_eq!(our_restoration(VanCittertConfig::default(), 0, 3), 5);
}

fn iterations() {
    let config = VanCittertConfig { iterations: 23, ..Default::default() };
    assert_eq!((their_restoration(config), our_restoration(config, 1, 3)), (None, 9));
    let wraps = |iterations| {
        let config = VanCittertConfig { iterations, border: LineBorderMode::Reflect, ..Default::default() };
        answered(|| their_row(&[255, 0], config).unwrap())
    };
    assert_eq!((wraps(53), wraps(54)), (Some(vec![255, 0]), released(vec![0, 255])));
}

fn workspaces() {
    let config = VanCittertConfig::default();
    assert_eq!(their_restoration(config), None);
    assert_eq!((our_restoration(config, 1, 2), our_restoration(config, 1, 3)), (10, 0));
}

fn errors() {
    let length = VanCittertConfig { blur_length: 2, ..Default::default() };
    let angle = VanCittertConfig { theta_radians: f64::NAN, ..Default::default() };
    let factor = VanCittertConfig { relaxation: 2.0, ..Default::default() };
    let none = VanCittertConfig { iterations: 0, ..Default::default() };
    for (config, number) in [(length, 7), (angle, 7), (factor, 8), (none, 8)] {
        assert_eq!(their_restoration(config), Some(ImgProcError::InvalidConfiguration));
        assert_eq!(our_restoration(config, 1, 3), number);
    }
}

fn tie() {
    let pixels = [0, 0, 1, 1, 0, 0, 0, 0, 0, 0, 0, 0];
    assert_eq!(their_direction(&pixels, 4).raster_direction, RasterDirection4::DownRight);
    assert_eq!(our_direction(&pixels, 4, 3), (0, 0, [2, -4, 10]));
}

fn direction() {
    let pixels = [0, 0, 0, 0, 0, 1, 0, 0, 0];
    let DirectionEstimate { theta_radians, confidence, raster_direction } = their_direction(&pixels, 3);
    assert_eq!((theta_radians, confidence), (1.5707963267948966, 1.0));
    assert_eq!(raster_direction, RasterDirection4::Vertical);
    assert_eq!(our_direction(&pixels, 3, 3), (0, 2, [4, 0, 0]));
}

fn outside() {
    let (bytes, mut out) = ([7, 9], [7, 9]);
    let view = Gray8View::new(&bytes, 1, 1, 2).unwrap();
    let view_mut = Gray8ViewMut::new(&mut out, 1, 1, 2).unwrap();
    assert_eq!((answered(|| view.get(1, 0)), answered(|| view_mut.get(1, 0))), (released(9), released(9)));
    assert_eq!(view.try_get(1, 0), None);
    assert_eq!((answered(|| view.row(1).len()), answered(|| view_mut.row(1).len())), (None, None));
}

/// The whole job on a 1 by 1 picture of a 7: the refusal.
fn job_of_one(minimum_confidence: u16) -> u8 {
    let (mut out, mut room, mut swings) = ([0], [0; 3], [Swing::default()]);
    let (mut direction, mut length, mut measured) = (0, 0, 0.0);
    unsafe {
        smear_restore(
            [7].as_ptr(), 1, 1, 1, 1, out.as_mut_ptr(), 1, 1, 1, 1, 8, 24, minimum_confidence, 3, 1.0, 0, 0,
            room.as_mut_ptr(), 3, swings.as_mut_ptr(), 1, &mut direction, &mut length, &mut measured,
        )
    }
}

fn added() {
    let (mut estimate, mut room, mut direction) = ([0], [0; 3], 0);
    let refusal = unsafe {
        smear_van_cittert_estimate(
            [7].as_ptr(), 1, 1, 1, 1, estimate.as_mut_ptr(), 1, 0.0, 3, 1, 1.0, 0, 0, room.as_mut_ptr(), 3,
            &mut direction,
        )
    };
    assert_eq!((refusal, estimate, job_of_one(0)), (0, [7], 11));
    let (mut text, mut written) = ([0; 16], 0);
    unsafe { smear_run([0; 32].as_ptr(), 32, [7].as_ptr(), 1, text.as_mut_ptr(), 16, &mut written) };
    assert_eq!(&text[..written], b"refused 13\n");
}

fn round_sheet() {
    let summarized = |records: &[u8]| {
        let (mut sheet, mut index) = ([1; 21], 1);
        let refusal = unsafe { smear_summarize(records.as_ptr(), records.len(), sheet.as_mut_ptr(), 21, &mut index) };
        (refusal, sheet, index)
    };
    assert_eq!(summarized(&[]), (0, [0; 21], 1));
    assert_eq!(summarized(&[7]), (13, [1; 21], 0));
}

fn wrapping() {
    let theirs = |row: &[u8], border| {
        their_row(row, VanCittertConfig { iterations: 1, border, ..Default::default() }).unwrap()
    };
    let row = [1, 0, 4];
    assert_eq!(our_wrapped_row(&row), [1, 0, 7]);
    assert_eq!(theirs(&row, LineBorderMode::Replicate), [2, 0, 6]);
    assert_eq!(theirs(&row, LineBorderMode::Reflect), [2, 0, 7]);
    assert!((0..=255).all(|value| theirs(&row, LineBorderMode::Constant(value)) != [1, 0, 7]));
    // no shorter row shows it
    for row in [&[4][..], &[1, 4]] {
        assert_eq!(our_wrapped_row(row), theirs(row, LineBorderMode::Reflect));
    }
}

fn pgm() {
    let (mut width, mut height, mut start) = (0, 0, 0);
    let mut read = |file: &[u8]| unsafe {
        (smear_read_pgm(file.as_ptr(), file.len(), &mut width, &mut height, &mut start), [width, height, start])
    };
    assert_eq!(read(b"P"), (14, [0, 0, 0]));
    assert_eq!(read(b"P5 1 1 255 \x07"), (0, [1, 1, 11]));
    let (mut out, mut written) = ([0; 12], 0);
    let mut write = |room| unsafe {
        smear_write_pgm([7].as_ptr(), 1, 1, 1, 1, out.as_mut_ptr(), room, &mut written)
    };
    assert_eq!((write(11), write(12)), (5, 0));
    assert_eq!((&out, written), (b"P5\n1\n1\n255\n\x07", 12));
}

fn floor() {
    let theirs = their_direction(&[7], 1);
    assert_eq!((theirs.confidence, job_of_one(0), job_of_one(1)), (0.0, 11, 17));
}

fn snapped() {
    let ours = |angle| unsafe { smear_direction_from_angle(angle) };
    for angle in [f64::NAN, BEYOND, -BEYOND] {
        assert_eq!((RasterDirection4::from_angle(angle), ours(angle)), (RasterDirection4::Horizontal, 4));
    }
    // the last angle that has a direction
    assert_eq!((RasterDirection4::from_angle(LAST), ours(LAST)), (RasterDirection4::DownRight, 1));
}

/// The Rust's length and our refusal, with thresholds 1 and 1.
fn lengths(pixels: &[u8], side: usize, angle: f64) -> (Option<f64>, u8) {
    let view = Gray8View::new(pixels, side, side, side).unwrap();
    let thresholds = LineLengthConfig { minimum_transitions: 1, minimum_amplitude: 1 };
    let (mut swings, mut length) = (vec![Swing::default(); pixels.len()], 0.0);
    let refusal = unsafe {
        smear_estimate_line_length(
            pixels.as_ptr(), pixels.len(), side, side, side, angle, 1, 1, swings.as_mut_ptr(), swings.len(),
            &mut length,
        )
    };
    (estimate_line_length_with(view, angle, &thresholds), refusal)
}

fn measured() {
    for angle in [f64::NAN, BEYOND] {
        assert_eq!(lengths(&[7], 1, angle), (None, 7));
        assert_eq!(lengths(&[0, 0, 0, 0, 0, 1, 0, 0, 0], 3, angle), (Some(1.0000000000000002), 7));
    }
}

fn filtered() {
    let config = VanCittertConfig { theta_radians: BEYOND, ..Default::default() };
    assert_eq!((their_row(&[7], config), our_restoration(config, 1, 3)), (Ok(vec![7]), 7));
}

fn too_small() {
    assert_eq!((their_half(&[7], 1), our_half(&[7], 1, 1, 1)), (None, (18, vec![77])));
}

fn half_size() {
    let four = [1, 1, 1, 3];
    assert_eq!(their_half(&four, 2), Some((vec![2], 1, 1)));
    assert_eq!(our_half(&four, 2, 1, 1), (0, vec![2]));
    assert_eq!(our_half(&four, 2, 2, 2), (6, vec![77; 2]));
    assert_eq!(our_half(&four, 2, 0, 1), (5, vec![]));
}

fn halvings() {
    assert_eq!((one_halved(0, 1), one_halved(0, 0), one_halved(11, 1)), ((0, [7]), (10, [77]), (18, [77])));
}
