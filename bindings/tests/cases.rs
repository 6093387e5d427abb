//! The documents' cases, through the crate.

use smear::blur::{
    estimate_line_direction, estimate_line_length, estimate_line_length_with, LineLengthConfig, RasterDirection4,
};
use smear::deblur::{
    directional_unsharp_line_into, van_cittert_estimate_into, van_cittert_line_into, DeblurWorkspace,
    DirectionalUnsharpConfig, LineBorderMode, VanCittertConfig,
};
use smear::job::{restore, JobConfig, JobWorkspace};
use smear::pgm;
use smear::resize::{box_downscale_half, halve, halved_size, ResizeWorkspace, MAX_HALVINGS};
use smear::sharpen::{fixed_binomial_unsharp_into, SharpenWorkspace};
use smear::summary::{summarize, DirectionSummary, RecordSummary};
use smear::{Gray8View, Gray8ViewMut, ImgProcError, ImgProcResult, Size};

const ROW: [u8; 5] = [10, 10, 40, 10, 10];
/// The last double whose value in degrees is finite.
const LAST_ANGLE: f64 = 3.1375664143845866e306;

/// Three equal rows that rise by 50 from 0 to 250.
fn ramp() -> Vec<u8> {
    [0, 0, 0, 50, 100, 150, 200, 250, 250, 250].repeat(3)
}

/// 60 by 60 pixels: bars of 12 columns, smeared over 5 columns, whose phase turns half round after each 2 rows, so that
/// most changes are across the rows.
fn bars() -> Vec<u8> {
    let bar = |x: usize, y: usize| if (x / 12 + y / 2) % 2 == 0 { 0 } else { 250 };
    (0..60 * 60).map(|i| ((0..5).map(|k| bar(i % 60 + k, i / 60)).sum::<u32>() / 5) as u8).collect()
}

fn restored(row: &[u8; 5], config: &VanCittertConfig) -> [u8; 5] {
    let mut out = [0; 5];
    let src = Gray8View::new(row, 5, 1, 5).unwrap();
    let dst = Gray8ViewMut::new(&mut out, 5, 1, 5).unwrap();
    van_cittert_line_into(src, dst, config, &mut DeblurWorkspace::default()).unwrap();
    out
}

/// The estimates of a picture without bytes between its rows.
fn estimates(pixels: &[u8], width: usize, config: &VanCittertConfig) -> Vec<i32> {
    let mut out = vec![0; pixels.len()];
    let src = Gray8View::new(pixels, width, pixels.len() / width, width).unwrap();
    van_cittert_estimate_into(src, &mut out, config, &mut DeblurWorkspace::default()).unwrap();
    out
}

#[test]
fn direction_from_an_angle() {
    let cases = [
        (0.39, RasterDirection4::Horizontal),
        (0.40, RasterDirection4::DownRight),
        (-1.0, RasterDirection4::DownLeft),
        (3.0, RasterDirection4::Horizontal),
        (1e306, RasterDirection4::Vertical),
        (LAST_ANGLE, RasterDirection4::DownRight),
        (-LAST_ANGLE, RasterDirection4::DownLeft),
    ];
    for (theta_radians, direction) in cases {
        assert_eq!(RasterDirection4::from_angle(theta_radians), Some(direction), "{theta_radians}");
        let config = VanCittertConfig { theta_radians, ..VanCittertConfig::default() };
        assert_eq!(config.raster_direction(), Some(direction), "{theta_radians}");
    }
    let steps = [0.0, 0.75, 1.5, 2.25].map(|angle| RasterDirection4::from_angle(angle).unwrap().step());
    assert_eq!(steps, [(1, 0), (1, 1), (0, 1), (-1, 1)]);
}

/// Document 02, K7: the angle is not finite, or it is and its value in degrees is not.
#[test]
fn angles_without_a_direction() {
    let beyond = f64::from_bits(LAST_ANGLE.to_bits() + 1);
    for theta_radians in [f64::NAN, f64::INFINITY, f64::NEG_INFINITY, beyond, -beyond, 1e307, f64::MAX, f64::MIN] {
        assert_eq!(RasterDirection4::from_angle(theta_radians), None, "{theta_radians}");
        let config = VanCittertConfig { theta_radians, ..VanCittertConfig::default() };
        assert_eq!(config.raster_direction(), None, "{theta_radians}");
    }
}

#[test]
fn direction_from_a_picture() {
    let bytes = ramp();
    let estimate = estimate_line_direction(Gray8View::new(&bytes, 10, 3, 10).unwrap());
    // rows that are alike have gx alone: 4 times the difference over two columns,
    // 50, 100, 100, 100, 100, 50 of them not 0
    assert_eq!(estimate.raster_direction, RasterDirection4::Vertical);
    assert_eq!((estimate.a, estimate.c, estimate.e), (16 * (2 * 50 * 50 + 4 * 100 * 100), 0, 0));
}

#[test]
fn length_of_a_ramp() {
    let bytes = ramp();
    let src = Gray8View::new(&bytes, 10, 3, 10).unwrap();
    let with = |minimum_transitions| {
        estimate_line_length_with(src, 0.0, &LineLengthConfig { minimum_transitions, ..LineLengthConfig::default() })
    };
    assert_eq!(with(3), Ok(Some(5.0)));
    assert_eq!(with(4), Ok(None));
    assert_eq!(with(0), Ok(None));
    assert_eq!(estimate_line_length(src, 0.0), Ok(None));
}

#[test]
fn restoration_of_a_row() {
    let config = VanCittertConfig { iterations: 1, ..VanCittertConfig::default() };
    assert_eq!(restored(&ROW, &config), [10, 0, 60, 0, 10]);
    let config = VanCittertConfig { iterations: 2, ..config };
    assert_eq!(restored(&ROW, &config), [14, 0, 80, 0, 14]);
    assert_eq!(restored(&ROW, &VanCittertConfig { relaxation: -0.0, ..config }), ROW);
}

#[test]
fn borders() {
    let at = |border| {
        let config = VanCittertConfig { iterations: 1, border, ..VanCittertConfig::default() };
        estimates(&[10, 40, 10, 10], 4, &config)
    };
    // the means are m 20 20 n, and each estimate is twice the pixel less its mean
    assert_eq!(at(LineBorderMode::Replicate), [20 - (10 + 10 + 40) / 3, 60, 0, 20 - (10 + 10 + 10) / 3]);
    assert_eq!(at(LineBorderMode::Reflect), [20 - (40 + 10 + 40) / 3, 60, 0, 20 - (10 + 10 + 10) / 3]);
    assert_eq!(at(LineBorderMode::Constant(100)), [20 - (100 + 10 + 40) / 3, 60, 0, 20 - (10 + 10 + 100) / 3]);
}

/// Document 02, K2, with length 3 or 11 and relaxation 1.
#[test]
fn a_row_that_is_one_turn_of_a_drum() {
    let row = [40, 10, 10, 10, 10];
    let wrap = VanCittertConfig { iterations: 1, border: LineBorderMode::Wrap, ..VanCittertConfig::default() };
    assert_eq!(restored(&row, &wrap), [60, 0, 10, 10, 0]);
    assert_eq!(restored(&row, &VanCittertConfig { blur_length: 11, ..wrap }), [62, 5, 5, 5, 5]);
    assert_eq!(estimates(&row, 5, &VanCittertConfig { iterations: 2, ..wrap }), [80, -13, 14, 14, -13]);
}

#[test]
fn a_diagonal_wraps_onto_itself() {
    // DownRight the lines are 9 0 3, whose means are all 12 / 3, and 60 30 and 5 6, where a mean of 3 has the other
    // pixel twice, and 7 and 8 alone
    let config = VanCittertConfig {
        theta_radians: 0.75,
        iterations: 1,
        border: LineBorderMode::Wrap,
        ..VanCittertConfig::default()
    };
    assert_eq!(
        estimates(&[9, 60, 7, 5, 0, 30, 8, 6, 3], 3, &config),
        [18 - 4, 120 - 120 / 3, 7, 10 - 17 / 3, 0 - 4, 60 - 150 / 3, 8, 12 - 16 / 3, 6 - 4]
    );
}

#[test]
fn estimates_are_not_cut_and_the_rest_stays() {
    let mut out = [7; 6];
    let config = VanCittertConfig { iterations: 2, ..VanCittertConfig::default() };
    let answer = van_cittert_estimate_into(
        Gray8View::new(&ROW, 5, 1, 5).unwrap(),
        &mut out,
        &config,
        &mut DeblurWorkspace::default(),
    )
    .unwrap();
    assert_eq!(out, [14, -13, 80, -13, 14, 7]);
    assert_eq!(answer.raster_direction, RasterDirection4::Horizontal);
}

#[test]
fn line_unsharp_and_binomial_of_a_row() {
    let src = Gray8View::new(&ROW, 5, 1, 5).unwrap();
    let mut out = [0; 5];
    let dst = Gray8ViewMut::new(&mut out, 5, 1, 5).unwrap();
    directional_unsharp_line_into(src, dst, &DirectionalUnsharpConfig::default(), &mut DeblurWorkspace::default())
        .unwrap();
    assert_eq!(out, [10, 0, 70, 0, 10]);
    let dst = Gray8ViewMut::new(&mut out, 5, 1, 5).unwrap();
    fixed_binomial_unsharp_into(src, dst, &mut SharpenWorkspace::default()).unwrap();
    assert_eq!(out, [8, 2, 59, 2, 8]);
}

#[test]
fn the_whole_job() {
    // along the columns of the ramp nothing changes: its direction is Vertical, and there is no length
    let bytes = ramp();
    let mut out = [9; 30];
    let mut workspace = JobWorkspace::default();
    let dst = Gray8ViewMut::new(&mut out, 10, 3, 10).unwrap();
    let answer = restore(Gray8View::new(&bytes, 10, 3, 10).unwrap(), dst, &JobConfig::default(), &mut workspace);
    assert_eq!(answer, Err(ImgProcError::NoLength));
    assert_eq!(out, [9; 30]);
    let bytes = bars();
    let src = Gray8View::new(&bytes, 60, 60, 60).unwrap();
    let mut whole = vec![0; 60 * 60];
    let dst = Gray8ViewMut::new(&mut whole, 60, 60, 60).unwrap();
    let answer = restore(src, dst, &JobConfig::default(), &mut workspace).unwrap();
    assert_eq!((answer.direction, answer.blur_length), (RasterDirection4::Horizontal, 5));
    assert_eq!(Ok(Some(answer.estimate)), estimate_line_length(src, 0.0));
    // the same by the three calls
    let mut parts = vec![0; 60 * 60];
    let dst = Gray8ViewMut::new(&mut parts, 60, 60, 60).unwrap();
    let config = VanCittertConfig { blur_length: 5, ..VanCittertConfig::default() };
    van_cittert_line_into(src, dst, &config, &mut DeblurWorkspace::default()).unwrap();
    assert!(whole == parts && whole != bytes);
}

/// Document 02, K6: the confidence of the bars lies between 250 and 251 256ths.
#[test]
fn the_whole_job_with_a_floor() {
    let bytes = bars();
    let src = Gray8View::new(&bytes, 60, 60, 60).unwrap();
    let run = |config: &JobConfig| {
        let mut out = vec![9; 60 * 60];
        let dst = Gray8ViewMut::new(&mut out, 60, 60, 60).unwrap();
        (restore(src, dst, config, &mut JobWorkspace::default()), out)
    };
    let usual = run(&JobConfig::default());
    assert!(usual.0.is_ok());
    for minimum_confidence in [0, 1, 128, 250] {
        let config = JobConfig { minimum_confidence, ..JobConfig::default() };
        assert!(run(&config) == usual, "floor {minimum_confidence}");
    }
    for minimum_confidence in [251, 256, 257] {
        let config = JobConfig { minimum_confidence, ..JobConfig::default() };
        assert!(run(&config) == (Err(ImgProcError::LowConfidence), vec![9; 60 * 60]), "floor {minimum_confidence}");
    }
}

/// A picture without bytes between its rows after so many halvings; after one by the single call too.
fn halved(pixels: &[u8], width: usize, count: usize) -> (Size, Vec<u8>) {
    let src = Gray8View::new(pixels, width, pixels.len() / width, width).unwrap();
    let size = halved_size(src.size(), count).unwrap();
    let into = |run: &dyn Fn(Gray8ViewMut<'_>) -> ImgProcResult<()>| {
        let mut out = vec![0; size.width * size.height];
        run(Gray8ViewMut::new(&mut out, size.width, size.height, size.width).unwrap()).unwrap();
        out
    };
    let out = into(&|dst| halve(src, dst, count, &mut ResizeWorkspace::default()));
    assert!(count != 1 || into(&|dst| box_downscale_half(src, dst)) == out);
    (size, out)
}

/// Document 02, K8. The means of two by two are 7 / 4, 2 / 4, 3 / 4 and 6 / 4, of which the halves go up.
#[test]
fn each_halving_rounds() {
    let pixels = [1, 2, 1, 1, 2, 2, 0, 0, 2, 1, 2, 2, 0, 0, 1, 1];
    assert_eq!(halved(&pixels, 4, 0).1, pixels);
    assert_eq!(halved(&pixels, 4, 1).1, [2, 1, 1, 2]);
    assert_eq!(halved(&pixels, 4, 2).1, [2]);
    // every sum of four, and each of its remainders
    for sum in 0..=4 * 255u16 {
        let four = [0, 1, 2, 3].map(|place| ((sum + place) / 4) as u8);
        assert_eq!(halved(&four, 2, 1).1, [(f64::from(sum) / 4.0 + 0.5).floor() as u8], "{four:?}");
    }
}

#[test]
fn an_odd_last_column_and_row_are_left_out() {
    let pixels = [0, 1, 255, 255, 9, 1, 1, 255, 254, 9, 10, 20, 30, 40, 9, 50, 60, 70, 80, 9, 9, 9, 9, 9, 9];
    assert_eq!(halved(&pixels, 5, 1), (Size { width: 2, height: 2 }, vec![1, 255, 35, 55]));
    assert_eq!(halved(&pixels, 5, 2), (Size { width: 1, height: 1 }, vec![87]));
    assert_eq!(halved(&[1, 2, 9, 3, 4, 9, 9, 9, 9], 3, 1), (Size { width: 1, height: 1 }, vec![3]));
    assert_eq!(halved(&[1, 2, 9, 3, 4, 9], 3, 1).1, [3]);
    assert_eq!(halved(&[1, 2, 3, 4, 9, 9], 2, 1).1, [3]);
}

#[test]
fn some_halvings_and_then_some() {
    let pixels: Vec<u8> = (0..70 * 67).map(|place| (place * place % 251) as u8).collect();
    for first in 0..=6 {
        let (size, part) = halved(&pixels, 70, first);
        for second in 0..=6 - first {
            assert_eq!(halved(&part, size.width, second), halved(&pixels, 70, first + second), "{first} and {second}");
        }
    }
}

#[test]
fn ten_halvings() {
    let pixels: Vec<u8> = (0..1024 * 1024).map(|place| if place % 1024 < 512 { 10 } else { 21 }).collect();
    // nothing is rounded until the last halving, which has 62 / 4
    assert_eq!(halved(&pixels, 1024, 9).1, [10, 21, 10, 21]);
    assert_eq!(halved(&pixels, 1024, MAX_HALVINGS), (Size { width: 1, height: 1 }, vec![16]));
}

#[test]
fn sizes_that_are_left() {
    let left = |width, height, count| halved_size(Size { width, height }, count).map(|s| (s.width, s.height));
    assert_eq!([0, 1, 2, 3].map(|count| left(5, 7, count)), [Some((5, 7)), Some((2, 3)), Some((1, 1)), None]);
    assert_eq!([left(1, 9, 0), left(1, 9, 1), left(9, 1, 1)], [Some((1, 9)), None, None]);
    assert_eq!([left(1024, 1024, 10), left(1023, 1024, 10), left(1024, 1023, 10)], [Some((1, 1)), None, None]);
    assert_eq!([left(1024, 1024, 11), left(1024, 1024, 64), left(1024, 1024, usize::MAX)], [None; 3]);
}

#[test]
fn bytes_around_a_halved_picture_stay_and_do_not_matter() {
    for p in [0, 77, 255] {
        // 4 by 4 with 3 bytes of padding: each pixel is the number of its place
        let bytes: Vec<u8> = (0..25).map(|place| if place % 7 < 4 { place } else { p }).collect();
        let src = Gray8View::new(&bytes, 4, 4, 7).unwrap();
        let run = |count, side, out: &mut [u8]| {
            let dst = Gray8ViewMut::new(out, side, side, side + 1).unwrap();
            halve(src, dst, count, &mut ResizeWorkspace::default()).unwrap();
        };
        let (mut copy, mut half, mut quarter) = ([p; 21], [p; 7], [p; 3]);
        run(0, 4, &mut copy);
        assert_eq!(copy, [0, 1, 2, 3, p, 7, 8, 9, 10, p, 14, 15, 16, 17, p, 21, 22, 23, 24, p, p]);
        run(1, 2, &mut half);
        assert_eq!(half, [4, 6, p, 18, 20, p, p]);
        run(2, 1, &mut quarter);
        assert_eq!(quarter, [12, p, p]);
        let mut once = [p; 7];
        box_downscale_half(src, Gray8ViewMut::new(&mut once, 2, 2, 3).unwrap()).unwrap();
        assert_eq!(once, half);
    }
}

#[test]
fn bytes_around_a_picture_stay_and_do_not_matter() {
    // the row, as two rows of one picture with 3 bytes of padding and 2 behind
    let lay = |padding: u8| [&ROW[..], &[padding; 3], &ROW[..], &[padding; 2]].concat();
    let mut workspace = SharpenWorkspace::default();
    let mut pixels = Vec::new();
    for padding in [0, 255] {
        let (bytes, mut out) = (lay(padding), lay(padding));
        let dst = Gray8ViewMut::new(&mut out, 5, 2, 8).unwrap();
        fixed_binomial_unsharp_into(Gray8View::new(&bytes, 5, 2, 8).unwrap(), dst, &mut workspace).unwrap();
        assert_eq!([&out[5..8], &out[13..]], [&[padding; 3][..], &[padding; 2][..]]);
        pixels.push([out[..5].to_vec(), out[8..13].to_vec()]);
    }
    assert_eq!(pixels[0], pixels[1]);
    assert_eq!(pixels[0], [[8, 2, 59, 2, 8], [8, 2, 59, 2, 8]]);
}

#[test]
fn views() {
    let mut bytes: Vec<u8> = (0..20).collect();
    let view = Gray8View::new(&bytes, 3, 4, 5).unwrap();
    assert_eq!((view.width(), view.height(), view.stride()), (3, 4, 5));
    assert_eq!((view.row(1), view.get(2, 3), view.try_get(2, 3)), (&[5, 6, 7][..], 17, Some(17)));
    assert_eq!((view.try_get(3, 0), view.try_get(0, 4)), (None, None));
    let mut view = Gray8ViewMut::new(&mut bytes, 3, 4, 5).unwrap();
    view.set(2, 3, 99);
    view.row_mut(0)[1] = 98;
    assert_eq!((view.get(2, 3), view.row(0), view.size()), (99, &[0, 98, 2][..], view.as_view().size()));
    assert_eq!((bytes[17], bytes[1], bytes[3]), (99, 98, 3));
}

#[test]
fn the_sheet_over_some_results() {
    // pictures of 5 by 1: restorations of lengths 3 and, with the border Wrap, 5, a line unsharp of length 3 and gain
    // 1.5, a binomial
    let three = [&[5, 0, 1, 0, 0, 0, 0, 1, 3, 0, 1, 0, 0, 0, 1, 0][..], &[0; 16]].concat();
    let five = [&[5, 0, 1, 0, 0, 3, 0, 1, 5, 0, 1, 0, 0, 0, 1, 0][..], &[0; 16]].concat();
    let unsharp = [&[5, 0, 1, 0, 0, 0, 0, 2, 3, 0, 0, 0, 0, 128, 1, 0][..], &[0; 16]].concat();
    let binomial = [&[5, 0, 1, 0, 0, 0, 0, 3][..], &[0; 24]].concat();
    // and a Vertical restoration of length 11 with an estimate of 10.5
    let vertical = [&[5, 0, 1, 0, 2, 0, 0, 1, 11, 0, 1, 0, 0, 0, 1, 0][..], &[0; 14], &[0x25, 0x40]].concat();
    let summary = RecordSummary {
        horizontal: DirectionSummary { count: 3, total: 11, largest: 5, mean: 3, remainder: 2 },
        vertical: DirectionSummary { count: 1, total: 11, largest: 11, mean: 11, remainder: 0 },
        binomials: 1,
        ..RecordSummary::default()
    };
    assert_eq!(summarize(&[&three[..], &five, &unsharp, &binomial, &vertical].concat()), Ok(summary));
    assert_eq!(summarize(&[&vertical[..], &binomial, &five, &three, &unsharp].concat()), Ok(summary));
}

#[test]
fn a_sheet_has_each_direction_in_its_place() {
    // DownRight once, Vertical twice, DownLeft three times; their lengths are 3, 5 and 7
    let record =
        |direction: u8, length: u8| [&[5, 0, 1, 0, direction, 0, 0, 1, length, 0, 1, 0][..], &[0; 20]].concat();
    let records = [record(3, 7), record(1, 3), record(2, 5), record(3, 7), record(2, 5), record(3, 7)].concat();
    let summary = RecordSummary {
        down_right: DirectionSummary { count: 1, total: 3, largest: 3, mean: 3, remainder: 0 },
        vertical: DirectionSummary { count: 2, total: 10, largest: 5, mean: 5, remainder: 0 },
        down_left: DirectionSummary { count: 3, total: 21, largest: 7, mean: 7, remainder: 0 },
        ..RecordSummary::default()
    };
    assert_eq!(summarize(&records), Ok(summary));
}

#[test]
fn the_sheet_over_no_record() {
    let none = DirectionSummary { count: 0, total: 0, largest: 0, mean: 0, remainder: 0 };
    let summary = RecordSummary { horizontal: none, down_right: none, vertical: none, down_left: none, binomials: 0 };
    assert_eq!(summarize(&[]), Ok(summary));
}

/// The size and the pixels of the picture in a PGM file that is read.
fn read_pgm(file: &[u8]) -> (Size, Vec<u8>) {
    let view = pgm::read(file).unwrap();
    (view.size(), (0..view.height()).flat_map(|y| view.row(y)).copied().collect())
}

/// Document 02, K3.
#[test]
fn a_row_as_pgm() {
    let file = [0x50, 0x35, 0x0A, 0x35, 0x0A, 0x31, 0x0A, 0x32, 0x35, 0x35, 0x0A, 0x0A, 0x0A, 0x28, 0x0A, 0x0A];
    let mut out = [7; 18];
    assert_eq!(pgm::write(Gray8View::new(&ROW, 5, 1, 5).unwrap(), &mut out), Ok(16));
    assert_eq!((&out[..16], &out[16..]), (&file[..], &[7, 7][..]));
    assert_eq!(read_pgm(&file), (Size { width: 5, height: 1 }, ROW.to_vec()));
    // the pixels are the file's own
    assert_eq!(pgm::read(&file).unwrap().row(0).as_ptr(), file[11..].as_ptr());
}

#[test]
fn headers_of_pgm() {
    let zeros = "0".repeat(300);
    for header in [
        "P5 5 1 255\n",
        "P5\t5\r1\n255\t",
        "P5 \t\n\r5\r\n1  255 ",
        // a comment is a separator, and its end too, be it LF or CR
        "P5#a\r5#b\n1 \t255 ",
        "P5#\n#\r #P5 1 1 255 \n5 #1\n#\n1#255\r255\r",
        "P5 0005 01 0255\n",
        &format!("P5 {zeros}5 {zeros}1 {zeros}255\n"),
    ] {
        let read = read_pgm(&[header.as_bytes(), &ROW].concat());
        assert_eq!(read, (Size { width: 5, height: 1 }, ROW.to_vec()), "{header}");
    }
    // all behind the first white byte is pixels
    for (file, pixels) in [("P5 1 1 255 #", "#"), ("P5 3 1 255 #c\n", "#c\n"), ("P5 1 2 255\r\n7", "\n7")] {
        assert_eq!(read_pgm(file.as_bytes()).1, pixels.as_bytes(), "{file}");
    }
}

#[test]
fn pictures_as_pgm() {
    // 3 by 2 with 2 bytes of padding and one behind
    let bytes = [1, 2, 3, 99, 99, 4, 5, 6, 99];
    let mut out = [7; 20];
    assert_eq!(pgm::write(Gray8View::new(&bytes, 3, 2, 5).unwrap(), &mut out), Ok(17));
    assert_eq!(&out, b"P5\n3\n2\n255\n\x01\x02\x03\x04\x05\x06\x07\x07\x07");
    // no number has a leading zero
    for (height, header) in [(9, "P5\n1\n9\n255\n"), (10, "P5\n1\n10\n255\n"), (100, "P5\n1\n100\n255\n")] {
        let mut out = [7; 120];
        let length = pgm::write(Gray8View::new(&[8; 100], 1, height, 1).unwrap(), &mut out).unwrap();
        assert_eq!(&out[..length], [header.as_bytes(), &vec![8; height]].concat());
    }
    // the largest has the longest header
    let largest: Vec<u8> = (0..1024 * 1024).map(|place| (place % 251) as u8).collect();
    let mut out = vec![7; pgm::LONGEST_HEADER + largest.len()];
    assert_eq!(pgm::write(Gray8View::new(&largest, 1024, 1024, 1024).unwrap(), &mut out), Ok(out.len()));
    assert_eq!(&out[..17], b"P5\n1024\n1024\n255\n");
    assert!(read_pgm(&out) == (Size { width: 1024, height: 1024 }, largest));
}
