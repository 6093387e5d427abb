//! Each refusal at both sides of its limit, and that none changes a destination.

#[allow(dead_code)]
#[path = "../src/raw.rs"]
mod raw;

use smear::blur::{estimate_line_length, estimate_line_length_with, LineLengthConfig, RasterDirection4};
use smear::deblur::{
    directional_unsharp_line_into, van_cittert_estimate_into, van_cittert_line_into, DeblurWorkspace,
    DirectionalUnsharpConfig, VanCittertConfig,
};
use smear::job::{restore, JobConfig, JobWorkspace};
use smear::pgm;
use smear::resize::{box_downscale_half, halve, halved_size, ResizeWorkspace};
use smear::sharpen::{fixed_binomial_unsharp_into, SharpenWorkspace};
use smear::summary::summarize;
use smear::{FaultyRecord, Gray8View, Gray8ViewMut, ImgProcError, ImgProcResult, LumaError, PgmError, Size};

const BYTES: [u8; 5] = [10, 10, 40, 10, 10];

/// Document 02, K7: the last doubles that have a direction.
const ANGLES: [f64; 3] = [f64::from_bits(0x7f91df46a2529d38), f64::from_bits(0xff91df46a2529d38), 1e306];
/// The next ones and others that have none.
const NO_ANGLES: [f64; 7] = [
    f64::from_bits(0x7f91df46a2529d39),
    f64::from_bits(0xff91df46a2529d39),
    f64::MAX,
    f64::MIN,
    f64::INFINITY,
    f64::NEG_INFINITY,
    f64::NAN,
];

fn layout(len: usize, width: usize, height: usize, stride: usize) -> Result<(), LumaError> {
    let mut bytes = vec![0; len];
    let read = Gray8View::new(&bytes, width, height, stride).map(drop);
    assert_eq!(Gray8ViewMut::new(&mut bytes, width, height, stride).map(drop), read);
    read
}

#[test]
fn layouts() {
    assert_eq!(layout(1, 1, 1, 1), Ok(()));
    assert_eq!(layout(9, 0, 1, 1), Err(LumaError::EmptyDimensions));
    assert_eq!(layout(9, 1, 0, 1), Err(LumaError::EmptyDimensions));
    assert_eq!(layout(1024 * 1024, 1024, 1024, 1024), Ok(()));
    assert_eq!(layout(1025, 1025, 1, 1025), Err(LumaError::DimensionsTooLarge));
    assert_eq!(layout(1025, 1, 1025, 1), Err(LumaError::DimensionsTooLarge));
    assert_eq!(layout(9, 3, 3, 3), Ok(()));
    assert_eq!(layout(9, 3, 3, 2), Err(LumaError::StrideTooSmall));
    assert_eq!(layout(13, 3, 3, 5), Ok(()));
    assert_eq!(layout(12, 3, 3, 5), Err(LumaError::BufferTooSmall));
    assert_eq!(layout(9, 3, 3, usize::MAX), Err(LumaError::BufferTooSmall));
}

/// The smallest view with a byte beside its pixel.
#[test]
fn outside_a_view() {
    let mut bytes = [7, 9];
    let view = Gray8View::new(&bytes, 1, 1, 2).unwrap();
    assert_eq!((view.get(0, 0), view.try_get(0, 0), view.try_get(1, 0), view.row(0)), (7, Some(7), None, &bytes[..1]));
    assert!(std::panic::catch_unwind(|| view.get(1, 0)).is_err());
    assert!(std::panic::catch_unwind(|| view.row(1)).is_err());
    let view = Gray8ViewMut::new(&mut bytes, 1, 1, 2).unwrap();
    assert_eq!((view.get(0, 0), view.row(0)), (7, &[7][..]));
    assert!(std::panic::catch_unwind(|| view.get(1, 0)).is_err());
    assert!(std::panic::catch_unwind(|| view.row(1).len()).is_err());
}

/// A call on the row, into a destination of the given width; a refusal must leave the destination.
fn call<T>(
    width: usize,
    run: impl FnOnce(Gray8View<'_>, Gray8ViewMut<'_>) -> ImgProcResult<T>,
) -> Result<(), ImgProcError> {
    let mut out = vec![77; width];
    let answer = run(Gray8View::new(&BYTES, 5, 1, 5).unwrap(), Gray8ViewMut::new(&mut out, width, 1, width).unwrap());
    assert!(answer.is_ok() || out.iter().all(|&byte| byte == 77), "a refusal changed the destination");
    answer.map(drop)
}

fn restoration(config: VanCittertConfig) -> Result<(), ImgProcError> {
    let answer = call(5, |src, dst| van_cittert_line_into(src, dst, &config, &mut DeblurWorkspace::default()));
    let mut estimates = [0; 5];
    let src = Gray8View::new(&BYTES, 5, 1, 5).unwrap();
    let estimate = van_cittert_estimate_into(src, &mut estimates, &config, &mut DeblurWorkspace::default());
    assert_eq!(estimate.map(drop), answer);
    assert!(answer.is_ok() || estimates == [0; 5]);
    answer
}

fn unsharp(config: DirectionalUnsharpConfig) -> Result<(), ImgProcError> {
    call(5, |src, dst| directional_unsharp_line_into(src, dst, &config, &mut DeblurWorkspace::default()))
}

fn job(config: JobConfig) -> Result<(), ImgProcError> {
    call(5, |src, dst| restore(src, dst, &config, &mut JobWorkspace::default()))
}

#[test]
fn sizes_that_differ() {
    let differ = Err(ImgProcError::DimensionMismatch);
    let config = VanCittertConfig::default();
    assert_eq!(call(4, |src, dst| van_cittert_line_into(src, dst, &config, &mut DeblurWorkspace::default())), differ);
    let config = DirectionalUnsharpConfig::default();
    assert_eq!(
        call(4, |src, dst| directional_unsharp_line_into(src, dst, &config, &mut DeblurWorkspace::default())),
        differ
    );
    assert_eq!(call(4, |src, dst| fixed_binomial_unsharp_into(src, dst, &mut SharpenWorkspace::default())), differ);
    assert_eq!(call(4, |src, dst| restore(src, dst, &JobConfig::default(), &mut JobWorkspace::default())), differ);
    assert_eq!(call(5, |src, dst| fixed_binomial_unsharp_into(src, dst, &mut SharpenWorkspace::default())), Ok(()));
}

#[test]
fn lengths_and_angles() {
    let invalid = Err(ImgProcError::InvalidConfiguration);
    for (blur_length, answer) in
        [(0, invalid), (1, invalid), (2, invalid), (3, Ok(())), (4, invalid), (11, Ok(())), (13, invalid)]
    {
        assert_eq!(restoration(VanCittertConfig { blur_length, ..Default::default() }), answer, "length {blur_length}");
        assert_eq!(
            unsharp(DirectionalUnsharpConfig { blur_length, ..Default::default() }),
            answer,
            "length {blur_length}"
        );
    }
    for (theta_radians, answer) in
        ANGLES.map(|angle| (angle, Ok(()))).into_iter().chain(NO_ANGLES.map(|angle| (angle, invalid)))
    {
        assert_eq!(
            restoration(VanCittertConfig { theta_radians, ..Default::default() }),
            answer,
            "angle {theta_radians}"
        );
        assert_eq!(
            unsharp(DirectionalUnsharpConfig { theta_radians, ..Default::default() }),
            answer,
            "angle {theta_radians}"
        );
    }
}

/// An angle that has no direction is refused behind sizes that differ, and before iterations and room.
#[test]
fn an_angle_among_others() {
    for theta_radians in NO_ANGLES {
        let config = VanCittertConfig { theta_radians, iterations: 23, ..Default::default() };
        assert_eq!(restoration(config), Err(ImgProcError::InvalidConfiguration));
        let src = Gray8View::new(&BYTES, 5, 1, 5).unwrap();
        let estimate = van_cittert_estimate_into(src, &mut [], &config, &mut DeblurWorkspace::default());
        assert_eq!(estimate, Err(ImgProcError::InvalidConfiguration));
        let differ = call(4, |src, dst| van_cittert_line_into(src, dst, &config, &mut DeblurWorkspace::default()));
        assert_eq!(differ, Err(ImgProcError::DimensionMismatch));
    }
}

#[test]
fn angles_of_a_length() {
    let invalid = Err(ImgProcError::InvalidConfiguration);
    let ramp = [0, 0, 0, 50, 100, 150, 200, 250, 250, 250].repeat(3);
    let src = Gray8View::new(&ramp, 10, 3, 10).unwrap();
    // the ramp has at most 6 swings along a direction, and 8 are asked for
    for angle in ANGLES {
        assert_eq!(estimate_line_length(src, angle), Ok(None), "{angle}");
    }
    for angle in NO_ANGLES {
        assert_eq!(estimate_line_length(src, angle), invalid, "{angle}");
        for (minimum_transitions, minimum_amplitude) in [(3, 24), (0, 24), (3, 0)] {
            let thresholds = LineLengthConfig { minimum_transitions, minimum_amplitude };
            assert_eq!(estimate_line_length_with(src, angle, &thresholds), invalid, "{angle}");
        }
    }
}

/// What the C call returns for such bytes as a picture, with room for so many swings. A refusal has changed nothing.
fn length_in_c(bytes: &[u8], [width, height, stride]: [usize; 3], angle: f64, room: usize) -> u8 {
    let old = raw::Swing { width: 77.0, swing: 77 };
    let (mut swings, mut length) = (vec![old; room], 77.0);
    let refusal = unsafe {
        raw::smear_estimate_line_length(
            bytes.as_ptr(), bytes.len(), width, height, stride, angle, 8, 24, swings.as_mut_ptr(), room, &mut length,
        )
    };
    assert!(refusal == 0 || length == 77.0 && swings == vec![old; room]);
    refusal
}

#[test]
fn order_of_refusals_of_a_length_in_c() {
    let bytes = [9; 12];
    for angle in NO_ANGLES {
        for room in [0, 3, 4, 11, 12] {
            assert_eq!(length_in_c(&bytes, [0, 1025, 0], angle, room), 1);
            assert_eq!(length_in_c(&bytes, [1025, 3, 4], angle, room), 2);
            assert_eq!(length_in_c(&bytes, [4, 3, 3], angle, room), 3);
            assert_eq!(length_in_c(&bytes[..11], [4, 3, 4], angle, room), 4);
            assert_eq!(length_in_c(&bytes, [4, 3, 4], angle, room), 7);
            // also where a side is too short for a length
            assert_eq!(length_in_c(&bytes, [2, 2, 2], angle, room), 7);
        }
    }
    for angle in ANGLES {
        assert_eq!(length_in_c(&bytes, [4, 3, 4], angle, 11), 10);
        assert_eq!(length_in_c(&bytes, [4, 3, 4], angle, 12), 0);
    }
}

#[test]
fn factors_and_iterations() {
    let invalid = Err(ImgProcError::InvalidConfiguration);
    // the whole job finds no length in one row: it gets as far as that where its settings are accepted
    let accepted = Err(ImgProcError::NoLength);
    let many = Err(ImgProcError::TooManyIterations);
    for (iterations, answer) in [(0, invalid), (1, Ok(())), (22, Ok(())), (23, many), (usize::MAX, many)] {
        assert_eq!(
            restoration(VanCittertConfig { iterations, ..Default::default() }),
            answer,
            "{iterations} iterations"
        );
        assert_eq!(job(JobConfig { iterations, ..Default::default() }), if answer.is_ok() { accepted } else { answer });
    }
    let above = f64::from_bits(1.0f64.to_bits() + 1);
    for (relaxation, answer) in
        [(-0.0, Ok(())), (1.0, Ok(())), (above, invalid), (-f64::MIN_POSITIVE, invalid), (f64::NAN, invalid)]
    {
        assert_eq!(
            restoration(VanCittertConfig { relaxation, ..Default::default() }),
            answer,
            "relaxation {relaxation}"
        );
        assert_eq!(job(JobConfig { relaxation, ..Default::default() }), if answer.is_ok() { accepted } else { answer });
    }
    let above = f64::from_bits(8.0f64.to_bits() + 1);
    for (gain, answer) in
        [(-0.0, Ok(())), (8.0, Ok(())), (above, invalid), (-f64::MIN_POSITIVE, invalid), (f64::INFINITY, invalid)]
    {
        assert_eq!(unsharp(DirectionalUnsharpConfig { gain, ..Default::default() }), answer, "gain {gain}");
    }
}

#[test]
fn a_short_destination_for_estimates() {
    let src = Gray8View::new(&BYTES, 5, 1, 5).unwrap();
    let run = |out: &mut [i32]| {
        van_cittert_estimate_into(src, out, &VanCittertConfig::default(), &mut DeblurWorkspace::default()).map(drop)
    };
    assert_eq!(run(&mut [0; 5]), Ok(()));
    let mut short = [5; 4];
    assert_eq!(run(&mut short), Err(ImgProcError::DestinationTooSmall));
    assert_eq!(short, [5; 4]);
}

/// 100 by 100 pixels in stripes along the diagonals, so that the smear is along them. The 7 longest diagonals rise by
/// 60 behind place `from`, and by 60 at their end: one swing, as wide as all that lies between.
fn diagonals(from: usize) -> Vec<u8> {
    let at = |x: usize, y: usize| {
        let middle = if (x + 100 - y) / 4 % 2 == 0 { 100 } else { 150 };
        match (x.abs_diff(y) <= 3, x.min(y), x.max(y)) {
            (true, first, _) if first <= from => middle - 60,
            (true, _, 99) => middle + 60,
            _ => middle,
        }
    };
    (0..100 * 100).map(|i| at(i % 100, i / 100)).collect()
}

#[test]
fn a_length_beyond_the_picture() {
    let thresholds = LineLengthConfig { minimum_transitions: 1, ..Default::default() };
    let config = JobConfig { minimum_transitions: 1, ..Default::default() };
    let run = |bytes: &[u8]| {
        let mut out = vec![77; 100 * 100];
        let src = Gray8View::new(bytes, 100, 100, 100).unwrap();
        let dst = Gray8ViewMut::new(&mut out, 100, 100, 100).unwrap();
        let answer = restore(src, dst, &config, &mut JobWorkspace::default());
        assert!(answer.is_ok() || out == vec![77; 100 * 100]);
        (estimate_line_length_with(src, 0.75, &thresholds).unwrap().unwrap(), answer)
    };
    let (length, answer) = run(&diagonals(0));
    assert!(length > 201.0, "{length}");
    assert_eq!(answer, Err(ImgProcError::LengthTooLarge));
    let (length, answer) = run(&diagonals(20));
    assert!(length <= 201.0, "{length}");
    let answer = answer.unwrap();
    assert_eq!((answer.direction, answer.estimate), (RasterDirection4::DownRight, length));
    assert!(
        answer.blur_length % 2 == 1
            && answer.blur_length as f64 >= length
            && (answer.blur_length as f64) < length + 2.0
    );
}

/// A, C and E are 1300, -100 and 500: the confidence lies between 160 and 161 256ths.
const UNCLEAR: [u8; 12] = [0, 0, 0, 0, 0, 10, 10, 0, 0, 0, 10, 0];

/// The whole job with a floor, of a picture that does not show a length: it gets as far as that where the floor is
/// reached.
fn floored(pixels: &[u8], width: usize, minimum_confidence: u16) -> Result<(), ImgProcError> {
    let (height, mut out) = (pixels.len() / width, vec![77; pixels.len()]);
    let src = Gray8View::new(pixels, width, height, width).unwrap();
    let dst = Gray8ViewMut::new(&mut out, width, height, width).unwrap();
    let config = JobConfig { minimum_confidence, ..Default::default() };
    let answer = restore(src, dst, &config, &mut JobWorkspace::default()).map(drop);
    assert!(out.iter().all(|&byte| byte == 77), "a refusal changed the destination");
    answer
}

/// Document 02, K6.
#[test]
fn floors_of_the_confidence() {
    let ramp = [0, 0, 0, 50, 100, 150, 200, 250, 250, 250].repeat(3);
    let spot = [0, 0, 0, 0, 0, 0, 1, 2, 1, 0, 0, 2, 4, 2, 0, 0, 1, 2, 1, 0, 0, 0, 0, 0, 0];
    for (pixels, width, largest) in [
        (&UNCLEAR[..], 4, 160),
        // 16, 0 and 8, where equality is enough
        (&[2, 2, 1, 2, 1, 1, 2, 2, 2, 2, 1, 0, 1, 2, 2, 1], 4, 128),
        (&ramp, 10, 256),
        // a round spot, no gradient at all, and sides below 3
        (&spot, 5, 0),
        (&[7; 9], 3, 0),
        (&BYTES, 5, 0),
        (&ramp[..20], 10, 0),
        (&[0, 0, 50, 100, 150, 150], 2, 0),
    ] {
        for floor in (0..=300).chain([512, 513, u16::MAX]) {
            let answer = if floor <= largest { ImgProcError::NoLength } else { ImgProcError::LowConfidence };
            assert_eq!(floored(pixels, width, floor), Err(answer), "floor {floor} of {pixels:?}");
        }
    }
}

#[test]
fn settings_before_the_floor() {
    let config = JobConfig { minimum_confidence: 300, ..Default::default() };
    assert_eq!(job(config), Err(ImgProcError::LowConfidence));
    assert_eq!(job(JobConfig { iterations: 0, ..config }), Err(ImgProcError::InvalidConfiguration));
    assert_eq!(job(JobConfig { relaxation: 1.5, ..config }), Err(ImgProcError::InvalidConfiguration));
    assert_eq!(job(JobConfig { iterations: 23, ..config }), Err(ImgProcError::TooManyIterations));
    let differ = call(4, |src, dst| restore(src, dst, &config, &mut JobWorkspace::default()));
    assert_eq!(differ, Err(ImgProcError::DimensionMismatch));
}

/// What the C call returns with this floor and so much room. Only 11 may have changed anything, and that only the room.
fn restored_in_c(floor: u16, scratch_len: usize, swings_len: usize) -> u8 {
    let old = raw::Swing { width: 77.0, swing: 77 };
    let (mut out, mut scratch, mut swings) = ([77; 12], vec![77; scratch_len], vec![old; swings_len]);
    let (mut direction, mut blur_length, mut estimate) = (77, 77, 77.0);
    let refusal = unsafe {
        raw::smear_restore(
            UNCLEAR.as_ptr(), 12, 4, 3, 4, out.as_mut_ptr(), 12, 4, 3, 4, 8, 24, floor, 3, 1.0, 0, 0,
            scratch.as_mut_ptr(), scratch_len, swings.as_mut_ptr(), swings_len,
            &mut direction, &mut blur_length, &mut estimate,
        )
    };
    assert_eq!((out, direction, blur_length, estimate), ([77; 12], 77, 77, 77.0));
    assert!(refusal == 11 || scratch == vec![77; scratch_len] && swings == vec![old; swings_len]);
    refusal
}

#[test]
fn room_and_floor_in_c() {
    for (floor, answer) in [(0, 11), (160, 11), (161, 17), (256, 17), (257, 17), (300, 17)] {
        assert_eq!(restored_in_c(floor, 12, 12), answer, "floor {floor}");
        // too little room is refused before the floor
        assert_eq!(restored_in_c(floor, 11, 12), 10);
        assert_eq!(restored_in_c(floor, 12, 11), 10);
    }
}

/// Document 02, K8: a picture of that size halved so often, into a destination of that other size, and for one halving
/// by the single call too; a refusal must leave the destination.
fn halving(src: (usize, usize), count: usize, dst: (usize, usize)) -> Result<(), ImgProcError> {
    let bytes = vec![9; src.0 * src.1];
    let src = Gray8View::new(&bytes, src.0, src.1, src.0).unwrap();
    let into = |run: &dyn Fn(Gray8ViewMut<'_>) -> ImgProcResult<()>| {
        let mut out = vec![77; dst.0 * dst.1];
        let answer = run(Gray8ViewMut::new(&mut out, dst.0, dst.1, dst.0).unwrap());
        assert_eq!(out, vec![if answer.is_ok() { 9 } else { 77 }; dst.0 * dst.1]);
        answer
    };
    let answer = into(&|dst| halve(src, dst, count, &mut ResizeWorkspace::default()));
    assert!(count != 1 || into(&|dst| box_downscale_half(src, dst)) == answer);
    answer
}

#[test]
fn counts_of_halvings() {
    let cannot = Err(ImgProcError::CannotHalve);
    for (src, most, last) in [
        ((1, 1), 0, (1, 1)),
        ((1, 9), 0, (1, 9)),
        ((9, 1), 0, (9, 1)),
        ((2, 9), 1, (1, 4)),
        ((3, 3), 1, (1, 1)),
        ((7, 4), 2, (1, 1)),
        ((1024, 8), 3, (128, 1)),
        ((1023, 1024), 9, (1, 2)),
        ((1024, 1023), 9, (2, 1)),
        ((1024, 1024), 10, (1, 1)),
    ] {
        assert_eq!(halving(src, most, last), Ok(()), "{src:?}");
        // whatever the destination
        for count in [most + 1, 11, 12, 32, 64, 1 << 32, usize::MAX] {
            assert_eq!(halving(src, count, last), cannot, "{src:?}, {count} times");
            assert_eq!(halving(src, count, (3, 5)), cannot, "{src:?}, {count} times");
        }
    }
    assert_eq!(ImgProcError::CannotHalve.to_string(), "more than 10 halvings, or one that starts from a side below 2");
}

/// Each side is halved and floored so often: any other destination is refused.
#[test]
fn destinations_of_halvings() {
    for (width, height) in [(1, 1), (2, 3), (5, 4), (7, 9), (8, 8)] {
        for count in 0..=3 {
            let Some(left) = halved_size(Size { width, height }, count) else { continue };
            for dst in (1..=9).flat_map(|width| (1..=9).map(move |height| Size { width, height })) {
                let answer = if dst == left { Ok(()) } else { Err(ImgProcError::DimensionMismatch) };
                assert_eq!(halving((width, height), count, (dst.width, dst.height)), answer, "{dst:?} for {left:?}");
            }
        }
    }
}

/// What the C calls return for layouts of width, height, stride and bytes, with so many bytes of scratch. A refusal has
/// changed nothing.
fn halved_in_c(src: [usize; 4], dst: [usize; 4], count: usize, scratch_len: usize) -> u8 {
    let (bytes, mut out, mut scratch) = (vec![9; src[3]], vec![77; dst[3]], vec![78; scratch_len]);
    let refusal = unsafe {
        raw::smear_halve(
            bytes.as_ptr(), src[3], src[0], src[1], src[2], out.as_mut_ptr(), dst[3], dst[0], dst[1], dst[2],
            count, scratch.as_mut_ptr(), scratch_len,
        )
    };
    assert!(refusal == 0 || out == vec![77; dst[3]] && scratch == vec![78; scratch_len]);
    refusal
}

/// The same of the single call.
fn half_in_c(src: [usize; 4], dst: [usize; 4]) -> u8 {
    let (bytes, mut out) = (vec![9; src[3]], vec![77; dst[3]]);
    let refusal = unsafe {
        raw::smear_box_downscale_half(
            bytes.as_ptr(), src[3], src[0], src[1], src[2], out.as_mut_ptr(), dst[3], dst[0], dst[1], dst[2],
        )
    };
    assert!(refusal == 0 || out == vec![77; dst[3]]);
    refusal
}

/// Each fault with all later ones beside it: the order is 1 to 4, 18, 5, 6, 10.
#[test]
fn order_of_refusals_of_a_halving_in_c() {
    let refused =
        [[0, 1, 1, 9], [1, 0, 1, 9], [1025, 1, 1025, 1025], [2, 2, 1, 9], [2, 2, 2, 3], [1, 2, usize::MAX, 2]];
    for count in [0, 1, 2, 11, usize::MAX] {
        for dst in refused {
            for (src, number) in [
                ([0, 1025, 0, 0], 1),
                ([4, 0, 4, 16], 1),
                ([1025, 4, 3, 0], 2),
                ([4, 1025, 3, 0], 2),
                ([4, 3, 3, 0], 3),
                ([4, 3, 4, 11], 4),
                ([4, 3, usize::MAX, 99], 4),
            ] {
                assert_eq!((halved_in_c(src, dst, count, 0), half_in_c(src, dst)), (number, number));
            }
            // a height of 3 can be halved once
            let answer = if count > 1 { 18 } else { 5 };
            assert_eq!((halved_in_c([4, 3, 4, 12], dst, count, 0), half_in_c([4, 3, 4, 12], dst)), (answer, 5));
            assert_eq!((half_in_c([1, 4, 1, 4], dst), half_in_c([4, 1, 4, 4], dst)), (18, 18));
        }
        // only a count of 0 has the source's own size, and only one of 1 the half of it
        for (dst, fitting) in [([4, 3, 4, 12], 0), ([2, 1, 2, 2], 1)] {
            for scratch in [0, 11, 12, 13] {
                let answer = match count {
                    2.. => 18,
                    _ if count != fitting => 6,
                    _ if scratch < 12 => 10,
                    _ => 0,
                };
                assert_eq!(halved_in_c([4, 3, 4, 12], dst, count, scratch), answer, "{count} times into {dst:?}");
            }
        }
    }
    assert_eq!((half_in_c([4, 3, 4, 12], [4, 3, 4, 12]), half_in_c([4, 3, 4, 12], [2, 1, 2, 2])), (6, 0));
}

/// A restoration of a 5 by 1 picture: length 3, one iteration, relaxation 1.
const RECORD: [u8; 32] =
    [5, 0, 1, 0, 0, 0, 0, 1, 3, 0, 1, 0, 0, 0, 1, 0, 0, 0, 0, 0, 0, 0, 0, 0, 0, 0, 0, 0, 0, 0, 0, 0];

/// The record with another byte at a place.
fn changed(place: usize, byte: u8) -> [u8; 32] {
    let mut record = RECORD;
    record[place] = byte;
    record
}

/// The record has no place on a sheet, wherever it stands; a later fault does not matter.
fn faulty(record: [u8; 32]) {
    for index in [0, 1, 5] {
        let file = [&RECORD.repeat(index)[..], &record].concat();
        assert_eq!(summarize(&file), Err(FaultyRecord { index }), "{record:?}");
        let file = [&file[..], &RECORD, &[0; 32], &[0; 9]].concat();
        assert_eq!(summarize(&file), Err(FaultyRecord { index }), "{record:?}");
    }
}

#[test]
fn records_that_do_not_read() {
    for (place, byte) in [(0, 0), (1, 4), (2, 0), (4, 4), (5, 4), (6, 1), (7, 0), (7, 3), (7, 4)] {
        faulty(changed(place, byte));
    }
    // an estimate of -0.0 is the last
    for (place, byte) in [(8, 2), (8, 4), (8, 13), (10, 0), (10, 23), (12, 1), (31, 128)] {
        faulty(changed(place, byte));
    }
    faulty([0; 32]);
}

#[test]
fn angles_of_records() {
    let with = |angle: f64| {
        let mut record = RECORD;
        record[16..24].copy_from_slice(&angle.to_le_bytes());
        record
    };
    for angle in ANGLES {
        assert!(summarize(&with(angle)).is_ok(), "{angle}");
    }
    for angle in NO_ANGLES {
        faulty(with(angle));
    }
}

#[test]
fn borders_of_records() {
    // of the four Constant alone, which is 2, has a value
    for border in 0..=5 {
        for value in [0, 7] {
            let mut record = RECORD;
            (record[5], record[6]) = (border, value);
            if border == 2 || border <= 3 && value == 0 {
                assert!(summarize(&record).is_ok(), "{record:?}");
            } else {
                faulty(record);
            }
        }
    }
}

#[test]
fn records_without_a_length() {
    let whole_job = changed(8, 0);
    faulty(whole_job);
    let mut unsharp = whole_job;
    (unsharp[7], unsharp[10]) = (2, 0);
    faulty(unsharp);
}

#[test]
fn a_last_record_that_is_too_short() {
    for index in [0, 1, 3] {
        for length in 1..32 {
            let file = [&RECORD.repeat(index)[..], &RECORD[..length]].concat();
            assert_eq!(summarize(&file), Err(FaultyRecord { index }), "{length} bytes");
        }
        assert!(summarize(&RECORD.repeat(index)).is_ok());
    }
}

#[test]
fn words_for_a_faulty_record() {
    let words = FaultyRecord { index: 7 }.to_string();
    assert_eq!(words, "record 7, counted from 0, has no place on a sheet (refusal 13)");
}

/// The C call with room for so many numbers: what it returns, and what then stands in the room and in the index.
fn summarized(records: &[u8], room: usize) -> (u8, Vec<u64>, usize) {
    let (mut sheet, mut index) = (vec![7; room], 77);
    let refusal =
        unsafe { raw::smear_summarize(records.as_ptr(), records.len(), sheet.as_mut_ptr(), room, &mut index) };
    (refusal, sheet, index)
}

#[test]
fn room_for_a_sheet_in_c() {
    let good = RECORD.repeat(2);
    let faulty = [RECORD, changed(7, 0), RECORD].concat();
    let numbers = [&[2, 6, 3, 3, 0][..], &[0; 16]].concat();
    for room in [0, 1, 20] {
        // too little room is refused before a faulty record
        assert_eq!(summarized(&good, room), (10, vec![7; room], 77));
        assert_eq!(summarized(&faulty, room), (10, vec![7; room], 77));
    }
    for room in [21, 22, 30] {
        assert_eq!(summarized(&good, room), (0, [&numbers[..], &vec![7; room - 21]].concat(), 77));
        // the index is the one thing that a refusal writes
        assert_eq!(summarized(&faulty, room), (13, vec![7; room], 1));
    }
}

/// The C call on a file: what it returns, and what then stands in its out-parameters.
fn read_pgm(file: &[u8]) -> (u8, [usize; 3]) {
    let [mut width, mut height, mut start] = [77, 78, 79];
    let refusal = unsafe { raw::smear_read_pgm(file.as_ptr(), file.len(), &mut width, &mut height, &mut start) };
    (refusal, [width, height, start])
}

/// The file is refused with this number, which the crate says as this error.
fn refused_pgm(file: &[u8], number: u8, error: PgmError) {
    assert_eq!(read_pgm(file), (number, [77, 78, 79]), "{}", file.escape_ascii());
    assert_eq!(pgm::read(file).err(), Some(error), "{}", file.escape_ascii());
}

#[test]
fn headers_that_are_none_of_pgm() {
    let refused = |file: &[u8]| refused_pgm(file, 14, PgmError::InvalidHeader);
    for magic in ["", "P", "5", "p5", "P2", "P4", "P6", "PP5", " P5", "\nP5", "#\nP5"] {
        refused(format!("{magic} 1 1 255 x").as_bytes());
    }
    // of what is between two numbers only these bytes and comments are white
    for byte in 0..=255 {
        let separated = [&b"P5 1"[..], &[byte], b"1 255 x"].concat();
        match byte {
            b' ' | b'\t' | b'\n' | b'\r' => assert_eq!(read_pgm(&separated), (0, [1, 1, 11])),
            // also a digit, which makes one number of two: then x is the maximum
            _ => refused(&separated),
        }
    }
    for file in [
        "P51 1 255 x", "P5x1 1 255 x", "P5 1x 1 255 x", "P5 1 1 0xFF x", "P5 -1 1 255 x", "P5 +1 1 255 x",
        "P5 1,1 255 x", "P5 1. 1 255 x", "P5 1 1 255x", "P5 1 1 255\0x", "P5 1 1 255\x0Bx", "P5 \x0C1 1 255 x",
        // behind the maximum there is no comment
        "P5 1 1 255#", "P5 1 1 255#\nx", "P5 1 1 255#c\n x",
        // comments without an end
        "P5#", "P5 #1 1 255 x", "P5 1 # 1 255 x", "P5 1 1 # 255 x",
    ] {
        refused(file.as_bytes());
    }
}

#[test]
fn every_part_of_a_pgm_file_that_ends_early() {
    let file = b"P5 #c\r5\n1\t255\n\x0A\x0A\x28\x0A\x0A";
    for end in 0..14 {
        refused_pgm(&file[..end], 14, PgmError::InvalidHeader);
    }
    for end in 14..19 {
        refused_pgm(&file[..end], 16, PgmError::PixelCountMismatch);
    }
    assert_eq!(read_pgm(file), (0, [5, 1, 14]));
    refused_pgm(&[&file[..], b"\n"].concat(), 16, PgmError::PixelCountMismatch);
}

#[test]
fn numbers_of_pgm() {
    let empty = PgmError::Layout(LumaError::EmptyDimensions);
    let large = PgmError::Layout(LumaError::DimensionsTooLarge);
    let many = "9".repeat(300);
    // 2^64, and 2^64 with 5, 255 and 1,024 more
    let wrapping = [
        "18446744073709551616", "18446744073709551621", "18446744073709551871", "18446744073709552640", &many,
    ];
    for zero in ["0", "000"] {
        refused_pgm(format!("P5 {zero} 1 255 x").as_bytes(), 1, empty);
        refused_pgm(format!("P5 1 {zero} 255 x").as_bytes(), 1, empty);
    }
    for side in ["1025", "01025", "10240"].iter().chain(&wrapping) {
        refused_pgm(format!("P5 {side} 1 255 x").as_bytes(), 2, large);
        refused_pgm(format!("P5 1 {side} 255 x").as_bytes(), 2, large);
        // a side of 0 comes first
        refused_pgm(format!("P5 {side} 0 255 x").as_bytes(), 1, empty);
        refused_pgm(format!("P5 0 {side} 255 x").as_bytes(), 1, empty);
    }
    for maximum in ["0", "1", "254", "256", "2550", "65535"].iter().chain(&wrapping) {
        refused_pgm(format!("P5 1 1 {maximum} x").as_bytes(), 15, PgmError::UnsupportedMaximum);
    }
    for side in [1023, 1024] {
        let pixels = "x".repeat(side);
        assert_eq!(read_pgm(format!("P5 {side} 1 255 {pixels}").as_bytes()), (0, [side, 1, 14]));
        assert_eq!(read_pgm(format!("P5 1 {side} 255 {pixels}").as_bytes()), (0, [1, side, 14]));
    }
}

/// Document 02's examples of what comes before what.
#[test]
fn order_of_refusals_of_pgm() {
    refused_pgm(b"P5 0 1 255", 14, PgmError::InvalidHeader);
    refused_pgm(b"P5 0 1025 7\n", 1, PgmError::Layout(LumaError::EmptyDimensions));
    refused_pgm(b"P5 1025 1 7\n", 2, PgmError::Layout(LumaError::DimensionsTooLarge));
    refused_pgm(b"P5 1 1 7\n", 15, PgmError::UnsupportedMaximum);
    refused_pgm(b"P5 1 1 255\n", 16, PgmError::PixelCountMismatch);
    refused_pgm(b"P5 1 1 255\r\nx", 16, PgmError::PixelCountMismatch);
}

#[test]
fn room_for_a_pgm_file() {
    let src = Gray8View::new(&BYTES, 5, 1, 5).unwrap();
    for room in 0..16 {
        let mut out = vec![77; room];
        assert_eq!(pgm::write(src, &mut out), Err(PgmError::OutputTooSmall));
        assert_eq!(out, vec![77; room]);
    }
    assert_eq!(pgm::write(src, &mut [77; 16]), Ok(16));
}

#[test]
fn sources_of_a_pgm_file_in_c() {
    // what the call returns, and what then stands in its out-parameter and in the room
    let write = |src: &[u8], width, height, stride, room: usize| {
        let (mut out, mut written) = (vec![77; room], 78);
        let refusal = unsafe {
            raw::smear_write_pgm(
                src.as_ptr(), src.len(), width, height, stride, out.as_mut_ptr(), room, &mut written,
            )
        };
        (refusal, written, out)
    };
    // no room is refused behind the source
    for room in [0, 11, 12, 20] {
        let refused = |number| (number, 78, vec![77; room]);
        assert_eq!(write(&[9; 4], 0, 1025, 0, room), refused(1));
        assert_eq!(write(&[9; 4], 1, 0, 1, room), refused(1));
        assert_eq!(write(&[9; 4], 1025, 1, 1, room), refused(2));
        assert_eq!(write(&[9; 4], 1, 1025, 0, room), refused(2));
        assert_eq!(write(&[9; 4], 2, 3, 1, room), refused(3));
        assert_eq!(write(&[9; 4], 2, 2, 3, room), refused(4));
        assert_eq!(write(&[9; 4], 1, 3, usize::MAX, room), refused(4));
        assert_eq!(write(&[9; 4], 2, 2, 2, room).0, if room < 15 { 5 } else { 0 });
    }
    assert_eq!(write(&[9; 4], 1, 1, 4, 11), (5, 78, vec![77; 11]));
    assert_eq!(write(&[9; 4], 1, 1, 4, 14), (0, 12, b"P5\n1\n1\n255\n\x09MM".to_vec()));
}

/// A null pointer with length 0 is an empty slice.
#[test]
fn nothing_in_c() {
    let [mut width, mut height, mut start, mut written] = [77; 4];
    unsafe {
        assert_eq!(raw::smear_read_pgm(std::ptr::null(), 0, &mut width, &mut height, &mut start), 14);
        let nowhere = std::ptr::null_mut();
        assert_eq!(raw::smear_write_pgm(std::ptr::null(), 0, 1, 1, 1, nowhere, 0, &mut written), 4);
        assert_eq!(raw::smear_write_pgm(BYTES.as_ptr(), 5, 5, 1, 5, nowhere, 0, &mut written), 5);
        assert_eq!(raw::smear_halve(std::ptr::null(), 0, 1, 1, 1, nowhere, 0, 1, 1, 1, 0, nowhere, 0), 4);
        assert_eq!(raw::smear_halve(BYTES.as_ptr(), 5, 5, 1, 5, nowhere, 0, 5, 1, 5, 0, nowhere, 0), 5);
        let mut copy = [77; 5];
        assert_eq!(raw::smear_halve(BYTES.as_ptr(), 5, 5, 1, 5, copy.as_mut_ptr(), 5, 5, 1, 5, 0, nowhere, 0), 10);
        assert_eq!(raw::smear_box_downscale_half(BYTES.as_ptr(), 5, 2, 2, 3, nowhere, 0, 1, 1, 1), 5);
    }
    assert_eq!([width, height, start, written], [77; 4]);
}
