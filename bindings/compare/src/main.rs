//! The same call sites, compiled against the Rust original and against this crate,
//! give the same answers on random pictures, for angles that have a direction.
//! Usage: compare [SEED]. Ends with status 1 at the first difference.

#[allow(dead_code)]
#[path = "../../../oracle/src/degrees.rs"]
mod degrees;
#[allow(dead_code)]
#[path = "../../../oracle/src/picture.rs"]
mod picture;
#[path = "../../../oracle/src/random.rs"]
mod random;
mod settings;

mod theirs {
    use qr_lab_image::{Gray8View, Gray8ViewMut};
    use qr_lab_imgproc::{blur, deblur, internal, sharpen, ImgProcResult};

    fn direction_of(answer: blur::RasterDirection4) -> blur::RasterDirection4 {
        answer
    }

    fn length_of(answer: Option<f64>) -> Option<f64> {
        answer
    }

    fn half_of(src: Gray8View<'_>) -> Option<(Vec<u8>, usize, usize)> {
        internal::box_downscale_half(&src)
    }

    include!("calls.rs");
}

mod ours {
    use smear::{blur, deblur, resize, sharpen, ImgProcResult};
    use smear::{Gray8View, Gray8ViewMut};

    fn direction_of(answer: Option<blur::RasterDirection4>) -> blur::RasterDirection4 {
        answer.expect("an angle that has a direction")
    }

    fn length_of(answer: ImgProcResult<Option<f64>>) -> Option<f64> {
        answer.expect("an angle that has a direction")
    }

    fn half_of(src: Gray8View<'_>) -> Option<(Vec<u8>, usize, usize)> {
        let half = resize::halved_size(src.size(), 1)?;
        let mut out = vec![0; half.width * half.height];
        let dst = Gray8ViewMut::new(&mut out, half.width, half.height, half.width).unwrap();
        resize::box_downscale_half(src, dst).expect("a destination of half the size");
        Some((out, half.width, half.height))
    }

    include!("calls.rs");
}

use degrees::Angle;
use picture::{size, Picture};
use random::Random;
use settings::{Settings, WRAP};

const PICTURES: usize = 500;

fn same(call: &str, number: usize, theirs: String, ours: String) {
    if ours != theirs {
        println!("compare: {call} differs on picture {number}\n  the Rust: {theirs}\n  here:     {ours}");
        std::process::exit(1);
    }
}

/// Where 2|C| = |D| and D is not 0 the Rust follows its own rounding.
fn is_tie(p: &Picture) -> bool {
    let view = smear::Gray8View::new(&p.data, p.width, p.height, p.stride).unwrap();
    let sums = smear::blur::estimate_line_direction(view);
    sums.a != sums.e && 2 * sums.c.abs() == (sums.a - sums.e).abs()
}

fn main() {
    let seed = std::env::args().nth(1).map_or(1, |text| text.parse().expect("a seed is a number"));
    let mut random = Random::new(seed);
    let (mut their_scratch, mut our_scratch) = Default::default();
    let (mut their_room, mut our_room) = Default::default();
    let (mut found, mut accepted, mut with_wrap, mut without_direction) = (0, 0, 0, 0);
    same("defaults", 0, theirs::defaults(), ours::defaults());
    for number in 0..PICTURES {
        let (width, height) = match number % 2 {
            0 => size(&mut random),
            _ => (16 + random.below(80) as usize, 16 + random.below(80) as usize),
        };
        let src = Picture::random(&mut random, width, height);
        let taller = (random.below(16) == 0) as usize;
        let dst = Picture::random(&mut random, width, height + taller);
        let settings = Settings::random(&mut random, width.max(height));
        let damaged = src.clone().damaged(&mut random);
        if damaged.width.max(damaged.height) <= 1024 {
            same("new", number, theirs::layout(&damaged), ours::layout(&damaged));
        }
        same("new", number, theirs::layout(&src), ours::layout(&src));
        if !is_tie(&src) {
            same("estimate_line_direction", number, theirs::direction(&src), ours::direction(&src));
        }
        let (theirs, ours) =
            (theirs::sharpened(&src, &dst, &mut their_room), ours::sharpened(&src, &dst, &mut our_room));
        same("fixed_binomial_unsharp_into", number, theirs, ours);
        same("box_downscale_half", number, theirs::halved(&src), ours::halved(&src));
        if Angle::of(settings.angle).is_none() {
            without_direction += 1;
            continue;
        }
        same("from_angle", number, theirs::snapped(&settings), ours::snapped(&settings));
        let (theirs, ours) = (theirs::lengths(&src, &settings), ours::lengths(&src, &settings));
        found += theirs.contains("Some") as usize;
        same("estimate_line_length", number, theirs, ours);
        if settings.border == WRAP {
            with_wrap += 1;
            continue;
        }
        let (theirs, ours) = (
            theirs::restored(&src, &dst, &settings, &mut their_scratch),
            ours::restored(&src, &dst, &settings, &mut our_scratch),
        );
        accepted += theirs.starts_with("Ok") as usize;
        same("van_cittert_line_into", number, theirs, ours);
        let (theirs, ours) = (
            theirs::unsharpened(&src, &dst, &settings, &mut their_scratch),
            ours::unsharpened(&src, &dst, &settings, &mut our_scratch),
        );
        same("directional_unsharp_line_into", number, theirs, ours);
    }
    println!(
        "compare: the same call sites give the Rust's answers on {PICTURES} pictures \
         ({found} lengths, {accepted} restorations; left out are the line filters of {with_wrap} with Wrap, and what \
         takes an angle of {without_direction} with one that has no direction)"
    );
}
