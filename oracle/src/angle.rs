//! Direction from an angle: every kind of double, each snap boundary and the last angle that has a direction by single
//! steps. Beyond that one the Rust, which has a direction for every angle, is not asked: the answer must be none.

use crate::case::{Case, Tally, Verdict};
use crate::degrees::{around, far, Angle, BEYOND, LAST};
use crate::ffi::smear_direction_from_angle;
use crate::random::Random;
use qr_lab_imgproc::blur::RasterDirection4;

/// The direction's number in document 01's order.
pub fn number(direction: RasterDirection4) -> u8 {
    match direction {
        RasterDirection4::Horizontal => 0,
        RasterDirection4::DownRight => 1,
        RasterDirection4::Vertical => 2,
        RasterDirection4::DownLeft => 3,
    }
}

/// The number of an angle's direction, by the Rust; 4 where there is none.
fn snapped(radians: f64) -> u8 {
    Angle::of(radians).map_or(4, |angle| number(angle.direction()))
}

#[derive(Clone, Debug)]
struct Snap(f64);

impl Case for Snap {
    fn check(&self) -> Verdict {
        let ours = unsafe { smear_direction_from_angle(self.0) };
        match snapped(self.0) {
            expected if ours != expected => {
                Verdict::Differs(format!("bits {:#018x}: {ours}, not {expected}", self.0.to_bits()))
            }
            4 => Verdict::NoDirection,
            _ => Verdict::Alike,
        }
    }

    fn smaller(&self) -> Vec<Self> {
        Vec::new()
    }
}

/// Angles with their direction's number by the documents' own words.
const STATED: [(f64, u8); 14] = [
    (0.39, 0),
    (0.40, 1),
    (-1.0, 3),
    (3.0, 0),
    (1e306, 2),
    (LAST, 1),
    (-LAST, 3),
    (BEYOND, 4),
    (1e307, 4),
    (f64::MAX, 4),
    (f64::MIN, 4),
    (f64::INFINITY, 4),
    (f64::NEG_INFINITY, 4),
    (f64::NAN, 4),
];

pub fn compare(random: &mut Random, count: usize, tally: &mut Tally) {
    for (angle, direction) in STATED {
        assert_eq!(snapped(angle), direction, "the direction of {angle:e}");
        tally.check(Snap(angle));
    }
    for special in [0.0, -0.0, f64::MIN_POSITIVE] {
        tally.check(Snap(special));
    }
    // multiples of 22.5 degrees, the odd ones being the boundaries of the snap, over several turns and both signs
    for k in -64i32..=64 {
        let boundary = f64::from(k) * std::f64::consts::PI / 8.0;
        around(boundary, 500).for_each(|angle| tally.check(Snap(angle)));
    }
    // subnormals
    around(f64::from_bits(1000), 1000).for_each(|angle| tally.check(Snap(angle)));
    // the last angles that have a direction, and the first that have none
    for last in [LAST, -LAST] {
        around(last, 500).for_each(|angle| tally.check(Snap(angle)));
    }
    // an angle costs little: sixty for each input of another call
    for _ in 0..20 * count {
        tally.check(Snap(f64::from_bits(random.bits())));
        tally.check(Snap((random.unit() - 0.5) * 20.0));
        tally.check(Snap(far(random)));
    }
}
