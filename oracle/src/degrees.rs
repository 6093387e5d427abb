//! Which angles have a direction (document 02, K7): those whose value in degrees is finite. The Rust has one for every
//! angle. The comparison of call sites and the bench use this file too.

use crate::random::Random;
use qr_lab_imgproc::blur::RasterDirection4;

/// The last double that has a direction.
pub const LAST: f64 = f64::from_bits(0x7f91_df46_a252_9d38);
/// The next, which has none.
pub const BEYOND: f64 = f64::from_bits(0x7f91_df46_a252_9d39);

/// An angle that has a direction. Runs against the Rust take one: only `differences` asks it about another.
#[derive(Clone, Copy, Debug)]
pub struct Angle(f64);

impl Angle {
    /// None where the angle or its value in degrees is not finite.
    pub fn of(radians: f64) -> Option<Self> {
        (radians * 57.29577951308232).is_finite().then_some(Self(radians))
    }

    /// One that snaps to the direction.
    pub fn along(direction: RasterDirection4) -> Self {
        Self(match direction {
            RasterDirection4::Horizontal => 0.0,
            RasterDirection4::DownRight => 0.75,
            RasterDirection4::Vertical => 1.5,
            RasterDirection4::DownLeft => 2.25,
        })
    }

    pub fn radians(self) -> f64 {
        self.0
    }

    /// The Rust's direction.
    pub fn direction(self) -> RasterDirection4 {
        RasterDirection4::from_angle(self.0)
    }
}

/// The doubles around one, `steps` single steps either way.
pub fn around(centre: f64, steps: u64) -> impl Iterator<Item = f64> {
    let bits = centre.to_bits();
    (bits.saturating_sub(steps)..=bits.saturating_add(steps)).map(f64::from_bits)
}

/// A double of either sign where angles cease to have a direction: about the last that has one, a little below it, any
/// beyond it, or no finite one.
pub fn far(random: &mut Random) -> f64 {
    let last = LAST.to_bits();
    let radians = f64::from_bits(match random.below(4) {
        0 => last - 4 + random.below(9),
        1 => last - random.below(1 << 50),
        2 => last + 1 + random.below(f64::MAX.to_bits() - last),
        _ => [f64::INFINITY, f64::NAN][random.below(2) as usize].to_bits(),
    });
    if random.below(2) == 0 { radians } else { -radians }
}
