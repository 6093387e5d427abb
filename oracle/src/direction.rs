//! Direction from a picture: A, C and E by sums of our own, the direction by the Rust, ties left out.

use crate::angle::number;
use crate::case::{Case, Tally, Verdict};
use crate::ffi::smear_estimate_line_direction;
use crate::picture::{size, Picture};
use crate::random::Random;
use qr_lab_imgproc::blur;

#[derive(Clone, Debug)]
struct Direction(Picture);

/// The tensor's sums over the interior pixels.
pub fn sums(picture: &Picture) -> (i64, i64, i64) {
    let at = |x: usize, y: usize| i64::from(picture.data[y * picture.stride + x]);
    let (mut a, mut c, mut e) = (0, 0, 0);
    for y in 1..picture.height.saturating_sub(1) {
        for x in 1..picture.width.saturating_sub(1) {
            let gx = at(x + 1, y - 1) + 2 * at(x + 1, y) + at(x + 1, y + 1)
                - at(x - 1, y - 1) - 2 * at(x - 1, y) - at(x - 1, y + 1);
            let gy = at(x - 1, y + 1) + 2 * at(x, y + 1) + at(x + 1, y + 1)
                - at(x - 1, y - 1) - 2 * at(x, y - 1) - at(x + 1, y - 1);
            a += gx * gx;
            c += gx * gy;
            e += gy * gy;
        }
    }
    (a, c, e)
}

/// Whether the direction of an accepted picture is a tie, which the Rust decides by its own rounding.
pub fn is_tie(picture: &Picture) -> bool {
    let (a, c, e) = sums(picture);
    2 * c.abs() == (a - e).abs() && a != e
}

impl Case for Direction {
    fn check(&self) -> Verdict {
        let p = &self.0;
        let (mut direction, mut a, mut c, mut e) = (77, 7, 8, 9);
        let code = unsafe {
            smear_estimate_line_direction(
                p.data.as_ptr(), p.data.len(), p.width, p.height, p.stride, &mut direction, &mut a, &mut c, &mut e,
            )
        };
        if code != p.refusal() {
            return Verdict::Differs(format!("refusal {code}, not {}", p.refusal()));
        }
        if code != 0 {
            return match (direction, a, c, e) {
                (77, 7, 8, 9) => Verdict::Refused,
                _ => Verdict::Differs("a refusal wrote an answer".into()),
            };
        }
        if (a, c, e) != sums(p) {
            return Verdict::Differs(format!("sums {:?}, not {:?}", (a, c, e), sums(p)));
        }
        if is_tie(p) {
            return Verdict::LeftOut;
        }
        let theirs = number(blur::estimate_line_direction(p.view()).raster_direction);
        if direction != theirs {
            return Verdict::Differs(format!("direction {direction}, the Rust {theirs}"));
        }
        Verdict::Alike
    }

    fn smaller(&self) -> Vec<Self> {
        self.0.smaller().into_iter().map(Self).collect()
    }
}

pub fn compare(random: &mut Random, count: usize, tally: &mut Tally) {
    for _ in 0..count {
        let (width, height) = size(random);
        let picture = Picture::random(random, width, height);
        let picture = if random.below(10) == 0 { picture.damaged(random) } else { picture };
        tally.check(Direction(picture));
    }
    for (width, height) in [(1024, 1024), (1024, 3), (3, 1024), (1023, 1021)] {
        tally.check(Direction(Picture::random(random, width, height)));
    }
}
