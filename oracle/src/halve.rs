//! Halvings: the single call and as many as stated, against the Rust's one, which runs again on its own answer for each
//! further halving. Every destination byte is compared, also those that must not change; the numbers of refusals are
//! those of a plain chain, which must have 18 where the Rust has nothing to answer.

use crate::case::{Case, Tally, Verdict};
use crate::ffi::{smear_box_downscale_half, smear_halve};
use crate::lent::Lent;
use crate::picture::{size, Picture};
use crate::random::Random;
use qr_lab_imgproc::internal::box_downscale_half;

/// The most halvings of a call (document 02, K8); the Rust has no limit.
const MOST: usize = 10;
/// What stands in the scratch before a call, and around what is lent.
const OLD: u8 = 0xA5;
const GUARD: u8 = 0x5A;

#[derive(Clone, Copy, Debug)]
enum Call {
    /// The single call, which has no scratch.
    Once,
    Times { count: usize, scratch: usize },
}

impl Call {
    fn count(self) -> usize {
        match self {
            Self::Once => 1,
            Self::Times { count, .. } => count,
        }
    }
}

#[derive(Clone, Debug)]
struct Halving {
    source: Picture,
    destination: Picture,
    call: Call,
}

/// The sides that are left, each floored; none where a halving would start from a side below 2, or there are too many.
pub fn left((width, height): (usize, usize), count: usize) -> Option<(usize, usize)> {
    match count {
        0 => Some((width, height)),
        1..=MOST if width > 1 && height > 1 => left((width / 2, height / 2), count - 1),
        _ => None,
    }
}

/// The Rust's picture after so many halvings; none where one of them has none.
pub fn theirs(source: &Picture, count: usize) -> Option<Picture> {
    (0..count).try_fold(source.clone(), |picture, _| {
        box_downscale_half(&picture.view()).map(|(data, width, height)| Picture { data, width, height, stride: width })
    })
}

impl Halving {
    /// With a tight destination and scratch that fit; of one pixel where no destination does.
    fn times(source: Picture, count: usize) -> Self {
        let (width, height) = left((source.width, source.height), count).unwrap_or((1, 1));
        let destination = Picture { data: vec![OLD; width * height], width, height, stride: width };
        let scratch = source.width * source.height;
        Self { source, destination, call: Call::Times { count, scratch } }
    }

    fn once(source: Picture) -> Self {
        Self { call: Call::Once, ..Self::times(source, 1) }
    }

    /// Document 02's order: 1 to 4, 18, 5, 6, 10.
    fn refusal(&self) -> u8 {
        let (s, d) = (&self.source, &self.destination);
        let last = match s.refusal() {
            0 => left((s.width, s.height), self.call.count()),
            number => return number,
        };
        match (last, self.call) {
            (None, _) => 18,
            _ if d.refusal() != 0 => 5,
            (Some(sides), _) if sides != (d.width, d.height) => 6,
            (_, Call::Times { scratch, .. }) if scratch < s.width * s.height => 10,
            _ => 0,
        }
    }

    /// The destination's bytes after the call, or the number of its refusal.
    fn expected(&self) -> Result<Vec<u8>, u8> {
        let (number, count) = (self.refusal(), self.call.count());
        if self.source.refusal() != 0 || count > MOST {
            return Err(number);
        }
        let halved = theirs(&self.source, count);
        assert_eq!(number == 18, halved.is_none(), "18 is where the Rust has None: {self:?}");
        match halved {
            Some(halved) if number == 0 => Ok(self.destination.painted(&halved.pixels())),
            _ => Err(number),
        }
    }

    /// What the call answers on such bytes of the source, and what it was lent: destination and scratch.
    fn ours(&self, source: &[u8]) -> (u8, Lent<u8>, Lent<u8>) {
        let (s, d) = (&self.source, &self.destination);
        let room = if let Call::Times { scratch, .. } = self.call { scratch } else { 0 };
        let (mut out, mut scratch) = (Lent::of(d.data.clone(), GUARD), Lent::new(room, OLD, GUARD));
        let ((to, to_len), (lent, lent_len)) = (out.part(), scratch.part());
        let code = match self.call {
            Call::Once => unsafe {
                smear_box_downscale_half(
                    source.as_ptr(), source.len(), s.width, s.height, s.stride,
                    to, to_len, d.width, d.height, d.stride,
                )
            },
            Call::Times { count, .. } => unsafe {
                smear_halve(
                    source.as_ptr(), source.len(), s.width, s.height, s.stride,
                    to, to_len, d.width, d.height, d.stride, count, lent, lent_len,
                )
            },
        };
        (code, out, scratch)
    }
}

impl Case for Halving {
    fn check(&self) -> Verdict {
        let (expected, source) = (self.expected(), self.source.data.clone());
        let (code, out, scratch) = self.ours(&source);
        let number = expected.as_ref().err().copied().unwrap_or(0);
        if code != number {
            return Verdict::Differs(format!("answer {code}, not {number}"));
        }
        if !out.is_guarded() || !scratch.is_guarded() || source != self.source.data {
            return Verdict::Differs("bytes of the source, or around what is lent, were changed".into());
        }
        let Ok(theirs) = expected else {
            return if out.is_kept() && scratch.is_kept() {
                Verdict::Refused
            } else {
                Verdict::Differs("a refusal changed something".into())
            };
        };
        match out.now().iter().zip(&theirs).position(|(a, b)| a != b) {
            None => Verdict::Alike,
            Some(place) => {
                Verdict::Differs(format!("byte {place} is {}, the Rust's {}", out.now()[place], theirs[place]))
            }
        }
    }

    /// Simpler pictures halved as often, and the same one less often, into destinations that fit.
    fn smaller(&self) -> Vec<Self> {
        let sources = self.source.smaller().into_iter();
        match self.call {
            Call::Once => sources.map(Self::once).collect(),
            Call::Times { count, .. } => {
                let fewer = (0..count.min(MOST + 1)).map(|fewer| Self::times(self.source.clone(), fewer));
                fewer.chain(sources.map(|source| Self::times(source, count))).collect()
            }
        }
    }
}

/// Noise in a layout with so many bytes between rows and behind the last.
fn laid(random: &mut Random, (width, height): (usize, usize), between: usize, behind: usize) -> Picture {
    let stride = width + between;
    let data = (0..stride * (height - 1) + width + behind).map(|_| random.below(256) as u8).collect();
    Picture { data, width, height, stride }
}

/// Destinations about one that fits: itself, a column or a row more or less, and layouts that are refused.
fn destinations(fitting: &Picture) -> Vec<Picture> {
    let &Picture { ref data, width, height, stride } = fitting;
    let enough = vec![OLD; 4 * (data.len() + 1)];
    let short = data[..stride * (height - 1) + width - 1].to_vec();
    vec![
        fitting.clone(),
        Picture { data: enough.clone(), width: width + 1, height, stride: stride + 1 },
        Picture { data: enough, width, height: height + 1, stride },
        Picture { width: width - 1, ..fitting.clone() },
        Picture { height: height - 1, ..fitting.clone() },
        Picture { data: short, ..*fitting },
        Picture { stride: width - 1, ..fitting.clone() },
        Picture { stride: usize::MAX, height: height + 1, ..fitting.clone() },
        Picture { data: vec![OLD; 1025], width: 1025, height: 1, stride: 1025 },
        Picture { data: Vec::new(), ..*fitting },
    ]
}

/// Every shape of at most 12 pixels a side, by every count and some that are far above the most: in layouts with 0 to 2
/// bytes between rows and 0 to 2 behind the last, with every destination about the one that fits, and with scratch that
/// suffices, is short of a byte, or is none.
pub fn shapes(random: &mut Random, _: usize, tally: &mut Tally) {
    let counts = (0..=MOST + 1).chain([64, 1 << 32, (1 << 32) + 1, usize::MAX]).collect::<Vec<_>>();
    for (width, height) in (1..=12).flat_map(|width| (1..=12).map(move |height| (width, height))) {
        let needed = width * height;
        for &count in &counts {
            let last = left((width, height), count);
            // where no destination fits, one layout is as good as another
            for padding in 0..if last.is_some() { 9 } else { 1 } {
                let source = laid(random, (width, height), padding % 3, padding / 3);
                for destination in destinations(&laid(random, last.unwrap_or((1, 1)), padding / 3, padding % 3)) {
                    let with = |call| Halving { source: source.clone(), destination: destination.clone(), call };
                    for scratch in [needed, needed - 1, 0] {
                        tally.check(with(Call::Times { count, scratch }));
                    }
                    if count == 1 {
                        tally.check(with(Call::Once));
                    }
                }
            }
        }
    }
}

/// How often a picture of that size can be halved.
fn most(size: (usize, usize)) -> usize {
    (0..=MOST).rfind(|&count| left(size, count).is_some()).expect("none at all is possible")
}

/// Any picture, also a large one, halved as often as it can be, less often, or too often; now and then with a layout
/// that is refused, a destination of another size, or too little scratch.
pub fn pictures(random: &mut Random, inputs: usize, tally: &mut Tally) {
    let side = |random: &mut Random, largest| 1 + random.below(largest) as usize;
    for _ in 0..inputs {
        let (width, height) = match random.below(40) {
            0 => (side(random, 1024), side(random, 64)),
            1 => (side(random, 64), side(random, 1024)),
            2..=9 => (side(random, 100), side(random, 100)),
            _ => size(random),
        };
        let most = most((width, height));
        let count = match random.below(16) {
            0 => most + 1,
            1 => random.bits() as usize >> random.below(64),
            _ => random.below(most as u64 + 1) as usize,
        };
        let (across, down) = left((width, height), count).unwrap_or((width, height));
        let mut source = Picture::random(random, width, height);
        let mut destination = Picture::random(random, across, down);
        let mut scratch = width * height + random.below(3) as usize;
        match random.below(24) {
            0 => source = source.damaged(random),
            1 => destination = destination.damaged(random),
            2 => destination = Picture::random(random, across + 1, down),
            3 => destination = Picture::random(random, across, down + 1),
            4 => destination = Picture::random(random, width, height),
            5 => scratch = random.below((width * height) as u64) as usize,
            _ => {}
        }
        let call = if count == 1 && random.below(2) == 0 { Call::Once } else { Call::Times { count, scratch } };
        tally.check(Halving { source, destination, call });
    }
}

/// Every width and every height of thin pictures, and the largest pictures, of which one with a side of 1,023 has no
/// tenth halving: by every count up to one too many.
pub fn sides(random: &mut Random, _: usize, tally: &mut Tally) {
    let thin = (1..=1024).flat_map(|side| [(side, 2), (2, side), (side, 5), (5, side)]);
    let large = [(1024, 1024), (1023, 1024), (1024, 1023), (1023, 1023), (1021, 515), (511, 1024), (1024, 512)];
    for (width, height) in thin.chain(large) {
        let source = Picture::random(random, width, height);
        for count in 0..=most((width, height)) + 1 {
            tally.check(Halving::times(source.clone(), count));
        }
        tally.check(Halving::once(source));
    }
}

/// Pixels that are so much together: as even as can be, and as uneven.
fn four(sum: usize) -> [[u8; 4]; 2] {
    let places = [0, 1, 2, 3];
    [places.map(|place| ((sum + place) / 4) as u8), places.map(|place| sum.saturating_sub(255 * place).min(255) as u8)]
}

/// Every sum of four pixels, with each of the four as the first; alone, and all of them in one picture.
pub fn sums(random: &mut Random, _: usize, tally: &mut Tally) {
    const ACROSS: usize = 48;
    for turn in 0..4 {
        let mut all = laid(random, (2 * ACROSS, 2 * ACROSS), turn, turn);
        for (number, mut block) in (0..=4 * 255).flat_map(four).enumerate() {
            block.rotate_left(turn);
            let first = 2 * (number / ACROSS * all.stride + number % ACROSS);
            for (pixel, behind) in block.into_iter().zip([0, 1, all.stride, all.stride + 1]) {
                all.data[first + behind] = pixel;
            }
            let alone = Picture { data: block.to_vec(), width: 2, height: 2, stride: 2 };
            tally.check(Halving::times(alone.clone(), 1));
            tally.check(Halving::once(alone));
        }
        for count in 0..=most((2 * ACROSS, 2 * ACROSS)) {
            tally.check(Halving::times(all.clone(), count));
        }
        tally.check(Halving::once(all));
    }
}
