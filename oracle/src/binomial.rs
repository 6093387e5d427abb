//! The binomial unsharp: every destination byte, also those that must not change.

use crate::case::{Case, Tally, Verdict};
use crate::ffi::smear_fixed_binomial_unsharp;
use crate::picture::{size, Picture};
use crate::random::Random;
use qr_lab_image::Gray8ViewMut;
use qr_lab_imgproc::sharpen;

#[derive(Clone, Debug)]
struct Binomial {
    source: Picture,
    destination: Picture,
    scratch: usize,
}

impl Binomial {
    fn refusal(&self) -> u8 {
        let (s, d) = (&self.source, &self.destination);
        match s.refusal() {
            0 if d.refusal() != 0 => 5,
            0 if (s.width, s.height) != (d.width, d.height) => 6,
            0 if self.scratch < s.width * s.height => 10,
            number => number,
        }
    }
}

impl Case for Binomial {
    fn check(&self) -> Verdict {
        let (s, d) = (&self.source, &self.destination);
        let mut ours = d.data.clone();
        let mut scratch = vec![0xA5A5u16; self.scratch];
        let code = unsafe {
            smear_fixed_binomial_unsharp(
                s.data.as_ptr(), s.data.len(), s.width, s.height, s.stride,
                ours.as_mut_ptr(), ours.len(), d.width, d.height, d.stride,
                scratch.as_mut_ptr(), scratch.len(),
            )
        };
        if code != self.refusal() {
            return Verdict::Differs(format!("refusal {code}, not {}", self.refusal()));
        }
        if code != 0 {
            return if ours == d.data && scratch.iter().all(|&v| v == 0xA5A5) {
                Verdict::Refused
            } else {
                Verdict::Differs("a refusal changed something".into())
            };
        }
        let mut theirs = d.data.clone();
        let view = Gray8ViewMut::new(&mut theirs, d.width, d.height, d.stride).expect("an accepted layout");
        sharpen::fixed_binomial_unsharp_into(s.view(), view, &mut Default::default()).expect("an accepted call");
        match ours.iter().zip(&theirs).position(|(a, b)| a != b) {
            None => Verdict::Alike,
            Some(place) => Verdict::Differs(format!("byte {place} is {}, the Rust's {}", ours[place], theirs[place])),
        }
    }

    fn smaller(&self) -> Vec<Self> {
        self.source
            .smaller()
            .into_iter()
            .map(|source| {
                let destination =
                    Picture { data: vec![0; source.width * source.height], stride: source.width, ..source };
                Self { scratch: source.width * source.height, source, destination }
            })
            .collect()
    }
}

pub fn compare(random: &mut Random, count: usize, tally: &mut Tally) {
    for _ in 0..count {
        let (width, height) = size(random);
        let mut source = Picture::random(random, width, height);
        let mut destination = Picture::random(random, width, height);
        let mut scratch = width * height + random.below(3) as usize;
        match random.below(24) {
            0 => source = source.damaged(random),
            1 => destination = destination.damaged(random),
            2 => destination = Picture::random(random, width + 1, height),
            3 => destination = Picture::random(random, width, height + 1),
            4 => scratch = width * height - 1,
            _ => {}
        }
        tally.check(Binomial { source, destination, scratch });
    }
    for (width, height) in [(1024, 1024), (1024, 1), (1, 1024), (1021, 1023)] {
        let (source, destination) = (Picture::random(random, width, height), Picture::random(random, width, height));
        tally.check(Binomial { source, destination, scratch: width * height });
    }
}
