//! Document 02, K2, from another side: with Wrap a picture whose rows are rotated gives the rotated result along
//! Horizontal. The library's two answers are held to each other; nothing else is asked.

use super::{plain, Call, Filter};
use crate::case::{Case, Tally, Verdict};
use crate::picture::{size, Picture};
use crate::random::Random;

#[derive(Clone, Debug)]
struct Rotated {
    filter: Filter,
    /// By how many places: at most the width.
    by: usize,
}

impl Rotated {
    /// The filter of the picture whose rows are rotated.
    fn other(&self) -> Filter {
        let mut filter = self.filter.clone();
        let Picture { data, width, height, stride } = &mut filter.source;
        data.chunks_mut(*stride).take(*height).for_each(|row| row[..*width].rotate_right(self.by));
        filter
    }
}

impl Case for Rotated {
    fn check(&self) -> Verdict {
        let mut one = self.filter.written();
        if let Ok(pixels) = &mut one {
            pixels.chunks_mut(self.filter.source.width).for_each(|row| row.rotate_right(self.by));
        }
        match (one, self.other().written()) {
            (Err(one), Err(other)) if one == other => Verdict::Refused,
            (Ok(one), Ok(other)) if one == other => Verdict::Wrap,
            (one, other) => Verdict::Differs(format!("the rotated result is {one:?}, that of the rotated {other:?}")),
        }
    }

    fn smaller(&self) -> Vec<Self> {
        let filters = self.filter.smaller().into_iter();
        filters.map(|filter| Self { by: self.by.min(filter.source.width), filter }).collect()
    }
}

fn rotated(random: &mut Random, call: Call, width: usize, height: usize) -> Rotated {
    let angle = [0.0, 3.0][random.below(2) as usize];
    let filter = Filter { angle, border: 3, ..plain(random, call, width, height) };
    Rotated { filter, by: random.below(width as u64 + 1) as usize }
}

pub fn compare(random: &mut Random, count: usize, tally: &mut Tally) {
    let calls = [Call::Restore, Call::Estimate, Call::Unsharp];
    for number in 0..count {
        let (width, height) = size(random);
        tally.check(rotated(random, calls[number % 3], width, height));
    }
    // the longest lines, and windows that go round them twice
    for call in calls {
        let Rotated { filter, by } = rotated(random, call, 1024, 3);
        tally.check(Rotated { filter: Filter { length: 2049, ..filter }, by });
    }
}
