//! The writer of PGM files: any picture and layout, any room for the file, against the plain restatement in `pgm`; and
//! what it writes is read as the same picture.

use crate::case::{Case, Tally, Verdict};
use crate::ffi::smear_write_pgm;
use crate::pgm;
use crate::picture::{size, Picture};
use crate::random::Random;
use crate::read_pgm;

#[derive(Clone, Debug)]
struct Writing {
    picture: Picture,
    /// How many bytes there are for the file.
    room: usize,
}

/// What stands in the room, behind it and in the length before the call.
const OLD: u8 = 0xA5;
const OLD_WRITTEN: usize = usize::MAX - 1;
const BEHIND: usize = 64;

/// The file of an accepted picture.
fn file(picture: &Picture) -> Vec<u8> {
    pgm::written(picture.width, picture.height, &picture.pixels())
}

impl Writing {
    /// The file that is written, or the number of the refusal.
    fn expected(&self) -> Result<Vec<u8>, u8> {
        match self.picture.refusal() {
            0 => Some(file(&self.picture)).filter(|file| file.len() <= self.room).ok_or(5),
            number => Err(number),
        }
    }
}

impl Case for Writing {
    fn check(&self) -> Verdict {
        let Picture { data, width, height, stride } = self.picture.clone();
        let (mut out, mut written) = (vec![OLD; self.room + BEHIND], OLD_WRITTEN);
        let code = unsafe {
            smear_write_pgm(
                data.as_ptr(), data.len(), width, height, stride, out.as_mut_ptr(), self.room, &mut written,
            )
        };
        if data != self.picture.data {
            return Verdict::Differs("the source was changed".into());
        }
        let expected = self.expected();
        let (number, length) = expected.as_ref().map_or_else(|&number| (number, OLD_WRITTEN), |file| (0, file.len()));
        if (code, written) != (number, length) {
            return Verdict::Differs(format!("answer {code} with {written}, not {number} with {length}"));
        }
        let file = expected.unwrap_or_default();
        if let Some(place) = (0..out.len()).find(|&place| out[place] != *file.get(place).unwrap_or(&OLD)) {
            return Verdict::Differs(format!("byte {place} is {}, not {:?}", out[place], file.get(place)));
        }
        if code != 0 {
            return Verdict::Refused;
        }
        let read = read_pgm::ours(&out[..written]);
        if read != (0, [width, height, written - width * height]) {
            return Verdict::Differs(format!("what is written is read as {read:?}"));
        }
        Verdict::Alike
    }

    /// Simpler pictures, with as much room more or less than they need.
    fn smaller(&self) -> Vec<Self> {
        let with_room = |picture: Picture| {
            let room = (self.room + file(&picture).len()).saturating_sub(file(&self.picture).len());
            Self { picture, room }
        };
        self.picture.smaller().into_iter().map(with_room).collect()
    }
}

/// Any picture, or one whose layout is refused, with room for its file, one byte less, or any other.
pub fn pictures(random: &mut Random, inputs: usize, tally: &mut Tally) {
    for _ in 0..inputs {
        let (width, height) = size(random);
        let mut picture = Picture::random(random, width, height);
        let fitting = file(&picture).len();
        let room = match random.below(8) {
            0 => fitting - 1,
            1 => random.below(fitting as u64) as usize,
            2 | 3 => fitting + random.below(40) as usize,
            _ => fitting,
        };
        if random.below(6) == 0 {
            picture = picture.damaged(random);
        }
        tally.check(Writing { picture, room });
    }
}

/// Every width and every height, and the largest picture; with room that fits, and with one byte less.
pub fn sides(random: &mut Random, _: usize, tally: &mut Tally) {
    let sides = (1..=1024).flat_map(|side| [(side, 1), (1, side), (side, 2)]);
    for (width, height) in sides.chain([(1024, 1024), (1000, 1000), (999, 1000)]) {
        let picture = Picture::random(random, width, height);
        let fitting = file(&picture).len();
        for room in [fitting, fitting - 1] {
            tally.check(Writing { picture: picture.clone(), room });
        }
    }
}
