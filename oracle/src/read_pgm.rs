//! The reader of PGM files on hostile ones: headers of good and bad parts, every change of a byte, every part that ends
//! early, all short files of some bytes, and both sides of every limit; against the plain restatement in `pgm`, as the
//! Rust original has no such call.

use crate::case::{Case, Tally, Verdict};
use crate::ffi::smear_read_pgm;
use crate::pgm;
use crate::random::Random;
use std::fmt;

/// A file's bytes; printed as text, and of a long one the front alone.
#[derive(Clone, PartialEq)]
struct File(Vec<u8>);

impl fmt::Debug for File {
    fn fmt(&self, f: &mut fmt::Formatter<'_>) -> fmt::Result {
        write!(f, "{} bytes: {}", self.0.len(), self.0[..self.0.len().min(1000)].escape_ascii())
    }
}

/// What stands in the out-parameters before the call.
const OLD: [usize; 3] = [usize::MAX, usize::MAX - 1, usize::MAX - 2];

/// What a call leaves behind: the number that it returns, and width, height and start.
pub fn ours(file: &[u8]) -> (u8, [usize; 3]) {
    let [mut width, mut height, mut start] = OLD;
    let code = unsafe { smear_read_pgm(file.as_ptr(), file.len(), &mut width, &mut height, &mut start) };
    (code, [width, height, start])
}

/// The same by the restatement.
fn restated(file: &[u8]) -> (u8, [usize; 3]) {
    match pgm::read(file) {
        Ok((width, height, start)) => (0, [width, height, start]),
        Err(number) => (number, OLD),
    }
}

impl Case for File {
    fn check(&self) -> Verdict {
        let file = self.0.clone();
        let (answer, expected) = (ours(&file), restated(&file));
        if file != self.0 {
            return Verdict::Differs("the file was changed".into());
        }
        if answer != expected {
            return Verdict::Differs(format!("answer {answer:?}, not {expected:?}"));
        }
        if answer.0 == 0 { Verdict::Alike } else { Verdict::Refused }
    }

    /// Without a part, and with plainer bytes.
    fn smaller(&self) -> Vec<Self> {
        let bytes = &self.0;
        let mut out = Vec::new();
        let parts = [bytes.len() / 2, bytes.len() / 8, 1];
        // few enough of them
        for part in parts.into_iter().filter(|&part| part > 0 && bytes.len() <= 1000 * part) {
            for start in (0..bytes.len()).step_by(part) {
                out.push([&bytes[..start], &bytes[bytes.len().min(start + part)..]].concat());
            }
        }
        for place in 0..bytes.len().min(1000) {
            for plain in [b'1', b' '].into_iter().filter(|_| !b"1 ".contains(&bytes[place])) {
                let mut next = bytes.clone();
                next[place] = plain;
                out.push(next);
            }
        }
        out.into_iter().map(Self).collect()
    }
}

fn one_of<'a>(random: &mut Random, parts: &[&'a [u8]]) -> &'a [u8] {
    parts[random.below(parts.len() as u64) as usize]
}

const WHITE: [&[u8]; 4] = [b" ", b"\t", b"\n", b"\r"];
const NO_MAGIC: [&[u8]; 8] = [b"", b"P", b"P2", b"P6", b"p5", b"5P", b" P5", b"P5\0"];
/// What separates nothing: bytes that are white to others, and comments without an end.
const NO_SEPARATOR: [&[u8]; 14] = [
    b"", b"\x0B", b"\x0C", b"\0", b"\x85", b"\xA0", b"\xC2\xA0", b"\x1A", b",", b"x", b"\\n", b"#", b"# no end", b"//",
];
const NO_NUMBER: [&[u8]; 8] = [b"", b"-1", b"+1", b"1.0", b"1e1", b"0x1", b"\xEF\xBC\x91", b"one"];
/// Sides at the limits and beyond: also 2^32, 2^64 and 2^65 with 5 more, and 1 with many zeros.
const SIDES: [&[u8]; 14] = [
    b"0", b"00", b"1", b"1023", b"1024", b"1025", b"2048", b"9999", b"65536", b"4294967301", b"18446744073709551616",
    b"18446744073709551621", b"36893488147419103237", b"10000000000000000000000000",
];
/// Maxima that are not read: also 2^8, 2^16, 2^32 and 2^64 with 255 more.
const MAXIMA: [&[u8]; 12] = [
    b"0", b"1", b"25", b"254", b"256", b"511", b"2550", b"65535", b"65791", b"4294967551", b"18446744073709551871",
    b"1000000000000000000255",
];
/// What does not end a header as it should: CR LF and two blanks have a pixel in them.
const NO_END: [&[u8]; 9] = [b"", b"#\n", b"#c\r", b"\x0B", b"\0", b"x", b"-", b"\r\n", b"  "];

/// Whether a part of a header is to be a bad one: not often, as a header has eight.
fn bad(random: &mut Random) -> bool {
    random.below(16) == 0
}

fn separator(random: &mut Random) -> Vec<u8> {
    let mut out = Vec::new();
    let damaged = bad(random);
    for _ in 0..1 + random.below(3) {
        if random.below(3) > 0 {
            out.extend(one_of(random, &WHITE));
            continue;
        }
        out.push(b'#');
        let length = [0, 1, 3, 20, 300][random.below(5) as usize];
        out.extend((0..length).map(|_| random.below(256) as u8).filter(|byte| !b"\n\r".contains(byte)));
        out.extend(one_of(random, &WHITE[2..]));
    }
    if damaged {
        let place = random.below(out.len() as u64 + 1) as usize;
        let part = one_of(random, &NO_SEPARATOR);
        // in place of the separator, or somewhere in it
        out = if random.below(2) == 0 { part.to_vec() } else { [&out[..place], part, &out[place..]].concat() };
    }
    out
}

/// A number's text; leading zeros do not matter.
fn number(random: &mut Random, plain: &[u8]) -> Vec<u8> {
    if bad(random) && random.below(2) == 0 {
        return one_of(random, &NO_NUMBER).to_vec();
    }
    let zeros = [0, 0, 0, 1, 2, 25, 400][random.below(7) as usize];
    [&vec![b'0'; zeros][..], plain].concat()
}

fn side(random: &mut Random, value: u64) -> Vec<u8> {
    let digits = value.to_string().into_bytes();
    let long: Vec<u8> = (0..200).map(|_| b'0' + random.below(10) as u8).collect();
    let plain: &[u8] = match (bad(random), random.below(8)) {
        (false, _) => &digits,
        (true, 0) => &long,
        (true, _) => one_of(random, &SIDES),
    };
    number(random, plain)
}

fn pixels(random: &mut Random, count: u64) -> Vec<u8> {
    (0..count).map(|_| random.below(256) as u8).collect()
}

/// A file of which most parts are good.
fn file(random: &mut Random) -> Vec<u8> {
    let (width, height) = (1 + random.below(6), 1 + random.below(4));
    let magic: &[u8] = if bad(random) { one_of(random, &NO_MAGIC) } else { b"P5" };
    let maximum: &[u8] = if bad(random) { one_of(random, &MAXIMA) } else { b"255" };
    let mut out = magic.to_vec();
    for number in [side(random, width), side(random, height), number(random, maximum)] {
        out.extend(separator(random));
        out.extend(number);
    }
    out.extend(if bad(random) { one_of(random, &NO_END) } else { one_of(random, &WHITE) });
    let surplus = [0, 0, 0, 0, 0, 0, 0, 0, 1, width][random.below(10) as usize];
    let missing = [0, 0, 0, 0, 0, 0, 0, 0, 1, width][random.below(10) as usize];
    out.extend(pixels(random, width * height + surplus - missing));
    out
}

/// A file that is read.
fn good(random: &mut Random) -> Vec<u8> {
    let mut files = std::iter::repeat_with(|| file(random));
    files.find(|file| file.len() < 60 && pgm::read(file).is_ok()).expect("files do not end")
}

/// Headers made of parts, most of them good.
pub fn headers(random: &mut Random, inputs: usize, tally: &mut Tally) {
    for _ in 0..inputs {
        tally.check(File(file(random)));
    }
}

/// Every change of one byte of files that are read: another in its place, one put before it, and it left out.
pub fn changes(random: &mut Random, inputs: usize, tally: &mut Tally) {
    let mut left = inputs as i64;
    while left > 0 {
        let file = good(random);
        left -= 512 * file.len() as i64;
        for place in 0..file.len() {
            let (before, behind) = file.split_at(place);
            tally.check(File([before, &behind[1..]].concat()));
            for byte in 0..=255 {
                tally.check(File([before, &[byte], behind].concat()));
                if byte != file[place] {
                    tally.check(File([before, &[byte], &behind[1..]].concat()));
                }
            }
        }
    }
}

/// Every part of files that are read which ends early, and what is one byte longer.
pub fn prefixes(random: &mut Random, inputs: usize, tally: &mut Tally) {
    let mut left = inputs as i64;
    while left > 0 {
        let mut file = good(random);
        left -= file.len() as i64 + 2;
        file.push(random.below(256) as u8);
        (0..=file.len()).for_each(|end| tally.check(File(file[..end].to_vec())));
    }
}

/// Every file of up to seven of some parts behind the first separator.
pub fn short(_: &mut Random, _: usize, tally: &mut Tally) {
    const PARTS: [&[u8]; 5] = [b" ", b"\r", b"#", b"1", b"255"];
    let mut files = vec![b"P5\n".to_vec()];
    for _ in 0..=7 {
        files.iter().for_each(|file| tally.check(File(file.clone())));
        files = files.iter().flat_map(|file| PARTS.map(|part| [file, part].concat())).collect();
    }
}

/// Files at and beyond the limits, each with the number that the document's own words state.
pub fn limits(random: &mut Random, _: usize, tally: &mut Tally) {
    let mut stated = |file: &[u8], number| {
        assert_eq!(pgm::read(file).err().unwrap_or(0), number, "the restatement of {:?}", File(file.to_vec()));
        tally.check(File(file.to_vec()));
    };
    for (file, number) in [
        (&b"P5 0 1 255"[..], 14),
        (b"P5 1 1 255#", 14),
        (b"P5 1 1 255#\nx", 14),
        (b"P5 1 1 255 #", 0),
        (b"P5 1 1 #255 ", 14),
        (b"P5#a\r5#b\n1 \t255 \x0A\x0A\x28\x0A\x0A", 0),
        (b"P5 0 1025 7\n", 1),
        (b"P5 1025 1 7\n", 2),
        (b"P5 1 1 255\r\nx", 16),
        (b"P5 2 1 255\r\nx", 0),
    ] {
        stated(file, number);
    }
    // 2^64, and 2^64 with 5, 255 and 1,024 more
    const LONG: [&str; 4] =
        ["18446744073709551616", "18446744073709551621", "18446744073709551871", "18446744073709552640"];
    let nines = "9".repeat(300);
    let sides = [("0", 0), ("000", 0), ("1", 1), ("0005", 5), ("1023", 1023), ("1024", 1024), ("01024", 1024)];
    let beyond = ["1025", "001025", "10240", &nines].into_iter().chain(LONG).map(|text| (text, 1025));
    let sides: Vec<(&str, usize)> = sides.into_iter().chain(beyond).collect();
    let maxima = ["255", "0255", "0", "1", "254", "256", "65535", &nines].into_iter().chain(LONG);
    let bytes = pixels(random, 1024 * 1024 + 1);
    for (maximum, place) in maxima.zip(0..) {
        for &(text, width) in &sides {
            for &(other, height) in &sides {
                let count = if width.max(height) <= 1024 { width * height } else { 9 };
                for held in [count.saturating_sub(1), count, count + 1] {
                    let number = match (width.min(height), width.max(height)) {
                        (0, _) => 1,
                        (_, 1025) => 2,
                        _ if place > 1 => 15,
                        _ if held != count => 16,
                        _ => 0,
                    };
                    let header = format!("P5 {text}\t{other}\r{maximum}\n");
                    stated(&[header.as_bytes(), &bytes[..held]].concat(), number);
                }
            }
        }
    }
}
