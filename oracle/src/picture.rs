//! Pictures for the comparisons: every shape and kind of content, with padding between rows and behind the last.

use crate::random::Random;
use qr_lab_image::Gray8View;
use std::fmt;

#[derive(Clone)]
pub struct Picture {
    pub data: Vec<u8>,
    pub width: usize,
    pub height: usize,
    pub stride: usize,
}

impl fmt::Debug for Picture {
    fn fmt(&self, f: &mut fmt::Formatter<'_>) -> fmt::Result {
        write!(f, "{} by {}, stride {}, {} bytes", self.width, self.height, self.stride, self.data.len())?;
        if self.data.len() <= 4096 {
            write!(f, ": {:?}", self.data)?;
        }
        Ok(())
    }
}

/// Document 01's refusals 1 to 4 of a layout, 0 where it is accepted.
pub fn layout_refusal(len: usize, width: usize, height: usize, stride: usize) -> u8 {
    if width == 0 || height == 0 {
        return 1;
    }
    if width > 1024 || height > 1024 {
        return 2;
    }
    if stride < width {
        return 3;
    }
    match stride.checked_mul(height - 1).and_then(|rows| rows.checked_add(width)) {
        Some(needed) if needed <= len => 0,
        _ => 4,
    }
}

impl Picture {
    pub fn refusal(&self) -> u8 {
        layout_refusal(self.data.len(), self.width, self.height, self.stride)
    }

    pub fn view(&self) -> Gray8View<'_> {
        Gray8View::new(&self.data, self.width, self.height, self.stride).expect("an accepted layout")
    }

    /// The pixels of an accepted picture, row by row.
    pub fn pixels(&self) -> Vec<u8> {
        (0..self.height).flat_map(|y| self.data[y * self.stride..][..self.width].iter().copied()).collect()
    }

    /// The bytes of an accepted picture with these pixels, row by row, and all else as it is.
    pub fn painted(&self, pixels: &[u8]) -> Vec<u8> {
        let mut bytes = self.data.clone();
        for (y, row) in pixels.chunks_exact(self.width).enumerate() {
            bytes[y * self.stride..][..self.width].copy_from_slice(row);
        }
        bytes
    }

    /// A picture of the given size and any content.
    pub fn random(random: &mut Random, width: usize, height: usize) -> Self {
        let stride = width + if random.below(2) == 0 { 0 } else { random.below(8) as usize };
        let surplus = random.below(6) as usize;
        let len = if height == 0 { surplus } else { stride * (height - 1) + width + surplus };
        let mut data = vec![0; len];
        let content = Content::random(random);
        for (place, byte) in data.iter_mut().enumerate() {
            let (column, row) = (place % stride.max(1), place / stride.max(1));
            // bytes outside the picture are noise: they must never matter
            *byte =
                if column < width && row < height { content.at(random, column, row) } else { random.below(256) as u8 };
        }
        Self { data, width, height, stride }
    }

    /// The same picture with a layout that is at, or beyond, a limit.
    pub fn damaged(mut self, random: &mut Random) -> Self {
        match random.below(9) {
            0 => self.width = 0,
            1 => self.height = 0,
            2 => self.width = 1025 + random.below(3) as usize,
            3 => self.height = 1025 + random.below(3) as usize,
            4 => self.stride = self.width.saturating_sub(1),
            5 => self.stride = usize::MAX - random.below(3) as usize,
            6 => self.stride = usize::MAX / self.height.max(1),
            7 => self.data.truncate((self.stride * (self.height - 1) + self.width).saturating_sub(1)),
            _ => self.data.clear(),
        }
        self
    }

    /// Simpler pictures: fewer rows, fewer columns, no padding, plainer bytes.
    pub fn smaller(&self) -> Vec<Self> {
        if self.refusal() != 0 {
            return Vec::new();
        }
        let mut out = Vec::new();
        let (w, h) = (self.width, self.height);
        for (rows, columns) in [
            (0..h / 2, 0..w),
            (h / 2..h, 0..w),
            (0..h, 0..w / 2),
            (0..h, w / 2..w),
            (0..h - 1, 0..w),
            (1..h, 0..w),
            (0..h, 0..w - 1),
            (0..h, 1..w),
        ] {
            if !rows.is_empty() && !columns.is_empty() && (rows.len() < h || columns.len() < w) {
                let data =
                    rows.flat_map(|y| columns.clone().map(move |x| self.data[y * self.stride + x])).collect::<Vec<_>>();
                out.push(Self {
                    height: data.len() / columns.len(),
                    width: columns.len(),
                    stride: columns.len(),
                    data,
                });
            }
        }
        if self.stride != w || self.data.len() != w * h {
            out.push(Self { data: self.pixels(), width: w, height: h, stride: w });
        }
        if w * h <= 64 {
            for place in 0..self.data.len() {
                for byte in [0, self.data[place] / 2] {
                    if byte != self.data[place] {
                        let mut next = self.clone();
                        next.data[place] = byte;
                        out.push(next);
                    }
                }
            }
        }
        out
    }
}

/// What a picture shows.
enum Content {
    Noise,
    /// Few grey values, so that plateaus are common.
    Steps(u64),
    Equal(u8),
    /// Bars across a step (dx, dy), of a given width, with their ends smeared or sharp.
    Stripes { dx: i64, dy: i64, bar: i64, soft: bool },
    /// A straight ramp.
    Ramp { dx: i64, dy: i64 },
    Saturated,
}

impl Content {
    fn random(random: &mut Random) -> Self {
        let directions = [(1, 0), (0, 1), (1, 1), (1, -1), (2, 1), (1, 2)];
        let (dx, dy) = directions[random.below(6) as usize];
        match random.below(7) {
            0 | 1 => Self::Noise,
            2 => Self::Steps(2 + random.below(5)),
            3 => Self::Equal(random.below(256) as u8),
            4 => Self::Stripes { dx, dy, bar: 1 + random.below(9) as i64, soft: random.below(2) == 0 },
            5 => Self::Ramp { dx: dx * (1 + random.below(60) as i64), dy: dy * (1 + random.below(60) as i64) },
            _ => Self::Saturated,
        }
    }

    fn at(&self, random: &mut Random, column: usize, row: usize) -> u8 {
        let (x, y) = (column as i64, row as i64);
        match *self {
            Self::Noise => random.below(256) as u8,
            Self::Steps(levels) => (random.below(levels) * 255 / (levels - 1)) as u8,
            Self::Equal(value) => value,
            Self::Stripes { dx, dy, bar, soft } => {
                let phase = (x * dx + y * dy).rem_euclid(2 * bar);
                let level = if soft { (phase - bar).abs() * 255 / bar } else if phase < bar { 255 } else { 0 };
                (level.clamp(0, 255)) as u8
            }
            Self::Ramp { dx, dy } => (x * dx + y * dy).clamp(0, 255) as u8,
            Self::Saturated => if random.below(3) == 0 { random.below(256) as u8 } else { 255 * random.below(2) as u8 },
        }
    }
}

/// A size: mostly small, every thin shape, now and then large.
pub fn size(random: &mut Random) -> (usize, usize) {
    let side = |random: &mut Random| 1 + random.below(12) as usize;
    match random.below(40) {
        0..=3 => (1, side(random)),
        4..=7 => (side(random), 1),
        8..=9 => (2, 2),
        10..=11 => (3, 3),
        12..=14 => (1 + random.below(64) as usize, 1 + random.below(64) as usize),
        _ => (side(random), side(random)),
    }
}
